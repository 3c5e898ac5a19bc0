-- Goals for a certificate with lines that cite lemmas: good ones, and bad ones of each kind.
variable (a b c : ℚ) (h : a < b) (g : 0 < c) {R : Type*} [CommRing R] (x : R)
example : 0 + 0 + 0 = 0 + 0 := by norm_num
example : a * b + a * c = a * (b + c) := by norm_num
example : x * x + x * x = x * (x + x) := by norm_num
example : c * a < c * b := by norm_num
example : c * a < c * b := by norm_num
example : c * a < c * b := by norm_num
example : c * a < c * b := by norm_num
example : a + b = b + a := by norm_num
example : c * a < c * b := by norm_num
example : c * a < c * b := by norm_num
example : c * a < c * b := by norm_num
example : c * a < c * b := by norm_num
example : c * a < c * b := by norm_num
example : c * a < c * b := by norm_num
example : c * a < c * b := by norm_num
example : c * a < c * b := by norm_num
example : c * a < c * b := by norm_num
example : c * a < c * b := by norm_num
example : -(2 : ℤ) < 0 := by norm_num
example : x = x := by norm_num
example : c * a < c * b := by norm_num
example : c * a < c * b := by norm_num
example : c * a < c * b := by norm_num
example : b * c < a * c := by norm_num
