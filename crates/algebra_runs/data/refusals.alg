-- Goals for a certificate with each kind of line, and with lines that are refused for each cause.
variable (a : ℕ) (h : a = 2)

example : a = a := by norm_num
example : 2 + 3 = 5 := by norm_num
example : 5 = 2 + 3 := by norm_num
example : 2 + 3 = 2 + 3 := by norm_num
example : 2 + 3 + a = 5 + a := by norm_num
example : 3 < 2 + 3 := by norm_num
example : a + 2 = 2 + a := by norm_num
example : 2 * 2⁻¹ = (1 : ℚ) := by norm_num
example : a = 2 := by norm_num
example : 2 * 3 = 6 := by norm_num
example : 2 ≤ 2 := by norm_num
example : 2 • 3 = 2 * 3 := by norm_num
example : Nat.gcd 4 6 = 2 := by norm_num
example : 2 ∣ 6 := by norm_num
example : a + 0 = 2 := by norm_num
example : a * 2 + a * 3 = a * (2 + 3) := by norm_num
example : -2 < (0 : ℚ) := by norm_num
example : 2 + 3 = 5 := by norm_num
example : 2 + 3 = 5 := by norm_num
example : 2 + 3 = 5 := by norm_num
example : 2 + 3 = 5 := by norm_num
example : 2 + 3 = 5 := by norm_num
example : 2 + 3 = 5 := by norm_num
example : 2 + 3 = 5 := by norm_num
example : 2 + 3 = 5 := by norm_num
example : 2 + 3 = 5 := by norm_num
example : 2 + 3 = 5 := by norm_num
example : 2 + 3 = 5 := by norm_num
example : 2 + 3 = 5 := by norm_num
example : 2 + 3 = 5 := by norm_num
example : 2 + 3 = 5 := by norm_num
example : 2 + 3 = 5 := by norm_num
example : 2 + 3 = 5 := by norm_num
example : 2 + 3 = 5 := by norm_num
example : 2 + 3 = 5 := by norm_num
example : 2 + 3 = 5 := by norm_num
example : 2 + 3 = 5 := by norm_num
example : 2 + 3 = 5 := by norm_num
example : 2 + 3 = 5 := by norm_num
example : 2 + 3 = 5 := by norm_num
example : 2 + 3 = 5 := by norm_num
example : 2 + 3 = 5 := by norm_num
example : 2 + 3 = 5 := by norm_num
example : 2 + 3 = 5 := by norm_num
example : 2 + 3 = 5 := by norm_num
example : 2 + 3 = 5 := by norm_num
example : 2 + 3 = 5 := by norm_num
example : 2 + 3 = 5 := by norm_num
example : 2 + 3 = 5 := by norm_num
example : 2 + 3 = 5 := by norm_num
example : 2 + 3 = 5 := by norm_num
example : 2 + 3 = 5 := by norm_num
example : 2 + 3 = 5 := by norm_num
example : 2 + 3 = 5 := by norm_num
example : 2 + 3 = 5 := by norm_num
example : 2 + 3 = 5 := by norm_num
example : 2 + 3 = 5 := by norm_num
example : 2 + 3 = 5 := by norm_num
example : 2 + 3 = 5 := by norm_num
example : 2 + 3 = 5 := by norm_num
example : 2 + 3 = 5 := by norm_num
example : 2 + 3 = 5 := by norm_num
example : 2 + 3 = 5 := by norm_num
example : 2 + 3 = 5 := by norm_num
example : 2 + 3 = 5 := by norm_num
example : 2 + 3 = 5 := by norm_num
example : 2 + 3 = 5 := by norm_num
example : 2 + 3 = 5 := by norm_num
example : 2 + 3 = 5 := by norm_num
example : 2 + 3 = 5 := by norm_num
example : 2 + 3 = 5 := by norm_num
example : 2 + 3 = 5 := by norm_num
example : 2 + 3 = 5 := by norm_num
example : 2 + 3 = 5 := by norm_num
example : 2 + 3 = 5 := by norm_num
example : 2 + 3 = 5 := by norm_num
example : 2 + 3 = 5 := by norm_num
example : 2 + 3 = 5 := by norm_num
example : 2 * 2⁻¹ = (1 : ℚ) := by norm_num
example : -2 < (0 : ℚ) := by norm_num
example : 2 + 3 = 5 := by norm_num
example : 2 + 3 = 5 := by norm_num
example : 2 + 3 = 5 := by norm_num
example : 2 + 3 = 5 := by norm_num
example : a = 2 := by norm_num
example : a = 2 := by norm_num
example : a = 2 := by norm_num
example : a = 2 := by norm_num
