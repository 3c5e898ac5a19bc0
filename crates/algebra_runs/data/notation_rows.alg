example : 170141183460469231731687303715884105727 = 170141183460469231731687303715884105727 := by norm_num
example : 170141183460469231731687303715884105727 + 1 = 170141183460469231731687303715884105727 := by norm_num
example : 170141183460469231731687303715884105728 = 1 := by norm_num
example : 2 + 2 = 4 := by norm_num; norm_num
example (a : ℕ) : a + a = b := by ring
example (a : ℕ) : -a = a := by ring
variable {R : Type*} [CommRing R] (a b : R)
example : a = b := by omega
example : a = := by ring
example : a = b := by noncomm_ring
example : a = b := by ring_exp
example : a = b := by group_exp
variable (x : ℤ) (x : ℕ)
example : x = x := by ring
variable (x y : R) (n : ℕ) (i : ℤ) (f : R → ℕ → R) (h : x = y) (p : x ≠ y)
example : x + y = y + x := by ring
example : x = n := by ring
example : f x = y := by ring
example : f x 2 = y := by ring
example : f x x = y := by ring
example : x = f := by ring
example : x / y = x := by ring
example : x < y := by ring
example : x ∣ y := by ring
example : n ∣ 2 := by ring
example : -n = 0 := by ring
example : i % 2 > 0 := by ring
example : x % 2 = 0 := by ring
example : x ^ n = x := by ring
example : x ^ i = x := by ring
example : x ^ (-2) = x := by ring
example : x ^ y = x := by ring
example : i • x = n • x := by ring
example : h = x := by ring
example : (2 : ℤ) = i := by ring
example : (2 : ℚ) = i := by ring
example : ((1 : ℤ) : ℕ) = n := by ring
example : (1 : x) = n := by ring
example : (1 : Nope) = n := by ring
example : -2 = 3 := by ring
example : 2 + i = 3 := by ring
example : abs i = -2 := by ring
example : abs x = x := by ring
example : min i = i := by ring
example : max 2 i = -1 := by ring
example : abs = i := by ring
example : Nat.gcd n 2 = n := by ring
example : Nat.gcd i 2 = n := by ring
example : 2 ^ (-n) = 4 := by ring
example : x = y := by linear_combination h
example : x = y := by linear_combination 2 * h - (x * h)
example : x = y := by linear_combination h * h
example : x = y := by linear_combination p
example : x = y := by linear_combination f h 1
example : x = y := by linear_combination (h : R)
example : x = y := by linear_combination h ^ 2
example : i = 1 := by linear_combination h
example : x = y := by linear_combination h 1
example : x = y := by simp
example : x = z := by simp
example (x : ℕ) : x = x := by ring
example (c c : ℕ) : c = c := by ring
example (abs : ℕ) : n = n := by ring
example (c d : ℕ) (e : c = d) : c = d := by ring
example (q : q = q) : x = x := by ring
example (q : S) : x = x := by ring
example (q : R → n) : x = x := by ring
example [Ring R] : x = x := by ring
example [CharZero R] [CharZero R] : x = x := by ring
example [IsStrictOrderedRing R] : x = x := by ring
example [LinearOrder R] [IsStrictOrderedRing R] : x < y := by ring
example [LinearOrder R] : x < y := by ring
example : x < y := by ring
example [Ring ℤ] : x = x := by ring
example [Rng R] : x = x := by ring
example [Ring x] : x = x := by ring
example {S : Type} [Group S] (u v : S) : u * v⁻¹ = u / v := by ring
example : x = y := by ring ring1
example : x = y := by ring;
example : x = y := by
variable
variable {c : ℤ)
variable [CommRing]
import A B
example : 1 + /- open
