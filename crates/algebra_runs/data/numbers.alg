-- Goals for norm_num: numbers of each sort and relation, as a user of Mathlib would write them.

-- Fractions, in lowest terms or not.
example : (1 : ℚ) / 2 + 1 / 3 = 5 / 6 := by norm_num
example : (6 : ℚ) / 4 = 3 / 2 := by norm_num
example : (1 : ℚ) / 2 + 1 / 3 ≠ 1 := by norm_num
example : (2 : ℚ) ^ (-3) = 1 / 8 := by norm_num
example : (-2 / 3 : ℚ) ^ 3 = -(8 / 27) := by norm_num
example : (3 : ℚ)⁻¹ - 1 / 2 < 0 := by norm_num
example : (1 : ℚ) / 0 = 0 := by norm_num
example : (1 : ℚ) / 3 + 1 / 6 > 2 / 5 := by norm_num

-- Integers: quotients and remainders as Lean has them.
example : (-7 : ℤ) / 2 = -4 := by norm_num
example : (-7 : ℤ) % 2 = 1 := by norm_num
example : (7 : ℤ) % 0 = 7 := by norm_num
example : (2 : ℤ) - 5 = -3 := by norm_num
example : abs (3 - 5 : ℤ) = 2 := by norm_num
example : (-3 : ℤ) ∣ 12 := by norm_num
example : -2 • (3 : ℤ) = -6 := by norm_num

-- Natural numbers and the functions on them.
example : 3 - 5 = 0 := by norm_num
example : 17 / 5 = 3 := by norm_num
example : 2 ^ 10 = 1024 := by norm_num
example : Nat.gcd 12 18 = 6 := by norm_num
example : Nat.lcm 4 6 = 12 := by norm_num
example : Nat.factorial 10 = 3628800 := by norm_num
example : Nat.choose 10 3 = 120 := by norm_num
example : Nat.fib 50 = 12586269025 := by norm_num
example : max 3 (min 5 4) = 4 := by norm_num
example : 91 = 7 * 13 := by norm_num

-- Powers whose value is known at once.
example : 0 ^ 1000000000000000000000000000000 = 0 := by norm_num
example : 1 ^ 85070591730234615865843651857942052864 = 1 := by norm_num
example : (-1 : ℤ) ^ 85070591730234615865843651857942052864 = 1 := by norm_num

-- Any sort with the classes for it.
example {K : Type*} [Field K] [CharZero K] : (1 : K) / 2 + 1 / 2 = 1 := by norm_num
example {K : Type*} [LinearOrderedField K] : (1 : K) / 3 < 1 / 2 := by norm_num
example {R : Type*} [CommRing R] : (2 : R) * 3 - 7 = -1 := by norm_num

-- Left open: the parts that have values become numerals, also in exponents and under functions.
example (x : ℕ) : x + (2 + 3) = 6 := by norm_num
example (x : ℚ) : x * (1 / 2 + 1 / 3) = 1 := by norm_num
example (x : ℤ) : x ^ (2 + 1) < 2 * 4 := by norm_num
example (f : ℕ → ℕ) : f (2 * 3) = f 6 := by norm_num
example (f : ℤ → ℤ) : f (1 - 2) ≤ f (3 - 4) := by norm_num
example (a : ℚ) : a - 1 / (1 + 1) ≠ -1 / 2 - 1 / 2 := by norm_num

-- False: the values differ, and the sort has CharZero.
example : (1 : ℚ) / 2 + 1 / 3 = 1 := by norm_num
example : 5 ∣ 12 := by norm_num
example : 0 ∣ 3 := by norm_num
example : (1 : ℤ) - 2 ≠ -1 := by norm_num
example : (1 : ℚ) / 3 < 1 / 3 := by norm_num

-- Out of range: a number above 2^127 - 1 would be needed.
example : Nat.factorial 34 = 0 := by norm_num
example : 2 ^ 127 = 0 := by norm_num
example : 2 ^ 2 ^ 2 ^ 2 ^ 200 = 0 := by norm_num
example : (170141183460469231731687303715884105727 : ℤ) ≠ -1 := by norm_num

-- Nothing to do: no part has a value that isn't written already, or nothing says that 2 and 3 differ.
example (x y : ℕ) : x + 2 = y := by norm_num
example {R : Type*} [CommRing R] : (2 : R) = 3 := by norm_num
example : 6 + 1 = 7 := by norm_num; norm_num
