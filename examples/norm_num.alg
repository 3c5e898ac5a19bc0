-- Sums and products of natural numbers.
example : 2 + 2 = 4 := by norm_num
example : (1 + 2) * 3 = 3 * (2 + 1) := by norm_num
example : 0 * 7 + 1 = 1 := by norm_num
example : (2 : ℕ) + 2 = 4 := by norm_num
example : 170141183460469231731687303715884105726 + 1 = 170141183460469231731687303715884105727 := by norm_num

-- Refused: the two sides are different numbers.
example : 2 + 2 = 5 := by norm_num

-- Refused: a number is above 2^127 - 1, also where both sides would be equal.
example : 170141183460469231731687303715884105727 + 1 = 0 := by norm_num
example : 100000000000000000000 * 100000000000000000000 = 1 := by norm_num
example : 170141183460469231731687303715884105727 + 1 = 1 + 170141183460469231731687303715884105727 := by norm_num
example : 170141183460469231731687303715884105727 + 1 = 2 ^ 127 := by norm_num

-- Powers and multiples, and every relation.
example : 2 ^ 3 = 8 := by norm_num
example : 3 • 2 + 1 = 7 := by norm_num
example : 2 ≠ 3 := by norm_num
example : 2 < 3 := by norm_num
example : 3 ≤ 3 := by norm_num
example : 2 ∣ 4 := by norm_num
example : 3 < 3 := by norm_num
example : 5 ∣ 12 := by norm_num

-- Integers.
example : (2 : ℤ) - 5 = -3 := by norm_num
example : (-3 : ℤ) ∣ 6 := by norm_num
example : (-2 : ℤ) ^ 3 < -7 := by norm_num
example : (0 : ℤ) ∣ -6 := by norm_num

-- Refused: the difference of the sides is 2^127.
example : (170141183460469231731687303715884105727 : ℤ) ≠ -1 := by norm_num

-- Fractions.
example : (1 : ℚ) / 2 + 1 / 3 = 5 / 6 := by norm_num
example : (1 : ℚ) / 2 + 1 / 3 = 1 := by norm_num
example : (2 : ℚ) ^ (-3) = 1 / 8 := by norm_num
example : (-2 : ℚ)⁻¹ ^ 3 ≠ 1 / 8 := by norm_num

-- Declared sorts. Without the class that tells whether two numbers differ, the sides are left.
variable {R : Type*} [CommRing R] (a : R) (f : R → R)
example : (2 : R) * 3 - 1 = 5 := by norm_num
example : (2 : R) - 2 ≠ 0 := by norm_num
example : (2 : R) + 2 = 5 := by norm_num
variable {K : Type*} [Field K] [LinearOrder K] [IsStrictOrderedRing K] (x : K)
example : -(1 : K) / 3 ≤ 1 / 2 := by norm_num
example : (1 : K) / 2 < 1 / 3 := by norm_num

-- The largest parts that have values become numerals, inside arguments and exponents too.
example (n : ℕ) : n + (2 + 3) = 6 := by norm_num
example (n : ℕ) : n + (2 + 3) = n + 5 := by norm_num
example (n : ℕ) : a ^ (n + 2 * 3) = f (2 - 5) := by norm_num
example : x * (1 / 2 - 3) ^ 2 ≤ 2 ^ (1 + 1) := by norm_num
example : x * 2 = 5 / 2 := by norm_num
example : a * (170141183460469231731687303715884105727 + 1) = 0 := by norm_num

-- A named function has a value by an extension.
example : 5 - 7 = 0 := by norm_num
example : Nat.gcd 12 18 = 6 := by norm_num
example : Nat.gcd (4 * 3) 18 = 6 := by norm_num

-- A second procedure goes on with what is left, and meets no goal where it's closed.
example (n : ℕ) : n + (2 + 3) = 6 := by norm_num; norm_num
example : 2 + 2 = 4 := by norm_num; norm_num

-- A hypothesis changes nothing for norm_num.
example (h : 2 = 3) : 1 + 1 = 3 := by norm_num
