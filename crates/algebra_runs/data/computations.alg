-- A value of each of Lean's functions, or what is above 2^127 - 1.
example : Nat.factorial 0 = 1 := by norm_num
example : Nat.factorial 33 = 8683317618811886495518194401280000000 := by norm_num
example : Nat.factorial 34 = 0 := by norm_num
example : Nat.factorial 170141183460469231731687303715884105727 = 0 := by norm_num
example : Nat.fib 0 = 0 := by norm_num
example : Nat.fib 1 = 1 := by norm_num
example : Nat.fib 10 = 55 := by norm_num
example : Nat.fib 184 = 127127879743834334146972278486287885163 := by norm_num
example : Nat.fib 185 = 0 := by norm_num
example : Nat.fib 170141183460469231731687303715884105727 = 0 := by norm_num
example : 3 - 5 = 0 := by norm_num
example : 5 - 3 = 2 := by norm_num
example : 7 / 2 = 3 := by norm_num
example : 7 / 0 = 0 := by norm_num
example : 7 % 2 = 1 := by norm_num
example : 7 % 0 = 7 := by norm_num
example : Nat.gcd 12 18 = 6 := by norm_num
example : Nat.gcd 0 0 = 0 := by norm_num
example : Nat.lcm 4 6 = 12 := by norm_num
example : Nat.lcm 0 0 = 0 := by norm_num
example : Nat.lcm 170141183460469231731687303715884105727 170141183460469231731687303715884105727 = 170141183460469231731687303715884105727 := by norm_num
example : Nat.lcm 170141183460469231731687303715884105727 170141183460469231731687303715884105726 = 0 := by norm_num
example : Nat.choose 5 2 = 10 := by norm_num
example : Nat.choose 2 5 = 0 := by norm_num
example : Nat.choose 170141183460469231731687303715884105727 1 = 170141183460469231731687303715884105727 := by norm_num
example : Nat.choose 170141183460469231731687303715884105727 170141183460469231731687303715884105726 = 170141183460469231731687303715884105727 := by norm_num
example : Nat.choose 170141183460469231731687303715884105727 2 = 0 := by norm_num
example : Nat.choose 130 65 = 95067625827960698145584333020095113100 := by norm_num
example : Nat.choose 131 65 = 0 := by norm_num
example : Nat.choose 1267650600228229401496703205376 158456325028528675187087900672 = 0 := by norm_num
example : (-7 : ℤ) / 2 = -4 := by norm_num
example : (-7 : ℤ) % 2 = 1 := by norm_num
example : (7 : ℤ) / (-2) = -3 := by norm_num
example : (7 : ℤ) % (-2) = 1 := by norm_num
example : (-7 : ℤ) / (-2) = 4 := by norm_num
example : (-7 : ℤ) % (-2) = 1 := by norm_num
example : (-7 : ℤ) / 0 = 0 := by norm_num
example : (-7 : ℤ) % 0 = -7 := by norm_num
example : 3 ∣ 12 := by norm_num
example : 5 ∣ 12 := by norm_num
example : 3 ∣ 0 := by norm_num
example : 0 ∣ 0 := by norm_num
example : 0 ∣ 3 := by norm_num
example : (-3 : ℤ) ∣ 12 := by norm_num
example : (3 : ℤ) ∣ (-12) := by norm_num
example : (5 : ℤ) ∣ (-12) := by norm_num
example : (0 : ℤ) ∣ (-3) := by norm_num
