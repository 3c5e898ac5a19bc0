example : 2 + 2 = 4 := by norm_num
example : 6 * 7 = 42 := by norm_num
example : 1 * 2 * 3 * 4 * 5 = 60 + 60 := by norm_num
example : 2 * 3 + 1 = 8 := by norm_num

example : 170141183460469231731687303715884105727 + 1 = 0 := by norm_num
theorem one_is_one : 1 = 1 := by norm_num
