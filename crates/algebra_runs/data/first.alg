example : 2 + 2 = 4 := by norm_num
