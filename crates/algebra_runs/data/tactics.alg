-- Each procedure's name is read. These are not built yet, and say so.
variable {R : Type*} [CommRing R] (x y : R)
variable {A : Type*} [AddCommGroup A] (a b : A)
variable {G : Type*} [Group G] (g h : G)
variable {K : Type*} [LinearOrderedField K] (u v : K)

theorem by_ring : (x + y) ^ 2 = x ^ 2 + 2 * x * y + y ^ 2 := by ring
theorem by_ring1 : x * y = y * x := by ring1
theorem by_ring_nf : x + x = y := by ring_nf
theorem by_linear_combination (hx : x = y) : 2 * x = 2 * y := by linear_combination 2 * hx
theorem by_abel : a + b = b + a := by abel
theorem by_abel1 : a + b - b = a := by abel1
theorem by_abel_nf : a + a = b := by abel_nf
theorem by_group : g * h * h⁻¹ = g := by group
theorem by_positivity : 0 < u ^ 2 + 1 := by positivity
theorem by_field_simp (hu : u ≠ 0) : 1 / u + 1 = (u + 1) / u := by field_simp

-- Other names are no procedures.
theorem by_omega : 1 = 1 := by omega
