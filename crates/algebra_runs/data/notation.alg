import Mathlib.Tactic

-- Declarations for all that follows.
variable {R : Type*} [CommRing R] (x y : R)
variable (a b : ℤ) (f : ℤ → R)

theorem sums : 2 * 3 + 4 = 10 := by norm_num

/- Two steps: the first
   one closes the goal. -/
example : 1 + 1 = 2 := by
  norm_num
  norm_num

lemma halves : 1 + 1 = 3 := by norm_num; ring

theorem cube : (x + y) ^ 3 = x ^ 3 + 3 * x ^ 2 * y + 3 * x * y ^ 2 + y ^ 3 := by ring

example (h : a = 2 * b) : a - b = b := by
  linear_combination h

example : x + z = z + x := by ring

example : a + x = x + a := by abel

example (s : ℕ) : -s = s := by ring

theorem sums : 1 = 1 := by norm_num

example : f (a + b) = f (b + a) := by ring_nf

example : f a b = 0 := by simp

example : (x + y = y + x := by ring

example : 1 = 1 := by norm_num
