-- What is read, and what isn't. docs/NOTATION.md says of each line why.
variable {R : Type*} [CommRing R] (x y : R) (f : R → R)
variable {K : Type*} [Field K] (u v : K) (F : K → K)
variable {O : Type*} [LinearOrderedField O] (o : O)
variable {C : Type*} [LinearOrderedCommRing C] (c : C)
variable {S : Type*} [Ring S] [LinearOrder S] [IsStrictOrderedRing S] (s : S)
variable {T : Type*} [Ring T] [LinearOrder T] (t : T)
variable {L : Type*} [LinearOrder L] (l m : L)
variable {M : Type*} [AddMonoid M] (w : M)
variable {A : Type*} [AddCommGroup A] (a : A)
variable {G : Type*} [Group G] (g : G)
variable (n k : ℕ) (i : ℤ) (r : ℚ)

-- abs, min and max
example : abs s = s := by ring
example : abs i = i := by ring
example : abs r = r := by ring
example : abs c = c := by ring
example : abs n = n := by ring
example : abs t = t := by ring
example : min l m = max m l := by ring
example : max x y = x := by ring

-- an argument with an inverse
example : F u⁻¹ = F (u⁻¹) := by ring
example : f x⁻¹ = x := by ring

-- negations before • and in exponents, and exponents of other sorts
example : -2 • a = a := by abel
example : -2 • w = w := by abel
example : g ^ -2 = g := by group
example : x ^ i = x := by ring
example : x ^ r = x := by ring
example : x ^ y = x := by ring
example : r • a = a := by abel

-- orders
example : o < o / o := by ring
example : c < c * c := by ring
example : c / c = c := by ring
example : u < v := by ring

-- no casts, and what Lean reads beside
example : n + i = i := by ring
example : (n : ℤ) = i := by ring
example : |i| = i := by ring
example : n ! = n := by ring
example (B : Type u) : n = n := by ring
example [inst : CommRing R] : x = x := by ring
example (h : x = y) : x = y := by ring at h
example (h : u ≠ 0) : u = u := by field_simp [h]
example : x = x := by ring <;> ring
example (h : x = y) : x ^ 2 = y ^ 2 := by linear_combination (exp := 2) h

-- a word that is no command belongs to the goal before it
example : 1 = 1 := by norm_num
end
example : 2 = 2 := by norm_num
open Foo
example : 3 = 3 := by norm_num
#eval 3
example : 4 = 4 := by norm_num
example : 5 = 5 := by norm_num
section
example : 6 = 6 := by norm_num
set_option x 1
