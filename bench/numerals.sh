#!/usr/bin/env bash
# Measures norm_num: files of 1,000 and 10,000 goals of each kind (whole sums and products, integers of both signs,
# fractions, powers, relations, named functions, parts of larger goals). For each the processor's seconds and the peak
# memory of three runs, goals a second, lines of the certificate an operation, and how time grows; a factor of at most 12
# for 10 times the goals is linear growth. The demonstration's file of as many goals stands beside them. Run it from
# anywhere; it builds the program first where that isn't done.
set -euo pipefail
top=$(cd "$(dirname "$0")/.." && pwd)
work=$(mktemp -d)
trap 'rm -rf "$work"' EXIT
"$top/algebra" prove /dev/null >/dev/null

PYTHONPATH="$top/bench" PYTHONDONTWRITEBYTECODE=1 python3 - "$top/crates/algebra/out/algebra" "$work" <<'PY'
import math, os, sys
from fractions import Fraction
from measuring import grows, median, run
program, work = sys.argv[1:]
source, cert = os.path.join(work, "file.alg"), os.path.join(work, "file.cert")

def shown(value):
    return f"{value.numerator} / {value.denominator}" if value.denominator > 1 else str(value.numerator)

# of each kind: the number of operations in a goal, and the k-th goal
def whole(k):
    a, b, c = k % 97, k % 89, k % 83
    return f"{a} * {b} + {c} = {a * b + c}"

def signs(k):
    a, b, c = k % 97 - 48, k % 89 - 44, k % 83 - 41
    return f"({a} : ℤ) * ({b}) + ({c}) = {a * b + c}"

def fractions(k):
    a, b, c, d = k % 97 + 1, k % 89 + 2, k % 83 + 1, k % 79 + 2
    return f"({a} : ℚ) / {b} + {c} / {d} = {shown(Fraction(a, b) + Fraction(c, d))}"

def products(k):
    a, b, c, d = k % 97 + 1, k % 89 + 2, k % 83 + 1, k % 79 + 2
    return f"({a} : ℚ) / {b} * ({c} / {d}) = {shown(Fraction(a, b) * Fraction(c, d))}"

def powers(k):
    a, n = k % 7 + 2, k % 13 + 2
    return f"{a} ^ {n} = {a ** n}"

def relations(k):
    a, b, c, d = k % 97 + 1, k % 89 + 2, k % 83 + 1, k % 79 + 2
    x, y = Fraction(a, b), Fraction(c, d)
    return f"({a} : ℚ) / {b} {'<' if x < y else '≤' if x == y else '>'} {c} / {d}"

def functions(k):
    a, b = k % 97 + 1, k % 89 + 1
    return f"Nat.gcd {a} {b} + {a * b} / {b} = {math.gcd(a, b) + a}"

def parts(k):
    a, b = k % 97, k % 89
    return f"x + ({a} + {b}) = y"

kinds = [("whole", 2, whole), ("signs", 2, signs), ("sums of fractions", 3, fractions), ("products", 3, products), ("powers", 1, powers), ("relations", 3, relations), ("functions", 3, functions), ("parts", 1, parts)]
sizes = (1_000, 10_000)
print(f"{'kind':<18} {'size':>9} {'run':>4} {'seconds':>8} {'MiB':>8}")
for kind, operations, goal in kinds:
    medians = []
    for count in sizes:
        with open(source, "w") as file:
            file.write("variable (x y : ℕ)\n")
            file.writelines(f"example : {goal(k)} := by norm_num\n" for k in range(1, count + 1))
        medians.append(median(kind, count, program, "prove", source, codes=(0, 1)))
        run(program, "prove", source, "--cert", cert, codes=(0, 1))
        lines = sum(1 for line in open(cert) if not line.startswith(("algebra", "goal", "given", "end")))
        print(f"{kind}: {count / max(medians[-1][0], 0.001):.0f} goals a second, {lines / count / operations:.1f} lines an operation")
    grows(kind, sizes, medians)
PY
