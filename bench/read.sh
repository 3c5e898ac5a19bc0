#!/usr/bin/env bash
# Measures how `algebra prove` reads files: 1,000, 10,000 and 100,000 theorems and as many declarations, 1.6 MiB and
# 16 MiB of faulty commands, of declarations and goals in turn, of a type variable with a class at every other line and
# a goal over it, and of one class for one type variable again and again, and one command of 4,096 tokens that is
# nested as deep as it may be. For each the
# processor's seconds and the peak memory of three runs, and how the median grows from one size to the next. A factor
# of at most 12 for 10 times the size is linear growth. The theorems' procedure fails at once, so that reading is
# nearly all that is done. Run it from anywhere; it builds the program first where that isn't done.
set -euo pipefail
top=$(cd "$(dirname "$0")/.." && pwd)
work=$(mktemp -d)
trap 'rm -rf "$work"' EXIT
"$top/algebra" prove /dev/null >/dev/null

PYTHONPATH="$top/bench" PYTHONDONTWRITEBYTECODE=1 python3 - "$top/crates/algebra/out/algebra" "$work" <<'PY'
import itertools, os, sys
from measuring import grows, median
program, work = sys.argv[1:]
path = os.path.join(work, "file.alg")

def theorems(count):
    head = "variable {R : Type*} [CommRing R] (x y : R)\n"
    return head + "".join(f"theorem t{k} (a b : ℤ) (h : a = b) : (a - {k}) ^ 2 = b ^ 2 - 2 * {k} * b + {k} ^ 2 := by ring\n" for k in range(count))

def declarations(count):
    return "".join(f"variable (x{k} : ℤ) (h{k} : x{k} = {k})\n" for k in range(count))

def faults(size):
    line = "example (a : ℤ) : a + b = b + a := by ring\n"
    return line * (size // len(line.encode()))

def filled(size, lines):
    text, at = [], 0
    for line in lines:
        if at > size:
            return "".join(text)
        text.append(line)
        at += len(line.encode())

def turns(size):
    return filled(size, (f"variable (x{k} : Nat)\nexample : x{k} = 1 := by ring\n" for k in itertools.count()))

def classes(size):
    return filled(size, (f"variable {{R{k} : Type}} [CommRing R{k}]\nexample (a : R{k}) : a + 1 - a = 1 := by ring\n" for k in itertools.count()))

def again(size):
    head = "variable {R : Type} [CommRing R] (a : R)\n"
    return head + filled(size, (f"variable [CharZero R]\nexample : a + {k} - a = {k} := by ring\n" for k in itertools.count()))

def one(text):
    return f"example : {text} = 1 := by ring\n"

nested = {
    "minuses": one("- " * 4084 + "(1 : ℤ)"),
    "powers": one("2 ^ " * 2044 + "2"),
    "sums": one("2" + " + 2" * 2044),
    "parentheses": one("(" * 256 + "2" + " + 2)" * 256),
}

def measured(kind, size, text):
    with open(path, "w") as file:
        file.write(text)
    return median(kind, size, program, "prove", path, codes=(0, 1))

print(f"{'commands':<14} {'size':>9} {'run':>4} {'seconds':>8} {'MiB':>8}")
for kind, make, sizes in (
    ("theorems", theorems, (1_000, 10_000, 100_000)),
    ("declarations", declarations, (1_000, 10_000, 100_000)),
    ("faults", faults, (16 * 2**20 // 10, 16 * 2**20 - 200)),
    ("turns", turns, (16 * 2**20 // 10, 16 * 2**20 - 200)),
    ("classes", classes, (16 * 2**20 // 10, 16 * 2**20 - 200)),
    ("again", again, (16 * 2**20 // 10, 16 * 2**20 - 200)),
):
    grows(kind, sizes, [measured(kind, size, make(size)) for size in sizes])
for kind, text in nested.items():
    measured(kind, 1, text)
PY
