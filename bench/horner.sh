#!/usr/bin/env bash
# Measures Horner forms, for growing numbers of atoms k and powers n: (x1 + .. + xk)^n made by n products, twice, over
# whole numbers and over fractions that are whole; and the product of two such powers, in both orders. For each the
# processor's seconds and the peak memory of the median of three runs, and the nanoseconds for each product of two
# coefficients that the plain product of all terms would make: where they stay as they are, time grows as the number of
# these products.
# The program that it measures is crates/horner_runs, proved and built where it lies: some minutes, or seconds after an
# `rt check` there. Run it from anywhere.
set -euo pipefail
top=$(cd "$(dirname "$0")/.." && pwd)
(cd "$top/crates/horner_runs" && rt run > /dev/null < stdin)
program="$top/crates/horner_runs/out/horner_runs"
test -x "$program"
PYTHONPATH="$top/bench" python3 - "$program" <<'PY'
import os, subprocess, sys
from math import comb
program = sys.argv[1]

def run(text):
    """Processor's seconds, peak memory (MiB) and the number of terms of one run in a process of its own."""
    process = subprocess.Popen([program], stdin=subprocess.PIPE, stdout=subprocess.PIPE)
    process.stdin.write(text.encode())
    process.stdin.close()
    answer = process.stdout.read().decode().strip()
    _, status, usage = os.wait4(process.pid, 0)
    assert os.waitstatus_to_exitcode(status) == 0 and answer.endswith("true"), answer
    return usage.ru_utime + usage.ru_stime, usage.ru_maxrss / 1024, int(answer.split()[0])

def terms(atoms, power):
    return comb(atoms + power - 1, power)

def powers(atoms, power):
    return 2 * sum(terms(atoms, i) * atoms for i in range(power))

def squares(atoms, power):
    return powers(atoms, power) + 2 * terms(atoms, power) ** 2

RAISED = (2, 60), (2, 120), (4, 12), (4, 24), (8, 5), (8, 7), (16, 3), (32, 2), (64, 2)
SQUARED = (2, 10), (2, 20), (4, 6), (4, 10), (8, 4), (8, 6), (16, 3), (32, 2)
print(f"{'kind':<9} {'atoms':>5} {'power':>5} {'terms':>6} {'products':>9} {'seconds':>8} {'MiB':>6} {'ns/product':>10}")
for kind, rows, count in ("whole", RAISED, powers), ("fraction", RAISED, powers), ("square", SQUARED, squares):
    for atoms, power in rows:
        seconds, memory, made = sorted(run(f"{kind} {atoms} {power}\n") for _ in range(3))[1]
        assert made == terms(atoms, power if kind != "square" else 2 * power)
        products = count(atoms, power)
        print(f"{kind:<9} {atoms:>5} {power:>5} {made:>6} {products:>9} {seconds:>8.3f} {memory:>6.1f} {1e9 * seconds / products:>10.0f}")
PY
