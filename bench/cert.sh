#!/usr/bin/env bash
# Measures certificates: `algebra prove`, `algebra prove --cert` and `algebra check` on files of 1,000, 10,000 and
# 100,000 goals, and `algebra check` of one entry with as many lines and of one line with as many nested parentheses.
# For each the processor's seconds and the peak memory of three runs, and how they grow from one size to the next. A
# factor of at most 12 for 10 times the size is linear growth. Run it from anywhere; it builds the program first where
# that isn't done.
set -euo pipefail
top=$(cd "$(dirname "$0")/.." && pwd)
work=$(mktemp -d)
trap 'rm -rf "$work"' EXIT
"$top/algebra" prove /dev/null >/dev/null

PYTHONPATH="$top/bench" PYTHONDONTWRITEBYTECODE=1 python3 - "$top/crates/algebra/out/algebra" "$work" <<'PY'
import os, sys
from measuring import grows, median
program, work = sys.argv[1:]
source, cert = os.path.join(work, "file.alg"), os.path.join(work, "file.cert")

def write(path, text):
    with open(path, "w") as file:
        file.write(text)

def goals(count):
    lines = []
    for k in range(1, count + 1):
        a, b, c = k % 97, k % 89, k % 83
        lines.append(f"example : {a} * {b} + {c} = {a * b + c} := by norm_num\n")
    return "".join(lines)

def entry(*lines):
    return "".join(f"{line}\n" for line in ("algebra-cert 1", "goal 1", *lines, "end"))

print(f"{'words':<14} {'size':>9} {'run':>4} {'seconds':>8} {'MiB':>8}")
sizes = (1_000, 10_000, 100_000)
by_kind = {"prove": [], "prove --cert": [], "check": []}
for count in sizes:
    write(source, goals(count))
    by_kind["prove"].append(median("prove", count, program, "prove", source))
    by_kind["prove --cert"].append(median("prove --cert", count, program, "prove", source, "--cert", cert))
    by_kind["check"].append(median("check", count, program, "check", source, cert))
    print(f"{count} goals: file {os.path.getsize(source)} bytes, certificate {os.path.getsize(cert)} bytes")
for kind, medians in by_kind.items():
    grows(kind, sizes, medians)
for count, (proved, _), (written, _), (checked, _) in zip(sizes, *by_kind.values()):
    print(f"{count} goals: check takes {checked / proved:.2f} times as long as prove, {checked / written:.2f} times as prove --cert")

# one entry of many lines, each with a tree of its own, and one line on one deep tree
write(source, "example (a : ℤ) : a = a := by ring1\n")
sizes = (1_000, 10_000, 100_000, 1_000_000)
medians = []
for count in sizes:
    write(cert, entry(*(f"refl (add $0 #Z:{k})" for k in range(count - 1)), "refl $0"))
    medians.append(median("many lines", count, program, "check", source, cert))
grows("many lines", sizes, medians)
medians = []
for count in sizes:
    write(cert, entry("refl " + "(neg " * count + "$0" + ")" * count))
    medians.append(median("one deep line", count, program, "check", source, cert, codes=(1,)))
grows("one deep line", sizes, medians)
PY
