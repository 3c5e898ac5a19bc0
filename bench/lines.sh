#!/usr/bin/env bash
# Measures `algebra prove` on files of 1,000, 10,000 and 100,000 goals: seconds, goals a second and peak memory of
# three runs each, and how the median grows from one size to the next. A factor of at most 12 for 10 times the goals
# is linear growth. Run it from anywhere; it builds the program first where that isn't done.
set -euo pipefail
top=$(cd "$(dirname "$0")/.." && pwd)
work=$(mktemp -d)
trap 'rm -rf "$work"' EXIT
"$top/algebra" prove /dev/null >/dev/null

goals() { # COUNT: that many goals of the form that the program reads, closed and failed ones
    awk -v count="$1" 'BEGIN {
        for (i = 1; i <= count; i++) {
            a = i % 97; b = i % 89; c = i % 83
            value = a * b + c
            if (i % 10 == 0) value++
            printf "example : %d * %d + %d = %d := by norm_num\n", a, b, c, value
        }
    }'
}

python3 - "$top/crates/algebra/out/algebra" "$work" <(goals 1000) <(goals 10000) <(goals 100000) <<'PY'
import os, resource, subprocess, sys, time
program, work, *sources = sys.argv[1:]

def run(path):
    """Seconds and peak memory (MiB) of one run in a process of its own."""
    before = time.monotonic()
    process = subprocess.Popen([program, "prove", path], stdout=subprocess.DEVNULL)
    _, status, usage = os.wait4(process.pid, 0)
    seconds = time.monotonic() - before
    assert os.waitstatus_to_exitcode(status) in (0, 1), "the program failed"
    return seconds, usage.ru_maxrss / 1024

print(f"{'goals':>8} {'run':>4} {'seconds':>9} {'goals/s':>9} {'MiB':>8}")
medians = []
for source in sources:
    text = open(source).read()
    count = text.count("\n")
    path = os.path.join(work, f"{count}.alg")
    with open(path, "w") as file:
        file.write(text)
    results = []
    for number in range(1, 4):
        seconds, memory = run(path)
        results.append((seconds, memory))
        print(f"{count:>8} {number:>4} {seconds:>9.3f} {count / seconds:>9.0f} {memory:>8.1f}")
    medians.append((count, sorted(results)[1]))
for (few, (short, small)), (many, (long, large)) in zip(medians, medians[1:]):
    print(f"{few} to {many}: time x {long / short:.1f}, memory x {large / small:.1f}")
PY
