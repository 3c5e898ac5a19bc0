#!/usr/bin/env bash
# Measures how alg_lex splits texts of 1.6 MiB and of 16 MiB into tokens: ordinary text, openings of comments, digits,
# and one name. For each the processor's seconds and the peak memory of three runs, and how the median grows from one
# size to the next. A factor of at most 12 for 10 times the bytes is linear growth, and the memory is that of reading
# the text, the same for each kind.
# The program that it measures is made, proved and built in a folder of its own, beside a copy of the crate: some
# minutes, or seconds after an `rt check` in crates/alg_lex. Run it from anywhere.
set -euo pipefail
top=$(cd "$(dirname "$0")/.." && pwd)
work=$(mktemp -d)
trap 'rm -rf "$work"' EXIT

git -C "$work" init -q
mkdir -p "$work/crates/tokens/src"
cp -r "$top/crates/alg_lex" "$work/crates/alg_lex"
grep '^alg_lex:' "$top/crates.txt" > "$work/crates.txt"
echo 'tokens: alg_lex' >> "$work/crates.txt"
cat > "$work/crates/tokens/src/main.rt" <<'RT'
// Splits the file `text` into tokens, and prints how many tokens and faults it has.
#![tactic(auto)]

use alg_lex::Lexer;
use std::{fs, io};

fn main(rt: HostRuntime) -> io::Result<()> {
    let source = fs::read_to_string(&rt, "text")?;
    let text = source.as_str();
    let mut tokens = 0u32;
    let mut faults = 0u32;
    if text.len() <= 1 << 24 {
        let mut lexer = Lexer::new(text);
        for _ in 0..=text.len() {
            match lexer.next() {
                Ok(Some(_)) => tokens = tokens.wrapping_add(1),
                Ok(None) => break,
                Err(_) => faults = faults.wrapping_add(1),
            }
        }
    }
    println!(rt; "{tokens} {faults}")
}
RT
# builds the program; this first run finds no text and fails
(cd "$work/crates/tokens" && rt run >&2 || true)
test -x "$work/crates/tokens/out/tokens"

python3 - "$work/crates/tokens/out/tokens" "$work" <<'PY'
import os, subprocess, sys
program, work = sys.argv[1:]
ordinary = "theorem add_comm' (R₁.x y : ℕ) : R₁.x + 2 * y ≤ y⁻¹ := by ring -- a comment\n/- a /- nested -/ one -/ "
kinds = {"ordinary text": ordinary, "openings": "/-", "digits": "7", "one name": "a"}
small, large = 16 * 2**20 // 10, 16 * 2**20

def write_text(piece, size):
    """As many whole pieces as fit into so many bytes, and blanks behind them."""
    data = piece.encode()
    block = data * (2**16 // len(data))
    with open(os.path.join(work, "text"), "wb") as file:
        for _ in range(size // len(block)):
            file.write(block)
        left = size % len(block)
        file.write(data * (left // len(data)) + b" " * (left % len(data)))

def run():
    """Processor seconds, peak memory (MiB) and answer of one run in a process of its own."""
    process = subprocess.Popen([program], cwd=work, stdout=subprocess.PIPE)
    answer = process.stdout.read().decode().split()
    _, status, usage = os.wait4(process.pid, 0)
    assert os.waitstatus_to_exitcode(status) == 0, "the program failed"
    return usage.ru_utime + usage.ru_stime, usage.ru_maxrss / 1024, answer

print(f"{'text':<14} {'bytes':>9} {'run':>4} {'seconds':>8} {'MiB':>6} {'tokens':>8} {'faults':>7}")
for kind, piece in kinds.items():
    medians = []
    for size in (small, large):
        write_text(piece, size)
        results = [run() for _ in range(3)]
        for number, (seconds, memory, answer) in enumerate(results, 1):
            print(f"{kind:<14} {size:>9} {number:>4} {seconds:>8.3f} {memory:>6.1f} {answer[0]:>8} {answer[1]:>7}")
        medians.append(sorted(results)[1])
    print(f"{kind}: 10 times the bytes take {medians[1][0] / medians[0][0]:.1f} times the time")
PY
