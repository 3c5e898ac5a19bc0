#!/usr/bin/env bash
# Measures the arena: a sum of 1,000 and of 10,000 variables, each made twice, and chains of 100,000 and of 1,000,000
# negations that are made, compared and imported. For each the processor's seconds and the peak memory of three runs,
# the number of trees after the first and after the second step, and how the median time grows from one size to the
# next. A factor of at most 12 for 10 times the trees is linear growth.
# The program that it measures is made, proved and built in a folder of its own, beside copies of the crates: some
# minutes, or seconds after an `rt check` in crates/alg_expr. Run it from anywhere.
set -euo pipefail
top=$(cd "$(dirname "$0")/.." && pwd)
work=$(mktemp -d)
trap 'rm -rf "$work"' EXIT

git -C "$work" init -q
mkdir -p "$work/crates/trees/src" "$work/crates/trees/proofs/sum" "$work/crates/trees/proofs/chain"
cp -r "$top/crates/alg_terms" "$top/crates/alg_expr" "$work/crates/"
grep '^alg_terms:\|^alg_expr:' "$top/crates.txt" > "$work/crates.txt"
echo 'trees: alg_expr alg_terms' >> "$work/crates.txt"
cat > "$work/crates/trees/src/main.rt" <<'RT'
// `sum COUNT` makes a sum of so many variables twice, `chain COUNT` makes, imports and compares chains of so many
// negations; each prints how many trees the arena has after each step.
#![tactic(auto)]

ghost use Rattle.std.specs.Prelude.{IfOk};
ghost use Rattle.alg_expr.specs.Arena.{Extends};
ghost use Rattle.alg_expr.specs.Ids.{IsIn};

use alg_expr::{Arena, ExprFault, ExprId, Sort, Sym};
use std::io;

fn plus(arena: &mut Arena, total: ExprId, decl: u32) -> Result<ExprId, ExprFault>
    requires { IsIn arena.old total }
    ensures { IfOk result (IsIn arena.new) }
{
    let x = arena.var(decl, Sort::Int)?;
    arena.app(Sym::Add, Sort::Int, &[total, x])
}

fn sum(arena: &mut Arena, count: u32) -> Result<ExprId, ExprFault>
    ensures { IfOk result (IsIn arena.new) }
{
    let mut total = arena.lit(Sort::Int, 0)?;
    for decl in 0..count {
        total = plus(arena, total, decl)?;
    }
    Ok(total)
}

fn two_sums(arena: &mut Arena, count: u32) -> Result<(usize, usize), ExprFault> {
    sum(arena, count)?;
    let once = arena.len();
    sum(arena, count)?;
    Ok((once, arena.len()))
}

fn chain(arena: &mut Arena, decl: u32, count: u32) -> Result<ExprId, ExprFault>
    ensures grown { Extends arena.old arena.new }
    ensures ok { IfOk result (IsIn arena.new) }
{
    let mut top = arena.var(decl, Sort::Int)?;
    for _ in 0..count {
        top = arena.app(Sym::Neg, Sort::Int, &[top])?;
    }
    Ok(top)
}

fn two_chains(arena: &mut Arena, count: u32) -> Result<(ExprId, ExprId), ExprFault>
    ensures { IfOk result (λ pair. IsIn arena.new pair.0 × IsIn arena.new pair.1) }
{
    let a = chain(arena, 0, count)?;
    let b = chain(arena, 1, count)?;
    Ok((a, b))
}

fn compared_and_imported(arena: &mut Arena, count: u32) -> Result<(usize, usize), ExprFault> {
    let (a, b) = two_chains(arena, count)?;
    if arena.compare(a, b).is_eq() {
        return Ok((0, 0));
    }
    let mut other = Arena::new(arena.alloc())?;
    other.import(arena, a)?;
    Ok((arena.len(), other.len()))
}

fn measured(arena: &mut Arena, mode: &str, count: u32) -> Result<(usize, usize), ExprFault> {
    if mode == "sum" {
        two_sums(arena, count)
    } else {
        compared_and_imported(arena, count)
    }
}

fn main(rt: HostRuntime) -> io::Result<()> {
    let words: Vec<String> = std::env::args(&rt)?.collect(rt.alloc())?;
    if words.len() == 3 {
        let count: u32 = words[2].as_str().parse::<u32>().unwrap_or(0);
        if let Ok(mut arena) = Arena::new(rt.alloc()) {
            if let Ok((first, second)) = measured(&mut arena, words[1].as_str(), count) {
                println!(rt; "{first} {second}")?;
            }
        }
    }
    Ok(())
}
RT
cat > "$work/crates/trees/proofs/sum/Invariants.antt" <<'ANTT'
use Rattle.alg_expr.specs.Ids.{IsIn}
use Rattle.trees.proofs.sum.Given as goal

abbrev pub invariant-loop-decl : goal.invariant-loop-decl
invariant-loop-decl l = IsIn l.arena l.total
ANTT
cat > "$work/crates/trees/proofs/chain/Invariants.antt" <<'ANTT'
use Rattle.alg_expr.specs.Arena.{Extends}
use Rattle.alg_expr.specs.Ids.{IsIn}
use Rattle.trees.proofs.chain.Given as goal

abbrev pub invariant-loop : goal.invariant-loop
invariant-loop l = Extends l.fn.arena l.arena × IsIn l.arena l.top
ANTT
cat > "$work/crates/trees/proofs/chain/Answers.antt" <<'ANTT'
use Rattle.alg_expr.specs.Arena.{Extends-then, GrowsBy-Extends}
use Rattle.trees.proofs.chain.Goals as goal

pub loop-preserved : goal.loop-preserved
loop-preserved c =
    let grows = c.in_ok-top-2.ensures.ok in
    (Extends-then c.args.arena.now c.loop.arena c.app.new.self c.loop.invariant.0 (GrowsBy-Extends c.loop.arena c.app.new.self c.in_ok-top-2.top _ grows), grows.here)
ANTT
(cd "$work/crates/trees" && rt run >&2 || true)
test -x "$work/crates/trees/out/trees"

python3 - "$work/crates/trees/out/trees" <<'PY'
import os, subprocess, sys
program = sys.argv[1]

def run(mode, count):
    """Processor's seconds, peak memory (MiB) and answer of one run in a process of its own."""
    process = subprocess.Popen([program, mode, str(count)], stdout=subprocess.PIPE)
    answer = process.stdout.read().decode().split()
    _, status, usage = os.wait4(process.pid, 0)
    assert os.waitstatus_to_exitcode(status) == 0 and len(answer) == 2, "the program failed"
    return usage.ru_utime + usage.ru_stime, usage.ru_maxrss / 1024, answer

print(f"{'trees':<6} {'count':>8} {'run':>4} {'seconds':>8} {'MiB':>7} {'first':>8} {'second':>8}")
for mode, counts in ("sum", (1_000, 10_000)), ("chain", (100_000, 1_000_000)):
    medians = []
    for count in counts:
        results = [run(mode, count) for _ in range(3)]
        for number, (seconds, memory, answer) in enumerate(results, 1):
            print(f"{mode:<6} {count:>8} {number:>4} {seconds:>8.3f} {memory:>7.1f} {answer[0]:>8} {answer[1]:>8}")
        medians.append(sorted(results)[1][0])
    print(f"{mode}: 10 times the count takes {medians[1] / medians[0]:.1f} times the time")
PY
