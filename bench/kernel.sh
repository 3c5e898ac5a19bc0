#!/usr/bin/env bash
# Measures the kernel: proofs of 1,000 to 1,000,000 lines, every second a sum of literals and every second a transitivity
# over lines before it, are made and checked; proofs of as many lines, every second a sum of literals and every second a
# lemma with four letters whose premise is that sum; and one line on a chain of 1,000,000 negations. For each the
# processor's seconds and the peak memory of three runs, lines a second, and how the median time grows from one size to
# the next. A factor of at most 12 for 10 times the lines is linear growth. Where valgrind is installed, also the
# instructions and the bytes of a step of two lines, which don't depend on what else the machine does: of sums and
# lemmas, made alone and made and checked.
# The program that it measures is made, proved and built in a folder of its own, beside copies of the crates: some
# minutes, or seconds after an `rt check` in crates/alg_kernel. Run it from anywhere.
set -euo pipefail
top=$(cd "$(dirname "$0")/.." && pwd)
work=$(mktemp -d)
trap 'rm -rf "$work"' EXIT

git -C "$work" init -q
program="$work/crates/checked_lines"
mkdir -p "$program/src" "$program/proofs/chain" "$program/proofs/negations" "$program/proofs/check_lines" "$program/proofs/step" "$program/proofs/steps"
for crate in alg_num alg_terms alg_expr alg_law alg_compute alg_proof alg_lemma alg_kernel alg_build; do
    cp -r "$top/crates/$crate" "$work/crates/"
    grep "^$crate:" "$top/crates.txt" >> "$work/crates.txt"
done
echo 'checked_lines: alg_build alg_kernel alg_lemma alg_proof alg_law alg_expr alg_terms' >> "$work/crates.txt"
cat > "$program/src/main.rt" <<'RT'
// `lines COUNT` checks a proof of so many lines, at least three; `made COUNT` makes one of so many lines by a builder,
// half of them lemmas, and `lemmas COUNT` checks it too; `negations COUNT` checks one line on so many negations. Each
// prints `accepted`, or `refused`.
#![tactic(auto)]

ghost use Rattle.std.specs.Prelude.{◌≡◌, ◌+◌, ◌≤◌, List, All, IfOk};
ghost use Rattle.alg_terms.specs.Tree.{Tree, Lit, sum_tree};
ghost use Rattle.alg_terms.specs.declared.sorts.Sort.TheVariants.{Nat};
ghost use Rattle.alg_expr.specs.Ids.{IsIn, IsStatementIn};
ghost use Rattle.alg_lemma.specs.Library.{HoldsLibrary};
ghost use Rattle.alg_proof.specs.Lines.{IsLineIn};
ghost use Rattle.alg_build.specs.Book.{Grows, Proves};
ghost use Rattle.alg_build.specs.Rewriting.{Stands};

use alg_build::{Builder, Parts, Rewriting, by_lemma};
use alg_expr::{Arena, ExprFault, ExprId, Memory, Rel, Sort, Stmt, Sym};
use alg_kernel::accept;
use alg_law::Base;
use alg_lemma::library;
use alg_lemma::node_sums::ADD_TAIL;
use alg_proof::Line;
use std::alloc::Global;
use std::io;
use std::rc::Rc;

// a line after the third: a sum of literals, or by transitivity from an odd line and the third
fn line(k: u32) -> Line
    requires { 4 ≤ k }
    ensures { (ts : List Tree) → IsLineIn ts result }
{
    if k % 2 == 0 {
        Line::LitAdd(Sort::Nat, k as u128, 1)
    } else {
        Line::Trans(k as u128 - 2, 3)
    }
}

// the third line and each odd one after it conclude 1 + 1 = 1 + 1
fn chain(alloc: Global, count: u32) -> Result<Vec<Line>, Memory>
    ensures { IfOk result (λ lines. (ts : List Tree) → All (IsLineIn ts) lines.items) }
{
    let mut lines: Vec<Line> = Vec::new(alloc);
    lines.push(Line::LitAdd(Sort::Nat, 1, 1))?;
    lines.push(Line::Symm(1))?;
    lines.push(Line::Trans(1, 2))?;
    for k in 4..count {
        lines.push(line(k))?;
    }
    Ok(lines)
}

fn two(arena: &mut Arena) -> Result<ExprId, ExprFault>
    ensures { IfOk result (IsIn arena.new) }
{
    let one = arena.lit(Sort::Nat, 1)?;
    arena.app(Sym::Add, Sort::Nat, &[one, one])
}

fn negations(arena: &mut Arena, count: u32) -> Result<ExprId, ExprFault>
    ensures { IfOk result (IsIn arena.new) }
{
    let mut top = arena.lit(Sort::Int, 1)?;
    for _ in 0..count {
        top = arena.app(Sym::Neg, Sort::Int, &[top])?;
    }
    Ok(top)
}

// from `k + 1 = k'` by a lemma: `7 + k + 1 = 7 + k'`
#[tactic(auto, using(crate::proofs::StepFacts::step_facts))]
fn tail(
    cx: &mut Builder,
    seven: ExprId,
    n: ExprId,
    one: ExprId,
    more: ExprId,
    _k: u32,
    sum: usize,
) -> Result<Rewriting, Memory>
    requires library { HoldsLibrary cx.old.theory.lemmas }
    requires seven { Stands cx.old Nat seven (Lit Nat 7) }
    requires n { Stands cx.old Nat n (Lit Nat _k) }
    requires one { Stands cx.old Nat one (Lit Nat 1) }
    requires more { Stands cx.old Nat more (Lit Nat (_k + 1)) }
    requires sum { Proves cx.old sum (sum_tree Nat (Lit Nat _k) (Lit Nat 1)) (Lit Nat (_k + 1)) }
    ensures grows { Grows cx.old cx.new }
{
    by_lemma(cx, &ADD_TAIL, Sort::Nat, &[seven, n, one, more], &[sum])
}

// `k + 1 = k'`, and what follows from it
#[tactic(auto, using(crate::proofs::StepFacts::step_facts))]
fn step(cx: &mut Builder, seven: ExprId, one: ExprId, k: u32) -> Result<Rewriting, Memory>
    requires library { HoldsLibrary cx.old.theory.lemmas }
    requires seven { Stands cx.old Nat seven (Lit Nat 7) }
    requires one { Stands cx.old Nat one (Lit Nat 1) }
    ensures grows { Grows cx.old cx.new }
{
    let n = cx.lit(Sort::Nat, k as u128)?;
    let more = cx.lit(Sort::Nat, k as u128 + 1)?;
    let sum = cx.lit_add(Sort::Nat, k as u128, 1)?;
    tail(cx, seven, n, one, more, k, sum)
}

#[tactic(auto, using(crate::proofs::StepFacts::step_facts))]
fn steps(cx: &mut Builder, seven: ExprId, one: ExprId, count: u32) -> Result<(), Memory>
    requires library { HoldsLibrary cx.old.theory.lemmas }
    requires seven { Stands cx.old Nat seven (Lit Nat 7) }
    requires one { Stands cx.old Nat one (Lit Nat 1) }
    ensures grows { Grows cx.old cx.new }
{
    for k in 0..count {
        step(cx, seven, one, k)?;
    }
    Ok(())
}

// `1 = 1`
#[tactic(auto, using(crate::proofs::StepFacts::step_facts))]
fn last(cx: &mut Builder) -> Result<Stmt, Memory>
    ensures { IfOk result (IsStatementIn cx.new.trees) }
{
    let one = cx.lit(Sort::Nat, 1)?;
    let line = cx.refl(one)?;
    Ok(cx.concluded(line))
}

// so many steps, and `1 = 1` at the end
#[tactic(auto, using(crate::proofs::StepFacts::step_facts))]
fn made(cx: &mut Builder, count: u32) -> Result<Stmt, Memory>
    requires { HoldsLibrary cx.old.theory.lemmas }
    ensures { IfOk result (IsStatementIn cx.new.trees) }
{
    let seven = cx.lit(Sort::Nat, 7)?;
    let one = cx.lit(Sort::Nat, 1)?;
    steps(cx, seven, one, count)?;
    last(cx)
}

fn checked(alloc: Global, cx: Builder, goal: Stmt) -> bool
    requires { IsStatementIn cx.trees goal }
{
    let Parts {
        base,
        lemmas,
        mut arena,
        lines,
        given,
    } = cx.into_parts();
    accept(alloc, &lemmas, &base, &mut arena, given, goal, &lines).is_ok()
}

fn check_lemmas(alloc: Global, count: u32, checks: bool) -> Result<bool, Memory> {
    let lemmas = Rc::new(alloc, library(alloc)?)?;
    let mut cx = Builder::new(alloc, Base::new(alloc)?, lemmas)?;
    let goal = made(&mut cx, count / 2)?;
    if checks {
        Ok(checked(alloc, cx, goal))
    } else {
        Ok(true)
    }
}

fn accepted(alloc: Global, arena: &mut Arena, sort: Sort, e: ExprId, lines: &[Line]) -> Result<bool, Memory>
    requires here { IsIn arena.old e }
    requires lines_in { All (IsLineIn arena.old) lines.now }
{
    let lemmas = library(alloc)?;
    let base = Base::new(alloc)?;
    let goal = Stmt { rel: Rel::Eq, sort, lhs: e, rhs: e };
    Ok(accept(alloc, &lemmas, &base, arena, None, goal, lines).is_ok())
}

fn check_lines(alloc: Global, count: u32) -> Result<bool, ExprFault> {
    let mut arena = Arena::new(alloc)?;
    let lines = chain(alloc, count)?;
    let e = two(&mut arena)?;
    Ok(accepted(alloc, &mut arena, Sort::Nat, e, &lines)?)
}

fn check_negations(alloc: Global, count: u32) -> Result<bool, ExprFault> {
    let mut arena = Arena::new(alloc)?;
    let e = negations(&mut arena, count)?;
    Ok(accepted(alloc, &mut arena, Sort::Int, e, &[Line::Refl(e)])?)
}

fn measured(alloc: Global, mode: &str, count: u32) -> bool {
    if mode == "lines" {
        check_lines(alloc, count).unwrap_or(false)
    } else if mode == "negations" {
        check_negations(alloc, count).unwrap_or(false)
    } else {
        check_lemmas(alloc, count, mode == "lemmas").unwrap_or(false)
    }
}

fn main(rt: HostRuntime) -> io::Result<()> {
    let words: Vec<String> = std::env::args(&rt)?.collect(rt.alloc())?;
    if words.len() == 3 {
        let count: u32 = words[2].as_str().parse::<u32>().unwrap_or(0);
        let said = if measured(rt.alloc(), words[1].as_str(), count) {
            "accepted"
        } else {
            "refused"
        };
        println!(rt; "{said}")?;
    }
    Ok(())
}
RT
cat > "$program/proofs/chain/Invariants.antt" <<'ANTT'
use Rattle.std.specs.Prelude.{List, All}
use Rattle.alg_terms.specs.Tree.{Tree}
use Rattle.alg_proof.specs.Lines.{IsLineIn}
use Rattle.checked_lines.proofs.chain.Given as goal

abbrev pub invariant-loop-k : goal.invariant-loop-k
invariant-loop-k l = (ts : List Tree) → All (IsLineIn ts) l.lines.items
ANTT
cat > "$program/proofs/chain/Answers.antt" <<'ANTT'
use Rattle.std.proofs.Common.{List, All, subst, sym}
use Rattle.std.proofs.lemmas.List.Elements.{All-push}
use Rattle.alg_proof.specs.Lines.{IsLineIn}
use Rattle.checked_lines.proofs.chain.Goals as goal

pub loop-k-preserved : goal.loop-k-preserved
loop-k-preserved c = λ ts.
    subst (λ ls. All (IsLineIn ts) ls) (sym c.in_ok-push-4.ensures.items)
    (All-push (IsLineIn ts) c.loop-k.lines.items c.line.result (c.loop-k.invariant ts) (c.line.ensures ts))
ANTT
cat > "$program/proofs/check_lines/Answers.antt" <<'ANTT'
use Rattle.checked_lines.proofs.check_lines.Goals as goal

pub accepted-requires-clause-lines_in : goal.accepted-requires-clause-lines_in
accepted-requires-clause-lines_in c = rw c.deref.ensures.value (c.in_ok-lines.ensures c.two.new.arena)
ANTT
cat > "$program/proofs/negations/Invariants.antt" <<'ANTT'
use Rattle.alg_expr.specs.Ids.{IsIn}
use Rattle.checked_lines.proofs.negations.Given as goal

abbrev pub invariant-loop : goal.invariant-loop
invariant-loop l = IsIn l.arena l.top
ANTT
cat > "$program/proofs/steps/Invariants.antt" <<'ANTT'
use Rattle.alg_build.specs.Book.{Grows}
use Rattle.checked_lines.proofs.steps.Given as goal

abbrev pub invariant-loop-k : goal.invariant-loop-k
invariant-loop-k l = Grows l.fn.cx l.cx
ANTT
cat > "$program/proofs/step/Answers.antt" <<'ANTT'
use Rattle.alg_build.proofs.Lines.{adds-proves, grows-then, keeps-grows, makes-grows}
use Rattle.checked_lines.proofs.step.Goals as goal

pub returns-in_err-sum : goal.returns-in_err-sum
returns-in_err-sum c =
    record {
      grows = grows-then _ _ _ (makes-grows _ _ _ _ c.in_ok-n.ensures.ok) (grows-then _ _ _ (makes-grows _ _ _ _ c.in_ok-more.ensures.ok) (keeps-grows _ _ c.in_err-sum.ensures.err));
    }

pub tail-requires-clause-sum : goal.tail-requires-clause-sum
tail-requires-clause-sum c = adds-proves _ _ _ _ _ _ c.in_ok-sum.ensures.adds
ANTT
cat > "$program/proofs/StepFacts.antt" <<'ANTT'
-- What a step requires.
use Rattle.std.proofs.Common.{ℕ, List, refl}
use Rattle.alg_terms.specs.declared.sorts.Sort.TheVariants.{Nat}
use Rattle.alg_terms.specs.Tree.{Lit}
use Rattle.alg_law.specs.Declarations.{Declaration}
use Rattle.alg_law.specs.WellSorted.{IsWellSorted}
use Rattle.alg_law.proofs.WellSortedLaws.{literal-good}
use Rattle.alg_lemma.proofs.Named.{add_tail-named}
use Rattle.alg_expr.specs.declared.ids.ExprId.{ExprId}
use Rattle.alg_build.specs.Book.{Book, Makes}
use Rattle.alg_build.specs.Rewriting.{Stands}
use Rattle.alg_build.proofs.RowFacts.{row_facts}

pub natural-sorted : (ds : List Declaration) (n : ℕ) → IsWellSorted ds (Lit Nat n)
natural-sorted ds n = literal-good ds Nat refl refl n

pub number-stands : (a b : Book) (e : ExprId) (n : ℕ) → Makes a b e (Lit Nat n) → Stands b Nat e (Lit Nat n)
number-stands a b e n m = record { here = m.here; tree = m.tree; sorted = natural-sorted b.theory.declarations n; sort = refl }

pub ruleset step_facts = (row_facts, add_tail-named, natural-sorted, number-stands)
ANTT
cat > "$program/proofs/Lib.antt" <<'ANTT'
mod StepFacts
ANTT
if [ "${1:-}" = --try ]; then
    cp -r "$work" "$2"
    exit
fi
(cd "$program" && rt run >&2 || true)
test -x "$program/out/checked_lines"

python3 - "$program/out/checked_lines" <<'PY'
import os, re, shutil, subprocess, sys
program = sys.argv[1]

def run(mode, count):
    """Processor's seconds and peak memory (MiB) of one run in a process of its own."""
    process = subprocess.Popen([program, mode, str(count)], stdout=subprocess.PIPE)
    answer = process.stdout.read().decode().strip()
    _, status, usage = os.wait4(process.pid, 0)
    assert os.waitstatus_to_exitcode(status) == 0 and answer == "accepted", answer
    return usage.ru_utime + usage.ru_stime, usage.ru_maxrss / 1024

print(f"{'proof':<10} {'count':>8} {'run':>4} {'seconds':>8} {'lines/s':>10} {'MiB':>7}")
sizes = (1_000, 10_000, 100_000, 1_000_000)
for mode, counts in ("lines", sizes), ("lemmas", sizes), ("negations", (100_000, 1_000_000)):
    medians = []
    for count in counts:
        results = [run(mode, count) for _ in range(3)]
        for number, (seconds, memory) in enumerate(results, 1):
            rate = f"{count / seconds:>10.0f}" if mode != "negations" and seconds > 0 else f"{'':>10}"
            print(f"{mode:<10} {count:>8} {number:>4} {seconds:>8.3f} {rate} {memory:>7.1f}")
        medians.append(sorted(results)[1][0])
    for small, large, count in zip(medians, medians[1:], counts[1:]):
        if small > 0:
            print(f"{mode} {count}: {large / small:.1f} times the time of a tenth")

def instructions(mode, count):
    """Instructions of one run, counted by callgrind."""
    words = ["valgrind", "--tool=callgrind", "--callgrind-out-file=/dev/null", program, mode, str(count)]
    told = subprocess.run(words, capture_output=True, text=True, check=True).stderr
    return int(re.search(r"Collected : (\d+)", told).group(1))

if shutil.which("valgrind"):
    few, many = 20_000, 40_000
    for mode in "made", "lemmas":
        each = (instructions(mode, many) - instructions(mode, few)) / ((many - few) / 2)
        grown = (run(mode, 1_000_000)[1] - run(mode, 100_000)[1]) * 2**20 / 450_000
        print(f"{mode}: {each:.0f} instructions and {grown:.0f} bytes a step of two lines")
PY
