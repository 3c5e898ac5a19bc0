#!/usr/bin/env python3
"""Runs the gate and says where its time goes: wall clock, processor hours, their parts for proofs, tests, edits and
programs, and the slowest tasks. Words are handed on to `rt ci` (none: a plain run; --anew: all from nothing).
The processor's seconds are read from /proc twice a second, for the processes of this run alone."""
import collections, os, re, subprocess, sys, time

TICK = os.sysconf("SC_CLK_TCK")


def children():
    """Each process with its parent."""
    parents = {}
    for name in os.listdir("/proc"):
        if name.isdigit():
            try:
                with open(f"/proc/{name}/stat") as stat:
                    text = stat.read()
            except OSError:
                continue
            words = text[text.rindex(")") + 2:].split()
            parents[int(name)] = (int(words[1]), (int(words[11]) + int(words[12])) / TICK)
    return parents


def task_of(pid):
    """The crate that a process works for, and at what."""
    try:
        with open(f"/proc/{pid}/cmdline") as line:
            words = line.read().split("\0")
        place = os.readlink(f"/proc/{pid}/cwd")
    except OSError:
        return None
    crate = words[words.index("--crate-name") + 1] if "--crate-name" in words else None
    if crate is None:
        found = re.search(r"/crates/(\w+)", place)
        crate = found.group(1) if found else "-"
    program = os.path.basename(words[0])
    if "rattle" not in program:
        kind = "other" if program not in ("clang", "ld", "cc", "opt", "llc") else "programs"
    elif "--test" in words:
        kind = "tests"
    elif "must-fail" in place or "edit" in place or words[1:2] == ["check"]:
        kind = "edits"
    elif "--statements" in words:
        kind = "proofs"
    else:
        kind = "programs"
    return crate, kind


def main():
    began = time.time()
    run = subprocess.Popen(["rt", "ci", *sys.argv[1:]])
    seconds, tasks = {}, {}
    while run.poll() is None:
        time.sleep(0.5)
        parents = children()
        inside = {run.pid}
        grown = True
        while grown:
            more = {pid for pid, (parent, _) in parents.items() if parent in inside and pid not in inside}
            inside |= more
            grown = bool(more)
        for pid in inside & parents.keys():
            seconds[pid] = parents[pid][1]
            if pid not in tasks:
                tasks[pid] = task_of(pid)
    wall = time.time() - began
    sums = collections.Counter()
    for pid, spent in seconds.items():
        sums[tasks.get(pid) or ("-", "other")] += spent
    kinds = collections.Counter()
    for (_, kind), spent in sums.items():
        kinds[kind] += spent
    total = sum(kinds.values())
    print(f"\nwall clock {wall / 60:.1f} min, {os.cpu_count()} processors, {total / 3600:.2f} processor hours")
    for kind, spent in kinds.most_common():
        print(f"  {kind:<9} {spent / 3600:.2f} h")
    crates = sorted({crate for crate, _ in sums})
    print("\n| Crate | Seconds of proofs | of tests | of edits | of programs |\n|---|---|---|---|---|")
    for crate in crates:
        cells = [f"{sums[crate, kind]:.0f}" for kind in ("proofs", "tests", "edits", "programs")]
        print(f"| {crate} | {' | '.join(cells)} |")
    print("\nslowest tasks:")
    for (crate, kind), spent in sums.most_common(10):
        print(f"  {spent:6.0f} s  {crate} {kind}")
    sys.exit(run.returncode)


main()
