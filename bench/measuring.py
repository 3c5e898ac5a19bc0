"""What the measuring scripts share: one run of a program, and the median of three. A small program's peak memory is
that of Python itself, which the system counts from before the program begins."""
import os, subprocess


def run(*words, codes=(0,)):
    """Processor's seconds and peak memory (MiB) of one run in a process of its own."""
    process = subprocess.Popen(words, stdout=subprocess.DEVNULL)
    _, status, usage = os.wait4(process.pid, 0)
    assert os.waitstatus_to_exitcode(status) in codes, f"{words} ended with {status}"
    return usage.ru_utime + usage.ru_stime, usage.ru_maxrss / 1024


def median(kind, size, *words, codes=(0,)):
    """Three runs, a line each; answers the median of the seconds and the peak memory that goes with it."""
    results = [run(*words, codes=codes) for _ in range(3)]
    for number, (seconds, memory) in enumerate(results, 1):
        print(f"{kind:<14} {size:>9} {number:>4} {seconds:>8.3f} {memory:>8.1f}", flush=True)
    return sorted(results)[1]


def grows(kind, sizes, medians):
    """How time and memory grow from one size to the next."""
    for few, many, (short, small), (long, large) in zip(sizes, sizes[1:], medians, medians[1:]):
        print(f"{kind}, {few} to {many}: time x {long / max(short, 0.001):.1f}, memory x {large / small:.1f}")
