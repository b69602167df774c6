#!/usr/bin/env python3
"""Times the store of texts, of strings and macros by name, and prints a table.

    bench/store.py

The program of crates/bench_store does each work, which its head explains. Where it is missing or older than its
sources, it is proved and built first. All works take turns, three times each, and the best time counts; the best time
of the same work done no times is taken away. It takes about ten seconds.
"""
import subprocess
import sys
import time

sys.dont_write_bytecode = True
import built

CRATE = "bench_store"
BELOW = ("roff_num", "roff_store")
PROGRAM = built.program_of(CRATE)

ROUNDS = 3


class Work:
    """A work: what the table calls it, its name, how many names there are, how often it is done, and the calls in that;
    and how many nanoseconds a call may take, where that is known."""

    def __init__(self, title, name, names, times, calls, wanted=None):
        self.title, self.name, self.names, self.times, self.calls = title, name, names, times, calls
        self.wanted = wanted


# A body of 100,000 bytes lies in 834 chunks.
WORKS = (
    Work("look-up, 10 names", "find", 10, 2_000_000, 20_000_000, 30),
    Work("look-up, 2,000 names", "find", 2000, 10_000, 20_000_000, 30),
    Work("look-up, 10 names alike but for the end", "alike", 10, 1_000_000, 10_000_000, 30),
    Work("look-up, 2,000 names alike but for the end", "alike", 2000, 30, 60_000, 30),
    Work("set, 100 bytes, 10 names", "set", 10, 500_000, 5_000_000),
    Work("set, 100 bytes, 2,000 names", "set", 2000, 2_500, 5_000_000),
    Work("append of a byte, 2,000 bodies of up to 500", "append", 2000, 400, 800_000),
    Work("append of a byte, 10 bodies of up to 50,000", "append", 10, 50_000, 500_000),
    Work("append of a byte, 1 body of up to 1,048,576", "append", 1, 4_000_000, 3_999_997),
    Work("a byte of a lease", "read", 0, 500, 50_000_000, 3),
    Work("a run of a lease, 120 bytes", "runs", 0, 20_000, 16_680_000),
)


def measure(work, times):
    """Does a work so often, and returns the seconds; all of its calls have to do what they are to do."""
    began = time.perf_counter()
    words = [PROGRAM, work.name, str(work.names), str(times)]
    said = subprocess.run(words, stdin=subprocess.DEVNULL, capture_output=True, text=True).stdout
    seconds = time.perf_counter() - began
    calls = work.calls * times // work.times
    if said != f"{work.name} {calls}\n":
        sys.exit(f"bench/store.py: {' '.join(words[1:])} did {said.strip()}, and not {calls} calls")
    return seconds


def main():
    if len(sys.argv) > 1:
        sys.exit(__doc__.strip())
    if built.is_outdated(CRATE, BELOW):
        built.build("bench/store.py", CRATE, ("none", "0", "0"))
    rounds = [[(measure(work, work.times), measure(work, 0)) for work in WORKS] for _ in range(ROUNDS)]
    width = max(len(work.title) for work in WORKS)
    print(f"| {'Work'.ljust(width)} | ns a call |\n| {'-' * width} | --------- |")
    for work, runs in zip(WORKS, zip(*rounds)):
        seconds = min(run[0] for run in runs) - min(run[1] for run in runs)
        spent = seconds * 1e9 / work.calls
        missed = f" more than {work.wanted}" if work.wanted is not None and spent > work.wanted else ""
        print(f"| {work.title.ljust(width)} | {spent:9.1f} |{missed}")


if __name__ == "__main__":
    main()
