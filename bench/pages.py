#!/usr/bin/env python3
"""Counts what lines and titles take on pages, and prints a table.

    bench/pages.py

The program of crates/bench_pages does each work, which its head explains. Where it is missing or older than its
sources, it is proved and built first. With callgrind (of valgrind) the table has instructions a call, and what is wanted:
those of 21,000 calls less those of 1,000, so that the start counts nowhere. Without it, it has nanoseconds a call: the
best time of three for 5,000,000 calls, less the best for none. It takes about ten seconds.
"""
import re
import shutil
import subprocess
import sys
import tempfile
import time

sys.dont_write_bytecode = True
import built

CRATE = "bench_pages"
BELOW = ("roff_num", "page_model", "roff_lines", "page_bytes", "roff_pages")
PROGRAM = built.program_of(CRATE)

FEW, MANY = 1_000, 21_000
TIMED = 5_000_000
ROUNDS = 3

# A page has 66 lines, and its trap lies at 60.
LENGTH, TRAP = 66, 60

# The columns of the title.
COLUMNS = 65


class Work:
    """A work: what the table calls it, its name, and whether it springs the pages' trap."""

    def __init__(self, title, name, springs):
        self.title, self.name, self.springs = title, name, springs


WORKS = (
    Work("a line, without pages", "line", False),
    Work("a line on a page", "place", True),
    Work("a line on a page that isn't written", "unlisted", True),
    Work(f"a title of {COLUMNS} columns", "title", True),
    Work(f"a title of {COLUMNS} columns with the page number", "numbered", True),
)


def most(counts):
    """The most instructions that a call may take, for each work that has such an aim."""
    return {"place": counts["line"] + 15, "unlisted": 40, "title": 6 * COLUMNS + 150}


def perform(work, times, front=()):
    """Does a work so often, behind words in front of the command, and returns what stood on standard error."""
    words = [*front, PROGRAM, work.name, str(times)]
    done = subprocess.run(words, stdin=subprocess.DEVNULL, capture_output=True, text=True)
    sprung = (times + LENGTH - TRAP) // LENGTH if work.springs else 0
    if done.stdout != f"{work.name} {sprung}\n":
        sys.exit(f"bench/pages.py: {work.name} {times} said {done.stdout.strip()}, and not that {sprung} sprang")
    return done.stderr


def instructions(work, times):
    """The instructions of a work that is done so often."""
    with tempfile.NamedTemporaryFile() as out:
        said = perform(work, times, ["valgrind", "--tool=callgrind", f"--callgrind-out-file={out.name}"])
    found = re.search(r"Collected : (\d+)", said)
    if not found:
        sys.exit("bench/pages.py: callgrind counted nothing: " + said.strip())
    return int(found.group(1))


def seconds(work, times):
    """The best time of a work that is done so often."""
    spent = []
    for _ in range(ROUNDS):
        began = time.perf_counter()
        perform(work, times)
        spent.append(time.perf_counter() - began)
    return min(spent)


def main():
    if len(sys.argv) > 1:
        sys.exit(__doc__.strip())
    if built.is_outdated(CRATE, BELOW):
        built.build("bench/pages.py", CRATE, ("none", "0"))
    width = max(len(work.title) for work in WORKS)
    if shutil.which("valgrind") is None:
        print(f"| {'Work'.ljust(width)} | ns a call |\n| {'-' * width} | --------- |")
        for work in WORKS:
            spent = (seconds(work, TIMED) - seconds(work, 0)) * 1e9 / TIMED
            print(f"| {work.title.ljust(width)} | {spent:9.1f} |")
        return
    counts = {work.name: (instructions(work, MANY) - instructions(work, FEW)) / (MANY - FEW) for work in WORKS}
    wanted = most(counts)
    print(f"| {'Work'.ljust(width)} | instructions | wanted at most |\n| {'-' * width} | ------------ | -------------- |")
    for work in WORKS:
        count = counts[work.name]
        aim = f"{wanted[work.name]:14.0f}" if work.name in wanted else " " * 14
        missed = " MISSED" if count > wanted.get(work.name, count) else ""
        print(f"| {work.title.ljust(width)} | {count:12.1f} | {aim} |{missed}")


if __name__ == "__main__":
    main()
