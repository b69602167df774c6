#!/usr/bin/env python3
"""Looks where the sources say by themselves that there is no memory, and not because an allocation was refused:

    tests/no_refusal_written.py

The libraries' constructors answer `AllocError`, and the program `StartFault::OutOfMemory`. Anybody can make both, and no contract says
that an allocation was refused then. So a constructor may pass on an error, and must not write one: `AllocError` stands in the sources as
a type, and as a value in `INPUT_AHEAD` alone, where two sums of limits might not fit; `StartFault::OutOfMemory` stands where an error
is passed on. The exit status is 1 if one stands anywhere else, or isn't where it was.
"""
import collections
import pathlib
import re

CRATES = pathlib.Path(__file__).resolve().parent.parent / "crates"
INPUT_AHEAD = "input_ahead/src/input_ahead.rt"

# How often each file has such a value.
WRITTEN = {
    "AllocError": {INPUT_AHEAD: 2},
    "AllocFailed": {},
    "OutOfMemory": {
        "roff_tools/src/fault.rt": 3,
        "roff_tools/src/program.rt": 4,
        "roff_tools/src/telling.rt": 1,
        "roff_tools/src/words.rt": 1,
    },
}

# Where a name stands as a type, or is only compared. Anywhere else it is a value.
OTHERS = {
    "AllocError": r", AllocError>|<AllocError>|\(AllocError, [A-Z]\)>|fn from\(_error: AllocError\)",
    "AllocFailed": r"<AllocFailed<T>>|fn from\(_refused: AllocFailed<T>\)",
    "OutOfMemory": r"== (io::)?ErrorKind::OutOfMemory|^OutOfMemory,$|StartFault.TheVariants.{OutOfMemory}",
}


def code_of(path):
    """The lines of a file without comments, imports and clauses."""
    for line in path.read_text().splitlines():
        line = line.split("//")[0].strip()
        if line and not re.match(r"(pub(\(crate\))? )?(ghost )?use (?!.* as )|ghost |ensures |→ ", line):
            yield line


def main():
    failures = 0
    for name, others in OTHERS.items():
        found = collections.Counter()
        for path in sorted(CRATES.glob("*/src/**/*.rt")):
            of = path.relative_to(CRATES).as_posix()
            found[of] += sum(len(re.findall(r"\b%s\b" % name, re.sub(others, "", line))) for line in code_of(path))
        for of in sorted(found):
            if found[of] != WRITTEN[name].get(of, 0):
                failures += 1
                print("FAILED: %s has %d values of %s; wanted %d" % (of, found[of], name, WRITTEN[name].get(of, 0)))
        print("%s: %d values in %d files" % (name, sum(found.values()), sum(count > 0 for count in found.values())))
    print("%d differences" % failures)
    raise SystemExit(failures > 0)


main()
