#!/usr/bin/env python3
"""Tells where the time of a check went: seconds for each function, and in it for each phase, the most first.

    bench/check_times.py FOLDER CRATE [COUNT]

FOLDER is the folder given as --incremental to a check of CRATE from nothing by one job (--jobs 1): each of its files is
written once what it holds is checked, so its time is that since the one before it. A second look wants the whole folder
to go first, its own folder `records` with it. The first function of a check has half a dozen seconds that belong to
none, and what runs beside a check makes all of them longer.
"""
import collections
import pathlib
import sys

SUFFIX = ".oantt"


def spent_in(folder):
    """The modules in the order in which they were checked, and the seconds of each."""
    files = sorted((f.stat().st_mtime_ns, f.name[: -len(SUFFIX)]) for f in folder.glob(f"*/*{SUFFIX}"))
    return [(name, (at - before) / 1e9) for (before, _), (at, name) in zip(files, files[1:])]


def function_and_phase(name, crate):
    part, _, rest = name.removeprefix(f"Rattle-{crate}-").partition(".")
    function, _, phase = rest.rpartition(".")
    if part != "proofs":
        return part, part
    return function or "(lemmas)", phase if function else "(lemmas)"


def main():
    folder, crate = pathlib.Path(sys.argv[1]), sys.argv[2]
    count = int(sys.argv[3]) if len(sys.argv) > 3 else 30
    functions = collections.defaultdict(collections.Counter)
    phases = collections.Counter()
    for name, seconds in spent_in(folder):
        function, phase = function_and_phase(name, crate)
        functions[function][phase] += seconds
        phases[phase] += seconds
    print(f"{sum(phases.values()):8.1f}  {crate}: " + listed(phases, 10))
    for function in sorted(functions, key=lambda f: -sum(functions[f].values()))[:count]:
        print(f"{sum(functions[function].values()):8.1f}  {function}: " + listed(functions[function], 5))


def listed(phases, count):
    return ", ".join(f"{phase} {seconds:.1f}" for phase, seconds in phases.most_common(count) if seconds >= 0.1)


if __name__ == "__main__":
    main()
