#!/usr/bin/env python3
"""Measures the built program beside the formatters that are installed, and prints tables.

    bench/run.py [--tables] [PROGRAM]

PROGRAM is crates/roff/out/roff where none is given. With `--tables` the works on tables alone are measured. Documents of
made-up text (make_text.py) are written into a temporary folder; docs/BENCHMARKS.md says what each work is. Each formatter
reads them from there and writes on /dev/null. All take turns, three times each or more, and the best time counts: that of
the processor, with the system's part of it, and with the processes that a formatter starts. `perf` counts the instructions
where it can, and else callgrind on documents of 0.3 MB; those of a document without text are taken away. GNU time measures
the memory, which is that of a formatter's largest process. Behind the tables stands which aims are met. It takes about a
quarter of an hour, most of it groff's.
"""
import glob
import os
import platform
import re
import sys
import tempfile
import time

sys.dont_write_bytecode = True
import make_text

HERE = os.path.dirname(os.path.realpath(__file__))
PROGRAM = os.path.join(os.path.dirname(HERE), "crates", "roff", "out", "roff")
GNU_TIME = "/usr/bin/time"
PLAN9 = "/usr/lib/plan9/bin"

MEGABYTE = 1_000_000
# The documents that callgrind sees.
COUNTED_SIZE = 0.3
# Documents for the memory at the limits that hold where none is given.
DEFAULT_WORKS = (("nroff", "text", 1), ("nroff", "text", 10), ("nroff", "text", 40), ("nroff", "macros", 5),
                 ("nroff", "loop", 30), ("tbl", "text", 40), ("both", "text", 40), ("tbl", "tables", 5), ("both", "tables", 5),
                 ("tbl", "measured", 5), ("both", "measured", 5), ("tbl", "boxes", 5), ("both", "boxes", 5), ("tbl", "spans", 5),
                 ("both", "spans", 5), ("tbl", "blocks", 5), ("both", "blocks", 5))
MOST_MEMORY = 8
# One table of so many rows, and one of four times as many, with the options that let them pass, and how often each is read.
FEW_ROWS = 5_000
MANY_ROWS = 4 * FEW_ROWS
ROWS_OPTIONS = ("--rows", "100000", "--text", "1000000")
ROWS_ROUNDS = 7

# One table of so many bytes, and one of four times as many, of which most are of one kind: what stands in front, what is
# repeated, and what stands behind.
FEW_BYTES = 64_000
GROWING = (
    ("one field", ".TS\nl.\n", "x", "\n.TE\n"),
    ("one field of escapes", ".TS\nl.\n", "\\&", "\n.TE\n"),
    ("one row of fields", ".TS\nl l.\na", "\tbc", "\n.TE\n"),
    ("joined lines", ".TS\nl.\n", "ab\\\n", "\n.TE\n"),
    ("format rows", ".TS\nl", "\nr 3", ".\na\n.TE\n"),
    ("letters of the format", ".TS\nl", "fBp+2", ".\na\n.TE\n"),
    ("widths of the format", ".TS\nl", "w(9)e", ".\na\n.TE\n"),
    ("messages", ".TS\nl.\n", "\\nx", "\n.TE\n"),
    ("messages of joined lines", ".TS\nl.\n", "\\c\\\n", "\n.TE\n"),
    ("messages of the format", ".TS\nl", "x ", ".\na\n.TE\n"),
    ("messages of the options", ".TS\n", "abc ", ";l.\na\n.TE\n"),
    ("one block", ".TS\nl lw(40).\na\tT{\n", "some words of a block\n", "T}\n.TE\n"),
    ("one line of a block", ".TS\nl lw(40).\na\tT{\n", "some words of a block ", "\nT}\n.TE\n"),
    ("further formats", ".TS\nl.\n", ".T&\nl\nr.\n", "a\n.TE\n"),
)
GROWING_OPTIONS = ("--width", "1000000")
MOST_GROWTH = 4.5

# No hyphenation. Pages keep their usual length: nothing is printed at their ends, and on one page of all the text
# groff's driver for terminals would take many times as long.
PRELUDE = ".nh\n"
MANDOC_PRELUDE = ".TH BENCH 1 2000-01-01\n"


class Formatter:
    """A formatter: its name, its command line before the files, what stands before a document, and a remark. Of many
    small documents it formats one in `share`."""

    def __init__(self, name, command, prelude, remark=None, share=1):
        self.name, self.command, self.prelude, self.remark, self.share = name, command, prelude, remark, share


class Run:
    """What a document took: the seconds of processor time, and the peak memory in megabytes where it is known; the exit
    status; and where they were counted the instructions, for each byte of a long document."""

    def __init__(self, seconds, memory, status):
        self.seconds, self.memory, self.status, self.instructions = seconds, memory, status, None


class Aim:
    """What is wanted of a work: a figure of the runs, with its name, and the least or the most that it may be."""

    def __init__(self, figure, name, least=None, most=None):
        self.figure, self.name, self.least, self.most = figure, name, least, most

    def wanted(self):
        return f"at least {self.least} {self.name}" if self.most is None else f"below {self.most} {self.name}"

    def is_met(self, value):
        return value >= self.least if self.most is None else value < self.most


class Work:
    """A work: its title, the kind of document, its megabytes, the aims, and the command that does it. Many small documents
    are formatted by a process each."""

    def __init__(self, title, kind, size, *aims, count=1, rounds=3, command="nroff"):
        self.title, self.kind, self.size, self.aims, self.count, self.rounds = title, kind, size, aims, count, rounds
        self.command = command

    def is_small(self):
        return self.count > 1


def times(name):
    """How many times as fast as the formatter whose name begins so ours is."""
    def figure(work, formatters, runs):
        for formatter, run in zip(formatters[1:], runs[1:]):
            if formatter.name.startswith(name):
                return run.seconds / runs[0].seconds
        return None
    return figure


def times_fastest(work, formatters, runs):
    """The same of the fastest peer that did the work."""
    return min((run.seconds / runs[0].seconds for run in runs[1:] if run.status == 0), default=None)


def speed(work, formatters, runs):
    return work.size / runs[0].seconds


def milliseconds(work, formatters, runs):
    return runs[0].seconds * 1000


def instructions(work, formatters, runs):
    return runs[0].instructions


WORKS = (
    Work("Running text", "text", 50,
         Aim(times("9base"), "times as fast as 9base", least=10),
         Aim(instructions, "instructions a byte", most=50)),
    Work("Requests", "requests", 5,
         Aim(times("9base"), "times as fast as 9base", least=6)),
    Work("Registers", "registers", 5),
    Work("Code", "code", 50,
         Aim(times("9base"), "times as fast as 9base", least=10)),
    Work("Macros", "macros", 5,
         Aim(times("9base"), "times as fast as 9base", least=6)),
    Work("Springs", "springs", 5,
         Aim(times("9base"), "times as fast as 9base", least=2)),
    Work("Pages", "headers", 5,
         Aim(times("9base"), "times as fast as 9base", least=4)),
    Work("Pages' text", "escaped", 5,
         Aim(times("9base"), "times as fast as 9base", least=8),
         Aim(instructions, "instructions a byte", most=55)),
    Work("Diversions", "diversions", 5,
         Aim(times("9base"), "times as fast as 9base", least=3)),
    Work("Diversions that aren't read", "diverting", 5,
         Aim(instructions, "instructions a byte", most=100)),
    Work("Loop", "loop", 30,
         Aim(times_fastest, "times as fast as the fastest peer", least=2)),
    Work("Skipped", "skipped", 50,
         Aim(speed, "MB/s", least=200)),
    Work("Small documents", "requests", 0.002,
         Aim(milliseconds, "ms a document", most=1),
         Aim(times_fastest, "times as fast as the fastest peer", least=1),
         count=1000, rounds=10),
)

WORKS_ON_TABLES = (
    Work("Tables", "tables", 0.67,
         Aim(speed, "MB/s", least=8),
         Aim(times("groff"), "times as fast as groff -t", least=20),
         Aim(instructions, "instructions a byte", most=253),
         rounds=10, command="both"),
    Work("Tables for nroff", "tables", 0.67,
         Aim(instructions, "instructions a byte", most=106),
         rounds=10, command="tbl"),
    Work("Measured", "measured", 0.67,
         Aim(speed, "MB/s", least=8),
         Aim(times("groff"), "times as fast as groff -t", least=20),
         rounds=10, command="both"),
    Work("Measured for nroff", "measured", 0.67,
         Aim(instructions, "instructions a byte", most=200),
         rounds=10, command="tbl"),
    Work("Boxes", "boxes", 0.67,
         Aim(speed, "MB/s", least=8),
         Aim(times("groff"), "times as fast as groff -t", least=20),
         rounds=10, command="both"),
    Work("Boxes for nroff", "boxes", 0.67,
         Aim(instructions, "instructions a byte", most=250),
         rounds=10, command="tbl"),
    Work("Spans", "spans", 0.67,
         Aim(speed, "MB/s", least=8),
         Aim(times("groff"), "times as fast as groff -t", least=20),
         rounds=10, command="both"),
    Work("Spans for nroff", "spans", 0.67,
         Aim(instructions, "instructions a byte", most=200),
         rounds=10, command="tbl"),
    Work("Blocks", "blocks", 1,
         Aim(speed, "MB/s", least=8),
         Aim(times("groff"), "times as fast as groff -t", least=20),
         rounds=10, command="both"),
    Work("Blocks for nroff", "blocks", 1,
         Aim(instructions, "instructions a byte", most=250),
         rounds=10, command="tbl"),
    Work("Text without tables", "text", 50,
         Aim(times("roff nroff"), "times as fast as nroff alone", least=0.9),
         command="both"),
    Work("Text without tables for nroff", "text", 50,
         Aim(speed, "MB/s", least=50),
         command="tbl"),
)


def is_there(program):
    folders = [""] if "/" in program else os.environ.get("PATH", "").split(os.pathsep)
    return any(os.access(os.path.join(folder, program), os.X_OK) for folder in folders)


def ours(program, command, *options):
    return Formatter("roff " + command, [program, command, *options], PRELUDE)


def all_formatters(program):
    """Returns the formatters for each of our commands, ours in front."""
    found = {command: [ours(program, command, "--bytes", "1000000000"), *peers(command)] for command in ("nroff", "tbl", "both")}
    found["both"].insert(1, found["nroff"][0])
    return found


def peers(command):
    """Returns the formatters that are installed and do what this command does; for `nroff` says which aren't."""
    return {"nroff": peers_of_nroff, "tbl": peers_of_tbl, "both": peers_of_both}[command]()


def peers_of_tbl():
    return [Formatter("groff's tbl", ["tbl", "-C"], PRELUDE)] if is_there("tbl") else []


def peers_of_both():
    found = []
    if is_there("groff"):
        command = ["groff", "-t", "-C", "-Tascii", "-P-cbou"]
        found.append(Formatter("groff -t -Tascii", command, ".do cflags 0 -\n" + PRELUDE))
    if is_there("mandoc"):
        found.append(Formatter("mandoc -Tascii", ["mandoc", "-Tascii"], MANDOC_PRELUDE))
    return found


def peers_of_nroff():
    found = []
    nroff, troff = f"{PLAN9}/nroff", f"{PLAN9}/troff"
    if is_there(nroff):
        found.append(Formatter("9base nroff", [nroff], PRELUDE))
    elif is_there(troff):
        found.append(Formatter("9base troff -N", [troff, "-N"], PRELUDE))
    else:
        print(f"9base isn't installed (neither {nroff} nor {troff}): left out")
    if is_there("groff"):
        # The classes of characters are set empty, so that lines end at blanks alone.
        command = ["groff", "-C", "-Tascii", "-P-cbou"]
        remark = "groff starts two processes more for a document, and formats one small document in ten"
        found.append(Formatter("groff -Tascii", command, ".do cflags 0 -\n" + PRELUDE, remark, share=10))
    else:
        print("groff isn't installed: left out")
    if is_there("mandoc"):
        remark = "mandoc reads a manual page, writes lines of 78 columns, and adjusts nothing: it ignores .ad and .na"
        found.append(Formatter("mandoc -Tascii", ["mandoc", "-Tascii"], MANDOC_PRELUDE, remark))
    else:
        print("mandoc isn't installed: left out")
    return found


def spend(words):
    """Runs a command without input or output, and returns its processor time in seconds and its exit status."""
    nothing = [(os.POSIX_SPAWN_OPEN, number, os.devnull, os.O_RDWR, 0) for number in (0, 1, 2)]
    _, status, usage = os.wait4(os.posix_spawnp(words[0], words, os.environ, file_actions=nothing), 0)
    return usage.ru_utime + usage.ru_stime, os.waitstatus_to_exitcode(status)


def peak(words):
    """Runs a command, and returns its greatest memory in megabytes where GNU time is there to measure it: a process
    counts the memory of the one that started it, so Python can't measure a small one itself."""
    if not is_there(GNU_TIME):
        return None
    with tempfile.NamedTemporaryFile("r") as report:
        spend([GNU_TIME, "-q", "-f", "%M", "-o", report.name, *words])
        return int(report.read().split()[-1]) * 1024 / MEGABYTE


def counted_by_perf(words):
    """Returns how many instructions a command took outside the system, or None where the machine doesn't count them."""
    with tempfile.NamedTemporaryFile("r") as report:
        spend(["perf", "stat", "-x,", "-e", "instructions:u", "-o", report.name, *words])
        counts = re.findall(r"^(\d+),", report.read(), re.MULTILINE)
    return int(counts[0]) if counts else None


def counted_by_callgrind(words):
    """The same, as callgrind counts them."""
    with tempfile.TemporaryDirectory() as folder:
        options = ["--tool=callgrind", "--trace-children=yes", "--callgrind-out-file=/dev/null"]
        spend(["valgrind", *options, f"--log-file={folder}/%p", *words])
        total = 0
        for path in glob.glob(f"{folder}/*"):
            with open(path, encoding="utf-8", errors="replace") as file:
                total += sum(int(count) for count in re.findall(r"Collected : (\d+)", file.read()))
    return total


def counter():
    """Returns what counts instructions, its name, and the megabytes of a long document that it is given; None for
    these where it is given the whole of it."""
    if is_there("perf") and counted_by_perf(["true"]) is not None:
        return counted_by_perf, "perf", None
    if is_there("valgrind"):
        return counted_by_callgrind, f"callgrind on {COUNTED_SIZE} MB", COUNTED_SIZE
    return None, "nothing, as neither perf nor valgrind can", None


def documents(folder, work, size, formatter):
    """Writes the documents of a work, of so many megabytes each, for a formatter, and returns the files."""
    folder, paths = tempfile.mkdtemp(dir=folder), []
    for number in range(work.count):
        paths.append(os.path.join(folder, f"{number}.roff"))
        with open(paths[-1], "wb") as file:
            file.write(formatter.prelude.encode())
            make_text.write_document(work.kind, int(size * MEGABYTE), file, number)
    return paths


def measure(formatter, paths):
    """Formats each file by itself, and returns the seconds that one of them took, and a status other than 0 if some run
    had one."""
    spent = [spend([*formatter.command, path]) for path in paths]
    failed = [status for _, status in spent if status != 0]
    return sum(seconds for seconds, _ in spent) / len(paths), failed[0] if failed else 0


def count(folder, work, formatter, counting):
    """Returns the instructions for a byte of the work's document, or for a small document, if something counts them."""
    counted, _, size = counting
    if counted is None:
        return None
    if work.is_small():
        return counted([*formatter.command, documents(folder, work, work.size, formatter)[0]])
    size = size or work.size
    taken = [counted([*formatter.command, *documents(folder, work, some, formatter)]) for some in (size, 0)]
    return (taken[0] - taken[1]) / (size * MEGABYTE)


def best_of(work, formatters):
    """Has the formatters take turns, and returns the best run of each, with its memory."""
    with tempfile.TemporaryDirectory() as folder:
        paths = [documents(folder, work, work.size, formatter)[:: formatter.share] for formatter in formatters]
        rounds = [[measure(formatter, some) for formatter, some in zip(formatters, paths)] for _ in range(work.rounds)]
        best = []
        for formatter, some, runs in zip(formatters, paths, zip(*rounds)):
            failed = [status for _, status in runs if status != 0]
            memory = peak([*formatter.command, some[0]])
            best.append(Run(min(seconds for seconds, _ in runs), memory, failed[0] if failed else 0))
    return best


def shown(number, digits=1):
    return "?" if number is None else f"{number:,.{digits}f}"


def show_table(head, rows, left=1):
    """Prints a table: so many columns to the left, the others to the right."""
    widths = [max(len(row[i]) for row in [head, *rows]) for i in range(len(head))]
    for row in [head, ["-" * width for width in widths], *rows]:
        cells = [cell.ljust(width) for cell, width in zip(row, widths)][:left]
        cells += [cell.rjust(width) for cell, width in zip(row, widths)][left:]
        print("| " + " | ".join(cells) + " |")
    print()
    sys.stdout.flush()


def compare(folder, work, formatters, counting):
    """Prints the table of a work, and returns the runs."""
    runs = best_of(work, formatters)
    rows = []
    for formatter, run in zip(formatters, runs):
        run.instructions = count(folder, work, formatter, counting)
        name = formatter.name if run.status == 0 else f"{formatter.name} (status {run.status})"
        ratio = "" if run is runs[0] else shown(run.seconds / runs[0].seconds, 2)
        if work.is_small():
            measured = [shown(run.seconds * 1000, 2), ratio, shown(run.instructions, 0)]
        else:
            measured = [shown(run.seconds, 2), shown(work.size / run.seconds), ratio, shown(run.instructions)]
        rows.append([name, *measured, shown(run.memory)])
    if work.is_small():
        print(f"{work.title}: {work.count * work.rounds:,} of {work.size * 1000:g} KB\n")
        show_table(["Formatter", "ms a document", "ours / peer", "instructions", "peak MB"], rows)
    else:
        print(f"{work.title}, {work.size} MB\n")
        show_table(["Formatter", "seconds", "MB/s", "ours / peer", "instructions a byte", "peak MB"], rows)
    return runs


def default_memory(program):
    """Prints our times and memory for documents of several sizes, without limits asked for, and returns the greatest
    memory."""
    rows, memories = [], []
    for command, kind, size in DEFAULT_WORKS:
        (run,) = best_of(Work("", kind, size), [ours(program, command)])
        name = f"{command}: {kind}, {size} MB"
        name += "" if run.status == 0 else f" (status {run.status})"
        rows.append([name, shown(run.seconds, 2), shown(size / run.seconds), shown(run.memory)])
        memories.append(run.memory)
    print("roff alone, at its default limits\n")
    show_table(["Document", "seconds", "MB/s", "peak MB"], rows)
    return None if None in memories else max(memories)


def rows_grow(program):
    """Prints how long a table takes, and one of four times as many rows, and returns for how many times the former."""
    rows, best = [], []
    with tempfile.TemporaryDirectory() as folder:
        for count in (FEW_ROWS, MANY_ROWS):
            path = os.path.join(folder, str(count))
            with open(path, "w", encoding="ascii") as file:
                file.write(make_text.Writer(0).table(count))
            runs = [spend([program, "both", *ROWS_OPTIONS, path]) for _ in range(ROWS_ROUNDS)]
            best.append(min(seconds for seconds, _ in runs))
            status = max(status for _, status in runs)
            name = f"{count:,} rows" if status == 0 else f"{count:,} rows (status {status})"
            memory = peak([program, "both", *ROWS_OPTIONS, path])
            rows.append([name, shown(best[-1], 3), shown(os.path.getsize(path) / MEGABYTE / best[-1]), shown(memory)])
    print("roff both, one table\n")
    show_table(["Table", "seconds", "MB/s", "peak MB"], rows)
    return best[1] / best[0]


def kinds_grow(program, counting):
    """Prints what `tbl` takes for a table of each kind, and for one of four times as many bytes, and returns the greatest
    number of times: of instructions where these are counted, and of seconds elsewhere."""
    rows, most = [], 0
    with tempfile.TemporaryDirectory() as folder:
        for name, front, text, behind in GROWING:
            taken = []
            for size in (0, FEW_BYTES, 4 * FEW_BYTES):
                path = os.path.join(folder, "document")
                with open(path, "w", encoding="ascii") as file:
                    file.write(front + text * (size // len(text)) + behind)
                words = [program, "tbl", *GROWING_OPTIONS, path]
                taken.append(counting[0](words) if counting[0] else min(spend(words)[0] for _ in range(ROWS_ROUNDS)))
            few, many = taken[1] - taken[0], taken[2] - taken[0]
            most = max(most, many / few)
            rows.append([name, shown(few / FEW_BYTES), shown(many / 4 / FEW_BYTES), shown(many / few, 2)])
    print(f"roff tbl, one table of {FEW_BYTES // 1000} KB and one of {4 * FEW_BYTES // 1000} KB of one kind, a byte\n")
    show_table(["Kind", "few", "many", "many / few"], rows)
    return most


def judged(title, aim, value):
    """Returns the row of an aim: what is wanted, what was measured, and whether it is met."""
    if value is None:
        return [title, aim.wanted(), "?", "not measured"]
    return [title, aim.wanted(), shown(value, 2), "met" if aim.is_met(value) else "MISSED"]


def machine():
    with open("/proc/cpuinfo", encoding="utf-8") as file:
        names = [line.split(":", 1)[1].strip() for line in file if line.startswith("model name")]
    model = names[0] if names else platform.machine()
    load = os.getloadavg()[0]
    return f"{os.cpu_count()} cores, {model}, {platform.system()} {platform.release()}, load {load:.1f}"


def main():
    words = sys.argv[1:]
    works = WORKS_ON_TABLES if words[:1] == ["--tables"] else WORKS + WORKS_ON_TABLES
    words = words[1:] if words[:1] == ["--tables"] else words
    if len(words) > 1 or words in (["-h"], ["--help"]):
        sys.exit(__doc__.strip())
    program = os.path.abspath(words[0]) if words else PROGRAM
    if not is_there(program):
        sys.exit(f"bench/run.py: {program} is missing; ./roff --prove builds it")
    if not is_there(GNU_TIME):
        print(f"{GNU_TIME} isn't installed: no memory is measured")
    formatters, counting, aims = all_formatters(program), counter(), []
    print(f"{machine()}, {time.strftime('%Y-%m-%d')}; instructions counted by {counting[1]}\n")
    with tempfile.TemporaryDirectory() as folder:
        for work in works:
            those = formatters[work.command]
            runs = compare(folder, work, those, counting)
            aims += [judged(work.title, aim, aim.figure(work, those, runs)) for aim in work.aims]
    growth = Aim(None, "times the time of a quarter of its rows", most=4.5)
    aims.append(judged("One table", growth, rows_grow(program)))
    growth = Aim(None, "times what a quarter of it takes", most=MOST_GROWTH)
    aims.append(judged("One table of each kind", growth, kinds_grow(program, counting)))
    memory = Aim(None, "MB", most=MOST_MEMORY)
    aims.append(judged("Memory", memory, default_memory(program)))
    for remark in [formatter.remark for formatter in formatters["nroff"] if formatter.remark]:
        print(f"Note: {remark}.\n")
    show_table(["Work", "Wanted", "measured", ""], aims, left=2)


if __name__ == "__main__":
    main()
