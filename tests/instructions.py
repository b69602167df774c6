#!/usr/bin/env python3
"""Counts the built program's instructions on fifteen small documents, beside those that are stored.

    tests/instructions.py [PROGRAM]        # crates/roff/out/roff, if none is given
    tests/instructions.py --store          # stores what the built program takes now

A document of 60 KB of each kind (bench/make_text.py) is formatted under callgrind, and one of the same kind without text, which is
taken away. What is stored stands in tests/instructions.txt: a kind, and its instructions. More by a twentieth than there is a
failure, and so are fields that take more than half as much again as tabs, tables with boxes that take more than 250 a byte, and those
with spans that take more than 200; the exit status is 1 then. Fewer is told too, so that a new count can be stored. The count is the
same in each run of a program, whatever else the machine does; C libraries differ by less than a hundredth. It wants valgrind, and
takes half a minute.
"""
import os
import pathlib
import re
import subprocess
import sys
import tempfile

sys.dont_write_bytecode = True
TOP = pathlib.Path(__file__).resolve().parent.parent
sys.path.insert(0, str(TOP / "bench"))
import make_text

PROGRAM = TOP / "crates" / "roff" / "out" / "roff"
STORED = TOP / "tests" / "instructions.txt"
SIZE = 60_000
# A kind of document, and the command that formats it.
KINDS = {"text": "nroff", "requests": "nroff", "registers": "nroff", "macros": "nroff", "headers": "nroff", "escaped": "nroff",
         "diversions": "nroff", "code": "nroff", "tabs": "nroff", "fields": "nroff", "tables": "both", "measured": "tbl",
         "boxes": "tbl", "spans": "tbl", "blocks": "tbl"}
MORE = 1.05
# As much as tabs that open fields may take beside those that open none.
MOST_OF_FIELDS = 1.5
# As many instructions a byte as tables with boxes, and with spans, may take.
MOST_OF_TABLES = {"boxes": 250, "spans": 200}


def count_of(program, command, kind, size, folder):
    """Returns the instructions that formatting a document takes."""
    document, log = os.path.join(folder, "document"), os.path.join(folder, "log")
    with open(document, "wb") as file:
        make_text.write_document(kind, size, file)
    words = ["valgrind", "--tool=callgrind", "--callgrind-out-file=/dev/null", f"--log-file={log}", program, command, document]
    none = subprocess.DEVNULL
    if subprocess.run(words, stdin=none, stdout=none, stderr=none, check=False).returncode != 0:
        sys.exit(f"tests/instructions.py: {' '.join(words)} failed")
    with open(log, encoding="utf-8", errors="replace") as file:
        return int(re.search(r"Collected : (\d+)", file.read())[1])


def counts_of(program):
    """Returns what the text of a document of each kind takes."""
    with tempfile.TemporaryDirectory() as folder:
        return {
            kind: count_of(program, command, kind, SIZE, folder) - count_of(program, command, kind, 0, folder)
            for kind, command in KINDS.items()
        }


def stored():
    """Returns what is stored of each kind."""
    return {kind: int(count) for kind, count in (line.split() for line in STORED.read_text().splitlines())}


def main():
    words = [word for word in sys.argv[1:] if word != "--store"]
    if len(words) > 1 or words and words[0].startswith("-"):
        sys.exit(__doc__.strip())
    program = os.path.abspath(words[0]) if words else str(PROGRAM)
    if not os.access(program, os.X_OK):
        sys.exit(f"tests/instructions.py: {program} is missing; ./roff --prove builds it")
    counts = counts_of(program)
    if "--store" in sys.argv:
        STORED.write_text("".join(f"{kind} {count}\n" for kind, count in counts.items()))
        return
    before, failures = stored(), 0
    for kind, count in counts.items():
        ratio = count / before.get(kind, count)
        failures += ratio > MORE
        print(f"{kind:9} {count / SIZE:7.1f} instructions a byte, {100 * (ratio - 1):+5.1f} %{'  too many' if ratio > MORE else ''}")
    fields = counts["fields"] / counts["tabs"]
    failures += fields > MOST_OF_FIELDS
    print(f"fields take {fields:.2f} times as much as tabs{'  too many' if fields > MOST_OF_FIELDS else ''}")
    for kind, most in MOST_OF_TABLES.items():
        taken = counts[kind] / SIZE
        failures += taken > most
        print(f"{kind} take {taken:.1f} instructions a byte, and may take {most}{'  too many' if taken > most else ''}")
    print(f"{len(counts)} kinds, {failures} failures")
    sys.exit(1 if failures else 0)


if __name__ == "__main__":
    main()
