#!/usr/bin/env python3
"""Counts the instructions that a line takes, by kinds of lines that manual pages and macro files are made of.

    bench/lines.py [PROGRAM]

PROGRAM is crates/roff/out/roff where none is given. A document has 200 lines of a kind, and one has 2,200: what the second takes more
under callgrind is what 2,000 lines take, without the start. 9base's nroff and mandoc count beside it where they are installed. It takes
a minute.
"""
import os
import re
import subprocess
import sys
import tempfile

HERE = os.path.dirname(os.path.realpath(__file__))
PROGRAM = os.path.join(os.path.dirname(HERE), "crates", "roff", "out", "roff")
BEFORE = (".nh", ".ds a some text", ".de B", ".ft 3", "\\&\\\\$1", ".ft", "..", ".de n", ".nr z +1", "..", ".de m", ".n", "..", ".de xx", "..")
# What a kind is called, and its lines.
KINDS = (
    ("a comment behind text", ['a few words \\" and what is said of them']),
    ("a comment behind a request", ['.br \\" what is said of it']),
    ("a comment behind a request's numbers", ['.nr x 1 \\" what is said of it']),
    ("a comment behind a macro's arguments", ['.xx one two \\" what is said of it']),
    ("a comment as a line", ['.\\" what is said of nothing']),
    ("more than nine arguments", [".xx a b c d e f g h i j k l"]),
    ("arguments with escapes", [".xx \\-f \\fIname\\fR"]),
    ("nested calls of names of one byte", [".m"]),
    ("a macro of manual pages", [".B foo"]),
    ("the width of a string", [".nr x \\w'\\*a'"]),
    ("ignored lines with escapes", [".ig", "ignored \\fBwords\\fR and \\n(aa", "and \\*(bb more", ".."]),
    ("a definition with escapes", [".de yy", "words \\fB\\\\$1\\fR and \\\\n(aa", ".nr x \\\\$1", ".."]),
    ("a line put behind a macro", [".am yy", "words", "..", ".rm yy"]),
    ("a condition of a register", [".if \\nx .nr y 1"]),
    ("a condition that compares texts", [".if 'x'y' .nr y 1"]),
)


def instructions(words, document):
    """The instructions that formatting a document takes, in all processes."""
    with tempfile.TemporaryDirectory() as folder:
        path = os.path.join(folder, "document")
        with open(path, "w", encoding="ascii") as file:
            file.write(document)
        log, none = os.path.join(folder, "log.%p"), subprocess.DEVNULL
        command = ["valgrind", "--tool=callgrind", "--callgrind-out-file=/dev/null", f"--log-file={log}", "--trace-children=yes", *words, path]
        subprocess.run(command, stdin=none, stdout=none, stderr=none, check=False)
        logs = (os.path.join(folder, name) for name in os.listdir(folder) if name.startswith("log."))
        return sum(int(count) for log in logs for count in re.findall(r"Collected : (\d+)", open(log, encoding="ascii", errors="replace").read()))


def taken_by_line(words, lines):
    """The instructions that a line of these takes, and how many bytes it has."""
    few, many = ("\n".join([*BEFORE, *lines * count, ""]) for count in (200, 2_200))
    return (instructions(words, many) - instructions(words, few)) / (2_000 * len(lines)), sum(len(line) + 1 for line in lines) / len(lines)


def main():
    if len(sys.argv) > 2 or sys.argv[1:2] and sys.argv[1].startswith("-"):
        sys.exit(__doc__.strip())
    program = sys.argv[1] if sys.argv[1:] else PROGRAM
    if not os.access(program, os.X_OK):
        sys.exit(f"bench/lines.py: {program} is missing; ./roff --prove builds it")
    peers = {"roff": [program, "nroff"], "9base": ["/usr/lib/plan9/bin/nroff"], "mandoc": ["mandoc", "-Tascii"]}
    found = {name: words for name, words in peers.items() if subprocess.run(["which", words[0]], stdout=subprocess.DEVNULL).returncode == 0}
    print(f"{'instructions a line, and a byte':42}" + "".join(f"{name:>18}" for name in found))
    for kind, lines in KINDS:
        counts = [taken_by_line(words, lines) for words in found.values()]
        print(f"{kind:42}" + "".join(f"{line:10.0f} {line / size:7.1f}" for line, size in counts), flush=True)


if __name__ == "__main__":
    main()
