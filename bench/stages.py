#!/usr/bin/env python3
"""Counts the built program's instructions by stage, and prints a table and a graph.

    bench/stages.py [--functions] [PROGRAM]

PROGRAM is crates/roff/out/roff where none is given. It formats a document of 300 KB of each kind (make_text.py) under
callgrind. A function counts for the stage that its module belongs to, and one of a library, which belongs to none, for
the stage that called it. A function that the compiler put into another one counts there. What a document of the same
kind without text takes is taken away. With `--functions`, the functions that take most are listed too. It takes about a
minute.
"""
import collections
import os
import re
import subprocess
import sys
import tempfile

sys.dont_write_bytecode = True
import make_text

HERE = os.path.dirname(os.path.realpath(__file__))
PROGRAM = os.path.join(os.path.dirname(HERE), "crates", "roff", "out", "roff")

SIZE = 300_000
PRELUDE = b".nh\n"
KINDS = ("text", "requests", "registers", "code", "macros", "loop", "skipped", "pages", "escaped", "diversions", "tables", "measured",
         "blocks")
# The command that a kind of document is for, where it isn't `nroff`.
COMMANDS = {"tables": "both", "measured": "both", "blocks": "both"}

# The stages, and the modules or functions of each. The longest name that a function begins with decides. The compiler
# puts `Engine::format` into `job::run`, or that into `program::run_over`, with the turn of a byte that stands ready and
# with the glyph that it adds; and the calls of the environment into functions of `Formatter`.
STAGES = {
    "turn": ["roff_tools::job", "roff_tools::program::run_over", "roff_engine", "run_shortcuts", "run_turns"],
    "source": ["input_source::source", "cli_devices", "roff_tools"],
    "unread": ["roff_scan::unread", "input_ahead", "input_model"],
    "reader": [
        "read_lines",
        "read_steps",
        "read_shortcuts",
        "read_registers",
        "read_requests",
        "read_meaning",
        "read_names",
        "read_obeying",
        "run_model",
        "roff_scan",
        "input_arguments",
        "input_escapes",
        "input_source",
        "roff_num",
    ],
    "formatter": ["run_items", "run_events"],
    "environment": [
        "page_model",
        "roff_lines",
        "run_state",
        "run_events::formatter::Formatter::end_word",
        "run_events::formatter::Formatter::perform_text",
    ],
    "pages": ["roff_pages"],
    "writing": ["page_bytes", "roff_lines::stretch"],
    "store": ["roff_store"],
    "tables": ["tbl_options", "tbl_format", "tbl_text", "tbl_layout", "tbl_pieces", "tbl_lines", "tbl_line_cells", "tbl_laws", "tbl_tall", "tbl_picture", "tbl_giving", "tbl_data", "tbl_kept", "tbl_table", "tbl_core", "tbl_run"],
}
REST = "rest"

# What clears and copies memory, for any stage.
COPYING = re.compile(r"_*mem(set|cpy|move)")

# How long the longest bar is, and how many functions are listed for each kind.
LONGEST_BAR = 60
LISTED = 12


def stage_of(function):
    """Returns the stage that a function belongs to, or None for one of a library."""
    modules = [(module, stage) for stage, modules in STAGES.items() for module in modules]
    found = [(len(module), stage) for module, stage in modules if f"{function}::".startswith(f"{module}::")]
    return max(found)[1] if found else None


def plain(function):
    """Returns a function's name without the types that it was built for."""
    return re.sub(r"::<.*|\+start$", "", function)


def read_profile(path):
    """Returns what each function took by itself, and what each took in calls of each other function."""
    names, own, called = {}, collections.Counter(), collections.Counter()
    function = callee = None
    with open(path, encoding="utf-8", errors="replace") as file:
        for line in file:
            if match := re.match(r"(c?fn)=(\(\d+\))(?: (.*))?", line):
                which, number, name = match.groups()
                names.setdefault(number, plain(name or "?"))
                if which == "fn":
                    function = names[number]
                else:
                    callee = names[number]
            elif match := re.match(r"[-+*\d]\S* (\d+)$", line):
                if callee is None:
                    own[function] += int(match[1])
                else:
                    called[function, callee] += int(match[1])
                    callee = None
    return own, called


def profile(program, kind, size, folder):
    """Formats a document under callgrind, and returns what its functions took, as `read_profile` does."""
    document, path = os.path.join(folder, "document"), os.path.join(folder, "profile")
    with open(document, "wb") as file:
        file.write(PRELUDE)
        make_text.write_document(kind, size, file)
    words = ["valgrind", "--tool=callgrind", f"--callgrind-out-file={path}", program, COMMANDS.get(kind, "nroff"), document]
    none = subprocess.DEVNULL
    if subprocess.run(words, stdin=none, stdout=none, stderr=none).returncode != 0:
        sys.exit(f"bench/stages.py: {' '.join(words)} failed")
    return read_profile(path)


def by_stage(own, called):
    """Returns what each stage took, with the library's functions that it called, and last the rest."""
    taken = collections.Counter()
    for function, count in own.items():
        taken[stage_of(function)] += count
    for (function, callee), count in called.items():
        if stage_of(function) is not None and stage_of(callee) is None:
            taken[stage_of(function)] += count
            taken[None] -= count
    return [taken[stage] for stage in STAGES] + [taken[None]]


def show_table(heads, rows):
    """Prints a table: the first column to the left, the others to the right."""
    widths = [max(len(row[i]) for row in [heads, *rows]) for i in range(len(heads))]
    for row in [heads, ["-" * width for width in widths], *rows]:
        first, *others = [cell.rjust(width) for cell, width in zip(row, widths)]
        print("| " + " | ".join([first.strip().ljust(widths[0]), *others]) + " |")
    print()


def show_graph(stages, figures):
    """Prints a bar for each stage of each kind, all on one scale."""
    most = max(count for counts in figures.values() for count in counts)
    width = max(len(stage) for stage in stages)
    print(f"One # is {most / LONGEST_BAR:.1f} instructions a byte.\n")
    for kind, counts in figures.items():
        print(f"{kind}, {sum(counts):.1f}")
        for stage, count in zip(stages, counts):
            if count < 0.05:
                continue
            print(f"  {stage.ljust(width)} {count:6.1f} {'#' * round(count * LONGEST_BAR / most)}".rstrip())
        print()

def show_functions(figures):
    for kind, counts in figures.items():
        print(f"{kind}, the functions that take most")
        for function, count in counts.most_common(LISTED):
            print(f"  {count:6.1f} {function}, {stage_of(function) or 'library'}")
        print()


def main():
    words = [word for word in sys.argv[1:] if word != "--functions"]
    if len(words) > 1 or words and words[0].startswith("-"):
        sys.exit(__doc__.strip())
    program = os.path.abspath(words[0]) if words else PROGRAM
    if not os.access(program, os.X_OK):
        sys.exit(f"bench/stages.py: {program} is missing; ./roff --prove builds it")
    stages, functions = {}, {}
    with tempfile.TemporaryDirectory() as folder:
        for kind in KINDS:
            full, empty = [profile(program, kind, size, folder) for size in (SIZE, 0)]
            stages[kind] = [(more - less) / SIZE for more, less in zip(by_stage(*full), by_stage(*empty))]
            functions[kind] = collections.Counter({name: (full[0][name] - empty[0][name]) / SIZE for name in full[0]})
    heads, rows = [*STAGES, REST], []
    for kind, counts in stages.items():
        copying = sum(count for name, count in functions[kind].items() if COPYING.match(name))
        rows.append([kind, *(f"{count:.1f}" for count in [*counts, sum(counts), copying])])
    show_table(["Document", *heads, "all", "of it copying"], rows)
    show_graph(heads, stages)
    if "--functions" in sys.argv:
        show_functions(functions)


if __name__ == "__main__":
    main()
