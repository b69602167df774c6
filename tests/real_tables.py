#!/usr/bin/env python3
"""Compares what the built program and groff's `tbl` make of the tables of real manual pages.

    tests/real_tables.py [--program PROGRAM] [FOLDER ..]      # /usr/share/man, if no folder is named

PROGRAM is crates/roff/out/roff if none is given. Each table that stands in a page of these folders, packed by gzip or not, is
taken once. Both programs format it, and groff's `troff` prints what each of them writes, for a device of characters. Where the
program has no message but of what is left out, both must look the same. That isn't asked for where groff means something else:
with the letter `x`, which widens a column; in a block in a column without `w`, which takes what other texts of the column need;
under the key `a`, which has a place more; where a table has escapes or characters that only groff has, or characters that are
two columns wide; where bars stand at other places; and where rows of rule keys do. groff makes no separation wider for its
bars, puts a bar elsewhere in one that isn't 3 columns wide, or draws it twice there, has one bar at an edge for two, and two
lines above and below a double box. A row of rule keys that is shorter than others takes a row of the data there, one at an edge
with bars rules the edge too, and a column that has no text has a place. groff's left edge lacks its blank, each edge takes a
place less where it centres, its rules over tables without a right edge are one column longer, and its double rules are single
ones: that is made alike first. How many tables are of which kind, and which messages they have, is told too. It wants groff.
The exit status is 1 if something differs.
"""
import collections
import concurrent.futures
import gzip
import os
import pathlib
import re
import subprocess
import sys
import unicodedata

sys.dont_write_bytecode = True
from table_format import BARS
from table_items import CHARACTERS
from table_picture import APART, Picture
from table_reading import Row, RuleRow, Table

TOP = pathlib.Path(__file__).resolve().parent.parent
PROGRAM = TOP / "crates" / "roff" / "out" / "roff"
PAGES = "/usr/share/man"
TABLE = re.compile(rb"^\.TS(?=[ \t\n]).*?^\.TE(?=[ \t\n]|\Z)[^\n]*\n?", re.M | re.S)
# What stands before a table: no hyphens, no ends of lines but at blanks, no adjusting, and a page that is long enough.
BEFORE = b".nh\n.na\n.pl 5000v\n.cflags 0 -\\[hy]\\[em]\\[en]\\[mi]/\n"
# Escapes that only groff has.
OF_GROFF = re.compile(rb"(?<!\\)(?:\\\\)*\\(?:[\[/,:~)CRZABEFmMOVY]|[fns*]\[)")
CHARACTER = re.compile(rb"\\\((..)", re.S)
# The lines and corners of boxes on groff's other device, and what they are here.
BOX_SIGNS = str.maketrans("─│┌┐└┘├┤┬┴┼═‐", "-|+++++++++=-")
# Characters that groff's simplest device doesn't have. On the other one each has one column.
LACKING = {"de", "di", "tm"}
SHOWN = 10
# The line length of all programs.
LINE = 65


def tables_in(path):
    """The tables of a page."""
    try:
        page = path.read_bytes()
        page = gzip.decompress(page) if page[:2] == b"\x1f\x8b" else page
    except (OSError, EOFError, gzip.BadGzipFile):
        return []
    return TABLE.findall(page.replace(b"\r\n", b"\n")) if b".TS" in page else []


def all_tables(folders):
    """Each table once, with a page that has it, in the order of their names."""
    found = {}
    for folder in folders:
        for path in sorted(pathlib.Path(folder).rglob("*")):
            if path.is_file():
                for table in tables_in(path):
                    found.setdefault(table, path)
    return found


def printed(text):
    """What groff's `troff` prints of a text, without blank lines around it. Characters are as wide as on the simplest device
    that has them."""
    device = "-Tascii" if text.isascii() else "-Tutf8"
    for words in (["preconv", "-e", "utf-8"], ["troff", device], ["grotty", "-cbou"]):
        text = subprocess.run(words, input=text, capture_output=True).stdout
    lines = [line.rstrip() for line in text.decode("utf-8", "replace").split("\n")]
    return "\n".join(lines).strip("\n")


def told(messages):
    """The texts of messages, without what they name."""
    return [re.sub(rb"tbl: line \d+: ([a-z ]+).*", rb"\1", line).decode() for line in messages.splitlines()]


def is_of_groff(table):
    """Whether a table has escapes or characters that only groff has, or that are as wide there alone."""
    text = table.decode("utf-8", "replace")
    names = {name.decode("latin-1") for name in CHARACTER.findall(table)}
    known = {name for name, printed in CHARACTERS.items() if table.isascii() and name not in LACKING or len(printed) == 1}
    # A soft hyphen is none on groff's devices.
    wide = any(unicodedata.east_asian_width(sign) in "WF" for sign in text)
    return bool(OF_GROFF.search(table)) or bool(names - known) or wide or "\u00ad" in text


def read_table(table):
    """What the lines of a table say."""
    return Table(list(enumerate(table.split(b"\n")[1:table.rstrip(b"\n").count(b"\n")], 2)))


def as_groff_rules(lines, table):
    """These lines with edges and rules as groff makes them."""
    read = read_table(table)
    picture = Picture(read, LINE)
    # Where groff centres, each edge takes a place less.
    edges = bool(picture.left) + bool(picture.right)
    indent, more = (max(0, LINE - width) // 2 if read.is_centred else 0 for width in (picture.width, picture.width - edges))
    longer = "" if picture.right else "-"
    lines = [line.replace("=", "-") + longer if re.fullmatch(" *[+=-]+", line) and len(line) == indent + picture.width else line
             for line in lines]
    if picture.left:
        lines = [line[:indent + 1] + line[indent + 2:] for line in lines]
    return [" " * (more - indent) * bool(line) + line for line in lines]


def has_other_bars(table):
    """Whether groff puts bars of a table at other places."""
    read = read_table(table)
    picture = Picture(read, LINE)
    barred = [column for column in range(read.keys - 1) if read.has_all_bars or read.most_bars.get(column + 1)]
    separations = {read.apart.get(column, APART) for column in barred} | {picture.apart[column] for column in barred}
    return read.frame == BARS or BARS in read.most_bars.values() or not separations <= {APART}


def has_other_rules(table):
    """Whether groff draws rows of rule keys of a table otherwise."""
    read = read_table(table)
    picture = Picture(read, LINE)
    rows = [row for row in read.elements if isinstance(row, RuleRow)]
    has_edge, has_empty_column = picture.left + picture.right > 0, not all(picture.widths)
    return bool(rows) and (has_edge or has_empty_column or any(len(row.signs) < read.keys for row in rows))


def is_measured_otherwise(table):
    """Whether groff gives a table other widths."""
    read = read_table(table)
    rows = [row for row in read.elements if isinstance(row, Row)]
    blocks = [row.taking[number] for row in rows for number, field in enumerate(row.fields)
              if isinstance(field, list) and row.keeps(number)]
    has_x = any(what.lower() == b"left out: x" for _, what in read.told)
    return has_x or any(column not in read.least for column in blocks) or any(b"a" in row.keys for row in rows)


def compare(table):
    """Which messages a table has, what it counts for, and what differs."""
    done = subprocess.run([PROGRAM, "tbl", "-"], input=table, capture_output=True)
    messages = collections.Counter(set(told(done.stderr)))
    if done.returncode or set(messages) - {"left out"}:
        return messages, "pass" if "bad format" in messages else "have other messages", None
    if is_of_groff(table):
        return messages, "have what only groff has", None
    if is_measured_otherwise(table):
        return messages, "are measured otherwise", None
    if has_other_bars(table):
        return messages, "have bars at other places", None
    if has_other_rules(table):
        return messages, "have other rules", None
    theirs = subprocess.run(["tbl"], input=BEFORE + table, capture_output=True).stdout
    ours, theirs = (printed(text).translate(BOX_SIGNS) for text in (BEFORE + done.stdout, theirs))
    ours = "\n".join(as_groff_rules(ours.split("\n"), table))
    return messages, "are the same" if ours == theirs else "differ", None if ours == theirs else (ours, theirs)


def main():
    global PROGRAM
    words = sys.argv[1:]
    if words[:1] == ["--program"]:
        PROGRAM, words = pathlib.Path(words[1]).resolve(), words[2:]
    if not PROGRAM.exists():
        raise SystemExit("tests/real_tables.py: %s is missing; ./roff --prove builds it" % PROGRAM)
    found = all_tables(words or [PAGES])
    if not found:
        raise SystemExit("tests/real_tables.py: there are no tables in %s" % " ".join(words or [PAGES]))
    messages, kinds, shown = collections.Counter(), collections.Counter(), 0
    with concurrent.futures.ThreadPoolExecutor(os.cpu_count()) as pool:
        for (table, path), (told_of, kind, different) in zip(found.items(), pool.map(compare, found)):
            messages.update(told_of)
            kinds[kind] += 1
            if different and shown < SHOWN:
                shown += 1
                print("%s:\n%s\nours:\n%s\ngroff's:\n%s\n" % (path, table.decode("utf-8", "replace"), *different))
    print("%d tables: %s" % (len(found), ", ".join("%d %s" % (count, kind) for kind, count in kinds.most_common())))
    print("tables with messages: " + ", ".join("%d %s" % (count, text) for text, count in messages.most_common()))
    sys.exit(1 if kinds["differ"] else 0)


if __name__ == "__main__":
    main()
