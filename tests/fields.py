#!/usr/bin/env python3
"""Makes documents dense in tabs and in fields by chance, and compares what `nroff` makes of them with a plain model.

    tests/fields.py [--program PROGRAM] [DOCUMENTS [FIRST]]    # 5,000 documents from that of number 0, if none are named
    tests/fields.py [--program PROGRAM] --groff                # compares the unfilled lines of the table with groff's, if it is there

PROGRAM is crates/roff/out/roff if none is given. In front of all comes a table of lines: stops of each kind, one to three fields,
gaps in them and at their ends, text that is longer than the way to its stop, `\\c`, motions, to a place too, stops behind the place,
and stops that are changed within a field; each without filling, filled, centred and adjusted, and with `.ta` and letters of all
bytes. The documents have the same among all that tests/diversions.py has: traps, macros, diversions, environments, centred and
interrupted lines, on short pages and mostly within small limits. Those of a number are the same in each run. The model stands in
tests/field_model.py. The exit status is 1 if something differs.
"""
import itertools
import random
import subprocess
import sys

sys.dont_write_bytecode = True
import diversions
import interrupted
from field_model import Model

PROGRAM = interrupted.PROGRAM
KINDS = ["", "R", "C"]
# What stands in a field: nothing, short text, text with gaps, with a gap at its end or its front, and too long ones.
TEXTS = ["", "a", "ab", "abc", "a b", "a  b", "ab ", " ab", "abcdefghijk", "a\\ b", "\\h'2'a", "\\&", "\xc3\xa9", "a.", "a. ", "a. )",
         "a.) ]", "a\\c"]
MODES = {
    "without filling": [".nf"], "filled": [".na"], "adjusted": [".ad b"], "adjusted on the right": [".ad r"],
    "centred": [".ce 99"], "filled on short lines": [".ll 14", ".na"], "adjusted on short lines": [".ll 14", ".ad b"],
}


# the table
def lines_of_table():
    """Lines with the stops that are in force: what is tried in each mode."""
    for kind, text in itertools.product(KINDS, TEXTS):
        yield ["8" + kind], ["\t" + text]
        yield ["8" + kind, "16" + kind], ["x\t" + text + "\ty"]
        yield ["4" + kind], ["x\t" + text + "\t" + text + "\ty"]
    for kinds in itertools.product(KINDS, repeat=3):
        stops = ["%d%s" % stop for stop in zip((7, 15, 22), kinds)]
        for texts in (("1.50", "22", "abc"), ("a b", "c ", "d"), ("", "a", ""), ("abcdefghi", "", "b "), ("a.", " b", "c  d")):
            yield stops, ["".join("\t" + text for text in texts)]
            yield stops, ["i " + "\t".join(texts)]
    for kind in KINDS:
        stops = ["8" + kind, "20" + kind]
        yield stops, ["\tab\\c", "cd"]
        yield stops, ["\tab\\c", ".br", "cd"]
        yield stops, ["\tab\\c", "\tcd\\c", "", "e"]
        yield stops, ["\tab\\c", ".ta 5R", "cd\te"]
        yield stops, ["\tab \\c", " c"]
        yield stops, ["\\tab\\\tcd"]
        yield stops, ["\ta\\h'|3'b"]
        yield stops, ["\ta\\h'|12'b"]
        yield stops, ["\ta b\\h'|6'c\td\\h'|19'e"]
        yield stops, ["abcdefghijklmnopqrstuvwxyz\tab\tc"]
        yield stops, ["  \ta", "b"]
        yield stops, ["\ta", "", "\tb "]


def table_documents():
    for (mode, settings), (stops, lines) in itertools.product(MODES.items(), lines_of_table()):
        yield "%s, stops %s" % (mode, " ".join(stops)), [".pl 12"] + settings + [".ta " + " ".join(stops)] + lines + ["f g"]
    for byte in range(33, 256):
        letter = chr(byte)
        if letter.isdigit() or letter in "+-*/%()=<>&:.|\"\\cimnpuvP\x7f":
            continue
        yield "a letter %r" % letter, [".pl 3", ".nf", ".ta 8n%s +8n%sR" % (letter, letter), "\tab\tcd"]


# documents by chance
def stops(chance):
    """The arguments of `.ta`."""
    place = lambda: chance.choice(["", "", "", "+", "+", "|"]) + str(chance.choice([0, 1, 2, 3, 4, 5, 6, 8, 9, 12, 20]))
    kind = lambda: chance.choice(["", "", "n", "n", "u", "n+1", "+1n"]) + chance.choice(["R", "R", "R", "C", "C", "C", "", "", "x", "RC", "r"])
    count = chance.choice([0, 1, 1, 1, 2, 2, 3, 4, 33 if chance.random() < 0.1 else 5])
    wrong = chance.choice([" R", " x", " +", " -3R", " (4)R", " (4n)C"]) if chance.random() < 0.08 else ""
    return "".join(" " + place() + kind() for _ in range(count)) + wrong


def words(chance):
    """A text line with tabs."""
    some = ["a", "bb", "cc", "1.5", "22", "f.", "g.)", ")", "\\&", "\\ ", "\\0", "\\e", "\xc3\xa9", "\\(em", "\\%", "\\h'2'", "\\h'0'",
            "\\h'|%d'" % chance.randrange(14), "\\n(nl", "\\*S", "f. )", "h.) ]", "f.\\c"]
    tab = lambda: chance.choice(["\t", "\t", "\t", "\t", "\\t", "\\\t"])
    line = chance.choice(["", "", "", " ", "  "])
    for _ in range(chance.choice([1, 2, 3, 4, 6, 8])):
        line += chance.choice([tab, tab, lambda: " ", lambda: chance.choice(["  ", ""]), lambda: chance.choice(some), lambda: chance.choice(some[:6])])()
    line += chance.choice(["a", "", "", " ", "\\c", "\\c", " \\c", "\t"])
    return "x" + line if line[:1] in (".", "'") else line


def a_line(chance, macros):
    """A line of a document: half of them have tabs."""
    kind = chance.random()
    if kind < 0.45:
        return words(chance)
    return ".ta" + stops(chance) if kind < 0.57 else diversions.a_line(chance, macros)


def paragraphs(chance):
    """The lines of a document of long lines, mostly filled, most of which have tabs."""
    others = [".br", ".sp", "", ".ce", ".ce 2", ".ti 3", ".in 2", ".in", ".ad l", ".ad r", ".ad c", ".ad b", ".na", ".nf", ".fi", ".fi", ".ls 2", ".ls",
              ".ev 1", ".ev", ".ll 20", ".ll 40", "a bb ccc", "dd. ) e.", "\\c"]
    lines = [".pl %d" % chance.choice([1, 3, 9, 30]), ".ll %d" % chance.choice([20, 30, 40, 60]), chance.choice([".na", ".ad b", ".ad r"])]
    for _ in range(chance.choice([5, 10, 20, 40])):
        kind = chance.random()
        lines.append(words(chance) if kind < 0.7 else ".ta" + stops(chance) if kind < 0.8 else chance.choice(others))
    return lines


def document(chance):
    """The lines of a document: paragraphs, or one of tests/diversions.py with lines that have tabs."""
    front = [".ta" + stops(chance)] if chance.random() < 0.9 else []
    return front + (paragraphs(chance) if chance.random() < 0.4 else diversions.document(chance, a_line))


# another formatter
def is_of_both(name, lines):
    """Whether lines of the table mean the same to groff: it counts a gap at a field's end, and moves a text that is too long to the
    left of its tab; in it a `\\c` ends a line, and `\\t` is no tab, nor does it read characters of several bytes so."""
    model = Model({})
    model.run(lines)
    text = "".join(lines)
    return name.startswith("without filling") and not model.odd_fields and not any(part in text for part in ("\\c", "\\t", "'|", "\xc3"))


def printed_lines(command, lines):
    run = subprocess.run(command, input="".join(line + "\n" for line in lines).encode("latin-1"), capture_output=True, timeout=60)
    return run.stdout.decode("latin-1").rstrip("\n")


def differs_from_groff(program, name, lines):
    ours = printed_lines([program, "nroff"], lines)
    # On a device that moves by columns alone.
    theirs = printed_lines(["groff", "-T", "latin1", "-P", "-cbou"], [".nh"] + lines)
    if ours != theirs:
        print("%s:\n%s\n  ours   %r\n  groff's %r" % (name, "\n".join(lines), ours, theirs))
    return ours != theirs


def main():
    words_given, program = diversions.words_and_program("fields.py")
    table = list(table_documents())
    if words_given == ["--groff"]:
        table = [(name, lines) for name, lines in table if is_of_both(name, lines)]
        differ = sum(differs_from_groff(program, name, lines) for name, lines in table)
        print("%d documents of the table, %d differ from groff's" % (len(table), differ))
        return 1 if differ else 0
    count, first = ([int(word) for word in words_given] + [5000, 0][len(words_given):])[:2]
    differ = sum(diversions.differs(program, name, lines, {}, Model) for name, lines in table)
    for number in range(first, first + count):
        chance = random.Random(number)
        differ += diversions.differs(program, "document %d" % number, document(chance), diversions.limits(chance), Model)
    print("%d documents of the table and %d by chance, %d differ" % (len(table), count, differ))
    return 1 if differ else 0


if __name__ == "__main__":
    sys.exit(main())
