#!/usr/bin/env python3
"""Makes documents with tables by chance, and compares what the built program makes of them with a plain model.

    tests/tables.py [OPTIONS] [DOCUMENTS [FIRST]]   # 3000 documents from number 0 on, or so many
    tests/tables.py [OPTIONS] --bytes               # tables with each byte in many places
    tests/tables.py [OPTIONS] --shapes              # cells of every shape in three columns and rows
    tests/tables.py [OPTIONS] --narrow              # the same without blanks between columns
    tests/tables.py [OPTIONS] --meetings            # lines of every kind between two rows, in each box
    tests/tables.py [OPTIONS] --lengths             # tables on lines of each length up to 80

With `--program PROGRAM` this one is compared, and else crates/roff/out/roff. The model (tests/table_model.py) is `roff tbl`: output, messages and status must be the same, also
within small limits. `roff both` must be what `roff nroff` makes of the model's output. A document
is the same in each run, by its number; in the tables of document N the byte N mod 256 may be the
separator. The exit status is 1 if something differs.
"""
import concurrent.futures
import os
import pathlib
import random
import subprocess
import sys
import tempfile

sys.dont_write_bytecode = True
import table_meetings
import table_narrow
import table_shapes
from table_model import Model
from table_reading import kind_of

TOP = pathlib.Path(__file__).resolve().parent.parent
PROGRAM = TOP / "crates" / "roff" / "out" / "roff"
# How many differences are shown, and how many documents are compared at once.
SHOWN, AT_ONCE = 20, os.cpu_count()

PLAIN = [b"a", b"bb", b"1.5", b"a word", b"", b"\xc3\xa9", b" x ", b"\x02", b".", b"T", b"x\x01", b"-12", b"ccc dd"]
NUMBERS = [b"1", b"22", b"3.25", b".5", b"7.", b"$1,250.00", b"1.2.3", b"a.b", b"x1y", b"...", b"12\\&34", b"\\&", b"ab\\&",
           b"3\\.5", b"1\\fB.\\fR5", b"1.\x015", b"\\&1.5", b"none", b"\\(121.5", b"5\\0", b" 1.5 "]
ESCAPES = ([b"\\" + bytes([value]) for value in b"\\e'`-. 0&%|^fs(*n$cwht{}abdDgHjklLNopPrRSuvxXyz!\"\x02\t\x80\x01"]
           + [b"\\fBbold\\fR", b"\\f(CWx\\fP", b"\\s8x\\s0", b"\\s-2x", b"\\s12x", b"\\s+", b"\\(em", b"\\(bu", b"\\(co", b"\\(zz", b"\\(e",
              b"\\n(xx", b"\\nx", b"\\n+x", b"\\*(ab", b"\\*x", b"\\$1", b"\\h'3'", b"\\w'ab'", b"\\v'1'", b"\\o'ab'", b"\\k(ab",
              b"\\f\\abc", b"\\n\\nxy", b"\\f(\\abc", b"\\w'\\w\"a'\"b'", b"\\h'\\w\"a'", b"\\w'\\\"'", b"\\x'", b"\\l\"a\"", b"\\z"])
BLOCK_LINES = [b"one two", b"One.", b"two.  three", b"", b" ", b"  set in", b"a", b"word", b"longer-word", b"end?'", b"\\fBx\\fR y.", b"\\fB", b" \\fB",
               b"\\fB \\fR x", b"a \\fB b", b"\\&", b".br", b".5", b".T&", b"x \\c", b"x\\", b"\\(em y", b"tail ", b"stop. ", b"\\\" note", b"a\tb", b"T{",
               b"\x01", b"\x02", b"\x01 ", b"a\x01 b", b"\\ x", b"...", b"(so.)", b"\\(rq.\\(rq", b"a \x01 b", b"\\n(xx.", b"\xc3\xa9t\xc3\xa9", b"_", b"\\^"]
IGNORED_FIELDS = [b"", b"a", b"wider than all", b"\\^", b"_", b"=", b"\\_", b"\\Rx", b"1.5", b"\\nx", b"\\w'a'", b"\\c", b"x\\&"]
ODD_FIELDS = 3 * [b"_", b"="] + [b"\\_", b"\\^", b"\\Rx", b"\\R ", b"\\R\\", b"\\R\xc3", b"\\Rxy", b"_ ", b"==", b" =", b"\\\n_", b"\\^\\^", b"\\R\x80"]
LINES_OF_DATA = [b"_", b"=", b"_ ", b".sp", b".", b".5", b".T", b".T&x", b".TS", b".nf\\\nx", b"\\_", b".\\\nT&", b"", b" ", b":", b"T}", b"T}:x", b"\\"]
PIECES = PLAIN + NUMBERS + ESCAPES + ODD_FIELDS + LINES_OF_DATA + BLOCK_LINES + 9 * [b":", b"\t", b"\n"] + 3 * [b"T{\n", b"\nT}", b"\\\n"]
OPTIONS = [b"center", b"Centre", b"expand", b"EXPAND", b"tab(:)", b"TAB(:)", b"tab(;)", b"tab())", b"tab( )", b"tab(.)", b"tab(T)", b"tab(\\)",
           b"tab(\x01)", b"tab (:)", b"tab\t(;)", b"linesize(12)", b"linesize (9)", b"delim($$)", b"delim ($$)", b"delim($)", b"tab", b"tab (xx)",
           b"left", b"box (1)", b"box", b"allbox", b"frame", b"doublebox", b"DoubleFrame", b"tab()", b"nokeep",
           b"an-option-of-more-than-thirty-two-bytes", b"(;)", b"tab(:)x", b"delim tab (:)", b"center(1)", b"linesize", b"linesize ()"]
PLAIN_OPTIONS = OPTIONS[:17] + 2 * [b"allbox", b"box", b"doublebox"]
KEYS = [b"l", b"r", b"c", b"n", b"a", b"n", b"L", b"R", b"N", b"A"]
KEYS_OF_RULES = [b"_", b"_", b"-", b"=", b"="]
LETTERS = [b"3", b"0", b"12", b"1 7", b"e", b"E", b"w(9)", b"w5", b"W(3n)", b"w(0)", b"w0", b"w(1i/2)", b"w(2+3)", b"w((2)*3)", b"w(.5i)", b"w(0-1)",
           b"w12 ", b"t", b"d", b"b", b"i", b"u", b"p8", b"p+2", b"v-1", b"v9", b"fB", b"f(CW)", b"fCW", b"f.", b"f,", b"f|", b"fB,", b"x", b"X", b"m(ab)",
           b"mab", b"M..", b" ", b"\t", b"99999999999"]
ODD_LETTERS = [b"z", b"|", b"|||", b"| 3", b"||e", b"s", b"^", b"_", b"-", b"=", b"w", b"w(", b"w()", b"w(x)", b"w(5", b"w( 5)", b"w 5", b"w(5 )", b"w(9)9)", b"w(1/0)",
               b"w(2147483647)", b"w9.", b"w(|1)", b"w(-(3))", b"w(5))", b"p", b"p+", b"v", b"f", b"f(", b"f(B", b"m", b"ma", b"m(", b"q", b"\\", b"(", b"w99999999999"]
FRONTS = [b" ", b"\t", b"3", b"|,", b"| | |", b"e", b","]
# Bars before, between and behind keys.
BARS = [b"|", b"|", b"||", b" | ", b" || ", b"| |", b"\t|", b"|\t|", b"|| "]
# Texts that are wider than some columns together, and blocks.
WIDE = [b"wider than both", b"wider than three columns are", b"1234567.125", b"12345\\&67890",
        b"ab\\&", b"\\fBa heading\\fR over", b"x\\(em\\(emy and z", b"  between  ", b"longer-word-than-all"]
# What stands in many fields where entries have no width: nothing, so that others run on over it, and what they may lose or not.
BESIDE = 22 * [b""] + 2 * WIDE + [b"abc   ", b"ab\\(em\\&\\fRc", b"\\&\\fBab", b"a\\ \\(14", b"\xc3\xa9\xc3\xa9\xc3\xa9", b"a\x01b\x02c",
                                  b"   a", b"\\&\\c", b"\x01", b"\\fB"]
LINES = [b"text\n", b".TS x\n", b".TSx\n", b".TE\n", b".ts\n", b" .TS\n", b".TS", b"\n", b".nf\n", b".\n", b"\\&.TS\n"]
ENDS = 12 * [b".TE\n"] + [b".TE", b".TE \n", b".TE\tx\n", b".TEx\n.TE\n", b".T", b".", b"", b".TE .TS\n"]

# Tables in which each byte stands in the place of `%`: behind a backslash, as a key and a letter, in a field and at its end.
AROUND = (b".TS\nl%.\na\n.TE\n", b".TS\n%l.\na\n.TE\n", b".TS\nl % r.\na\tb\n.TE\n", b".TS\n;l%9,l%e.\na\n.TE\n", b".TS\nlf%B lm%% lw%3.\na\tb\n.TE\n",
          b".TS\ntab(:);\nl l n.\na%b:x%:y%1.5\n%:%\n\\%x:\\%:a\\%\n.TE\n", b".TS\ntab(:);\nn l.\n1\\%.5:\\%(ab\\%\\ c\\%\n\\f%x:\\f\\%x\n.TE\n",
          b".TS\ntab(:);\nl l.\na\\(%m:\\(e%\n\\n%x:\\n(%x\n\\n\\%x:\\s%1\n\\w%a\\%b%c:\\h%1%x\n.TE\n", b".TS\n%;\nl.\n%\n%x\nx%\n%%\n.TE\n",
          b".TS\ntab(%);l l n.\na%b%1.5\n%\\%\nT{\na%b\n%\n.%\nT}%x\n.TE\n", b".TS\ntab(:);\nlw(7) l.\nT{\na% b.%\n%a %\\% c\\%\n\\%\nT}%:x\n.T&%\nl.\n.%\n\\R%:x\n.TE\n",
          b".TS\ntab %(:);tab(%%) l.\na\n.TE\n", b".TS\nl.\na\\\n%\\\n.TE%\nx\n.TE\n",
          b".TS\nallbox tab(:);c s%l,l%s|s\nl l%,_ s l.\n"
          b"%a:b\nx%y:%:z\n%T{\na%b c\nT}:%\n\\R%:%\n%\n.TE\n",
          b".TS\nallbox tab(:);l l%l,^%s|^%\n^%l ^.\n"
          b"a%b:b:c\n\\^%:\\^\n%:\\%^:%\n\\^:\\^:%T{\n%\nT}\n%\n\\^%:\\^:\\^\n.TE\n",
          b".TS\ntab(:);lz l%,rz|^%z l.\nab%cd::x\n%abcdef::%\nT{\na%bc\n%\nT}:\\^:x%\nabc%::\n.TE\n",
          b".TS\nallbox tab(:);n%sz lz\n^ s aZ%.\n1.%5 and more::\n\\^:%a b%\nab%\\&cd:\\%:c%\n.TE\n",
          b".TS\nbox tab(:);_%|_,l|l\n=%l%,_l.\na:b\n%:c%\n%T{\n%\n.%\nT}%:x:%\n.TE\n", b".TS\n%_%,|%|l||%.\na%b\nT{\n%a\nT}\tc\n.TE\n")


def joined(chance, text):
    """A line as it is, or over two lines of the input."""
    if text and chance.random() < 0.04:
        at = chance.randint(0, len(text))
        return text[:at] + b"\\\n" + text[at:]
    return text


def field(chance, kinds):
    kind = chance.random()
    if chance.random() < chance.widthless:
        return chance.choice(BESIDE)
    if kind < chance.odd:
        return chance.choice(ODD_FIELDS)
    if kind < chance.odd + chance.spans / 2:
        return chance.choice(WIDE + 4 * [b"\\^"])
    if kind < 0.45:
        return chance.choice(kinds)
    if kind < 0.7:
        return chance.choice(NUMBERS)
    return b"".join(chance.choices(PLAIN[:4] + NUMBERS[:4] + 2 * ESCAPES, k=chance.randint(1, 4)))


def block(chance):
    lines = [joined(chance, chance.choice(BLOCK_LINES)) for _ in range(chance.randint(0, 4))]
    return b"T{\n" + b"".join(line + b"\n" for line in lines) + (b"T}" if chance.random() < 0.97 else b"")


def row(chance, columns, separator, blocks):
    """A row: most often as many fields as there are columns, of which some are blocks."""
    count = columns if chance.random() < 0.75 else chance.randint(0, columns + 2)
    # Where keys span columns, fewer fields are taken.
    count = columns - len(chance.spanned) if chance.random() < chance.spans else count
    cells = []
    for column in range(count):
        # Where many fields are rules, many stand beside the same one.
        if cells and kind_of(cells[-1]) and chance.random() < chance.odd:
            cells.append(cells[-1])
        elif column in chance.ruled and chance.random() < 0.6:
            cells.append(chance.choice(IGNORED_FIELDS))
        else:
            cells.append(block(chance) if chance.random() < blocks else joined(chance, field(chance, PLAIN)))
    return separator.join(cells)


def data_line(chance, columns, separator, blocks):
    kind = chance.random()
    if kind < 0.86:
        return row(chance, columns, separator, blocks)
    if kind < 0.93:
        return joined(chance, chance.choice(LINES_OF_DATA if chance.random() < 0.4 else LINES_OF_DATA[:7]))
    if kind < 0.96:
        return b".T&" + chance.choice([b"", b" x", b"\t"]) + b"\n" + formats(chance, columns)
    return b"".join(chance.choices(PIECES, k=chance.randint(0, 6)))


def rows_of_keys(chance):
    """For each row of keys whether it has those of rules alone: one to three rows that aren't, and what stands around them."""
    rows = []
    for _ in range(chance.randint(1, 3)):
        rows += chance.randint(1, 3) * [True] if chance.random() < chance.rules else []
        rows.append(False)
    return rows + chance.choice([[True], 2 * [True]]) if chance.random() < chance.rules / 4 else rows


def keys_of_row(chance, columns, is_of_rules, is_first):
    """The keys of a row with their numbers and letters; whether it is the first one."""
    count = columns + chance.choice([0, 0, 0, -1, 1])
    if is_of_rules and chance.random() < 0.5:
        count = chance.randint(1, columns + 1)
    keys, rules = [], chance.choice([KEYS_OF_RULES, KEYS_OF_RULES[:1], KEYS_OF_RULES[-1:]])
    for column in range(max(1, count)):
        letters = chance.choices(LETTERS, k=chance.choice([0, 0, 0, 1, 1, 2]))
        if chance.random() < 0.012:
            letters.append(chance.choice(ODD_LETTERS))
        if chance.random() < chance.widthless:
            letters.insert(chance.randint(0, len(letters)), chance.choice([b"z", b"z", b"Z"]))
        is_rule = is_of_rules or column in chance.ruled or chance.random() < chance.rules / 8
        kinds = rules if is_rule else KEYS
        if chance.random() < (chance.spans / 8 if is_rule else 0.9):
            kinds = spans_here(chance, column, is_first) or kinds
        keys.append(chance.choice(kinds) + b"".join(letters))
    return keys


def spans_here(chance, column, is_first):
    """The keys of spans that a column has, or none: most often where they can go on, and many as in
    other rows."""
    above = [b"^"] if not is_first and chance.random() < chance.spans else []
    often = 0.8 if column in chance.spanned else chance.spans / 4
    beside = [b"s", b"S"] if column and chance.random() < often else []
    return beside or above


def formats(chance, columns, is_first=False):
    """Rows of keys, and the dot; whether they are the table's first."""
    out = b""
    for number, is_of_rules in enumerate(rows_of_keys(chance)):
        gap = chance.choice([b"", b" ", b" "])
        front = chance.choice(FRONTS) if chance.random() < 0.01 else b""
        out += (chance.choice([b"\n", b"\n", b",", b", "]) if number else b"") + front
        keys = keys_of_row(chance, columns, is_of_rules, is_first and number == 0)
        out += b"".join(piece + (chance.choice(BARS) if chance.random() < chance.bars else gap)
                        for piece in [b"", *keys])
    return out + chance.choice(40 * [b"."] + [b". x", b"\n.", b"", b",."])


def table(chance, separator_tried):
    """A table by chance, and sometimes no end of it."""
    out, separator = chance.choice(6 * [b".TS\n"] + [b".TS \n", b".TS\tH\n"]), b"\t"
    if chance.random() < 0.8:
        kinds = PLAIN_OPTIONS if chance.random() < 0.93 else OPTIONS
        options = chance.choices(kinds, k=chance.choice([0, 1, 1, 2, 3]))
        if chance.random() < 0.3:
            options.append(b"tab(%c)" % separator_tried)
        elif chance.random() < 0.5:
            options.append(b"tab(:)")
        for option in options:
            bare = option.replace(b" ", b"", 1).replace(b"\t", b"", 1) if option[3:5] in (b" (", b"\t(") else option
            if bare[:4].lower() == b"tab(" and bare[5:] == b")":
                separator = bare[4:5]
        out += chance.choice([b" ", b",", b", ", b"\t"]).join(options) + b";" + chance.choice([b"\n", b"\n", b"", b" "])
    columns, blocks = chance.randint(1, 4) + (chance.spans > 0.2), chance.choice([0, 0, 0.1, 0.4])
    # The columns that have rules in each row.
    chance.ruled = {column for column in range(columns) if chance.random() < chance.rules / 2}
    # And those that many rows have within a cell.
    chance.spanned = {column for column in range(1, columns) if chance.random() < chance.spans / 2}
    out += formats(chance, columns, True) + b"\n"
    for _ in range(chance.randint(0, 6)):
        out += data_line(chance, columns, separator, blocks) + b"\n"
    if chance.random() < 0.06:
        out += data_line(chance, columns, separator, blocks) + b"\\\n"
    return out + chance.choice(ENDS)


def document(chance, separator_tried):
    """One to three tables, with lines around them; this byte is tried as a separator."""
    parts = []
    # In some documents many fields are rules, many boundaries have bars, and many keys are those of rules.
    chance.odd, chance.bars = chance.choice([0.03, 0.03, 0.4]), chance.choice([0, 0.1, 0.4, 0.8])
    chance.rules = chance.choice([0, 0.1, 0.4, 0.7])
    chance.spans = chance.choice([0, 0.2, 0.5, 0.8])
    # How many entries have no width.
    chance.widthless = chance.choice([0, 0.1, 0.4, 0.7])
    for _ in range(chance.choice([1, 1, 2, 3])):
        parts += chance.choices(LINES[:6] if chance.random() < 0.5 else LINES, k=chance.choice([0, 0, 1, 2]))
        parts.append(table(chance, separator_tried))
    if chance.random() < 0.3:
        parts.append(chance.choice(LINES))
    return b"".join(parts)


def limits_of(chance, source):
    """Most often none; else one or two, at what the document may just need."""
    most = {"rows": 9, "columns": 7, "text": len(source), "width": 90, "bytes": 2 * len(source), "output": 4 * len(source)}
    chosen = chance.sample(sorted(most), k=chance.choice([0, 0, 0, 1, 1, 2]))
    return {name: chance.randint(0, most[name]) for name in chosen}


def run(command, options, path):
    words = [PROGRAM, command, *("--%s=%d" % option for option in sorted(options.items())), path]
    done = subprocess.run(words, stdin=subprocess.DEVNULL, capture_output=True, timeout=60)
    return done.stdout, done.stderr, done.returncode


def told_by(part, messages):
    return [line for line in messages.split(b"\n") if line.startswith(part)]


def check_both(path, options, model):
    """`roff both` is `roff nroff` over what the model gives."""
    path.with_suffix(".given").write_bytes(model.output)
    wanted = run("nroff", {}, path.with_suffix(".given"))
    output, messages, status = run("both", options, path)
    told = told_by(b"tbl:", messages)
    if wanted[2] in (3, 4):
        # A limit of nroff's, or a command of a table, as a dot and `ab`, ends the run: what stands behind it isn't read.
        ends_alike = (output, status) == (wanted[0], wanted[2]) and told == told_by(b"tbl:", model.messages)[: len(told)]
        return None if ends_alike else "both ends with status %d behind %r" % (status, output)
    if told != told_by(b"tbl:", model.messages):
        return "both tells %r" % messages
    if model.status == 0 and ((output, status) != (wanted[0], wanted[2])
                              or told_by(b"nroff:", messages) != told_by(b"nroff:", wanted[1])):
        return "both differs: %r, status %d; wanted %r" % (output, status, wanted[0])
    if model.status == 3 and not (status == 3 and wanted[0].startswith(output)):
        return "both ends with status %d behind %r" % (status, output)
    return None


def compared(path, name, source, limits, length):
    """What is wrong with a document, and the model of it."""
    path.write_bytes(source)
    model = Model(source, limits, length)
    given = run("tbl", {**limits, "line-length": length}, path)
    wrong = []
    if given != (model.output, model.messages, model.status):
        wrong.append("tbl gives  %r\n  the model  %r" % (given, (model.output, model.messages, model.status)))
    if "output" not in limits and "bytes" not in limits:
        wrong += filter(None, [check_both(path, {**limits, "line-length": length}, model)])
    return ["%s, %r, length %d, %r:\n  %s" % (name, limits, length, source, what) for what in wrong], model


def check(folder, number):
    """A document by chance."""
    chance = random.Random(number)
    source = document(chance, number % 256)
    limits, length = limits_of(chance, source), chance.choice([65, 65, 30, 9, 0])
    return compared(folder / str(number), "document %d" % number, source, limits, length)


def check_byte(folder, number):
    """A document with one byte in one of the places above."""
    place, value = divmod(number, 256)
    source = AROUND[place].replace(b"%", bytes([value]))
    return compared(folder / str(number), "byte %d in document %d" % (value, place), source, {}, 65)


def check_shape(folder, number):
    """A document with a table whose cells have one of all shapes, in one of all kinds."""
    place, kind = divmod(number, len(table_shapes.KINDS))
    kinds = table_shapes.KINDS[(place + kind) % len(table_shapes.KINDS)]
    source = table_shapes.table(table_shapes.SHAPES[place], place + kind, kinds)
    return compared(folder / str(number), "kind %d of shape %d" % (kind, place), source, {}, 30)


def check_narrow(folder, number):
    """A document with a table without blanks between its columns."""
    return compared(folder / str(number), "narrow table %d" % number, table_narrow.TABLES[number], {}, 30)


def check_meeting(folder, number):
    """A document with a table of lines that meet."""
    return compared(folder / str(number), "meeting %d" % number, table_meetings.TABLES[number], {}, 65)


def check_length(folder, number):
    """A document with a table on a line of a length."""
    length, source = table_meetings.BY_LENGTH[number]
    return compared(folder / str(number), "length %d" % number, source, {}, length)


def main():
    global PROGRAM
    words = sys.argv[1:]
    if words[:1] == ["--program"]:
        PROGRAM, words = pathlib.Path(words[1]).resolve(), words[2:]
    if not PROGRAM.exists():
        raise SystemExit("tests/tables.py: %s is missing; ./roff --prove builds it" % PROGRAM)
    if words == ["--bytes"]:
        numbers, checked = range(256 * len(AROUND)), check_byte
    elif words == ["--shapes"]:
        numbers, checked = range(len(table_shapes.SHAPES) * len(table_shapes.KINDS)), check_shape
    elif words == ["--narrow"]:
        numbers, checked = range(len(table_narrow.TABLES)), check_narrow
    elif words == ["--meetings"]:
        numbers, checked = range(len(table_meetings.TABLES)), check_meeting
    elif words == ["--lengths"]:
        numbers, checked = range(len(table_meetings.BY_LENGTH)), check_length
    else:
        count, first = (list(map(int, words)) + [3000, 0][len(words):])[:2]
        numbers, checked = range(first, first + count), check
    failures, pictures, passed, stopped = [], 0, 0, 0
    with tempfile.TemporaryDirectory() as folder, concurrent.futures.ProcessPoolExecutor(AT_ONCE) as pool:
        for wrong, model in pool.map(checked, [pathlib.Path(folder)] * len(numbers), numbers, chunksize=16):
            failures += wrong
            pictures, passed, stopped = pictures + model.pictures, passed + model.passed, stopped + (model.status == 3)
    for failure in failures[:SHOWN]:
        print(failure)
    print("%d documents (%d tables laid out, %d that pass, %d documents stopped by a limit), %d differences"
          % (len(numbers), pictures, passed, stopped, len(failures)))
    sys.exit(1 if failures else 0)


if __name__ == "__main__":
    main()
