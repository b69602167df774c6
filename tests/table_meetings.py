"""Tables of which lines of each kind meet: rows and rules in each box, with bars above and below;
and tables on lines of each length (part of tests/tables.py)."""
import itertools

BOXES = [b"", b"box ", b"allbox ", b"doublebox ", b"doublebox allbox "]
# The bars of a row of keys: at its edges and between its columns.
BARS = [b"", b"|", b"||"]
# What stands on a line: a row of the data, a rule over the whole width, or a command.
LINES = [b"a:bb", b"_:_", b"=:_", b"\\_:\\Rx", b"_", b"=", b".sp"]
# Rows of rule keys in front of the lower row.
RULE_ROWS = [b"", b"_ _\n", b"= _\n", b"_\n", b"|_||=|\n"]
AROUND = list(itertools.product(BOXES, BARS, BARS, RULE_ROWS))
BETWEEN = [lines for count in range(3) for lines in itertools.product(LINES, repeat=count)]

# Lengths of lines, options of tables whose pictures go by them, and formats with data.
LENGTHS = range(81)
BY_THE_LINE = [b"center", b"expand", b"center box", b"expand allbox", b"center doublebox",
               b"expand center box"]
FORMATS_AND_DATA = [
    b"l r.\na:bb\n_\nccc:d\n",
    b"l2 || c0 | n l.\na:b:1.5\nc:d:22:e\n",
    b"l | l s\n^ | l l.\nT{\nsome words of a block\nT}:T{\nmore of them here\nT}\na:b\n",
    b"l.\nwider than many of the lines are\n"]


def keys(bars):
    """A row of keys with these bars."""
    return bars + b"l" + bars + b"r" + bars + b"\n"


def table_of(box, above, below, rule_rows, lines):
    """A table of two rows with these bars, these lines between them, and these rule keys in front
    of the second one."""
    formats = keys(above) * (1 + sum(b":" in line for line in lines)) + rule_rows + keys(below)
    data = b"".join(line + b"\n" for line in [b"a:b", *lines, b"c:d"])
    return b".TS\n" + box + b"tab(:);\n" + formats[:-1] + b".\n" + data + b".TE\n"


TABLES = [table_of(*around, lines) for around, lines in itertools.product(AROUND, BETWEEN)]
BY_LENGTH = [(length, b".TS\n" + options + b" tab(:);\n" + rest + b".TE\n")
             for length, options, rest in itertools.product(LENGTHS, BY_THE_LINE, FORMATS_AND_DATA)]
