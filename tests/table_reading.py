"""What the lines of a table say, and above all those of its data (part of the model of tests/tables.py)."""
import table_items
from table_format import RULES, Bad, Format, cut
from table_items import BACKSLASH, BLANK, DOT, TAB


class Row:
    """A row of the data: the row of keys that serves it, its fields and the lines of its blocks,
    and whether a surplus was told. So many columns were known as it was read: those take a field in
    which a cell begins."""

    def __init__(self, format_row, columns):
        self.keys, self.bars, self.sides = format_row.keys, format_row.bars, format_row.sides
        self.widthless = format_row.widthless
        self.fields, self.told = [], False
        self.taking = [column for column in range(columns) if self.key(column) != b"s"]

    def key(self, column):
        """The key of a column. A row goes on with `l` behind those that are written."""
        return self.keys[column:column + 1] or b"l"

    def keeps(self, number):
        """Whether the field of this number is there, and not under `^` or the key of a rule, which
        take a field and ignore it."""
        return number < len(self.taking) and self.key(self.taking[number]) not in (b"^", *RULES)

    def contents(self):
        """The fields by their columns."""
        return dict(zip(self.taking, self.fields))

    def columns_from(self, column, columns):
        """Of so many columns those of the cell that begins in this one: its own, and those of the
        keys `s` behind it."""
        end = column + 1
        while end < columns and self.key(end) == b"s":
            end += 1
        return range(column, end)

    def side(self, columns):
        """Where in several rows a cell over these columns stands: `t` at their top, `d` at their
        bottom, and else in their middle."""
        sides = [self.sides[column] for column in columns if column in self.sides]
        return sides[-1] if sides else None

    def is_widthless(self, columns):
        """Whether an entry over these columns has no width: one of their keys has a `z`."""
        return any(column in self.widthless for column in columns)


def kind_of(field):
    """What a field is, if it is no text: a rule, a repeated character, or what goes on from above."""
    if field in (b"_", b"=", b"\\_"):
        return "rule"
    if field == b"\\^":
        return "from above"
    if len(field) == 3 and field[:2] == b"\\R" and field[2:] != BACKSLASH and table_items.columns_of_byte(field[2]) == 1:
        return "repeated"
    return None


def kind_of_line(line):
    """What a line of the data is, if it is no row."""
    if line in (b"_", b"="):
        return "rule"
    if line[:1] == DOT and not line[1:2].isdigit():
        return "further format" if line[:3] == b".T&" and line[3:4] in (b"", BLANK, TAB) else "command"
    return None


class Rule:
    """A rule over the whole table, and the byte it is drawn with."""

    def __init__(self, sign):
        self.sign = sign


class RuleRow:
    """A row of the format that serves no row of the data, and is drawn before one: the sign of each column that it rules."""

    def __init__(self, format_row):
        self.signs = [b"=" if key == ord("=") else b"-" for key in format_row.keys]
        self.bars = format_row.bars


class Table(Format):
    """What the lines of a table say, each with its number."""

    def __init__(self, lines):
        super().__init__()
        # Rows, rules, rows of rules and commands, how many count, and which row of keys comes next.
        self.elements, self.count, self.next = [], 0, 0
        self.is_bad, self.is_closing = False, False
        # The lines that go on, the row that was begun last, and the lines of its block that is open.
        self.joined, self.row, self.block = [], None, None
        for place, (number, line) in enumerate(lines):
            self.do(self.line, place, number, line)

    def do(self, read, *words):
        """Reads something, unless the table passes already."""
        if not self.is_bad:
            try:
                read(*words)
            except Bad as bad:
                self.tell(bad.args[0], b"bad format")
                self.is_bad = True

    def line(self, place, number, line):
        if self.in_data:
            self.joined.append((number, line))
            if not line.endswith(BACKSLASH):
                self.whole_line()
            return
        if place == 0:
            options, *behind = cut(line, b";")
            if behind:
                self.options(number, options)
                line = line[len(options) + 1:]
        self.format(number, line)

    # The data.

    def whole_line(self):
        """The lines that were read are joined, and judged."""
        lines, self.joined = self.joined, []
        line, numbers = b"", []
        for number, part in lines:
            part = part[:-1] if part.endswith(BACKSLASH) else part
            line += part
            numbers += [number] * len(part)
        numbers.append(lines[-1][0])
        if self.block is not None:
            self.line_of_block(line, numbers)
        elif kind_of_line(line) == "rule":
            self.count += 1
            self.elements.append(Rule(b"-" if line == b"_" else b"="))
        elif kind_of_line(line) == "further format":
            self.in_data, self.formats, self.is_first, self.next = False, [], False, 0
        elif kind_of_line(line) == "command":
            self.count += 1
            self.elements.append(line)
        else:
            self.row = Row(self.next_keys(), self.keys)
            self.fields(line, numbers, 0)

    def next_keys(self):
        """The row of keys that serves the next row. Rows of rule keys in front of it are drawn, but for the last row of a format."""
        last = len(self.formats) - 1
        while self.next < last and self.formats[self.next].is_of_rules():
            self.elements.append(RuleRow(self.formats[self.next]))
            self.next += 1
        self.next += 1
        return self.formats[min(self.next - 1, last)]

    def line_of_block(self, line, numbers):
        if line[:1] == DOT:
            self.tell(numbers[0], b"request in text block")
        elif line[:2] != b"T}":
            self.notes(line, numbers, 0)
            self.block.append(line)
        else:
            self.block = None
            behind = line.find(self.separator, 2) + 1
            if behind:
                self.fields(line, numbers, behind)
            else:
                self.end_row()

    def fields(self, line, numbers, at):
        """The fields of a row from a place of its line on."""
        fields = line[at:].split(self.separator)
        opens = fields[-1].strip(BLANK) == b"T{"
        surplus = None
        for field in fields[:len(fields) - opens]:
            place = len(self.row.fields)
            if self.row.keeps(place):
                if kind_of(field) is None:
                    self.notes(field, numbers, at)
            elif place >= len(self.row.taking) and surplus is None:
                surplus = numbers[at - 1]
            self.row.fields.append(field)
            at += len(field) + 1
        if opens:
            if len(self.row.fields) == len(self.row.taking) and surplus is None:
                surplus = numbers[at - 1]
            self.block = []
            self.row.fields.append(self.block)
        if surplus is not None and not self.row.told:
            self.tell(surplus, b"too many fields")
            self.row.told = True
        if not opens:
            self.end_row()

    def notes(self, text, numbers, at):
        """What isn't measured of a text that is kept."""
        if self.block is not None and not self.row.keeps(len(self.row.fields) - 1):
            return
        for item in table_items.items(text):
            if item.note is not None:
                self.tell(numbers[at], b"not measured: \\" + item.note)
            at += len(item.source)

    def end_row(self):
        self.count += 1
        self.elements.append(self.row)

    def close(self):
        """Behind its last line: one that goes on ends, and so does a block."""
        self.is_closing = True
        if self.joined:
            self.do(self.whole_line)
        if self.block is not None and not self.is_bad:
            self.block = None
            self.end_row()

    def end_format(self, number):
        """At the `.TE` line."""
        if not self.in_data:
            self.do(self.lack_dot, number)

    def lack_dot(self, number):
        raise Bad(number)
