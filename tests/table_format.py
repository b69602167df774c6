"""What the options and formats of a table say (part of the model of tests/tables.py)."""
from table_items import BLANK, DOT, TAB

GREATEST = 2147483647
COLUMN = 24
SCALES = {"i": (240, 1), "P": (40, 1), "p": (10, 3), "c": (12000, 127), "m": (24, 1), "n": (24, 1), "v": (40, 1), "u": (1, 1)}
OPERATORS = ("<=", ">=", "==", "+", "-", "*", "/", "%", "<", ">", "=", "&", ":")
DEEPEST = 32
KEYS = b"lrcnas^_-="
# The keys of rules: a cell under one is as this field.
RULES = {b"_": b"_", b"-": b"_", b"=": b"="}
# How many bars stand at a boundary at most.
BARS = 2


class Bad(Exception):
    """A table can't be formatted, on this line."""


class NoNumber(Exception):
    """An expression has no value."""


def cut(text, separates):
    """The pieces of a text between bytes that stand outside brackets."""
    pieces, piece, inside = [], b"", False
    for byte in text:
        if not inside and byte in separates:
            pieces.append(piece)
            piece = b""
            continue
        piece += bytes([byte])
        inside = byte == ord("(") or inside and byte != ord(")")
    return pieces + [piece]


class Expression:
    """A number at a place of a text, in basic units; one without a scale letter counts columns."""

    def __init__(self, text, at):
        self.text, self.at = text.decode("latin-1"), at

    def value(self, depth=0):
        value = self.operand(depth)
        while operator := next(filter(lambda operator: self.text.startswith(operator, self.at), OPERATORS), None):
            self.at += len(operator)
            value = self.ranged(applied(operator, value, self.operand(depth)))
        return value

    def ranged(self, value):
        if not -GREATEST - 1 <= value <= GREATEST:
            raise NoNumber
        return value

    def operand(self, depth):
        sign = self.text[self.at:self.at + 1]
        if sign in ("+", "-") and sign:
            self.at += 1
        size = self.unsigned(depth)
        return self.ranged(-size if sign == "-" else size)

    def unsigned(self, depth):
        if self.text.startswith("(", self.at):
            if depth == DEEPEST:
                raise NoNumber
            self.at += 1
            value = self.value(depth + 1)
            if not self.text.startswith(")", self.at):
                raise NoNumber
            self.at += 1
            return value
        before = self.digits()
        after = ""
        if self.text.startswith(".", self.at):
            self.at += 1
            after = self.digits()
        if not before + after:
            raise NoNumber
        times, part = (COLUMN, 1)
        if self.at < len(self.text) and self.text[self.at] in SCALES:
            times, part = SCALES[self.text[self.at]]
            self.at += 1
        after = after[:9]
        return int(before + after or "0") * times // (10 ** len(after) * part)

    def digits(self):
        start = self.at
        while self.at < len(self.text) and self.text[self.at] in "0123456789":
            self.at += 1
        return self.text[start:self.at]


def applied(operator, left, right):
    if operator in "/%":
        if right == 0:
            raise NoNumber
        size = abs(left) // abs(right)
        quotient = size if (left < 0) == (right < 0) else -size
        return quotient if operator == "/" else left - right * quotient
    return {"+": left + right, "-": left - right, "*": left * right, "<": left < right, ">": left > right, "<=": left <= right,
            ">=": left >= right, "=": left == right, "==": left == right, "&": left > 0 and right > 0, ":": left > 0 or right > 0,
            }[operator] + 0


def end_of_digits(line, at):
    """The place behind the digits that begin at a place of a line."""
    while line[at:at + 1].isdigit():
        at += 1
    return at


class FormatRow:
    """A row of the format: its keys, how many bars stand in front of the first one and behind each,
    the last letter `t` or `d` of each that has one, and which have a letter `z`."""

    def __init__(self):
        self.keys, self.bars, self.sides, self.widthless = b"", {}, {}, set()

    def bars_here(self):
        """How many bars stand behind its last key so far, or in front of the first one."""
        return self.bars.get(len(self.keys), 0)

    def is_of_rules(self):
        """Whether all keys that are written are those of rules."""
        return all(bytes([key]) in RULES for key in self.keys)


class Format:
    """What the options and all rows of keys of a table ask for."""

    def __init__(self):
        self.told, self.in_data = [], False
        self.separator, self.is_centred, self.is_expanded = TAB, False, False
        # How many bars the box has at its edges, and whether each inner boundary has one too.
        self.frame, self.has_all_bars = 0, False
        # The rows of keys of the format in force, whether it is the first one, the row that is
        # open, and how many keys the longest of all formats has.
        self.formats, self.is_first, self.begun, self.keys = [], True, None, 0
        # What the keys of a column ask for: blanks behind it, columns at least, and the same width as others.
        self.apart, self.least, self.equal = {}, {}, set()
        # The most bars that a row of any format has at a boundary, by how many keys stand before it.
        self.most_bars = {}

    def tell(self, number, what):
        self.told.append((number, what))

    # Options.

    def options(self, number, text):
        words = [word for word in cut(text, b" \t,") if word]
        while words:
            option = words.pop(0)
            if option.lower() in (b"tab", b"delim", b"linesize") and words and self.is_option(option + words[0]):
                option += words.pop(0)
            self.option(number, option)

    def is_option(self, option):
        name, bracket, inside = option.lower().partition(b"(")
        return bool(bracket) and inside.endswith(b")") and (
            name == b"tab" and len(inside) == 2 or name == b"delim" and len(inside) == 3 or name == b"linesize")

    def option(self, number, option):
        small = option.lower()
        if small in (b"center", b"centre"):
            self.is_centred = True
        elif small == b"expand":
            self.is_expanded = True
        elif small in (b"box", b"frame", b"allbox"):
            self.frame = max(self.frame, 1)
            self.has_all_bars |= small == b"allbox"
        elif small in (b"doublebox", b"doubleframe"):
            self.frame = 2
        elif not self.is_option(option):
            self.tell(number, b"option ignored: " + option[:32])
        elif small.startswith(b"tab"):
            self.separator = option[4:5]

    # The format.

    def format(self, number, line):
        """A line of keys, numbers and letters, up to the dot."""
        at = 0
        while at < len(line):
            byte = line[at:at + 1].lower()
            at += 1
            if byte in (BLANK, TAB):
                continue
            if byte == DOT:
                self.end_keys(number)
                if not self.formats:
                    raise Bad(number)
                self.in_data = True
                return
            if byte == b",":
                self.end_keys(number)
                continue
            row = self.begun = self.begun or FormatRow()
            if byte in KEYS:
                row.keys += byte
                self.keys = max(self.keys, len(row.keys))
                if self.spans_nothing(row):
                    raise Bad(number)
            elif byte == b"|":
                self.bar(number, row)
            elif not row.keys or row.bars_here():
                raise Bad(number)
            else:
                at = self.behind_key(number, line, at - 1)
        self.end_keys(number)

    def spans_nothing(self, row):
        """Whether its last key is an `s` in the first column, or a `^` in the table's first row."""
        return row.keys == b"s" or row.keys.endswith(b"^") and self.is_first and not self.formats

    def bar(self, number, row):
        boundary, bars = len(row.keys), row.bars_here() + 1
        if bars > BARS:
            raise Bad(number)
        row.bars[boundary] = bars
        self.most_bars[boundary] = max(self.most_bars.get(boundary, 0), bars)

    def end_keys(self, number):
        """The row that is open ends; one of bars alone is none."""
        row, self.begun = self.begun, None
        if row and not row.keys:
            raise Bad(number)
        self.formats += [row] if row else []

    def behind_key(self, number, line, at):
        """A number or letter at this place, behind a key. Answers the place behind it."""
        column, letter = len(self.begun.keys) - 1, line[at:at + 1]
        if letter.isdigit():
            end = end_of_digits(line, at)
            self.apart[column] = max(self.apart.get(column, 0), min(int(line[at:end]), GREATEST))
            return end
        at += 1
        small = letter.lower()
        if small == b"w":
            return self.width_asked(number, line, at, column)
        if small == b"e":
            self.equal.add(column)
        elif small in b"pv":
            at += line[at:at + 1] in (b"+", b"-") and at < len(line)
            end = end_of_digits(line, at)
            if end == at:
                raise Bad(number)
            return end
        elif small in b"fm":
            return self.named(number, line, at, letter)
        elif small == b"x":
            self.tell(number, b"left out: " + letter)
        elif small in b"td":
            self.begun.sides[column] = small
        elif small == b"z":
            self.begun.widthless.add(column)
        elif small not in b"biu":
            raise Bad(number)
        return at

    def width_asked(self, number, line, at, column):
        is_open = line[at:at + 1] == b"("
        end = at + 1 if is_open else end_of_digits(line, at)
        number_at = Expression(line if is_open else line[:end], end if is_open else at)
        try:
            rounded = number_at.ranged((number_at.value() + COLUMN // 2) // COLUMN * COLUMN)
        except NoNumber:
            raise Bad(number) from None
        if is_open and line[number_at.at:number_at.at + 1] != b")":
            raise Bad(number)
        self.least[column] = max(self.least.get(column, 0), max(0, rounded // COLUMN))
        return number_at.at + is_open

    def named(self, number, line, at, letter):
        """The name of a font, or of a macro."""
        if line[at:at + 1] == b"(":
            end = line.find(b")", at) + 1
        elif letter in b"fF":
            end = at + 1
            end += b"A" <= line[end:end + 1] <= b"Z"
        else:
            end = at + 2
        if not at < end <= len(line):
            raise Bad(number)
        if letter in b"mM":
            self.tell(number, b"left out: " + letter)
        return end
