"""The texts of a table's cells, read as `nroff` reads its lines: items, their columns, and words (part of the model of
tests/tables.py)."""

NEWLINE, BLANK, TAB, DOT, BACKSLASH = b"\n", b" ", b"\t", b".", b"\\"
# Bytes that print nothing but stay, those that are dropped, and those that go on with a character of several bytes.
SILENT = {2, 3, 5, 6, 7}
DROPPED = (set(range(32)) | {127}) - SILENT - {9, 10}
GOES_ON = set(range(0x80, 0xC0))

CHARACTERS = {
    "em": "--", "en": "-", "hy": "-", "mi": "-", "pl": "+", "eq": "=", "mu": "x", "di": "/", "sl": "/", "+-": "+-", "bu": "*",
    "**": "*", "sq": "[]", "co": "(C)", "rg": "(R)", "tm": "(TM)", "14": "1/4", "12": "1/2", "34": "3/4", "fi": "fi", "fl": "fl",
    "ff": "ff", "Fi": "ffi", "Fl": "ffl", "aq": "'", "cq": "'", "aa": "'", "fm": "'", "oq": "`", "ga": "`", "dq": '"', "lq": '"',
    "rq": '"', "rs": "\\", "ba": "|", "br": "|", "or": "|", "ul": "_", "ru": "_", "->": "->", "<-": "<-", "<=": "<=", ">=": ">=",
    "!=": "!=", "==": "==", "ap": "~", "ti": "~", "ha": "^", "at": "@", "sh": "#", "Do": "$", "de": "deg"}
NAMED, DELIMITED, ALONE = b"gjk", b"hbDHlLNoSvxX", b"adpruz!ct{}\t"
COPIED = {ord("n"): "register", ord("*"): "string", ord("$"): "argument"}
MOST_NAMES, MOST_WIDTHS = 8, 8
STOPS, CLOSERS = b".?!", b"\"')]*"


def columns_of_byte(value):
    """How many columns a byte prints in."""
    return int(value not in DROPPED | SILENT | GOES_ON | {9, 10})


class Item:
    """A part of a text: its bytes, what it is (a blank, a glyph, nothing, dropped), what it prints, and how wide; for an
    escape or a tab that isn't measured the letter that is told. `\\&` is a glyph that prints nothing."""

    def __init__(self, source, what, printed=b"", columns=0, note=None):
        self.source, self.what, self.printed, self.columns, self.note = source, what, printed, columns, note

    def is_ampersand(self):
        return self.what == "glyph" and self.source[-1:] == b"&" and (self.printed, self.note) == (b"", None)


class Reader:
    """Reads a text from a place on; its end ends every escape."""

    def __init__(self, text, at=0):
        self.text, self.at = text, at

    def look(self):
        """The next byte that isn't dropped, and its place."""
        at = self.at
        while at < len(self.text) and self.text[at] in DROPPED:
            at += 1
        return (self.text[at], at) if at < len(self.text) else (None, at)

    def next(self):
        value, at = self.look()
        if value is not None:
            self.at = at + 1
        return value

    def to_end(self):
        """Passes over all that is left, but for bytes at its end that are dropped."""
        while self.next() is not None:
            pass

    def item(self):
        """The next item of the text."""
        start, value = self.at, self.text[self.at]
        self.at += 1
        if value == BACKSLASH[0]:
            what, printed, columns, note = self.escape()
        elif value in DROPPED:
            what, printed, columns, note = "dropped", b"", 0, None
        elif value == BLANK[0]:
            what, printed, columns, note = "blank", BLANK, 1, None
        elif value in SILENT:
            what, printed, columns, note = "nothing", b"", 0, None
        elif value == TAB[0]:
            what, printed, columns, note = "glyph", b"", 0, b"t"
        else:
            what, printed, columns, note = "glyph", bytes([value]), columns_of_byte(value), None
        return Item(self.text[start:self.at], what, printed, columns, note)

    def escape(self):
        """What stands behind a backslash of the text: what it is, what it prints, its columns, and what is told."""
        nothing = ("nothing", b"", 0, None)
        value = self.next()
        if value is None or value in SILENT or value in b"%|^":
            return nothing
        letter = bytes([value])
        if letter == b'"':
            self.to_end()
        elif letter == b"s":
            self.size()
        elif letter == b"f":
            self.name("font")
        elif letter == b"(":
            name = self.name("character")
            printed = CHARACTERS.get((name or b"").decode("latin-1"))
            return ("glyph", printed.encode(), len(printed), None) if printed else nothing
        elif letter in (b" ", b"0"):
            return "glyph", b"", 1, None
        elif letter == b"&":
            return "glyph", b"", 0, None
        elif value in COPIED or letter in NAMED:
            self.name(COPIED.get(value, "left out"))
            return "glyph", b"", 0, letter
        elif letter in DELIMITED:
            self.delimited(0)
            return "glyph", b"", 0, letter
        elif letter == b"w":
            self.width(0)
            return "glyph", b"", 0, letter
        elif letter in ALONE:
            return "glyph", b"", 0, b"t" if letter == TAB else letter
        else:
            return "glyph", BACKSLASH if letter == b"e" else letter, columns_of_byte(value), None
        return nothing

    def size(self):
        value, at = self.look()
        if value is not None and value in b"+-":
            self.next()
        follows = value is not None and value in b"+-123"
        if value is not None and value in b"0123456789":
            self.next()
        if follows and (digit := self.look()[0]) is not None and digit in b"0123456789":
            self.next()

    def name(self, kind, names=1):
        """A name, the last of so many within each other; none where the text ends before it."""
        is_open, first = kind == "character", b""
        while (unit := self.unit(names)) is not None:
            if first:
                return (first + unit)[:2]
            if len(unit) == 2:
                return unit
            if is_open:
                first = unit
            elif kind == "register" and unit in (b"+", b"-"):
                kind = "stepped register"
            elif unit == b"(" and kind != "argument":
                is_open = True
            else:
                return unit
        return first or None

    def unit(self, names):
        """A unit of a name: a byte, or a backslash and the byte behind it."""
        while (value := self.next()) is not None:
            if value != BACKSLASH[0]:
                return bytes([value])
            value = self.next()
            if value is None:
                return BACKSLASH
            if value == ord('"'):
                self.to_end()
            elif value not in COPIED:
                return {b"\\": b"\\", b".": b".", b"t": TAB}.get(bytes([value]), BACKSLASH + bytes([value]))
            elif names < MOST_NAMES:
                self.name(COPIED[value], names + 1)
        return None

    def delimited(self, widths):
        """A text between delimiters, in which names, comments and widths are read."""
        delimiter = self.next()
        while (value := self.next()) is not None and value != delimiter:
            if value == BACKSLASH[0]:
                self.copied_escape(widths)

    def copied_escape(self, widths):
        """An escape of such a text; None for the widths where these aren't read."""
        value = self.next()
        if value == ord('"'):
            self.to_end()
        elif value in COPIED:
            self.name(COPIED[value])
        elif value == ord("w") and widths is not None:
            self.width(widths)

    def width(self, widths):
        """A text that is measured, within so many others."""
        delimiter = self.next()
        while (value := self.next()) is not None and value != delimiter:
            if value == BACKSLASH[0] and widths >= MOST_WIDTHS:
                self.copied_escape(None)
            elif value == BACKSLASH[0]:
                self.measured_escape(widths + 1)

    def measured_escape(self, widths):
        value = self.next()
        if value == ord('"'):
            self.to_end()
        elif value == ord("s"):
            self.size()
        elif value == ord("w"):
            self.width(widths)
        elif value == ord("("):
            self.name("character")
        elif value is not None and (value in COPIED or value in b"f" + NAMED):
            self.name(COPIED.get(value, "left out"))
        elif value is not None and value in DELIMITED:
            self.delimited(widths)


def items(text):
    """The items of a text."""
    reader, found = Reader(text), []
    while reader.at < len(text):
        found.append(reader.item())
    return found


def columns_of(text):
    return sum(item.columns for item in text)


def front(text, columns):
    """The longest front of a text of items that is at most so many columns wide."""
    end, wide = 0, 0
    while end < len(text) and wide + text[end].columns <= columns:
        wide += text[end].columns
        end += 1
    return text[:end]


def split_place(text):
    """Where a text of items is split under `n`: so many are its left part, and whether the next one goes. Or none."""
    for place, item in enumerate(text):
        if item.is_ampersand():
            return place, True
    signs = [item.source if len(item.source) == 1 else b"" for item in text]
    are_digits = [sign.isdigit() for sign in signs]
    for place in range(len(text) - 1, -1, -1):
        if signs[place] == DOT and any(are_digits[max(0, place - 1):place + 2]):
            return place, False
    if any(are_digits):
        return len(text) - are_digits[::-1].index(True), False
    return None


class Word:
    """A word of a block: the blanks in front of it, its items, and whether a sentence ends behind it."""

    def __init__(self, gap, text):
        self.gap, self.text = gap, text
        glyphs = [item.printed or b" " for item in text if item.what == "glyph"]
        last = b"".join(glyphs).rstrip(CLOSERS)[-1:]
        self.ends_sentence = last != b"" and last in STOPS


def words(line):
    """The words of a line of a block; none if it is one of blanks alone."""
    text = items(line)
    if all(item.what in ("blank", "dropped") for item in text):
        return None
    found, gap, run = [], 0, []
    for item in text + [Item(b"", "blank")]:
        if item.what != "blank":
            run.append(item)
            continue
        if any(part.what == "glyph" for part in run):
            found.append(Word(gap, run))
            gap = 0
        run = []
        gap += 1
    return found
