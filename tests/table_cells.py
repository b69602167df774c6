"""The cells of a table, and what stands in them (part of the model of tests/tables.py)."""
import table_items
from table_format import RULES
from table_items import BLANK, Item, columns_of
from table_reading import kind_of

# The keys by which an entry over several columns is placed, where these are others than its own.
OVER_COLUMNS = {b"n": b"c", b"a": b"l"}


class Text:
    """An entry that is a text, under a key: its lines of items, how wide it is, and for `n` how
    wide its left part is."""

    is_entry, is_empty, is_rule, sign = True, False, False, None

    def __init__(self, source, key):
        text = [item for item in table_items.items(source)]
        there = [item for item in text if item.what != "dropped"]
        split = table_items.split_place(there) if key == b"n" else None
        self.left = None
        if split:
            place, goes = split
            self.left = columns_of(there[:place])
            if goes:
                text.remove(there[place])
        self.lines, self.columns = [text], columns_of(text)


class Drawn:
    """A field that is drawn, on one line: a rule, or a byte that is repeated. It needs no width,
    and so it is no entry."""

    is_entry, is_empty, left = False, False, None

    def __init__(self, source):
        self.source, self.lines = source, [[]]
        self.sign = {b"_": b"-", b"\\_": b"-", b"=": b"="}.get(source, source[2:])
        # Whether it rules its columns whole, and so may be the same rule as its neighbour.
        self.is_rule = source in (b"_", b"=")


class Block:
    """An entry that is a block, filled to a measure. One without a word is none, but keeps its
    empty lines."""

    left, is_rule, sign = None, False, None

    def __init__(self, lines, measure):
        self.lines = filled(lines, measure)
        self.columns = max(map(columns_of, self.lines), default=0)
        self.is_entry = any(self.lines)
        self.is_empty = not self.is_entry


def filled(lines, measure):
    """The lines of a block, each of so many columns as long as it has more than one word."""
    done, line, behind = [], None, 1
    for source in lines:
        words = table_items.words(source)
        if (words is None or words and words[0].gap) and line is not None:
            done.append(line)
            line = None
        if words is None:
            done.append([])
            continue
        for number, word in enumerate(words):
            lead = word.gap if number == 0 else 0
            gap = behind if number == 0 else word.gap
            text = blanks(lead) + word.text
            if line is not None and columns_of(line) + gap + columns_of(text) <= measure:
                line += blanks(gap) + text
            else:
                done += [line] if line is not None else []
                line = text
        if words:
            behind = 2 if words[-1].ends_sentence else 1
    return done + ([line] if line is not None else [])


def blanks(count):
    return [Item(BLANK, "blank", BLANK, 1)] * count


class Cell:
    """A cell: its columns, its first row and its last one, its key, what stands in it, or none, its
    side of several rows, and whether its entry has no width, as that row of keys says."""

    def __init__(self, columns, number, row, entry):
        self.columns, self.row, self.last = columns, number, number
        self.key, self.entry = row.key(columns[0]), entry
        self.side, self.is_widthless = row.side(columns), row.is_widthless(columns)

    def has_entry(self):
        """Whether it has a text, or a block with a word."""
        return self.entry is not None and self.entry.is_entry

    def is_empty(self):
        """Whether it has no text, no block with a word, and no rule or repeated byte."""
        return self.entry is None or self.entry.is_empty

    def lines(self):
        return self.entry.lines if self.entry else []

    def placed_by(self):
        """The key that its entry is placed by."""
        return self.key if len(self.columns) == 1 else OVER_COLUMNS.get(self.key, self.key)


    def drop(self, height):
        """How many lines of so many stand above it. In a row of its own it stands at the top."""
        spare = height - len(self.lines())
        if self.row == self.last or self.side == b"t":
            return 0
        return spare if self.side == b"d" else spare // 2


def cells_of(row, above, count, measure):
    """For each of so many columns of a row its cell, behind rows with these cells; how wide a block
    may be is asked for its columns."""
    cells, contents, number = [], row.contents(), len(above)
    while len(cells) < count:
        columns = row.columns_from(len(cells), count)
        key, field = row.key(columns[0]), contents.get(columns[0])
        if is_from_above(key, field) and above and above[-1][columns[0]].columns == columns:
            cell = above[-1][columns[0]]
            cell.last = number
        else:
            cell = Cell(columns, number, row, entry_of(key, field, columns, measure))
        cells += [cell] * len(columns)
    return cells


def is_from_above(key, field):
    """Whether a field asks for the cell above it."""
    return key == b"^" or key not in RULES and field == b"\\^"


def entry_of(key, field, columns, measure):
    """What a field is under a key, or none."""
    if is_from_above(key, field):
        return None
    if key in RULES:
        return Drawn(RULES[key])
    if isinstance(field, list):
        return Block(field, measure(columns))
    if not field:
        return None
    return Drawn(field) if kind_of(field) else Text(field, key if len(columns) == 1 else None)
