"""Tables whose cells have every shape in three columns and three rows (part of tests/tables.py)."""
import itertools
import random

ROWS, COLUMNS = 3, 3
OPTIONS = [b"tab(:)", b"box tab(:)", b"allbox tab(:)"]
# What stands between keys, between rows of keys, and between rows of the data.
GAPS, BETWEEN_KEYS, BETWEEN_ROWS = [b" ", b"|"], [b"\n", b"\n_|_|_\n"], [b"", b"_\n"]
KEYS = [b"l", b"r", b"c", b"n", b"ld", b"lt", b"a", b"rd"]
FIELDS = [b"a", b"_", b"wider than two", b"T{\none\n.br\n\ntwo three\nT}", b"=", b"1.5", b"_",
          b"\\Rx", b"", b"\\_", b"b\\&c", b"="]
# What stands around the cells, and a letter behind each key.
KINDS = list(itertools.product(OPTIONS, GAPS, BETWEEN_KEYS, BETWEEN_ROWS, [b"", b"z"]))


def cut(cells):
    """All ways to go on with these cells."""
    if None not in cells:
        yield cells
        return
    first = cells.index(None)
    row, column = divmod(first, COLUMNS)
    for height in range(1, ROWS - row + 1):
        for width in range(1, COLUMNS - column + 1):
            places = {first + down * COLUMNS + right
                      for down, right in itertools.product(range(height), range(width))}
            if all(cells[place] is None for place in places):
                longer = [first if place in places else cell for place, cell in enumerate(cells)]
                yield from cut(longer)


# All ways to cut the table into cells, each as the first place of the cell of each place.
SHAPES = list(cut([None] * (ROWS * COLUMNS)))


def table(cells, number, kind):
    """A table of these cells, of a kind; the number says what stands in them. Where entries have no
    width, many cells are empty, so that others run on over them."""
    options, gap, between_keys, between_rows, letter = kind
    formats, data, chance = [], b"", random.Random(number)
    empty = {place for place in range(ROWS * COLUMNS) if letter and chance.random() < 0.6}
    for row in range(ROWS):
        keys, fields = [], []
        for place in range(row * COLUMNS, (row + 1) * COLUMNS):
            first = cells[place]
            if place % COLUMNS and cells[place - 1] == first:
                keys.append(b"s")
                continue
            keys.append(KEYS[(number + first) % len(KEYS)] + letter if place == first else b"^")
            is_filled = place == first and first not in empty
            fields.append(FIELDS[(number + first) % len(FIELDS)] if is_filled else b"")
        # A rule that is the only field of its line would go over the whole width.
        fields = [b"\\R="] if fields in ([b"_"], [b"="]) else fields
        formats.append(gap.join(keys))
        data += between_rows * (row > 0) + b":".join(fields) + b"\n"
    return b".TS\n" + options + b";\n" + between_keys.join(formats) + b".\n" + data + b".TE\n"
