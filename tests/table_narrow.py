"""Tables without blanks between columns, whose cells have every shape in three columns and three
rows, and of which many have no width (part of tests/tables.py)."""
import random

import table_shapes

OPTIONS = [b"tab(:)", b"box tab(:)", b"allbox tab(:)"]
# What stands between keys, between rows of keys, and between rows of the data.
GAPS, BETWEEN_KEYS = [b" ", b" ", b"|"], [b"\n", b"\n", b"\n_|_|_\n"]
BETWEEN_ROWS = [b"", b"", b"_\n", b".sp\n"]
KEYS = [b"l0", b"r0", b"c0", b"n0", b"l0t", b"l0d", b"r0d", b"l1", b"lw(3)0"]
FIELDS = [b"", b"a", b"bcd", b" ", b"\\&", b"\\&\\&", b"x\\&", b"\\fB", b"\x80", b"_", b"\\_",
          b"\\Rx", b"T{\none two\nT}", b"T{\none\n\ntwo\nT}"]
# How many tables each shape is given.
TIMES = 16


def table(cells, number):
    """A table of these cells by chance; it is the same for the same number."""
    chance = random.Random(number)
    gap, formats, data, key_of, field_of = chance.choice(GAPS), [], b"", {}, {}
    for row in range(table_shapes.ROWS):
        keys, fields = [], []
        for place in range(row * table_shapes.COLUMNS, (row + 1) * table_shapes.COLUMNS):
            first, number_behind = cells[place], chance.choice([b"0", b"0", b""])
            if place % table_shapes.COLUMNS and cells[place - 1] == first:
                keys.append(b"s" + number_behind)
                continue
            if place == first:
                key_of[first], field_of[first] = chance.choice(KEYS), chance.choice(FIELDS)
            keys.append(key_of[first] if place == first else b"^" + number_behind)
            fields.append(field_of[first] if place == first else b"")
        formats.append(gap.join(keys))
        data += (chance.choice(BETWEEN_ROWS) if row else b"") + b":".join(fields) + b"\n"
    options, between = chance.choice(OPTIONS), chance.choice(BETWEEN_KEYS)
    return b".TS\n" + options + b";\n" + between.join(formats) + b".\n" + data + b".TE\n"


TABLES = [table(cells, shape * TIMES + time)
          for shape, cells in enumerate(table_shapes.SHAPES) for time in range(TIMES)]
