"""The picture of a table: separations, widths, and where columns, entries and bars stand (part of
the model of tests/tables.py)."""
import functools

from table_cells import cells_of
from table_lines import Lines
from table_reading import Row

APART = 3
# How many blanks at least stand between columns with so many bars.
LEAST_APART = (0, 3, 4)


class Picture:
    """What a table that was read looks like on a line of this length."""

    def __init__(self, table, length):
        self.table, self.length, self.count = table, length, table.keys
        most = [max(table.most_bars.get(boundary, 0), self.framed(boundary))
                for boundary in range(self.count + 1)]
        self.apart = [max(LEAST_APART[most[column + 1]], table.apart.get(column, APART))
                      for column in range(self.count - 1)]
        # An edge has a blank beside its bars, if it has any.
        self.left, self.right = (bars + 1 if bars else 0 for bars in (most[0], most[-1]))
        # For each row of the data the cell of each column.
        self.rows = []
        for row in table.elements:
            if isinstance(row, Row):
                self.rows.append(cells_of(row, self.rows, self.count, self.measure))
        # The cells with entries that need their width, by rows and from the left, and those of each
        # column alone.
        self.entries = [
            cell for number, cells in enumerate(self.rows) for column, cell in enumerate(cells)
            if (cell.row, cell.columns[0]) == (number, column) and cell.has_entry()
            and not cell.is_widthless]
        self.alone = [[cell for cell in self.entries if cell.columns == range(column, column + 1)]
                      for column in range(self.count)]
        self.widths = [self.width_of(column) for column in range(self.count)]
        self.spread()
        widest = max((self.widths[column] for column in table.equal), default=0)
        self.widths = [widest if column in table.equal else width
                       for column, width in enumerate(self.widths)]
        if table.is_expanded:
            self.expand()
        self.width = self.left + sum(self.widths) + sum(self.apart) + self.right

    def framed(self, boundary):
        """How many bars the box has at a boundary."""
        return self.table.frame if boundary in (0, self.count) else int(self.table.has_all_bars)

    def measure(self, columns):
        """How wide a block over these columns may be."""
        least = [self.table.least[column] for column in columns if column in self.table.least]
        if least:
            return sum(least) + sum(self.apart[columns[0]:columns[-1]])
        return max(1, self.length * len(columns) // (self.count + 1))

    # The widths.

    def width_of(self, column):
        """The least width that holds what is asked for, and all entries of the column alone."""
        whole = [cell.entry.columns + (cell.key == b"a")
                 for cell in self.alone[column] if cell.entry.left is None]
        return max([self.table.least.get(column, 0), sum(self.parts(column)), *whole])

    def parts(self, column):
        """The widest left and right parts of a column's entries that are split."""
        split = [cell.entry for cell in self.alone[column] if cell.entry.left is not None]
        return (max((entry.left for entry in split), default=0),
                max((entry.columns - entry.left for entry in split), default=0))

    def spread(self):
        """Columns get what the entries over several of them need more, one entry behind the
        other."""
        for cell in self.entries:
            count, missing = len(cell.columns), cell.entry.columns - self.width_over(cell.columns)
            if count > 1 and missing > 0:
                for part, column in enumerate(cell.columns):
                    self.widths[column] += (part + 1) * missing // count - part * missing // count

    def expand(self):
        whole = sum(self.apart)
        missing = max(0, self.length - sum(self.widths) - whole - self.left - self.right)
        if whole:
            fronts = [sum(self.apart[:number]) for number in range(len(self.apart) + 1)]
            self.apart = [apart + missing * (front + apart) // whole - missing * front // whole
                          for front, apart in zip(fronts, self.apart)]

    # Places.

    def start_of(self, column):
        """The first place of a column."""
        return self.left + sum(self.widths[:column]) + sum(self.apart[:column])

    def width_over(self, columns):
        """How wide these columns are with the separations between them."""
        first, last = columns[0], columns[-1]
        return sum(self.widths[first:last + 1]) + sum(self.apart[first:last])

    def place(self, cell):
        """Where its key puts a cell's entry."""
        column, key, width = cell.columns[0], cell.placed_by(), self.width_over(cell.columns)
        start, spare = self.start_of(column), width - cell.entry.columns
        if key == b"a":
            strip = max((other.entry.columns for other in self.alone[column] if other.key == b"a"),
                        default=0)
            return start + max(1, (width - strip) // 2)
        if cell.entry.left is not None:
            left, right = self.parts(column)
            return start + (width - left - right) // 2 + left - cell.entry.left
        return start + {b"l": 0, b"r": spare, b"c": spare // 2, b"n": spare // 2}[key]

    def end_of(self, columns):
        """The first place behind these columns."""
        return self.start_of(columns[0]) + self.width_over(columns)

    def runs_on(self, cell):
        """Whether a cell's entry has no width, and its key would put it over an end of its
        columns."""
        if not cell.is_widthless:
            return False
        first = self.place(cell)
        end = first + cell.entry.columns
        return not self.start_of(cell.columns[0]) <= first <= end <= self.end_of(cell.columns)

    def place_of_text(self, cell):
        """Where a cell's entry stands: one that runs on begins at the first place of its
        columns."""
        return self.start_of(cell.columns[0]) if self.runs_on(cell) else self.place(cell)

    def next_used(self, cell):
        """Where the next column begins that isn't empty in one of a cell's rows, or the picture
        ends."""
        return min((self.start_of(column) for column in range(cell.columns[-1] + 1, self.count)
                    for row in self.rows[cell.row:cell.last + 1] if not row[column].is_empty()),
                   default=self.width)

    def drawn(self, cell):
        """The places over which a cell's rule or repeated byte is drawn. A rule as wide as a text
        is as wide as the widest entry of the cell's first column alone."""
        start, width = self.start_of(cell.columns[0]), self.width_over(cell.columns)
        if cell.entry.source != b"\\_":
            return range(start, start + width)
        alone = self.alone[cell.columns[0]]
        count = max((other.entry.columns for other in alone), default=0)
        start += {b"r": width - count, b"c": (width - count) // 2}.get(cell.key, 0)
        return range(start, start + count)

    def bar_places(self, boundary, bars):
        """Where so many bars stand at a boundary: outermost at an edge, and else in the middle of
        the separation."""
        if boundary == 0:
            return set(range(bars))
        if boundary == self.count:
            return set(range(self.width - bars, self.width))
        apart = self.apart[boundary - 1]
        first = self.start_of(boundary) - apart + (apart - bars) // 2
        return set(range(first, first + bars))

    @functools.cached_property
    def lines(self):
        """What it shows, line by line. Where it is wider than the limit allows it isn't drawn."""
        return Lines(self)

    def written(self):
        indent = max(0, self.length - self.width) // 2 if self.table.is_centred else 0
        around = [b".in +%dn\n" % indent, b".in -%dn\n" % indent] if indent else [b"", b""]
        body = b"".join(line + b"\n" for line in self.lines.written())
        return b".nr TF \\n(.u\n.nf\n" + around[0] + body + around[1] + b".if \\n(TF .fi\n"
