"""The lines of a table's picture: rows, rules, bars and where they meet (part of the model of
tests/tables.py)."""
import itertools

from table_format import BARS
from table_items import BLANK, Item, columns_of, front
from table_reading import Rule, RuleRow

BAR, MEETING = b"|", b"+"


class RowLine:
    """A line of a row of the data: the cell of each column, and its bars at each boundary."""

    def __init__(self, cells, bars):
        self.cells, self.bars = cells, bars

    def is_within(self, boundary):
        """Whether a boundary stands within a cell."""
        return 0 < boundary < len(self.cells) and self.cells[boundary - 1] is self.cells[boundary]


class RuleLine:
    """A line of rules: the sign that rules each column, or none, whether it rules the whole width,
    and its own bars at each boundary."""

    def __init__(self, signs, is_whole, bars):
        self.signs, self.is_whole, self.bars, self.within = signs, is_whole, bars, set()

    def leave_out(self, cells, row):
        """The cells of the row behind it that the row before it has too aren't ruled, and have no
        bars within."""
        for column, cell in enumerate(cells):
            if cell.row < row:
                self.signs[column] = None
                self.within |= {column} if column > cell.columns[0] else set()

    def is_within(self, boundary):
        """Whether a boundary stands within a cell of both rows."""
        return boundary in self.within


class Lines:
    """What a picture shows, line by line."""

    def __init__(self, picture):
        self.picture, self.count = picture, picture.count
        # The lines, and in the order of the output their numbers and the commands between them.
        self.lines, self.order = [], []
        # For each line the cells that stand on it, each with the number of its line that does; and
        # the first line of each row.
        self.standing, self.tops = [], []
        self.lay_out()
        numbers = range(len(self.lines))
        before, behind = self.bars_before(numbers), self.bars_before(reversed(numbers))
        # What rules and bars each line shows, by their places.
        self.shown = [self.marks(at, before[at] | behind[at]) for at in numbers]
        # For each line its texts, with their cells and places, and how many entries lost something.
        self.texts, self.cut = [], 0
        self.set_texts()

    # Which lines there are.

    def lay_out(self):
        table = self.picture.table
        sign = b"-" if table.frame == 1 else b"="
        if table.frame:
            self.add_rule(sign)
        for element in table.elements:
            if isinstance(element, bytes):
                self.order.append(element)
            elif isinstance(element, Rule):
                self.add_rule(element.sign)
            elif isinstance(element, RuleRow):
                signs = element.signs + [None] * (self.count - len(element.signs))
                self.add(RuleLine(signs, False, self.bars_asked(element)))
            else:
                # Under `allbox` a rule stands between two rows.
                if table.has_all_bars and self.lines and isinstance(self.lines[-1], RowLine):
                    self.add_rule(b"-")
                self.add_row(self.picture.rows[len(self.tops)], self.bars_asked(element))
        if table.frame:
            self.add_rule(sign)

    def bars_asked(self, row):
        """How many bars a row has at each boundary, its own or those of the box."""
        return [max(row.bars.get(boundary, 0), self.picture.framed(boundary))
                for boundary in range(self.count + 1)]

    def add(self, line):
        self.order.append(len(self.lines))
        self.lines.append(line)
        self.standing.append([])

    def add_rule(self, sign):
        """A rule over the whole width."""
        self.add(RuleLine([sign] * self.count, True, [0] * (self.count + 1)))

    def add_row(self, cells, bars):
        """The lines of a row, and what stands in the cells that end with it. The last row of a cell
        grows to hold it."""
        row, top = len(self.tops), len(self.lines)
        self.tops.append(top)
        behind = itertools.takewhile(lambda line: isinstance(line, RuleLine), reversed(self.lines))
        for line in behind:
            line.leave_out(cells, row)
        ending = [cell for column, cell in enumerate(cells)
                  if column == cell.columns[0] and cell.last == row]
        end = max([top + 1] + [self.tops[cell.row] + len(cell.lines()) for cell in ending])
        for _ in range(top, end):
            self.add(RowLine(cells, bars))
        for cell in ending:
            first = self.tops[cell.row] + cell.drop(end - self.tops[cell.row])
            for number in range(len(cell.lines())):
                self.standing[first + number].append((cell, number))

    # Where rules and bars are.

    def rule_on(self, at, column):
        """The cell of a column whose rule stands on a line, or none."""
        return next((cell for cell, _ in self.standing[at]
                     if cell.entry.is_rule and column in cell.columns), None)

    def is_same_rule(self, at, boundary):
        """Whether two cells beside each other have the same rule on a line."""
        left, right = self.rule_on(at, boundary - 1), self.rule_on(at, boundary)
        if None in (left, right) or left is right:
            return False
        return left.entry.source == right.entry.source

    def own_bars(self, at):
        """The places where a line has bars itself, but within its cells."""
        line = self.lines[at]
        return set().union(*(self.picture.bar_places(boundary, line.bars[boundary])
                             for boundary in range(self.count + 1) if not line.is_within(boundary)))

    def crossed(self, at):
        """The places of a row's bars that a rule goes over."""
        return set().union(*(self.picture.bar_places(boundary, self.lines[at].bars[boundary])
                             for boundary in range(1, self.count)
                             if self.is_same_rule(at, boundary)))

    def ruled(self, line):
        """The places that a line of rules draws over, with their signs. An edge belongs to the
        column beside it, where the whole width is ruled."""
        picture, found = self.picture, {}
        for column, sign in enumerate(line.signs):
            start, end = picture.start_of(column), picture.start_of(column) + picture.widths[column]
            if line.is_whole:
                start = 0 if column == 0 else start
                end = picture.width if column == self.count - 1 else end
            found.update(dict.fromkeys(range(start, end), sign))
            if column < self.count - 1:
                found.update(self.ruled_between(column, *line.signs[column:column + 2]))
        return {place: sign for place, sign in found.items() if sign}

    def ruled_between(self, column, left, right):
        """What a separation shows on a line of rules. Both columns have a part of it, and its bars'
        places are the left one's, if it has a rule."""
        end = self.picture.start_of(column + 1)
        start = end - self.picture.apart[column]
        if start == end:
            return {}
        is_double = self.picture.table.most_bars.get(column + 1) == BARS
        bars = self.picture.bar_places(column + 1, BARS if is_double else 1)
        found = dict.fromkeys(range(start, end), left)
        found.update(dict.fromkeys(bars, left or right))
        found.update(dict.fromkeys(range(max(bars) + 1, end), right))
        return found

    def bars_before(self, numbers):
        """For each of these lines the places of bars of the line before it. A bar goes on through
        lines of rules that don't rule its place."""
        found, shown = {}, set()
        for at in numbers:
            found[at] = shown
            if isinstance(self.lines[at], RowLine):
                shown = self.own_bars(at) - self.crossed(at)
            else:
                shown = (self.own_bars(at) | shown) - set(self.ruled(self.lines[at]))
        return found

    # What they show.

    def marks(self, at, beside):
        """The rules and bars of a line between lines that have bars at these places."""
        line, found = self.lines[at], dict.fromkeys(self.own_bars(at), BAR)
        if isinstance(line, RuleLine):
            found.update(dict.fromkeys(beside, BAR))
            for place, sign in self.ruled(line).items():
                found[place] = MEETING if place in beside else sign
        for cell, _ in self.standing[at]:
            if cell.entry.sign:
                found.update(dict.fromkeys(self.picture.drawn(cell), cell.entry.sign))
                found.update(self.marks_behind(at, cell, found))
        return found

    def marks_behind(self, at, cell, before):
        """What a rule shows in the separation behind it, if it goes on there."""
        boundary = cell.columns[-1] + 1
        if boundary == self.count or not self.is_same_rule(at, boundary):
            return {}
        end = self.picture.start_of(boundary)
        places = range(end - self.picture.apart[boundary - 1], end)
        return {place: MEETING if before.get(place) == BAR else cell.entry.sign for place in places}

    def room(self, at, cell):
        """How many places an entry that runs on has on a line: up to the first rule or bar to its
        right, the next column that is used in its rows, or the picture's end."""
        picture = self.picture
        ends = [place for place in self.shown[at] if place >= picture.end_of(cell.columns)]
        return min([*ends, picture.next_used(cell)]) - picture.start_of(cell.columns[0])

    def set_texts(self):
        """Places the texts of all lines, and cuts those that run on and don't fit."""
        cut = set()
        for at, cells in enumerate(self.standing):
            self.texts.append([])
            for cell, number in cells:
                whole = text = cell.entry.lines[number]
                if cell.has_entry() and self.picture.runs_on(cell):
                    text = front(whole, self.room(at, cell))
                if len(text) < len(whole):
                    cut.add(cell)
                if text:
                    self.texts[at].append((self.picture.place_of_text(cell), cell, text))
        self.cut = len(cut)

    def line(self, at):
        """A line, up to its last glyph. Texts at one place stand in the order of their cells, and
        rules and bars last."""
        parts = [(place, 1, 0, 0, [Item(sign, "blank" if sign == BLANK else "glyph", sign, 1)])
                 for place, sign in self.shown[at].items()]
        parts += [(place, 0, cell.row, cell.columns[0], text)
                  for place, cell, text in self.texts[at]]
        line = []
        for place, *_, part in sorted(parts, key=lambda placed: placed[:4]):
            line += [Item(BLANK, "blank", BLANK, 1)] * (place - columns_of(line)) + part
        while line and line[-1].what != "glyph":
            line.pop()
        return b"".join(item.source for item in line)

    def written(self):
        """The lines and commands of the output."""
        for what in self.order:
            if isinstance(what, bytes):
                yield what
            else:
                yield b"\\&" + self.line(what)
