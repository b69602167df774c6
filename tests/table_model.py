"""A run of `roff tbl`, as a plain model (part of tests/tables.py).

It goes over all of a table again with each line, and keeps nothing but what was read.
"""
from table_items import BLANK, NEWLINE, TAB
from table_format import cut
from table_picture import Picture
from table_reading import Table

USUAL = {"rows": 5000, "columns": 40, "text": 262144, "width": 4096, "bytes": 50000000, "output": 200000000}


class Stop(Exception):
    """A limit is reached."""


class Model:
    """A run of `roff tbl`: its output, messages and status."""

    def __init__(self, source, limits, length):
        self.limits, self.length = {**USUAL, **limits}, length
        self.output, self.messages, self.taken, self.line, self.ended = b"", b"", 0, 1, False
        # How many tables were laid out, and how many passed.
        self.pictures, self.passed = 0, 0
        try:
            self.run(source)
            self.status = 0
        except Stop as stop:
            name, = stop.args
            self.tell(self.line, b"limit %s (%d) reached" % (name.encode(), self.limits[name]))
            self.status = 3

    def tell(self, number, what):
        self.messages += b"tbl: line %d: " % number + what + NEWLINE

    def tell_all(self, table):
        for number, what in table.told:
            self.tell(number, what)

    def stop_beyond(self, name, value, table=None):
        if value > self.limits[name]:
            if table:
                self.tell_all(table)
            raise Stop(name)

    def give(self, text):
        room = self.limits["output"] - len(self.output)
        self.output += text[:room]
        if len(text) > room:
            raise Stop("output")

    def take(self, byte, table=None):
        self.stop_beyond("bytes", self.taken + 1, table)
        self.taken += 1
        self.line += self.ended
        self.ended = byte == NEWLINE

    def run(self, source):
        left, at = [bytes([value]) for value in source], 0
        left.reverse()
        while left:
            line = b""
            while left and not line.endswith(NEWLINE):
                self.take(left[-1])
                self.give(left[-1])
                line += left.pop()
            if line[:3] == b".TS" and line[3:4] in (b"", NEWLINE, BLANK, TAB):
                if not line.endswith(NEWLINE):
                    self.tell(self.line, b"table not ended")
                    return
                rest = self.table(left)
                if rest is None:
                    return
                # What stands behind `.TE` passes as it is taken; no table begins on that line.
                while left and rest != NEWLINE:
                    rest = left.pop()
                    self.take(rest)
                    self.give(rest)

    def table(self, left):
        """A table, and the byte behind its `.TE`; none where the input ends."""
        lines, line, read = [], b"", b""
        whole = Table(lines)
        while left:
            byte = left[-1]
            self.take(byte, whole)
            left.pop()
            if line == b".TE" and byte in (NEWLINE, BLANK, TAB):
                self.end(whole, read, line + byte)
                return byte
            # In the data a line says something as it ends, and in a format with each byte.
            longer = whole
            if byte == NEWLINE or not whole.in_data:
                longer = Table(lines + [(self.line, (line + byte).rstrip(NEWLINE))])
            if byte == NEWLINE:
                self.stop_beyond("rows", longer.count, whole)
            if lines or byte == NEWLINE or len(cut(line + byte, b";")) > 1:
                self.stop_beyond("columns", longer.keys, whole)
            if not b".TE".startswith(line + byte):
                self.stop_beyond("text", len(read + line + byte), whole)
            if byte == NEWLINE:
                lines.append((self.line, line))
                read, line, whole = read + line + NEWLINE, b"", longer
            else:
                line += byte
        if line == b".TE":
            self.end(whole, read, line)
            return None
        self.stop_beyond("text", len(read + line), whole)
        whole = Table(lines + [(self.line, line)] if line else lines)
        whole.close()
        self.tell_all(whole)
        if not whole.is_bad:
            self.tell(self.line, b"table not ended")
        self.give(read + line)
        return None

    def end(self, table, read, last):
        table.close()
        self.stop_beyond("rows", table.count, table)
        picture = Picture(table, self.length) if table.in_data and not table.is_bad else None
        if picture:
            self.stop_beyond("width", picture.width, table)
        table.end_format(self.line)
        self.tell_all(table)
        for _ in range(picture.lines.cut if picture else 0):
            self.tell(self.line, b"entry cut")
        self.pictures, self.passed = self.pictures + (not table.is_bad), self.passed + table.is_bad
        self.give(read if table.is_bad else picture.written())
        self.give(last)
