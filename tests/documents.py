#!/usr/bin/env python3
"""Makes documents on pages by chance, and compares what `nroff` makes of them with a plain model.

    tests/documents.py [DOCUMENTS [FIRST]]        # 3,000 documents from the one of number 0, if nothing else is said

The documents have words, filled and not, blank lines, breaks, spaces up to the page's end and past it, pages of several
lengths that change, page offsets, spacing of lines, page numbers that are set, of this page and of the next one, and their
format, titles of several lengths, with the page number in them or without, and messages that tell where the text stands; some
are ended by `.ex` or `.ab`, some run within a small limit on the output, and some with the options `-n` and `-o`. The documents
of a number are the same in each run. The model here goes line by line and keeps a page as a count of lines. The exit status is
1 if something differs.
"""
import pathlib
import random
import subprocess
import sys

PROGRAM = pathlib.Path(__file__).resolve().parent.parent / "crates" / "roff" / "out" / "roff"
LINE = 40
COLUMN = 24
WIDTH = 20
GREATEST = 2147483647


class Ended(Exception):
    """The run has ended with this status."""


class Model:
    """A run of a document within a limit on the output, with the first page's number and the ranges of pages to be written."""

    def __init__(self, output, first=None, ranges=()):
        self.limit, self.text, self.told = output, "", ""
        self.line = 0
        self.pending, self.fills, self.spacing, self.last_spacing = None, True, 1, 1
        self.begun, self.place, self.length, self.number = False, 0, 66, 0
        self.next, self.ranges, self.listed = first, ranges, False
        self.offset, self.last_offset = 0, 0
        self.title_length, self.last_title_length = 65, 65
        self.character, self.digits = "%", 1
        self.closing = False

    # pages
    def begin(self):
        self.begun, self.place = True, 0
        self.number = min(self.number + 1, GREATEST) if self.next is None else self.next
        self.next = None
        self.listed = not self.ranges or any(first <= self.number <= last for first, last in self.ranges)

    def needs_page(self):
        if not self.begun:
            self.begin()

    def put(self, text, blank):
        """Puts a line, if there is one, and blank lines as far as the page goes."""
        lines = 0 if text is None else 1
        blank = min(blank, max(0, self.length - self.place - lines))
        written = ("" if text is None else (" " * self.offset + text).rstrip(" ") + "\n") + "\n" * blank
        written = written if self.listed else ""
        if len(self.text) + len(written) > self.limit:
            self.tell("limit output (%d) reached" % self.limit)
            raise Ended(3)
        self.text += written
        self.place += lines + blank
        if self.place >= self.length:
            if self.closing:
                raise Ended(0)
            self.begin()

    # lines
    def finish(self, text):
        self.needs_page()
        self.put(text, self.spacing - 1)

    def brk(self):
        if self.pending is not None:
            text, self.pending = self.pending, None
            self.finish(text)
        elif not self.closing:
            self.needs_page()

    def word(self, word):
        if self.pending is None:
            self.pending = word
        elif len(self.pending) + 1 + len(word) <= WIDTH:
            self.pending += " " + word
        else:
            text, self.pending = self.pending, word
            self.finish(text)

    def text_line(self, words):
        """Words, in which `%` stands for the page number as it is read."""
        self.needs_page()
        if not self.fills:
            # A line that was pending goes on.
            words = ([] if self.pending is None else [self.pending]) + [self.numbered(word, "%") for word in words]
            self.pending = None
            self.finish(" ".join(words))
            return
        for word in words:
            self.word(self.numbered(word, "%"))

    def space(self, lines):
        self.needs_page()
        self.put(None, lines)

    def title(self, text):
        """Three parts behind a delimiter, with the number of the page on which they are put; a pending line stays."""
        text = self.numbered(text, "\\n%")
        parts = (text[1:].split(text[0]) if text else []) + ["", "", ""]
        self.needs_page()
        left, middle, right = (part if self.character is None else self.numbered(part, self.character) for part in parts[:3])
        line = left.ljust((self.title_length - len(middle)) // 2) + middle
        self.put(line.ljust(self.title_length - len(right)) + right, 0)

    def numbered(self, text, mark):
        """A text with the page number in place of a mark."""
        return text.replace(mark, ("-" if self.number < 0 else "") + str(abs(self.number)).rjust(self.digits, "0"))

    # messages
    def tell(self, text):
        self.told += "nroff: line %d: %s\n" % (max(1, self.line), text)

    def places(self):
        place = self.place if self.begun else 0
        return self.numbered("% ", "%") + "%d %d %d %d" % (place * LINE if self.begun else -1, max(0, self.length - place) * LINE,
                                                           self.length * LINE, self.offset * COLUMN)

    # requests
    def control(self, breaks, name, argument):
        number = int(argument.strip("+-|")) if argument.strip("+-|").isdigit() else None
        sign = argument[:1] if argument[:1] in "+-|" else ""
        if name == "br":
            if breaks:
                self.brk()
        elif name in ("nf", "fi"):
            if breaks:
                self.brk()
            self.fills = name == "fi"
        elif name == "sp":
            lines = 1 if number is None else number
            if sign == "|":
                lines -= self.place if self.begun else 0
            elif sign == "-":
                lines = -lines
            if lines < 0:
                self.tell("backward motion")
            if breaks:
                self.brk()
            self.space(max(0, lines))
        elif name == "pl":
            lines = 66 if number is None else number
            if sign == "|":
                lines -= self.place if self.begun else 0
            elif sign:
                lines = self.length + (number if sign == "+" else -number)
            if lines < 1:
                self.tell("page length too small")
            else:
                self.length = lines
        elif name == "ls":
            before = self.spacing
            self.spacing = self.last_spacing if number is None else max(1, number)
            self.last_spacing = before
        elif name == "po":
            before = self.offset
            columns = self.last_offset if number is None else number
            if sign and number is not None:
                columns = self.offset + (number if sign == "+" else -number)
            self.offset, self.last_offset = max(0, columns), before
        elif name == "lt":
            before = self.title_length
            columns = self.last_title_length if number is None else number
            if sign and number is not None:
                columns = self.title_length + (number if sign == "+" else -number)
            self.title_length, self.last_title_length = max(0, columns), before
        elif name == "pc":
            self.character = argument[:1] or None
        elif name == "af":
            self.digits = len(argument)
        elif name == "tl":
            self.title(argument)
        elif name == "pn":
            if number is not None:
                page = self.number + (-number if sign == "-" else number) if sign else number
                if -GREATEST - 1 <= page <= GREATEST:
                    self.next = page
                else:
                    self.tell("bad number")
        elif name == "nr":
            self.number = number
        elif name == "tm":
            self.told += self.places() + "\n"
        elif name == "ab":
            self.told += "stop\n"
            raise Ended(4)

    def run(self, lines):
        """The output, the messages and the status of a document."""
        try:
            for line in lines:
                self.line += 1
                if line == ".ex":
                    break
                if not line.strip(" "):
                    self.brk()
                    self.space(1)
                elif line[0] in ".'":
                    self.control(line[0] == ".", line[1:3], line[3:].lstrip(" ").removeprefix("% "))
                else:
                    self.text_line(line.replace("\\n%", "%").split(" "))
            self.closing = True
            if self.pending is not None:
                self.brk()
            if self.begun and self.place > 0:
                self.put(None, GREATEST)
            raise Ended(0)
        except Ended as end:
            return self.text, self.told, end.args[0]


def title(chance):
    """A title's delimiter and parts: three at the most, and a delimiter behind the last one or none."""
    delimiter = chance.choice(["'", "'", "'", "|", "!"])
    parts = [chance.choice(["", "", "a", "%", "#", "page %", "- # -", " two  words ", "\\n%", "%\\n%#", "a longer one"])
             for _ in range(chance.choice([0, 1, 2, 3, 3, 3]))]
    return "".join(delimiter + part for part in parts) + chance.choice(["", delimiter]) * (len(parts) > 0)


def document(chance):
    """The lines of a document."""
    number = lambda: chance.choice(["", " 0", " 1", " 2", " 3", " 5", " 99"])
    kinds = [
        lambda: " ".join(chance.choice(["a", "of", "word", "longer", "x\\n%", "pages"]) for _ in range(chance.choice([1, 1, 2, 4, 7]))),
        lambda: chance.choice(["", " ", "   "]),
        lambda: chance.choice([".br", "'br", ".nf", ".fi"]),
        lambda: chance.choice([".sp", "'sp"]) + chance.choice([number(), number(), " |3", " |1", " -1"]),
        lambda: ".pl" + chance.choice(["", " 0", " 1", " 2", " 3", " 4", " 7", " +1", " -1", " -3", " |3"]),
        lambda: ".ls" + chance.choice([" 1", " 1", " 2", " 3", " 9", ""]),
        lambda: ".nr % " + chance.choice(["0", "7", "2147483646"]),
        lambda: ".po" + chance.choice(["", " 0", " 1", " 2", " 9", " +1", " +3", " -1", " -5"]),
        lambda: ".pn" + chance.choice(["", " 0", " 1", " 4", " 2147483647", " +1", " +2", " -2", " -9"]),
        lambda: ".tm \\n% \\n(nl \\n(.t \\n(.p \\n(.o",
        lambda: chance.choice([".ex", ".ab stop"]) if chance.random() < 0.1 else ".br",
        lambda: chance.choice([".tl", "'tl"]) + chance.choice(["", " ", " ", "  "]) + title(chance),
        lambda: ".lt" + chance.choice(["", " 0", " 5", " 9", " 10", " 20", " +1", " +7", " -2", " -99"]),
        lambda: ".pc" + chance.choice(["", " %", " %", " #", " #c"]),
        lambda: ".af % " + chance.choice(["1", "1", "01", "0000"]),
    ]
    weights = [12, 2, 4, 5, 3, 2, 1, 2, 1, 3, 1, 5, 2, 1, 1]
    lines = [".ll %dn" % WIDTH, ".na", ".pl %d" % chance.choice([1, 2, 3, 5, 8, 66])][:: chance.choice([1, 1, 1, -1])]
    return lines + [chance.choices(kinds, weights)[0]() for _ in range(chance.choice([0, 1, 5, 20, 60]))]


def options(chance):
    """The number of the first page, if one is given, the ranges of pages that are written, and the options that say so."""
    first = chance.choice([None, None, 0, 1, 5, 99999])
    starts = [chance.choice([0, 1, 2, 3, 4, 6, 9, GREATEST]) for _ in range(chance.choice([0, 0, 0, 1, 1, 2, 5, 32]))]
    ranges = [(start, min(GREATEST, start + chance.choice([0, 0, 1, 3, GREATEST]))) for start in starts]
    words = [] if first is None else ["-n%d" % first]
    shown = ["%d" % start if start == last and chance.random() < 0.8
             else "%d-" % start if last == GREATEST and chance.random() < 0.8 else "%d-%d" % (start, last) for start, last in ranges]
    return first, ranges, words + (["-o" + ",".join(shown)] if shown else [])


def differs(number):
    """Whether program and model differ on a document; tells how."""
    chance = random.Random(number)
    lines = document(chance)
    output = chance.choice([10**9] * 3 + [chance.randrange(60)])
    first, ranges, words = options(chance)
    wanted = Model(output, first, ranges).run(lines)
    given = subprocess.run([PROGRAM, "nroff", "--output=%d" % output] + words, input="".join(line + "\n" for line in lines).encode(),
                           capture_output=True, timeout=60)
    given = given.stdout.decode(), given.stderr.decode(), given.returncode
    if given != wanted:
        print("document %d within %d %s:\n%s\n  wanted %r\n  given  %r"
              % (number, output, " ".join(words), "\n".join(lines), wanted, given))
    return given != wanted


def main():
    if not PROGRAM.exists():
        sys.exit("tests/documents.py: %s is missing; ./roff --prove builds it" % PROGRAM)
    count, first = ([int(word) for word in sys.argv[1:]] + [3000, 0][len(sys.argv) - 1:])[:2]
    differ = sum(differs(number) for number in range(first, first + count))
    print("%d documents, %d differ" % (count, differ))
    return 1 if differ else 0


if __name__ == "__main__":
    sys.exit(main())
