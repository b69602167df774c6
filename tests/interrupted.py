#!/usr/bin/env python3
"""Makes documents by chance in which lines are interrupted, and compares what `nroff` makes of them with a plain model.

    tests/interrupted.py [DOCUMENTS [FIRST]]      # 3,000 documents from the one of number 0, if nothing else is said

The documents have short lines on short pages: words with stops and with what may stand behind one, gaps, leading blanks,
blank lines, `\\c` in the middle of lines and at their end, centred lines, breaks, spaces, indents, three environments,
traps of pages and of input lines, and macros of all these, which spring in the middle of lines. Some are ended by `.ex`,
some have a last macro, and some run within small limits. The documents of a number are the same in each run. The model
here is a machine of events: a list of what isn't read yet, with the events that wait in it, three environments with the
words of their pending lines, and pages with a list of traps. Worked documents come first, which both have to print as it
stands beside them. The exit status is 1 if something differs.
"""
import pathlib
import random
import subprocess
import sys

PROGRAM = pathlib.Path(__file__).resolve().parent.parent / "crates" / "roff" / "out" / "roff"
LIMITS = {"bytes": 50000000, "depth": 200, "line": 4096, "output": 200000000, "environments": 32, "traps": 64}
STOPS, CLOSERS = (".", "?", "!"), "\"')]*"
# Glyphs that print no byte of their own: one without width, and a blank that is no gap.
NOTHING, BLANK = "\0", "\1"
# Documents and what they print, lines parted by `|`, without the blank lines at the end.
WORKED = [
    (r".pl 5|.ll 9|.de T|foot|.br|..|.wh 1 T|.ce|a|b|c|d", "    a|foot|b c d"),
    (r".pl 5|.ll 9|.de T|.ce|..|.wh 1 T|.nf|a|b|c", "a|    b|c"),
    (r".pl 4|.ll 4|.de T|t\c|..|.wh 1 T|cc dd||e", "cc|dd t|e"),
    (r".pl 6|.ll 4|.de T|t\c|..|.wh 1 T|cc dd| e", "cc|dd t|e"),
    (r".pl 4|.ll 9|.de H|h\c|..|.wh 0 H|a||b", "ha||b"),
    (r".pl 1|.ll 40|foo. )|bar", "foo. ) bar"),
    (r".pl 1|.ll 40|a [ opt ... ]|bar", "a [ opt ... ] bar"),
    (r".pl 1|.ll 40|foo. \c|)|bar", "foo. ) bar"),
    (r".pl 2|.ll 40|foo.\c|.br|)|bar", "foo.|) bar"),
    (r".pl 1|.ll 40|foo.\c|)|bar", "foo.)  bar"),
    (r".pl 1|.ll 40|foo. |bar", "foo.  bar"),
]


class Ended(Exception):
    """The run has ended with this status."""


class Flags:
    """What stood on a text line so far: a glyph, a brace, another escape, and blanks in front of its first glyph."""

    def __init__(self):
        self.glyph, self.brace, self.escape, self.blanks = False, False, False, 0


class Environment:
    """Settings, the pending line as words with the gaps in front of them, the open word, and the line that `\\c` left."""

    def __init__(self):
        self.fills, self.centred, self.adjusts, self.mode = True, 0, True, "b"
        self.length, self.last_length = 65, 65
        self.indent, self.last_indent, self.temporary = 0, 0, None
        self.trap = None
        self.left = None
        self.line, self.line_indent, self.gap, self.word = [], 0, 0, ""
        # Since the last line's end: whether there was a glyph, and the last word.
        self.glyph, self.last = False, ""

    def ends_sentence(self):
        return self.last.rstrip(CLOSERS).endswith(STOPS)

    def gap_in_front(self):
        """The gap in front of the open word: that of a line's end where a word ended without one."""
        return 0 if not self.line else self.gap or 1 + self.ends_sentence()

    def width(self):
        return sum(gap + width(word) for gap, word in self.line)

    def finished(self, by_word):
        """The pending line, laid out; then none is pending."""
        spare = self.length - self.line_indent - self.width()
        gaps, start, extra = len(self.line) - 1, 0, 0
        if self.centred > 0:
            start = max(0, spare // 2)
        elif self.fills and self.adjusts and self.mode in "rc":
            start = max(0, spare if self.mode == "r" else spare // 2)
        elif self.fills and self.adjusts and self.mode in "bn" and by_word:
            extra = max(0, spare)
        text = " " * (self.line_indent + start)
        for i, (gap, word) in enumerate(self.line):
            more = (i * extra // gaps - (i - 1) * extra // gaps) if i > 0 else 0
            text += " " * (gap + more) + word.replace(NOTHING, "").replace(BLANK, " ")
        self.line, self.gap = [], 0
        return text


def width(word):
    """The columns of a word: bytes that go on with a character have none."""
    return sum(glyph != NOTHING and not "\x80" <= glyph <= "\xbf" for glyph in word)


class Model:
    """A run of a document within limits."""

    def __init__(self, limits):
        self.limits = dict(LIMITS, **limits)
        self.text, self.told = "", ""
        # What isn't read yet, the front last: bytes, ends with the flags to go back to, events; and then the document.
        self.front, self.document, self.at = [], "", 0
        self.charge, self.depth, self.line, self.phase = 0, 0, 1, "input"
        # The flags of the text line that is read; none at a line's beginning.
        self.flags = None
        self.macros, self.last_macro = {}, None
        self.environments, self.number, self.earlier = [Environment() for _ in range(3)], 0, []
        self.page, self.place, self.length, self.traps, self.spaces = 0, 0, 66, [], True

    @property
    def env(self):
        return self.environments[self.number]

    # the end of a run, and messages
    def tell(self, text):
        self.told += "nroff: line %d: %s\n" % (self.line, text)

    def stop(self, limit):
        self.tell("limit %s (%d) reached" % (limit, self.limits[limit]))
        raise Ended(3)

    # what isn't read yet
    def take(self):
        """The next byte, or nothing at the end of the input; the ends and events in front of it are done."""
        while self.front or self.at < len(self.document):
            if self.charge == self.limits["bytes"]:
                self.stop("bytes")
            self.charge += 1
            if not self.front:
                self.line = 1 + self.document.count("\n", 0, self.at)
                self.at += 1
                return self.document[self.at - 1]
            kind, *rest = item = self.front.pop()
            if kind == "byte":
                return rest[0]
            if kind == "end":
                self.depth -= 1
                self.go_back(rest[0])
            elif kind in ("gap", "line end", "break") and self.env.word:
                self.perform([("word end",), item])
            else:
                self.perform([item])

    def go_back(self, flags):
        """To a line's beginning, or to a text line; such a line is the one that goes on."""
        self.flags = flags
        if flags:
            self.env.left = None

    def push(self, text):
        if self.depth == self.limits["depth"]:
            self.stop("depth")
        self.depth += 1
        self.front.append(("end", self.flags))
        self.front += [("byte", byte) for byte in reversed(text)]
        self.flags = None

    def perform(self, events):
        """Events one by one; behind a macro that springs stand those that are left, and the event itself if it isn't done."""
        for number, event in enumerate(events):
            name, done = (self.begin() if self.page == 0 and self.begins_page(event[0]) else None), False
            if name is None:
                name = getattr(self, "do_" + event[0].replace(" ", "_"))(*event[1:])
                done = event not in (("eject", self.page), ("eject on", self.page), ("close",))
                event = event if event[0] != "eject" else ("eject on", event[1])
            if name is not None:
                self.front += reversed([event] * (not done) + events[number + 1:])
                if name in self.macros:
                    self.push(self.macros[name])
                return

    def begins_page(self, kind):
        """Whether an event begins the first page."""
        if kind == "line end":
            return not self.env.fills or self.env.centred > 0 and bool(self.env.line)
        if kind == "break":
            return self.phase != "closing" or bool(self.env.line)
        return kind in ("glyph", "space", "need", "title", "eject")

    # pages
    def trap_place(self, where):
        return where if where >= 0 else self.length + where

    def trap_within(self, above, below):
        """The macro of the first trap that was planted below a place and not below another one, on the page."""
        for where, name in self.traps:
            if above < self.trap_place(where) <= below and self.trap_place(where) < self.length:
                return name

    def to_stop(self):
        """How many lines the next trap is away, or the page's end."""
        places = [self.trap_place(where) for where, _ in self.traps]
        return min([place for place in places if self.place < place < self.length] + [max(self.place, self.length)]) - self.place

    def begin(self):
        """A page; the macro that springs at its top."""
        self.page, self.place = self.page + 1, 0
        return self.trap_within(-1, 0)

    def put(self, text):
        """Lines; the macro that springs, on the next page if this one has ended."""
        if len(self.text) + len(text) > self.limits["output"]:
            self.stop("output")
        self.text += text
        before, self.place = self.place, self.place + text.count("\n")
        name = self.trap_within(before, self.place)
        if name is None and self.place >= self.length:
            if self.phase == "closing":
                raise Ended(0)
            name = self.begin()
        return name

    def put_line(self, text):
        self.spaces = True
        return self.put(text.rstrip(" ") + "\n")

    # events: each gives the macro that springs, if one does
    def do_glyph(self, glyph):
        env = self.env
        if env.width() + env.gap_in_front() + width(env.word + glyph) > self.limits["line"]:
            self.stop("line")
        env.word, env.glyph = env.word + glyph, True

    def do_word_end(self):
        finished = self.word_ended()
        return None if finished is None else self.put_line(finished)

    def word_ended(self):
        """The open word goes into the pending line, or begins one; the line that this finishes, if it does."""
        env = self.env
        if not env.word:
            return None
        word, gap, finished = env.word, env.gap_in_front(), None
        env.word, env.last = "", word
        fits = env.width() + gap + width(word) <= env.length - env.line_indent
        if env.line and not fits and env.fills and env.centred == 0:
            finished = env.finished(True)
        if not env.line:
            env.line_indent = env.indent if env.temporary is None else env.temporary
            env.temporary, gap = None, 0
        env.line.append((gap, word))
        env.gap = 0
        return finished

    def do_gap(self):
        if self.env.glyph:
            self.env.gap += 1

    def do_line_end(self):
        env, name = self.env, None
        if env.fills and env.centred == 0:
            if env.glyph:
                env.gap = 1 + env.ends_sentence()
        else:
            line = env.finished(False) if env.line else None if env.fills else ""
            env.centred = max(0, env.centred - 1)
            name = None if line is None else self.put_line(line)
        env.glyph, env.last = False, ""
        return name

    def do_break(self):
        return self.put_line(self.env.finished(False)) if self.env.line else None

    def do_count(self):
        lines, name = self.env.trap or (0, None)
        self.env.trap = (lines - 1, name) if lines > 1 else None
        return name if lines == 1 else None

    def do_interrupt(self, flags):
        self.env.left = flags

    def do_space(self, lines):
        return self.put("\n" * min(lines, self.to_stop())) if self.spaces else None

    def do_need(self, lines):
        lines = self.to_stop() if self.to_stop() < lines else 0
        self.spaces = self.spaces or lines > 0
        return self.put("\n" * lines)

    def do_eject(self, page):
        return self.do_eject_on(page) if self.spaces else None

    def do_eject_on(self, page):
        return self.put("\n" * self.to_stop()) if self.page == page else None

    def do_close(self):
        if self.page == 0 or self.place == 0:
            raise Ended(0)
        return self.put("\n" * self.to_stop())

    def do_title(self, text):
        return self.put_line(text)

    def do_set(self, what, value):
        setattr(self.env, what, value)

    def do_change(self, what, value):
        setattr(self.env, "last_" + what, getattr(self.env, what))
        setattr(self.env, what, value)

    def do_adjust(self, mode):
        self.env.adjusts = True
        self.env.mode = mode or self.env.mode

    def do_page_length(self, lines):
        self.length = lines

    def do_no_space(self, spaces):
        self.spaces = spaces

    def do_plant(self, where, names):
        same = [i for i, trap in enumerate(self.traps) if trap[0] == where]
        if same:
            self.traps[same[0]:same[0] + 1] = [(where, name) for name in names]
        elif names:
            if len(self.traps) == self.limits["traps"]:
                self.stop("traps")
            self.traps.append((where, names[0]))

    def do_move(self, name, places):
        same = [i for i, trap in enumerate(self.traps) if trap[1] == name]
        if same:
            self.traps[same[0]:same[0] + 1] = [(int(where), name) for where in places]

    def do_last_macro(self, name):
        self.last_macro = name

    def do_environment(self, number):
        if number is None:
            self.number = self.earlier.pop()
        else:
            self.earlier.append(self.number)
            self.number = number

    # lines of text
    def begin_text(self):
        """A text line: the one that `\\c` left in this environment, or a new one."""
        self.flags, self.env.left = self.env.left or Flags(), None

    def text_byte(self, byte):
        flags = self.flags
        if byte == "\\":
            byte += self.take()
        if byte == "\n":
            self.end_text()
        elif byte in ("\\{", "\\}"):
            flags.brace = True
        elif byte == "\\%":
            flags.escape = True
        elif byte == "\\c":
            flags.escape = True
            self.rest_of_line()
            self.flags = None
            self.perform([("interrupt", flags)])
        elif byte == " " and flags.glyph:
            self.perform([("word end",), ("gap",)])
        elif byte == " ":
            flags.blanks += 1
            self.perform([("word end",), ("break",)] if flags.blanks == 1 else [])
        else:
            blanks = [("glyph", BLANK * flags.blanks)] if flags.blanks and not flags.glyph else []
            flags.glyph = True
            self.perform(blanks + [("glyph", {"\\&": NOTHING, "\\ ": BLANK, "\\0": BLANK}.get(byte, byte))])

    def end_text(self):
        flags, self.flags = self.flags, None
        if flags.glyph or flags.escape:
            self.perform([("word end",), ("line end",), ("count",)])
        elif not flags.brace:
            self.perform([("word end",), ("break",), ("space", 1)])

    # control lines
    def rest_of_line(self):
        line = ""
        while not line.endswith("\n"):
            line += self.take()
        return line

    def control(self, breaks):
        name, *words = self.rest_of_line().split()
        if name in self.macros:
            self.push(self.macros[name])
        elif name == "ex":
            self.end_of_input()
        elif name == "de":
            lines = [self.rest_of_line()]
            while lines[-1] != "..\n":
                lines.append(self.rest_of_line())
            self.macros[words[0]] = "".join(lines[:-1])
        else:
            self.request(breaks, name, words)

    def request(self, breaks, name, words):
        """A request's events: a break, if it has one, and what it does, with the values of now."""
        env, first = self.env, words[0] if words else ""
        number = int(first) if first.lstrip("+-").isdigit() else None
        one = 1 if number is None else number

        def columns(what):
            return getattr(env, "last_" + what) if number is None else max(0, number + (getattr(env, what) if first[0] in "+-" else 0))

        if name == "ev" and number is None and not self.earlier:
            return self.tell("no such environment")
        if name == "ev" and number is not None and len(self.earlier) == self.limits["environments"]:
            self.stop("environments")
        if name == "tl" and len(first) - 2 > self.limits["line"]:
            self.stop("line")
        does = {
            "sp": ("space", one), "ne": ("need", one), "bp": ("eject", max(1, self.page)), "tl": ("title", first.strip("'")),
            "nf": ("set", "fills", False), "fi": ("set", "fills", True), "ce": ("set", "centred", max(0, one)),
            "ad": ("adjust", first), "na": ("set", "adjusts", False),
            "in": ("change", "indent", columns("indent")), "ti": ("set", "temporary", columns("indent")),
            "ll": ("change", "length", columns("length")), "pl": ("page length", number),
            "ns": ("no space", False), "rs": ("no space", True),
            "wh": ("plant", number, words[1:]), "ch": ("move", first, words[1:]),
            "it": ("set", "trap", (number, words[1]) if one > 0 and words[1:] else None),
            "em": ("last macro", first), "ev": ("environment", number),
        }
        breaking = breaks and name in ("br", "sp", "bp", "nf", "fi", "ce", "in", "ti")
        self.perform([("word end",), ("break",)] * breaking + ([does[name]] if name in does else []))

    # the end
    def end_of_input(self):
        """`.ex`: what stands in front is dropped, up to the line that the outermost macro interrupted."""
        if self.phase == "closing":
            return
        ends = [item[1] for item in self.front if item[0] == "end"]
        self.front, self.depth, self.at = [], 0, len(self.document)
        if ends:
            self.go_back(ends[0])

    def end_reached(self):
        if self.flags or self.env.left:
            if not self.flags:
                self.begin_text()
            self.end_text()
        elif self.phase == "input":
            self.phase = "last macro"
            if self.last_macro in self.macros:
                self.push(self.macros[self.last_macro])
        else:
            self.phase = "closing"
            self.perform([("word end",), ("break",), ("close",)])

    def run(self, lines):
        """The output, the messages and the status of a document."""
        self.document = "".join(line + "\n" for line in lines)
        try:
            while True:
                byte = self.take()
                if byte is None:
                    self.end_reached()
                elif self.flags is None and byte in ".'":
                    self.control(byte == ".")
                else:
                    if self.flags is None:
                        self.begin_text()
                    self.text_byte(byte)
        except Ended as end:
            return self.text, self.told, end.args[0]


def words(chance):
    """A text line: words with stops and closers, gaps, blanks in front and behind, and a `\\c` somewhere, or none."""
    some = ["a", "bb", "cc", "ddd", "eeee"] + ["f.", ")", "]", "*"] * 2
    some += ["g.)", "(h.)", "[", "...", "i?", "j!\"", "k*", "l.'", "\"m\"", "n.*)", "o.)p", ".)"]
    some += ["\\&", "q.\\&", "\\ ", "r\\0s", "\\}", "\\%"]
    line = chance.choice(["", "", "", "", "", "", " ", "  "])
    for i in range(chance.choice([1, 1, 1, 2, 2, 3, 4])):
        line += (chance.choice([" ", " ", " ", " ", "  ", "   "]) if i else "") + chance.choice(some if chance.random() < 0.6 else some[:5])
    line += chance.choice(["", "", "", "", "", "", "", " ", "  "])
    if chance.random() < 0.25:
        at = chance.choice([len(line)] * 5 + [0, len(line) - 1, chance.randrange(len(line) + 1)])
        if line[at - 1:at] != "\\":
            line = line[:at] + "\\c" + line[at:]
    return "x" + line if line[:1] in (".", "'") else line


def a_line(chance, macros):
    """A line of a document or of a macro."""
    number = lambda *numbers: chance.choice([" %s" % number for number in numbers])
    dot = lambda: chance.choice(".....''")
    kinds = [
        lambda: words(chance),
        lambda: chance.choice(["", "", "", " ", "  ", "\\c", " \\c", "\\{", " \\}", "\\%"]),
        lambda: dot() + "br",
        lambda: dot() + "sp" + chance.choice(["", "", " 0", " 2", " 9"]),
        lambda: dot() + "ce" + chance.choice(["", "", " 1", " 2", " 3", " 5", " 0"]),
        lambda: dot() + chance.choice(["nf", "nf", "fi", "fi", "fi"]),
        lambda: dot() + chance.choice(["ad l", "ad b", "ad r", "ad c", "ad", "na"]),
        lambda: dot() + "in" + chance.choice(["", " 0", " 0", " 1", " 2", " +1", " -1"]),
        lambda: dot() + "ti" + number("0", "1", "2", "+1", "-1"),
        lambda: dot() + "ll" + chance.choice(["", " 4", " 5", " 7", " 9", " 12", " 20", " +1", " -1"]),
        lambda: dot() + "pl" + number(1, 2, 3, 4, 5, 6, 9),
        lambda: dot() + "bp",
        lambda: dot() + "tl 'foot'",
        lambda: dot() + chance.choice(["ns", "ns", "rs"]),
        lambda: dot() + "ne" + chance.choice(["", " 0", " 1", " 2", " 3", " 9"]),
        lambda: dot() + "wh" + number(0, 0, 1, 1, 2, 2, 3, 4, -1, -1, -2, -3) + chance.choice(["", " T", " T", " U", " U", " V", " W"]),
        lambda: dot() + "ch " + chance.choice("TTUUVW") + chance.choice(["", "", " 0", " 1", " 2", " 3", " -1", " -2"]),
        lambda: dot() + "it" + chance.choice(["", " 0 U", " 1 T", " 1 U", " 1 V", " 2 T", " 2 U", " 3 V", " 1 W"]),
        lambda: dot() + "ev" + chance.choice(["", "", "", " 0", " 1", " 1", " 2"]),
        lambda: dot() + chance.choice(macros) if macros else ".br",
        lambda: dot() + "em" + chance.choice(["", " T", " U", " V"]),
        lambda: dot() + "ex",
    ]
    weights = [36, 6, 4, 3, 6, 4, 1, 2, 2, 1, 1, 2, 0.7, 0.7, 1, 2, 2, 3, 3, 3, 0.4, 1]
    return chance.choices(kinds, weights)[0]()


def document(chance):
    """The lines of a document: settings, macros, traps, and the rest."""
    lines = [".pl %d" % chance.choice([1, 2, 3, 3, 4, 4, 5, 6, 8, 20]), ".ll %d" % chance.choice([4, 4, 5, 6, 7, 8, 9, 10, 12, 20])]
    lines += chance.choice([[], [], [".na"], [".ad l"], [".nf"]])
    macros = ["T", "U", "V"][:chance.choice([0, 1, 1, 2, 2, 3])]
    for i, name in enumerate(macros):
        lines += [".de " + name] + [a_line(chance, macros[:i]) for _ in range(chance.choice([0, 1, 1, 1, 2, 2, 3, 4]))]
        lines += chance.choice([[]] * 12 + [["t\\c"]] * 3 + [["t\\c", ".ex"]]) + [".."]
    for name in macros:
        if chance.random() < 0.7:
            lines.append(".wh %d %s" % (chance.choice([0, 0, 1, 1, 1, 2, 2, 3, -1, -1, -2]), name))
    return lines + [a_line(chance, macros) for _ in range(chance.choice([1, 2, 4, 7, 12, 25]))]


def limits(chance):
    """The limits of a run: always a small depth, and sometimes another small one."""
    given = {"depth": chance.choice([3, 8, 8, 12]), "bytes": 20000}
    small = {"bytes": 400, "line": 12, "output": 60, "environments": 3, "traps": 4}
    other = chance.choice([None] * 8 + list(small))
    if other is not None:
        given[other] = chance.randrange(small[other])
    return given


def differs(name, lines, given, printed=None):
    """Whether program and model differ on a document, or print something else than it should; tells how."""
    wanted = Model(given).run(lines)
    run = subprocess.run([PROGRAM, "nroff"] + ["--%s=%d" % limit for limit in given.items()],
                         input="".join(line + "\n" for line in lines).encode(), capture_output=True, timeout=60)
    was = run.stdout.decode(), run.stderr.decode(), run.returncode
    same = was == wanted and (printed is None or was[0].rstrip("\n") == printed)
    if not same:
        print("%s within %s:\n%s\n  wanted %r\n  given  %r" % (name, given, "\n".join(lines), wanted, was))
    return not same


def main():
    if not PROGRAM.exists():
        sys.exit("tests/interrupted.py: %s is missing; ./roff --prove builds it" % PROGRAM)
    count, first = ([int(word) for word in sys.argv[1:]] + [3000, 0][len(sys.argv) - 1:])[:2]
    differ = sum(differs("worked document", text.split("|"), {}, printed.replace("|", "\n")) for text, printed in WORKED)
    for number in range(first, first + count):
        chance = random.Random(number)
        differ += differs("document %d" % number, document(chance), limits(chance))
    print("%d documents, %d differ" % (len(WORKED) + count, differ))
    return 1 if differ else 0


if __name__ == "__main__":
    sys.exit(main())
