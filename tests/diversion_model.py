"""The plain model of `nroff` with which tests/diversions.py compares the program.

It is the machine of tests/interrupted.py, with more: open diversions, each with its text, its lines and their width, its trap
and its no-space mode; bodies that are stored, within a limit; the spacing of lines, page offsets and numbers, titles, registers
that are read; and text that is read in copy mode, where events that waited may come in the middle.
"""
import re

import interrupted
from interrupted import BLANK, NOTHING, Ended, width

LIMITS = {"store": 1048576, "names": 2000, "diversions": 16}
LINE, COLUMN, FARTHEST = 40, 24, 2147483647
GLYPHS = {"\\&": NOTHING, "\\ ": BLANK, "\\0": BLANK, "\\e": "\\", "\\\\": "\\"}
BREAKING = ("br", "sp", "bp", "nf", "fi", "ce", "in", "ti")
REQUESTS = BREAKING + ("di", "da", "dt", "de", "am", "ds", "as", "rm", "rn", "ne", "tl", "ls", "lt", "ll", "pl", "po", "pn", "nr",
                       "ad", "na", "ns", "rs", "wh", "ch", "it", "ev", "em", "ex")


class Environment(interrupted.Environment):
    """An environment with the spacing of its lines, and the length of its titles."""

    def __init__(self):
        super().__init__()
        self.spacing = self.last_spacing = 1
        self.title_length = self.last_title_length = 65

    def held(self):
        """The bytes of the pending line."""
        return sum(gap + held(word) for gap, word in self.line)


class Diversion:
    """A diversion that is open: its name, its text so far, its lines and their width, its trap, and whether `.sp` spaces."""

    def __init__(self, name, appends):
        self.name, self.appends = name, appends
        self.text, self.place, self.width, self.trap, self.spaces = "", 0, 0, None, True


def held(word):
    return len(word) - word.count(NOTHING)


def diverted(line):
    """A line as a diversion keeps it."""
    return "\\&" + line.replace("\\", "\\e").replace(" ", "\\ ") + "\n"


class Model(interrupted.Model):
    """A run of a document within limits."""

    def __init__(self, limits):
        super().__init__(dict(LIMITS, **limits))
        self.environments = [Environment() for _ in range(3)]
        # The open diversions, the innermost last; the height and the width of the one that ended last.
        self.open, self.height, self.width = [], 0, 0
        # The text of a definition that is read, whether a control line is read, and the line of the item before the last one.
        self.making, self.is_control, self.line_before = "", False, 1
        self.page_number, self.next_number, self.offset, self.last_offset = 0, None, 0, 0

    # what is stored
    def used(self):
        return sum(map(len, self.macros.values())) + sum(len(one.text) for one in self.open) + len(self.making)

    def enter(self, name, text, appends):
        if name not in self.macros and len(self.macros) == self.limits["names"]:
            self.stop("names")
        self.macros[name] = (self.macros.get(name, "") if appends else "") + text

    # what isn't read yet
    def take(self):
        """The next byte, or nothing at the end of the input; the ends and events in front of it are done."""
        while self.front or self.at < len(self.document):
            byte = self.take_item()
            if byte is not None:
                return byte

    def take_item(self):
        """The next item: a byte, or nothing if it is an end or an event, which is done."""
        if self.charge == self.limits["bytes"]:
            self.stop("bytes")
        self.charge, self.line_before = self.charge + 1, self.line
        if not self.front:
            self.line = 1 + self.document.count("\n", 0, self.at)
            self.at += 1
            return self.document[self.at - 1]
        kind, *rest = item = self.front.pop()
        if kind == "byte":
            return rest[0]
        if kind in ("end", "text end"):
            self.depth -= 1
            # A control line goes on over the end of what it stands in.
            if kind == "end" and not self.is_control:
                self.go_back(rest[0])
        else:
            self.perform_again(item)

    def look(self):
        """The byte that comes next, behind ends, or nothing at the end of the input; events in front of it are done."""
        while True:
            first = next((item for item in reversed(self.front) if item[0] not in ("end", "text end")), None)
            if first is None:
                return self.document[self.at] if self.at < len(self.document) else None
            if first[0] == "byte":
                return first[1]
            self.take_item()

    def push(self, text):
        """A body that is called or that springs."""
        flags = None if self.is_control else self.flags
        self.push_text(text if text.endswith("\n") or not text else text + "\n", ("end", flags))
        self.flags = None

    def push_text(self, text, end=("text end",)):
        if self.depth == self.limits["depth"]:
            self.stop("depth")
        self.depth += 1
        self.front.append(end)
        self.front += [("byte", byte) for byte in reversed(text)]

    # events
    def perform(self, events):
        """Events one by one; behind a macro that springs stand those that are left, and the event itself if it isn't done."""
        for number, event in enumerate(events):
            name, goes_on = self.begun_by(event[0]), event
            if name is None:
                name = getattr(self, "do_" + event[0].replace(" ", "_"))(*event[1:])
                goes_on = self.going_on(event)
            if name is not None:
                self.spring(name, [goes_on] * (goes_on is not None) + events[number + 1:])
                return

    def perform_again(self, event):
        """An event that waited: in front of some an open word ends."""
        if event[0] in ("gap", "line end", "break") and self.env.word:
            name = self.begun_by("word end")
            if name is None:
                name = self.do_word_end()
            if name is not None:
                self.spring(name, [event])
                return
        self.perform([event])

    def going_on(self, event):
        """What is still to do of an event that was performed: of an eject, if its page hasn't ended."""
        if event[0] in ("eject", "eject on"):
            return ("eject on", event[1]) if event[1] == self.page else None
        return event if event[0] == "close" else None

    def spring(self, name, events):
        self.front += reversed(events)
        if name in self.macros:
            self.push(self.macros[name])

    def begun_by(self, kind):
        """The macro that springs on the first page, if an event begins that."""
        return self.begin() if self.page == 0 and not self.open and self.begins_page(kind) else None

    def begins_page(self, kind):
        env = self.env
        if kind == "word end":
            return bool(env.word and env.line) and not self.fits() and env.fills and env.centred == 0
        return super().begins_page(kind)

    def fits(self):
        env = self.env
        return env.width() + env.gap_in_front() + width(env.word) <= env.length - env.line_indent

    # where lines are put
    def begin(self):
        self.page_number = self.page_number + 1 if self.next_number is None else self.next_number
        self.next_number = None
        return super().begin()

    def put(self, line, blank):
        """A line, or none, and up to so many blank ones, in the innermost diversion or on the page; the macro that springs."""
        if not self.open:
            return self.put_on_page(line, blank)
        one, first = self.open[-1], 0 if line is None else 1
        way = self.way()
        blank = blank if way is None else max(0, min(blank, way - first))
        one.width = max(one.width, width(line or ""))
        one.spaces = one.spaces or first + blank > 0
        one.place += first + blank
        size = len(diverted(line)) if first else 0
        if self.used() + size + blank > self.limits["store"]:
            self.stop("store")
        one.text += (diverted(line) if first else "") + "\n" * blank
        return one.trap[1] if one.trap and one.place - first - blank < one.trap[0] <= one.place else None

    def put_on_page(self, line, blank, is_eject=False):
        first = 0 if line is None else 1
        blank = max(0, min(blank, self.to_stop() - first))
        text = ("" if line is None else (" " * self.offset + line).rstrip(" ") + "\n") + "\n" * blank
        if len(self.text) + len(text) > self.limits["output"]:
            self.stop("output")
        self.text += text
        self.spaces = self.spaces or not is_eject and first + blank > 0
        before, self.place = self.place, self.place + first + blank
        name = self.trap_within(before, self.place)
        if self.place >= self.length:
            if self.phase == "closing":
                raise Ended(0)
            name = self.begin()
        return name

    def way(self):
        """How many lines the next trap is away, or the page's end; nothing in a diversion without a trap ahead."""
        if not self.open:
            return self.to_stop()
        trap, place = self.open[-1].trap, self.open[-1].place
        return trap[0] - place if trap and trap[0] > place else None

    def put_line(self, text):
        return self.put(text, self.env.spacing - 1)

    # events: each gives the macro that springs, if one does
    def do_glyph(self, glyph):
        env = self.env
        if env.held() + env.gap_in_front() + held(env.word + glyph) > self.limits["line"]:
            self.stop("line")
        env.word, env.glyph = env.word + glyph, True

    def do_space(self, lines):
        return self.put(None, lines) if (self.open[-1] if self.open else self).spaces else None

    def do_need(self, lines):
        way = self.way()
        return self.put(None, way if way is not None and way < lines else 0)

    def do_no_space(self, spaces):
        (self.open[-1] if self.open else self).spaces = spaces

    def do_eject(self, page, number=None):
        if self.page != page or number is None and not self.spaces:
            return None
        self.next_number = self.next_number if number is None else number
        return self.put_on_page(None, self.to_stop(), True)

    def do_eject_on(self, page):
        return self.put_on_page(None, self.to_stop(), True) if self.page == page else None

    def do_close(self):
        if self.page == 0 or self.place == 0:
            raise Ended(0)
        return self.put_on_page(None, self.to_stop(), True)

    def do_title(self, parts):
        left, centre, right = [part.replace("%", str(self.page_number)) for part in parts]
        length = self.env.title_length
        centre_at = max((length - width(centre)) // 2, width(left))
        right_at = max(length - width(right), centre_at + width(centre))
        for at, part in (centre_at, centre), (right_at, right):
            left += " " * (at - width(left)) * (part != "") + part
        return self.put(left, 0)

    def do_divert(self, name, appends):
        if len(self.open) == self.limits["diversions"]:
            self.stop("diversions")
        self.open.append(Diversion(name, appends))

    def do_end_divert(self):
        if self.open:
            one = self.open.pop()
            self.height, self.width = one.place, one.width
            self.enter(one.name, one.text, one.appends)

    def do_diversion_trap(self, trap):
        if self.open:
            self.open[-1].trap = trap

    def do_drop(self):
        self.open = []

    def do_offset(self, columns):
        self.offset, self.last_offset = columns, self.offset

    def do_next(self, number):
        self.next_number = number

    def do_number(self, number):
        self.page_number = number

    # escapes, and text that is copied
    def value(self, name):
        """The text of a register."""
        nl = -1 if self.page == 0 else self.place * LINE
        way = self.way()
        return str({
            "dn": self.height * LINE, "dl": self.width * COLUMN, "nl": nl, "%": self.page_number,
            ".d": self.open[-1].place * LINE if self.open else nl, ".z": self.open[-1].name if self.open else "",
            ".t": FARTHEST if way is None else max(0, way) * LINE,
        }[name])

    def interpolate(self, kind):
        """A register or a string: its text is put in front."""
        name = self.take()
        if name == "(":
            name = self.take() + self.take()
        self.push_text(self.value(name) if kind == "n" else self.macros.get(name, ""))

    def copy(self):
        """The next unit as it is copied, one byte or an escape that stays; nothing at the end of the input."""
        while True:
            byte = self.take()
            if byte != "\\":
                return byte
            byte = self.take()
            if byte in ("n", "*"):
                self.interpolate(byte)
            elif byte in ("\\", "."):
                return byte
            elif byte != "\n":
                return "\\" + (byte or "")

    def keep(self, unit):
        """A unit goes into the text of a definition. One that the store has no room for isn't taken."""
        if self.used() + len(unit) > self.limits["store"]:
            self.line = self.line_before
            self.stop("store")
        self.making += unit

    def escape(self):
        """A backslash was taken from a text line, or where a line begins."""
        byte = self.take()
        if byte in ("n", "*"):
            self.interpolate(byte)
        elif byte != "\n" or self.flags:
            if self.flags is None:
                self.begin_text()
            self.text_byte("\\" + (byte or ""))

    def text_byte(self, byte):
        flags = self.flags
        if byte == "\n":
            self.end_text()
        elif byte in ("\\{", "\\}"):
            flags.brace = True
        elif byte in ("\\%", "\\\n", "\\"):
            flags.escape = True
        elif byte == "\\c":
            flags.escape = True
            self.rest_of_line()
            self.flags = None
            self.perform([("interrupt", flags)])
        elif byte == " ":
            flags.blanks += not flags.glyph
            first = [("word end",), ("break",)] if flags.blanks == 1 and not flags.glyph else []
            self.perform([("word end",), ("gap",)] if flags.glyph else first)
        else:
            blanks = [("glyph", BLANK * flags.blanks)] if flags.blanks and not flags.glyph else []
            flags.glyph = True
            self.perform(blanks + [("glyph", glyph) for glyph in self.glyphs(byte)])

    def glyphs(self, byte):
        if byte == "\\(":
            return {"em": ["-", "-"], "co": ["(", "C", ")"], "rs": ["\\"]}[self.take() + self.take()]
        if byte == "\\h":
            self.take()
            number = self.take()
            while not number.endswith("'"):
                number += self.take()
            return [BLANK * int(number[:-1]) or NOTHING]
        return [GLYPHS.get(byte, byte[-1])]

    # control lines
    def rest_of_line(self):
        while self.take() not in (None, "\n"):
            pass

    def control(self, breaks):
        self.is_control = True
        while self.look() in (" ", "\t"):
            self.take()
        name = ""
        while len(name) < 2 and self.look() is not None and self.look() not in " \t\n\\":
            name += self.take()
        does = self.whole_line(breaks, name)
        self.is_control = False
        does()

    def whole_line(self, breaks, name):
        """Reads the line of a control line, and answers what it does."""
        if name in self.macros:
            self.arguments()
            text = self.macros.get(name, "")
            return lambda: self.push(text)
        if name not in REQUESTS:
            self.rest_of_line()
            return lambda: None
        if name in ("ds", "as"):
            return self.string(name == "as")
        if name == "tl":
            parts = self.title()
            return lambda: self.perform([("title", parts)])
        words = self.arguments()
        if name == "ex":
            return self.end_of_input
        if name in ("de", "am"):
            return self.definition(words[0], name == "am")
        return lambda: self.request(breaks, name, words)

    def arguments(self):
        words, word = [], ""
        while (unit := self.copy()) not in (None, "\n"):
            if unit == " " and word:
                words.append(word)
            word = "" if unit == " " else word + unit
        return words + [word] * (word != "")

    def string(self, appends):
        """The line of a string, and what it does."""
        name, unit = "", self.copy()
        while unit == " ":
            unit = self.copy()
        while unit not in (" ", "\n", None):
            name, unit = name + unit, self.copy()
        while unit == " ":
            unit = self.copy()
        while unit not in ("\n", None):
            self.keep(unit)
            unit = self.copy()
        text, self.making = self.making, ""
        return lambda: self.enter(name, text, appends)

    def definition(self, name, appends):
        """The lines of a macro, and what they do."""
        front, is_front = "", True
        while (unit := self.copy()) is not None:
            if is_front and front == ".." and unit in (" ", "\n"):
                if unit == " ":
                    self.rest_of_line()
                text, self.making = self.making, ""
                return lambda: self.enter(name, text, appends)
            if is_front and "..".startswith(front + unit):
                front += unit
                continue
            self.keep(front + unit)
            front, is_front = "", unit == "\n"
        self.making = ""
        self.tell("definition not ended")
        return lambda: None

    def title(self):
        """The parts of a title, which are read to the line's end."""
        parts, delimiter = [""], self.copy()
        while delimiter == " ":
            delimiter = self.copy()
        unit = "" if delimiter in ("\n", None) else self.copy()
        while delimiter not in ("\n", None) and unit not in ("\n", None):
            if unit == delimiter and len(parts) < 4:
                parts.append("")
            else:
                parts[-1] += unit
                if sum(map(len, parts[:3])) > self.limits["line"]:
                    self.stop("line")
            unit = self.copy()
        return (parts + ["", ""])[:3]

    # requests
    def lines(self, word):
        """A vertical distance, in lines; nothing if it is no number."""
        return self.distance(word, LINE, self.open[-1].place * LINE if self.open else self.place * LINE)

    def distance(self, word, scale, place=0):
        """A sum of numbers, from the place where a bar stands in front, as rounded; nothing if it is none."""
        numbers = re.match(r"\|?([-+]?\d+u?)+", word)
        if not numbers:
            return None
        number = sum(int(digits) * (1 if unit else scale) for digits, unit in re.findall(r"([-+]?\d+)(u?)", numbers[0]))
        return (number - (place if word[0] == "|" else 0) + scale // 2) // scale

    def request(self, breaks, name, words):
        """A request's events: a break, if it has one, and what it does, with the values of now."""
        events = getattr(self, "ask_" + name, self.ask_other)(name, words)
        if events is not None:
            behind = [event for event in events if event[0] != "next" or name == "pn"]
            front = [event for event in events if event not in behind]
            self.perform(front + [("word end",), ("break",)] * (breaks and name in BREAKING) + behind)

    def bad_number(self):
        self.tell("bad number")

    def ask_sp(self, name, words):
        lines = self.lines(words[0]) if words else 1
        if lines is None:
            return self.bad_number()
        if lines < 0:
            self.tell("backward motion")
        return [("space", max(0, lines))]

    def ask_ne(self, name, words):
        lines = self.lines(words[0]) if words else 1
        return self.bad_number() if lines is None else [("need", max(0, lines))]

    def ask_bp(self, name, words):
        number = None
        if words:
            if not re.match(r"[-+]?\d", words[0]):
                return self.bad_number()
            number = int(words[0]) + (self.page_number if words[0][0] in "+-" else 0)
        if self.open:
            return []
        ahead = [("next", number)] if number is not None and self.page else []
        return ahead + [("eject", max(1, self.page), number)]

    def ask_dt(self, name, words):
        lines = self.lines(words[0]) if words else 0
        if lines is None:
            return self.bad_number()
        return [("diversion trap", (lines, words[1]) if words[1:] else None)]

    def ask_di(self, name, words):
        return [("divert", words[0], name == "da")] if words else [("end divert",)]

    ask_da = ask_di

    def ask_wh(self, name, words):
        return [("plant", int(words[0]), words[1:])]

    def ask_ch(self, name, words):
        return [("move", words[0], words[1:])]

    def ask_rm(self, name, words):
        for word in words:
            self.macros.pop(word, None)

    def ask_rn(self, name, words):
        if words[0] in self.macros and words[0] != words[1]:
            self.macros[words[1]] = self.macros.pop(words[0])

    def ask_nr(self, name, words):
        return [("number", int(words[1]))]

    def ask_pn(self, name, words):
        return [("next", int(words[0]) + (self.page_number if words[0][0] in "+-" else 0))]

    def ask_ev(self, name, words):
        if not words and not self.earlier:
            return self.tell("no such environment")
        if words and len(self.earlier) == self.limits["environments"]:
            self.stop("environments")
        return [("environment", int(words[0]) if words else None)]

    def ask_ls(self, name, words):
        return [("change", "spacing", max(1, int(words[0])) if words else self.env.last_spacing)]

    def page_length(self, word):
        """A length of the page, which a sign adds to the one in force or takes from it."""
        rest = word.lstrip("+-")
        units = sum(int(digits) * (1 if unit else LINE) for digits, unit in re.findall(r"([-+]?\d+)(u?)", rest))
        if rest != word:
            units = self.length * LINE + (units if word[0] == "+" else -units)
        lines = (units + LINE // 2) // LINE
        return [("page length", lines)] if lines >= 1 else self.tell("page length too small")

    def ask_po(self, name, words):
        return [("offset", self.columns(words, self.offset, self.last_offset))]

    def columns(self, words, now, before):
        """A distance along the line, which a sign adds to the one in force."""
        if not words:
            return before
        return max(0, self.distance(words[0], COLUMN) + (now if words[0][0] in "+-" else 0))

    def ask_other(self, name, words):
        env, first = self.env, words[0] if words else ""
        setting = {"in": "indent", "ll": "length", "lt": "title_length"}.get(name)
        if setting:
            return [("change", setting, self.columns(words, getattr(env, setting), getattr(env, "last_" + setting)))]
        if name == "ti":
            return [("set", "temporary", self.columns(words, env.indent, 0))]
        if name == "pl":
            return self.page_length(first)
        number = int(first) if re.fullmatch(r"-?\d+", first) else 1
        return {
            "br": [], "nf": [("set", "fills", False)], "fi": [("set", "fills", True)], "na": [("set", "adjusts", False)],
            "ce": [("set", "centred", max(0, number))], "ad": [("adjust", first)],
            "ns": [("no space", False)], "rs": [("no space", True)], "em": [("last macro", first)],
            "it": [("set", "trap", (number, words[1]) if number > 0 and words[1:] else None)],
        }[name]

    # the end
    def end_reached(self):
        if self.phase == "last macro" and not self.flags and not self.env.left:
            self.phase = "closing"
            self.perform([("drop",), ("word end",), ("break",), ("close",)])
        else:
            super().end_reached()

    def run(self, lines):
        """The output, the messages and the status of a document."""
        self.document = "".join(line + "\n" for line in lines)
        try:
            while True:
                byte = self.take()
                if byte is None:
                    self.end_reached()
                elif byte == "\\":
                    self.escape()
                elif self.flags is None and byte in ".'":
                    self.control(byte == ".")
                else:
                    if self.flags is None:
                        self.begin_text()
                    self.text_byte(byte)
        except Ended as end:
            return self.text, self.told, end.args[0]
