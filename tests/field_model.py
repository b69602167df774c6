"""The plain model of `nroff` with which tests/fields.py compares the program.

It is the machine of tests/diversion_model.py, with more: tabs, their stops and kinds of stops, fields, and motions to a place on
the line of the input. A field is a text beside the open word, which goes behind that once it ends; a gap in it waits.
"""
import re

import diversion_model
from diversion_model import COLUMN, held
from interrupted import BLANK, NOTHING, width

OPERAND = r"\(?\d+[nu]?\)?"
STOP = re.compile(r"(\+?)(\|?-?%s(?:\+%s)*)" % (OPERAND, OPERAND))
MOST_STOPS = 32


class Field:
    """A field that is open: how far its stop is from its tab, whether it is centred there, its text and the gap at its end."""

    def __init__(self, way, is_centred):
        self.way, self.is_centred, self.text, self.gap = way, is_centred, "", 0

    def columns(self):
        """The columns of the text, or of its first half, that lie in front of the stop."""
        return width(self.text) // 2 if self.is_centred else width(self.text)


class Environment(diversion_model.Environment):
    """An environment with the place on the line of the input, its tab stops, and the field that is open, if one is."""

    def __init__(self):
        super().__init__()
        self.at, self.stops, self.field = 0, None, None

    def next_stop(self):
        """The columns to the next stop, and its kind; nothing and no columns without one."""
        if self.stops is None:
            return 8 - self.at % 8, "L"
        ahead = [(column - self.at, kind) for column, kind in self.stops if column > self.at]
        return min(ahead, key=lambda stop: stop[0]) if ahead else (0, "L")


class Model(diversion_model.Model):
    """A run of a document within limits."""

    def __init__(self, limits):
        super().__init__(limits)
        self.environments = [Environment() for _ in range(3)]
        # The blanks in front of the first glyph of the line of the input, while that is read.
        self.leading = 0
        # How many fields had a gap at their end, or text that is longer than the way to their stop.
        self.odd_fields = 0

    # events
    def perform(self, events):
        """Events one by one. Behind a macro that springs stand those that are left, and the event itself if it isn't done."""
        for number, event in enumerate(events):
            name, goes_on = self.own_ends(event[0]), event
            if name is None:
                name = self.begun_by(event[0])
            if name is None:
                name = getattr(self, "do_" + event[0].replace(" ", "_"))(*event[1:])
                goes_on = self.going_on(event)
            if name is not None:
                self.spring(name, [goes_on] * (goes_on is not None) + events[number + 1:])
                return

    def perform_again(self, event):
        self.perform([event])

    def own_ends(self, kind):
        """What ends in front of an event: an open field, and then the open word. The macro that springs there."""
        if kind in ("line end", "break") and self.env.field:
            self.end_field()
        if kind not in ("gap", "line end", "break") or self.env.field or not self.env.word:
            return None
        name = self.begun_by("word end")
        return self.do_word_end() if name is None else name

    def begins_page(self, kind):
        if kind == "word end" and self.env.field:
            return False
        return kind == "tab" or super().begins_page(kind)

    # the pending line
    def check_length(self, more):
        """The bytes of the pending line, with the open word, the field that is open, and so many more, are within the limit."""
        env = self.env
        field = held(env.field.text) if env.field else 0
        if env.held() + env.gap_in_front() + held(env.word) + field + more > self.limits["line"]:
            self.stop("line")

    def do_glyph(self, glyph):
        env, field = self.env, self.env.field
        if field:
            self.check_length(field.gap + held(glyph))
            field.text, field.gap = field.text + BLANK * field.gap + glyph, 0
        else:
            super().do_glyph(glyph)
        env.at += width(glyph)

    def do_gap(self):
        env = self.env
        if env.field:
            env.field.gap += 1
        else:
            super().do_gap()
        env.at += env.glyph

    def do_word_end(self):
        return None if self.env.field else super().do_word_end()

    def do_line_end(self):
        name = super().do_line_end()
        # No line of the input is ended by what this springs: that is read later.
        self.env.at = 0
        return name

    def end_field(self):
        """The open field goes behind the open word."""
        env, field = self.env, self.env.field
        motion = max(0, field.way - field.columns())
        self.odd_fields += field.gap > 0 or field.columns() > field.way
        self.check_length(motion)
        env.word, env.at, env.field = env.word + BLANK * motion + field.text, env.at + motion, None

    def do_tab(self):
        """A tab ends the open field, and the word before a gap at its end; the line that this finishes is put behind the tab."""
        env, finished = self.env, None
        if env.field:
            gap = env.field.gap
            self.end_field()
            if gap:
                finished = self.word_ended()
                env.gap = gap
        columns, kind = env.next_stop()
        self.do_glyph(BLANK * columns if kind == "L" and columns else NOTHING)
        if kind != "L":
            env.field = Field(columns, kind == "C")
        return None if finished is None else self.put_line(finished)

    def do_stops(self, stops):
        self.env.stops = stops

    # escapes, and text that is copied
    def copy(self):
        unit = super().copy()
        return "\t" if unit == "\\t" else unit

    def text_byte(self, byte):
        flags = self.flags
        self.leading = 0 if flags.glyph else flags.blanks
        if byte not in ("\t", "\\t", "\\\t"):
            return super().text_byte(byte)
        blanks = [("glyph", BLANK * flags.blanks)] if flags.blanks and not flags.glyph else []
        flags.glyph = True
        self.perform(blanks + [("tab",)])

    def glyphs(self, byte):
        """The glyphs of an escape or a byte. A motion goes by columns, or to a place on the line of the input."""
        if byte != "\\h":
            return super().glyphs(byte)
        self.take()
        text = self.take()
        while not text.endswith("'"):
            text += self.take()
        columns = int(text.strip("|'"))
        if text[0] == "|":
            columns -= self.env.at + self.leading
        if columns < 0:
            self.tell("backward motion")
        return [BLANK * columns or NOTHING]

    # requests
    def whole_line(self, breaks, name):
        if name != "ta" or name in self.macros:
            return super().whole_line(breaks, name)
        words = self.arguments()
        return lambda: self.set_stops(words)

    def set_stops(self, words):
        stops, before = [], 0
        for word in words[:MOST_STOPS]:
            found = STOP.match(word)
            if not found:
                return self.bad_number()
            numbers = re.findall(r"(-?)\(?(\d+)([nu]?)", found[2])
            units = sum((-1 if sign else 1) * int(digits) * (1 if unit == "u" else COLUMN) for sign, digits, unit in numbers)
            before = (before * (found[1] == "+")) + (units + COLUMN // 2) // COLUMN
            stops.append((before, {"R": "R", "C": "C"}.get(word[found.end():found.end() + 1], "L")))
        self.perform([("stops", stops)])
