#!/usr/bin/env python3
"""Makes calls by chance on pages, and compares what they write and answer with a plain model.

    tests/pages.py [LISTS [CALLS]]        # 200 lists of 300 calls, if nothing else is said
    tests/pages.py --store                # writes the stored run of crates/test_pages anew

The program is crates/test_pages, whose head says what it reads and tells; build it first, by `rt run` in its folder. The
model here keeps lists of boxes, and goes over all traps each time. The lists are the same in each run. Limits are
small or 0, sinks fail behind some bytes, and some numbers are as large as they may be.
"""
import pathlib
import random
import subprocess
import sys

TOP = pathlib.Path(__file__).resolve().parent.parent
CRATE = TOP / "crates" / "test_pages"
MOST, GREATEST = 1 << 33, 2147483647
BLANKS = {"_": " ", "%": "\x01", "~": "\x00", "^": "\x02"}
NAMES = ["a", "b", "FO", "HD", "XX"]


def raw(text):
    return "".join(BLANKS.get(c, c) for c in text)


def told(name):
    return 0 if name is None else ord(name[0]) * 1000 + (ord(name[1]) + 1 if len(name) > 1 else 0)


class Pages:
    """The layout as it is defined, and a sink with room for so many bytes."""

    def __init__(self, room, traps, diversions, output, first, ranges):
        self.room, self.most_traps, self.most_diversions, self.output = room, traps, diversions, output
        self.ranges, self.next, self.begun, self.number, self.length = ranges, first, 0, 0, 66
        self.offset = self.previous = self.height = self.width = self.written = 0
        self.traps, self.lines, self.open = [], 0, []
        self.listed = self.mode = self.closing = self.over = False
        self.text = b""

    # traps and stops
    def place_of(self, n):
        place = n if n >= 0 else self.length + n
        return place if 0 <= place < self.length else None

    def page_stop(self):
        places = [self.place_of(n) for n, _ in self.traps]
        return min([p for p in places if p is not None and p > self.lines] + [self.length])

    def target(self, eject=False):
        """The place, the stop or none, and no-space mode, of where something is put."""
        if self.open and not eject:
            d = self.open[-1]
            stop = d["trap"][0] if d["trap"] and d["trap"][0] > d["lines"] else None
            return d["lines"], stop, d["mode"]
        return self.lines, self.page_stop(), self.mode

    # what is put
    def put(self, text, space, eject=False, number=None):
        """Puts a text, if there is one, and blank lines. Answers what springs, or -1 or -2."""
        place, stop, _ = self.target(eject)
        lines = 1 if text is not None else 0
        if stop is not None:
            space = min(space, max(0, stop - place - lines))
        boxes = lines + space
        diverted = bool(self.open) and not eject
        if not diverted and self.listed:
            line = b"" if text is None else (" " * self.offset + text).rstrip(" ").encode() + b"\n"
            length = len(line) + space
            if self.written + length > self.output:
                return -1
            out = line + b"\n" * space
            self.text += out[:self.room]
            if length > self.room:
                self.room = 0
                return -2
            self.room -= length
            self.written += length
        if number is not None:
            self.next = number
        if diverted:
            d = self.open[-1]
            d["lines"] += boxes
            d["width"] = max(d["width"], len(text or ""))
            d["mode"] = d["mode"] and not boxes
            passed = d["trap"][1] if d["trap"] and place < d["trap"][0] <= place + boxes else None
        else:
            places = [(self.place_of(n), name) for n, name in self.traps]
            passed = next((name for p, name in places if p is not None and place < p <= place + boxes), None)
            self.lines += boxes
            self.mode = self.mode and (eject or not boxes)
        if not diverted and self.lines >= self.length:
            if self.closing:
                self.over = True
            else:
                passed = self.page()
        return 0 if self.over else told(passed)

    def page(self):
        """A page begins: what springs at its beginning."""
        self.number = self.next if self.next is not None else min(self.number + 1, GREATEST)
        self.next, self.lines = None, 0
        self.begun += 1
        self.listed = not self.ranges or any(a <= self.number <= b for a, b in self.ranges)
        met = [name for n, name in self.traps if self.place_of(n) == 0]
        return met[0] if met else None

    # calls
    def begin(self):
        name = self.page()
        return 0 if self.over else told(name)

    def eject(self, asked, number):
        if self.begun != asked or (number is None and self.mode):
            return 0
        return self.put(None, self.way(), True, number)

    def eject_on(self, asked):
        return self.put(None, self.way(), True) if self.begun == asked else 0

    def eject_last(self):
        if self.begun == 0 or self.lines == 0:
            self.over = True
            return 0
        return self.put(None, self.way(), True)

    def way(self):
        return max(0, self.page_stop() - self.lines)

    def space(self, lines):
        return 0 if self.target()[2] else self.put(None, lines)

    def need(self, lines):
        place, stop, _ = self.target()
        way = None if stop is None else max(0, stop - place)
        return self.put(None, way if way is not None and way < lines else 0)

    def plant(self, n, name):
        for i, (m, _) in enumerate(self.traps):
            if m == n:
                self.traps[i] = (n, name)
                return 0
        if len(self.traps) >= self.most_traps:
            return -3
        self.traps.append((n, name))
        return 0

    def change(self, is_it, new):
        for i, trap in enumerate(self.traps):
            if is_it(trap):
                self.traps[i:i + 1] = new(trap)
                return

    def divert(self, name):
        if len(self.open) >= self.most_diversions:
            return -3
        self.open.append({"name": name, "lines": 0, "width": 0, "trap": None, "mode": False})
        return 0

    def end_divert(self):
        if self.open:
            d = self.open.pop()
            self.height, self.width = d["lines"], d["width"]

    def state(self):
        place, stop, _ = self.target()
        name = self.open[-1]["name"] if self.open else None
        flags = [str(bool(f)).lower() for f in (self.open, self.begun or self.open, self.over)]
        numbers = [-1 if self.begun == 0 else min(self.lines, MOST), min(place, MOST),
                   -1 if stop is None else max(0, stop - place), self.number, self.length, self.offset, self.previous,
                   min(self.height, MOST), min(self.width, MOST), told(name)]
        return " ".join(map(str, numbers + flags))

    def call(self, line):
        """Makes a call; what it answers."""
        letter, *words = line.split(" ")
        number = lambda i: int(words[i]) if i < len(words) and words[i] != "-" else None
        if letter == "b":
            return self.begin()
        if letter == "c":
            self.open, self.closing = [], True
        elif letter == "p":
            return self.put(printed(raw(words[0]), *map(int, words[1:4])), int(words[4]))
        elif letter == "t":
            return self.put(titled(*words[:3], int(words[3]), words[4]), 0)
        elif letter == "s":
            return self.space(int(words[0]))
        elif letter == "n":
            return self.need(int(words[0]))
        elif letter == "e":
            return self.eject(int(words[0]), number(1))
        elif letter == "o":
            return self.eject_on(int(words[0]))
        elif letter == "l":
            return self.eject_last()
        elif letter == "L":
            self.length = int(words[0])
        elif letter == "O":
            self.previous, self.offset = self.offset, int(words[0])
        elif letter == "X":
            self.next = int(words[0])
        elif letter == "N":
            self.number = int(words[0])
        elif letter == "M":
            if self.open:
                self.open[-1]["mode"] = words[0] == "1"
            else:
                self.mode = words[0] == "1"
        elif letter == "w":
            return self.plant(int(words[0]), words[1])
        elif letter == "u":
            self.change(lambda t: t[0] == int(words[0]), lambda t: [])
        elif letter == "m":
            self.change(lambda t: t[1] == words[0], lambda t: [(int(words[1]), t[1])])
        elif letter == "r":
            self.change(lambda t: t[1] == words[0], lambda t: [])
        elif letter == "d":
            return self.divert(words[0])
        elif letter == "D":
            self.end_divert()
        elif letter == "T" and self.open:
            self.open[-1]["trap"] = None if words[0] == "-" else (int(words[0]), words[1])
        return 0


def printed(text, lead, spare, gaps):
    """A line with its blanks written."""
    out, passed = " " * lead, 0
    for c in text:
        if c == " ":
            added = ((passed + 1) * spare // gaps - passed * spare // gaps) if gaps else 0
            passed += 1
            out += " " * (1 + added)
        else:
            out += " " if c in "\x00\x01" else c
    return out


def titled(left, centre, right, length, number):
    """The text of a title."""
    part = lambda text: raw(text).replace("\x01", number).replace("\x00", " ")
    left, centre, right = part(left), part(centre), part(right)
    centre_at = max(max(0, length - len(centre)) // 2, len(left))
    right_at = max(max(0, length - len(right)), centre_at + len(centre))
    out = left
    if centre:
        out = out.ljust(centre_at) + centre
    if right:
        out = out.ljust(right_at) + right
    return out


def anew(chance):
    """A line that makes pages anew."""
    room = chance.choice([0, 7, 300, 100000, 100000, 100000])
    output = chance.choice([0, 40, 700, 100000, 100000, 100000])
    ranges = [(a, a + chance.randrange(4)) for a in (chance.randrange(-3, 9) for _ in range(chance.choice([0, 0, 1, 2])))]
    first = chance.choice(["-", "-", str(chance.randrange(-5, 5)), str(GREATEST - 1)])
    words = [room, chance.choice([0, 2, 5, 64]), chance.choice([0, 1, 3]), output, first, len(ranges)]
    return " ".join(map(str, ["a"] + words + [n for r in ranges for n in r]))


def text(chance):
    return "".join(chance.choice("ab_~%^é\\") for _ in range(chance.choice([0, 1, 3, 10])))


def calls(chance, count):
    """A list of calls."""
    few = lambda: chance.choice([0, 1, 1, 2, 3, 5, 9])
    place = lambda: chance.choice([-12, -3, -1, 0, 0, 1, 2, 3, 5, 8, GREATEST, -GREATEST - 1])
    name = lambda: chance.choice(NAMES)
    yield anew(chance)
    for _ in range(count):
        kind = chance.choice("bppppppppttssssnneeoLLOXNMMwwwumrdDDTTcl" if chance.random() < .98 else "cl")
        if kind in "cl" and chance.random() < .9:
            kind = "p"
        words = {
            "p": lambda: [text(chance), few(), chance.choice([0, 0, 4, 7]), chance.choice([0, 1, 2, 3]), chance.choice([0, 0, 0, 1, 4])],
            "t": lambda: [text(chance), text(chance), text(chance), chance.choice([0, 5, 20, 30]), chance.choice(["7", "-12", "iv"])],
            "s": lambda: [chance.choice([0, 1, 2, 4, 30, 5000])],
            "n": lambda: [chance.choice([0, 1, 2, 4, 30, 4294967295])],
            "e": lambda: [chance.choice([0, 1, 2, 3, 4]), chance.choice(["-", "-", "3", "-2"])],
            "o": lambda: [chance.choice([0, 1, 2, 3, 4])],
            "L": lambda: [chance.choice([0, 1, 4, 8, 8, 12, 66])],
            "O": lambda: [few()],
            "X": lambda: [chance.choice([1, 4, GREATEST, -GREATEST - 1])],
            "N": lambda: [chance.choice([1, 4, GREATEST, -GREATEST - 1])],
            "M": lambda: [chance.choice([0, 1])],
            "w": lambda: [place(), name()], "u": lambda: [place()], "m": lambda: [name(), place()], "r": lambda: [name()],
            "d": lambda: [name(), chance.choice([0, 1])],
            "T": lambda: chance.choice([["-"], [place(), name()]]),
        }.get(kind, lambda: [])()
        yield " ".join(map(str, [kind] + words))


def bounds():
    """Calls at the bounds: pages and spaces as long as they may be, and many traps at one place."""
    yield "a 100000 64 2 100000 - 0"
    for line in ("L 1", "b", "p a 0 0 0 9", "p b 0 0 0 0", "L 53687091", "s 4294967295", "p c 0 0 0 4294967296"):
        yield line
    for i in range(70):
        yield "w 5 %s" % NAMES[i % 5]
        yield "w %d %s" % (i, NAMES[i % 5])
    for i in range(70):
        yield "m %s 5" % NAMES[i % 5]
        yield "u %d" % (69 - i)
    for line in ("d a 0", "s 4294967295", "s 4294967295", "s 4294967295", "p a 0 0 0 18446744073709551615", "D", "c", "l"):
        yield line


# Lines too long for the model: what each call answers, and behind it the width of the diversion that ended last.
HUGE = (("a 100000 1 1 100000 - 0", 0, 0), ("b", 0, 0), ("p d 18446744073709551615 0 0 0", -1, 0), ("p d_e 0 18446744073709551615 1 0", -1, 0),
        ("p d 0 0 0 18446744073709551615", 0, 0), ("t a b c 4294967296 7", -1, 0), ("O 4294967295", 0, 0), ("p d 0 0 0 0", -1, 0),
        ("p _ 0 0 0 0", 0, 0), ("d a 0", 0, 0), ("p a 4294967296 0 0 0", 0, 0), ("D", 0, 4294967297), ("d a 0", 0, 4294967297),
        ("p a_b 18446744073709551615 18446744073709551615 1 0", 0, 4294967297), ("D", 0, MOST), ("d a 0", 0, MOST),
        ("t a b c 4294967296 7", 0, MOST), ("D", 0, 4294967296))


def sweeps():
    """The same three pages with titles within each limit on the output, and on a sink that fails behind each byte."""
    calls = ["L 4", "O 1", "w 0 HD", "w -1 FO", "b"] + ["t a %% b 9 %d" % n for n in (1, 2, 3)] + ["p a_b 1 2 1 1", "t l c r 12 3", "s 2", "e 2 -", "p x 0 0 0 0"] * 2
    for room in range(130):
        yield from ["a %d 3 0 100000 - 0" % room] + calls + ["a 100000 3 0 %d - 0" % room] + calls


def run(lines):
    """What the program writes."""
    given = "".join(line + "\n" for line in lines).encode()
    return subprocess.run([CRATE / "out" / "test_pages"], input=given, stdout=subprocess.PIPE, check=True).stdout


def modelled(lines):
    """What it should write."""
    out, pages = [], None
    for line in lines:
        if line.startswith("a "):
            room, traps, diversions, output, first, count, *rest = line.split(" ")[1:]
            numbers = list(map(int, rest))
            pages = Pages(int(room), int(traps), int(diversions), int(output), None if first == "-" else int(first),
                          list(zip(numbers[::2], numbers[1::2])))
            answer = 0
        else:
            answer = pages.call(line)
        out.append(pages.text + ("= %d %s\n" % (answer, pages.state())).encode())
        pages.text = b""
    return out


def differs(title, lines):
    """Whether program and model differ on these calls; tells where."""
    wanted, given, at = modelled(lines), run(lines), 0
    if given == b"".join(wanted):
        return False
    for line, part in zip(lines, wanted):
        if given[at:at + len(part)] != part:
            print("%s differs at: %s\n  wanted %r\n  given  %r" % (title, line, part, given[at:at + len(part) + 20]))
            break
        at += len(part)
    return True


def huge_differs():
    """Whether the program answers something else where lines are too long for the model."""
    answers = [line.split() for line in run([line for line, _, _ in HUGE]).decode().split("\n") if line.startswith("=")]
    given = [(int(words[1]), int(words[10])) for words in answers]
    wanted = [(answer, width) for _, answer, width in HUGE]
    for (line, *_), one, other in zip(HUGE, wanted, given):
        if one != other:
            print("%s: wanted %r, given %r" % (line, one, other))
    return given != wanted


def main():
    if "--store" in sys.argv:
        lines = [line for number in range(20) for line in calls(random.Random(number), 60)]
        (CRATE / "stdin").write_bytes("".join(line + "\n" for line in lines).encode())
        (CRATE / "stdout").write_bytes(b"".join(modelled(lines)))
        return 0
    lists, count = ([int(word) for word in sys.argv[1:]] + [200, 300][len(sys.argv) - 1:])[:2]
    differ = sum([huge_differs(), differs("the list of bounds", list(bounds())), differs("a sweep", list(sweeps()))])
    differ += sum(differs("list %d" % number, list(calls(random.Random(number), count))) for number in range(lists))
    print("bounds, sweeps and %d lists of %d calls: %d differ" % (lists, count, differ))
    return 1 if differ else 0


if __name__ == "__main__":
    sys.exit(main())
