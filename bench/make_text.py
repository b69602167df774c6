#!/usr/bin/env python3
"""Writes a made-up document on standard output, the same one each time.

    bench/make_text.py text MEGABYTES       running text: sentences in lines of 50 to 75 bytes, now and then a blank line
    bench/make_text.py requests MEGABYTES   the same with a request after every 2 to 5 lines
    bench/make_text.py registers MEGABYTES  the same with a register set after every 2 to 5 lines, and one read in each line
    bench/make_text.py code MEGABYTES       filling off: lines of source code of 0 to 90 bytes, set in by blanks or by tabs
    bench/make_text.py tabs MEGABYTES       filling off: lines of ten numbers, each behind a tab
    bench/make_text.py fields MEGABYTES     the same with stops at which the numbers end
    bench/make_text.py skipped MEGABYTES    running text as the branch of a condition that is false
    bench/make_text.py macros MEGABYTES     running text with macros, strings and registers of its own
    bench/make_text.py springs MEGABYTES    running text in which a macro springs behind every third line
    bench/make_text.py pages MEGABYTES      the same on pages of 20 lines, with a space or a page length after every 2 to 5 lines
    bench/make_text.py headers MEGABYTES    running text on pages with a header and a footer, each paragraph of which needs three lines
    bench/make_text.py escaped MEGABYTES    running text in which words have escapes of fonts and dashes, as those of manual pages have
    bench/make_text.py diversions MEGABYTES running text of which each paragraph is diverted, and read again without filling
    bench/make_text.py diverting MEGABYTES  the same, which isn't read
    bench/make_text.py loop MEGABYTES       macros that call each other until so many bytes of them were read; writes nothing
    bench/make_text.py tables MEGABYTES     tables of 200 rows of three columns, with a line of text before each
    bench/make_text.py measured MEGABYTES   the same with escapes in half of the fields
    bench/make_text.py boxes MEGABYTES      tables as in `tables`, each field of which stands in a box
    bench/make_text.py spans MEGABYTES      the same with a heading over all columns, and a thing that goes over two rows in every ten
    bench/make_text.py blocks MEGABYTES     tables of 20 rows of two columns, of which one has blocks of forty words
"""
import functools
import random
import sys

KINDS = ("text", "requests", "registers", "code", "tabs", "fields", "skipped", "macros", "springs", "pages", "headers", "escaped",
         "diversions", "diverting", "loop", "tables", "measured", "boxes", "spans", "blocks")

MEGABYTE = 1_000_000

# A document longer than this repeats its beginning.
NEW_TEXT = 5 * MEGABYTE

WORDS = """
a a a a about after again all also an an and and and and another any are are as as as at at away back be be because
been before began behind below beside better between book both bread bring building but but by by came can carry case
chair change church city clear close cold colour come company could country course day days did different do does done
door down draw each early earth east edge eight end enough even evening every example eye fact family far farmer father
few field find fire first fish five floor follow for for for form found four friend from from full garden gave general
give glass go gold good government great green ground had had half hand hard has have he he head hear heavy held help
her here high hill him himself his history hold home horse hour house how hundred ice idea if important in in in
industry into is is island it it its keep kept kind king knew know lake land large last late law lead learn leave left
letter life light like line list little live long look made make man many map mark matter may mean measure men mile
mind minute money month moon more morning most mother mountain move much music must name near never new next night no
north nothing notice now number of of of of of off often old on on once one only open or or order other our out over
page paper part people perhaps person picture piece place plain plan plant point possible power present press problem
produce question quick quiet rain read ready reason record red remember rest right river road rock room round rule run
said sail same say school sea second see seem sentence set several shape she ship short should show side since sister
six size sky small snow so some something soon sound south space stand star start state step still stone story street
strong study such summer sun sure system table take talk teach tell ten than that that the the the the the the the the
their them then there these they thing think this those thought thousand three through time to to to to today together
told too took top town tree true turn two typewriter under understand unit until up upon us use usual valley very
village voice wait walk wall war warm was was watch water way we weather week well went were west what wheel when where
which while white who whole why wide will wind winter wish with with within without woman wood word work world would
write year yellow yes yet you young your
""".split()

# A line length is set behind a break: formatters differ in whether the pending line still takes the one before.
REQUESTS = [
    ".br",
    ".sp",
    ".sp 2",
    ".fi",
    ".nf",
    ".fi",
    ".br\n.ll 60n",
    ".br\n.ll 65n",
    ".br\n.ll",
    ".in 4n",
    ".in 0",
    ".in",
    ".ad l",
    ".ad b",
    ".ad r",
    ".ad c",
    ".ad",
    ".na",
]

# Registers that are set, and the escapes that read them.
SETTINGS = [
    ".nr a 1 1",
    ".nr b \\na+7*2",
    ".nr c +1",
    ".nr xy (\\nb-3)/2 5",
    ".nr xy -1",
    ".af c i",
    ".af a 001",
]

READINGS = ["\\na", "\\nb", "\\nc", "\\n(xy", "\\n+a", "\\n-(xy", "\\n(.l"]

# What stands before text on pages, what changes these, and the escapes that read where the text stands.
PAGED = b".pl 20\n"

# The macros of pages with a header and a footer.
HEADED = b"""\
.de he
'sp
'tl 'A Report of the River Company''Page %'
'sp 2
..
.de fo
'sp
'tl ''- % -''
'bp
..
.wh 0 he
.wh -4 fo
"""

SPACES = [".sp", ".sp 2", ".sp 3", ".sp 1i", ".sp 20", ".pl 20", ".pl 24", ".pl +1", ".pl -1", ".nr % 1", ".af % i", ".af % 1"]

PLACES = ["\\n%", "\\n%", "\\n(nl", "\\n(.t", "\\n(.p"]

# What stands between the words of a line of source code, and at its end, and how long such a line may be.
SIGNS = [" ", " ", "_", ".", ", ", " = ", " + ", " == ", "(", ") * (", "[i]->", " && !"]

ENDS = [";", ";", ";", ");", " {", "}", ",", ""]

LONGEST_CODE = 90

# What stands behind a paragraph that was diverted: it is read, or not.
DIVERTED = {"diversions": [".nf", ".pa", ".fi"], "diverting": []}

# What stands before lines of source code.
UNFILLED = b".nf\n"

# Ten tab stops, eight columns apart, of each kind.
STOPS = {
    "tabs": (".ta" + "".join(f" {8 * stop}n" for stop in range(1, 11)) + "\n").encode(),
    "fields": (".ta" + "".join(f" {8 * stop}nR" for stop in range(1, 11)) + "\n").encode(),
}

# What stands before and behind text that is skipped.
SKIPPED = (b".if 0 \\{\\\n", b".\\}\n")

# What stands before text in which a macro springs: it sets its trap again, counts in a register, and breaks.
SPRINGING = b"""\
.nr sp 0 1
.de xs
.it 3 xs
.if \\\\n+(sp>9 .nr sp 0
.br
..
.it 3 xs
"""

# The macros of a document that has its own: a heading, a paragraph, an item with a number, and a note.
MACROS = """\
.ds fm formatter
.ds Co the company of the river
.ds ch part
.nr hn 0
.nr it 0
.de hd
.\\\\" a heading: its number and its words
.br
.in 0
.sp
.nr hn +1
.nr it 0
\\\\*(ch \\\\n(hn: \\\\$1
.br
..
.de pa
.\\\\" a paragraph, set in if it is given how far
.br
.ie !'\\\\$1'' .in \\\\$1n
.el .in 0
.sp
..
.de li
.\\\\" an item
.nr it +1
.br
.in 5n
(\\\\n(it) \\\\$1 \\\\$2:
..
.de no
.\\\\" a note
.if \\\\n(it .sp
Note of \\\\*(Co in \\\\*(ch \\\\n(hn (\\\\$1):
..
"""

# What stands in the text of such a document, and between its lines.
STRINGS = ["\\*(fm", "\\*(Co", "\\*(ch", "\\n(hn", "\\n(it"]

CALLS = [
    '.hd "the first of many"',
    ".hd again",
    ".pa",
    ".pa 3",
    ".li first thing",
    ".li 'second' \\*(fm",
    ".no \\n(it",
    '.ds ch "chapter',
    ".ds ch part",
]

# The body of the innermost macro of a loop, and the names of those that call it, each ten times as often as the one
# before. A line of the document calls it a hundred times at most: mandoc gives up behind a thousand.
LOOPED = '.\\\\" counted in a register\n.nr a +1\n.if \\\\na<0 .tm below\n'

CALLERS = "bc"

# The options and formats of tables, and how many rows they have.
FORMATS = {"tables": "l l r.", "measured": "l l r.", "boxes": "allbox;\nl l r.", "spans": "c s s\nl l r.",
           "blocks": "l lw(40)."}

TABLE_ROWS = {"tables": 200, "measured": 200, "boxes": 200, "spans": 200, "blocks": 20}

# In a table with spans a row of so many goes on with the thing of the one above.
SPANNED_ROWS = 10

# The words of a block, and of a line of it.
BLOCK_WORDS, LINE_WORDS = 40, 10

# A word with escapes as manual pages have them, and how many words have none for one that has some.
ESCAPED = ["\\fB{}\\fR", "\\fI{}\\fR", "\\fB\\-{}\\fR", "\\-\\-{}", "{}\\-off"]
PLAIN_WORDS = 16

# A field with escapes: the first word, and what stands behind it.
MEASURED = ["\\fB{}\\fR{}", "{} \\(em{}", "{}\\-off{}"]


class Writer:
    def __init__(self, number):
        # random() alone gives the same numbers in every version of Python.
        self.random = random.Random(1978 + number).random

    def between(self, low, high):
        return low + int(self.random() * (high - low + 1))

    def one_of(self, things):
        return things[int(self.random() * len(things))]

    def sentence(self):
        """Returns the words of a sentence."""
        words = [self.one_of(WORDS) for _ in range(self.between(4, 22))]
        words[0] = words[0].capitalize()
        for i in range(3, len(words) - 1, 4):
            if self.random() < 0.3:
                words[i] += ","
        if self.random() < 0.05:
            words[-1] = f"({words[-1]})"
        words[-1] += self.one_of("...........?!")
        return words

    def paragraph(self):
        """Returns the lines of a paragraph. A sentence that begins in mid line has two blanks before it."""
        lines, line, goal = [], "", self.between(50, 62)
        for _ in range(self.between(3, 12)):
            gap = "  "
            for word in self.sentence():
                line += gap + word if line else word
                gap = " "
                if len(line) >= goal:
                    lines.append(line)
                    line, goal = "", self.between(50, 62)
        return [*lines, line] if line else lines

    def code(self):
        """Returns lines of source code, each at most one step further in or out than the line before."""
        lines, depth = [], self.between(0, 3)
        for _ in range(self.between(3, 12)):
            line = self.one_of(["\t", "    "]) * depth + self.one_of(WORDS)
            for _ in range(self.between(0, 11)):
                line += self.one_of(SIGNS) + self.one_of(WORDS)
            lines.append(line[: LONGEST_CODE - 2] + self.one_of(ENDS))
            depth = min(max(depth + self.between(-1, 1), 0), 6)
        return lines

    def numbers(self):
        """Returns lines of ten numbers, each behind a tab."""
        return ["".join(f"\t{self.between(1, 99999)}" for _ in range(10)) for _ in range(10)]

    def table_row(self, kind, at):
        """Returns a row of a table, which has this place: a thing, a place, and a number; some of them with escapes, or the thing and a
        block, or the thing and the place as a heading, or the place and the number where the thing above goes on."""
        thing = " ".join(self.one_of(WORDS) for _ in range(self.between(2, 4)))
        if kind == "blocks":
            return f"{thing}\tT{{\n{self.block()}T}}\n"
        place = " ".join(self.one_of(WORDS).capitalize() for _ in range(self.between(1, 3)))
        fields = [thing, place, str(self.between(1, 99999))]
        if kind == "spans" and at == 0:
            return f"{thing} {place}\n"
        if kind == "spans" and at % SPANNED_ROWS == SPANNED_ROWS - 1:
            fields[0] = "\\^"
        if kind == "measured":
            fields = [self.measured(field) if self.random() < 0.5 else field for field in fields]
        return "\t".join(fields) + "\n"

    def measured(self, field):
        """Returns a field with an escape or two."""
        word, blank, rest = field.partition(" ")
        return self.one_of(MEASURED).format(word, blank + rest)

    def block(self):
        """Returns the lines of a block."""
        words = []
        while len(words) < BLOCK_WORDS:
            words += self.sentence()
        lines = [words[at:at + LINE_WORDS] for at in range(0, BLOCK_WORDS, LINE_WORDS)]
        return "".join(" ".join(line) + "\n" for line in lines)

    def tables(self, kind, size):
        """Returns whole tables, with a line of text before each, of so many bytes at most."""
        text, length = [], 0
        while True:
            part = " ".join(self.sentence()) + "\n" + self.table(TABLE_ROWS[kind], kind)
            length += len(part)
            if length > size:
                return "".join(text).encode()
            text.append(part)

    def table(self, rows, kind="tables"):
        """Returns a table of so many rows."""
        return f".TS\n{FORMATS[kind]}\n" + "".join(self.table_row(kind, at) for at in range(rows)) + ".TE\n"

    def document(self, kind, size):
        """Returns so many bytes of text, cut at a line's end."""
        parts, length = [], 0
        while length < size:
            lines = self.code() if kind == "code" else self.numbers() if kind in STOPS else self.paragraph()
            if kind == "requests":
                lines = self.with_requests(lines, REQUESTS)
            elif kind == "registers":
                lines = self.with_requests([f"{line} {self.one_of(READINGS)}" for line in lines], SETTINGS)
            elif kind == "pages":
                lines = self.with_requests([f"{line} {self.one_of(PLACES)}" for line in lines], SPACES)
            elif kind == "headers":
                lines = [".ne 3", *lines]
            elif kind == "escaped":
                lines = [self.escaped(line) for line in lines]
            elif kind in DIVERTED:
                lines = [".di pa", *lines, ".br", ".di", *DIVERTED[kind]]
            elif kind == "macros":
                lines = self.with_requests([f"{line} {self.one_of(STRINGS)}" for line in lines], CALLS)
            part = "\n".join(lines) + "\n\n"
            parts.append(part)
            length += len(part)
        text = "".join(parts)
        return text[: text.rfind("\n", 0, size) + 1].encode()

    def escaped(self, line):
        """Returns a line of which some words have escapes, and few are followed by a comment."""
        words = [self.one_of(ESCAPED).format(word) if self.between(0, PLAIN_WORDS) == 0 else word for word in line.split(" ")]
        return " ".join(words) + (' \\" a remark' if self.between(0, 99) == 0 else "")

    def with_requests(self, lines, requests):
        mixed, wait = [], self.between(2, 5)
        for line in lines:
            mixed.append(line)
            wait -= 1
            if wait == 0:
                mixed.append(self.one_of(requests))
                wait = self.between(2, 5)
        return mixed


def loop(size):
    """Returns macros, and calls that read so many bytes of the innermost body, but for less than one reading."""
    parts = [f".nr a 0\n.de xa\n{LOOPED}..\n"]
    for called, caller in zip("a" + CALLERS, CALLERS):
        calls = f".x{called}\n" * 10
        parts.append(f".de x{caller}\n{calls}..\n")
    count = size // len(LOOPED)
    for name in "a" + CALLERS[:-1]:
        count, times = divmod(count, 10)
        parts.append(f".x{name}\n" * times)
    parts.append(f".x{CALLERS[-1]}\n" * count)
    return "".join(parts).encode()


@functools.cache
def new_text(kind, size, number):
    return Writer(number).document(kind, size)


def write_document(kind, size, file, number=0):
    """Writes a document of so many bytes; of several documents alike, the one of this number."""
    if kind == "loop":
        file.write(loop(size))
        return
    if kind in FORMATS:
        file.write(Writer(number).tables(kind, size))
        return
    around = {
        "skipped": SKIPPED,
        "macros": (MACROS.encode(), b""),
        "springs": (SPRINGING, b""),
        "pages": (PAGED, b""),
        "headers": (HEADED, b""),
        "code": (UNFILLED, b""),
        **{stops: (UNFILLED + STOPS[stops], b"") for stops in STOPS},
    }
    front, behind = around.get(kind, (b"", b""))
    size -= len(front + behind)
    text = new_text(kind, min(size, NEW_TEXT), number)
    whole = size // len(text) if text else 0
    file.write(front)
    for _ in range(whole):
        file.write(text)
    file.write(text[: text.rfind(b"\n", 0, size - whole * len(text)) + 1])
    file.write(behind)


def main():
    if len(sys.argv) != 3 or sys.argv[1] not in KINDS:
        sys.exit(__doc__.strip())
    write_document(sys.argv[1], int(float(sys.argv[2]) * MEGABYTE), sys.stdout.buffer)


if __name__ == "__main__":
    main()
