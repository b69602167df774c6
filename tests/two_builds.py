#!/usr/bin/env python3
"""Compares two builds of the program on documents that are made by chance, within limits that are:

    tests/two_builds.py PROGRAM OTHER [DOCUMENTS [FIRST]]

Of documents that are numbered so many are made, from the first on: 5,000 from the one of number 0, if nothing else is said. Each has
lines of text with escapes, requests of all kinds, definitions and calls of macros, conditions with branches and braces,
strings, registers, traps, environments, titles and tables, many of them cut short or misplaced; half of the documents run
within some small limits, and some with the options `-n`, `-o` and `-r`. The documents of a number are the same in each
run. Both builds must write the same output and messages and end with the same status: what makes no difference to users
is tried so, beside the build before it. The exit status is 1 if something differs, and the first such documents are kept
in the folder `two_builds.differ`.
"""
import concurrent.futures
import pathlib
import random
import re
import subprocess
import sys

NAMES = "xa xb xc y zz it fm h1".split()
REGISTERS = "a b it fm % nl ln .l .i .$ .p c. .u un xa".split()
WORDS = "word a the quick brown fox end. stop? (so!) x-y it's \"said\" .5 'tis longerwordthanothers 1 29".split()
NUMBERS = r"0 1 2 3 5 7 10 -1 +2 -3 1i .5i 2n +3n 1v 20 66 3m 8u |2 1+2*3 (4-1)n 2x 99999999999 \n(it \na+1".split() + [""]
# In what follows <words> and the like stand for what Maker makes of that name.
ESCAPES = (
    r"\n<short> \n(<long> \n+<short> \n-<short> \*<short> \*(<long> \w'ab' \w'\*(<long>' \e \c \fB \s+2 \s0 \h'3n' \h'|2i' \| \^ \0 \(em"
    r" \(bu \- \& \% \$1 \$2 \\$1 \\na \ \"c \t \a \v'1' \zx \o'ab' \ka \{ \} \. \' \` \q"
).split(" ") + ["\\\n", "\\ ", "\x01", "\x02", "\x07", "\t", "\x80", "\xff"]
PLAIN = (
    ".br|.nf|.fi|.ad|.na|.ad c|.ad r|.ad b|.bp|.ex|.ev|.mk|.rt|.nop|.el|.fl|.ns|.rs|.hy|.ft B|.so x|'br|.ab stop|.xx|.  br"
    '|.br\\" no|.di|.eo|.nm 1|.tr ab'
).split("|")
NUMBERED = ".sp .in .ti .ll .ls .ce .ne .pl .po .pn .lt .bp .ev .it .rj .ul .vs .rt .mk 'sp 'in .ss .cu .li".split()
OTHERS = (
    r".nr <register> <number>|.nr <register> <number> 1|.nr <register> <number> -2|.nr <register> \n(<long>+<number>|.ds <name> <words>"
    r'|.ds <name> "<words>|.as <name> <words>|.tm <words>|.rm <name>|.rn <name> <name>|.rr <register>|.af <register> 1'
    r"|.af <register> 001|.af <register> i|.af <register> A|.af <register> x|.ta <number> <number>R 20C|.wh <number> <name>"
    r"|.ch <name> <number>|.it 1 <name>|.it 2 <name>|.em <name>|.tl '<word>'<words>'%'|.tl <words>|.pc #|.pc|.lt <number>"
    r"|.di <name>|.di <name>|.da <name>|.di|.di|.da|.dt <number> <name>|.dt|.nx <name>|.ec \||.ec|.cc !|.cc|.c2 ^|.xa <arguments>"
).split("|")
ASKED = (
    r"""'a'b' 'a'a' "x"x" o e n t !o !n 1 0 !1 \na \na<0 \n(it>2 \n(it=7&1 \na-1 !\nb \n+a<3 '\*(fm'x' '' 'a 1+ ( \nz<1"""
    r" \n(zz:1 \na\na 2<3 \n%>1 \n(.$=1 \nb>=2 \nb+1>\na"
).split() + [""]
BEGUN = '.\\" <words>|.<words>|\'<words>|.\\}|.|...|. |.\tbr||  <words>|\t<words>'.split("|")
TABLES = "center; tab(:); box; expand;".split() + [""], "l l r.|c s|l2 c r.|l.|n n.|.|_ =\nl l.|l\n_\nl _ r.".split("|"), ".TE .TE .T&".split() + [""]
LIMITS = "bytes store names stack depth line environments conditions traps diversions output".split()
TABLE_LIMITS = "rows columns text width".split()
MOST = {"bytes": 4000, "output": 3000, "store": 800, "stack": 300, "line": 120, "text": 400}
OPTIONS = "-n3 -o2 -o1-2,4- -ra5 -rb-1 -o1".split()


class Maker:
    """Makes one document, and the words that it is run with."""

    def __init__(self, number):
        self.random = random.Random(number)
        self.one = self.random.choice
        self.begun = 0

    def chance(self, percent):
        return self.random.randrange(100) < percent

    def filled(self, template):
        return re.sub("<([a-z]+)>", lambda found: getattr(self, found[1])(), template)

    def name(self):
        return self.one(NAMES)

    def register(self):
        return self.one(REGISTERS)

    def short(self):
        return self.one(NAMES + REGISTERS)[0]

    def long(self):
        return self.one(NAMES + REGISTERS).ljust(2)

    def number(self):
        return self.one(NUMBERS)

    def word(self):
        return self.filled(self.one(ESCAPES)) if self.chance(12) else self.one(WORDS)

    def words(self):
        count = self.random.randrange(1, 9)
        return "".join(self.word() + (self.one(("", "  ")) if self.chance(15) else " ") for _ in range(count)).rstrip(" ")

    def arguments(self):
        count = self.random.randrange(11 if self.chance(10) else 4)
        return " ".join(self.one((self.word(), f'"{self.words()}"', '""', '"a""b"', "")) for _ in range(count))

    def branch(self):
        if self.chance(75):
            return self.one(("", " ")) + self.line()
        inner = self.one((self.line(), "\\", ""))
        return f" \\{{{inner}\n{self.line()}" + self.one(("\n.\\}", "\\}", "", "\n\\}x"))

    def condition(self):
        request = self.one((".if ", ".if ", ".ie ", "'if ", ".if", ".  if "))
        line = request + self.one(ASKED) + self.one((" ", " ", " ", "", "\t")) + self.branch()
        if request == ".ie " and self.chance(85):
            line += "\n.el" + self.one((" ", "")) + self.branch()
        return line

    def definition(self):
        self.begun += 1
        end, mark = self.one((("", ".."), ("", ".."), (" zz", ".zz"), (" ..", "..")))
        lines = [self.line() for _ in range(self.random.randrange(5))]
        body = [line.replace("\\", "\\\\") if self.chance(70) else line for line in lines]
        return "\n".join([self.one((".de ", ".de ", ".am ", ".ig ")) + self.name() + end, *body, mark if self.chance(93) else ".x"])

    def table(self):
        rows = ["\t".join(self.one(WORDS) for _ in range(self.random.randrange(1, 5))) for _ in range(self.random.randrange(5))]
        options, formats, end = (self.one(kind) for kind in TABLES)
        return "\n".join([self.one((".TS", ".TS", ".TS H")), options, formats, *rows, end])

    def request(self):
        kind = self.random.randrange(16)
        if kind < 3:
            return self.one(PLAIN)
        if kind < 7:
            return self.one(NUMBERED) + self.one((" ", " ", "", "  ")) + self.number()
        return self.filled(self.one(OTHERS))

    def line(self):
        kind = self.random.randrange(20)
        if kind < 7:
            return self.words()
        if kind < 9:
            return self.filled(self.one(BEGUN))
        if kind < 11:
            return f".{self.name()} {self.arguments()}"
        if kind < 13:
            return self.condition()
        if kind < 15 and self.begun < 30:
            return self.definition()
        return self.request()

    def document(self):
        lines = [self.table() if self.chance(3) else self.line() for _ in range(self.random.randrange(1, 40))]
        return ("\n".join(lines) + self.one(("\n", "\n", "\n", "", "\\"))).encode("latin-1", "replace")

    def command(self):
        words = [self.one(("nroff",) * 8 + ("both", "tbl"))]
        limits = {"nroff": LIMITS, "both": LIMITS + TABLE_LIMITS, "tbl": TABLE_LIMITS + ["bytes", "output"]}[words[0]]
        if self.chance(50):
            for name in self.random.sample(limits, self.random.randrange(1, 4)):
                words += [f"--{name}", str(self.random.randrange(MOST.get(name, 12)))]
        else:
            words += ["--bytes", "200000", "--output", "300000"]
        if words[0] != "tbl" and self.chance(12):
            words.append(self.one(OPTIONS))
        return words


def ended(program, words, text):
    run = subprocess.run([program, *words], input=text, capture_output=True, timeout=60)
    return run.returncode, run.stdout, run.stderr


def differing(programs, numbers):
    """Those of these documents on which the two builds differ, with their words."""
    found = []
    for number in numbers:
        maker = Maker(number)
        text, words = maker.document(), maker.command()
        if ended(programs[0], words, text) != ended(programs[1], words, text):
            found.append((number, words, text))
    return found


def main():
    if len(sys.argv) < 3:
        sys.exit(__doc__)
    programs = [str(pathlib.Path(name).resolve()) for name in sys.argv[1:3]]
    count = int(sys.argv[3]) if len(sys.argv) > 3 else 5000
    first = int(sys.argv[4]) if len(sys.argv) > 4 else 0
    parts = [range(at, min(at + 250, first + count)) for at in range(first, first + count, 250)]
    with concurrent.futures.ProcessPoolExecutor() as pool:
        found = [row for rows in pool.map(differing, [programs] * len(parts), parts) for row in rows]
    for number, words, text in found[:20]:
        folder = pathlib.Path("two_builds.differ")
        folder.mkdir(exist_ok=True)
        (folder / f"{number}.roff").write_bytes(text)
        print(f"document {number}: {' '.join(words)}")
    print(f"{count} documents, {len(found)} differ")
    sys.exit(bool(found))


if __name__ == "__main__":
    main()
