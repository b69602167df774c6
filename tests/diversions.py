#!/usr/bin/env python3
"""Makes documents by chance in which text is diverted and read again, and compares what `nroff` makes of them with a plain
model.

    tests/diversions.py [--program PROGRAM] [DOCUMENTS [FIRST]]    # 3,000 documents from that of number 0, if none are named

PROGRAM is crates/roff/out/roff if none is given. The documents have short lines on short pages, and in them diversions, one in
another too, with traps of their own; what was diverted is read again, as a macro and as a string, filled and not, in other
diversions and in that of its own name. Around these stand the traps of pages and of input lines, spaces, needs, ejects, titles,
centred and interrupted lines, spacings, indents and environments, and macros and strings, which are defined, put behind others,
renamed and removed while a diversion is open; some macros end within a definition. Most documents run within small limits.
Those of a number are the same in each run. The model stands in tests/diversion_model.py. In front of all come lines of each
byte that prints and of many forms, which are diverted, read twice, and diverted again from what was read: they have to be what
they were. The exit status is 1 if something differs.
"""
import pathlib
import random
import subprocess
import sys

sys.dont_write_bytecode = True
import interrupted
from diversion_model import COLUMN, LINE, Model
from interrupted import width

PROGRAM = interrupted.PROGRAM
PRINTED = [chr(byte) for byte in range(33, 256) if byte != 127]
READ = ["\\n(dn", "\\n(dl", "\\n(.d", "\\n(.z", "\\n(.t", "\\n(nl", "\\n%"]
NAMES = ["D", "D", "D", "D", "E", "E", "FO"]


def some_bytes(chance):
    """A word of bytes that print, the first of which is no dot and no apostrophe."""
    word = "".join(chance.choice(PRINTED) for _ in range(chance.choice([1, 2, 3, 6])))
    word = word.replace("\\", chance.choice(["\\e", "\\\\"]))
    return "\\&" + word if word[0] in ".'" else word


def words(chance):
    """A text line."""
    if chance.random() < 0.7:
        return interrupted.words(chance)
    some = [lambda: some_bytes(chance), lambda: chance.choice(READ), lambda: "a", lambda: "\\*" + chance.choice(["S", "S", "D", "T"]),
            lambda: "\\&" + chance.choice([".x", "'x", "", " "]), lambda: "\\e", lambda: "\\ ", lambda: chance.choice(["\\(em", "\\(co"]),
            lambda: "\\h'%d'" % chance.choice([0, 1, 2, 5])]
    return chance.choice([" ", "  ", "   "]).join(chance.choice(some)() for _ in range(chance.choice([1, 1, 2, 3])))


def a_line(chance, macros):
    """A line of a document or of a macro."""
    number = lambda *numbers: chance.choice([" %s" % number for number in numbers])
    dot = lambda: chance.choice("......'")
    name = lambda: " " + chance.choice(NAMES)
    trap = lambda: chance.choice(["", " T", " T", " U", " V", " W", " D"])
    texts = ["a b", "\\e\\&", "\\n(dn", "\\\\n(dn", ".br", "\\*S"]
    kinds = [
        lambda: words(chance),
        lambda: chance.choice(["", "", " ", "\\c", "\\&", "\\%", "\\ ", "\\}"]),
        lambda: dot() + "di" + name(),
        lambda: dot() + "da" + name(),
        lambda: dot() + chance.choice(["di", "di", "da"]),
        lambda: dot() + chance.choice(NAMES),
        lambda: dot() + "dt" + chance.choice([" 0", " 1", " 1", " 2", " 2", " 3", " |1", " -1", " \\n(.du", "", " x"]) + trap(),
        lambda: dot() + "br",
        lambda: dot() + "sp" + chance.choice(["", "", " 0", " 2", " 3", " 9", " |2", " |4", " \\n(dnu", " x"]),
        lambda: dot() + "ne" + chance.choice(["", " 0", " 1", " 2", " 3", " 9", " \\n(dnu"]),
        lambda: dot() + "bp" + chance.choice(["", "", "", " 7", " +1", " x"]),
        lambda: dot() + "ti" + number("0", "1", "2", "+1", "-1"),
        lambda: dot() + "ce" + chance.choice(["", "", " 2", " 3", " 0"]),
        lambda: dot() + "ls" + chance.choice(["", " 1", " 1", " 2", " 3", " 0"]),
        lambda: dot() + "ev" + chance.choice(["", "", "", " 0", " 1", " 1", " 2"]),
        lambda: dot() + chance.choice(["nf", "nf", "nf", "fi", "fi"]),
        lambda: dot() + chance.choice(["ad l", "ad b", "ad r", "ad c", "ad", "na"]),
        lambda: dot() + "in" + chance.choice(["", " 0", " 0", " 1", " 2", " +1", " -1"]),
        lambda: dot() + "ll" + chance.choice(["", " 4", " 5", " 7", " 9", " 12", " 20", " \\n(dlu"]),
        lambda: dot() + chance.choice(["ns", "ns", "rs"]),
        lambda: dot() + "tl" + chance.choice(["", " 'a'%'b'", " ''%'", " ''- % -' '", " 'a b'", " '\\n(.z'\\n(dn'", " '''%'x y"]),
        lambda: dot() + "lt" + chance.choice(["", " 5", " 9", " 12", " +1"]),
        lambda: dot() + "pl" + number(1, 2, 3, 4, 5, 6, 9, "\\n(.du+1"),
        lambda: dot() + chance.choice(["pn 7", "pn +1", "nr % 9", "po 1", "po", "po +1"]),
        lambda: dot() + "wh" + number(0, 0, 1, 1, 2, 2, 3, 4, -1, -1, -2, -3) + trap(),
        lambda: dot() + "ch " + chance.choice("TTUUVWD") + chance.choice(["", "", " 0", " 1", " 2", " 3", " -1", " -2"]),
        lambda: dot() + "it" + chance.choice(["", " 0 U", " 1 T", " 1 U", " 1 V", " 2 T", " 2 U", " 3 V", " 1 D"]),
        lambda: dot() + chance.choice(macros) if macros else ".br",
        lambda: dot() + chance.choice(["ds S ", "as S ", "as D ", "ds D "]) + chance.choice(texts),
        lambda: dot() + chance.choice(["rm D", "rm S E", "rn D E", "rn E D", "rn T E", "rm T"]),
        lambda: "..",
        lambda: dot() + "em" + chance.choice(["", " T", " U", " D"]),
        lambda: dot() + "ex",
    ]
    weights = [36, 6, 10, 4, 11, 9, 7, 4, 5, 3, 2, 2, 4, 2, 4, 6, 1, 2, 2, 2, 4, 1, 2, 2, 3, 2, 3, 4, 4, 1.5, 1, 0.5, 0.4]
    return chance.choices(kinds, weights)[0]()


def in_macro(line):
    """A line as it stands in a macro: its registers and strings are those of the time when the macro is read, or not."""
    return line.replace("\\", "\\\\") if "\\n" in line or "\\*" in line else line


def a_macro(chance, name, macros, a_line=a_line):
    """The lines that define a macro, or put some behind it. Of a few the last line begins a definition."""
    lines = [in_macro(a_line(chance, macros)) for _ in range(chance.choice([0, 1, 1, 2, 2, 3, 4]))]
    ends = [[]] * 14 + [["t\\c"]] * 3 + [["t\\c", ".ex"], [".de Y", "y"], [".de X"], [".am D"]]
    lines = [line for line in lines if line != ".."] + chance.choice(ends)
    if chance.random() < 0.05:
        lines += [".de X", "x", "\\\\.."]
    return [chance.choice([".de ", ".de ", ".de ", ".am "]) + name] + lines + [".."]


def document(chance, a_line=a_line):
    """The lines of a document: settings, macros, traps, and the rest, with lines by chance of some kind."""
    lines = [".pl %d" % chance.choice([1, 2, 3, 3, 4, 4, 5, 6, 8, 20]), ".ll %d" % chance.choice([4, 5, 6, 7, 8, 9, 10, 12, 20])]
    lines += chance.choice([[], [], [".na"], [".ad l"], [".nf"], [".nf"]])
    macros = ["T", "U", "V"][:chance.choice([0, 1, 1, 2, 2, 3])]
    for i, name in enumerate(macros):
        lines += a_macro(chance, name, macros[:i], a_line)
    for name in macros:
        if chance.random() < 0.5:
            lines.append(".wh %d %s" % (chance.choice([0, 0, 1, 1, 1, 2, 2, 3, -1, -1, -2]), name))
    for _ in range(chance.choice([1, 2, 3, 5, 8])):
        lines += a_part(chance, macros, 0, a_line)
    return lines


def a_part(chance, macros, nesting, a_line=a_line):
    """Lines of a document: some by chance, a macro, or a diversion, mostly one that is ended, and then what was diverted."""
    kind = chance.random()
    if kind < 0.04 and macros:
        return a_macro(chance, chance.choice(macros), macros[:1], a_line)
    if kind < 0.1:
        return in_the_middle(chance)
    if kind < 0.5 or nesting == 2:
        open_word = ["a bb ccc dd ee\\c", chance.choice([".br", ".sp", ".sp", "", " x", ".nf"])] * (chance.random() < 0.15)
        return [a_line(chance, macros) for _ in range(chance.choice([1, 2, 3, 5]))] + open_word
    name, lines = chance.choice(NAMES), chance.choice([[], [], [], [".nf"], [".fi"], ["a\\c"]])
    lines = lines + [chance.choice([".di ", ".di ", ".da "]) + name]
    if macros and chance.random() < 0.6:
        lines.append(".dt %d %s" % (chance.choice([1, 1, 2, 2, 3, 4]), chance.choice(macros + ["D"])))
    for _ in range(chance.choice([1, 1, 2, 3])):
        lines += a_part(chance, macros, nesting + 1, a_line)
    lines += chance.choice([[], [], [".br"], [".br"], [".sp"]]) + chance.choice([[".di"]] * 7 + [[".da"], []])
    lines += chance.choice([[], [".br"], [".nf"], ["\\n(dn \\n(dl"], ["a"]])
    return lines + chance.choice([[], [], ["." + name], ["." + name] * 2, [".nf", "." + name, ".fi"], [".di E", "." + name, ".di", ".E"]])


def in_the_middle(chance):
    """Lines of which a diversion's trap interrupts some: its macro leaves a word open, or a definition."""
    left = chance.choice([["t\\c"], ["u", "ttt\\c"], ["tttt\\c"], [".de X"], ["u", ".de X", "x"], [".am D", "x"], [".br", "t\\c"]])
    lines = [chance.choice(["'fi", "'fi", ".fi", ".ce 2"]), ".ll %d" % chance.choice([5, 6, 7, 9]), ".de Q"] + left + [".."]
    lines += [".di " + chance.choice(NAMES), ".dt %d Q" % chance.choice([1, 1, 2])]
    for _ in range(chance.choice([1, 1, 2])):
        some = " ".join(chance.choice(["a", "bb", "cc", "ddd", "e."]) for _ in range(chance.choice([3, 4, 5, 6])))
        end = chance.choice([None, None, ".br", ".sp", ".sp 2", "", " f", ".nf", ".ce", ".in 1"])
        lines += [some] if end is None else [some + "\\c", end]
    return lines + chance.choice([[], [".."], ["y", ".."]]) + chance.choice([[".br"], []]) + chance.choice([[".di"]] * 3 + [[]])


def limits(chance):
    """The limits of a run: always a small depth, and sometimes another small one."""
    given = {"depth": chance.choice([3, 8, 8, 12]), "bytes": 20000}
    small = {"bytes": 400, "line": 12, "output": 60, "environments": 3, "traps": 4, "store": 90, "names": 5, "diversions": 4}
    other = chance.choice([None] * 8 + list(small) + ["store", "diversions"])
    if other is not None:
        given[other] = chance.randrange(small[other])
    return given


# lines that are read again
def forms():
    """Lines of text as they are printed, each of which is tried by itself: of every byte that prints, and of many forms."""
    for byte in PRINTED:
        yield from (byte, byte * 3, byte + " a", " " + byte, "a" + byte, byte + "  " + byte)
    fronts = ["", ".", "'", " ", "   ", "\\", "\\\\", "..", ".'", "'.", " .", ". ", "\\.", ".\\", "\\ ", "\\&"]
    fronts += ["\\n(dn", ".di", ".ex", ".\\\""]
    for front in fronts:
        for rest in ("", "x", " x", "\\", "x\\", "\xe9\x80", "%", "x y  z"):
            yield (front + rest).rstrip(" ")
    yield "".join(PRINTED)


def typed(line):
    """A line as it is typed, so that it is printed as it stands."""
    return "\\&" + line.replace("\\", "\\e").replace(" ", "\\ ") if line else ""


def again(lines, empty):
    """A document that diverts lines, reads them twice, diverts them from what is read, and prints that; and what it prints. An
    empty line is a space, or a line of its own."""
    pages = 4 * len(lines)
    front = [".pl %d" % pages, ".ll 900", ".nf", ".di D"]
    front += [typed(line) if line or empty else "\\&" for line in lines] + [".di", ".D", ".D"]
    behind = [".di E", ".D", ".di", ".di F", ".E", ".di", ".F", ".F", ".tm \\n(dn \\n(dl \\n(.z"]
    return front + behind, lines * 4, "%d %d \n" % (len(lines) * LINE, max(map(width, lines)) * COLUMN)


def again_differs(program, lines, empty):
    source, printed, told = again(lines, empty)
    wanted = "".join(line + "\n" for line in printed), told, 0
    return compared("lines that are read again", source, {}, wanted, run_of(program, source, {}))


# comparing
def run_of(program, lines, given):
    run = subprocess.run([program, "nroff"] + ["--%s=%d" % limit for limit in given.items()],
                         input="".join(line + "\n" for line in lines).encode("latin-1"), capture_output=True, timeout=60)
    return run.stdout.decode("latin-1"), run.stderr.decode("latin-1"), run.returncode


def compared(name, lines, given, wanted, was):
    """Whether a run gave something else than it should; tells how."""
    if was != wanted:
        print("%s within %s:\n%s\n  wanted %r\n  given  %r" % (name, given, "\n".join(lines), wanted, was))
    return was != wanted


def differs(program, name, lines, given, model=Model):
    return compared(name, lines, given, model(given).run(lines), run_of(program, lines, given))


def words_and_program(script):
    """The words of the command line, and the program that they name or the usual one."""
    words_given, program = sys.argv[1:], PROGRAM
    if words_given[:1] == ["--program"]:
        program, words_given = pathlib.Path(words_given[1]).resolve(), words_given[2:]
    if not program.exists():
        sys.exit("tests/%s: %s is missing; ./roff --prove builds it" % (script, program))
    return words_given, program


def main():
    words_given, program = words_and_program("diversions.py")
    count, first = ([int(word) for word in words_given] + [3000, 0][len(words_given):])[:2]
    lines = list(forms())
    differ = sum(again_differs(program, [line, "x", line], empty) for line in lines for empty in (True, False))
    differ += again_differs(program, lines, True)
    for number in range(first, first + count):
        chance = random.Random(number)
        differ += differs(program, "document %d" % number, document(chance), limits(chance))
    print("%d lines read again and %d documents, %d differ" % (len(lines), count, differ))
    return 1 if differ else 0


if __name__ == "__main__":
    sys.exit(main())
