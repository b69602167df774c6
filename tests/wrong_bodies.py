#!/usr/bin/env python3
"""Tries the wrong bodies of wrong-bodies/, which the gate leaves out: the check must refuse each by a contract.

    tests/wrong_bodies.py [--list] [CRATE ..]

Those of the crates named, or of all, are put into a copy of the repository in a temporary folder, in place of the
wrong bodies in must-fail/, and `rt must-fail` tries them there. The copy begins with what checks left in the crates'
out/, so check the crates first: a crate that isn't proved yet is proved there, and that is lost. It needs the disk
space of these out/, and for all crates an hour or more; what was tried is kept by `rt` as long as nothing changes that it
stands on. At the end it says which were refused only because a proof names what the edit takes away, which only met
a limit of the prover (both say little of a contract), which are bad edits and which passed. The exit status is 1 if
one passed, is bad or wasn't tried.

With --list nothing is tried: it prints their names, counts them, and says which are bad edits, of those in must-fail/ too: each
old text must stand in its file once, and the new ones must change something, leave no bracket open, and use names that the
sources give. The exit status is 1 if there is one. Bad edits are said, and left out, before the others are tried too.
The command `rt` may be another one, by the environment variable RT.
"""
import argparse
import functools
import os
import pathlib
import re
import shlex
import shutil
import signal
import subprocess
import sys
import tempfile

TOP = pathlib.Path(__file__).resolve().parent.parent
BODIES = TOP / "wrong-bodies"
# What of the repository a check reads. A crate's must-fail/ isn't among it.
FILES = ("crates.txt", "HANDLES")
PARTS = ("src", "specs", "proofs")
# What checks left in out/: the proofs of the crate, and the library for those above it.
KEPT = ("incremental", "rlib")

# What became of a wrong body, by what `rt` says of it, the first that fits; and what is said of it at the end.
PASSED, BAD, NOT_TRIED, BY_LIMIT, BY_NAME, BY_CONTRACT = range(6)
SAYS = ((PASSED, "NOT REFUSED"), (BAD, "BAD EDIT"), (NOT_TRIED, "NOT TRIED"), (BY_LIMIT, "only by a limit of the prover"),
        (BY_NAME, "only because a proof file names what the edit took away"), (BY_CONTRACT, "refused, as it must be"))
TITLES = {PASSED: "NOT REFUSED", BAD: "bad edits", NOT_TRIED: "not tried", BY_LIMIT: "met only a limit of the prover",
          BY_NAME: "refused for a missing name only", BY_CONTRACT: "refused by a contract"}
FAILURES = (PASSED, BAD, NOT_TRIED)
# How texts of code are read: what is no code in them, words, and where words are bound and functions begin.
LITERAL = re.compile(r"//[^\n]*|b?\"(?:[^\"\\]|\\.)*\"|b?'(?:[^'\\\n]|\\[^\n][^'\n]*)'", re.DOTALL)
WORD = re.compile(r"(?<![\w'])[A-Za-z_]\w*")
BINDING = re.compile(r"\blet [^=]*=|\|[^|]*\||[^{}]*=>|\buse [^;]*;|\bfor \w+ in|\b\w+(?= @)")
FUNCTION = re.compile(r"^ *(?:pub(?:\([^)]*\))? )?(?:const )?fn ", re.MULTILINE)
CLOSING = {")": "(", "]": "[", "}": "{"}
# Names that no source has to give: a wrong body with another one of the language or its library wants it here.
STANDARD = set("""
    _ as bool break const continue crate else false fn for i32 i64 if in let loop match mod move mut pub ref return self static
    struct super true u8 u16 u32 u64 u128 use usize where while
    Default Err None Ok Option Result Self Some String Vec assert drop matches unreachable
    MAX MIN checked_div_euclid is_full is_none is_ok is_some max truncate wrapping_abs wrapping_add wrapping_neg
""".split())
LINE = re.compile(r"(?:rt: )?must-fail (\w+)/([\w.-]+)\.edit: (.*)")


def bodies_of(crate):
    return sorted((BODIES / crate).glob("*.edit"))


def gate_bodies_of(crate):
    return sorted((TOP / "crates" / crate / "must-fail").glob("*.edit"))


def crate_of(edit):
    return edit.parent.name if edit.parent.parent == BODIES else edit.parent.parent.name


def applied(edit):
    """What an edit makes of its crate, read as `rt` reads it: the changes, each as what stands in front of it, the old and the
    new text and what stands behind it; the texts before and behind all of them by path; and why it can't be applied, if so."""
    path, old, changes, before, behind = None, None, [], {}, {}
    for number, line in enumerate(edit.read_text(encoding="utf-8").split("\n"), 1):
        if line.startswith("file: "):
            path = TOP / "crates" / crate_of(edit) / line[len("file: "):].strip()
            if not path.is_file():
                return changes, before, behind, "there is no file %s" % path.relative_to(TOP)
            if path not in before:
                before[path] = behind[path] = path.read_text(encoding="utf-8")
        elif line.startswith("old: "):
            if old is not None:
                return changes, before, behind, "line %d: an old text has no new one" % number
            old = line[len("old: "):]
        elif line.startswith("new:"):
            if path is None or not old:
                return changes, before, behind, "line %d: a new text stands before a file or an old text" % number
            count = behind[path].count(old)
            if count != 1:
                return changes, before, behind, "an old text stands in %s %d times" % (path.relative_to(TOP), count)
            new = line[len("new:"):].removeprefix(" ")
            front, _, rest = behind[path].partition(old)
            changes.append((front, old, new, rest))
            behind[path] = front + new + rest
            old = None
        elif line and not line.startswith("# "):
            return changes, before, behind, "line %d isn't read: an old and a new text are one line each" % number
    if old is not None or not changes:
        return changes, before, behind, "it has an old text without a new one, or changes no file"
    return changes, before, behind, None


def plain(text):
    """A text without what its comments, strings and characters say."""
    return LITERAL.sub(lambda found: "\n" * found[0].count("\n") or " ", text)


def words_in(text):
    return set(WORD.findall(text))


def opened(text):
    """The brackets of a text that nothing closes, and those that nothing opened."""
    left = []
    for bracket in re.findall(r"[][(){}]", plain(text)):
        if bracket in CLOSING and left and left[-1] == CLOSING[bracket]:
            left.pop()
        else:
            left.append(bracket)
    return left


def function_around(front, rest):
    """The text of the function between these two, with what stands in front of the next one."""
    begins = [found.start() for found in FUNCTION.finditer(front)]
    ends = FUNCTION.search(rest)
    return front[begins[-1] if begins else 0:] + " " + (rest[:ends.start()] if ends else rest)


@functools.cache
def libraries_of(crate):
    """The crates that a crate stands on, and itself."""
    lines = (line.partition(":") for line in (TOP / "crates.txt").read_text(encoding="utf-8").split("\n"))
    of = {name.split()[0]: uses.split() for name, _, uses in lines if name.strip() and not name.startswith("#")}
    return {crate}.union(*(libraries_of(other) for other in of.get(crate, ()) if other in of))


@functools.cache
def own_words_of(crate):
    return words_in(" ".join(path.read_text(encoding="utf-8") for path in (TOP / "crates" / crate / "src").rglob("*.rt")))


@functools.cache
def words_of(crate):
    """The words of the sources of a crate and of those that it stands on."""
    return libraries_of(crate).union(*map(own_words_of, libraries_of(crate)))


def unknown_in(crate, change, bound):
    """The names of a new text that nothing gives: members and fields must stand in the sources of the crate or below it, others
    in the same function, or items in the same file, where the edit doesn't bind them itself."""
    front, old, new, rest = change
    code, given = plain(new), STANDARD | bound | words_in(plain(old))
    names = given | words_in(plain(function_around(front, rest)))
    unknown = []
    for found in WORD.finditer(code):
        word, before, after = found[0], code[:found.start()].rstrip(), code[found.end():].lstrip()
        if before.endswith((".", "::")) and not before.endswith("..") or re.match(r":(?!:)", after):
            is_there = word in given or word in words_of(crate)
        elif word[0].isupper() or after.startswith(("(", "::", "!")):
            is_there = word in names or word in libraries_of(crate) or word in words_in(plain(front + " " + rest))
        else:
            is_there = word in names
        if not is_there:
            unknown.append(word)
    return unknown


def fault_of(edit):
    """Why an edit is none, if so: it can't be applied, changes nothing, leaves a bracket open, or uses names that nothing gives."""
    changes, before, behind, fault = applied(edit)
    if fault:
        return fault
    if all(before[path].split() == behind[path].split() for path in before):
        return "it changes nothing"
    if any(opened(old) != opened(new) for _, old, new, _ in changes):
        for path in before:
            if opened(before[path]) != opened(behind[path]):
                return "it leaves brackets of %s open" % path.relative_to(TOP)
    bound = words_in(" ".join(found[0] for _, _, new, _ in changes for found in BINDING.finditer(plain(new))))
    unknown = [word for change in changes for word in unknown_in(crate_of(edit), change, bound)]
    return "nothing there has the name %s" % ", ".join(dict.fromkeys(unknown)) if unknown else None


def faults_of(edits):
    """The edits that are none, and why."""
    faults = ((edit, fault_of(edit)) for edit in edits)
    return {edit: fault for edit, fault in faults if fault}


def print_faults(faults):
    if faults:
        print("bad edits:", *("%s: %s" % (edit.relative_to(TOP), fault) for edit, fault in faults.items()), sep="\n    ")


def list_them(crates):
    """Prints the names of all wrong bodies and how many there are, and which are bad edits, those in must-fail/ too; whether
    none is."""
    for crate in crates:
        for edit in bodies_of(crate):
            print("%s/%s" % (crate, edit.stem))
    for crate in crates:
        print("%-12s %4d, and %d in must-fail/" % (crate, len(bodies_of(crate)), len(gate_bodies_of(crate))))
    print("%-12s %4d, and %d in must-fail/" % ("all", sum(len(bodies_of(crate)) for crate in crates),
                                              sum(len(gate_bodies_of(crate)) for crate in crates)))
    faults = faults_of(edit for crate in crates for edit in (*bodies_of(crate), *gate_bodies_of(crate)))
    print_faults(faults)
    return not faults


def copied(one, other):
    """Copies a file of out/. Proofs get a second name instead, where that can be: a check replaces such a file, and never
    writes into it."""
    if one.endswith(".oantt"):
        try:
            os.link(one, other)
            return other
        except OSError:
            pass
    return shutil.copy2(one, other)


def copy_repository(crates, bad, to):
    """Copies what checks read and left, with the wrong bodies of these crates in place of those in must-fail/, but for bad ones."""
    for name in FILES:
        if (TOP / name).is_file():
            shutil.copy2(TOP / name, to / name)
    for folder in sorted((TOP / "crates").iterdir()):
        for part in PARTS:
            if (folder / part).is_dir():
                shutil.copytree(folder / part, to / "crates" / folder.name / part, symlinks=True)
        for part in KEPT:
            if (folder / "out" / part).is_dir():
                shutil.copytree(folder / "out" / part, to / "crates" / folder.name / "out" / part, symlinks=True,
                                copy_function=copied)
    for crate in crates:
        room = to / "crates" / crate / "must-fail"
        room.mkdir()
        for edit in bodies_of(crate):
            if edit not in bad:
                shutil.copy2(edit, room / edit.name)


def try_them(crates, bad, at):
    """Tries them in the copy, and prints what `rt` says: what became of each, by crate and name."""
    found = {(crate, edit.stem): BAD if edit in bad else NOT_TRIED for crate in crates for edit in bodies_of(crate)}
    words = [*shlex.split(os.environ.get("RT", "rt")), "must-fail", *crates]
    with subprocess.Popen(words, cwd=at, stdin=subprocess.DEVNULL, stdout=subprocess.PIPE, stderr=subprocess.STDOUT,
                          encoding="utf-8", errors="replace") as run:
        try:
            for line in run.stdout:
                print(line, end="", flush=True)
                told = LINE.match(line)
                if told and (told[1], told[2]) in found:
                    found[told[1], told[2]] = next((kind for kind, text in SAYS if text in told[3]), NOT_TRIED)
        except BaseException:
            run.terminate()
            raise
    return found


def report(crates, found):
    """Prints what became of them; whether all were refused."""
    print()
    for crate in crates:
        kinds = [kind for (name, _), kind in found.items() if name == crate]
        counts = ["%d %s" % (kinds.count(kind), title) for kind, title in sorted(TITLES.items(), reverse=True)
                  if kind in kinds]
        print("%s: %s" % (crate, ", ".join(counts)))
    for kind, title in sorted(TITLES.items(), reverse=True):
        names = ["%s/%s" % body for body, its in found.items() if its == kind]
        if names and kind != BY_CONTRACT:
            print("%s:" % title)
            for name in names:
                print("    %s" % name)
    kinds = list(found.values())
    failed = sum(kinds.count(kind) for kind in FAILURES)
    print("%d wrong bodies: %d refused, %d of them by a contract; %d failed"
          % (len(kinds), len(kinds) - failed, kinds.count(BY_CONTRACT), failed))
    return failed == 0


def main():
    words = argparse.ArgumentParser(prog="tests/wrong_bodies.py", usage="%(prog)s [--list] [CRATE ..]")
    words.add_argument("--list", action="store_true", help="only list and count them")
    words.add_argument("crates", nargs="*", metavar="CRATE", help="a crate with wrong bodies; all, if none is named")
    given = words.parse_args()
    every = sorted(folder.name for folder in BODIES.iterdir() if bodies_of(folder.name))
    for crate in given.crates:
        if crate not in every:
            words.error("wrong-bodies/%s has none; there are: %s" % (crate, " ".join(every)))
    crates = [crate for crate in every if crate in given.crates or not given.crates]
    if given.list:
        return list_them(crates)
    # So that the copy goes also where the run is ended from outside.
    signal.signal(signal.SIGTERM, lambda *_: sys.exit(1))
    with tempfile.TemporaryDirectory(prefix="wrong-bodies-") as room:
        bad = faults_of(edit for crate in crates for edit in bodies_of(crate))
        print_faults(bad)
        copy_repository(crates, bad, pathlib.Path(room))
        found = try_them(crates, bad, room)
    return report(crates, found)


if __name__ == "__main__":
    sys.exit(0 if main() else 1)
