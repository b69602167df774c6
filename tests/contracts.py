#!/usr/bin/env python3
"""Lists the contracts of the library crates, so that those of two trees can be compared wherever their functions stand:

    tests/contracts.py [--all] [--definitions] [--names FILE] [OTHER_TREE]

It prints a sorted list of all public functions, a line each, as `TYPE::function | signature | clauses`: those that are
`pub`, those of public traits, and those of each `impl` of a trait, with the ghost members of these and the ghost fields
of public structs. The names of crates and modules are left out, and so are comments, attributes, visibilities and line
breaks; tests aren't listed. With --all it lists private functions too, if they have clauses. With --definitions it lists
the definitions of specs/ in place of functions, as `name | text`, without imports and comments.

With OTHER_TREE, another copy of the repository, it says instead what differs between the two lists, and the exit status
is 1 if anything does. Where a name was changed, a line `OLD NEW` of the file FILE has the other tree's word OLD taken as
NEW. What a clause's words stand for comes from imports, which aren't compared: compare the definitions too.
"""
import argparse
import collections
import pathlib
import re
import sys

TOP = pathlib.Path(__file__).resolve().parent.parent

# Comments, and texts and characters in quotes; `'a` is no character.
HIDDEN = re.compile(r"""//[^\n]*|/\*.*?\*/|b?"(?:\\.|[^"\\])*"|b?'(?:\\[^'\n]+|[^\\'\n])'""", re.S)
CLAUSE = re.compile(r"(?:requires|ensures|ghost)\b")
PAIRS = {"(": ")", "[": "]", "{": "}"}
VISIBILITY = re.compile(r"pub\b(?:\s*\([^)]*\))?\s*")
FUNCTION = re.compile(r"(?:const\s+|unsafe\s+)*fn\s+(\w+)")
# Where a name is found: `crate::strand::Strand` is `Strand`, and `roff_num::Name` is `Name`.
PATH = re.compile(r"\b(?:crate|self|super|(?:roff|input|page|run|read|law|tbl|cli|test|bench)_\w+)::(?:[a-z_]\w*::)*(?=\w)")

Item = collections.namedtuple("Item", "name is_public signature clauses")


def one_line(text):
    """The text with each run of blanks as one, as it is laid out on one line."""
    text = re.sub(r"\s+", " ", text).strip()
    return re.sub(r",? ([)\]>])", r"\1", re.sub(r"([(\[]) ", r"\1", text))


class Source:
    """The items of a file of code."""

    def __init__(self, path):
        self.path = path
        text = path.read_text(encoding="utf-8")
        hidden = [(it.start(), it.end(), it[0].startswith("/")) for it in HIDDEN.finditer(text)]
        self.text, self.mask = list(text), list(text)
        for begin, end, is_comment in hidden:
            self.mask[begin:end] = " " * (end - begin) if is_comment else "_" * (end - begin)
            if is_comment:
                self.text[begin:end] = " " * (end - begin)
        self.text, self.mask = "".join(self.text), "".join(self.mask)
        self.items = []
        self.read(0, len(self.mask), "", "", False)

    def fail(self, at, what):
        raise SystemExit("%s:%d: %s" % (self.path, self.text.count("\n", 0, at) + 1, what))

    def closing(self, at):
        """The place behind the bracket that closes the one here."""
        open_ones = []
        for place in range(at, len(self.mask)):
            byte = self.mask[place]
            if byte in PAIRS:
                open_ones.append(PAIRS[byte])
            elif byte in PAIRS.values():
                if byte != open_ones.pop():
                    self.fail(place, "a bracket that closes none")
                if not open_ones:
                    return place + 1
        self.fail(at, "a bracket that isn't closed")

    def find(self, at, ends):
        """The place of the first of these, outside brackets that begin behind here."""
        while at < len(self.mask):
            if self.mask[at] in ends:
                return at
            at = self.closing(at) if self.mask[at] in PAIRS else at + 1
        self.fail(at - 1, "none of %r" % ends)

    def blank(self, at, end):
        while at < end and self.mask[at].isspace():
            at += 1
        return at

    def read(self, at, end, owner, header, is_public):
        """Reads the items up to an end; owner is the type or trait that they stand in, is_public whether all are."""
        is_test = False
        while (at := self.blank(at, end)) < end:
            if self.mask[at] == "#":
                begin, at = at, self.closing(self.mask.index("[", at))
                is_test = is_test or "test" in self.mask[begin:at]
                continue
            at = self.item(at, owner, header, is_public, is_test)
            is_test = False

    def item(self, at, owner, header, is_public, is_test):
        """Reads the item here, and returns the place behind it."""
        seen = VISIBILITY.match(self.mask, at)
        is_pub = bool(seen) and seen[0].strip() == "pub"
        at = seen.end() if seen else at
        function = FUNCTION.match(self.mask, at)
        if function:
            return self.function(at, function, owner, header, is_public or is_pub, is_test)
        word = re.compile(r"\w+").match(self.mask, at)
        if not word:
            self.fail(at, "an item that isn't known")
        if word[0] == "ghost":
            return self.ghost(at, owner, header, is_public or is_pub)
        if word[0] in ("impl", "trait", "mod", "struct", "enum"):
            body = self.find(at, "{;")
            behind = body + 1 if self.mask[body] == ";" else self.closing(body)
            if self.mask[body] == "{" and not is_test:
                self.block(word[0], at, body, behind, is_pub)
            return behind
        if self.mask.startswith("macro_rules!", at):
            return self.closing(self.find_any(at, "{(["))
        if word[0] in ("use", "const", "static", "type", "extern"):
            return self.find(at, ";") + 1
        if self.mask.startswith("!", word.end()):
            begin = self.find_any(at, "{([")
            behind = self.closing(begin)
            return behind if self.mask[begin] == "{" else self.find(behind, ";") + 1
        self.fail(at, "an item that isn't known: %s" % word[0])

    def find_any(self, at, ends):
        return min(place for place in (self.mask.find(end, at) for end in ends) if place >= 0)

    def block(self, kind, at, body, behind, is_pub):
        """Reads what stands in braces."""
        head = PATH.sub("", one_line(self.text[at:body]))
        if kind == "mod":
            self.read(body + 1, behind - 1, "", "", False)
        elif kind == "trait":
            self.read(body + 1, behind - 1, re.match(r"trait (\w+)", head)[1], head, is_pub)
        elif kind == "impl":
            plain = without_generics(head)
            of_trait = " for " in plain
            owner = re.match(r"(?:impl )?(?:.* for )?&?(?:mut )?(\w+)", plain)[1]
            self.read(body + 1, behind - 1, owner, head if of_trait or "<" in head else "", of_trait)
        elif kind == "struct":
            name = re.match(r"struct (\w+)", head)[1]
            for field in re.finditer(r"\bghost (\w+): ", self.mask[body:behind]):
                begin = self.mask.index("{", body + field.end())
                self.add("%s::ghost %s" % (name, field[1]), is_pub, head, [self.text[begin:self.closing(begin)]])

    def ghost(self, at, owner, header, is_public):
        """A ghost member; imports are passed over."""
        end = self.find(at, ";")
        member = re.compile(r"ghost (\w+)\s*([:=])\s*(?=\{)").match(self.mask, at)
        if member:
            name = "%s::ghost %s" % (owner, member[1])
            self.add(name, is_public, header, [member[2] + " " + self.text[member.end():end]])
        elif not self.mask.startswith("ghost use", at):
            self.fail(at, "a ghost item that isn't known")
        return end + 1

    def function(self, at, function, owner, header, is_public, is_test):
        """A function: what stands before its clauses, these, and its body or a semicolon."""
        place, clauses, end = function.end(), [], None
        while self.mask[place] not in "{;":
            clause = CLAUSE.match(self.mask, place) if not self.mask[place - 1].isalnum() else None
            if clause:
                end = place if end is None else end
                begin, place = place, self.closing(self.mask.index("{", place))
                clauses.append(self.text[begin:place])
            else:
                place = self.closing(place) if self.mask[place] in PAIRS else place + 1
        signature = self.text[at:place if end is None else end]
        name = "%s::%s" % (owner, function[1]) if owner else function[1]
        if not is_test:
            self.add(name, is_public, (header + " " + signature).strip(), clauses)
        return place + 1 if self.mask[place] == ";" else self.closing(place)

    def add(self, name, is_public, signature, clauses):
        signature = PATH.sub("", one_line(signature)).rstrip(",")
        self.items.append(Item(name, is_public, signature, tuple(one_line(it) for it in clauses)))


def without_generics(text):
    """The text without what stands in angle brackets; `->` closes none."""
    kept, depth = [], 0
    for place, byte in enumerate(text):
        depth += byte == "<"
        if not depth:
            kept.append(byte)
        depth -= byte == ">" and depth > 0 and text[place - 1] != "-"
    return "".join(kept)


def functions_of(top, takes_all):
    """The lines of a tree's functions, each with its name, in order."""
    items = []
    for root in sorted(top.glob("crates/*/src/lib.rt")):
        for path in sorted(root.parent.rglob("*.rt")):
            items += Source(path).items
    return sorted((it.name, (it.signature, *it.clauses)) for it in items if it.is_public or takes_all and it.clauses)


# A definition begins with its kind or with its name and a colon; then come its cases, each with its name in front.
BEGINNING = re.compile(r"(?:abbrev |unfoldable |pub )*(?:(?:record|data) ([^\s:({]+)|([^\s:]+) :)")
IMPORT = re.compile(r"(?:pub )?(?:use|mod|open) ")
# Fields and constructors stand two blanks to the right; what stands further to the right goes on.
GOES_ON = "   "


def definitions_of(top, _):
    """The lines of a tree's definitions, each with its name, in order."""
    found = []
    for path in sorted(top.glob("crates/*/specs/**/*.antt")):
        for line in path.read_text(encoding="utf-8").splitlines():
            line = re.sub(r"(^|\s)--(\s.*)?$", "", line).rstrip()
            begins = BEGINNING.match(line)
            if IMPORT.match(line):
                found.append(None)
            elif begins:
                found.append((begins[1] or begins[2], [line]))
            elif line:
                if not found or found[-1] is None:
                    raise SystemExit("%s: a line that belongs to no definition: %s" % (path, line))
                found[-1][1].append(line)
    return sorted((it[0], tuple(one_line(re.sub(r"\bpub ", "", line)) for line in joined(it[1]))) for it in found if it)


def joined(lines):
    """The signature, and each case, field or constructor, with the lines in which it goes on behind it."""
    whole = []
    for line in lines:
        if whole and line.startswith(GOES_ON):
            whole[-1] += " " + line
        else:
            whole.append(line)
    return whole


def renamed(listed, file):
    """The list with the names that the file gives in place of the old ones."""
    pairs = [line.split() for line in file.read_text(encoding="utf-8").splitlines() if line.strip()]
    if any(len(pair) != 2 for pair in pairs):
        raise SystemExit("tests/contracts.py: each line of %s has two words, OLD NEW" % file)
    new = dict(pairs)
    words = re.compile(r"(?<![\w'-])(%s)(?![\w'-])" % "|".join(map(re.escape, new)))
    change = lambda text: words.sub(lambda it: new[it[1]], text)
    return sorted((change(name), tuple(map(change, parts))) for name, parts in listed) if new else listed


def line_of(name, parts):
    return " | ".join((name, parts[0], "; ".join(parts[1:]))).rstrip(" |")


def compare(here, there, other):
    """Says what differs; whether anything does."""
    here, there = collections.Counter(here), collections.Counter(there)
    ours, theirs = here - there, there - here
    by_name = lambda lines: {name: [parts for it, parts in lines.elements() if it == name] for name, _ in lines}
    ours, theirs = by_name(ours), by_name(theirs)
    for name in sorted(ours.keys() - theirs.keys()):
        for parts in ours[name]:
            print("only here:  %s" % line_of(name, parts))
    for name in sorted(theirs.keys() - ours.keys()):
        for parts in theirs[name]:
            print("only there: %s" % line_of(name, parts))
    for name in sorted(ours.keys() & theirs.keys()):
        print("differs:    %s" % name)
        parts, others = ([part for it in them[name] for part in it] for them in (ours, theirs))
        for part in [it for it in parts if it not in others] or parts:
            print("    here:   %s" % part)
        for part in [it for it in others if it not in parts] or others:
            print("    there:  %s" % part)
    count = len(ours.keys() | theirs.keys())
    print("%d here, %d in %s: %s" % (sum(here.values()), sum(there.values()), other, "%d names differ" % count if count else "the same"))
    return count > 0


def main():
    words = argparse.ArgumentParser(prog="tests/contracts.py")
    words.add_argument("--all", action="store_true", help="private functions too, if they have clauses")
    words.add_argument("--definitions", action="store_true", help="the definitions of specs/ in place of functions")
    words.add_argument("--names", type=pathlib.Path, metavar="FILE", help="lines OLD NEW: names that were changed")
    words.add_argument("other", nargs="?", type=pathlib.Path, metavar="OTHER_TREE", help="a tree to compare this one with")
    given = words.parse_args()
    if given.names and not given.other:
        words.error("--names needs another tree, whose names they were")
    listed = definitions_of if given.definitions else functions_of
    here = listed(TOP, given.all)
    if not given.other:
        for name, parts in here:
            print(line_of(name, parts))
        return 0
    there = listed(given.other, given.all)
    if not there:
        raise SystemExit("tests/contracts.py: %s has no crates to compare" % given.other)
    return compare(here, renamed(there, given.names) if given.names else there, given.other)


if __name__ == "__main__":
    sys.exit(main())
