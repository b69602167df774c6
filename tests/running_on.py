#!/usr/bin/env python3
"""Runs worked tables with entries without width, those under a letter `z`, on the built program:

    tests/running_on.py [--program PROGRAM] [NAME ..]   # or of a name alone
    tests/running_on.py --model [NAME ..]               # on the model of tests/tables.py
    tests/running_on.py --write FOLDER                  # writes them as rows, as tests/rows.sh runs them

PROGRAM is crates/roff/out/roff if none is given. What each must print was found by hand, by the rules that stand above it. The
exit status is 1 if one differs.
"""
import pathlib
import subprocess
import sys
import tempfile

sys.dont_write_bytecode = True
import table_items
from table_model import Model

TOP = pathlib.Path(__file__).resolve().parent.parent
PROGRAM = TOP / "crates" / "roff" / "out" / "roff"

# The lines of a table between `.TS` and `.TE`, with a `/` in the place of each newline; the lines that are printed of it, how many
# entries are cut, what else is told in front, and the limits, if there are any.
ROWS = {
    # An entry that is wider than its column begins at the column's first place and runs on. It ends before the next column with
    # something in its row: the first column is 1 wide, 3 blanks are behind it, so 4 glyphs stay.
    "cut_at_the_next_column": ("tab(:);/l l/lz l./x:y/abcdef:z", ["x   y", "abcdz"], 1),
    # An empty field doesn't end it.
    "runs_on_over_an_empty_field": ("tab(:);/l l/lz l./x:yy/abcde:", ["x   yy", "abcde"], 0),
    # The picture's end does: it is 1 + 3 + 2 wide. So does that of a row with fewer fields.
    "cut_at_the_end_of_the_picture": ("tab(:);/l l/lz l./x:yy/abcdefgh:/abcdefgh", ["x   yy", "abcdef", "abcdef"], 2),
    # A column of such entries alone is 0 wide; here that is the whole picture, and no place is left.
    "picture_without_width": (";/lz./abc", [""], 1),
    "column_without_width": ("tab(:);/lz l./abc:d/abcd:e", ["abcd", "abce"], 1),
    # Room for no glyph: what has no width at its front stays.
    "no_room": ("tab(:);/lz0 l./\\&abc:d", ["d"], 1),
    # Within its columns an entry stands where its key puts it. The columns are 4 and 5 wide.
    "stays_where_its_key_puts_it": ("tab(:);/r c/rz cz./wide:wider/ab:xy", ["wide   wider", "  ab    xy"], 0),
    # Under `r` it would begin two places in front of its column, and so it begins with it. Under `c` it would so too, by one.
    "begins_with_its_column": ("tab(:);/r l/rz l/cz l./ab:x/abcd:/abc:", ["ab   x", "abcd", "abc"], 0),
    # A bar of its line ends it: that stands in the middle of 3 blanks, behind one of them.
    "cut_at_a_bar": ("tab(:);/l | l/lz | l./ab:c/abcdef:", ["ab | c", "abc|"], 1),
    # Of two bars the first one: they stand behind one of 4 blanks.
    "cut_at_two_bars": ("tab(:);/l || l/lz || l./ab:c/abcdef:", ["ab || c", "abc||"], 1),
    # Bars of other rows don't.
    "runs_on_where_others_have_a_bar": ("tab(:);/l | l/lz l./ab:c/abcdef:", ["ab | c", "abcdef"], 0),
    # Bars within a cell of several columns aren't drawn, and so don't end it. The columns begin at 0, 4 and 8.
    "runs_on_over_a_bar_within_a_cell": ("tab(:);/l | l | l/lz l | s./a:b:c/abcdefghij:", ["a | b | c", "abcdefghi"], 1),
    # The bar at the right edge ends it, and not the blank in front of that.
    "cut_at_an_edge": ("box tab(:);/l l/lz l./ab:c/abcdefghij:", ["+--------+", "| ab   c |", "| abcdefg|", "+--------+"], 1),
    "cut_in_an_allbox": ("allbox tab(:);/lz l./abcdef:x", ["+--+---+", "| a| x |", "+--+---+"], 1),
    # A row without a bar at an edge where another row has one runs on up to the picture's end: the edge is 2 wide.
    "runs_on_over_an_edge": ("tab(:);/l |/lz./ab/abcdef", ["ab |", "abcd"], 1),
    # A glyph of two columns isn't cut: one place stays blank.
    "cut_in_front_of_a_wide_glyph": ("tab(:);/lz l./ab\\(em:d/a\\(emb:d", ["ab d", "a--d"], 2),
    # What has no width behind the glyphs that fit is no loss.
    "what_has_no_width_stays": ("tab(:);/lz l./abc\\fB\\&:d/abcd\\fB:e", ["abcd", "abce"], 1),
    # Blanks have width: 5 columns pass the 4 that there are, and one blank is lost.
    "blanks_are_cut": ("tab(:);/l l/lz l./x:y/ab   :z/ab  :z", ["x   y", "ab  z", "ab  z"], 1),
    # Rules, `\\_`, repeated bytes and a text without a glyph of width stand in their column, and end it.
    "cut_at_what_is_drawn": (
        "tab(:);/l l/lz l./ab:x/abcdef:_/abcdef:\\_/abcdef:\\R*/abcdef:\\&/abcdef:=",
        ["ab   x", "abcde-", "abcde-", "abcde*", "abcde", "abcde="], 5),
    # It ends where their column begins, though they stand further right in it, or on another line of its rows.
    "cut_in_front_of_a_short_rule": ("tab(:);/l rw(6)/lz r./ab:xyz/abcdefgh:\\_", ["ab      xyz", "abcde   ---"], 1),
    "cut_beside_a_rule_below": ("tab(:);/lz lw(2) l/^ l l./abcdefgh::/:_:x", ["abc", "   --   x"], 1),
    # A rule key too. Its column is 1 wide.
    "cut_at_a_rule_key": ("tab(:);/l l/lz _./ab:x/abcdef:y", ["ab   x", "abcde-"], 1),
    # A block without a word is empty; one with a word isn't.
    "runs_on_over_an_empty_block": (
        "tab(:);/l l/lz l./x:y/abcde:T{/T}/abcde:T{//T}/abcde:T{/z/T}", ["x   y", "abcde", "abcde", "abcdz"], 1),
    # A rule `\\_` is as wide as the widest entry with a width.
    "short_rule": ("tab(:);/l l/lz l/l l./ab:x/abcdef:/\\_:y", ["ab   x", "abcdef", "--   y"], 0),
    # Under `n` the parts of an entry with width are 2 and 2 wide: others stand by these, or begin with the column.
    "numbers": ("tab(:);/n l/nz l./12.5:x/3.1:/3.125:/1\\&2:/123.5:", ["12.5   x", " 3.1", "3.125", " 12", "123.5"], 0),
    # Where the column is wider, the parts stand in its middle, here behind 3 blanks. A wider part to the left begins further left.
    "numbers_in_a_wide_column": (
        "tab(:);/nw(9) l/nz l./1.5:x/123.25:/1234.5:/12345.5:/1.234567:/1.2345:",
        ["   1.5      x", " 123.25", "1234.5", "12345.5", "1.234567", "   1.2345"], 0),
    # The parts of entries without width alone are none: all of them are placed by the middle of the column.
    "numbers_without_width_alone": ("tab(:);/nw(9)z l./1.5:x/12.25:", ["   1.5      x", "  12.25"], 0),
    # Under `a` the strip is 2 wide, and begins one place behind the column's first.
    "strip": ("tab(:);/a l/az l./ab:x/abc:/c:", [" ab   x", "abc", " c"], 0),
    # Equal columns get the widest of those that have a width.
    "equal_columns": ("tab(:);/le le/lz l./a:bbb/abcdefgh:", ["a     bbb", "abcdefgh"], 0),
    # A further format has its own letters; its entries count for the width of all rows.
    "further_format": ("tab(:);/lz l./abcdef:x/.T&/l l./ab:y", ["abcdex", "ab   y"], 1),
    # Letters stand in any order, in either case.
    "letters_in_any_order": ("tab(:);/lw1Z5bfB l./abcdefgh:d", ["abcdefd"], 1),
    # A cell of several columns, here at 0 and 4, runs on behind the last of them. They don't grow, and the letter stands behind
    # any of its keys.
    "several_columns": ("tab(:);/l l l/lz s l/l sz l./a:b:c/abcdefghijk:z/abcdefghijk:", ["a   b   c", "abcdefghz", "abcdefghi"], 2),
    "stays_in_several_columns": ("tab(:);/l l/cz s./abc:de/wide", ["abc   de", "  wide"], 0),
    # A cell of several rows ends before the first column that has something in one of them, on all lines.
    "several_rows": ("tab(:);/l l l/lz l l/^ l l./a:b:c/abcdefghijk::/::z", ["a   b   c", "abcdefgh", "        z"], 1),
    # A cell beside it that goes on from above is used, whichever of its lines has its text.
    "beside_several_rows": ("tab(:);/l ld l/lz ^ l./x:tall:y/abcdefgh::", ["x          y", "abcdtall"], 1),
    "beside_the_top_of_several_rows": ("tab(:);/l lt l/lz ^ l./x:tall:y/abcdefgh::", ["x   tall   y", "abcd"], 1),
    # The letters of the row count in which the cell begins.
    "goes_on_with_a_width": ("tab(:);/l l/lz l/^z l./abc:d/\\^:e/:f", ["      d", "abc   e", "      f"], 0),
    "goes_on_without_a_width": ("tab(:);/lz l/l l./abcdef:x/\\^:y", ["abcx", "   y"], 1),
    # On a line of rules it ends before the first place that is ruled: that of a bar between the columns, behind one blank. On the
    # other lines it has 8 places. It is one entry that is cut.
    "cut_on_a_line_of_rules": (
        "tab(:);/lzw(2) l l/^ l l./T{/abcdefgh/ijklmnop/qrstuvwx/T}::c/_/::d", ["abcdefghc", "ijk------", "qrstuvwxd"], 1),
    # Beside an empty cell that has both rows too, nothing is ruled up to the place of the bar behind it.
    "cut_further_on_a_line_of_rules": (
        "tab(:);/lzw(2) l l/^ ^ l./T{/abcdefgh/ijklmnop/qrstuvwx/T}::c/_/::d", ["abcdefghc", "ijklmn---", "qrstuvwxd"], 1),
    # A bar stands at the same place, and goes through where nothing is ruled.
    "cut_at_a_bar_on_each_line": (
        "tab(:);/lzw(2) | l l/^ | ^ l./T{/abcdefgh/ijklmnop/qrstuvwx/T}::c/_/::d", ["abc|    c", "ijk|  ---", "qrs|    d"], 1),
    # A block is judged by its widest line, and each of its lines is cut by itself. The measure is 3, and the picture 7 wide.
    "block": (
        "tab(:);/rzw(3) l./T{/ab/T}:c/T{/ab/abcdefgh/abcdefghi/T}:", [" ab   c", "ab", "abcdefg", "abcdefg"], 1),
    # An entry that ends where another one without width begins: it isn't empty, even where nothing of it stays.
    "beside_each_other": ("tab(:);/lz0 lz l./ab:cdef:x/:cdef:x", ["cdex", "cdex"], 3),
    # A message for each entry, on the line of `.TE`, behind all others.
    "told_behind_all_others": (
        "tab(:);/l l/lz l./x:y:w/abcdef\\nx:z", ["x   y", "abcdz"], 1,
        ["6: too many fields", "7: not measured: \\n"]),
    # None where a limit stops the table on that line: the picture is 5 wide, and the row that is open there is the third.
    "stopped_by_the_width": ("tab(:);/l l/lz l./x:y/abcdef:z", [], 0, ["8: limit width (4) reached"], {"width": 4}),
    "stopped_by_the_rows": (
        "tab(:);/l l/lz l./x:y/abcdef:z/abcdef:z\\", [], 0, ["9: limit rows (2) reached"], {"rows": 2}),
}


class Document:
    """The document of a table, its limits, what is printed of it and told, and the status."""

    def __init__(self, table, printed, cut, told=(), limits=None):
        # One page has just these lines.
        source = ".pl %d\n.TS\n%s\n.TE\n" % (max(1, len(printed)), table.replace("/", "\n"))
        told = list(told) + cut * ["%d: entry cut" % source.count("\n")]
        self.source, self.limits = source.encode(), limits or {}
        self.wanted = as_lines(printed), as_lines("tbl: line " + message for message in told), 3 if limits else 0

    def by_model(self):
        """What the model's output prints, what is told, and the status. Of what nroff does only what these tables need is known."""
        model, printed = Model(self.source, self.limits, 65), b""
        for line in model.output.split(b"\n"):
            if line.startswith(b"\\&"):
                texts = [item.printed or b" " * item.columns for item in table_items.items(line)]
                printed += b"".join(texts).rstrip(b" ") + b"\n"
        return printed, model.messages, model.status

    def options(self):
        return ["--%s=%d" % limit for limit in self.limits.items()]

    def by_program(self, program):
        with tempfile.NamedTemporaryFile() as file:
            file.write(self.source)
            file.flush()
            words = [program, "both", *self.options(), file.name]
            done = subprocess.run(words, stdin=subprocess.DEVNULL, capture_output=True, timeout=60)
        return done.stdout, done.stderr, done.returncode

    def write(self, path):
        """Writes the files of a row of this path."""
        printed, told, status = self.wanted
        files = {".roff": self.source, ".args": as_lines(["both", *self.options()]), ".txt": printed, ".messages": told,
                 ".status": b"%d\n" % status if status else b""}
        for ending, text in files.items():
            if text:
                path.with_suffix(ending).write_bytes(text)


def as_lines(lines):
    return "".join(line + "\n" for line in lines).encode()


def main():
    program, words = PROGRAM, sys.argv[1:]
    if words[:1] == ["--write"]:
        for name in ROWS:
            Document(*ROWS[name]).write(pathlib.Path(words[1]) / name)
        return
    is_model = words[:1] == ["--model"]
    if is_model:
        words = words[1:]
    elif words[:1] == ["--program"]:
        program, words = pathlib.Path(words[1]).resolve(), words[2:]
    if not is_model and not program.exists():
        raise SystemExit("tests/running_on.py: %s is missing; ./roff --prove builds it" % program)
    failures = 0
    for name in words or ROWS:
        document = Document(*ROWS[name])
        given = document.by_model() if is_model else document.by_program(program)
        if given != document.wanted:
            failures += 1
            print("%s: %r\n  gives  %r\n  wanted %r" % (name, document.source, given, document.wanted))
    print("%d tables, %d differences" % (len(words or ROWS), failures))
    sys.exit(1 if failures else 0)


if __name__ == "__main__":
    main()
