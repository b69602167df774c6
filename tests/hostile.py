#!/usr/bin/env python3
"""Gives the built program documents that nobody would write, most of them made of escapes, conditions, strings, macros
and environments:

    tests/hostile.py [--program PROGRAM] [KIND ..]

PROGRAM is crates/roff/out/roff if none is given.
Some are long, some nest deeply, some end in the middle; some are tables, which both `tbl` and `both` are given; some have
each byte behind a backslash, as a delimiter and in other places, and some are made at random, always the same. Each
document is formatted twice. Both runs must end alike, with the same output and messages and a status from 0 to 4; a run
may take a few seconds of processor time and a few megabytes of memory, 20 where a table is as large as the limits let it
be. A long document may take no more than its share beside one of a quarter of its length, is stopped by the limit that is
named for it, or by none, and some must begin as they are said to. Documents whose lines or spaces go far are formatted
once: of their output, which is up to 200 megabytes, the beginning and the length are compared, and the line on which a
limit stops them. Short documents that tell hundreds of megabytes are stopped by a limit on messages, and at once where that
is small. Tables of rules, bars, rule keys, spans and entries without width are given room for four times as many, which may take
4.5 times as long. GNU time measures the memory. Four kinds are run at a time, and each is told as it ends, with the seconds that it took; what is
wrong is told again behind them all. On four quiet cores it takes less than five minutes. The exit status is 1 if something
is wrong.
"""
import concurrent.futures
import os
import pathlib
import random
import re
import resource
import signal
import subprocess
import sys
import tempfile
import time

TOP = pathlib.Path(__file__).resolve().parent.parent
PROGRAM = TOP / "crates" / "roff" / "out" / "roff"
GNU_TIME = pathlib.Path("/usr/bin/time")

MEGABYTE = 1_000_000
# What a run may take: seconds of processor time, and kilobytes of memory. So of 50 megabytes at least 10 are read in
# a second. Far behind its time a run is stopped.
MOST_SECONDS = 5
MOST_KILOBYTES = 8_000
MOST_KILOBYTES_OF_TABLES = 20_000
STOPPED_SECONDS = 60
# How many kinds are run at a time.
AT_ONCE = 4
# What a long document may take beside one of a quarter of its length, and seconds that don't count there.
MOST_RATIO = 6
SMALL_CHANGE = 0.2
# How often more than twice a document is formatted where it takes too long, as other work on the machine makes it slower.
MORE_ROUNDS = 4
# How many bytes of an output are shown where it isn't what it should be.
SHOWN = 60

# Long documents: what stands in front, what is repeated, what stands behind, and the bytes of it all. These and nested
# documents are formatted with room for a long line, for the results of many conditions and for many environments.
LINES = 200_000
ROOM = ("--line=%d" % MEGABYTE, "--conditions=%d" % LINES, "--environments=%d" % LINES)
# Ten strings, each of which calls the next one ten times, and ten such macros: ten thousand million calls of the last.
# 9,025 names of strings, and as many of macros.
TEN = b"abcdefghij"
STRINGS_OF_STRINGS = b"".join(b".ds %c %s\n" % (c, b"\\\\*%c" % (c + 1) * 10) for c in TEN) + b".ds k x \n"
MACROS_OF_MACROS = b"".join(b".de %c\n%s..\n" % (c, b".%c\n" % (c + 1) * 10) for c in TEN) + b".de k\nx\n..\n"
NAMES = [bytes((first, second)) for first in range(33, 128) for second in range(33, 128)]
NAMES_OF_STRINGS = b"".join(b".ds %s x\n" % name for name in NAMES)
NAMES_OF_MACROS = b"".join(b".de %s\nx\n..\n" % name for name in NAMES)
LONG = {
    "text_of_a_motion": (rb"a\h'", b"1", b"'b\n", 10 * MEGABYTE),
    "text_of_a_width": (rb"a\w'", b"x", b"'b\n", 10 * MEGABYTE),
    "text_of_a_width_in_an_argument": (rb".nr a \w'", b"x", b"' 1\n\\na\n", 10 * MEGABYTE),
    "text_left_out": (rb"a\o'", b"x", b"'b\n", 10 * MEGABYTE),
    "text_left_out_without_an_end": (rb"a\X'", b"x", b"", 10 * MEGABYTE),
    "text_over_many_lines": (rb"a\o'\w'", b"x\\\n", b"''b\n", 10 * MEGABYTE),
    "argument": (b".nr a ", b"1", b"\n", 10 * MEGABYTE),
    "argument_in_quotes": (b'.nr a "', b"1 ", b'"\n', 10 * MEGABYTE),
    "argument_of_nothing": (b".nr a 1", rb"\*x", b"\n\\na\n", 10 * MEGABYTE),
    "arguments": (b".so ", b"1 ", b"\n", 10 * MEGABYTE),
    "arguments_without_bytes": (b".so ", b'"" ', b"\n", 10 * MEGABYTE),
    "arguments_of_escapes": (b".so ", rb"\ \h'", b"\n", 10 * MEGABYTE),
    "comment": (rb"a\"", rb"\"", b"\n", 10 * MEGABYTE),
    "comment_in_a_name": (rb"\n(a\"", b"x", b"\n", 10 * MEGABYTE),
    "dropped_line": (rb".\" ", rb"\w'", b"\n", 10 * MEGABYTE),
    "dropped_bytes": (rb"\w", b"\x01", b"'a'\n", 10 * MEGABYTE),
    "newlines_in_a_name": (rb"\n", b"\\\n", b"a\n", 10 * MEGABYTE),
    "newlines_in_an_argument": (b".nr a ", b"\\\n", b"1\n", 10 * MEGABYTE),
    "backslashes": (b"", b"\\", b"\n", MEGABYTE),
    "backslashes_in_lines": (b"", b"\\\\\\\\\n", b"", MEGABYTE),
    "backslashes_in_an_argument": (b".so ", b"\\", b"\n", MEGABYTE),
    "backslashes_in_a_name": (rb"\n(", b"\\", b"\n", MEGABYTE),
    "backslashes_in_a_size": (rb"\s+", b"\\", b"\n", MEGABYTE),
    "backslashes_in_a_width": (rb"\w'", b"\\", b"'\n", MEGABYTE),
    "backslashes_in_a_deep_width": (rb"\w'" * 9, b"\\", b"'" * 9 + b"\n", MEGABYTE),
    "backslashes_in_a_motion": (rb"\h'", b"\\", b"'\n", MEGABYTE),
    "backslashes_left_out": (rb"\o'", b"\\", b"'\n", MEGABYTE),
    "backslashes_of_a_dropped_line": (b".\\", b"\\", b"\n", MEGABYTE),
    "names_in_names": (b"", rb"\n(", b"\n", MEGABYTE),
    "names_of_strings": (b"", rb"\n\*", b"\n", MEGABYTE),
    "names_of_escapes": (b"", b"\\n\\h\\n(\\(\\(\\e\n", b"", MEGABYTE),
    "characters": (rb"\w'", rb"\(em", b"'\n", MEGABYTE),
    "characters_unknown": (b"", b"\\(\\(\n", b"", MEGABYTE),
    "sizes": (b"a", rb"\s", b"\n", MEGABYTE),
    "widths": (b"", rb"\w'\w''", b"\n", MEGABYTE),
    "widths_in_lines": (b"", b"\\w'\\w''\n", b"", MEGABYTE),
    "widths_of_widest_motions": (rb"\w'", rb"\h'2147483647u'", b"'\n", MEGABYTE),
    "widths_without_texts": (b"", b"\\w\n", b"", MEGABYTE),
    "widths_ended_by_widths": (b"", b"\\w4\\w'ab'\n", b"", MEGABYTE),
    "widths_in_motions": (rb"\w'", rb"\h'\w'ab'u'", b"'\n", MEGABYTE),
    "motions_without_columns": (b"a", rb"\h'0'", b"b\n", MEGABYTE),
    "motions_without_texts": (b"", b"\\h\n", b"", MEGABYTE),
    "motions_in_numbers": (rb"\w'", rb"\h'1+1-(2*3)%4:5'", b"'\n", MEGABYTE),
    "parentheses_in_a_motion": (rb"\h'", b"(", b"'\n", MEGABYTE),
    "texts_left_out": (b"", rb"\b'x'\D'x'\H'x'\l'x'\L'x'\N'x'\o'x'\S'x'\v'x'\x'x'\X'x'" + b"\n", b"", MEGABYTE),
    "texts_left_out_without_ends": (b"", b"a\\x'b\n", b"", MEGABYTE),
    "block_skipped": (b".if 0 \\{\\\n", b"A line of a block that is skipped.\n", b".\\}\nx\n", 50 * MEGABYTE),
    "line_skipped": (b".if 0 ", b"words of a line that is skipped ", b"\nx\n", 50 * MEGABYTE),
    "lines_skipped": (b"", b".if 0 x\n", b"x\n", 10 * MEGABYTE),
    "escapes_skipped": (rb".if 0 \{", rb"\e\\", b"\\}\nx\n", 10 * MEGABYTE),
    "backslashes_skipped": (b".if 0 ", b"\\", b"\n", MEGABYTE),
    "blocks_within_a_skipped_block": (b".if 0 ", rb"\{\}\{", b"\n", 10 * MEGABYTE),
    "blocks_within_blocks": (b"", b".if 1 \\{\\\n", b"", 10 * LINES),
    "blocks_ended": (b"", b".if 1 \\{\\\n\\}\n", b"", 10 * MEGABYTE),
    "conditions_on_a_line": (b"", b".if 1 ", b"x\n", 6 * LINES),
    "results_kept": (b"", b".ie 0 x\n", b"", 8 * LINES),
    "results_kept_on_a_line": (b"", b".ie 1 ", b"", 6 * LINES),
    "results_kept_past_the_limit": (b"", b".ie 0 x\n", b"", 8 * (LINES + 1)),
    "other_branches": (b"", b".ie 0 x\n.el y\n", b"", MEGABYTE),
    "other_branches_alone": (b"", b".el x\n", b"", 6 * LINES),
    "blanks_before_a_condition": (b".if", b" ", b"n x\n", 10 * MEGABYTE),
    "blanks_before_a_branch": (b".if n", b" ", b"x\n", 10 * MEGABYTE),
    "expression": (b".if 1", b"+1", b" x\n", 10 * MEGABYTE),
    "expression_evaluated": (b".if 1", b"+1", b" x\n", MEGABYTE // 4),
    "expression_of_nothing": (b".if 1", rb"\*x", b" x\n", 10 * MEGABYTE),
    "parentheses_in_an_expression": (b".if ", b"(", b" x\n", MEGABYTE // 4),
    "newlines_in_an_expression": (b".if 1", b"\\\n", b"=1 x\n", 10 * MEGABYTE),
    "widths_in_an_expression": (b".if 1", rb"+\w'ab'", b" x\n", MEGABYTE // 2),
    "compared_texts": (b".if 'x'", b"x", b"' y\n", 10 * MEGABYTE),
    "compared_texts_of_nothing": (b".if '", rb"\*x", b"'' y\n", 10 * MEGABYTE),
    "compared_texts_that_differ_late": (b".if '%s'" % (b"x" * (MEGABYTE // 8)), b"x", b"' y\n", MEGABYTE // 4),
    "backslashes_in_a_condition": (b".if ", b"\\", b"\n", MEGABYTE),
    "backslashes_in_an_expression": (b".if 1", b"\\", b"\n", MEGABYTE),
    "backslashes_in_a_compared_text": (b".if '", b"\\", b"'\n", MEGABYTE),
    "string": (b".ds s ", b"x", b"\n\\*s\n", 10 * MEGABYTE),
    "string_of_escapes": (b".ds s ", rb"\ \h'", b"\n", 10 * MEGABYTE),
    "string_of_nothing": (b".ds s ", rb"\*x", b"\n", 10 * MEGABYTE),
    "string_of_registers": (b".ds s ", rb"\nx", b"\n\\*s\n", MEGABYTE // 2),
    "string_of_many_lines": (b".ds s ", b"\\\n", b"x\n\\*s\n", 10 * MEGABYTE),
    "string_appended_to": (b"", b".as s x\n", b"", 10 * MEGABYTE),
    "string_doubled": (b".ds s x\n", b".as s \\*s\n", b"", 408),
    "string_that_calls_itself": (b".ds s \\\\*s\n", b"\\*s\n", b"", 40),
    "strings_that_call_each_other": (b".ds s x\\\\*t\n.ds t \\\\*s\n", b"\\*s\n", b"", 40),
    "string_name": (b".ds ", b"x", b" y\n", 10 * MEGABYTE),
    "string_name_of_quotes": (b'.ds "', b'""', b'" y\n', 10 * MEGABYTE),
    "string_without_a_name": (b'.ds "" ', b"x", b"\n", 10 * MEGABYTE),
    "blanks_before_a_string": (b".ds s", b" ", b"x\n\\*s\n", 10 * MEGABYTE),
    "backslashes_in_a_string": (b".ds s ", b"\\", b"\n", MEGABYTE),
    "strings_defined_again": (b"", b".ds s some text\n", b"", 10 * MEGABYTE),
    "strings_without_texts": (b"", b".ds s\n", b"", MEGABYTE),
    "strings_of_strings": (STRINGS_OF_STRINGS, b"\\*a\n", b"", len(STRINGS_OF_STRINGS) + 16),
    "names_of_many_strings": (b"", NAMES_OF_STRINGS, b"", 4 * len(NAMES_OF_STRINGS)),
    "strings_that_are_read": (b".ds s ab cd \n", rb"\*s", b"\n", MEGABYTE),
}
LONG.update({
    "macro": (b".de m\n", b"A line of a macro.\n", b"..\n.m\n", 10 * MEGABYTE),
    "macro_of_one_line": (b".de m\n", b"words of a macro ", b"\n..\n.m\n", 10 * MEGABYTE),
    "macro_not_ended": (b".de m\n", b"..x\n", b"", 10 * MEGABYTE),
    "macro_appended_to": (b"", b".am m\nx\n..\n", b"", 10 * MEGABYTE),
    "macros_defined_again": (b"", b".de m\nsome text\n..\n", b"", 10 * MEGABYTE),
    "macro_that_calls_itself": (b".de m\n.m\n..\n", b".m\n", b"", 40),
    "macros_that_call_each_other": (b".de m\nx\n.n\n..\n.de n\n.m\n..\n", b".m\n", b"", 40),
    "macros_of_macros": (MACROS_OF_MACROS, b".a\n", b"", len(MACROS_OF_MACROS) + 12),
    "macro_that_redefines_itself": (b"", b".de m\n.de m\nnew\n\\\\..\nold\n..\n.m\n.m\n", b"", MEGABYTE),
    "macro_that_redefines_itself_and_calls_itself": (b".de m\n.de m\nx\n.m\n\\\\..\n.m\n..\n", b".m\n", b"", 60),
    "macro_removed_while_it_is_read": (b"", b".de m\n.rm m\nx\n..\n.m\n", b"", MEGABYTE),
    "lines_ignored": (b".ig\n", b"A line that is ignored.\n", b"..\nx\n", 10 * MEGABYTE),
    "lines_ignored_to_a_name": (b"", b".ig x\nx\n.x\n", b"", 10 * MEGABYTE),
    "lines_ignored_without_an_end": (b".ig\n", b"..x\n", b"", 10 * MEGABYTE),
    "names_of_many_macros": (b"", NAMES_OF_MACROS, b"", 4 * len(NAMES_OF_MACROS)),
    "calls": (b".de m\n\\\\$1 x\n..\n", b".m a b c\n", b"", MEGABYTE),
    "calls_of_nothing": (b".de m\n..\n", b".m\n", b"", 10 * MEGABYTE),
    "arguments_of_a_call": (b".de m\n..\n.m ", b"1 ", b"\n", 10 * MEGABYTE),
    "argument_of_a_call": (b".de m\n..\n.m ", b"1", b"\n", 10 * MEGABYTE),
    "arguments_handed_on": (b".de m\n.m \\\\$1\\\\$1\n..\n", b".m x\n", b"", 60),
    "results_kept_in_bodies": (b".de m\n.ie 0 x\n..\n", b".m\n", b"", MEGABYTE),
    "names_removed": (b"", b".rm xx\n", b"", 10 * MEGABYTE),
    "names_renamed": (b".ds a x\n", b".rn a b\n.rn b a\n", b"", 10 * MEGABYTE),
})
LONG.update({
    "environments_left": (b"", b".ev 1\n", b"", 6 * LINES),
    "environments_left_past_the_limit": (b"", b".ev 1\n", b"", 6 * (LINES + 1)),
    "environments_left_and_gone_back_to": (b"ab\n", b".ev 1\n.ev\n", b"cd\n", 10 * MEGABYTE),
    "environments_of_no_number": (b"", b".ev 3\n", b"", MEGABYTE),
    "environments_back_from_nowhere": (b"", b".ev\n", b"", MEGABYTE),
    "text_in_each_environment": (b"", b"a\n.ev 1\nb\n.ev 2\nc\n.ev\n.ev\n", b"", 5 * MEGABYTE),
    "lines_centred": (b".ce 2147483647\n", b"a line\n", b"", 10 * MEGABYTE),
    "lines_centred_one_by_one": (b"", b".ce\na line\n", b"", 5 * MEGABYTE),
    "line_centred_of_many_words": (b".ce\n", b"a word ", b"\n", MEGABYTE // 2),
    "temporary_indents": (b"", b".ti +9n\nx\n", b"", 5 * MEGABYTE),
    "temporary_indents_without_lines": (b"", b".ti 9n\n", b"x\n", 5 * MEGABYTE),
    "lines_spaced": (b".ls 9\n", b"x\n.br\n", b"", 5 * MEGABYTE),
    "spacings_without_lines": (b"", b".ls 2147483647\n", b".ls 1\nx\n", 5 * MEGABYTE),
    "pages_of_one_line": (b".pl 1\n", b"a line of text\n", b"", 50 * MEGABYTE),
    "pages_of_one_line_without_filling": (b".pl 1\n.nf\n", b"a line\n", b"", 50 * MEGABYTE),
    "page_lengths": (b"", b".pl 9\n.pl +1\n", b"a\n", 5 * MEGABYTE),
    "page_lengths_below_the_place": (b"a\n.br\nb\n.br\n", b".pl 9\n.pl 1\na\n.br\n", b"", 5 * MEGABYTE),
    "page_lengths_without_text": (b"", b".pl\n", b"a\n", 4 * LINES + 2),
    "page_lengths_too_small": (b"", b".pl 0\n", b"a\n", 6 * LINES + 2),
    "page_that_grows": (b".nf\n", b".pl +1\na\n", b"", 9 * LINES + 4),
    "titles": (b"", b".tl 'left'- % -'right'\n", b"", 5 * MEGABYTE),
    "titles_without_parts": (b"", b".tl\n", b"", MEGABYTE),
    "titles_of_one_page_each": (b".pl 1\n", b".tl '%'\n", b"", MEGABYTE),
    "title_lengths": (b"", b".lt 9n\n.lt +1\n.lt\n", b".tl 'a''b'\n", 5 * MEGABYTE),
    "page_characters": (b"", b".pc #\n.pc\n", b".tl '%#'\n", 5 * MEGABYTE),
    "part_of_a_title": (b".tl '", b"a", b"'\n", MEGABYTE),
    "part_of_a_title_of_numbers": (b".tl '", b"%", b"'\n", MEGABYTE),
    "part_of_a_title_of_nothing": (b".tl '", b"\\&", b"'\n", 5 * MEGABYTE),
    "front_of_a_title": (b".tl", b" ", b"'a'\n", 10 * MEGABYTE),
    "front_of_a_title_of_strings": (b".tl ", b"\\*x", b"'a'\n", 5 * MEGABYTE),
    "arguments_behind_a_title": (b".tl 'a'b'c'", b" x", b"\n", MEGABYTE // 8),
    "parts_of_strings": (b".ds x a'\n", b".tl '\\*x\\*x\\*x\n", b"", 5 * MEGABYTE),
    "title_not_ended": (b".tl 'a'", b"\\\n", b"", 10 * MEGABYTE),
    "spaces_farthest": (b"", b".sp 2147483647u\n", b"", 16 * LINES // 2),
    "spaces_down": (b".pl 9\n", b".sp |9\na\n", b"", 5 * MEGABYTE),
    "spacings_farthest": (b".ls 2147483647\n", b"a\n.br\n", b"", MEGABYTE),
    "page_numbers_stepped": (b".nr % 0 1\n", b"\\n+%\n", b"", 5 * MEGABYTE),
    "page_numbers_set": (b".pl 1\n.nf\n", b".pn +1\n\\n%\n", b"", 5 * MEGABYTE),
    "page_numbers_without_pages": (b"", b".pn 2147483647\n.pn -1\n", b"a\n", 5 * MEGABYTE),
    "page_offsets": (b".nf\n", b".po 9\n.po +1\na\n.po\n", b"", 5 * MEGABYTE),
    "page_offsets_without_lines": (b"", b".po 2147483647u\n.po -9\n", b".po 0\na\n", 5 * MEGABYTE),
    "tab_stops": (b".ta", b" 9", b"\na\tb\n", 2 * LINES + 8),
    "tab_stops_past_the_stack": (b".ta", b" 9", b"\na\tb\n", 3 * LINES + 8),
    "tab_stops_that_count_from_others": (b".ta", b" +9", b"\na\tb\n", 3 * LINES // 2 + 8),
    "tab_stops_set_again": (b"", b".ta 9 5 +9\n", b"a\tb\n", 5 * MEGABYTE),
    "tabs": (b"a", b"\t", b"b\n", 10_000 + 3),
    "tabs_past_the_line": (b"a", b"\t", b"b\n", LINES + 3),
    "tabs_in_lines": (b".nf\n", b"\tx\n", b"", 5 * MEGABYTE),
    "tabs_without_stops": (b".ta\na", b"\t", b"b\n", MEGABYTE),
    "tabs_with_many_stops": (b".ta" + b" 9" * 31 + b" 10\n.nf\n", b"\t\tx\n", b"", MEGABYTE),
    "fields_on_a_line": (b".nf\n.nr a 0 2\n", b".ta \\n+anR\n\tx\\c\n", b"\n", 18_000 * 10 + 14),
    "fields_in_lines": (b".nf\n.ta 9R 18C 27R\n", b"\ta b\tc\td\n", b"", 5 * MEGABYTE),
    "fields_in_filled_text": (b".ta 9R 30C\n", b"\ta b \tc d\n", b"", 5 * MEGABYTE),
    "fields_that_finish_lines": (b".ll 9\n.ta 16R 24R\n", b"aaaa bbb\tcc \tdd\n", b"", MEGABYTE),
    "field_of_much_text": (b".nf\n.ta 9R\n\t", b"x", b"\n", MEGABYTE),
    "field_of_gaps": (b".nf\n.ta 9C\n\t", b"x ", b"\n", MEGABYTE),
    "field_of_wide_characters": (b".nf\n.ta 9C\n\t", b"\xc3\xa9", b"\n", MEGABYTE),
    "field_that_ends_in_a_gap": (b".nf\n.ta 9R\n\tx", b" ", b"\tb\n", MEGABYTE),
    "field_past_the_line": (b".nf\n.ta 9R\n\t", b"x", b"\n", 2 * MEGABYTE),
    "field_over_interrupted_lines": (b".ta 9R\n\tx\\c\n", b"a b\\c\n", b"", MEGABYTE),
    "fields_of_environments": (b"", b".ta 9R\n\ta\\c\n.ev 1\n.ta 9C\n\tb\\c\n.ev\n.br\nc\n", b"", MEGABYTE),
    "fields_broken": (b".ta 9R\n", b"\ta\\c\n.br\n\n", b"", 5 * MEGABYTE),
    "fields_without_text": (b".ta 9R 18C\n", b"\t\t\n", b"", 5 * MEGABYTE),
    "tab_stop_kinds_set_again": (b"", b".ta 9R 5C +9R\n", b"a\tb\n", 5 * MEGABYTE),
    "tab_stop_of_a_long_expression": (b".ta 1", b"+1", b"R\n\tb\n", MEGABYTE // 4),
    "motions_to_places": (b"a", rb"\h'|1n'", b"b\n", MEGABYTE),
    "lines_interrupted": (b"", b"a\\c\n", b"", MEGABYTE),
    "lines_interrupted_past_the_line": (b"", b"abcdefgh\\c\n", b"", 11 * LINES),
    "lines_interrupted_from_nothing": (b"", b"\\c\n", b"x\n", MEGABYTE),
    "lines_interrupted_behind_blanks": (b"", b" \\c\n", b"x\n", MEGABYTE),
    "lines_interrupted_in_each_environment": (b"", b"a\\c\n.ev 1\nb\\c\n.ev 2\nc\\c\n.ev\n.ev\n", b"", MEGABYTE),
    "rest_of_an_interrupted_line": (b"a\\c", rb"\w'", b"\nb\n", 10 * MEGABYTE),
})
LONG.update({
    "last_macro": (b".de Z\n", b"A line of the last macro.\n", b"..\n.em Z\n", 10 * MEGABYTE),
    "last_macro_past_the_stack": (b".de Z\n", b"A line of the last macro.\n", b"..\n.em Z\n", MEGABYTE // 2),
    "last_macro_that_is_read": (b".de Z\n", b"A line of the last macro.\n", b"..\n.em Z\n", MEGABYTE // 4),
    "last_macro_of_one_line": (b".de Z\n", b"a word ", b"\n..\n.em Z\n", MEGABYTE // 4),
    "last_macro_that_calls_itself": (b".de Z\n.Z\n..\n.em Z\n", b"a line\n", b"", MEGABYTE),
    "last_macro_that_calls_another": (b".de m\n.Z\n..\n.de Z\n.m\n..\n.em Z\n", b"a line\n", b"", MEGABYTE),
    "last_macro_that_sets_itself": (b".de Z\nend\n.em Z\n..\n.em Z\n", b"a line\n", b"", MEGABYTE),
    "last_macro_of_many_names": (b".de Z\n", NAMES_OF_STRINGS, b"..\n.em Z\n", 4 * len(NAMES_OF_STRINGS) + 20),
    "last_macro_of_many_environments": (b".de Z\n", b"a\n.ev 1\n", b"..\n.em Z\n", MEGABYTE // 4),
    "last_macro_of_many_results": (b".de Z\n", b".ie 0 x\n", b"..\n.em Z\n", MEGABYTE // 4),
    "last_macro_of_blocks": (b".de Z\n", b".if 1 \\{\\\n", b"end\n..\n.em Z\n", MEGABYTE // 4),
    "last_macro_that_exits": (b".de Z\nend\n.ex\n", b"never\n", b"..\n.em Z\na line\n", MEGABYTE // 4),
    "last_macro_set_often": (b".de Z\nend\n..\n", b".em Z\n", b"a line\n", 6 * LINES),
    "last_macro_set_to_many_names": (b".de Z\nend\n..\n", b".em Z\n.em Y\n.em\n", b"a line\n", MEGABYTE),
    "last_macro_behind_a_skipped_block": (b".de Z\nend\n..\n.em Z\n.if 0 \\{\n", b"a line\n", b"", 10 * MEGABYTE),
    "last_macro_behind_a_definition": (b".de Z\nend\n..\n.em Z\n.ig\n", b"a line\n", b"", 10 * MEGABYTE),
    "last_macro_behind_an_interrupted_line": (b".nf\n.de Z\nend\n..\n.em Z\n", b"a\\c\n", b"", 12 * LINES),
    "exit_within_blocks": (b"", b".if 1 \\{\\\n", b"a line\n.ex\nnever\n", 10 * LINES),
    "exit_within_conditions": (b"a line\n", b".if 1 ", b".ex\nnever\n", 6 * LINES),
    "exit_within_calls": (b".nr n 0 1\n.de m\n.if \\\\n+n>150 .ex\n.m\n..\n", b"a line\n", b".m\nnever\n", MEGABYTE),
    "exit_within_strings": (b".nr n 0 1\n.ds s \\\\n+n.\\\\*s\n.ds t \\\\*u\n.ds u .ex\n", b"a line\n", b"\\*t\nnever\n", MEGABYTE),
    "exit_before_a_long_input": (b"a line\n.ex\n", b"never\n", b"", 50 * MEGABYTE),
})
LONG.update({
    "input_traps_set": (b"", b".it 9 X\n", b"x\n", 10 * MEGABYTE),
    "input_traps_that_spring": (b".de X\nx\n..\n", b".it 1 X\na\n", b"", 5 * MEGABYTE),
    "input_traps_without_macros": (b"", b".it 1 X\na\n", b"", 5 * MEGABYTE),
    "input_traps_in_each_environment": (b".de X\n.br\n..\n", b".it 1 X\na\n.ev 1\n.it 2 X\n.it 1 X\nb\n.ev\n", b"", 5 * MEGABYTE),
    "input_traps_behind_interrupted_lines": (b".de X\nx\n..\n", b".it 1 X\na\\c\nb\n", b"", 5 * MEGABYTE),
    "input_trap_of_many_lines": (b".it 2147483647 X\n", b"a line\n", b"", 10 * MEGABYTE),
    "input_trap_that_sets_itself": (b".de X\n.it 1 X\nx\n..\n.it 1 X\n", b"a\n", b"", 100),
    "input_traps_that_set_each_other": (b".de X\n.it 1 Y\nx\n..\n.de Y\n.it 1 X\ny\n..\n.it 1 X\n", b"a\n", b"", 100),
    "input_traps_that_take_turns": (b".de X\n.it 1 Y\n..\n.de Y\n.it 1 X\nx\n..\n.it 1 X\n", b"a\n", b"", MEGABYTE),
    "macro_sprung": (b".de X\n", b"A line of a macro.\n", b"..\n.it 1 X\na\nb\n", MEGABYTE // 4),
    "macro_sprung_past_the_stack": (b".de X\n", b"A line of a macro.\n", b"..\n.it 1 X\na\nb\n", MEGABYTE // 2),
    "macro_sprung_and_removed_while_it_is_read": (b"", b".de X\n.rm X\nx\n..\n.it 1 X\na\n", b"", MEGABYTE),
    "macro_sprung_and_renamed_before": (b".de X\nx\n..\n", b".it 1 X\n.rn X Y\na\n.rn Y X\n", b"", MEGABYTE),
})
# As many traps as there may be, each at a line of its own, and all at one line: each by the name of a macro of its own.
TRAPS = [b"%c%c" % (first, second) for first in b"abcdefgh" for second in b"stuvwxyz"]
ON_EACH_LINE = b"".join(b".wh %d %s\n" % (line + 1, name) for line, name in enumerate(TRAPS))
ON_ONE_LINE = ON_EACH_LINE + b"".join(b".ch %s 5\n" % name for name in TRAPS)
# A macro of a hundred blank lines, and many traps far apart from each other.
BLANK_LINES = b".de B\n%s..\n" % (b"\n" * 100)
FAR_TRAPS = b".nr a 0 7\n" + b".wh \\n+a X\n" * 9_999 + b".wh 3 Y\n"
# Macros at the top of each page and near its end.
HEADER_AND_FOOTER = b".pl 9\n.de H\n'sp\n'tl 'left'- % -'right'\n'sp\n..\n.de F\n'bp\n..\n.wh 0 H\n.wh -2 F\n"
LONG.update({
    "headers_and_footers": (HEADER_AND_FOOTER, b"A line of text between headers and footers.\n", b"", 10 * MEGABYTE),
    "headers_and_footers_without_filling": (HEADER_AND_FOOTER + b".nf\n", b"a line\n", b"", 5 * MEGABYTE),
    "headers_and_footers_of_blank_lines": (HEADER_AND_FOOTER, b"\n", b"", MEGABYTE),
    "footers_between_words": (b".pl 3\n.ll 9n\n.de F\nfoot\n..\n.wh 1 F\n", b"a b c d e f g h i\n", b"", 5 * MEGABYTE),
    "footers_that_leave_a_word_open": (b".pl 3\n.ll 9n\n.de F\nfoot\\\\\n..\n.wh 1 F\n", b"a b c d e f g h i\n", b"", 5 * MEGABYTE),
    "footers_that_leave_a_name_open": (b".pl 3\n.ll 9n\n.de F\n\\\\n(\\\\\n..\n.wh 1 F\n", b"a b c d e f g h i\n", b"", 5 * MEGABYTE),
    "footers_that_space": (b".pl 9\n.nf\n.de F\n.sp 9\n..\n.wh 2 F\n", b"a line\n", b"", 5 * MEGABYTE),
    "footers_without_macros": (b".pl 3\n.nf\n.wh 0 H\n.wh 1 F\n", b"a line\n", b"", 10 * MEGABYTE),
    "footer_that_is_long": (b".pl 3\n.nf\n.wh 1 F\n.de F\n.ch F\n", b"A line of a macro.\n", b"..\na\nb\n", MEGABYTE // 4),
    "footer_that_is_too_long": (b".pl 3\n.nf\n.wh 1 F\n.de F\n", b"A line of a macro.\n", b"..\na\nb\n", MEGABYTE // 2),
    "top_macro_that_ejects": (b".pl 1\n.de T\n.bp\n..\n.wh 0 T\n", b"x\n", b"", 100),
    "top_macro_that_spaces": (b".pl 1\n.de T\n'sp\n..\n.wh 0 T\n", b"x\n", b"", 100),
    "top_macro_of_pages_of_one_line": (b".pl 1\n'nf\n.de T\n.nr x 1\n..\n.wh 0 T\n", b"a line\n", b"", 5 * MEGABYTE),
    "top_macro_that_exits": (b".pl 9\n.de T\n.ex\n..\n.wh 0 T\n", b"a line\n", b"", 50 * MEGABYTE),
    "top_macro_that_ignores": (b".pl 9\n.de T\n.ig\n..\n.wh 0 T\n", b"a line\n", b"", 10 * MEGABYTE),
    "titles_that_reach_the_next_trap": (
        b".pl 66\n.de as\n'tl 'a''b'\n..\n" + b"".join(b".wh %d as\n" % line for line in range(1, 65)), b".tl 'c''d'\n", b"", MEGABYTE // 4),
    "traps_on_each_line": (b".pl 66\n.nf\n" + ON_EACH_LINE, b"a line\n", b"", 5 * MEGABYTE),
    "traps_on_one_line": (b".pl 66\n.nf\n" + ON_ONE_LINE, b"a line\n", b"", 5 * MEGABYTE),
    "traps_on_each_blank_line": (b".pl 66\n" + ON_EACH_LINE + BLANK_LINES, b".B\n", b"", 60_000),
    "traps_that_lie_nowhere": (b".pl 1\n" + ON_EACH_LINE + BLANK_LINES, b".B\n", b"", 60_000),
    "traps_in_order": (b".nr a 0 7\n", b".wh \\n+a X\n", b"a\n", 12 * 10_000),
    "traps_in_no_order": (b".nr a 0\n", b".nr a \\na+30011%65521\n.wh \\na X\n", b"a\n", 33 * 10_000),
    "traps_moved_among_thousands": (FAR_TRAPS, b".ch Y 4\n.ch Y 70000\n", b"a\n", 300_000),
    "traps_planted_and_removed": (b"", b".wh 5 X\n.wh 5\n", b"a\n", 5 * MEGABYTE),
    "traps_planted_again": (ON_EACH_LINE, b".wh 64 X\n", b"a\n", 5 * MEGABYTE),
    "traps_moved": (ON_EACH_LINE, b".ch hz 9\n.ch hz 64\n", b"a\n", 5 * MEGABYTE),
    "traps_past_the_limit": (b".pl 999\n.nf\n", b".wh \\n(nlu+1v X\na\n", b"", 100_000),
    "traps_planted_by_each_that_springs": (b".pl 999\n.nf\n.de X\n.wh \\\\n(nlu+1v X\n..\n.wh 1 X\n", b"a line\n", b"", 5 * MEGABYTE),
    "ejects": (b".pl 9\n", b".bp\n", b"", 5 * MEGABYTE),
    "ejects_of_pages_with_text": (b".pl 9\n", b"a\n.bp\n", b"", 5 * MEGABYTE),
    "ejects_with_numbers": (b".pl 2\n", b".bp +1\n.bp 2147483647\n.bp -2147483647\n", b"", 5 * MEGABYTE),
    "ejects_out_of_range": (b".pl 1\n.bp 9\n", b".bp +2147483647\n", b"a\n", 12 + 17 * 9_000 + 2),
    "ejects_in_no_space_mode": (b".ns\n", b".bp\n", b"a\n", 5 * MEGABYTE),
    "ejects_over_many_traps": (
        b".pl 66\n" + b"".join(b".de %s\n..\n" % name for name in TRAPS) + ON_EACH_LINE, b".bp\n", b"", 400_000),
    "needs": (b".pl 9\n", b".ne 5\na\n.br\n", b"", 5 * MEGABYTE),
    "needs_farthest": (b"", b".ne 2147483647u\n", b"a\n", MEGABYTE),
    "needs_from_here": (b".pl 9\n", b".ne |9\na\n.br\n", b"", 5 * MEGABYTE),
    "no_space_mode": (b"", b".ns\n.sp\n.rs\n", b"a\n", 5 * MEGABYTE),
})
# Sixteen diversions, each within the one before; behind the innermost each is read in the one around it, and the last on the page.
SIXTEEN = [b"%c" % letter for letter in b"ABCDEFGHIJKLMNOP"]
WITHIN_EACH_OTHER = b".nf\n" + b"".join(b".di %s\n" % name for name in SIXTEEN)
READ_IN_EACH_OTHER = b"".join(b".di\n.%s\n.rm %s\n" % (name, name) for name in reversed(SIXTEEN))
# A page whose top macro reads what its footer had begun to divert, and one with notes that its footer reads.
DIVERTED_BY_FOOTERS = b".pl 9\n.nf\n.de F\n.di D\n..\n.de H\n.D\n.rm D\n..\n.wh 0 H\n.wh -3 F\n"
NOTES = b".pl 12\n.de F\n.ev 1\n.nf\n.FO\n.rm FO\n.ev\n'bp\n..\n.wh -7 F\n"
LONG.update({
    "diversion": (b".nf\n.di D\n", b"a line\n", b".di\n\\n(dn \\n(dl\n", 7 * MEGABYTE // 10),
    "diversion_past_the_store": (b".nf\n.di D\n", b"a line\n", b".di\n.D\n", 4 * MEGABYTE),
    "diversion_read_past_the_stack": (b".nf\n.di D\n", b"a line\n", b".di\n.D\n", 7 * MEGABYTE // 10),
    "diversion_read_in_a_loop": (b".nf\n.di D\n", b"a line\n", b".di\n" + 20 * b".D\n", 170_000),
    "diversion_read_while_filling": (b".di D\n", b"words of a line that is filled\n", b".br\n.di\n" + 20 * b".D\n", 170_000),
    "diversion_of_blank_lines": (b".di D\n", b"\n", b".di\n" + 5 * b".D\n", 240_000),
    "diversion_of_one_line": (b".di D\n", b"word", b"\n.br\n.di\n.D\n", 240_000),
    "diversion_left_open": (b".nf\n.di D\n", b"a line\n", b"", 7 * MEGABYTE // 10),
    "diversion_appended_to": (b"", b".da D\na line\n.br\n.da\n", b".D\n", 10 * MEGABYTE),
    "diversion_that_reads_itself": (b"'nf\n", b".di D\n.D\na\n.di\n", b"", 400_000),
    "diversion_doubled": (b"'nf\n.di D\na\n.di\n", b".da D\n.D\n.da\n", b"", 420),
    "diversions": (b"", b".di D\nA line of a paragraph.\n.br\n.di\n", b"", 5 * MEGABYTE),
    "diversions_that_are_read": (b"", b".di D\nA line of a paragraph.\n.br\n.di\n.D\n", b"", 5 * MEGABYTE),
    "diversions_without_lines": (b"", b".di D\n.di\n", b"a\n", 5 * MEGABYTE),
    "diversions_not_ended": (b"", b".di D\n", b"a\n", 6 * LINES),
    "diversions_ended_without_one": (b"", b".di\n.da\n", b"a\n", 5 * MEGABYTE),
    "diversions_in_each_environment": (b"", b".di D\n.ev 1\na\n.br\n.ev\n.di\n.D\n", b"", 5 * MEGABYTE),
    "diversions_within_each_other": (WITHIN_EACH_OTHER, b"a line\n", READ_IN_EACH_OTHER, 150_000),
    "diversions_one_in_another": (b".nf\n", b".di A\na\n.di B\nb\n.di\n.B\n.di\n.A\n", b"", 5 * MEGABYTE),
    "diversions_with_traps": (b".nf\n.de T\nt\n..\n", b".di D\n.dt 1 T\na\nb\n.di\n", b"", 5 * MEGABYTE),
    "diversions_with_traps_without_macros": (b".nf\n.di D\n", b".dt |1 xx\na\n", b".di\n", MEGABYTE),
    "diversions_ended_by_their_traps": (b".nf\n.de T\n.di\n..\n", b".di D\n.dt 1 T\na\n.D\n", b"", 5 * MEGABYTE),
    "diversions_of_titles": (b".di D\n", b".tl 'left'- % -'right'\n", b".di\n", MEGABYTE // 8),
    "diversions_that_footers_open": (DIVERTED_BY_FOOTERS, b"a line\na line\n.di\n", b"", 5 * MEGABYTE),
    "diversions_of_notes": (NOTES, b"A line of text.\n.br\n.da FO\n.ev 1\nnote\n.br\n.ev\n.da\n", b"", 5 * MEGABYTE),
})
# Documents for which fewer bytes are allowed. A call costs many times what a byte of text does, and in these there is one
# for each few bytes. Their time is bounded for each byte that is read, those of strings and macros too, and not by the
# document's length.
LESS_TO_READ = dict.fromkeys(("strings_of_strings", "macros_of_macros", "diversion_that_reads_itself"), ("--bytes=20000000",))
# Documents for which more traps are allowed.
MORE_TRAPS = dict.fromkeys(("traps_in_order", "traps_in_no_order", "traps_moved_among_thousands", "traps_of_fifty_thousand_lines"),
                           ("--traps=50000",))
# The limits that stop long documents; the others are read to their ends.
STOPPED_BY = {
    "text_of_a_motion": "stack",
    "argument": "stack",
    "argument_in_quotes": "stack",
    "arguments": "stack",
    "arguments_of_escapes": "stack",
    "backslashes_in_an_argument": "stack",
    "backslashes_in_a_motion": "stack",
    "parentheses_in_a_motion": "stack",
    "results_kept_past_the_limit": "conditions",
    "expression": "stack",
    "compared_texts": "stack",
    "backslashes_in_a_compared_text": "stack",
    "string": "store",
    "string_of_escapes": "store",
    "string_appended_to": "store",
    "string_doubled": "stack",
    "string_that_calls_itself": "depth",
    "strings_that_call_each_other": "depth",
    "string_name": "stack",
    "string_name_of_quotes": "stack",
    "strings_of_strings": "bytes",
    "names_of_many_strings": "names",
    "macro": "store",
    "macro_of_one_line": "store",
    "macro_not_ended": "store",
    "macro_appended_to": "store",
    "macro_that_calls_itself": "depth",
    "macros_that_call_each_other": "depth",
    "macros_of_macros": "bytes",
    "macro_that_redefines_itself_and_calls_itself": "depth",
    "names_of_many_macros": "names",
    "last_macro": "store",
    "last_macro_past_the_stack": "stack",
    "last_macro_that_calls_itself": "depth",
    "last_macro_that_calls_another": "depth",
    "last_macro_of_many_names": "stack",
    "argument_of_a_call": "stack",
    "arguments_handed_on": "stack",
    "environments_left_past_the_limit": "environments",
    "tab_stops_past_the_stack": "stack",
    "tabs_past_the_line": "line",
    "field_past_the_line": "line",
    "lines_interrupted_past_the_line": "line",
    "input_trap_that_sets_itself": "depth",
    "input_traps_that_set_each_other": "depth",
    "macro_sprung_past_the_stack": "stack",
    "footer_that_is_too_long": "stack",
    "top_macro_that_ejects": "depth",
    "top_macro_that_spaces": "depth",
    "traps_past_the_limit": "traps",
    "traps_planted_by_each_that_springs": "traps",
    "diversion_past_the_store": "store",
    "diversion_read_past_the_stack": "stack",
    "diversion_appended_to": "store",
    "diversion_that_reads_itself": "bytes",
    "diversion_doubled": "stack",
    "diversions_not_ended": "diversions",
}
# What long documents begin with, where the program's answer is short to say.
BEGINS = {
    "fields_in_lines": b"      a b         c       d\n" * 2,
    "fields_that_finish_lines": b"aaaa\nbbb      cc\n     dd\n" * 2,
    "fields_broken": b"        a\n" * 5,
    "environments_left": b"",
    "environments_left_and_gone_back_to": b"ab cd\n",
    "environments_back_from_nowhere": b"",
    "lines_centred": b" " * 29 + b"a line\n" + b" " * 29 + b"a line\n",
    "lines_centred_one_by_one": b" " * 29 + b"a line\n" + b" " * 29 + b"a line\n",
    "line_centred_of_many_words": b"a word a word ",
    "temporary_indents": b" " * 9 + b"x\n" + b" " * 9 + b"x\n",
    "temporary_indents_without_lines": b" " * 9 + b"x\n",
    "lines_spaced": (b"x" + b"\n" * 9) * 2,
    "spacings_without_lines": b"x\n",
    "pages_of_one_line_without_filling": b"a line\n" * 5,
    "page_lengths": b"a" + b"\n" * 10,
    "page_lengths_below_the_place": b"a\nb\na\na\n",
    "page_lengths_without_text": b"a" + b"\n" * 66,
    "page_lengths_too_small": b"a" + b"\n" * 66,
    "page_that_grows": b"a\n" * 100,
    "spaces_farthest": b"\n" * 660,
    "spaces_down": b"\n" * 9 + 5 * (b"a" + b"\n" * 9),
    "spacings_farthest": b"a" + b"\n" * 66 + b"a",
    "tab_stops": b"a" + b" " * 8 + b"b\n",
    "tab_stops_that_count_from_others": b"a" + b" " * 8 + b"b\n",
    "tab_stops_set_again": b"a    b\n",
    "tabs": b"a" + b" " * 79_999 + b"b\n",
    "tabs_in_lines": b" " * 8 + b"x\n" + b" " * 8 + b"x\n",
    "tabs_without_stops": b"ab\n",
    "tabs_with_many_stops": b" " * 10 + b"x\n" + b" " * 10 + b"x\n",
    "motions_to_places": b"ab\n",
    "lines_interrupted": b"a" * 250_000 + b"\n",
    "lines_interrupted_from_nothing": b"x\n",
    "lines_interrupted_behind_blanks": b" " * 249_999 + b"x\n",
    "lines_interrupted_in_each_environment": b"a" * 31_250 + b"\n",
    "rest_of_an_interrupted_line": b"ab\n",
    "last_macro_that_is_read": b"A line of the last macro.",
    "last_macro_that_sets_itself": b"a line a line ",
    "last_macro_of_many_environments": b"a a a a ",
    "last_macro_of_blocks": b"end\n",
    "last_macro_that_exits": b"a line end\n",
    "last_macro_set_often": b"a line end\n",
    "last_macro_set_to_many_names": b"a line\n",
    "last_macro_behind_a_skipped_block": b"end\n",
    "last_macro_behind_a_definition": b"end\n",
    "last_macro_behind_an_interrupted_line": b"a" * 599_000,
    "exit_within_blocks": b"a line\n",
    "exit_within_conditions": b"a line\n",
    "exit_within_calls": b"a line a line ",
    "exit_within_strings": b"a line a line ",
    "exit_before_a_long_input": b"a line\n",
    "input_traps_set": b"x\n",
    "input_traps_that_spring": b"a x a x ",
    "input_traps_without_macros": b"a a a ",
    "input_traps_in_each_environment": b"a\nb\na\nb\n",
    "input_traps_behind_interrupted_lines": b"ab x ab x ",
    "input_trap_of_many_lines": b"a line a line ",
    "input_traps_that_take_turns": b"a a x a x a x ",
    "macro_sprung": b"a A line of a macro.",
    "macro_sprung_and_removed_while_it_is_read": b"a x a x ",
    "macro_sprung_and_renamed_before": b"a a a ",
    "headers_and_footers": b"\nleft" + b" " * 26 + b"- 1 -" + b" " * 25 + b"right\n\nA ",
    "headers_and_footers_of_blank_lines": b"\nleft",
    "footers_between_words": b"a b c d e\nf foot  g\nh i a b c\nd e f g h\n",
    "footers_that_space": b"a line\na line" + b"\n" * 8 + b"a line\na line\n",
    "footer_that_is_long": b"a\nA line of a macro.\nA line of a macro.\n",
    "top_macro_that_ejects": b"\n" * 199,
    "top_macro_of_pages_of_one_line": b"a line\n" * 5,
    "top_macro_that_exits": b"",
    "top_macro_that_ignores": b"",
    "titles_that_reach_the_next_trap": b"c",
    "traps_planted_and_removed": b"a\n",
    "traps_planted_by_each_that_springs": 64 * b"a line\n",
    "ejects": b"\n" * 99,
    "ejects_of_pages_with_text": (b"a" + b"\n" * 9) * 9,
    "ejects_out_of_range": b"\na\n",
    "ejects_in_no_space_mode": b"a\n",
    "ejects_over_many_traps": b"\n" * 660,
    "needs": b"a\n" * 5 + b"\n" * 4 + b"a\n" * 5,
    "needs_farthest": b"\n" * 66,
    "no_space_mode": b"a\n",
    "diversion": b"3999840 144\n",
    "diversion_read_in_a_loop": b"a line\n" * 9,
    "diversion_read_while_filling": b"words of",
    "diversion_of_blank_lines": b"\n" * 99,
    "diversion_left_open": b"",
    "diversions_that_are_read": b"A line of a paragraph.",
    "diversions_ended_without_one": b"a\n",
    "diversions_within_each_other": b"a line\n" * 9,
    "diversions_one_in_another": b"a\nb\n" * 9,
    "diversions_ended_by_their_traps": b"a\n" * 9,
}

# Long documents with tables: what stands in front, what is repeated, what stands behind, the bytes of it all, the options,
# the limit that stops it, or none (or that of each command), and what `tbl` writes first.
# A table that passes has a long line, which stops `both`.
LONG_LINE = {"tbl": None, "both": "line"}
PICTURE = b".TS\n.nr TF \\n(.u\n.nf\n"
OF_ONE_CELL = PICTURE + b"\\&a\n.if \\n(TF .fi\n.TE\n"
TABLES = {
    "tables_of_one_cell": (b"", b".TS\nl.\na\n.TE\n", b"", 13 * 100_000, (), None, 2 * OF_ONE_CELL),
    "tables_of_one_option": (b"", b".TS\nx;l.\n.TE\n", b"", 13 * 100_000, (), None, PICTURE + b".if"),
    "tables_that_pass": (b"", b".TS\nbox;\nlq.\na\n.TE\n", b"", 19 * 100_000, (), None, 2 * b".TS\nbox;\nlq.\na\n.TE\n"),
    "tables_that_never_begin": (b"", b".T", b"\n", 10 * MEGABYTE, (), None, b".T.T"),
    "table_of_many_rows": (b".TS\nl l.\n", b"a\tb\n", b".TE\n", 8 * MEGABYTE, (), "rows", b".TS\n"),
    "table_of_many_empty_rows": (b".TS\nl l.\n", b"\n", b".TE\n", 2 * MEGABYTE, (), "rows", b".TS\n"),
    "table_of_many_fields": (
        b".TS\n" + b"l" * 40 + b".\n", 39 * b"\t" + b"\n", b".TE\n", 40 * 4949, (), None, PICTURE + 9 * b"\\&\n"),
    "table_of_bars": (
        b".TS\ndoublebox;" + 40 * b"l||" + b".\n", 39 * b"\t" + b"\n", b".TE\n", 40 * 4949, (), None, PICTURE + b"\\&++=" + 9 * b"=++="),
    "table_of_bars_and_rules": (
        b".TS\n||" + 40 * b"l||" + b".\n", 39 * b"_\t" + b"_\n_\n", b".TE\n", 82 * 2440, (), None, PICTURE + b"\\&|| " + 9 * b"-++-"),
    "table_of_wide_rows": (
        b".TS\nr.\n%s\n" % (4096 * b"x"), b"a\n", b".TE\n", 4108 + 2 * 4999, (), None, PICTURE + b"\\&xxx"),
    "table_of_surplus_fields": (b".TS\nl.\na", b"\tx", b"\n.TE\n", 262_144, (), None, PICTURE + b"\\&a\n"),
    "table_of_surplus_in_each_row": (b".TS\nl.\n", b"a\tx\n", b".TE\n", 4 * 4999, (), None, PICTURE + b"\\&a\n"),
    "table_without_an_end": (
        b".TS\nl.\n", b"A row of a table that has no end, and is so long.\n", b"", 10 * MEGABYTE, (), "rows", b".TS\n"),
    "table_without_an_end_of_long_rows": (b".TS\nl.\n", 16 * b"long " + b"\n", b"", 10 * MEGABYTE, (), "text", b".TS\n"),
    "table_without_an_end_that_passes": (b".TS\nlq.\n", b"A row.\n", b"", 10 * MEGABYTE, (), "text", b".TS\n"),
    "table_that_ends_nearly": (b".TS\nl.\n", b".TE.TE", b"\n", 10 * MEGABYTE, (), "text", b".TS\n"),
    "field": (b".TS\nl.\n", b"x", b"\n.TE\n", 10 * MEGABYTE, (), "text", b".TS\n"),
    "field_of_width": (b".TS\nl.\n", b"x", b"\n.TE\n", 262_144, (), "width", b".TS\n"),
    "field_that_prints_nothing": (b".TS\nl.\n", b"\x01", b"\n.TE\n", 262_144, (), None, PICTURE + b"\\&\n"),
    "field_of_blanks": (b".TS\nl.\n", b" ", b"\n.TE\n", 4_096, (), None, PICTURE + b"\\&\n"),
    "field_of_joined_lines": (b".TS\nl.\n", b"\\\n", b"\n.TE\n", 262_144, (), None, PICTURE + b"\\&\n"),
    "field_of_joined_lines_without_an_end": (b".TS\nl.\n", b"x\\\n", b"", 10 * MEGABYTE, (), "text", b".TS\n"),
    "options": (b".TS\n", b"abc ", b";\nl.\na\n.TE\n", 4_000, (), None, OF_ONE_CELL),
    "options_past_the_text": (b".TS\n", b"abc ", b";\nl.\na\n.TE\n", 10 * MEGABYTE, (), "text", b".TS\n"),
    "options_that_set": (b".TS\n", b"tab(:)\t", b";\nl.\na\n.TE\n", 8_000, (), None, OF_ONE_CELL),
    "option_with_brackets": (b".TS\nlinesize(", b"(;", b");\nl.\na\n.TE\n", 262_144, (), None, OF_ONE_CELL),
    "columns": (b".TS\n;", b"l ", b".\n.TE\n", 2_000, (), "columns", b".TS\n"),
    "columns_on_a_first_line": (b".TS\n", b"l ", b".\n.TE\n", 2_000, (), "columns", b".TS\n"),
    "columns_enough": (b".TS\n", b"l ", b".\na\n.TE\n", 2_000, ("--columns=1000",), None, OF_ONE_CELL),
    "rows_of_a_format": (b".TS\n", b"l,", b"l.\na\n.TE\n", 262_144, (), None, OF_ONE_CELL),
    "rows_of_a_format_without_keys": (b".TS\n", b",\n", b"l.\na\n.TE\n", 262_144, (), None, OF_ONE_CELL),
    "rows_of_bars_of_a_format": (b".TS\n", b"||l||,", b"l.\na\n.TE\n", 262_144, (), None, PICTURE + b"\\&|| a ||\n.if"),
    "number": (b".TS\nl", b"9", b"l.\na\n.TE\n", 262_144, (), "width", b".TS\n"),
    "numbers": (b".TS\nl", b"3 ", b"l.\na\n.TE\n", 262_144, (), None, OF_ONE_CELL),
    "format_without_an_end": (b".TS\nl", b" \n", b"", 10 * MEGABYTE, (), "text", b".TS\n"),
    "letters_of_a_format": (b".TS\nl", b"b itud e ", b".\na\n.TE\n", 260_000, (), None, OF_ONE_CELL),
    "letters_left_out_of_a_format": (b".TS\nl", b"x", b".\na\n.TE\n", 260_000, (), None, OF_ONE_CELL),
    "fonts_of_a_format": (b".TS\nl", b"fBf(CW)", b".\na\n.TE\n", 260_000, (), None, OF_ONE_CELL),
    "font_of_a_format": (b".TS\nlf(", b"lx.", b").\na\n.TE\n", 260_000, (), None, OF_ONE_CELL),
    "size_of_a_format": (b".TS\nlp", b"9", b".\na\n.TE\n", 260_000, (), None, OF_ONE_CELL),
    "widths_of_a_format": (b".TS\nl", b"w(2n+1)w9 ", b".\na\n.TE\n", 260_000, (), None, OF_ONE_CELL),
    "width_of_a_format": (b".TS\nlw", b"9", b".\na\n.TE\n", 100_000, (), LONG_LINE, b".TS\nlw999"),
    "width_of_noughts": (b".TS\nlw", b"0", b"5.\na\n.TE\n", 100_000, (), None, OF_ONE_CELL),
    "width_of_operands": (b".TS\nlw(1", b"+1-1", b").\na\n.TE\n", 260_000, (), None, OF_ONE_CELL),
    "width_in_brackets": (b".TS\nlw", b"(", b"5).\na\n.TE\n", 100_000, (), LONG_LINE, b".TS\nlw((("),
    "width_in_brackets_without_an_end": (b".TS\nlw(", b"(5)+", b".\na\n.TE\n", 260_000, (), LONG_LINE, b".TS\nlw((5)+"),
    "field_of_escapes": (b".TS\nl.\n", rb"\&", b"\n.TE\n", 200_020, (), None, PICTURE + b"\\&" + 9 * rb"\&"),
    "field_of_fonts": (b".TS\nl.\n", rb"\fB", b"\n.TE\n", 262_000, (), None, PICTURE + b"\\&\n"),
    "field_of_characters": (b".TS\nl.\n", rb"\(zz", b"a\n.TE\n", 262_000, (), None, PICTURE + b"\\&" + 9 * rb"\(zz"),
    "field_of_widths": (b".TS\nl.\n", rb"\w'", b"\n.TE\n", 30_000, (), None, PICTURE + b"\\&" + 9 * rb"\w'"),
    "field_of_widths_and_motions": (b".TS\nl.\n", rb"\wa\h" + b'"', b"\n.TE\n", 60_000, (), None, PICTURE + rb"\&\wa\h" + b'"'),
    "field_of_a_name": (b".TS\nl.\n\\f(", rb"\*x", b"\n.TE\n", 262_000, (), None, PICTURE + b"\\&\n"),
    "field_of_names_in_names": (b".TS\nl.\n", rb"\n\*", b"\n.TE\n", 262_000, (), None, PICTURE + b"\\&" + 9 * rb"\n\*"),
    "field_of_names_in_brackets": (b".TS\nl.\n", rb"\n(\*(", b"\n.TE\n", 262_000, (), None, PICTURE + b"\\&" + 9 * rb"\n(\*("),
    "field_of_backslashes": (b".TS\nl.\n", b"\\\\", b"a\n.TE\n", 4_096, (), None, PICTURE + b"\\&" + 99 * b"\\"),
    "field_of_dots_and_digits": (b".TS\nn.\n", b"1.", b"\n.TE\n", 4_000, (), None, PICTURE + b"\\&1.1."),
    "fields_under_all_keys": (
        b".TS\nl r c n a.\n", b"a\t\\fBb\\fR\t\\(em\t1.5\tc d\n", b".TE\n", 23 * 4_950, (), None, PICTURE + b"\\&a"),
    "block_of_short_words": (b".TS\nlw(9).\nT{\n", b"a ", b"\nT}\n.TE\n", 250_000, (), None, PICTURE + 9 * b"\\&a a a a a\n"),
    "block_of_short_lines": (b".TS\nlw(9).\nT{\n", b"a\n", b"T}\n.TE\n", 250_000, (), None, PICTURE + 9 * b"\\&a a a a a\n"),
    "block_of_empty_lines": (b".TS\nlw(9).\nT{\n", b"\n", b"T}\n.TE\n", 250_000, (), None, PICTURE + 9 * b"\\&\n"),
    "block_of_words_on_one_line": (b".TS\nlw(4000).\nT{\n", b"ab \n", b"T}\n.TE\n", 250_000, (), None, PICTURE + b"\\&ab ab"),
    "block_of_a_word": (b".TS\nlw(9).\nT{\n", b"a", b"\nT}\n.TE\n", 250_000, (), "width", b".TS\n"),
    "block_of_a_word_without_width": (
        b".TS\nlw(9).\nT{\n", rb"\&", b"\nT}\n.TE\n", 250_000, (), None, PICTURE + b"\\&" + 9 * rb"\&"),
    "block_of_blanks": (b".TS\nlw(9).\nT{\nb", b" ", b"a\nT}\n.TE\n", 250_000, (), None, PICTURE + b"\\&b\n\\&a\n"),
    "block_of_runs_that_print_nothing": (b".TS\nlw(9).\nT{\n", rb"\fB ", b"a\nT}\n.TE\n", 4_000, (), None, PICTURE + b"\\& "),
    "blocks_in_one_row": (
        b".TS\n" + 40 * b"lw(3)" + b".\n", b"T{\na b c\nd e f\nT}\t", b"x\n.TE\n", 20 * 38 + 220, (), None, PICTURE + b"\\&a b   a b"),
    "blocks_behind_the_columns": (b".TS\nl.\na\t", b"T{\nb\nT}\t", b"x\n.TE\n", 250_000, (), None, PICTURE + b"\\&a\n"),
    "block_in_each_cell": (
        b".TS\nlw(3) lw(3).\n", b"T{\na b c\nT}\tT{\nd\nT}\n", b".TE\n", 20 * 4_950, (), None, PICTURE + b"\\&a b   d\n\\&c\n"),
    "block_that_never_ends": (b".TS\nl.\nT{\n", b"words of a block\n", b"", 10 * MEGABYTE, (), "text", b".TS\n"),
    "further_formats": (b".TS\nl.\n", b".T&\nl.\na\n", b".TE\n", 9 * 4_999, (), None, PICTURE + 9 * b"\\&a\n"),
    "further_formats_without_rows": (b".TS\nl.\n", b".T&\nl\nr.\n", b"a\n.TE\n", 260_000, (), None, OF_ONE_CELL),
    "commands": (b".TS\nl.\n", b".x\n", b".TE\n", 3 * 4_999, (), None, PICTURE + 9 * b".x\n"),
    "rule_rows_of_a_format": (b".TS\n", b"_\n", b"l.\na\n.TE\n", 262_000, (), None, PICTURE + 9 * b"\\&-\n"),
    "rule_rows_of_a_format_without_rows": (b".TS\n", b"_\n", b"l.\n.TE\n", 262_000, (), None, PICTURE + b".if"),
    "rule_rows_behind_commas": (b".TS\n;", b"_|=,", b"l.\na\n.TE\n", 262_000, (), None, PICTURE + 9 * b"\\&---=\n"),
    "rule_keys_and_rows_without_bytes": (b".TS\n" + 40 * b"_|" + b".\n", b"\n", b".TE\n", 88 + 4_999, (), None, PICTURE + b"\\&" + 9 * b"-+-"),
    "rule_key_and_a_field": (b".TS\n_.\n", rb"\nx", b"\n.TE\n", 250_000, (), None, PICTURE + b"\\&\n.if"),
    "rule_key_and_a_block": (b".TS\n_ l.\nT{\n", rb"\w'a" + b"\n", b"T}\ta\n.TE\n", 250_000, (), None, PICTURE + b"\\&   a\n"),
    "rule_key_and_blocks": (b".TS\n_ l.\n", b"T{\nb\nT}\ta\n", b".TE\n", 10 * 4_990, (), None, PICTURE + 9 * b"\\&   a\n"),
    "columns_of_spans": (b".TS\n;l", b"s", b".\n.TE\n", 2_000, (), "columns", b".TS\n"),
    "columns_of_spans_enough": (
        b".TS\nl", b"s", b".\na\n.TE\n", 2_000, ("--columns=2000", "--width=9000"), None,
        OF_ONE_CELL),
    "rows_of_spans_of_a_format": (b".TS\n", b"lsss,", b"l.\na\n.TE\n", 262_000, (), None, OF_ONE_CELL),
    "spans_that_pass_the_width": (
        b".TS\nlw(4096)" + 39 * b"sw(4096)" + b".\n", b"a\n", b".TE\n", 2 * 4_999, (), "width",
        b".TS\n"),
    "span_and_surplus_fields": (
        b".TS\nl" + 39 * b"s" + b".\na", b"\tx", b"\n.TE\n", 262_000, (), None, PICTURE + b"\&a\n"),
    "spans_and_surplus_in_each_row": (
        b".TS\nl" + 39 * b"s" + b".\n", b"a\tx\n", b".TE\n", 4 * 4_990, (), None,
        PICTURE + 9 * b"\&a\n"),
    "rest_of_an_end": (b".TS\nl.\na\n.TE ", b".TS ", b"\n", 10 * MEGABYTE, (), None, OF_ONE_CELL[:-1] + b" .TS .TS"),
}
# Tables that tell much: what stands in front, what is repeated, what stands behind, how often, whether each repetition ends
# a line of the input, and what each tells.
NOTES = 65_000
TOLD_IN_ORDER = {
    "notes_of_one_field": (b".TS\nl.\n", rb"\nx", b"\n.TE\n", NOTES, False, rb"not measured: \n"),
    "notes_of_joined_lines": (b".TS\nl.\n", b"\\c\\\n", b"\n.TE\n", NOTES, True, rb"not measured: \c"),
    "notes_of_a_format": (b".TS\nl", b"x ", b".\na\n.TE\n", NOTES, False, b"left out: x"),
    "notes_of_a_block": (b".TS\nl.\nT{\n", b".x\n", b"T}\n.TE\n", NOTES, True, b"request in text block"),
    "notes_of_a_block_under_a_rule_key": (b".TS\n_ l.\nT{\n", b".x\n", b"\\c\nT}\n.TE\n", NOTES, True, b"request in text block"),
    "notes_of_a_block_of_joined_lines": (b".TS\nl.\nT{\n", b"\\c\\\n", b"\nT}\n.TE\n", NOTES, True, rb"not measured: \c"),
    "notes_of_options": (b".TS\n", b"abc ", b";l.\na\n.TE\n", NOTES, False, b"option ignored: abc"),
}
# Tables of which four times as many repetitions may take 4.5 times as long: what stands in front, what is repeated, what stands
# behind, and how often. The two are formatted in turns, so often at least, and on until the quickest of both are as wanted.
WIDEST = 4_096
FILLING = b".TS\nbox;\nl.\n%s\n"
# Rows of rule keys of up to 40 columns: of each length, each a key longer or shorter than the one before; without bars, and with
# two behind each key. What stands behind them has bars at each boundary, or none.
LENGTHS = [7 * number % 41 for number in range(1, 41)]
RISING_AND_FALLING = [*range(1, 41), *range(39, 1, -1)]
BELOW, BELOW_AND_BARRED = 40 * b"l" + b".\na\n.TE\n", b"||" + 40 * b"l||" + b".\na\n.TE\n"


def rule_rows(lengths, key):
    """Rows of so many of this key each."""
    return b"".join(length * key + b"\n" for length in lengths)


# A cell over 40 columns; cells that begin in the first column and end in each of the others, and
# cells that begin in each and end in the last one.
SPAN = b"l" + 39 * b"s"
FROM_THE_FIRST = [b"l" + further * b"s" + (39 - further) * b"l" for further in range(1, 40)]
UP_TO_THE_LAST = [(40 - further) * b"l" + further * b"s" for further in range(1, 40)]


def wider_and_wider(rows):
    """A further format of these rows of keys, and rows of the data with one text more that is so
    wide that each column grows."""
    fields = b"".join((row.index(b"s") - 1) * b"a\t" + 10 * (row.count(b"s") + 1) * b"x" + b"\n"
                      for row in rows)
    return b".T&\n" + b"\n".join(rows) + b".\n" + fields


GROWING = {
    "rule_lines": (b".TS\nl l.\na\tb\n", b"_\n", b".TE\n", 5_000),
    "rule_lines_over_bars": (b".TS\ndoublebox;\n" + 39 * b"l||" + b"l.\na\n", b"=\n", b".TE\n", 5_000),
    "rule_lines_with_rows_of_bars_between": (b".TS\n||" + 40 * b"l||" + b".\n", b"_\n" + 39 * b"\t" + b"\n", b".TE\n", 5_000),
    "rule_lines_that_fill_the_width": (FILLING % ((WIDEST - 4) * b"x"), b"_\n", b".TE\n", 1_000),
    "rule_rows": (b".TS\n", b"_ =\n", b"l l.\na\tb\n.TE\n", 5_000),
    "rule_rows_over_all_columns": (b".TS\n", rule_rows([40], b"_"), BELOW, 5_000),
    "rule_rows_and_bars": (b".TS\n", rule_rows([40], b"_||"), BELOW_AND_BARRED, 5_000),
    "rule_rows_that_take_turns": (b".TS\n", rule_rows([20], b"_|="), BELOW_AND_BARRED, 5_000),
    "rule_rows_of_each_length": (b".TS\n", rule_rows(LENGTHS, b"_"), BELOW, 125),
    "rule_rows_of_each_length_and_bars": (b".TS\n", rule_rows(LENGTHS, b"_||"), BELOW_AND_BARRED, 125),
    "rule_rows_of_each_length_below_bars": (
        b".TS\n" + 40 * b"l||" + b"\n", rule_rows(LENGTHS, b"="), b"l.\na\n" + b"b\n.TE\n", 125),
    "rule_rows_that_rise_and_fall": (b".TS\n", rule_rows(RISING_AND_FALLING, b"_"), BELOW, 64),
    "rule_rows_that_rise_and_fall_over_bars": (b".TS\n", rule_rows(RISING_AND_FALLING, b"_"), BELOW_AND_BARRED, 64),
    "rule_rows_that_rise_and_fall_with_bars": (b".TS\n", rule_rows(RISING_AND_FALLING, b"-||"), BELOW_AND_BARRED, 64),
    "rule_rows_in_an_allbox": (b".TS\nallbox;\n", b"_\n", BELOW, 5_000),
    "rule_rows_that_let_bars_through": (b".TS\n" + 40 * b"l||" + b"\n", b"_\n", 40 * b"l||" + b".\na\nb\n.TE\n", 5_000),
    "rule_rows_over_bars": (b".TS\n", b"_\n", BELOW_AND_BARRED, 5_000),
    "rule_rows_before_each_row": (b".TS\n" + 40 * b"l|" + b".\na\n", b".T&\n_\n==\n" + 40 * b"l|" + b".\na\n", b".TE\n", 5_000),
    "rule_rows_before_no_row": (b".TS\n", rule_rows(LENGTHS, b"_||"), b"l.\n.TE\n", 125),
    "rule_rows_that_fill_the_width": (b".TS\n", b"_ =\n", b"l%d l.\na\tb\n.TE\n" % (WIDEST - 2), 1_000),
    "rule_keys": (b".TS\n" + 10 * b"l_=-" + b".\n", 39 * b"\t" + b"\n", b".TE\n", 5_000),
    "rule_keys_and_bars": (b".TS\n" + 10 * b"l|_||=|-" + b".\n", 39 * b"a\t" + b"a\n", b".TE\n", 2_500),
    "rule_keys_of_short_rows": (b".TS\n" + 40 * b"_" + b".\n", b"a\n", b".TE\n", 5_000),
    "rule_keys_of_short_rows_and_bars": (b".TS\n" + 40 * b"_||" + b".\n", b"a\n", b".TE\n", 5_000),
    "rule_keys_of_rows_that_serve_no_row": (b".TS\n", 10 * b"l_=-" + b"\n", b"l.\na\n.TE\n", 5_000),
    "rule_keys_of_rows_of_the_format": (
        b".TS\n", b"".join(b"l" + length * b"_" + b"\n" for length in LENGTHS if length < 40), BELOW, 125),
    "rules_of_fields": (b".TS\n" + 40 * b"l" + b".\n", 39 * b"_\t" + b"_\n", b".TE\n", 2_500),
    "rules_of_fields_that_take_turns": (b".TS\n" + 40 * b"l|" + b".\n", 19 * b"_\t=\t" + b"_\t\\_\n", b".TE\n", 2_500),
    "spans": (b".TS\n" + SPAN + b".\n", b"a\n", b".TE\n", 5_000),
    "spans_without_fields": (b".TS\n" + SPAN + b".\n", b"\n", b".TE\n", 5_000),
    "spans_in_an_allbox": (b".TS\nallbox;\n" + SPAN + b".\n", b"a\n", b".TE\n", 5_000),
    "spans_of_bars": (b".TS\n||l||" + 39 * b"s||" + b".\n", b"a\n", b".TE\n", 5_000),
    "spans_of_short_rows": (b".TS\n" + 40 * b"l" + b"\nls.\n", b"a\n", b".TE\n", 5_000),
    "spans_beside_each_other": (
        b".TS\n" + 20 * b"ls" + b".\n", 19 * b"wide\t" + b"wide\n", b".TE\n", 2_500),
    "spans_with_bars_between": (
        b".TS\n" + 20 * b"l|s||" + b".\n", 19 * b"wide\t" + b"wide\n", b".TE\n", 2_500),
    "spans_with_numbers_beside": (
        b".TS\n" + 10 * b"nsan" + b".\n", 29 * b"1.5\t" + b"22\n", b".TE\n", 2_500),
    "spans_expanded": (
        b".TS\nexpand;\n" + 20 * b"ls" + b".\n", 19 * b"a\t" + b"a\n", b".TE\n", 2_500),
    "spans_that_take_turns": (
        b".TS\n" + 40 * b"l" + b".\n",
        b".T&\n" + 20 * b"ls" + b"\nl" + 19 * b"ls" + b"l.\n"
        + 19 * b"wider than it\t" + b"a\na" + 19 * b"\twider than it" + b"\n", b".TE\n", 625),
    "spans_over_spans": (
        b".TS\n" + 40 * b"l" + b".\n", wider_and_wider(FROM_THE_FIRST), b".TE\n", 64),
    "spans_over_spans_up_to_the_last_column": (
        b".TS\n" + 40 * b"l" + b".\n", wider_and_wider(UP_TO_THE_LAST), b".TE\n", 64),
    "spans_of_rows_that_serve_no_row": (b".TS\n", SPAN + b"\n", b"l.\na\n.TE\n", 5_000),
    "spans_of_rows_of_the_format": (
        b".TS\n", b"\n".join(FROM_THE_FIRST + UP_TO_THE_LAST) + b"\n", BELOW, 64),
    "spans_of_further_formats": (
        b".TS\n" + 40 * b"l" + b".\n", b".T&\n" + SPAN + b".\na\n", b".TE\n", 2_500),
    "spans_of_blocks": (
        b".TS\nlw(2)" + 39 * b"sw(2)" + b".\n", b"T{\na b c\nT}\n", b".TE\n", 5_000),
    "spans_of_blocks_without_widths": (
        b".TS\n" + 20 * b"ls" + b".\n", 19 * b"T{\na b\nT}\t" + b"c\n", b".TE\n", 1_000),
    "span_of_a_long_block": (
        b".TS\nlw(2)" + 39 * b"sw(2)" + b".\nT{\n", b"words ", b"\nT}\n.TE\n", 40_000),
    "span_of_a_title": (
        b".TS\nc" + 39 * b"s" + b"\n" + 40 * b"l" + b".\n" + 400 * b"x" + b"\n",
        39 * b"a\t" + b"a\n", b".TE\n", 2_500),
    "span_of_a_title_between": (
        b".TS\n" + 40 * b"l" + b".\n",
        39 * b"a\t" + b"a\n.T&\nc" + 39 * b"s" + b"\n" + 40 * b"l" + b".\n" + 200 * b"x" + b"\n",
        b".TE\n", 1_250),
    "spans_of_wide_columns": (
        b".TS\nlw(4096)" + 39 * b"sw(4096)" + b".\n", b"a\n", b".TE\n", 5_000),
    "spans_of_blocks_over_wide_columns": (
        b".TS\nlw(4096)" + 39 * b"sw(4096)" + b".\n", b"T{\na b c\nT}\n", b".TE\n", 5_000),
    "rules_of_spans": (
        b".TS\n" + 20 * b"ls" + b".\n", 19 * b"_\t" + b"_\n", b".TE\n", 2_500),
    "rules_of_spans_that_take_turns": (
        b".TS\n" + 20 * b"l|s||" + b".\n", 9 * b"_\t=\t" + b"\\Rx\t\\_\n", b".TE\n", 2_500),
    "rule_keys_of_spans": (b".TS\n" + 20 * b"_s" + b".\n", b"\n", b".TE\n", 5_000),
    "rule_lines_below_a_span": (
        b".TS\nallbox;\n" + SPAN + b".\na\n", b"_\n", b".TE\n", 5_000),
    "rule_lines_between_spans": (
        b".TS\nallbox;\n" + 20 * b"ls" + b".\n", 19 * b"a\t" + b"a\n_\n", b".TE\n", 2_500),
    "rule_rows_between_spans": (
        b".TS\nallbox;\n" + SPAN + b".\na\n", b".T&\n" + 40 * b"_" + b"\n" + SPAN + b".\na\n",
        b".TE\n", 2_500),
    "tall_cell": (b".TS\nl l\n^ l.\na\tb\n", b"\tb\n", b".TE\n", 5_000),
    "tall_cells": (b".TS\n" + 40 * b"l" + b"\n" + 40 * b"^" + b".\n" + 39 * b"a\t" + b"a\n", b"\n", b".TE\n", 2_500),
    "tall_cells_at_the_bottom": (
        b".TS\nallbox;\n" + 40 * b"ld" + b"\n" + 40 * b"^" + b".\n" + 39 * b"a\t" + b"a\n", b"\n", b".TE\n", 2_500),
    "tall_cells_that_take_turns": (
        b".TS\n" + 40 * b"l" + b".\n", 19 * b"a\t\\^\t" + b"a\t\\^\n" + 19 * b"\\^\ta\t" + b"\\^\ta\n", b".TE\n", 625),
    "tall_cells_of_two_rows": (
        b".TS\n" + 40 * b"l|" + b".\n", 39 * b"a\t" + b"a\n" + 39 * b"\\^\t" + b"\\^\n", b".TE\n", 1_250),
    "tall_cells_of_several_columns": (
        b".TS\n" + 20 * b"ls" + b"\n" + 20 * b"^s" + b".\n" + 19 * b"a\t" + b"a\n", b"\n", b".TE\n", 2_500),
    "tall_cells_in_an_allbox": (
        b".TS\nallbox;\n" + 40 * b"l" + b"\n" + 20 * b"^l" + b".\n" + 39 * b"a\t" + b"a\n", b"\n", b".TE\n", 1_250),
    "tall_block": (
        b".TS\nlw(9) l\n^ l.\nT{\n" + 20_000 * b"a word\n" + b"T}\tb\n", b"\tb\n", b".TE\n", 5_000),
    "tall_blocks_of_long_lines": (
        b".TS\nlw(9) l\n^ l.\nT{\n" + 20_000 * b"a word " + b"\nT}\tb\n", b"\tb\n_\n", b".TE\n", 2_500),
    "rule_lines_through_tall_cells": (
        b".TS\n" + 40 * b"l||" + b"\n" + 40 * b"^||" + b".\n" + 39 * b"a\t" + b"a\n", b"_\n", b"\n.TE\n", 2_500),
    "rule_lines_through_a_tall_block": (
        b".TS\nl|l\n^|l.\nT{\n" + 10_000 * b"a\n\n" + b"T}\tb\n", b"=\n", b"\tb\n.TE\n", 5_000),
    "rule_rows_through_tall_cells": (
        b".TS\n" + 40 * b"l||" + b"\n", b"_ =\n", 40 * b"^||" + b".\n" + 39 * b"a\t" + b"a\n\n.TE\n", 2_500),
    "rule_rows_of_each_length_through_tall_cells": (
        b".TS\n" + 40 * b"l||" + b"\n", rule_rows(LENGTHS, b"_||"), 40 * b"^||" + b".\n" + 39 * b"a\t" + b"a\n\n.TE\n", 64),
    "rules_of_fields_in_tall_cells": (
        b".TS\n" + 40 * b"l||" + b".\n", 39 * b"_\t" + b"_\n_\n" + 39 * b"\\^\t" + b"\\^\n", b".TE\n", 625),
    "entries_without_width": (b".TS\n" + 40 * b"lz" + b".\n", 39 * b"ab\t" + b"\n", b".TE\n", 2_500),
    "entries_without_width_under_all_keys": (
        b".TS\n" + 8 * b"lzrzcznzaz" + b".\n", 7 * b"a\tb\tc\t1.5\td\t" + b"a\tb\tc\t1.5\n", b".TE\n", 2_500),
    "entries_cut": (b".TS\n" + 40 * b"lz" + b".\n", 39 * b"abcd\t" + b"abcd\n", b".TE\n", 1_000),
    "entries_cut_at_bars": (b".TS\n" + 40 * b"lz||" + b".\n", 39 * b"abcd\t" + b"abcd\n", b".TE\n", 1_000),
    "entries_that_run_on_over_all_columns": (
        b".TS\nlz" + 39 * b"l" + b".\n", 117 * b"x" + b"\n", b".TE\n", 2_500),
    "entries_that_run_on_one_column_too_far": (
        b".TS\nlz" + 39 * b"l" + b".\n", 118 * b"x" + b"\n", b".TE\n", 2_500),
    "entry_that_is_long": (b".TS\nlz l.\n", b"x", b"\ta\n.TE\n", 50_000),
    "entry_that_is_long_without_glyphs_of_width": (b".TS\nlz l.\n", rb"\&\fB", b"x\ta\n.TE\n", 50_000),
    "entries_of_several_columns_without_width": (
        b".TS\n" + 20 * b"lzs" + b".\n", 19 * b"wide\t" + b"\n", b".TE\n", 2_500),
    "block_without_width": (b".TS\nlzw(2) l.\nT{\n", b"abcdefgh\n", b"T}\tb\n.TE\n", 5_000),
    "blocks_without_width": (b".TS\nlzw(2) l.\n", b"T{\nabcdefgh\na b c\nT}\tb\n", b".TE\n", 5_000),
    "block_of_long_words_without_width": (b".TS\nlzw(2) l.\nT{\n", 1_000 * b"x" + b"\n", b"T}\tb\n.TE\n", 500),
    "blocks_without_width_or_measure": (b".TS\nlz l.\n", b"T{\nwords of a block that is filled\nT}\tb\n", b".TE\n", 2_500),
    "tall_entry_beside_columns_without_texts": (
        b".TS\nlz" + 39 * b"l" + b"\n^" + 39 * b"l" + b".\n" + 200 * b"x" + b"\n", b"\n", 39 * b"\t" + b"x\n.TE\n", 2_500),
    "tall_entry_without_width": (b".TS\nlz l l\n^ l l.\nabcdefgh\n", b"\n", b"\t\tx\n.TE\n", 5_000),
    "tall_entries_without_width": (
        b".TS\n" + 40 * b"lz" + b"\n" + 40 * b"^" + b".\n" + 39 * b"ab\t" + b"\n", b"\n", b".TE\n", 2_500),
    "tall_entries_without_width_in_all_rows": (
        b".TS\nlz rz lz l.\n", b"abcd\tab\tabcd\n\\^\t\\^\t\\^\tx\n", b".TE\n", 2_500),
    "tall_entries_without_width_in_all_rows_and_columns": (
        b".TS\n" + 20 * b"lzlz" + b".\n", 19 * b"wide\t\t" + b"wide\n" + 19 * b"\\^\t\t" + b"\\^\n", b".TE\n", 1_250),
    "tall_entries_without_width_that_take_turns": (
        b".TS\n" + 20 * b"lzrz" + b".\n", 19 * b"a\t\\^\t" + b"a\n" + 19 * b"\\^\ta\t" + b"\\^\n", b".TE\n", 625),
    "tall_entries_beside_empty_cells": (
        b".TS\nlz" + 39 * b"l" + b".\n", 99 * b"x" + b"\n\\^\n", b".TE\n", 2_500),
    "tall_entry_through_rule_lines": (
        b".TS\nlzw(2) l|l\n^ l|l.\nT{\n" + 10_000 * b"abcdefgh\n" + b"T}\n", b"_\n", b"\t\tb\n.TE\n", 5_000),
}
# Of these so many entries are cut, in front of what is repeated and behind it, and in each repetition.
CUT = {
    "entries_cut": (0, 40), "entries_cut_at_bars": (0, 40), "entries_that_run_on_one_column_too_far": (0, 1),
    "entry_that_is_long": (1, 0), "block_without_width": (1, 0), "blocks_without_width": (0, 1),
    "block_of_long_words_without_width": (1, 0), "blocks_without_width_or_measure": (0, 1),
    "tall_entry_beside_columns_without_texts": (1, 0),
    "tall_entry_without_width": (1, 0), "tall_entries_without_width_in_all_rows": (0, 2),
    "tall_entries_without_width_in_all_rows_and_columns": (0, 1), "tall_entry_through_rule_lines": (1, 0),
}
# The widths that some of them are given.
GROWING_WIDTHS = dict.fromkeys(
    ("spans_of_wide_columns", "spans_of_blocks_over_wide_columns"), 40 * 4_099)
GROWING_OPTIONS = ("--rows=50000", "--text=4000000")
MOST_GROWTH = 4.5
# Seconds that don't count there: beside other work on the machine the larger one is slowed more, as it needs more memory.
CHANGE_OF_GROWTH = 0.02
LEAST_ROUNDS, MOST_ROUNDS = 3, 12
KILOBYTES_OF_GROWN_TABLES = 4 * MOST_KILOBYTES_OF_TABLES
# Tables that fill the width of their pictures to its last column, and tables of one column more.
FILLED = {
    "width_filled": (FILLING % ((WIDEST - 4) * b"x") + b"_\n.TE\n", FILLING % ((WIDEST - 3) * b"x") + b"_\n.TE\n"),
    "width_filled_by_bars": (
        b".TS\n||" + 40 * b"l||" + b".\n%s\n_\n.TE\n" % ((WIDEST - 6 - 39 * 4) * b"x"),
        b".TS\n||" + 40 * b"l||" + b".\n%s\n_\n.TE\n" % ((WIDEST - 5 - 39 * 4) * b"x")),
    "width_filled_by_a_separation": (
        b".TS\n|l%d|l|.\na\tb\n_\n.TE\n" % (WIDEST - 6), b".TS\n|l%d|l|.\na\tb\n_\n.TE\n" % (WIDEST - 5)),
    "width_filled_by_a_rule_row": (
        b".TS\n_ =\nl%d l.\na\tb\n.TE\n" % (WIDEST - 2), b".TS\n_ =\nl%d l.\na\tb\n.TE\n" % (WIDEST - 1)),
    "width_filled_by_rule_keys": (
        b".TS\n||" + 39 * b"_||" + b"_w(%d)||.\na\n.TE\n" % (WIDEST - 6 - 39 * 4),
        b".TS\n||" + 39 * b"_||" + b"_w(%d)||.\na\n.TE\n" % (WIDEST - 5 - 39 * 4)),
    "width_filled_by_a_span": (
        b".TS\n||" + 39 * b"l|" + b"l||\n||" + SPAN + b"||.\n\n%s\n_\n.TE\n" % ((WIDEST - 6) * b"x"),
        b".TS\n||" + 39 * b"l|" + b"l||\n||" + SPAN + b"||.\n\n%s\n_\n.TE\n" % ((WIDEST - 5) * b"x")),
    "width_filled_by_a_block_of_a_span": (
        b".TS\nl" + 39 * b"s" + b".\nT{\n%s\nT}\n_\n.TE\n" % (WIDEST * b"x"),
        b".TS\nl" + 39 * b"s" + b".\nT{\n%s\nT}\n_\n.TE\n" % ((WIDEST + 1) * b"x")),
    "width_filled_by_an_entry_that_runs_on": (
        b".TS\nlz lw(4093).\n%s\n.TE\n" % ((WIDEST + 1) * b"x"), b".TS\nlz lw(4094).\n%s\n.TE\n" % ((WIDEST + 1) * b"x")),
    "width_filled_by_expand": (b".TS\nexpand allbox;\nl l.\na\tb\n.TE\n", b".TS\nexpand allbox;\nlw(4090) l.\na\tb\n.TE\n"),
}

# Columns that are far apart, with the limit that stops each command; `nroff` counts blanks for its line at the glyph behind.
FAR_TABLES = {
    "columns_far_apart": (b".TS\nl40000000 l.\na\tb\n.TE\n", {"tbl": None, "both": "line"}),
    "bars_far_apart": (b".TS\nl40000000 | l.\na\tb\n.TE\n", {"tbl": None, "both": "line"}),
    "rules_of_a_span_far": (
        b".TS\n_w(4096)" + 39 * b"sw(4096)" + b".\n" + 1_000 * b"\n" + b".TE\n",
        {"tbl": "output", "both": "line"}),
    "span_far": (
        b".TS\nlw(4096)" + 39 * b"rw(4096)" + b"\nr" + 39 * b"s" + b".\n\na\n.TE\n",
        {"tbl": None, "both": "line"}),
    "rule_rows_far": (b".TS\n" + 100_000 * b"_\n" + b"lw(4000).\na\n.TE\n", {"tbl": "output", "both": "bytes"}),
    "columns_farthest_apart": (b".TS\nl999999990 l.\na\tb\n.TE\n", {"tbl": "output", "both": "bytes"}),
}
FAR_OPTIONS = ("--width=1000000000", "--output=50000000")

# Documents whose lines or spaces go far: the document, the limit that stops it with the line on which it is reached, what
# its output begins with, and how long it is. The greatest length is 89,478,485 columns, and the longest page has
# 53,687,091 lines: of three of either two or three are within the limit on the output.
FARTHEST = 89_478_485
LONGEST = 53_687_091
FAR = {
    "spacing_farthest": (b".ls 2147483647\na\n", None, b"a\n\n\n", 1 + 66),
    "page_longest": (b".pl 2147483647u\na\n", None, b"a\n\n\n", 1 + LONGEST),
    "space_farthest": (b".pl 2147483647u\n.sp 2147483647u\na\n", None, b"\n\n\n", LONGEST + 1 + LONGEST),
    "spacing_on_the_longest_page": (b".pl 2147483647u\n.ls 2147483647\na\n", None, b"a\n\n\n", 1 + LONGEST),
    "eject_of_the_longest_page": (b".pl 2147483647u\n.bp\na\n", None, b"\n\n\n", 1 + 2 * LONGEST),
    "ejects_of_the_longest_page": (b".pl 2147483647u\n" + 1000 * b".bp\n", ("output", 5), b"\n\n\n", 3 * LONGEST),
    "need_of_the_longest_page": (b".pl 2147483647u\na\n.br\n.ne 2147483647u\nb\n", None, b"a\n\n", 2 + 2 * LONGEST),
    "traps_farthest": (
        b".pl 2147483647u\n.wh 2147483647u X\n.wh -2147483648u X\n.sp 2147483647u\na\n", None, b"\n\n\n", LONGEST + 1 + LONGEST),
    "traps_of_fifty_thousand_lines": (b".nr a 0 1\n" + 50_000 * b".wh \\n+a X\n" + b"a\n", None, b"a\n\n\n", 1 + 66),
    "indent_farthest": (b".in 2147483647u\na b\n", None, b" " * 9, 2 * (FARTHEST + 2) + 64),
    "temporary_indent_farthest": (b".ti 2147483647u\na b\n", None, b" " * 9, FARTHEST + 2 + 2 + 64),
    "centre_farthest": (b".ll 2147483647u\n.ce\na\n", None, b" " * 9, (FARTHEST - 1) // 2 + 2 + 65),
    "offset_farthest": (b".pl 1\n.po 2147483647u\na\n", None, b" " * 9, FARTHEST + 2),
    "offset_and_indent_farthest": (b".pl 1\n.po 2147483647u\n.in 2147483647u\na\n", None, b" " * 9, 2 * FARTHEST + 2),
    "offsets_farthest": (b".nf\n.po 2147483647u\n" + 1000 * b"a\n", ("output", 5), b" " * 9, 2 * (FARTHEST + 2)),
    "title_farthest": (b".lt 2147483647u\n.tl '''a'\n", None, b" " * 9, FARTHEST + 1 + 65),
    "motion_in_a_title_farthest": (b".tl 'a'\n.tl '\\h'2147483647u''\n", ("line", 2), b"a\n", 2),
    "tab_farthest": (b"a\n.br\n.ta 2147483647u\nb\tc\n", ("line", 4), b"a\n", 2),
    "field_farthest": (b"a\n.br\n.ta 2147483647uR\nb\tc\n", ("line", 4), b"a\n", 2),
    "field_centred_farthest": (b"a\n.br\n.ta 2147483647uC\nb\tc\\c\n.br\n", ("line", 5), b"a\n", 2),
    "indents_farthest": (b".in 2147483647u\n" + 1000 * b"a b\n", ("output", 3), b" " * 9, 2 * (FARTHEST + 2)),
    "indents_farthest_without_filling": (
        b".nf\n.in 2147483647u\n" + 1000 * b"a\n", ("output", 5), b" " * 9, 2 * (FARTHEST + 2)),
    "spaces_on_the_longest_page": (
        b".pl 2147483647u\n" + LINES // 2 * b".sp 2147483647u\n", ("output", 5), b"\n\n\n", 3 * LONGEST),
    "space_of_a_diversion_farthest": (b".di D\n.sp 2147483647u\n", ("store", 2), b"", 0),
    "spacing_of_a_diversion_farthest": (b".ls 2147483647\n.di D\na\n.br\n", ("store", 4), b"", 0),
    "indent_of_a_diversion_farthest": (b".in 2147483647u\n.di D\n.nf\na\n", ("store", 4), b"", 0),
    "motion_of_a_diversion_farthest": (b".di D\n.nf\n\\h'2147483647u'\n", ("line", 3), b"", 0),
    "centre_of_a_diversion_farthest": (b".di D\n.ll 2147483647u\n.ce\na\n", ("store", 4), b"", 0),
    "title_of_a_diversion_farthest": (b".di D\n.lt 2147483647u\n.tl !!!a!\n", ("store", 3), b"", 0),
    "trap_of_a_diversion_farthest": (b".di D\n.dt 2147483627u X\n.sp 2147483627u\n", ("store", 3), b"", 0),
    "need_of_a_diversion_farthest": (b".di D\n.dt 2147483000u X\n.ne 2147483000u\n.ne 2147483627u\n", ("store", 4), b"", 0),
    "spacings_on_the_longest_page": (
        b".pl 2147483647u\n.ls 2147483647\n" + 1000 * b"a\n.br\n", ("output", 10), b"a\n\n\n", 3 * (LONGEST + 1)),
}

# Short documents that tell much: the command, the document, and what each message ends in. Ten macros, each of which calls the
# next one ten times, and one below them that tells.
MACROS_THAT_TELL = b"".join(b".de %c\n%s..\n" % (c, b".%c\n" % (c + 1) * 10) for c in TEN)
TELLING = {
    "escapes_left_out_by_macros": ("nroff", MACROS_THAT_TELL + b".de k\n" + 50 * rb"\z" + b"\n..\n.a\n", b"left out: \\z\n"),
    "texts_told_by_macros": ("nroff", MACROS_THAT_TELL + b".de k\n.tm " + 250 * b"x" + b"\n..\n.a\n", 250 * b"x" + b"\n"),
    "texts_told_by_macros_beside_a_table": (
        "both", MACROS_THAT_TELL + b".de k\n.tm " + 250 * b"x" + b"\n..\n.TS\ntab(:);\nl.\na:b\n.TE\n.a\n", 250 * b"x" + b"\n"),
    "escapes_left_out_by_macros_behind_tables": (
        "both", MACROS_THAT_TELL + b".de k\n" + 50 * rb"\z" + b"\n..\n" + 9 * b".TS\ntab(:);\nl.\na:b:c\n.TE\n" + b".a\n", b"left out: \\z\n"),
}
TELLING_BYTES = 2_000
# What they are stopped by: a limit that is reached at once, and one far behind, of the seconds that a run may take.
FEW_MESSAGES = 100_000
MANY_MESSAGES = 10 * MEGABYTE
FEW_SECONDS = 0.5

# What nests, and how deep.
NESTING = 20_000
NESTED = {
    "nested_widths": rb"\w'",
    "nested_widths_with_delimiters": rb"\wa\wb\w\ ",
    "nested_widths_and_motions": rb"\w'\h'",
    "nested_motions_and_widths": rb"\h'\w" + b'"',
    "nested_widths_and_texts_left_out": rb"\w'\o" + b'"',
    "nested_widths_and_names": rb"\w'\n(\*(\$\g(",
    "nested_widths_in_arguments": rb".nr a \w'\h" + b'"',
    "nested_escapes": rb"\w'\h'\o'\(\n+\s-\f(\*\$\c\{",
    "nested_widths_in_a_condition": rb".if 'a\w'\h" + b'"',
    "nested_names_in_an_expression": rb".if 1\n(\*(",
}

# Lines in which each byte stands in the place of `%s`.
AROUND = (
    b"a%sb",
    rb"a\%sb",
    rb".nr a 1\%s2",
    b'.nr a%sb "1%s2" 3',
    rb".nr \%s 5",
    rb"\n\%s",
    rb"\n(a\%sb",
    rb"\*\%s\$\%s\(\%sa\f\%s\g\%s",
    rb"\n+%s\s%s1\s1%s",
    rb"\w'a\%sb'",
    rb"\w'a\%s(b'x'c'",
    rb"\h'1\%s2'b",
    rb"\o'a\%sb'c",
    rb"\w%sa\%sb%sc",
    rb"\h%s1n%sb",
    rb"\x%sab%sc",
    rb".nr a \w%sab%s 2",
    rb"\w'" * 8 + rb"\w%sa\%sb%s" + b"'" * 8,
    b".%s a",
    rb".\%s a",
    rb"'%s\%s",
    b".if %sa%sa%s b",
    b".if !%sa%sb%s c",
    rb".if \%sa\%sa\%s d",
    rb".if '\%s'\%s' e",
    b".ie 1%s=10 f",
    b".el%s g",
    b".ie 0\\%s h\n\\}",
    b".el \\%s i\n\\}",
    b".ds a%sb c%sd\n\\*a\\*(ab",
    b".ds s %sx\\%sy\n.as s \\%s\n\\*s",
    b'.ds "s%s"%st\n\\*s',
    rb".ds \%s x",
    b".as s%s\n\\*s",
    b".de m%s\nx%sy\\%sz\\\\%s\n..\n.m a%sb \\%s",
    b".de m\n[\\\\$%s]\\\\$1\n%s\n..\n.m %s\\%s",
    # Behind a backslash the definition goes on to `.x`.
    b".de m %s\nx\n.%s\ny\n..\n.x\n.m",
    b".rn m %s\n.rm \\%s",
    b".ta 4n%s +\\%s5 9n\na\t%sb\\t\\%s",
    b".ta 8n%s +8%sR 30nC%s\na\tb%s c\t\\%sd\te\\c\n%sf\\%s\n",
    b".ce 1%s\n\\%sc",
    b".ti +%s1\nd\\c%s\n%se\\c\\%s\n\\%sf\\h'|9n'",
    b".ls %s1\n.ls 1",
    b".ev %s\ng\\c\n.ev\n\\%s",
    b".em %s",
    b".em \\%s",
    b".em m%s",
    b".de m\nx\n..\n.it%s1 m%s\na\\c\nb%s\nc\n.it 1 %s\nd\n",
    b".de m\nx%s\n%s..\n.it 1 m\na%s\nb\n",
    b".tl %sa%sb%sc%sd",
    b".tl '%s\\%s'%s'\\%sx",
    b".tl \\%sa\\b%s\\c",
    b".tl%s'a'b'c",
    b".lt 9%s",
    b".pc %s\n.tl 'a%sb\\%s'",
    b".pc \\%s\n.tl 'a%sb\\%s'\n.pc",
    b".wh 1%s m%s",
    b".wh %s1 m\n.ch m%s2\n.ch \\%s",
    b".de m\nx%s\n%s..\n.wh 1 m\na%s\nb\n.wh 1%s\n",
    b".bp%s5%s\n'bp \\%s\n.bp +%s",
    b".ne %s1\n.ns%s\n.sp\n.rs\\%s",
    b".di D%s\na%s\\%sb\n.br\n.di%s\n.di\n.D\n\\*D",
    b".da %s\n.dt%s1 m\na\\%s\n%s\n.da\n.%s",
)

# What random documents are made of, how many there are of each kind, and the options with which each is formatted.
PIECES = (
    [bytes([value]) for value in range(256)]
    + [b"\\" + bytes([value]) for value in range(33, 127)]
    + [rb"\w'", rb"\h'", rb"\o'", b'\\w"', b'\\h"', rb"\n(", rb"\n+", rb"\*(", rb"\s1"]
    + [b"'", b'"', b"ab cd", b"12u", b"2n"]
    + [b"\n", b"\\\n", b"\n.", b"\n'", b"\n.nr a 7 1\n", b"\n.nr ", b"\n.ll ", b"\n.in 2\n", b"\n.sp ", b"\n.so "]
)
PIECES_OF_CONDITIONS = (
    [b"\n.if ", b"\n.ie ", b"\n.el ", b"\n.if 1 ", b"\n.ie 0 ", b"\n.if !", b"'a'a' ", b"!", b"1", b"0"]
    + [b" \\{\\\n", b"\\{"]
    + 2 * [b"\\}", b"\n.\\}\n"]
)
PIECES_OF_STRINGS = [b"\n.ds s ", b"\n.as s ", b'\n.ds "', b"\n.ds ", b"\n.as \\*s ", rb"\*s", rb"\\*s", rb"\*(ab", b" ", b'"']
PIECES_OF_MACROS = (
    [b"\n.de m\n", b"\n.de m z\n", b"\n.de br\n", b"\n.de ", b"\n.am m\n", b"\n.am n\n", b"\n.ig\n", b"\n.ig z\n"]
    + 3 * [b"\n..\n", b"\n.z", b"\n\\\\..\n", b"\n.m ", b"\n.n\n", b'\n.m a "b c" d\n']
    + [rb"\$1", rb"\\$1", rb"\\$2", rb"\n(.$", b"\n.rm m\n", b"\n.rn m n\n", b"\n.rn br BR\n", b"\n.BR\n"]
    + [b"\n.tm \\$1\n", b"\n.ie 0 x\n", b"\n.el .m\n"]
)
PIECES_OF_ENVIRONMENTS = (
    2 * [b"\n.ev 1\n", b"\n.ev 2\n", b"\n.ev\n"]
    + [b"\n.ev 0\n", b"\n.ev ", b"\n.ce 3\n", b"\n.ce ", b"\n.ti 4n\n", b"\n.ti -", b"\n.ls 2\n", b"\n.ls ", b"\n.ad r\n"]
    + [b"\n.ta 4n +4n 20n\n", b"\n.ta 4nR +4nC 20nR\n", b"\n.ta ", b"R ", b"C ", b"\n.nf\n", b"\n.fi\n", b"\n.br\n", b"\n.ll 30n\n", b"\n.in +1n\n", b"\n.tm \\n(.n\n"]
    + 2 * [b"\t", rb"\t", b"\\c\n", rb"\c", rb"\h'|9n'", b"  ", b"a word ", b".\n"]
)
PIECES_OF_PAGES = (
    [b"\n.pl 1\n", b"\n.pl 3\n", b"\n.pl 9\n", b"\n.pl +1\n", b"\n.pl -1\n", b"\n.pl |2\n", b"\n.pl x\n", b"\n.pl\n"]
    + [b"\n.sp\n", b"\n.sp 2\n", b"\n.sp 99\n", b"\n.sp |2\n", b"\n.sp -1\n", b"\n'sp 1\n", b"\n\n", b"\n.ls 3\n", b"\n.ls 1\n"]
    + [b"\n.po 3\n", b"\n.po +1\n", b"\n.po -9\n", b"\n.po\n", b"\n.po ", b"\n.pn 5\n", b"\n.pn +1\n", b"\n.pn ", b"\\n(.o"]
    + [b"\n.nr % 5 2\n", b"\n.af % i\n", b"\\n%", b"\\n+%", b"\\n-%", b"\\n(nl", b"\\n(.t", b"\\n(.p", b"\n.if o ", b"\n.if e "]
    + 2 * [b"\n.br\n", b"\n.nf\n", b"\n.fi\n", b"\na word\n", b" a word"]
)
PIECES_OF_TITLES = (
    4 * [b"\n.tl ", b"\n.tl '", b"'", b"%", b"'a'b'c'", b"' '"]
    + [b"\n.tl", b"\n'tl 'a'%", b"\n.tl %", b"\n.tl \\\\", b"\n.tl \\e", b'\n.tl "', b"\n.lt 9n\n", b"\n.lt +1\n", b"\n.lt ", b"\n.lt\n"]
    + [b"\n.pc #\n", b"\n.pc\n", b"\n.pc ", b"\n.pc %\n", b"#", b"\\*s", b"\n.ds s a'b\n", b"\\h'2n'", b"\\w'a'", b"\\(em", b"\\c", b"\\{", b"\\\n"]
)
PIECES_OF_ENDS = (
    2 * [b"\n.em m\n", b"\n.em n\n", b"\n.em\n", b"\n.em "]
    + [b"\n.de m\n", b"\n.de n\n", b"\n..\n", b"\n.m\n", b"\n.if 0 .ex\n", b"\n.el .ex\n", b"\n\\\\..\n", b"\\c\n", b"\n.ev 1\n", b"\n.ev\n"]
)
PIECES_OF_SPRINGS = (
    3 * [b"\n.it 1 m\n", b"\n.it 2 n\n"]
    + [b"\n.it 1\n", b"\n.it\n", b"\n.it ", b"\n.it 1 br\n", b"\n.it 1 s\n", b"\n.it 0 m\n", b"\n.rm m\n", b"\n.rn m n\n"]
    + 2 * [b"\n.de m\n", b"\n.de n\n", b"\n..\n", b"\n.ds s ", b"a word\n", b"\\c\n", b"\\{", b"\\}", b"\n.if 1 ", b"\n \\c\n"]
)
PIECES_OF_TRAPS = (
    2 * [b"\n.wh 0 m\n", b"\n.wh 1 n\n", b"\n.wh -2 m\n", b"\n.wh -1v n\n"]
    + [b"\n.wh 1\n", b"\n.wh ", b"\n.ch m 2\n", b"\n.ch n\n", b"\n.ch m ", b"\n.wh |1 m\n", b"\n.wh 2 br\n", b"\n.rm m\n", b"\n.em n\n"]
    + 2 * [b"\n.bp\n", b"\n'bp\n", b"\n.bp 7\n", b"\n.bp +1\n", b"\n.bp ", b"\n.ne 2\n", b"\n.ne ", b"\n.ns\n", b"\n.rs\n", b"\n.sp\n", b"\n'sp 9\n"]
    + 3 * [b"\n.de m\n", b"\n.de n\n", b"\n..\n", b"\n.tl 'a'%'b'\n", b"a word\n", b"a b c d e f\n", b"\\\n", b"\\c\n", b"\n.pl 3\n", b"\n.pl 6\n"]
    + [b"\n.ll 9n\n", b"\n.ex\n", b"\n.it 1 m\n", b"\n.ev 1\n", b"\n.ev\n", b"\\n(\\\n", b"\n.tm \\\n", b"\n.ds s \\\n", b"\n.if 'a\\\n", b"\n.if 1 \\\n"]
)
PIECES_OF_DIVERSIONS = (
    4 * [b"\n.di D\n", b"\n.di\n", b"\n.D\n"]
    + [b"\n.da D\n", b"\n.da\n", b"\n.di E\n", b"\n.E\n", b"\n.di ", b"\n.da ", b"\n.di \\\n"]
    + [b"\n.rm D\n", b"\n.rn D E\n", b"\n.am D\n", b"\n.as D x\n", b"\\*D"]
    + 2 * [b"\n.dt 1 m\n", b"\n.dt 2 n\n", b"\n.dt 1 D\n"]
    + [b"\n.dt\n", b"\n.dt ", b"\n.dt |2 m\n", b"\n.dt x m\n", b"\\n(dn", b"\\n(dl", b"\\n(.d", b"\\n(.z", b"\\n(.t"]
    + 3 * [b"\na word\n", b"a b c d e f\n", b"\n.br\n", b"\n.nf\n", b"\n.fi\n", b"\n.ll 9n\n"]
    + [b"\n.tl 'a'%'b'\n", b"\n.sp 2\n", b"\n.ne 2\n", b"\n.ls 2\n", b"\n.bp\n", b"\n.wh 2 m\n", b"\n.ex\n"]
    + [b"\\ ", b"\\e", b"\\&", b"\\c\n"]
)
RANDOM = {
    "random": PIECES,
    "random_conditions": PIECES + 12 * PIECES_OF_CONDITIONS,
    "random_strings": PIECES + 20 * PIECES_OF_STRINGS,
    "random_macros": PIECES + 20 * PIECES_OF_MACROS + 5 * PIECES_OF_STRINGS,
    "random_environments": PIECES + 20 * PIECES_OF_ENVIRONMENTS + 2 * PIECES_OF_MACROS,
    "random_pages": PIECES + 20 * PIECES_OF_PAGES + 4 * PIECES_OF_ENVIRONMENTS,
    "random_titles": PIECES + 20 * PIECES_OF_TITLES + 6 * PIECES_OF_PAGES + 2 * PIECES_OF_ENVIRONMENTS,
    "random_ends": PIECES + 20 * PIECES_OF_ENDS + 5 * PIECES_OF_CONDITIONS,
    "random_traps": PIECES + 20 * PIECES_OF_TRAPS + 4 * PIECES_OF_PAGES + 2 * PIECES_OF_ENVIRONMENTS,
    "random_diversions": PIECES + 20 * PIECES_OF_DIVERSIONS + 4 * PIECES_OF_MACROS + 2 * PIECES_OF_ENVIRONMENTS,
    "random_springs": PIECES + 20 * PIECES_OF_SPRINGS + 4 * PIECES_OF_ENVIRONMENTS + 4 * PIECES_OF_ENDS,
}
RANDOM_DOCUMENTS = 100
PIECES_OF_TABLES = (
    4 * [b"\n.TE\n", b"\n.TS\n", b"\n.TS\nl l.\n", b"\n.TS\ntab(:);\nl r.\n", b":", b"\t", b"\n"]
    + [b"l", b"r", b"c", b",", b".\n", b";", b"tab(:)", b"tab(", b")", b"center ", b"box", b"9", b"n", b"|", b"||", b"doublebox", b"_\n", b"=\n"]
    + [b"T{\n", b"\nT}", b"\n.T&\n", b"\\\n", b"\\\\\n", b"\n.TE", b"\n.TS x\n", b"\n.TEx\n", b"a", b"words", b" "]
    + [b"\n.TS\ntab(:);\nlw(5) n a.\n", b"T{\na b c\nT}", b":T{\n", b"\n.T&\nn a\nc.\n", b"expand ", b"w(3)", b"e", b"x", b"1.5", b"\\&"]
    + [rb"\fB", rb"\(em", rb"\nx", rb"\w'", rb"\*(", b"\\", b"'", b"\n.sp\n", b"\n.5\n"]
    + [b"_", b"=", b"-", b"_ =\n", b"_,", b"\n.TS\n_|=\nl l\n_\n=|-\nl|_.\n", b"\n.T&\n_ _,l _ l.\n"]
    + [b"s", b" s", b"|s", b"_ s", b"\n.TS\nallbox tab(:);\nc s s\nl s l,_ l s.\n", b"\n.T&\nl s,l.\n"]
    + [b"z", b"\n.TS\ntab(:);\nlz l rz\n^ sz nz,^z lz l.\n", b"\n.T&\nlz ^z cz.\n"]
)
RANDOM_TABLES = {
    "random_bytes_in_a_table": [bytes([value]) for value in range(256)],
    "random_tables": PIECES_OF_TABLES,
    "random_tables_and_bytes": PIECES + 12 * PIECES_OF_TABLES,
}
OPTIONS_OF_TABLES = ((), ("--rows=3", "--text=90"), ("--columns=2", "--width=9"), ("--bytes=900",), ("--output=900",))
# Documents in which each byte stands in the place of `%s`: as a separator, in options, keys, fields, and behind names.
TABLES_AROUND = (
    b".TS\ntab(%s);\nl r c.\na%sb%sc\n%s\n%s%s\n.TE\n",
    b".TS\ntab(:)%scenter;\nl l.\na:b\n.TE\n",
    b".TS\nl %s l%s.\na\tb\n.TE\n",
    b".TS\nl 3%s4 l.%s\na%s\tb%s\n%sc%s\n.TE\n",
    b".TS\nl.\n%s\n\\%s\n.TE%s\nx\n.TE\n",
    b".TS%s\nl.\na\n.TE\n.TS\nl.\na\\\n%s\n.TE",
    b".TS\nl%s lw%s lw(%s) lf%s lm%s%s.\na\n.TE\n",
    b".TS\ntab(:);\nl n a.\na%s:1%s5:\\%s(%sx\n\\f%sx:\\w%s\\%sb%s:\\n\\%sx\n.TE\n",
    b".TS\ntab(:);\nlz l%s,rz|^%sz l.\nab%scd::x\n%sabcdef::%s\nabc%s::\n.TE\n",
    b".TS\n_%s|=,l%sl\n%s_\n_%s l.\na%s\n%s\tb\nT{\n%s\nT}\tc%s\n.TE\n",
    b".TS\ntab(:);\nlw(5) l.\nT{\na%sb \\%s c%s\n%s\n%s x\nT}%s:b\n.T&%s\nl.\n.%s\n.TE\n",
)
OPTIONS = ((), ("--stack=9", "--depth=2"), ("--line=30", "--bytes=900"), ("--conditions=1", "--environments=2"),
           ("--store=9", "--names=2"), ("--output=90", "--traps=1"), ("--diversions=1", "--store=90"))


class Run:
    """What a run gave, and what it took. Of its output what `read` makes of it is kept."""

    def __init__(self, folder, options, read=lambda output: output.read(), command="nroff"):
        measured, messages = folder / "measured", folder / "messages"
        words = [GNU_TIME, "-q", "-o", measured, "-f", "%M", PROGRAM, command, *options, folder / "document"]
        with messages.open("wb") as told:
            run = subprocess.Popen(words, stdin=subprocess.DEVNULL, stdout=subprocess.PIPE, stderr=told)
            output = read(run.stdout)
            run.stdout.close()
            _, status, usage = os.wait4(run.pid, 0)
            run.returncode = os.waitstatus_to_exitcode(status)
        self.given = run.returncode, output, messages.read_bytes()
        # GNU time's own part of it is below a millisecond.
        self.seconds = usage.ru_utime + usage.ru_stime
        self.kilobytes = int(measured.read_text())

    def stopped_at(self):
        """The limit that stopped the run, and the line on which it was reached."""
        told = re.search(rb": line (\d+): limit (\w+) \(\d+\) reached\n\Z", self.given[2])
        return (told[2].decode(), int(told[1])) if told and self.given[0] == 3 else None

    def stopped_by(self):
        """The limit alone."""
        at = self.stopped_at()
        return at[0] if at else None


def limit_time():
    """Bounds the time of each run that this process starts; the process itself hears of it, and goes on."""
    signal.signal(signal.SIGXCPU, lambda number, frame: None)
    resource.setrlimit(resource.RLIMIT_CPU, (STOPPED_SECONDS, resource.RLIM_INFINITY))


def too_much(run, kilobytes, most=MOST_KILOBYTES):
    """What is wrong with how a run ended, and with what it took."""
    wrong = []
    if run.given[0] not in range(5):
        wrong.append("status %d" % run.given[0])
    if run.seconds > MOST_SECONDS:
        wrong.append("%.1f seconds" % run.seconds)
    if kilobytes > most:
        wrong.append("%d kilobytes" % kilobytes)
    return wrong


def formatted(folder, name, document, options=(), command="nroff"):
    """Formats a document twice. Answers the quicker run, and what is wrong."""
    (folder / "document").write_bytes(document)
    first, second = sorted((Run(folder, options, command=command) for _ in range(2)), key=lambda run: run.seconds)
    for _ in range(MORE_ROUNDS):
        if first.seconds > MOST_SECONDS:
            first = min(first, Run(folder, options, command=command), key=lambda run: run.seconds)
    most = MOST_KILOBYTES if command == "nroff" else MOST_KILOBYTES_OF_TABLES
    wrong = too_much(first, max(first.kilobytes, second.kilobytes), most)
    if first.given != second.given:
        wrong.append("two runs differ")
    return first, ["%s: %s" % (" ".join([name, *options]), what) for what in wrong]


def check_long(folder, name):
    """A long document, and one of a quarter of its length."""
    parts, options = LONG[name], ROOM + LESS_TO_READ.get(name, ()) + MORE_TRAPS.get(name, ())
    return check_beside_a_quarter(folder, name, parts, options, STOPPED_BY.get(name), BEGINS.get(name, b""))


def check_tables(folder, name):
    """The same of one with tables, by both commands."""
    *parts, options, limit, beginning = TABLES[name]
    limits = limit if isinstance(limit, dict) else dict.fromkeys(("tbl", "both"), limit)
    wrong = check_beside_a_quarter(folder, name + ", tbl", parts, options, limits["tbl"], beginning, "tbl")
    return wrong + check_beside_a_quarter(folder, name + ", both", parts, options, limits["both"], b"", "both")


def too_much_longer(folder, name, whole, quarter, longer, shorter, options, command):
    """What is wrong with the time of a document beside that of a quarter of it."""
    most, least = whole.seconds, quarter.seconds
    for _ in range(MORE_ROUNDS):
        if most > MOST_RATIO * least + SMALL_CHANGE:
            (folder / "document").write_bytes(shorter)
            least = min(least, Run(folder, options, command=command).seconds)
            (folder / "document").write_bytes(longer)
            most = min(most, Run(folder, options, command=command).seconds)
    if most > MOST_RATIO * least + SMALL_CHANGE:
        return ["%s: %.2f seconds, and %.2f for a quarter of it" % (name, most, least)]
    return []


def check_beside_a_quarter(folder, name, parts, options, limit, beginning, command="nroff"):
    """A document that repeats a text, and one that repeats it a quarter as often."""
    front, text, behind, size = parts
    times = (size - len(front + behind)) // len(text)
    if times < 4:
        raise SystemExit("tests/hostile.py: %s repeats its text %d times" % (name, times))
    longer, shorter = front + text * times + behind, front + text * (times // 4) + behind
    whole, wrong = formatted(folder, name, longer, options, command)
    quarter, wrong_of_quarter = formatted(folder, name + ", a quarter", shorter, options, command)
    wrong += too_much_longer(folder, name, whole, quarter, longer, shorter, options, command)
    if whole.stopped_by() != limit:
        wrong.append("%s: stopped by %s, and not by %s" % (name, whole.stopped_by(), limit))
    if not whole.given[1].startswith(beginning):
        wrong.append("%s: begins with %r" % (name, whole.given[1][:SHOWN]))
    return wrong + wrong_of_quarter


def beginning_and_length(output):
    """The first bytes of an output, and how many there are."""
    beginning, length = b"", 0
    while piece := output.read(MEGABYTE):
        beginning += piece[:SHOWN - len(beginning)]
        length += len(piece)
    return beginning, length


def check_far(folder, name):
    """A document of whose output only the beginning is kept."""
    document, stop, beginning, length = FAR[name]
    (folder / "document").write_bytes(document)
    run = Run(folder, ROOM + MORE_TRAPS.get(name, ()), beginning_and_length)
    wrong = too_much(run, run.kilobytes)
    if run.stopped_at() != stop:
        wrong.append("stopped by %s, and not by %s" % (run.stopped_at(), stop))
    if not run.given[1][0].startswith(beginning) or run.given[1][1] != length:
        wrong.append("%d bytes that begin with %r" % (run.given[1][1], run.given[1][0]))
    return ["%s: %s" % (name, what) for what in wrong]


def check_telling(folder, name):
    """A short document whose messages a limit stops: at once, and far behind."""
    command, document, ending = TELLING[name]
    (folder / "document").write_bytes(document)
    wrong = ["%d bytes" % len(document)] if len(document) > TELLING_BYTES else []
    for most in (FEW_MESSAGES, MANY_MESSAGES):
        run = Run(folder, ("--messages=%d" % most,), command=command)
        wrong += too_much(run, run.kilobytes, MOST_KILOBYTES if command == "nroff" else MOST_KILOBYTES_OF_TABLES)
        messages = run.given[2].splitlines(keepends=True)[:-1]
        told = sum(map(len, messages))
        if run.stopped_by() != "messages":
            wrong.append("within %d stopped by %s, with status %d" % (most, run.stopped_by(), run.given[0]))
        elif told > most or told + len(messages[-1]) <= most or not messages[-1].endswith(ending):
            wrong.append("within %d there are %d bytes of messages that end in %r" % (most, told, messages[-1]))
        if most == FEW_MESSAGES and run.seconds > FEW_SECONDS:
            wrong.append("%.1f seconds within %d" % (run.seconds, most))
    return ["%s: %s" % (name, what) for what in wrong]


def check_told_in_order(folder, name):
    """A table that tells much, and one that tells a quarter as much: all of it is told, in order."""
    front, text, behind, count, is_line, what = TOLD_IN_ORDER[name]
    first, wrong, seconds = front.count(b"\n") + 1, [], []
    for times in (count, count // 4):
        run, more = formatted(folder, name, front + times * text + behind, (), "tbl")
        wanted = b"".join(b"tbl: line %d: %s\n" % (first + number * is_line, what) for number in range(times))
        if (run.given[0], run.given[2]) != (0, wanted):
            wrong.append("%s: status %d, and %d bytes of messages for %d" % (name, run.given[0], len(run.given[2]), len(wanted)))
        wrong += more
        seconds.append(run.seconds)
    if seconds[0] > MOST_RATIO * seconds[1] + SMALL_CHANGE:
        wrong.append("%s: %.2f seconds, and %.2f for a quarter of it" % (name, *seconds))
    return wrong


def check_far_table(folder, name):
    """A picture that goes far, by both commands."""
    document, limits = FAR_TABLES[name]
    (folder / "document").write_bytes(document)
    wrong = []
    for command, limit in limits.items():
        run = Run(folder, FAR_OPTIONS, beginning_and_length, command)
        wrong += too_much(run, run.kilobytes, MOST_KILOBYTES_OF_TABLES)
        if run.stopped_by() != limit:
            wrong.append("%s is stopped by %s, and not by %s" % (command, run.stopped_by(), limit))
    return ["%s: %s" % (name, what) for what in wrong]


def told_of_cut_entries(name, document, times):
    """What is told of the entries that are cut: a message for each, on the last line."""
    once, each = CUT.get(name, (0, 0))
    return (once + each * times) * (b"tbl: line %d: entry cut\n" % document.count(b"\n"))


def check_growing(folder, name):
    """A table, and one of four times as many repetitions, by both commands."""
    front, text, behind, count = GROWING[name]
    sizes = {count: MOST_KILOBYTES_OF_TABLES, 4 * count: KILOBYTES_OF_GROWN_TABLES}
    options = (*GROWING_OPTIONS, "--width=%d" % GROWING_WIDTHS.get(name, WIDEST))
    wrong = []
    for command in ("tbl", "both"):
        quickest = {}
        for rounds in range(1, MOST_ROUNDS + 1):
            for times in sizes:
                (folder / "document").write_bytes(front + times * text + behind)
                run = Run(folder, options, beginning_and_length, command)
                quickest[times] = min(quickest.get(times, run), run, key=lambda one: one.seconds)
            if rounds >= LEAST_ROUNDS and quickest[4 * count].seconds <= MOST_GROWTH * quickest[count].seconds + CHANGE_OF_GROWTH:
                break
        else:
            wrong.append("%s: %.4f seconds, and %.4f for a quarter of it" % (command, quickest[4 * count].seconds, quickest[count].seconds))
        for times, most in sizes.items():
            run = quickest[times]
            wrong += too_much(run, run.kilobytes, most)
            if run.given[::2] != (0, told_of_cut_entries(name, front + times * text + behind, times)):
                wrong.append("%s of %d: status %d, and %r" % (command, times, run.given[0], run.given[2][:SHOWN]))
    return ["%s: %s" % (name, what) for what in wrong]


def check_filled(folder, name):
    """A table that fills the width, and one of one column more, by both commands."""
    wrong = []
    for command in ("tbl", "both"):
        for document, limit in zip(FILLED[name], (None, "width")):
            options = ("--width=%d" % WIDEST, "--line-length=%d" % WIDEST)
            run, more = formatted(folder, "%s, %s" % (name, command), document, options, command)
            wrong += more
            if run.stopped_by() != limit:
                wrong.append("%s: %s is stopped by %s, and not by %s" % (name, command, run.stopped_by(), limit))
            widest = max(map(len, run.given[1].splitlines()), default=0)
            if command == "both" and limit is None and widest != WIDEST:
                wrong.append("%s: %d columns" % (name, widest))
    return wrong


def check_bytes_of_tables(folder, name):
    """Each byte in all places of tables, by both commands."""
    wrong = []
    for value in range(256):
        document = b"".join(TABLES_AROUND).replace(b"%s", bytes([value]))
        for command in ("tbl", "both"):
            wrong += formatted(folder, "%s %d, %s" % (name, value, command), document, (), command)[1]
    return wrong


def check_random_tables(folder, name):
    """Tables of random pieces, by both commands."""
    wrong = []
    for seed in range(RANDOM_DOCUMENTS):
        document = b".TS\n" + b"".join(random.Random(seed).choices(RANDOM_TABLES[name], k=600))
        for options in OPTIONS_OF_TABLES:
            for command in ("tbl", "both"):
                wrong += formatted(folder, "%s %d, %s" % (name, seed, command), document, options, command)[1]
    return wrong


def check_nested(folder, name):
    """Escapes within escapes, not ended, ended by a newline and by delimiters."""
    nested = NESTED[name] * NESTING
    wrong = []
    for end in (b"", b"\n", b"x" + b"'\"" * NESTING + b"\n"):
        wrong += formatted(folder, name, nested + end, ROOM)[1]
    return wrong


def check_bytes(folder, name):
    """Each byte in all places, with filling and without, and behind a backslash at the end."""
    wrong = []
    for value in range(256):
        byte = bytes([value])
        lines = b"\n".join(AROUND).replace(b"%s", byte) + b"\n"
        wrong += formatted(folder, "%s %d" % (name, value), lines + b".nf\n" + lines + b"\\" + byte)[1]
    return wrong


def check_random(folder, name):
    """Documents of random pieces."""
    wrong = []
    for seed in range(RANDOM_DOCUMENTS):
        document = b"".join(random.Random(seed).choices(RANDOM[name], k=600))
        for options in OPTIONS:
            wrong += formatted(folder, "%s %d" % (name, seed), document, options)[1]
    return wrong


CHECKS = dict.fromkeys(RANDOM, check_random) | dict.fromkeys(RANDOM_TABLES, check_random_tables)
CHECKS |= {"bytes": check_bytes, "bytes_of_tables": check_bytes_of_tables}
CHECKS |= dict.fromkeys(LONG, check_long) | dict.fromkeys(FAR, check_far) | dict.fromkeys(NESTED, check_nested)
CHECKS |= dict.fromkeys(TABLES, check_tables) | dict.fromkeys(FAR_TABLES, check_far_table)
CHECKS |= dict.fromkeys(TELLING, check_telling) | dict.fromkeys(TOLD_IN_ORDER, check_told_in_order)
CHECKS |= dict.fromkeys(GROWING, check_growing) | dict.fromkeys(FILLED, check_filled)


def check(program, kind):
    """Runs a kind in a folder of its own. Answers what is wrong, and the seconds that it took."""
    global PROGRAM
    PROGRAM, start = program, time.monotonic()
    with tempfile.TemporaryDirectory() as folder:
        return CHECKS[kind](pathlib.Path(folder), kind), time.monotonic() - start


def main():
    program, words = PROGRAM, sys.argv[1:]
    if words[:1] == ["--program"]:
        program, words = pathlib.Path(words[1]).resolve(), words[2:]
    if not program.exists():
        raise SystemExit("tests/hostile.py: %s is missing; ./roff --prove builds it" % program)
    if not GNU_TIME.exists():
        raise SystemExit("tests/hostile.py: %s is missing, which measures" % GNU_TIME)
    for kind in set(words) - set(CHECKS):
        raise SystemExit("tests/hostile.py: no documents are named %s" % kind)
    kinds = words or list(CHECKS)
    failures = []
    with concurrent.futures.ProcessPoolExecutor(AT_ONCE, initializer=limit_time) as pool:
        running = {pool.submit(check, program, kind): kind for kind in kinds}
        for ended in concurrent.futures.as_completed(running):
            wrong, seconds = ended.result()
            print("%-50s %6.1f s%s" % (running[ended], seconds, "  FAILED" if wrong else ""), *wrong, sep="\n  ", flush=True)
            failures += wrong
    for failure in failures:
        print(failure)
    print("%d kinds of documents, %d failures" % (len(kinds), len(failures)))
    sys.exit(1 if failures else 0)


if __name__ == "__main__":
    main()
