#!/bin/sh
# Formats a real text, the GNU General Public License, with the built program, and compares its lines
# with those of the formatters that are installed:
#
#     tests/real_text.sh [KIND ..]
#
# The text is formatted as it is, and as a document of each other kind below: with centred lines, temporary
# indents, tabs, other spacing, interrupted words, in two environments, without filling, and with spaces on
# pages of several lengths; each in pages of 66 lines, and on one page for all of it. Adjusted lines are
# compared with runs of blanks taken as one, since each formatter has its own rule for where blanks are added,
# and lines that aren't adjusted byte for byte. Blank lines are compared too, those that fill the last page
# among them, but for two kinds: those at the end of the one page, which is much longer than the text, and with
# 9base those of `.ls`. The exit status is 1 if something differs.

top=$(CDPATH='' cd -P -- "$(dirname -- "$0")/.." && pwd -P) || exit 1
program=$top/crates/roff/out/roff
text=/usr/share/common-licenses/GPL-3
kinds='text centred temporary_indents tabs unfilled spaced interrupted environments short_pages'

if [ ! -x "$program" ]; then
    echo "tests/real_text.sh: $program is missing; ./roff --prove builds it" >&2
    exit 1
fi
if [ ! -r "$text" ]; then
    echo "tests/real_text.sh: $text is missing, so there is nothing to format" >&2
    exit 1
fi
work=$(mktemp -d) || exit 1
trap 'rm -rf "$work"' EXIT
trap 'exit 1' HUP INT PIPE TERM

# No hyphenation, in either environment.
printf '.nh\n.ev 1\n.nh\n.ev\n' >"$work/head"
# The classes of characters of groff are set empty, so that lines end at blanks alone.
{ echo '.do cflags 0 -'; cat "$work/head"; } >"$work/groff_head"
# In pages of 66 lines, which are the usual ones, and on one page.
printf '.na\n.ev 1\n.na\n.ev\n' >"$work/unadjusted"
: >"$work/adjusted"
for mode in adjusted unadjusted; do
    { echo '.pl 30000i'; cat "$work/$mode"; } >"$work/${mode}_on_one_page"
done
modes='adjusted adjusted_on_one_page unadjusted unadjusted_on_one_page'
# A minus is printed as a hyphen is, but no formatter breaks a word behind it.
sed 's/-/\\-/g' "$text" >"$work/plain"

if [ -x /usr/lib/plan9/bin/nroff ]; then
    plan9=/usr/lib/plan9/bin/nroff
elif [ -x /usr/lib/plan9/bin/troff ]; then
    plan9='/usr/lib/plan9/bin/troff -N'
else
    plan9=
fi

# make KIND: the text as a document of this kind.
make() {
    case $1 in
        text) cat "$text" ;;
        # The lines of the text have at most 75 bytes.
        centred) echo '.ll 75n' && awk '{ sub(/^ */, ""); print } /^$/ { print ".ce 3" }' "$work/plain" ;;
        temporary_indents)
            echo '.in 4n' && awk '{ sub(/^ */, ""); print } /^$/ { print n++ % 2 ? ".ti -2n" : ".ti +3n" }' "$work/plain" ;;
        # A tab stands in the place of every second gap.
        tabs)
            printf '.nf\n.ta 6n 20n +9n 38n 50n 64n 72n\n'
            awk '{ line = $1; for (i = 2; i <= NF; i++) line = line (i % 2 ? "\t" : " ") $i; print line }' "$work/plain" ;;
        unfilled) echo '.nf' && cat "$work/plain" ;;
        spaced) echo '.ls 2' && cat "$work/plain" ;;
        # The first word of four letters of every third line goes on in a line of its own.
        interrupted)
            awk 'NR % 3 == 0 && match($0, /[a-z][a-z][a-z][a-z]/) {
                     print substr($0, 1, RSTART + 1) "\\c"; print substr($0, RSTART + 2); next
                 } { print }' "$work/plain" ;;
        # Of every five paragraphs two are narrower.
        environments)
            printf '.ev 1\n.ll 50n\n.in 6n\n.ev\n'
            awk '{ sub(/^ */, "") } !/^$/ { print; next } ++n % 5 == 2 { print ".ev 1"; next }
                 n % 5 == 4 { printf ".br\n.ev\n"; next } { print }' "$work/plain" ;;
        # Spaces of 3 and of 9 lines in turn, which stop at the page's end; the length of pages changes.
        short_pages)
            awk '{ sub(/^ */, "") } !/^$/ { print; next } ++n % 7 == 0 { print ".br\n.pl " 10 + n % 13; next }
                 { print n % 2 ? ".sp 3" : ".sp 9" }' "$work/plain" ;;
        *) echo "tests/real_text.sh: no document is named $1" >&2; return 1 ;;
    esac
}

# lines_wanted KIND: how many lines that aren't blank our program makes of it, and how many in all, in whole pages.
lines_wanted() {
    case $1 in
        text | interrupted) echo 658 of 792 ;;
        spaced) echo 658 of 1452 ;;
        centred) echo 545 of 726 ;;
        temporary_indents) echo 639 of 792 ;;
        tabs | unfilled) echo 553 of 726 ;;
        environments) echo 688 of 792 ;;
        short_pages) echo 605 of 1135 ;;
    esac
}

# format FORMATTER MODE: formats the document behind the requests of a mode.
format() {
    case $1 in
        roff) "$program" nroff "$work/head" "$work/$2" "$work/document" ;;
        groff) groff -C -Tascii -P-cbou "$work/groff_head" "$work/$2" "$work/document" ;;
        9base) $plan9 "$work/head" "$work/$2" "$work/document" ;;
    esac
}

# compared MODE: of what a formatter wrote in a mode, what is compared.
compared() {
    case $1 in
        adjusted) with_single_blanks ;;
        adjusted_on_one_page) with_single_blanks | without_last_blank_lines ;;
        unadjusted) cat ;;
        unadjusted_on_one_page) without_last_blank_lines ;;
    esac
}

with_single_blanks() {
    tr -s ' ' | sed 's/ $//'
}

# The blank lines at the end fill the page.
without_last_blank_lines() {
    awk '/./ { for (; blank > 0; blank--) print ""; print; next } { blank++ }'
}

failures=0

# fail WHAT
fail() {
    echo "FAILED: $kind: $1"
    failures=$((failures + 1))
}

# format_in_modes FORMATTER
format_in_modes() {
    for mode in $modes; do
        format "$1" "$mode" >"$work/written" || fail "$1 ended with status $?"
        compared "$mode" <"$work/written" >"$work/$1.$mode"
    done
}

# Where a line of `.ls` is the last on its page, 9base begins the next page with the blank line behind it.
without_blank_lines() {
    grep . "$1" >"$work/lines" && mv "$work/lines" "$1"
}

# compare_with PEER
compare_with() {
    format_in_modes "$1"
    for mode in $modes; do
        ours=$work/roff.$mode
        theirs=$work/$1.$mode
        if [ "$1 $kind" = '9base spaced' ]; then
            without_blank_lines "$ours"
            without_blank_lines "$theirs"
        fi
        if cmp -s "$ours" "$theirs"; then
            echo "passed: $kind: the lines of $1, $mode ($(($(wc -l <"$ours"))) lines)"
        else
            fail "the lines of $1, $mode; ours (<) and those of $1 (>):"
            diff "$ours" "$theirs" | head -n 20
        fi
    done
}

# compare_kind KIND
compare_kind() {
    kind=$1
    make "$kind" >"$work/document" || exit 1
    format_in_modes roff
    lines="$(grep -c . "$work/roff.adjusted") of $(($(wc -l <"$work/roff.adjusted")))"
    wanted=$(lines_wanted "$kind")
    if [ "$lines" = "$wanted" ]; then
        echo "passed: $kind: $lines lines aren't blank"
    else
        fail "$lines lines aren't blank; $wanted are wanted"
    fi
    [ -z "$groff" ] || compare_with groff
    [ -z "$plan9" ] || compare_with 9base
}

groff=$(command -v groff)
[ -n "$groff" ] || echo "left out: groff isn't installed"
[ -n "$plan9" ] || echo "left out: the troff of 9base isn't installed"
echo "comparing $text as formatted by $program"
for name in ${*:-$kinds}; do
    compare_kind "$name"
done
[ "$failures" -eq 0 ]
