#!/bin/sh
# Runs the worked rows and the examples on the built program, with their real files:
#
#     tests/rows.sh [--program PROGRAM] [--data FOLDER] [NAME ..]
#
# PROGRAM is crates/roff/out/roff if none is given, and FOLDER crates/test_rows/data. NAME is a row or a
# folder of rows. A row is a document NAME.roff, with its output in NAME.txt, its messages in
# NAME.messages, its exit status in NAME.status and the words of the command line in NAME.args; where
# NAME.source says "fails", a folder is read behind it. What isn't there is usual: no output, no messages,
# status 0, and the command nroff. Where the words name "-" the document is standard input, and else it is
# the last file, but for that folder. The exit status is 1 if a row differs.

top=$(CDPATH='' cd -P -- "$(dirname -- "$0")/.." && pwd -P) || exit 1
program=$top/crates/roff/out/roff
data=$top/crates/test_rows/data
while :; do
    case ${1-} in
        --program) program=$(realpath -- "${2:?}") ;;
        --data) data=$(realpath -- "${2:?}") ;;
        *) break ;;
    esac
    shift 2
done

if [ ! -x "$program" ]; then
    echo "tests/rows.sh: $program is missing; ./roff --prove builds it" >&2
    exit 1
fi
work=$(mktemp -d) || exit 1
trap 'rm -rf "$work"' EXIT
trap 'exit 1' HUP INT PIPE TERM

# run_row FILE_WITHOUT_ENDING
run_row() {
    set -- "$1" nroff
    if [ -e "$1.args" ]; then
        row=$1
        set --
        while IFS= read -r word; do
            set -- "$@" "$word"
        done <"$row.args"
        set -- "$row" "$@"
    fi
    row=$1
    shift
    case " $* " in
        *" - "*) ;;
        *) set -- "$@" "$row.roff" ;;
    esac
    if [ -e "$row.source" ]; then
        set -- "$@" "$work"
    fi
    "$program" "$@" <"$row.roff" >"$work/txt" 2>"$work/messages"
    echo $? >"$work/status"
    for ending in txt messages status; do
        wanted=$row.$ending
        if [ ! -e "$wanted" ]; then
            wanted=$work/usual
            : >"$wanted"
            [ $ending != status ] || echo 0 >"$wanted"
        fi
        if ! cmp -s "$wanted" "$work/$ending"; then
            echo "FAILED: ${row#"$data"/}: $ending; wanted (<) and written (>):"
            diff "$wanted" "$work/$ending" | head -n 20
            failures=$((failures + 1))
        fi
    done
    rows=$((rows + 1))
}

failures=0
rows=0
for document in "$data"/rows/*/*.roff "$data"/examples/*.roff; do
    row=${document%.roff}
    name=${row##*/}
    folder=${row%/*}
    case " ${*:-$name} " in
        *" $name "* | *" ${folder##*/} "*) run_row "$row" ;;
    esac
done
echo "$rows rows, $failures differences"
[ "$failures" -eq 0 ] && [ "$rows" -gt 0 ]
