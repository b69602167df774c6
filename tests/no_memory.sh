#!/bin/sh
# Runs each command of the built program with limits that ask for more memory than it may have:
#
#     tests/no_memory.sh
#
# It can't start: it must say so, write nothing and end with status 1. At its usual limits it must end with
# status 0. The exit status is 1 if it does anything else.

top=$(CDPATH='' cd -P -- "$(dirname -- "$0")/.." && pwd -P) || exit 1
program=$top/crates/roff/out/roff

# What the program may have, in kilobytes: enough for the usual limits, and less than an option asks for.
memory=100000

if [ ! -x "$program" ]; then
    echo "tests/no_memory.sh: $program is missing; ./roff --prove builds it" >&2
    exit 1
fi
work=$(mktemp -d) || exit 1
trap 'rm -rf "$work"' EXIT
trap 'exit 1' HUP INT PIPE TERM

# run WORD ..: what the program does with this little memory
run() {
    (ulimit -v "$memory" && exec "$program" "$@") <"$top/examples/first.roff" >"$work/txt" 2>"$work/messages"
    echo $? >"$work/status"
}

# differs ENDING TEXT: whether a file has another text than this, which is shown then
differs() {
    printf '%b' "$2" >"$work/wanted"
    cmp -s "$work/wanted" "$work/$1" && return 1
    echo "FAILED: $1; wanted (<) and written (>):"
    diff "$work/wanted" "$work/$1" | head -n 20
}

failures=0

# check COMMAND OPTION ..: a command at its usual limits, and with each of these options
check() {
    command=$1
    shift
    run "$command"
    differs status '0\n' && failures=$((failures + 1))
    for option in "$@"; do
        run "$command" "$option"
        differs txt '' && failures=$((failures + 1))
        differs messages 'roff: out of memory\n' && failures=$((failures + 1))
        differs status '1\n' && failures=$((failures + 1))
    done
}

check nroff --store=1000000000
check tbl --text=1000000000
check both --store=1000000000 --text=1000000000
echo "$failures differences"
[ "$failures" -eq 0 ]
