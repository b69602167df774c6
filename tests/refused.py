#!/usr/bin/env python3
"""Refuses each allocation of a run of the built program in turn, and fails each of its reads and writes once:

    tests/refused.py [COMMAND ..]

COMMAND is nroff, tbl or both; all three are tried if none is named, and help, the version, mistakes in the options and many words beside
them. A run whose allocation is refused has to write nothing, to tell "roff: out of memory" and nothing else, and to end with status 1,
wherever that was: as the words are read, in their parser, or as the run starts. Or it does without it, and is as it is otherwise, to the
byte (the library reserves room for the words, and grows it if there is none). One whose read or write fails
has to end with status 2, and to have written and told a beginning of what it writes and tells otherwise, with that failure told
behind it; or with status 1, where what it tells is why it doesn't start. Nothing may be lost in front of a call that fails. The calls are
those of the C library, which a library of our own stands in front of: it is made by the C compiler `cc`. The exit status is 1 if
a run does anything else.
"""
import os
import pathlib
import re
import subprocess
import sys
import tempfile

TOP = pathlib.Path(__file__).resolve().parent.parent
PROGRAM = TOP / "crates" / "roff" / "out" / "roff"
DOCUMENT = TOP / "crates" / "test_rows" / "data" / "examples" / "first.roff"
MEMORY = b"roff: out of memory\n"
FAILURES = re.compile(rb"(nroff|tbl): line \d+: (read|write) failed\n")

# The Nth allocation is refused, and the Nth read or write fails, as the environment says; calls behind it don't. At its end a run
# writes into a file how many there were of each.
CALLS = r"""
#define _GNU_SOURCE
#include <errno.h>
#include <stdio.h>
#include <stdlib.h>
#include <sys/syscall.h>
#include <unistd.h>
extern void *__libc_malloc(size_t);
extern void *__libc_realloc(void *, size_t);
static long allocations, calls;
static int is_asked(const char *name, long count) { const char *n = getenv(name); return n && atol(n) == count; }
void *malloc(size_t size) { return is_asked("REFUSED", ++allocations) ? NULL : __libc_malloc(size); }
void *realloc(void *old, size_t size) { return is_asked("REFUSED", ++allocations) ? NULL : __libc_realloc(old, size); }
static ssize_t call(long number, int file, void *bytes, size_t size) {
    if (is_asked("FAILED", ++calls)) { errno = EIO; return -1; }
    return syscall(number, file, bytes, size);
}
ssize_t read(int file, void *bytes, size_t size) { return call(SYS_read, file, bytes, size); }
ssize_t write(int file, const void *bytes, size_t size) { return call(SYS_write, file, (void *)bytes, size); }
__attribute__((destructor)) static void tell(void) {
    long before = allocations, done = calls;
    const char *name = getenv("COUNTS");
    FILE *file = name ? fopen(name, "w") : NULL;
    if (file) { fprintf(file, "%ld %ld", before, done); fclose(file); }
}
"""


def run(library, words, **asked):
    """What a run writes, what it tells and how it ends."""
    with open(DOCUMENT, "rb") as document:
        done = subprocess.run([PROGRAM, *words], stdin=document, capture_output=True, env={"LD_PRELOAD": library, **asked})
    return done.stdout, done.stderr, done.returncode


def is_refused(usual, got):
    """Whether a run was refused an allocation as it should: it tells that, and not why else it might not start, nor nothing."""
    return got == (b"", MEMORY, 1) or got == usual


def is_cut(usual, got):
    """Whether a run was cut off by a call that failed: what it wrote and told are beginnings, but for the failure's message."""
    text, told, status = got
    told = FAILURES.sub(b"", told)
    return usual[0].startswith(text) and usual[1].startswith(told) and status == (1 if usual[2] == 1 else 2)


def differences(library, words, counts):
    """The calls that were refused, or failed, and weren't answered as they should; how many there are is printed."""
    usual = run(library, words, COUNTS=counts)
    allocations, calls = map(int, pathlib.Path(counts).read_text().split())
    passed = 0
    for count in range(1, allocations + 1):
        got = run(library, words, REFUSED=str(count))
        passed += got == usual
        if not is_refused(usual, got):
            yield "allocation %d" % count, got
    for count in range(1, calls + 1):
        got = run(library, words, FAILED=str(count))
        if not is_cut(usual, got):
            yield "read or write %d" % count, got
    print("%.60s: %d allocations, of which %d may fail, and %d reads and writes" % (" ".join(words), allocations, passed, calls))


def main():
    if not PROGRAM.exists():
        sys.exit("tests/refused.py: %s is missing; ./roff --prove builds it" % PROGRAM)
    commands = [[word] for word in sys.argv[1:] or ("nroff", "tbl", "both")]
    others = [["--help"], ["--version"], ["help", "tbl"], ["nroff", "--bytes", "x"], ["nroff", "-o", "x"], ["nroff", "-ra5", "-rx"]]
    others += [["nroff", "-ra5", "-rb7", "none"], ["nroff", *["-"] * 40, "-ra5"]]
    failures = 0
    with tempfile.TemporaryDirectory() as folder:
        library = os.path.join(folder, "calls.so")
        made = ["cc", "-shared", "-fPIC", "-o", library, "-x", "c", "-"]
        subprocess.run(made, input=CALLS.encode(), check=True)
        for words in commands + others * (len(sys.argv) == 1):
            for which, got in differences(library, words, os.path.join(folder, "counts")):
                failures += 1
                print("FAILED: %s, %s: %r" % (" ".join(words), which, got))
    print("%d differences" % failures)
    raise SystemExit(failures > 0)


main()
