#!/usr/bin/env python3
"""Runs the worked rows and the examples on the built program, within each of some limits in turn, and with devices that
fail behind each byte:

    tests/sweeps.py [--program PROGRAM] [NAME ..]

PROGRAM is crates/roff/out/roff if none is given. NAME is a row or a folder of rows. Each document is run by its command with
each of the command's limits from 0 up to the first value with which no limit stops it. Within a smaller limit the output
must be a beginning of what it is within the next one, and so must the messages without the one that tells of the limit;
where no limit stops it they must be the row's. Within each limit on messages those are whole lines that are no longer than
it, and the output a beginning of the row's. The same must hold where the source fails behind each of the document's bytes:
there a folder, which can be opened but not read, follows a file with the bytes before. A document of `tbl` or `both` is also
run with an output, and with messages, that take so many bytes and no more: they must have the first bytes of the row's, and
the status is 2. Where output and messages go to one pipe, and each fits into the program's buffer, the output comes first.
Rows that have other options than `-r` are left out, and so are those that don't end with status 0. The exit status is 1 if
something else comes out.
"""
import pathlib
import resource
import subprocess
import sys
import tempfile

TOP = pathlib.Path(__file__).resolve().parent.parent
PROGRAM = TOP / "crates" / "roff" / "out" / "roff"
DATA = TOP / "crates" / "test_rows" / "data"
OF_TEXT = ("bytes", "store", "stack", "depth", "names", "line", "environments", "conditions", "traps", "diversions", "output",
           "messages")
OF_TABLES = ("rows", "columns", "text", "width")
# The folders of rows about pages.
OF_PAGES = ("pl", "sp", "wh", "bp", "ne", "diversions")
# How many bytes the program's buffers hold.
HELD = 8_192
LIMITS = {"nroff": OF_TEXT, "tbl": OF_TABLES + ("bytes", "output", "messages"), "both": OF_TEXT + OF_TABLES}


class Document:
    """A document, with its command and what the command makes of it; the output and the messages of it last."""

    def __init__(self, path):
        self.path = path
        self.command, *options = beside(path, ".args", b"nroff").decode().split("\n")
        self.registers = [option for option in options if option]
        self.wanted = beside(path, ".txt", b""), beside(path, ".messages", b"")
        are_registers = all(option.startswith("-r") and len(option) > 2 for option in self.registers)
        self.is_swept = are_registers and beside(path, ".status", b"0").strip() == b"0"

    def run(self, *words, **more):
        command = [PROGRAM, self.command, *self.registers, *words]
        return subprocess.run(command, stdin=subprocess.DEVNULL, timeout=60, **more)


def beside(path, ending, usual):
    """What the file of this ending has, or what is usual."""
    path = path.with_suffix(ending)
    return path.read_bytes() if path.exists() else usual


def within_limit(document, limit, value):
    """Output, messages without that of the limit, and whether the limit stopped the run."""
    run = document.run("--%s=%d" % (limit, value), document.path, capture_output=True)
    return without_last(document, run, 3, b"limit %s (%d) reached\n" % (limit.encode(), value))


def within_messages(document, value):
    """The same of the limit on messages."""
    output, messages, is_stopped = within_limit(document, "messages", value)
    are_whole = not messages or messages.endswith(b"\n")
    if not (are_whole and len(messages) <= value and document.wanted[1].startswith(messages) and document.wanted[0].startswith(output)):
        raise SystemExit("%s: --messages %d tells %r, and writes %r" % (document.path, value, messages, output))
    return output, messages, is_stopped


def behind_bytes(document, folder, value):
    """The same where the source fails behind so many bytes."""
    source = document.path.read_bytes()
    if value > len(source):
        return *document.wanted, False
    (folder / "front").write_bytes(source[:value])
    run = document.run(folder / "front", folder, capture_output=True)
    # A run that `.ex` ended, or that ended with the last byte, didn't ask its source again.
    return without_last(document, run, 2, b"read failed\n") if run.returncode else (run.stdout, run.stderr, True)


def without_last(document, run, status, text):
    messages = run.stderr.splitlines(keepends=True)
    if run.returncode == status:
        last = messages.pop()
        if not last.endswith(text):
            raise SystemExit("%s: %r, where %r was to come" % (document.path, last, text))
    return run.stdout, b"".join(messages), run.returncode == status


def sweep(document, name, formatted):
    """How many runs it took; what is wrong is printed, and answered as None."""
    before = (b"", b"")
    value = 0
    while True:
        output, messages, is_stopped = formatted(value)
        if not (output.startswith(before[0]) and messages.startswith(before[1])):
            print("%s: %s %d takes something back" % (document.path.name, name, value))
            return None
        if not is_stopped and (output, messages) != document.wanted:
            print("%s: %s %d isn't the row" % (document.path.name, name, value))
            return None
        if not is_stopped:
            return value + 1
        before = (output, messages)
        value += 1


def sweep_sinks(document, folder):
    """The same for sinks that take so many bytes. A file may become no longer than that."""
    runs = 0
    for which, name in enumerate(("stdout", "stderr")):
        wanted = document.wanted[which]
        for room in range(len(wanted) + 1):
            with (folder / "kept").open("wb") as kept:
                pipes = {"stdout": subprocess.PIPE, "stderr": subprocess.PIPE, name: kept}
                run = document.run(document.path, **pipes, restore_signals=False, preexec_fn=lambda: limit_files(room))
            other = run.stderr if which == 0 else run.stdout
            kept = (folder / "kept").read_bytes()
            is_cut = room < len(wanted)
            if kept != wanted[:room] or run.returncode != (2 if is_cut else 0) or not document.wanted[1 - which].startswith(other):
                print("%s: %s with room for %d: status %d, %r" % (document.path.name, name, room, run.returncode, kept))
                return None
            runs += 1
    return runs


def run_together(document):
    """One run to one pipe."""
    run = document.run(document.path, stdout=subprocess.PIPE, stderr=subprocess.STDOUT)
    if max(map(len, document.wanted)) <= HELD and run.stdout != b"".join(document.wanted):
        print("%s: to one pipe %r" % (document.path.name, run.stdout))
        return None
    return 1


def limit_files(size):
    resource.setrlimit(resource.RLIMIT_FSIZE, (size, size))


def sweeps_of(document, folder):
    """How many runs each sweep of a document took."""
    for limit in LIMITS[document.command]:
        within = within_messages if limit == "messages" else lambda document, value: within_limit(document, limit, value)
        yield sweep(document, "--" + limit, lambda value: within(document, value))
    yield sweep(document, "a source that fails behind", lambda value: behind_bytes(document, folder, value))
    yield run_together(document)
    if document.command != "nroff" or document.path.parent.name in OF_PAGES:
        yield sweep_sinks(document, folder)


def main():
    global PROGRAM
    words = sys.argv[1:]
    if words[:1] == ["--program"]:
        PROGRAM, words = pathlib.Path(words[1]).resolve(), words[2:]
    if not PROGRAM.exists():
        raise SystemExit("tests/sweeps.py: %s is missing; ./roff --prove builds it" % PROGRAM)
    names = set(words)
    counts, documents = [], 0
    with tempfile.TemporaryDirectory() as folder:
        for path in sorted(DATA.rglob("*.roff")):
            if names and not names & {path.stem, path.parent.name}:
                continue
            document = Document(path)
            if document.is_swept:
                documents += 1
                counts += sweeps_of(document, pathlib.Path(folder))
    failed = counts.count(None)
    print("%d documents, %d runs, %d failed" % (documents, sum(count or 0 for count in counts), failed))
    sys.exit(1 if failed or not documents else 0)


if __name__ == "__main__":
    main()
