"""The programs of crates that a script times, proved and built where that is needed."""
import os
import subprocess
import sys

CRATES = os.path.join(os.path.dirname(os.path.dirname(os.path.realpath(__file__))), "crates")


def program_of(crate):
    """The path of a crate's program."""
    return os.path.join(CRATES, crate, "out", crate)


def is_outdated(crate, below):
    """Whether the program of a crate is missing, or a source of it or of the crates below is newer."""
    program = program_of(crate)
    if not os.access(program, os.X_OK):
        return True
    built = os.path.getmtime(program)
    for name in (*below, crate):
        for part in ("src", "specs", "proofs"):
            for folder, _, files in os.walk(os.path.join(CRATES, name, part)):
                if any(os.path.getmtime(os.path.join(folder, file)) > built for file in files):
                    return True
    return False


def build(script, crate, words):
    """Proves and builds the program of a crate, and runs it once on words that ask for nothing."""
    print(f"{script}: proving and building crates/{crate}, which takes minutes", file=sys.stderr)
    folder, program, none = os.path.join(CRATES, crate), program_of(crate), subprocess.DEVNULL
    try:
        status = subprocess.run(["rt", "run", "--", *words], cwd=folder, stdin=none, stdout=none, stderr=none).returncode
    except FileNotFoundError:
        sys.exit(f"{script}: building needs the command rt of the Rattle toolchain, which isn't in PATH")
    if status != 0 or not os.access(program, os.X_OK):
        sys.exit(f"{script}: the build failed; rt run in crates/{crate} says why")
    os.utime(program)
