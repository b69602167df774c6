#!/usr/bin/env python3
"""Takes shortcuts away, each in a build of its own, and runs the worked documents: none may differ.

    tests/shortcuts.py [NAME ..]    # those of these names, or all
    tests/shortcuts.py --list       # their names, and what each takes at once

A shortcut takes together what a run takes byte by byte without it. Where one is chosen stands one arm of a `match`, one `if` or one call,
and each row of SHORTCUTS says what stands there without it. The crates are copied, the row is edited, and the program `test_rows` is
compiled by `rt try`, without proofs, and run on its data: it must print what `crates/test_rows/stdout` has. So a shortcut is found without
which the program isn't just slower, and one whose row has moved. The exit status is 1 if a row differs, can't be edited or doesn't
compile. It wants the toolchain's `rt`, and takes some four minutes a shortcut.
"""
import pathlib
import shutil
import subprocess
import sys
import tempfile

TOP = pathlib.Path(__file__).resolve().parent.parent
PASSING, FRONTS, BEGINNINGS = ("run_shortcuts/src/" + name for name in ("passing.rt", "fronts.rt", "beginnings.rt"))
UNFILLED, LINE_ENDS, GLYPHS, ARGUMENTS = ("run_shortcuts/src/" + name for name in ("unfilled.rt", "line_ends.rt", "glyphs.rt", "arguments.rt"))
# A name, what is taken at once, the file, what stands there once, and what does without the shortcut.
SHORTCUTS = (
    ("text_lines", "lines of text up to their newlines, where words aren't measured", UNFILLED,
     "    end_line_in_front(run, source, out, err)\n}", "    Ok(Passed::Not)\n}"),
    ("beginnings", "text where a line begins", BEGINNINGS, "        LineState::LineStart => begin_or_end_line(run, source, out, err),\n", ""),
    ("text", "text behind other text", FRONTS, "        Some(RunKind::Text) => tell_text(run, source),\n", ""),
    ("leading_blanks", "blanks that a line begins with", FRONTS,
     "        Some(RunKind::Blanks) => {\n            take_run(run, RunKind::Blanks, source);\n            true\n        }\n", ""),
    ("first_glyphs", "escapes where a line begins", BEGINNINGS, "        return begin_with_glyph(run, instead, source);\n", "        return instead;\n"),
    ("glyphs", "escapes behind text", FRONTS,
     "        Behind::Escape => tell_line_behind(run, source),\n", "        Behind::Escape => read_escape(run, source),\n"),
    ("names", "registers, strings and arguments behind text", FRONTS,
     "        Behind::Named => read_named(run, source),\n", "        Behind::Named => read_escape(run, source),\n"),
    ("first_names", "registers, strings and arguments behind text that a line begins with", BEGINNINGS,
     "        Behind::Named => {\n            let _ = take_named(run, source);\n            Passed::On\n        }\n", ""),
    ("control_lines", "fronts of control lines", PASSING, "        pass_control_line(run, source, out, err)\n", "        pass_line(run, source, out, err)\n"),
    ("short_names", "names of one byte on control lines", PASSING,
     "        ControlRead::Short => pass_short_name(run, source, out, err),\n", "        ControlRead::Short => Ok(false),\n"),
    ("first_strings", "strings that a line begins with", PASSING, "        ControlRead::Escape => Ok(put_string(run, source)),\n", "        ControlRead::Escape => Ok(false),\n"),
    ("held_names", "registers, strings and arguments among arguments", ARGUMENTS,
     "        BehindHeld::Named => pass_named(run, most, source, out, err),\n", ""),
    ("returns", "ends of calls", PASSING, "        ControlRead::Nothing => Ok(pass_return(run)),\n", "        ControlRead::Nothing => Ok(false),\n"),
    ("branch_blanks", "blanks in front of a branch", PASSING, "    take_branch_blanks(run, source);\n", ""),
    ("dropped", "lines that are dropped", PASSING, "        RunKind::Dropped { within_block } => pass_dropped(run, within_block, source),\n", ""),
    ("conditions", "conditions", PASSING, "        RunKind::Condition => pass_condition(run, source),\n", ""),
    ("held", "arguments of requests", PASSING, "        Some(RunKind::Arguments) => pass_arguments(run, None, source, out, err),\n", ""),
    ("held_for_calls", "arguments of calls", PASSING, "        Some(RunKind::CallArguments(most)) => pass_arguments(run, Some(most), source, out, err),\n", ""),
    ("comments", "comments behind arguments", ARGUMENTS,
     "        BehindHeld::Comment => end_comment(run, source, out, err),\n", ""),
    ("runs", "bytes of names, definitions and what is ignored", PASSING,
     "        _ => {\n            take_run(run, kind, source);\n            false\n        }\n", "        _ => false,\n"),
    ("copied_lines", "lines of definitions, and ignored ones", PASSING,
     "        RunKind::Definition => copy_run(run, kind, source),\n        RunKind::Ignored => copy_run(run, kind, source),\n", ""),
    ("copied_fronts", "such lines where one begins", PASSING, "    if take_lines(run, source) {\n        return true;\n    }\n", ""),
    ("silent_escapes", "escapes behind text that print nothing", GLYPHS, "    pass_silent(run, source)\n", "    false\n"),
    ("string_names", "names of strings", PASSING, "    take_string_name(run, source);\n", ""),
    ("string_fronts", "fronts of strings' texts", PASSING, "    take_string_front(run, source);\n", ""),
    ("titles", "parts of titles", PASSING, "    take_title_front(run, source);\n", ""),
    ("call_ends", "ends of lines that call", LINE_ENDS,
     "        LineState::Collecting(Purpose::Calling { name }) => end_call_line(run, name, out, err),\n", ""),
    ("request_ends", "ends of lines of requests", LINE_ENDS,
     "        LineState::Collecting(Purpose::Arguments { breaks, request }) => {\n            end_request(run, breaks, request, out, err)\n        }\n", ""),
)


def copied(folder):
    """Copies what a build takes into a folder, and not what earlier ones left."""
    for name in ("crates.txt", "HANDLES"):
        shutil.copy(TOP / name, folder)
    shutil.copytree(TOP / "crates", folder / "crates", symlinks=True, ignore=shutil.ignore_patterns("out", "must-fail"))


def edited(folder, file, old, new):
    """Puts what stands without the shortcut in its place. Returns whether that was found once."""
    path = folder / "crates" / file
    text = path.read_text(encoding="utf-8")
    path.write_text(text.replace(old, new), encoding="utf-8")
    return text.count(old) == 1


def difference(folder):
    """Returns how what the rows give differs, if it does."""
    rows = folder / "crates" / "test_rows"
    wanted = (rows / "stdout").read_text(encoding="utf-8")
    run = subprocess.run(["rt", "try", "--", rows / "data"], cwd=rows, stdin=subprocess.DEVNULL, capture_output=True, text=True, errors="replace", check=False)
    if "run=ended" not in run.stderr:
        return run.stderr[-2000:] or "it didn't run"
    lost = sorted(set(wanted.splitlines()) - set(run.stdout.splitlines()))
    return f"{len(lost)} rows differ: {' '.join(lost[:10])}" if lost or run.stdout != wanted else ""


def main():
    names = sys.argv[1:]
    if names == ["--list"]:
        print("\n".join(f"{name:24}{what}" for name, what, *_ in SHORTCUTS))
        return
    unknown = set(names) - {name for name, *_ in SHORTCUTS}
    if unknown:
        sys.exit(f"tests/shortcuts.py: no shortcut is called {' or '.join(sorted(unknown))}")
    chosen = [row for row in SHORTCUTS if not names or row[0] in names]
    failures = 0
    for name, what, file, old, new in chosen:
        with tempfile.TemporaryDirectory() as place:
            folder = pathlib.Path(place)
            copied(folder)
            said = difference(folder) if edited(folder, file, old, new) else f"{file}: its row doesn't stand there once"
        failures += bool(said)
        print(f"{name} ({what}): {said or 'no difference'}", flush=True)
    print(f"{len(chosen)} shortcuts, {failures} failures")
    sys.exit(bool(failures))


if __name__ == "__main__":
    main()
