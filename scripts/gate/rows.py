#!/usr/bin/env python3
"""Runs rows on the built program.

    scripts/gate/rows.py [--program PROGRAM] [FOLDER]

A row is a file below the folder, `rows` if no other is given, in one of two forms:

- NAME.test has sources, with each expected message at its line; source_rows.py says how. The files are added and checked
  once, and the whole output is compared. A row has this form where it can.
- NAME.session is a session, the bytes on standard input: for commands, for changes, and for sources that cannot be written
  so. NAME.stdout has the bytes on standard output. Where there are such files, NAME.args has options of the program, one a
  line, NAME.status its status, which is else 0, and the folder NAME.files what lies in the folder in which it runs.

A row prints nothing on standard error, and has a limit of time. The rows at the limits are not stored: limits.py makes them.
Each file that belongs to no whole row is a failure, and so is a NAME.test that is no row. Before the rows, one of the first
form is run as it stands, and with changes with each of which it has to fail (source_rows_test.py).

Ends with the line `rows: P passed, F failed`, and with status 0 or 1.
"""

import argparse
import difflib
import shutil
import subprocess
import sys
import tempfile
from pathlib import Path
from typing import NamedTuple, Optional

import source_rows_test
from judging import PROGRAM, Tally
from limits import LIMITS
from source_rows import NoRow, session_of

ROWS = Path(__file__).resolve().parent / "rows"
SECONDS = 10
# of what differs, so many lines are shown, and so many characters of each
LINES = 20
COLUMNS = 200
SOURCES = ".test"
SESSION = ".session"
PRINTED = ".stdout"
BESIDE = (PRINTED, ".args", ".status", ".files")


class Row(NamedTuple):
    """A session, with what it prints, the options of the program, its status, and the files beside it."""

    name: str
    session: bytes
    stdout: bytes
    args: tuple = ()
    status: int = 0
    files: Optional[Path] = None


def stored_session(path, name):
    """The row of a file NAME.session."""
    stdout, args, status, files = (path.with_suffix(suffix) for suffix in BESIDE)
    return Row(
        name,
        path.read_bytes(),
        stdout.read_bytes(),
        tuple(args.read_text().splitlines()) if args.is_file() else (),
        int(status.read_text()) if status.is_file() else 0,
        files if files.is_dir() else None,
    )


def stored_row(path, folder):
    """The row of a file NAME.test or NAME.session."""
    name = str(path.relative_to(folder).with_suffix(""))
    return Row(name, *session_of(path.read_bytes().decode())) if path.suffix == SOURCES else stored_session(path, name)


def is_row(path):
    """Whether a file is a row, with what stands beside it."""
    return path.suffix == SOURCES or path.suffix == SESSION and path.with_suffix(PRINTED).is_file()


def strays(folder):
    """The files that belong to no whole row, and those that give a row a second form."""
    for path in sorted(folder.rglob("*")):
        owner = next((above for above in path.parents if above.suffix == ".files"), path)
        session, sources = owner.with_suffix(SESSION), owner.with_suffix(SOURCES)
        is_whole = owner == sources or owner.suffix in (SESSION, *BESIDE) and session.is_file() and is_row(session)
        if path.is_file() and not (is_whole and sources.is_file() != session.is_file()):
            yield path.relative_to(folder)


def difference(wanted, got):
    """The lines in which two outputs differ, as many as are shown."""
    texts = (output.decode("utf-8", "backslashreplace").split("\n") for output in (wanted, got))
    lines = [repr(line)[1:-1] for line in difflib.unified_diff(*texts, n=1, lineterm="")][2:]
    more = [f".. {len(lines) - LINES} more lines"] if len(lines) > LINES else []
    return "".join(f"\n    {line[:COLUMNS]}" for line in lines[:LINES] + more)


def fault(row, program):
    """What is wrong with the run of a row, or None."""
    with tempfile.TemporaryDirectory() as folder:
        if row.files:
            shutil.copytree(row.files, folder, dirs_exist_ok=True)
        how = {"input": row.session, "cwd": folder, "capture_output": True, "timeout": SECONDS, "check": False}
        try:
            done = subprocess.run([program, "session", *row.args], **how)
        except (OSError, subprocess.TimeoutExpired) as error:
            return str(error)
    if (done.stdout, done.stderr, done.returncode) == (row.stdout, b"", row.status):
        return None
    return f"status {done.returncode}, standard error {done.stderr!r}{difference(row.stdout, done.stdout)}"


def judge(row, program, tally):
    """Judges the run of a row."""
    wrong = fault(row, program)
    tally.judge(wrong is None, f"{row.name}: {wrong}")


def judge_stored(path, folder, program, tally):
    """Judges the run of a stored row."""
    try:
        judge(stored_row(path, folder), program, tally)
    except (NoRow, UnicodeDecodeError) as why:
        tally.judge(False, f"{path.relative_to(folder)} is no row: {why}")


def judge_form(program, tally):
    """Judges that a row of sources passes, that it fails with each change, and that some of its changes are no rows."""
    judge(Row("a row of sources", *session_of(source_rows_test.RIGHT)), program, tally)
    for change in source_rows_test.FAILING:
        row = Row("", *session_of(source_rows_test.changed(change)))
        tally.judge(fault(row, program) is not None, f"a row of sources passes with this change: {change}")
    for change in source_rows_test.NO_ROWS:
        tally.judge(not source_rows_test.is_row(change), f"a row of sources is still one with this change: {change}")


def judge_rows(folder, program, tally):
    """Judges the runs of the rows below a folder, and of those at the limits where these rows are the stored ones."""
    for path in filter(is_row, sorted(folder.rglob("*"))):
        judge_stored(path, folder, program, tally)
    for limit in LIMITS if folder == ROWS else ():
        judge(Row(*limit), program, tally)


def main():
    words = argparse.ArgumentParser(description="Runs rows on the built program.")
    words.add_argument("--program", type=Path, default=PROGRAM, help="another program")
    words.add_argument("folder", nargs="?", type=Path, default=ROWS, help="other rows than the stored ones")
    given = words.parse_args()
    folder = given.folder.resolve()
    tally = Tally("rows")
    program = given.program.resolve()
    if not program.is_file() or not folder.is_dir():
        tally.judge(False, f"{folder} is no folder" if program.is_file() else f"{program} is not built")
        return tally.close()
    judge_form(program, tally)
    for path in strays(folder):
        tally.judge(False, f"{path} belongs to no whole row, or to two")
    judge_rows(folder, program, tally)
    return tally.close()


if __name__ == "__main__":
    sys.exit(main())
