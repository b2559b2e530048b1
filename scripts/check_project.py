#!/usr/bin/env python3
"""Checks the Python files of a project, as they lie in folders: `scripts/check_project.py .`

    scripts/check_project.py [--program PROGRAM] [--ignore-missing-imports] [--check-untyped-defs] [--root FOLDER]
                             [--exclude PATTERN].. [--opaque {error,skip}] [--baseline FILE [--write-baseline]]
                             [--json] [--watch] [--version] [PATH..]

PATH is a folder or a file, the current folder if there is none. The session holds all files of the project that they
are in, so that imports find them; the messages are those of the files that are given. Where a stub is beside a file,
the stub is checked in its place. The project's folder is the nearest one with a pyproject.toml that has the table
`[tool.dmypy]`, or else with a pyproject.toml, setup.py, setup.cfg or .git, but for the home folder. The table may have
`roots`, `exclude` and `options`, lists of texts, and `program`.

Messages are printed on standard output, all else on standard error; with --json as objects with the fields of mypy's,
in which `column` is -1, since a report has no columns. The status is 0 where there is no error, 1 where
there is one, and 2 where a file was not checked, or nothing was. With --watch it goes on until it is interrupted, and
its status is that of the last check.
"""

import argparse
import os
import signal
import sys
import threading
import time
from pathlib import Path

sys.path.insert(0, str(Path(__file__).resolve().parents[1] / "editors"))
from lsp.baseline import known_errors, read_known, write_known
from lsp.checker import Checker
from lsp.program import program_of, version
from lsp.project import stamp
from lsp.results import add_result_words, outcome_of, refused_lines
from lsp.selection import NotThere, select
from lsp.session import add_words
from lsp.settings import FILE, settings_of
from lsp.trouble import Trouble, run_told, tell

# seconds between two looks at the disk at least, how many times a look's own these are, and the seconds before a line
# on what is done appears
LOOK = 0.2
SHARE = 10
SLOW = 1.0


class Progress:
    """A line on a terminal about work that takes more than a second."""

    def __init__(self):
        self.is_shown = sys.stderr.isatty()
        self.text = ""
        self.width = 0
        self.lock = threading.Lock()
        self.timer = None

    def __enter__(self):
        if self.is_shown:
            self.timer = threading.Timer(SLOW, self.show)
            self.timer.daemon = True
            self.timer.start()
        return self

    def __exit__(self, *_):
        self.end()

    def end(self):
        """Takes the line away."""
        if self.timer:
            self.timer.cancel()
        with self.lock:
            self.is_shown = False
            self.write("")

    def tell(self, text):
        """Says how far the work is."""
        self.text = text

    def show(self):
        """Shows the line, now and from then on."""
        while True:
            with self.lock:
                if not self.is_shown:
                    return
                self.write(f"dmypy: {self.text}")
            time.sleep(LOOK)

    def write(self, text):
        """Writes a text over the line."""
        if self.width or text:
            print(f"\r{text.ljust(self.width)}\r", end="", file=sys.stderr, flush=True)
        self.width = len(text)


class Run:
    """The checks of one command line. `selection` has the files that it names."""

    def __init__(self, given):
        self.given = given
        self.selection = select(given.paths, given.root)
        self.settings = self.stamp = self.checker = None

    def set_up(self):
        """Reads the settings of the project, and begins anew where they changed."""
        changed = stamp(self.selection.folder / FILE)
        if self.checker and changed == self.stamp:
            return
        settings = settings_of(self.selection.folder)
        self.close()
        program = program_of(self.given.program, settings, self.selection.folder)
        options = settings.with_options(self.given.options)
        self.settings, self.stamp = settings, changed
        self.checker = Checker(self.selection.folder, program, options, settings.roots, self.selection.is_given)

    def look(self, progress):
        """Looks at the disk, and returns how many files changed."""
        self.set_up()
        files = self.selection.stamps([*self.settings.exclude, *self.given.exclude])
        if not any(map(self.selection.is_given, files)):
            raise NotThere(f"no Python file lies in {', '.join(self.given.paths or ['.'])}")
        return self.checker.take(files, progress.tell)

    def check(self, progress, *remarks):
        """Checks, tells the user, remarks first, and returns the status."""
        count = len(self.checker.taken())
        progress.tell(f"{count} files are checked" if count != 1 else "1 file is checked")
        report = self.checker.report()
        progress.end()
        tell(*remarks)
        if self.given.write_baseline:
            return self.write_baseline(report)
        known = read_known(self.given.baseline) if self.given.baseline else None
        outcome = outcome_of(self.checker, report, known, self.given.opaque == "skip", self.selection.shown)
        outcome.tell(self.given.json)
        return outcome.status

    def write_baseline(self, report):
        """Writes the errors of the given files into the file of known errors, and leaves those of others."""
        path = self.given.baseline
        before = read_known(path) if os.path.exists(path) else {}
        kept = {key: count for key, count in before.items() if not self.selection.is_given(key.file)}
        now = known_errors(it for it in report.messages() if self.selection.is_given(it.path))
        write_known(path, {**{key: count for key, count in kept.items() if key.file in self.checker.seen}, **now})
        tell(f"{sum(now.values())} errors are known now: {path}")
        refused = refused_lines(self.checker, self.selection.shown)
        tell(*refused)
        return 2 if refused else 0

    def close(self):
        """Ends the session."""
        if self.checker:
            self.checker.close()
        self.checker = None


def run_once(run):
    """Looks at the disk and checks, once. Returns the status."""
    with Progress() as progress:
        run.look(progress)
        return run.check(progress)


def watch(run):
    """Checks each time that files change, until it is interrupted. Returns the status of the last check."""
    stopped = threading.Event()
    signal.signal(signal.SIGINT, lambda *_: stopped.set())
    status, trouble, rest = run_once(run), "", LOOK
    while not stopped.wait(rest):
        begun = time.monotonic()
        try:
            with Progress() as progress:
                changed = run.look(progress)
                if changed:
                    which = f"{changed} files" if changed > 1 else "a file"
                    remark = f"checked again at {time.strftime('%X')}, since {which} changed"
                    status = run.check(progress, remark)
            trouble = ""
        except Trouble as why:
            # (the session is interrupted, too)
            if stopped.is_set():
                break
            status = 2
            tell(*([str(why)] if str(why) != trouble else []))
            trouble = str(why)
            run.close()
        rest = max(LOOK, SHARE * (time.monotonic() - begun))
    return status


def check(given):
    """Checks what the words of a command line say. Returns the status."""
    run = Run(given)
    try:
        return watch(run) if given.watch else run_once(run)
    finally:
        run.close()


def words():
    """Returns what reads the words of the command line."""
    found = argparse.ArgumentParser(description="Checks the Python files of a project.")
    add_words(found)
    found.add_argument("--root", help="the project's folder, else the nearest one that is marked as one")
    found.add_argument("--exclude", action="append", default=[], metavar="PATTERN", help="what is left out of folders")
    add_result_words(found)
    found.add_argument("--write-baseline", action="store_true", help="write the errors that there are into that file")
    found.add_argument("--json", action="store_true", help="print objects as mypy's --output json does")
    found.add_argument("--watch", action="store_true", help="check again each time that files change")
    found.add_argument("--version", action="version", version=f"dmypy check_project {version()}")
    found.add_argument("paths", nargs="*", metavar="PATH", help="folders and files, else the current folder")
    return found


def main():
    reader = words()
    given = reader.parse_args()
    if given.write_baseline and (not given.baseline or given.watch):
        reader.error("--write-baseline wants --baseline FILE, and no --watch")
    return run_told(lambda: check(given))


if __name__ == "__main__":
    sys.exit(main())
