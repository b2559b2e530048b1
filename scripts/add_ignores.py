#!/usr/bin/env python3
"""Adds `# type: ignore[CODE]` to each line with an error, so that a project begins clean; or takes away those that
suppress nothing.

    scripts/add_ignores.py [--program PROGRAM] [--ignore-missing-imports] [--check-untyped-defs] [--root FOLDER]
                           [--unused] [PATH..]

PATH is a folder or a file, the current folder if there is none; which files these are, and the project that they are
in, scripts/check_project.py says. A code joins those of a comment that the line has already, and the comment comes
before any other. Errors with the code `syntax`, and those on a line that ends inside a string or in a backslash, can
have no comment.

With --unused a comment without codes is taken away where it suppresses no error, and a code of dmypy's from a comment
where it suppresses none, with the comment if no code is left. Codes that dmypy does not have are another checker's, and
stay.

The messages that are left are printed. The status is 0 where no error is left, else 1, or 2 where a file was not
checked.
"""

import argparse
import re
import sys
from pathlib import Path

sys.path.insert(0, str(Path(__file__).resolve().parents[1] / "editors"))
from lsp.checker import Checker
from lsp.ignores import changed, suppressed
from lsp.program import program_of
from lsp.results import outcome_of
from lsp.selection import select
from lsp.session import add_words
from lsp.settings import settings_of
from lsp.trouble import run_told

# an ignore comment: what stands before a list of codes, and the list, if it has one
ANY_IGNORE = re.compile(r"(# *type: *)ignore(?:([ \t]*)\[([^][#]*)\])?(?=[ \t#]|$)")
# the codes that dmypy has, but for `syntax`, which no comment suppresses: docs/CODES.md has a part for each
CODES = frozenset(
    """arg-type assignment attr-defined call-arg dict-item import-not-found index list-item misc name-defined no-redef
    operator override return return-value union-attr valid-type""".split()
)


def inert(text):
    """Returns a text whose ignore comments suppress nothing, with all else in its place."""
    def change(_, line, place):
        own = ANY_IGNORE.match(place.comment)
        return line[: place.column] + ANY_IGNORE.sub(r"\1IGNORE", place.comment, count=1) if own else line

    return changed(text, change)


def without(line, place, used):
    """Returns a line whose ignore comment has those of its codes that are used, or that are not dmypy's."""
    own = ANY_IGNORE.match(place.comment)
    given = [code.strip() for code in (own[3] or "").split(",") if code.strip()]
    kept = [code for code in given if code in used or code not in CODES]
    if used and is_on_all(own) or given and kept == given:
        return line
    before, rest = line[: place.column], place.comment[own.end() :].lstrip(" \t")
    comment = f"{own[1]}ignore[{', '.join(kept)}]" if kept else ""
    comments = "  ".join(filter(None, [comment, rest if rest.startswith("#") or not rest else f"# {rest}"]))
    if before.strip():
        return "  ".join(filter(None, [before.rstrip(" \t"), comments]))
    return before + comments if comments else ""


def is_on_all(own):
    """Whether an ignore comment is on all codes: it has no list, or a blank before it. (To mypy the list counts.)"""
    return own[3] is None or own[2] != ""


def unused_taken(text, codes):
    """Returns a text without the ignore comments that suppress nothing. `codes` has those of each line's errors."""
    everywhere = set().union(*codes.values())

    def change(line, it, place):
        own = ANY_IGNORE.match(place.comment)
        is_of_file = own and place.is_first and is_on_all(own)
        return without(it, place, everywhere if is_of_file else codes.get(line, set())) if own else it

    return changed(text, change)


def codes_by_line(report, files):
    """Returns the codes of the errors that a comment may suppress: those of each line of each of these files."""
    found = {path: {} for path in files}
    for it in report.messages():
        if it.kind == "error" and it.code != "syntax" and it.path in found:
            found[it.path].setdefault(it.line, set()).add(it.code)
    return found


class Ignores:
    """The ignore comments of the given files of a project."""

    def __init__(self, checker, files):
        self.checker = checker
        self.texts = {path: text_of(checker.read(path)) for path in files}
        self.texts = {path: text for path, text in self.texts.items() if text is not None}

    def add(self):
        """Adds comments where there are errors."""
        codes = codes_by_line(self.checker.report(), self.texts)
        for path, text in self.texts.items():
            self.write(path, suppressed(text, codes[path]) if codes[path] else text)

    def take_unused(self):
        """Takes away the comments that suppress nothing."""
        self.give_all({path: inert(text) for path, text in self.texts.items()})
        codes = codes_by_line(self.checker.report(), self.texts)
        self.give_all(self.texts)
        for path, text in self.texts.items():
            self.write(path, unused_taken(text, codes[path]))

    def give_all(self, texts):
        """Has the session hold texts of files."""
        for path, text in texts.items():
            self.give(path, text)

    def give(self, path, text):
        """Has the session hold a text of a file."""
        self.checker.session.give(path, text.encode())

    def write(self, path, text):
        """Writes a text into a file, if it has another, and has the session hold it."""
        if text != self.texts[path]:
            (self.checker.folder / path).write_bytes(text.encode())
            self.give(path, text)


def text_of(content):
    """Returns the text of bytes, or None where they are none."""
    try:
        return content.decode()
    except UnicodeDecodeError:
        return None


def run(given):
    """Changes the files that are given, and tells what is left. Returns the status."""
    selection = select(given.paths, given.root)
    settings = settings_of(selection.folder)
    program = program_of(given.program, settings, selection.folder)
    options = settings.with_options(given.options)
    checker = Checker(selection.folder, program, options, settings.roots, selection.is_given)
    try:
        checker.take(selection.stamps(settings.exclude))
        # (a file that is not taken has no errors: its comments are let be)
        ignores = Ignores(checker, sorted(filter(selection.is_given, checker.taken())))
        ignores.take_unused() if given.unused else ignores.add()
        outcome = outcome_of(checker, checker.report(), shown=selection.shown)
    finally:
        checker.close()
    outcome.tell()
    return outcome.status


def main():
    words = argparse.ArgumentParser(description="Adds `# type: ignore[CODE]` to each line with an error.")
    add_words(words)
    words.add_argument("--root", help="the project's folder, else the nearest one that is marked as one")
    words.add_argument("--unused", action="store_true", help="take away comments that suppress nothing")
    words.add_argument("paths", nargs="*", metavar="PATH", help="folders and files, else the current folder")
    given = words.parse_args()
    return run_told(lambda: run(given))


if __name__ == "__main__":
    sys.exit(main())
