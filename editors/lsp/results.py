"""What a user is told of a check: messages on standard output, all else on standard error, and a status.

    outcome_of(checker, report, known, skips_opaque, shown)    the Outcome
    outcome.tell(is_json)                                      prints it
    outcome.status                2 where a file was not checked, else 1 where there is an error, else 0
"""

import errno
import json
import os
import sys
from typing import NamedTuple

from .baseline import known_errors, unknown
from .opaque import form_at
from .paths import HERE, empty_roots, module_of
from .session import Message, printable, summary
from .trouble import tell

SYNTAX = "syntax"
MISSING = "import-not-found"
IGNORE_MISSING = "--ignore-missing-imports"
# a report has no columns: mypy gives this number where it knows none
NO_COLUMN = -1


class Reported(NamedTuple):
    """A message, and what may help with it."""

    message: Message
    hint: str = ""

    def lines(self):
        """Returns the lines of the message, the hint as a note on it."""
        note = self.message._replace(kind="note", text=self.hint, code="")
        return [self.message.shown(), *([note.shown()] if self.hint else [])]

    def json(self):
        """Returns the message as mypy's `--output json` has it. Its column is unknown: a report has no columns."""
        it = self.message
        found = {"file": it.path, "line": it.line, "column": NO_COLUMN, "message": it.text, "hint": self.hint or None}
        return json.dumps({**found, "code": it.code or None, "severity": it.kind})


class Outcome(NamedTuple):
    """What a user is told of a check."""

    reported: tuple
    summary: str
    lines: tuple
    status: int

    def tell(self, is_json=False):
        """Prints it."""
        if is_json:
            say(*(it.json() for it in self.reported))
            tell(self.summary)
        else:
            say(*(line for it in self.reported for line in it.lines()), self.summary)
        tell(*self.lines)


def add_result_words(words):
    """Adds what is an error to a command line."""
    ways = ("error", "skip")
    words.add_argument("--opaque", choices=ways, default=ways[0], help="files with a form that dmypy leaves out")
    words.add_argument("--baseline", metavar="FILE", help="a file of known errors, which are not shown")


def say(*lines):
    """Prints lines on standard output, as UTF-8."""
    if sys.stdout is None:
        raise OSError(errno.EBADF, os.strerror(errno.EBADF))
    sys.stdout.buffer.write("".join(f"{line}\n" for line in lines).encode(errors="backslashreplace"))
    sys.stdout.buffer.flush()


def outcome_of(checker, report, known=None, skips_opaque=False, shown=lambda path: path):
    """Returns what a user is told of a report: on the files that are given, less known errors, with the paths that
    `shown` makes of the project's."""
    given = [it for it in report.messages() if checker.is_given(it.path)]
    new = given if known is None else unknown(given, known)
    reported = [reported_of(checker, it, skips_opaque) for it in new]
    reported = [it._replace(message=it.message._replace(path=shown(it.message.path))) for it in reported]
    errors = [it.message for it in reported if it.message.kind == "error"]
    checked = sum(map(checker.is_given, checker.taken()))
    last = summary(len(errors), len({it.path for it in errors}), checked)
    refused = refused_lines(checker, shown)
    lines = [*refused, *root_lines(checker), *stray_lines(checker, shown)]
    lines += [*known_lines(checker, given, known, shown), *missing_lines(checker, errors)]
    return Outcome(tuple(reported), last, tuple(lines), 2 if refused else 1 if errors else 0)


def reported_of(checker, message, skips_opaque):
    """Returns a message with what may help with it: of an opaque file with the form that it has. If such files are
    skipped, and this one is Python, that is a note alone."""
    if message.code != SYNTAX:
        return Reported(message)
    text = (checker.read(message.path) or b"").decode("utf-8-sig", errors="replace")
    form = form_at(text, message.line)
    if form and skips_opaque and form.is_python(text):
        return Reported(message._replace(kind="note", text=form.text(), code=""))
    return Reported(message, form.text() if form else "")


def refused_lines(checker, shown):
    """Returns a line for each reason why given files are not checked."""
    by_reason = {}
    for path, why in sorted(checker.refused.items()):
        if checker.is_given(path):
            by_reason.setdefault(why, []).append(printable(shown(path)))
    return [f"{which_are(paths)} not checked: {why}" for why, paths in by_reason.items()]


def which_are(paths):
    """Returns the first of some paths and how many more there are, with the verb."""
    if len(paths) == 1:
        return f"{paths[0]} is"
    return f"{paths[0]} and {len(paths) - 1} more file{'' if len(paths) == 2 else 's'} are"


def root_lines(checker):
    """Returns a line for each root that the user gives and that has no files."""
    return [f"no Python file lies below the root '{root}'" for root in empty_roots(checker.roots, checker.imports)]


def stray_lines(checker, shown):
    """Returns a line for each root under which imports would find what they do not find, and one on how to give it."""
    strays, layout = checker.strays(), checker.session.layout
    found = []
    for it in strays:
        place, file = f"{printable(shown(it.path))}:{it.line}", printable(shown(it.file))
        more = f", nor in {it.count - 1} more import{'' if it.count == 2 else 's'}" if it.count > 1 else ""
        now = module_of(layout.session_path(it.file))
        way = f"under the root '{it.root}' it would be {file}, which is {now} now"
        found.append(f"{place}: {it.module} is not found{more}, but {way}")
    against = {layout.root_of(it.file) for it in strays if it.root == HERE}
    roots = [*(root for root in layout.roots if root not in against), *(it.root for it in strays)]
    given = json.dumps([*dict.fromkeys(root for root in roots if root != HERE)] or [HERE], ensure_ascii=False)
    return [*found, *([f"pyproject.toml gives roots so: [tool.dmypy] roots = {given}"] if found else [])]


def known_lines(checker, given, known, shown):
    """Returns lines on known errors: how many are not shown, which are shown with new ones, and how many are gone."""
    if known is None:
        return []
    found = known_errors(given)
    more = [(it, count) for it, count in found.items() if count > known[it] > 0]
    hidden = sum(count for key, count in found.items() if count <= known[key])
    gone = sum(max(0, count - found[key]) for key, count in known.items() if checker.is_given(key.file))
    lines = [f"{printable(shown(it.file))}: of {n} errors {known[it]} are known: {it.message}" for it, n in more]
    lines += [f"{known_are(hidden)} not shown"] if hidden else []
    return lines + ([f"{known_are(gone)} gone: --write-baseline takes out what is gone"] if gone else [])


def known_are(count):
    """Returns how many known errors there are, with the verb."""
    return f"{count} known error{' is' if count == 1 else 's are'}"


def missing_lines(checker, errors):
    """Returns a line on imports that find nothing, where their messages may be left out."""
    count = sum(it.code == MISSING for it in errors)
    if not count or IGNORE_MISSING in checker.options:
        return []
    which = "1 import finds" if count == 1 else f"{count} imports find"
    return [f"{which} no file of the project: {IGNORE_MISSING} leaves out such messages"]
