"""Code actions: edits of a document that suppress what an editor shows of it."""

from .documents import lines_of, units
from .faults import SYNTAX
from .ignores import suppressed
from .screen import ERROR, SOURCE, span

KIND = "quickfix"


def ignores(document, diagnostics):
    """Returns for each line of some diagnostics the edit that has the line ignore its errors."""
    by_line = {}
    for it in diagnostics:
        if it.get("source") == SOURCE and it.get("severity") == ERROR and it.get("code", SYNTAX) != SYNTAX:
            by_line.setdefault(it["range"]["start"]["line"], []).append(it)
    found = [ignore(document, line, its) for line, its in sorted(by_line.items())]
    return [it for it in found if it]


def ignore(document, line, diagnostics):
    """Returns the edit that has a line ignore these errors, or None where it may have no comment."""
    codes = {it["code"] for it in diagnostics}
    new = suppressed(document.text, {line + 1: codes})
    if new == document.text:
        return None
    old, new = (lines_of(text)[line] for text in (document.text, new))
    edit = {"range": span(line, 0, units(old)), "newText": new}
    return {
        "title": f"Ignore this line: {', '.join(sorted(codes))}",
        "kind": KIND,
        "diagnostics": diagnostics,
        "edit": {"changes": {document.uri: [edit]}},
    }
