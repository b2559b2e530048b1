"""Ignore comments: where the lines of a text may have one, and the lines with theirs.

    suppressed(text, codes)    a text with comments for the codes of each line
    changed(text, change)      a text of which `change` makes the lines anew that may have a comment
"""

import io
import re
import tokenize
from typing import NamedTuple

from .documents import LINE_END

BYTE_ORDER_MARK = "\ufeff"
IGNORE = re.compile(r"# *type: *ignore\[([^][#]*)\]")
ENDS = (tokenize.COMMENT, tokenize.NEWLINE, tokenize.NL)


class Place(NamedTuple):
    """Where a line may have a comment: the column, and the comment that it has, or an empty text. `is_first` says that
    no code stands before it in the file."""

    column: int
    comment: str
    is_first: bool


def places(text):
    """Returns the places for comments by their lines, counted from 1. A line that ends in a string or in a backslash
    has none."""
    found, is_first = {}, True
    for token in tokenize.generate_tokens(io.StringIO(text, newline=None).readline):
        is_first = is_first and token.type in (tokenize.COMMENT, tokenize.NL)
        if token.type in ENDS:
            comment = token.string if token.type == tokenize.COMMENT else ""
            found.setdefault(token.start[0], Place(token.start[1], comment, is_first))
    return found


def changed(text, change):
    """Returns a text with its lines changed as `change` does it, which gets a line's number, its text and its place for
    a comment. A line of which nothing is left is gone. A text that is no Python stays as it is."""
    if text.startswith(BYTE_ORDER_MARK):
        return BYTE_ORDER_MARK + changed(text[1:], change)
    try:
        found = places(text)
    except (tokenize.TokenError, SyntaxError):
        return text
    # (a line, then its end, and so on)
    parts = re.split(f"({LINE_END.pattern})", text)
    for line, place in found.items():
        before = parts[2 * line - 2]
        parts[2 * line - 2] = change(line, before, place)
        if before and not parts[2 * line - 2]:
            parts[2 * line - 1 : 2 * line] = [""]
    return "".join(parts)


def commented(line, place, codes):
    """Returns a line with an ignore comment of these codes, which its own ignore comment joins."""
    before, comment = line[: place.column].rstrip(" \t"), line[place.column :]
    own = IGNORE.match(comment)
    if own:
        codes = {*codes, *(code.strip() for code in own[1].split(","))}
        comment = comment[own.end() :].lstrip(" \t")
    return f"{before}  # type: ignore[{', '.join(sorted(codes))}]{'  ' if comment else ''}{comment}"


def suppressed(text, codes):
    """Returns a text with comments for the codes of each line, as far as its lines may have some."""
    return changed(text, lambda line, it, place: commented(it, place, codes[line]) if line in codes else it)
