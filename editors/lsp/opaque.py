"""Forms of Python that dmypy leaves out: a file with one is opaque, its names are Any in all files.

    form_at(text, line)    the form on the line that begins there, with what to write instead, or None
    form.is_python(text)   whether a text with the form is Python, as far as this Python can tell
"""

import ast
import io
import itertools
import keyword
import sys
import tokenize
import warnings
from typing import NamedTuple

from .documents import lines_of

SKIPPED = (tokenize.NL, tokenize.COMMENT, tokenize.INDENT, tokenize.DEDENT, tokenize.ENDMARKER)


class Form(NamedTuple):
    """A form, what to write instead, and the version of Python since which there is the form."""

    name: str
    instead: str
    since: tuple

    def text(self):
        """Returns what a user is told of a file with the form."""
        return f"dmypy leaves out {self.name}, so nothing in this file is checked: {self.instead}"

    def is_python(self, text):
        """Whether a text with the form is Python: one of an older Python cannot tell."""
        try:
            with warnings.catch_warnings():
                warnings.simplefilter("ignore")
                ast.parse(text)
            return True
        except (SyntaxError, ValueError, RecursionError, MemoryError):
            return sys.version_info[:2] < self.since


WALRUS = Form("`:=`", "assign the name in a statement of its own", (3, 8))
IMPORT = Form("`import *`", "import each name", (3, 0))
SLASH = Form("`/` among parameters", "leave it out", (3, 8))
MATCH = Form("`match`", "write `if` and `elif`", (3, 10))
TYPE = Form("the `type` statement", "write an assignment, as `Name = list[int]`", (3, 12))
PARAMETERS = Form("type parameters", "define a `TypeVar`, and `Generic[T]` as a base", (3, 12))
GROUP = Form("`except*`", "catch the group by `except`, and go through its exceptions", (3, 11))
STARRED = Form("`*` in a subscript or in the annotation of `*args`", "write the items, or `Any`", (3, 11))
BY_WORD = {"match": MATCH, "case": MATCH, "type": TYPE}


def form_at(text, line):
    """Returns the form on the logical line that begins at a line of a text, counted from 1, or None."""
    words = words_at(text, line)
    own = words[1:] if words[:1] == ["async"] else words
    if ":=" in words:
        return WALRUS
    if own[:1] == ["from"] and own[-2:] == ["import", "*"]:
        return IMPORT
    if own[:2] == ["except", "*"]:
        return GROUP
    if own[:1] in (["def"], ["class"]) and own[2:3] == ["["]:
        return PARAMETERS
    if (own[:1] == ["def"] or "lambda" in own) and {("(", "/"), (",", "/")} & {*zip(own, own[1:])}:
        return SLASH
    return BY_WORD.get("".join(own[:1])) or (STARRED if has_star(own) else None)


def has_star(words):
    """Whether a star stands in a subscript, or before the annotation of `*args`."""
    is_subscript = []
    for before, word in zip(["", *words], words):
        if word in ("(", "[", "{"):
            is_owner = before.isidentifier() and not keyword.iskeyword(before) or before in (")", "]")
            is_subscript.append(word == "[" and is_owner)
        elif word in (")", "]", "}") and is_subscript:
            is_subscript.pop()
        elif word == "*" and before in ("[", ",") and is_subscript[-1:] == [True]:
            return True
        elif word == "*" and before == ":" and words[0] == "def":
            return True
    return False


def words_at(text, line):
    """Returns the tokens of the logical line that begins at a line, as far as they can be told."""
    rest = "\n".join(lines_of(text)[line - 1 :])
    found = []
    try:
        tokens = tokenize.generate_tokens(io.StringIO(rest.lstrip(" \t\f")).readline)
        for token in itertools.takewhile(lambda it: it.type != tokenize.NEWLINE, tokens):
            if token.type not in SKIPPED:
                found.append(token.string)
    except (tokenize.TokenError, SyntaxError):
        pass
    return found
