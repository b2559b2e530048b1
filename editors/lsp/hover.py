"""Texts in which `reveal_type` tells the type of the name at a place. The session holds such a text for one check.

None of these texts changes what other files see, so that only the units of its own file are examined.
"""

import ast
import re
from typing import NamedTuple

from .trees import first_line, source_of

FUNCTIONS = (ast.FunctionDef, ast.AsyncFunctionDef)
ASSIGNMENTS = (ast.Assign, ast.AnnAssign, ast.AugAssign)
DOTTED = re.compile(r"[\w.]*$")
# what stands around an expression: the body of a function, or what other files see
BODY, VALUE, ANNOTATION = range(3)


class Probe(NamedTuple):
    """A text with one `reveal_type` more, the line of that, counted from 1, and the expression in it."""

    text: str
    line: int
    shown: str


def probes(text, word):
    """Yields the texts that may tell the type of a name, the best first."""
    source = source_of(text)
    node = source and source.expression(word)
    if source and (node or not source.argument(word)):
        shown = source.shown(node) if node else dotted(source, word)
        yield from probes_of(source, node, shown, source.statement(word.line, word.begin))


def dotted(source, word):
    """Returns a word of a string with the names before it, as `m.A`, or another word that has no node as it is."""
    line = source.line(word.line)[: word.end]
    return DOTTED.search(line)[0] if source.quoted(word.line, word.end) else word.text


def probes_of(source, node, shown, statement):
    """Yields the texts that may tell the type of an expression of a statement, or of a name that has no node."""
    for way in ways(source, node) if statement else ():
        found = way(source, node, shown, statement)
        if found:
            yield found


def ways(source, node):
    """Returns the ways to tell the type of an expression, the best first. A name that is bound has its type behind the
    statement."""
    if node is None or isinstance(getattr(node, "ctx", None), (ast.Store, ast.Del)):
        return [behind]
    return {BODY: [around, behind], VALUE: [before, behind], ANNOTATION: [behind, before]}[place_of(source, node)]


def place_of(source, node):
    """Returns what stands around an expression."""
    if source.is_annotation(node):
        return ANNOTATION
    steps = source.steps(node)
    is_inside = any(isinstance(parent, FUNCTIONS) and child in parent.body for child, parent in steps)
    is_seen = any(is_header(child, parent) or is_assigned(parent, is_inside) for child, parent in steps)
    return VALUE if is_seen else BODY


def is_header(child, node):
    """Whether a part of a definition is not in its body: a decorator, a base, a default."""
    return isinstance(node, (*FUNCTIONS, ast.ClassDef)) and child not in node.body


def is_assigned(node, is_inside):
    """Whether a node assigns what other files may see: inside a function these are attributes."""
    if not isinstance(node, ASSIGNMENTS):
        return False
    targets = node.targets if isinstance(node, ast.Assign) else [node.target]
    return not is_inside or any(isinstance(it, ast.Attribute) for target in targets for it in ast.walk(target))


def around(source, node, shown, _):
    """Returns the text with `reveal_type` around an expression."""
    begin, end = source.span(node)
    return Probe(f"{source.text[:begin]}reveal_type({shown}){source.text[end:]}", node.lineno, shown)


def before(source, _, shown, statement):
    """Returns the text with `reveal_type` before a statement, or None where no line may stand there."""
    begun = first_line(statement)
    return inserted(source, begun, begun, shown) if source.is_apart(statement) else None


def behind(source, node, shown, statement):
    """Returns the text with `reveal_type` behind a statement, or at the front of its block, or None where no line may
    stand there."""
    if hasattr(statement, "body"):
        return before(source, node, shown, statement.body[0])
    is_apart = source.is_apart(statement)
    return inserted(source, statement.end_lineno + 1, statement.lineno, shown) if is_apart else None


def inserted(source, at, like, shown):
    """Returns the text with a line before line `at`, as deep as line `like`."""
    deep = source.line(like)
    indent = deep[: len(deep) - len(deep.lstrip(" \t"))]
    start = source.starts[at - 1]
    front = source.text[:start]
    joined = "" if not front or front.endswith(("\n", "\r")) else "\n"
    return Probe(f"{front}{joined}{indent}reveal_type({shown})\n{source.text[start:]}", at, shown)
