"""Python texts with their trees, and the names in them. A tree counts lines from 1 and columns in bytes of UTF-8."""

import ast
import functools
import io
import itertools
import keyword
import re
import tokenize
from typing import NamedTuple

from .documents import LINE_END, characters, lines_of

BLANKS = " \t\f"
BYTE_ORDER_MARK = "\ufeff"
NAME = re.compile(r"[^\W\d]\w*")
# how many lines with faults are passed over
MENDED = 10


class Word(NamedTuple):
    """A name in a text. Its line is counted from 1, its columns in characters from 0."""

    text: str
    line: int
    begin: int
    end: int


class Source:
    """A text with its tree. `parents` has what each node is in, from the top of the tree down."""

    def __init__(self, text):
        self.text = text
        mark = text.startswith(BYTE_ORDER_MARK)
        self.tree = ast.parse(text[mark:])
        self.starts = [int(mark), *(found.end() for found in LINE_END.finditer(text)), len(text)]
        self.parents = {}
        nodes = [self.tree]
        for node in nodes:
            for child in ast.iter_child_nodes(node):
                self.parents[child] = node
                nodes.append(child)
        self.statements = [it for it in nodes if isinstance(it, (ast.stmt, ast.ExceptHandler))]

    def place(self, line, column):
        """Returns where a place of the tree is in the text."""
        start, end = self.starts[line - 1 : line + 1]
        return start + len(self.text[start:end].encode()[:column].decode(errors="ignore"))

    def span(self, node):
        """Returns where a node begins and ends in the text."""
        return self.place(node.lineno, node.col_offset), self.place(node.end_lineno, node.end_col_offset)

    def shown(self, node):
        """Returns the text of a node."""
        begin, end = self.span(node)
        return self.text[begin:end]

    def line(self, line):
        """Returns a line of the text, with its end."""
        begin, end = self.starts[line - 1 : line + 1]
        return self.text[begin:end]

    def steps(self, node):
        """Returns the nodes that a node is in, from the inside, each with its part that leads to the node."""
        found = []
        while node in self.parents:
            found.append((node, self.parents[node]))
            node = self.parents[node]
        return found

    def is_annotation(self, node):
        """Whether a node is an annotation, or a part of one."""
        steps = self.steps(node)
        return any(child in (getattr(it, "annotation", None), getattr(it, "returns", None)) for child, it in steps)

    def quoted(self, line, column):
        """Returns the string at a place that is an annotation, or a part of one, or None."""
        strings = [it for it in self.parents if isinstance(it, ast.Constant) and isinstance(it.value, str)]
        place = self.starts[line - 1] + column
        there = [it for it in strings if it.lineno == line == it.end_lineno and self.is_annotation(it)]
        return next((it for it in there if self.span(it)[0] < place < self.span(it)[1]), None)

    def expression(self, word):
        """Returns the name or the attribute that ends with a word, or None."""
        end = self.starts[word.line - 1] + word.end
        found = [it for it in self.parents if isinstance(it, (ast.Name, ast.Attribute)) and it.end_lineno == word.line]
        return next((it for it in found if self.span(it)[1] == end), None)

    def argument(self, word):
        """Returns the argument of a call that has a word as its name, or None."""
        begin = self.starts[word.line - 1] + word.begin
        named = [it for it in self.parents if isinstance(it, ast.keyword) and it.arg and it.lineno == word.line]
        return next((it for it in named if self.span(it)[0] == begin), None)

    def statement(self, line, column):
        """Returns the innermost statement at a place, or None."""
        at = self.starts[line - 1] + column
        near = [it for it in self.statements if first_line(it) <= line <= it.end_lineno]
        found = [it for it in near if first_line(it) < it.lineno or self.span(it)[0] <= at <= self.span(it)[1]]
        return max(found, key=lambda it: (it.lineno, it.col_offset, -it.end_lineno), default=None)

    def is_apart(self, statement):
        """Whether a line of the block of a statement may stand before it, and behind it if it has no block of its own:
        the statement begins its line, or another one without a block does, and none goes on behind its end."""
        begin, end = first_line(statement), statement.end_lineno
        there = [it for it in self.statements if first_line(it) == begin]
        first = min(there, key=lambda it: (it.col_offset, -it.end_lineno))
        front = self.text[self.starts[begin - 1] : self.span(first)[0]] if begin == first.lineno else ""
        others = [it for it in self.statements if it.lineno <= end < it.end_lineno and not hasattr(it, "body")]
        return not front.strip(BLANKS) and (first is statement or not hasattr(first, "body")) and not others


@functools.lru_cache(maxsize=8)
def source_of(text):
    """Returns a text with its tree, or None where it has a fault."""
    try:
        return Source(text)
    except (SyntaxError, ValueError, RecursionError):
        return None


@functools.lru_cache(maxsize=16)
def mended(text):
    """Returns a text with its tree: without the lines of faults, if it has some; None where these are too many."""
    lines = lines_of(text)
    for _ in range(MENDED):
        try:
            ast.parse(text)
        except SyntaxError as why:
            mend(lines, min(why.lineno or 1, len(lines)) - 1)
            text = "\n".join(lines)
        except (ValueError, RecursionError):
            return None
        else:
            break
    return source_of(text)


def mend(lines, at):
    """Puts `pass` in the place of a line, or nothing in that of a `pass`, from there upwards where there is nothing."""
    while at > 0 and not lines[at].strip(BLANKS):
        at -= 1
    bare = lines[at].lstrip(BLANKS)
    lines[at] = "" if bare == "pass" else f"{lines[at][: len(lines[at]) - len(bare)]}pass"


def first_line(statement):
    """Returns the line on which a statement begins, its decorators with it."""
    return min(it.lineno for it in [statement, *getattr(statement, "decorator_list", [])])


def word_at(text, position):
    """Returns the name at a position of a text, or None. Keywords and comments have no names, and strings have some as
    annotations alone."""
    lines, line = lines_of(text), position["line"] + 1
    if line > len(lines):
        return None
    column = characters(lines[line - 1], position["character"])
    source = mended(text)
    begun = source and source.statement(line, column)
    words = itertools.takewhile(lambda it: it.line <= line, words_from(lines, first_line(begun) if begun else 1))
    if source and source.quoted(line, column):
        words = [Word(it[0], line, *it.span()) for it in NAME.finditer(lines[line - 1])]
    there = [it for it in words if it.line == line and it.begin <= column <= it.end]
    return next((it for it in there if not keyword.iskeyword(it.text)), None)


def words_from(lines, first):
    """Yields the names and keywords from a line on, the first of a statement."""
    begun = lines[first - 1].lstrip(BLANKS)
    rest = "\n".join([begun, *lines[first:]])
    try:
        for token in tokenize.generate_tokens(io.StringIO(rest).readline):
            line, column = token.start
            shift = len(lines[first - 1]) - len(begun) if line == 1 else 0
            if token.type == tokenize.NAME:
                yield Word(token.string, line + first - 1, column + shift, column + shift + len(token.string))
    except (tokenize.TokenError, SyntaxError):
        pass
