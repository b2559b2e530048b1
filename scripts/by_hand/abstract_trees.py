"""The abstract tree of a source, made of the tree that CPython's own `ast` gives and of Python's own tokens, in the lines
that `bench/trees.rt.txt` prints.

What an abstract tree is stands at the types of `pyc_ast`. From `ast` come the nodes, their names and where each begins
within its parentheses; from the tokens what `ast` leaves out: parentheses, `elif`, the star of a parameter, a comma after
the only target of a `del`, how a number and a string are spelled, and ignore comments.
"""

import ast
import bisect
import keyword
import tokenize
import warnings
from typing import NamedTuple

from compare_tokens import ignore_of, python_tokens
from profile_rules import beyond, expected

MOST_QUOTED = 4
QUOTES = "'\""
OPENS, CLOSES = set("([{"), set(")]}")
NO_TEXT = {tokenize.COMMENT, tokenize.NL, tokenize.NEWLINE, tokenize.INDENT, tokenize.DEDENT, tokenize.ENDMARKER}
# What an expression may end with, after which a parenthesis opens arguments: beside names, numbers, strings and brackets
ENDS = {"None", "True", "False", "...", *CLOSES}
OPAQUE = {
    ast.Lambda: "Lambda",
    ast.GeneratorExp: "Generator",
    ast.ListComp: "ListComprehension",
    ast.SetComp: "SetComprehension",
    ast.DictComp: "DictComprehension",
}
WORDS = {ast.Pass: "Pass", ast.Break: "Break", ast.Continue: "Continue"}
SCOPES = (ast.FunctionDef, ast.AsyncFunctionDef, ast.ClassDef, ast.Lambda)
SUSPENDS = (ast.Yield, ast.YieldFrom, ast.Await)
# A string that is an expression here alone, which Python refuses: any subtree is let pass
ANY = "any"


class Token(NamedTuple):
    """A token: its kind and text, and where it begins, the line from 1 and the column in characters from 0."""

    kind: int
    text: str
    start: tuple


class Source:
    """A text with its tokens, where its logical lines begin, which brackets pair, and its comments that are ignores."""

    def __init__(self, text):
        self.lines = text.split("\n")
        self.tokens, self.ignores, self.whole_file = [], [], False
        self.line_starts = {0}
        for kind, string, start in python_tokens(text):
            if kind == tokenize.COMMENT:
                self.add_comment(string, start[0])
            elif kind == tokenize.NEWLINE:
                self.line_starts.add(len(self.tokens))
            elif kind not in NO_TEXT and not (kind == tokenize.ERRORTOKEN and string.isspace()):
                self.tokens.append(Token(kind, string, start))
        self.starts = [token.start for token in self.tokens]
        self.pairs = self.paired()
        self.header_brackets = set()

    def add_comment(self, comment, line):
        found = ignore_of(line, comment)
        if found:
            self.ignores.append(found)
            self.whole_file = self.whole_file or (not self.tokens and not found[1])

    def paired(self):
        pairs, opened = {}, []
        for place, token in enumerate(self.tokens):
            if token.kind == tokenize.OP and token.text in OPENS:
                opened.append(place)
            elif token.kind == tokenize.OP and token.text in CLOSES:
                pairs[place] = opened.pop()
                pairs[pairs[place]] = place
        return pairs

    def characters(self, line, column):
        """A place of `ast`, whose columns count bytes, with its column in characters."""
        text = self.lines[line - 1]
        return line, column if text.isascii() else len(text.encode()[:column].decode())

    def first(self, node):
        """The number of a node's first token, parentheses round it left out."""
        start = self.characters(node.lineno, node.col_offset)
        place = bisect.bisect_left(self.starts, start)
        if self.starts[place] != start:
            raise ValueError(f"no token begins at {start}")
        return place

    def last(self, node):
        """The number of a node's last token, parentheses round it left out."""
        return bisect.bisect_left(self.starts, self.characters(node.end_lineno, node.end_col_offset)) - 1

    def groups(self, place):
        """Whether a parenthesis groups, and opens no arguments, parameters or items of a `with`."""
        if self.tokens[place].text != "(" or place in self.header_brackets:
            return False
        if place in self.line_starts:
            return True
        before = self.tokens[place - 1]
        is_word = before.kind == tokenize.NAME and not keyword.iskeyword(before.text)
        return not (is_word or before.kind in (tokenize.NUMBER, tokenize.STRING) or before.text in ENDS)

    def span(self, node):
        """The numbers of a node's first and last token, parentheses round it included."""
        first, last = self.first(node), self.last(node)
        while first > 0 and self.pairs.get(first - 1) == last + 1 and self.groups(first - 1):
            first, last = first - 1, last + 1
        return first, last

    def is_enclosed(self, node):
        """Whether a tuple has parentheses of its own."""
        first = self.first(node)
        return self.tokens[first].text == "(" and self.pairs[first] == self.last(node)

    def note_header(self, node):
        """Notes the parentheses round all items of a `with`, which are its own where its items can stand so."""
        place = self.first(node) + (2 if isinstance(node, ast.AsyncWith) else 1)
        if self.tokens[place].text != "(" or self.tokens[self.pairs[place] + 1].text != ":":
            return
        only = node.items[0].context_expr
        if len(node.items) == 1 and node.items[0].optional_vars is None:
            needs = self.first(only) - isinstance(only, (ast.Yield, ast.YieldFrom))
            if needs == place and self.pairs[place] == self.last(only) + (needs < self.first(only)):
                return
        self.header_brackets.add(place)


def is_suspending(nodes):
    """Whether a `yield` or `await` stands in some nodes, outside functions, classes, lambdas and fields of strings."""
    left = list(nodes)
    while left:
        node = left.pop()
        if isinstance(node, SUSPENDS):
            return True
        if not isinstance(node, (*SCOPES, ast.JoinedStr)):
            left += ast.iter_child_nodes(node)
    return False


def content_of(string):
    """What stands in a string without prefix and backslash, without the spaces at its ends and without the line ends and blanks
    at its front, since a line of any indent may stand there; None of any other string."""
    if string[0] not in QUOTES or "\\" in string:
        return None
    quotes = 3 if string[:3] in ("'''", '"""') else 1
    return string[quotes:-quotes].strip(" ").lstrip(" \t\f\r\n")


def spelled(text):
    """The expression that a text spells, None where it spells none here; and whether Python alone refuses it."""
    try:
        with warnings.catch_warnings():
            warnings.simplefilter("ignore")
            found = ast.parse(text, mode="eval").body
            return (None if expected(text, ast.parse(text)) else found), False
    except (SyntaxError, ValueError, MemoryError, RecursionError) as error:
        told = error.msg if isinstance(error, SyntaxError) else str(error)
        try:
            return None, beyond(told, text) is not None
        except (SyntaxError, tokenize.TokenError):
            return None, False


def true(flag):
    return "true" if flag else "false"


class Translation:
    """Writes the lines of an abstract tree. The parts of a string's text all stand where the string does."""

    def __init__(self, source, rows, string=None, quoted=MOST_QUOTED):
        self.source, self.rows, self.string, self.quoted = source, rows, string, quoted

    # ---- positions and lines

    def place(self, number):
        if self.string:
            return self.string
        line, column = self.source.starts[number]
        return f"{line}:{column + 1}"

    def at(self, node):
        return self.place(self.source.span(node)[0])

    def inside(self, node):
        return self.place(self.source.first(node))

    def row(self, depth, field, *words):
        self.rows.append(" ".join([str(depth), field, *words]))

    # ---- expressions

    def expr(self, node, depth, field, is_annotation=False):
        """An expression, and what it is made of."""
        positions = self.at(node), self.inside(node)
        if type(node) in OPAQUE:
            self.row(depth, field, *positions, "Opaque", OPAQUE[type(node)])
        elif isinstance(node, ast.BoolOp):
            self.boolean(node, len(node.values), depth, field, positions, is_annotation)
        elif isinstance(node, ast.Constant) and isinstance(node.value, str):
            self.string_constant(node, depth, field, positions, is_annotation)
        else:
            self.row(depth, field, *positions, self.label(node))
            self.parts(node, depth + 1, is_annotation)

    def label(self, node):
        """What an expression is, with its names and marks."""
        kind = type(node)
        if kind is ast.Name:
            return f"Name {node.id}"
        if kind is ast.Constant:
            return f"Constant {self.constant(node)}"
        if kind is ast.JoinedStr:
            return "Constant FormattedStr"
        if kind is ast.Attribute:
            return f"Attribute {node.attr}"
        if kind in (ast.UnaryOp, ast.BinOp):
            return f"{'Unary' if kind is ast.UnaryOp else 'Binary'} {type(node.op).__name__}"
        return "Conditional" if kind is ast.IfExp else kind.__name__

    def constant(self, node):
        """A constant that is no string."""
        value = node.value
        if value is None or value is True or value is False:
            return str(value)
        if value is ...:
            return "Ellipsis"
        if isinstance(value, int):
            text = self.source.tokens[self.source.first(node)].text
            return f"Integer(Some({text}))" if len(text) == 1 else "Integer(None)"
        return {float: "Float", complex: "Imaginary", bytes: "Bytes"}[type(value)]

    def string_constant(self, node, depth, field, positions, is_annotation):
        """A string; one alone may be an annotation, and is then read."""
        first, last = self.source.first(node), self.source.last(node)
        text = content_of(self.source.tokens[first].text) if is_annotation and first == last and self.quoted else None
        found, is_beyond = (None, False) if text is None else spelled(text)
        if is_beyond:
            self.row(depth, field, *positions, ANY)
        elif found is None:
            self.row(depth, field, *positions, "Constant Str")
        else:
            self.row(depth, field, *positions, "Quoted")
            inner = Translation(Source(text), self.rows, self.place(first), self.quoted - 1)
            inner.expr(found, depth + 1, "value", True)

    def boolean(self, node, count, depth, field, positions, is_annotation):
        """The first operands of a row of `and` or `or`, which groups in pairs to the left."""
        self.row(depth, field, *positions, "Boolean", type(node.op).__name__)
        if count == 2:
            self.expr(node.values[0], depth + 1, "left", is_annotation)
        else:
            begins = self.inside(node)
            self.boolean(node, count - 1, depth + 1, "left", (begins, begins), is_annotation)
        self.expr(node.values[count - 1], depth + 1, "right", is_annotation)

    def parts(self, node, depth, is_annotation):
        """What an expression is made of, its parts at this depth."""
        kind = type(node)
        if kind in (ast.Tuple, ast.List, ast.Set):
            self.elements(node.elts, depth, is_annotation)
        elif kind is ast.Dict:
            self.dict_items(node, depth, is_annotation)
        elif kind is ast.Call:
            self.expr(node.func, depth, "callee", is_annotation)
            self.arguments(node.args, node.keywords, depth, is_annotation)
        elif kind is ast.Subscript:
            self.expr(node.value, depth, "value", is_annotation)
            self.index(node.slice, depth, "index", is_annotation)
        elif kind is ast.Compare:
            self.expr(node.left, depth, "left", is_annotation)
            for operator, right in zip(node.ops, node.comparators):
                self.row(depth, "comparison", type(operator).__name__)
                self.expr(right, depth + 1, "right", is_annotation)
        else:
            for field in ("value", "operand", "left", "right", "test", "body", "orelse"):
                part = getattr(node, field, None)
                if isinstance(part, ast.expr):
                    self.expr(part, depth, field, is_annotation)

    def elements(self, items, depth, is_annotation):
        for item in items:
            if isinstance(item, ast.Starred):
                self.expr(item.value, depth, "starred", is_annotation)
            else:
                self.expr(item, depth, "element", is_annotation)

    def dict_items(self, node, depth, is_annotation):
        for key, value in zip(node.keys, node.values):
            if key is None:
                self.expr(value, depth, "unpacking", is_annotation)
            else:
                self.expr(key, depth, "key", is_annotation)
                self.expr(value, depth, "value", is_annotation)

    def arguments(self, plain, keywords, depth, is_annotation):
        """Arguments in text order; the first of two may be an annotation."""
        items = sorted([*plain, *keywords], key=self.source.first)
        for place, item in enumerate(items):
            value = item.value if isinstance(item, (ast.Starred, ast.keyword)) else item
            begins = self.at(item) if value is item else self.inside(item)
            self.row(depth, "argument", begins, self.argument_kind(item))
            self.expr(value, depth + 1, "value", is_annotation or (place == 0 and len(items) == 2))

    @staticmethod
    def argument_kind(item):
        if isinstance(item, ast.Starred):
            return "Starred"
        if isinstance(item, ast.keyword):
            return f"Keyword {item.arg}" if item.arg is not None else "DoubleStarred"
        return "Positional"

    def index(self, node, depth, field, is_annotation):
        """What stands between the brackets of a subscript."""
        if isinstance(node, ast.Slice):
            self.row(depth, field, self.inside(node), "Slice")
            for part in ("lower", "upper", "step"):
                if getattr(node, part) is not None:
                    self.expr(getattr(node, part), depth + 1, part, is_annotation)
        elif isinstance(node, ast.Tuple) and not self.source.is_enclosed(node):
            self.row(depth, field, self.inside(node), "Indices")
            for item in node.elts:
                self.index(item, depth + 1, "item", is_annotation)
        else:
            self.row(depth, field, self.at(node), "Item")
            self.expr(node, depth + 1, "value", is_annotation)

    # ---- targets

    def target(self, node, depth, field):
        """A target, and what it is made of."""
        positions = self.at(node), self.inside(node)
        if isinstance(node, (ast.Tuple, ast.List)):
            self.row(depth, field, *positions, "Unpacking")
            self.target_elements(node.elts, depth + 1)
            return
        self.row(depth, field, *positions, self.label(node))
        if not isinstance(node, ast.Name):
            self.expr(node.value, depth + 1, "value")
        if isinstance(node, ast.Subscript):
            self.index(node.slice, depth + 1, "index", False)

    def target_elements(self, items, depth):
        for item in items:
            if isinstance(item, ast.Starred):
                self.target(item.value, depth, "starred")
            else:
                self.target(item, depth, "element")

    # ---- statements

    def statements(self, nodes, depth, field):
        for node in nodes:
            self.statement(node, depth, field)

    def statement(self, node, depth, field):
        """A statement, and what it is made of."""
        begin = depth, field, self.inside(node)
        write = getattr(self, f"write_{type(node).__name__}", None)
        if type(node) in WORDS:
            self.row(*begin, WORDS[type(node)])
        elif write is None:
            raise ValueError(f"a {type(node).__name__} is left out")
        else:
            write(node, depth + 1, begin)

    def some(self, node, depth, field, is_annotation=False):
        if node is not None:
            self.expr(node, depth, field, is_annotation)

    def write_Expr(self, node, depth, begin):
        self.row(*begin, "Expression")
        self.expr(node.value, depth, "value")

    def write_Assign(self, node, depth, begin):
        self.row(*begin, "Assign")
        for target in node.targets:
            self.target(target, depth, "target")
        self.expr(node.value, depth, "value")

    def write_AnnAssign(self, node, depth, begin):
        self.row(*begin, "Annotate")
        self.target(node.target, depth, "target")
        self.expr(node.annotation, depth, "annotation", True)
        self.some(node.value, depth, "value")

    def write_AugAssign(self, node, depth, begin):
        self.row(*begin, "Augment", type(node.op).__name__)
        self.target(node.target, depth, "target")
        self.expr(node.value, depth, "value")

    def write_Return(self, node, depth, begin):
        self.row(*begin, "Return")
        self.some(node.value, depth, "value")

    def write_Raise(self, node, depth, begin):
        self.row(*begin, "Raise")
        self.some(node.exc, depth, "exception")
        self.some(node.cause, depth, "cause")

    def write_Assert(self, node, depth, begin):
        self.row(*begin, "Assert")
        self.expr(node.test, depth, "test")
        self.some(node.msg, depth, "message")

    def write_Delete(self, node, depth, begin):
        """Targets with a comma are a tuple without parentheses."""
        self.row(*begin, "Delete")
        after = self.source.span(node.targets[-1])[1] + 1
        has_comma = after < len(self.source.tokens) and self.source.tokens[after].text == ","
        if len(node.targets) == 1 and not has_comma:
            self.target(node.targets[0], depth, "target")
            return
        begins = self.at(node.targets[0])
        self.row(depth, "target", begins, begins, "Unpacking")
        self.target_elements(node.targets, depth + 1)

    def write_Global(self, node, depth, begin):
        self.row(*begin, type(node).__name__, *node.names)

    write_Nonlocal = write_Global

    def write_Import(self, node, depth, begin):
        self.row(*begin, "Import")
        for item in node.names:
            alias = ("plain",) if item.asname is None else ("as", item.asname)
            self.row(depth, "module", *alias, *item.name.split("."))

    def write_ImportFrom(self, node, depth, begin):
        self.row(*begin, "ImportFrom", str(node.level), *(node.module.split(".") if node.module else []))
        for item in node.names:
            self.row(depth, "name", item.name, *([] if item.asname is None else ["as", item.asname]))

    def write_If(self, node, depth, begin):
        """An `elif` is an `if` alone in what stands after `else`, and begins with that word."""
        self.row(*begin, "If")
        while True:
            self.row(depth, "branch", self.inside(node), "Branch")
            self.expr(node.test, depth + 1, "test")
            self.statements(node.body, depth + 1, "body")
            after = node.orelse
            if not (after and isinstance(after[0], ast.If) and self.begins_with(after[0], "elif")):
                break
            node = after[0]
        self.statements(after, depth, "orelse")

    def begins_with(self, node, word):
        return self.source.tokens[self.source.first(node)].text == word

    def write_While(self, node, depth, begin):
        self.row(*begin, "While")
        self.expr(node.test, depth, "test")
        self.statements(node.body, depth, "body")
        self.statements(node.orelse, depth, "orelse")

    def write_For(self, node, depth, begin):
        self.row(*begin, "For is_async", true(isinstance(node, ast.AsyncFor)))
        self.target(node.target, depth, "target")
        self.expr(node.iter, depth, "iterable")
        self.statements(node.body, depth, "body")
        self.statements(node.orelse, depth, "orelse")

    write_AsyncFor = write_For

    def write_Try(self, node, depth, begin):
        self.row(*begin, "Try")
        self.statements(node.body, depth, "body")
        for handler in node.handlers:
            self.row(depth, "handler", self.inside(handler), "Handler", *(["as", handler.name] if handler.name else []))
            self.some(handler.type, depth + 1, "caught")
            self.statements(handler.body, depth + 1, "body")
        self.statements(node.orelse, depth, "orelse")
        self.statements(node.finalbody, depth, "finally")

    def write_With(self, node, depth, begin):
        self.source.note_header(node)
        self.row(*begin, "With is_async", true(isinstance(node, ast.AsyncWith)))
        for item in node.items:
            self.expr(item.context_expr, depth, "context")
            if item.optional_vars is not None:
                self.target(item.optional_vars, depth, "target")
        self.statements(node.body, depth, "body")

    write_AsyncWith = write_With

    # ---- definitions

    def write_FunctionDef(self, node, depth, begin):
        is_async, suspends = isinstance(node, ast.AsyncFunctionDef), is_suspending(node.body)
        self.row(*begin, "Function", node.name, "is_async", true(is_async), "suspends", true(suspends))
        for decorator in node.decorator_list:
            self.expr(decorator, depth, "decorator")
        self.parameters(node.args, depth)
        self.some(node.returns, depth, "returns", True)
        self.statements(node.body, depth, "body")

    write_AsyncFunctionDef = write_FunctionDef

    def parameters(self, found, depth):
        without = [None] * (len(found.args) - len(found.defaults))
        for item, default in zip(found.args, without + found.defaults):
            self.parameter(item, "Plain", 0, default, depth)
        if found.vararg:
            self.parameter(found.vararg, "Star", 1, None, depth)
        for item, default in zip(found.kwonlyargs, found.kw_defaults):
            self.parameter(item, "KeywordOnly", 0, default, depth)
        if found.kwarg:
            self.parameter(found.kwarg, "DoubleStar", 1, None, depth)

    def parameter(self, item, kind, stars, default, depth):
        """A parameter, which begins with its stars."""
        self.row(depth, "parameter", self.place(self.source.first(item) - stars), kind, item.arg)
        self.some(item.annotation, depth + 1, "annotation", True)
        self.some(default, depth + 1, "default")

    def write_ClassDef(self, node, depth, begin):
        self.row(*begin, "Class", node.name, "suspends", true(is_suspending(node.body)))
        for decorator in node.decorator_list:
            self.expr(decorator, depth, "decorator")
        self.arguments(node.bases, node.keywords, depth, False)
        self.statements(node.body, depth, "body")


def tree_rows(text, tree):
    """The lines of the abstract tree of a text whose tree is this by `ast`."""
    source, rows = Source(text), []
    translation = Translation(source, rows)
    translation.row(0, "module", "Module suspends", true(is_suspending(tree.body)), "whole_file", true(source.whole_file))
    translation.statements(tree.body, 1, "statement")
    for line, codes in source.ignores:
        translation.row(1, "ignore", str(line), "Listed" if codes else "All")
        for code in codes:
            translation.row(2, "code", code)
    return rows
