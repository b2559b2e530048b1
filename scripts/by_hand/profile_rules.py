"""What the language here leaves out of Python's, and what it lets pass beyond it, read off Python's own trees and tokens.

A source that Python's `ast` reads has, by these rules, a tree or a first fault here: `expected` says which, and by which
rule. `beyond` names the rule by which a source has a tree that `ast` refuses.
"""

import ast
import bisect
import collections
import re
import sys
import tokenize
import unicodedata
import warnings

from compare_tokens import STRING, ends_early, python_tokens

MOST_NESTED = 64
MOST_HIGH = 1_000
SOFT = {"match", "case", "type"}
OPENS, CLOSES = set("([{"), set(")]}")
# Comments, strings as they are cut here, and brackets; what takes an `f` out; a line that may have more than 64 indents
QUICK = re.compile(rf"#[^\n]*|{STRING.pattern}|[\[\](){{}}]", re.DOTALL)
NO_F = str.maketrans("", "", "fF")
WIDE = re.compile(rf"^[ \t\f]{{{MOST_NESTED + 1}}}", re.MULTILINE)
NO_TEXT = {tokenize.COMMENT, tokenize.NL, tokenize.INDENT, tokenize.DEDENT, tokenize.ENDMARKER}

LEFT_OUT = {
    "not UTF-8": "the source is not UTF-8: an encoding that a comment declares is not read",
    "f-string": "an f-string uses its own quote again or breaks a line within a field: the token ends at that quote",
    "depth": "more than 64 brackets or indents: Python allows 200 and 100",
    "height": "a line's tree is more than 1,000 nodes high",
    "match": "a `match` statement",
    "type": "a `type` statement",
    "type parameters": "a list of type parameters after the name of a function or class",
    ":=": "an assignment expression",
    "except*": "an `except*` clause",
    "/": "parameters by position alone",
    "star import": "`from m import *`",
    "starred subscript": "a starred expression as a subscript, or in its tuple without parentheses",
    "starred annotation": "a starred expression as the annotation of `*args`",
    "template string": "a string with the prefix `t`",
}

# The forms that are nodes of a kind of their own
NEWER = {"Match": "match", "TypeAlias": "type", "TemplateStr": "template string"}

LIMITS = "limits of Python's parser"
LATER = "a later edition of Unicode"
# What Python says against a source that has a tree here
BEYOND = {
    "leading zeros": "leading zeros in decimal integer literals",
    "order of defaults": "non-default argument follows default|parameter without a default follows",
    "del of a starred target": "cannot delete starred",
    "fields of f-strings are not read": "^f-string",
    "escapes in strings are not read": r"^\((unicode|value) error\)",
    "bytes beyond ASCII": "bytes can only contain ASCII",
    "declared encoding": "unknown encoding|encoding problem|codec can't decode",
    "null characters": "null bytes",
    "backslash before the last line end": "^unexpected EOF while parsing",
    LIMITS: "^(MemoryError|RecursionError)|too many nested parentheses|too many levels of indentation",
}

# The lines, first and last, on one of which a fault must stand; its text, None for any; the rule.
Expected = collections.namedtuple("Expected", "first last text rule")
# A logical line: its first physical line, and the tokens as (kind, string).
Line = collections.namedtuple("Line", "first tokens")


def logical_lines(text):
    """The logical lines of a text by Python's tokenizer."""
    lines, begins = [], True
    for kind, string, (line, _) in python_tokens(text):
        if kind == tokenize.NEWLINE:
            begins = True
        elif kind not in NO_TEXT and not (kind == tokenize.ERRORTOKEN and string.isspace()):
            if begins:
                lines.append(Line(line, []))
            begins = False
            lines[-1].tokens.append((kind, string))
    return lines


def line_text(line):
    """What is told of a logical line that is left out."""
    words = [string for _, string in line.tokens]
    has_operator = {string for kind, string in line.tokens if kind == tokenize.OP}
    is_function = words[0] == "def" or words[:2] == ["async", "def"]
    is_outside = (
        ":=" in has_operator
        or (words[0] == "from" and words[-2:] == ["import", "*"])
        or (is_function and "/" in has_operator)
        or words[0] in SOFT
    )
    return "Outside the profile" if is_outside else "Invalid syntax"


def is_enclosed(text, node):
    """Whether the first bracket of a node's text closes at its end."""
    segment = ast.get_source_segment(text, node)
    if not segment.startswith("("):
        return False
    depth, strings = 0, [string for kind, string, _ in python_tokens(segment) if kind == tokenize.OP]
    for place, string in enumerate(strings):
        depth += (string in OPENS) - (string in CLOSES)
        if depth == 0:
            return place == len(strings) - 1
    return False


def is_starred(text, index):
    """Whether what stands in a subscript is starred, or a tuple without parentheses with a starred item."""
    if isinstance(index, ast.Tuple) and any(isinstance(item, ast.Starred) for item in index.elts):
        return not is_enclosed(text, index)
    return isinstance(index, ast.Starred)


def form_at(node, text):
    """The form that is left out at a node, and the physical line of a token of it; or None."""
    if isinstance(node, ast.NamedExpr):
        return ":=", node.lineno
    if isinstance(node, ast.Subscript) and is_starred(text, node.slice):
        return "starred subscript", node.slice.lineno
    if isinstance(node, ast.ImportFrom) and node.names[0].name == "*":
        return "star import", node.lineno
    if isinstance(node, ast.arguments):
        if node.posonlyargs:
            return "/", node.posonlyargs[0].lineno
        if node.vararg and isinstance(node.vararg.annotation, ast.Starred):
            return "starred annotation", node.vararg.lineno
    return newer_form_at(node)


def newer_form_at(node):
    """The same for a node of a kind that not every edition of Python has."""
    kind = type(node).__name__
    if kind == "TryStar":
        return "except*", node.handlers[0].lineno
    if kind in NEWER:
        return NEWER[kind], node.lineno
    return ("type parameters", node.lineno) if getattr(node, "type_params", None) else None


# The nodes that are none in a tree here, and those at which a line's tree begins anew
FREE = (ast.expr_context, ast.operator, ast.unaryop, ast.cmpop, ast.boolop, ast.arguments)
ANEW = (ast.stmt, ast.ExceptHandler)


def children_of(node):
    """The nodes below a node, each with what it adds to the height above it, parentheses left out."""
    if isinstance(node, ast.BoolOp):
        count = len(node.values)
        return [(value, min(count - 1, count - place)) for place, value in enumerate(node.values)]
    found = [(child, 1) for child in ast.iter_child_nodes(node)]
    if isinstance(node, ast.Call):
        return [(child, 2 if child is not node.func and isinstance(child, ast.expr) else 1) for child, _ in found]
    return found


def forms_and_heights(tree, text):
    """The forms of a tree that are left out, each with a physical line; and for each physical line on which a statement
    begins whose tree may be the highest, its height without parentheses; f-strings are not entered."""
    forms, heights = [], {}
    left = [(tree, 0, 0)]
    while left:
        node, height, begins = left.pop()
        if isinstance(node, ANEW):
            height, begins = 2, node.lineno
        form = form_at(node, text)
        if form:
            forms.append(form)
        if height > heights.get(begins, 0):
            heights[begins] = height
        if not isinstance(node, ast.JoinedStr):
            below = height - isinstance(node, FREE)
            left += [(child, below + added, begins) for child, added in children_of(node)]
    return forms, heights


def may_be_deep(text):
    """Whether a text may have too many brackets or indents: a quick test."""
    depth = 0
    for found in QUICK.finditer(text):
        depth += (found[0] in OPENS) - (found[0] in CLOSES)
        if depth > MOST_NESTED:
            return True
    return WIDE.search(text) is not None


def depth_fault(text):
    """The first physical line with too many brackets or indents, or None."""
    brackets = indents = 0
    for kind, string, (line, _) in python_tokens(text):
        if kind == tokenize.OP:
            brackets += (string in OPENS) - (string in CLOSES)
        indents += (kind == tokenize.INDENT) - (kind == tokenize.DEDENT)
        if brackets > MOST_NESTED or indents > MOST_NESTED:
            return line
    return None


def early_string(text):
    """The physical lines, first and last, of the first f-string that ends early here, or None."""
    for kind, string, (line, _) in python_tokens(text):
        if kind == tokenize.STRING and ends_early(string):
            return line, line + string.count("\n")
    return None


def lexical_fault(text):
    """The first lexical fault of a text that Python reads."""
    early = early_string(text) if sys.version_info >= (3, 12) else None
    deep = depth_fault(text) if may_be_deep(text) else None
    if early and (deep is None or early[0] <= deep):
        return Expected(*early, None, "f-string")
    return deep and Expected(deep, deep, "Too deeply nested", "depth")


def expected(text, tree):
    """The first fault of a text with this tree, None where it has none."""
    found = lexical_fault(text)
    if found:
        return found
    forms, heights = forms_and_heights(tree, text)
    forms += [("height", line) for line, height in heights.items() if height > MOST_HIGH]
    if not forms:
        return None
    lines = logical_lines(text)
    firsts = [line.first for line in lines]
    place, rule = min((bisect.bisect_right(firsts, line) - 1, rule) for rule, line in forms)
    return Expected(firsts[place], firsts[place], line_text(lines[place]), rule)


def plain(found):
    """A string without an `f` in its prefix; any other piece as it stands."""
    prefix = re.match("[a-zA-Z]*", found[0])[0]
    return prefix.translate(NO_F) + found[0][len(prefix) :]


def is_read_without_fields(text):
    """Whether Python reads a text with each f-string made a plain string."""
    try:
        with warnings.catch_warnings():
            warnings.simplefilter("ignore")
            ast.parse(QUICK.sub(plain, text))
    except (SyntaxError, ValueError, tokenize.TokenError):
        return False
    return True


def is_new_character(told):
    """Whether Python refuses a character that its edition of Unicode does not assign."""
    found = re.search(r"^invalid .*character .*U\+([0-9A-F]+)", told)
    return found is not None and unicodedata.category(chr(int(found[1], 16))) == "Cn"


def beyond(told, text):
    """The rule by which a text has a tree against which Python says this, or None."""
    if is_new_character(told):
        return LATER
    rule = next((rule for rule, pattern in BEYOND.items() if re.search(pattern, told)), None)
    return rule or ("fields of f-strings are not read" if is_read_without_fields(text) else None)


def by_limits(told):
    """Whether Python says that it gives up."""
    return re.search(BEYOND[LIMITS], told) is not None
