#!/usr/bin/env python3
"""Compares the tokens of `pyc_lex` with those of Python's own `tokenize`, on every `.py` file below a folder.

    scripts/by_hand/compare_tokens.py [--program PROGRAM] FOLDER

PROGRAM prints the tokens of the source on its standard input (`bench/tokens.rt.txt`); without it, it is built first
(`scripts/by_hand/build.py tokens`), which takes minutes. A file is equal where the texts of all tokens, their lines and columns,
the logical lines with their indents, and the ignore comments are the same. Each other file is named with the reason, which
is one of:

- both refuse the file, where Python does so in its tokenizer or its compiler; or Python alone does, in both of them;
- a rule by which this lexis differs from Python's (`RULES`);
- `unexplained`.

Python's line ends are taken as its compiler takes them: CR LF and a lone CR become LF, in strings too. An f-string, which
Python from 3.12 on gives in parts, is joined to one token.

The last lines count the files. The status is 1 where a file is unexplained, else 0.
"""

import argparse
import ast
import collections
import io
import platform
import re
import subprocess
import sys
import tokenize
import warnings
from pathlib import Path

from build import built

SECONDS = 60
BYTE_ORDER_MARK = b"\xef\xbb\xbf"
SKIPPED = {tokenize.COMMENT, tokenize.NL, tokenize.NEWLINE, tokenize.INDENT, tokenize.DEDENT, tokenize.ENDMARKER}
OPENS_STRING = {getattr(tokenize, f"{kind}STRING_START", None) for kind in "FT"} - {None}
CLOSES_STRING = {getattr(tokenize, f"{kind}STRING_END", None) for kind in "FT"} - {None}
LEADING_ZEROS = re.compile(r"0[0-9_]*[1-9]")
# `#`, spaces, `type:`, spaces, `ignore`, perhaps codes in brackets, and then the end, a space, a tab or `#`
IGNORE = re.compile(r"# *type: *ignore(?:\[([^\[\]#]*)\])?(?=$|[ \t#])")

# a string as this lexis cuts it: up to the first quotes like those that open it, without a look into fields
STRING = re.compile(r"[a-zA-Z]*(?:(\"{3}|'{3})(?:\\.|[^\\])*?\1|([\"'])(?:\\.|(?!\2)[^\\\n])*\2)", re.DOTALL)

RULES = {
    "not UTF-8": "the source is not UTF-8: an encoding that a comment declares is not read",
    "f-string": "an f-string uses its own quote again or breaks a line within a field: the token ends at that quote",
    "depth": "more than 64 brackets or indents: Python allows 200 and 100",
    "leading zeros": "a number with leading zeros is one token, which Python before 3.12 cuts in two",
    "character": "Python's tokenizer gives a token for a character that begins none",
    "<>": "Python's tokenizer gives `<>` as one token",
    "name": "the two take the characters of names from different tables: `tokenize` before 3.12 from those of `re`",
}

Token = collections.namedtuple("Token", "line column text")
Lexis = collections.namedtuple("Lexis", "tokens ignores")
Fault = collections.namedtuple("Fault", "what line")


def with_line_feeds(text):
    return text.replace("\r\n", "\n").replace("\r", "\n")


def offsets_of(lines):
    """Where each line of a text begins."""
    offsets = [0]
    for line in lines:
        offsets.append(offsets[-1] + len(line))
    return offsets


def python_tokens(text):
    """The tokens of a text as Python's tokenizer gives them, with INDENT, DEDENT, NEWLINE and comments, f-strings joined."""
    offsets = offsets_of(io.StringIO(text).readlines())
    depth = 0
    start = None
    for token in tokenize.generate_tokens(io.StringIO(text).readline):
        if token.type in OPENS_STRING:
            start = token.start if depth == 0 else start
            depth += 1
        elif token.type in CLOSES_STRING:
            depth -= 1
            if depth == 0:
                first = offsets[start[0] - 1] + start[1]
                last = offsets[token.end[0] - 1] + token.end[1]
                yield tokenize.STRING, text[first:last], start
        elif depth == 0:
            yield token.type, token.string, token.start


def codes_of(listed):
    """The codes of an ignore comment, None for all, or no ignore at all where a code is empty."""
    codes = [code.strip(" ") for code in listed.split(",")]
    return codes if all(codes) else None


def ignore_of(line, comment):
    """The ignore that a comment is, or None."""
    found = IGNORE.match(comment)
    if not found:
        return None
    if found[1] is None:
        return (line, [])
    codes = codes_of(found[1])
    return codes and (line, codes)


def python_lexis(text):
    """What Python's tokenizer says of a text: a token for each indent of a logical line, and the tokens; or a fault."""
    found, ignores, depth, begins = [], [], 0, True
    try:
        for kind, string, (line, column) in python_tokens(text):
            if kind == tokenize.ERRORTOKEN and not string.isspace():
                return Fault(f"no token at {string[:20]!r}", line)
            depth += (kind == tokenize.INDENT) - (kind == tokenize.DEDENT)
            begins = begins or kind == tokenize.NEWLINE
            if kind == tokenize.COMMENT:
                ignores.append(ignore_of(line, string))
            if kind in SKIPPED or kind == tokenize.ERRORTOKEN:
                continue
            if begins:
                found.append(Token(line, 0, f"indent {depth}"))
                begins = False
            found.append(Token(line, column + 1, string))
    except (tokenize.TokenError, SyntaxError) as error:
        line = error.lineno if isinstance(error, SyntaxError) else error.args[1][0]
        return Fault(str(error.args[0]), line)
    return Lexis(found, [ignore for ignore in ignores if ignore])


def own_lexis(program, source):
    """What the program says of a source."""
    done = subprocess.run([program], input=source, capture_output=True, timeout=SECONDS, check=True)
    found, ignores, depth = [], [], None
    for row in done.stdout.decode().splitlines():
        words = row.split(" ")
        if words[0] == "indent":
            depth = words[1]
        elif words[0] == "ignore":
            places = [int(word) for word in words[2:]]
            codes = [source[start:end].decode() for start, end in zip(places[::2], places[1::2])]
            ignores.append((int(words[1]), codes))
        elif words[0].isdigit():
            line, column, start, end = map(int, words[:4])
            if depth is not None:
                found.append(Token(line, 0, f"indent {depth}"))
                depth = None
            found.append(Token(line, column, with_line_feeds(source[start:end].decode())))
        elif row != "whole file":
            line = re.search(r" on line (\d+)$", row)
            return Fault(row, int(line[1]) if line else 0)
    return Lexis(found, ignores)


def compiler_fault(source, path):
    """What Python's compiler says against a source, or None."""
    try:
        with warnings.catch_warnings():
            warnings.simplefilter("ignore")
            compile(source, str(path), "exec", ast.PyCF_ONLY_AST, dont_inherit=True)
    except (SyntaxError, ValueError, MemoryError, RecursionError) as error:
        return f"{type(error).__name__}: {error}"
    return None


def ends_early(string):
    """Whether a string of Python's is an f-string that this lexis ends before its end."""
    found = STRING.match(string)
    return "f" in string[:2].lower() and (found is None or found.end() < len(string))


def reuses_quote_at(line, text):
    """Whether an f-string that this lexis ends early stands at a line."""
    try:
        strings = [(place[0], string) for kind, string, place in python_tokens(text) if kind == tokenize.STRING]
    except (tokenize.TokenError, SyntaxError):
        return False
    return any(first <= line <= first + string.count("\n") and ends_early(string) for first, string in strings)


def rule_of_fault(own, text):
    """The rule by which this lexis alone has a fault, or None."""
    if own.what.startswith("source is not UTF-8"):
        return "not UTF-8"
    if own.what.startswith("too deeply nested"):
        return "depth"
    if reuses_quote_at(own.line, text):
        return "f-string"
    if own.what.startswith("invalid character"):
        return "character"
    return None


def rule_of_tokens(own, python):
    """The rule by which the first two tokens that differ do so, or None."""
    pairs = zip(own.tokens, python.tokens)
    mine, theirs = next(((a, b) for a, b in pairs if a != b), (None, None))
    if mine is None or mine[:2] != theirs[:2]:
        return None
    if ends_early(theirs.text) and theirs.text.startswith(mine.text):
        return "f-string"
    if LEADING_ZEROS.match(mine.text) and mine.text.startswith(theirs.text):
        return "leading zeros"
    if theirs.text == "<>":
        return "<>"
    if not mine.text.isascii() or not theirs.text.isascii():
        return "name"
    return None


def first_difference(own, python):
    for mine, theirs in zip(own.tokens, python.tokens):
        if mine != theirs:
            return f"{tuple(mine)} here, {tuple(theirs)} there"
    if own.tokens != python.tokens:
        return f"{len(own.tokens)} tokens here, {len(python.tokens)} there"
    pairs = zip(own.ignores, python.ignores)
    return f"ignores: {next(((a, b) for a, b in pairs if a != b), (len(own.ignores), len(python.ignores)))}"


def judged(own, python, source, text, path):
    """The heading under which a file is counted, and what is told of it."""
    if own == python:
        return "equal", ""
    if isinstance(own, Fault):
        refused = python.what if isinstance(python, Fault) else compiler_fault(source, path)
        if refused:
            return "refused by both", f"{own.what} here, {refused} there"
        return rule_of_fault(own, text) or "unexplained", own.what
    if isinstance(python, Fault):
        told = f"{python.what} on line {python.line} there"
        if compiler_fault(source, path):
            return "refused by Python alone", told
        return ("unexplained" if python.what.isascii() else "name"), told
    return rule_of_tokens(own, python) or "unexplained", first_difference(own, python)


def compared(program, path):
    """The heading under which a file is counted, what is told of it, and its numbers of bytes and tokens."""
    source = path.read_bytes()
    own = own_lexis(program, source)
    try:
        text = with_line_feeds(source[len(BYTE_ORDER_MARK) * source.startswith(BYTE_ORDER_MARK) :].decode())
        python = python_lexis(text)
    except UnicodeDecodeError:
        text, python = "", Fault("source is not UTF-8", 0)
        if isinstance(own, Fault) and own.what == python.what:
            return "not UTF-8", own.what, len(source), 0
    heading, told = judged(own, python, source, text, path)
    count = sum(token.column > 0 for token in own.tokens) if isinstance(own, Lexis) else 0
    return heading, told, len(source), count


def compare(program, folder):
    """Compares every file, names those that differ, and counts them."""
    counts, examined, token_count = collections.Counter(), 0, 0
    for path in sorted(folder.rglob("*.py")):
        if not path.is_file():
            continue
        heading, told, size, found = compared(program, path)
        counts[heading] += 1
        examined += size
        token_count += found
        if heading != "equal":
            print(f"{path.relative_to(folder)}: {heading}: {told}", flush=True)
    print(f"Python {platform.python_version()}, {sum(counts.values())} files, {examined} bytes, {token_count} tokens")
    for heading, count in counts.most_common():
        print(f"{count:6} {heading}{': ' + RULES[heading] if heading in RULES else ''}")
    return counts["unexplained"]


def main():
    parser = argparse.ArgumentParser(description="Compares tokens with those of Python's tokenize.")
    parser.add_argument("--program", help="the built program that prints tokens")
    parser.add_argument("folder", type=Path)
    words = parser.parse_args()
    with built("tokens", words.program) as program:
        return 1 if compare(program, words.folder) else 0


if __name__ == "__main__":
    sys.exit(main())
