#!/usr/bin/env python3
"""Compares which sources `pyc_parse` reads with those that Python's own `ast` reads, on every `.py` file below a folder.

    scripts/by_hand/compare_parses.py [--program PROGRAM] FOLDER

PROGRAM prints what the files are that its standard input names (`bench/outcomes.rt.txt`); without it, it is built first
(`scripts/by_hand/build.py outcomes`), which takes minutes. Each file is counted under one heading:

- `tree in both`, where the file has none of the forms that are left out here;
- the rule by which a file that `ast` reads has a fault here (`LEFT_OUT` of `profile_rules.py`): the fault must be told on
  the first line, and with the text, that the rules say of Python's own tokens and tree;
- `refused by both`: Python refuses the file too, by `ast` or, on the line of the fault, by its compiler alone;
- the rule by which a file has a tree here that `ast` refuses (`BEYOND`), told by what Python says against it;
- `limits of Python's parser`: Python gives up before it knows;
- `unexplained`: anything else.

Each file that is not in the first heading is named. The status is 1 where a file is unexplained, else 0.
"""

import argparse
import ast
import collections
import platform
import subprocess
import sys
import warnings
from pathlib import Path

from build import built
from compare_tokens import BYTE_ORDER_MARK, with_line_feeds
from profile_rules import BEYOND, LATER, LEFT_OUT, LIMITS, Expected, beyond, by_limits, expected

SECONDS = 600
TREE = "tree"
BOTH = "tree in both"
REFUSED = "refused by both"
PASSED = {*BEYOND, LATER} - {LIMITS}
NOT_READ = (SyntaxError, ValueError, MemoryError, RecursionError)

# What a source is here: the line and the text of its fault, or no line and `tree`.
Outcome = collections.namedtuple("Outcome", "line text")


def outcome_of(row):
    word, _, rest = row.partition(" ")
    if word == "fault":
        line, _, text = rest.partition(" ")
        return Outcome(int(line), text)
    if row != TREE:
        raise ValueError(f"the program prints {row!r}")
    return Outcome(None, TREE)


def own_outcomes(program, paths):
    """What the program says of files."""
    names = "".join(f"{path}\n" for path in paths)
    done = subprocess.run([program], input=names.encode(), capture_output=True, timeout=SECONDS, check=True)
    rows = done.stdout.decode().splitlines()
    if len(rows) != len(paths):
        raise ValueError(f"the program prints {len(rows)} lines for {len(paths)} files")
    return [outcome_of(row) for row in rows]


def python_says(source, path, flags):
    """What Python reads of a source, None where it refuses it; and what it says then, and on which line."""
    try:
        with warnings.catch_warnings():
            warnings.simplefilter("ignore")
            return compile(source, str(path), "exec", flags, dont_inherit=True), "", None
    except NOT_READ as error:
        line = error.lineno if isinstance(error, SyntaxError) else None
        told = error.msg if isinstance(error, SyntaxError) else error
        return None, str(told) if isinstance(error, (SyntaxError, ValueError)) else f"{type(error).__name__}: {error}", line


def told_of(own):
    return "tree here" if own.text == TREE else f"{own.text} on line {own.line} here"


def text_of(source):
    return with_line_feeds(source.removeprefix(BYTE_ORDER_MARK).decode())


def judged_tree(own, tree, source, path):
    """The heading of a file that `ast` reads, and what is told of it."""
    try:
        want = expected(text_of(source), tree)
    except UnicodeDecodeError:
        want = Expected(1, 1, "Source is not UTF-8", "not UTF-8")
    told = told_of(own)
    if want is None:
        if own.text == TREE:
            return BOTH, ""
        _, why, line = python_says(source, path, 0)
        heading = REFUSED if why and line is not None and line >= own.line else "unexplained"
        return heading, f"{told}, {why or 'read'} on line {line} there"
    if own.text == TREE or not want.first <= own.line <= want.last or want.text not in (None, own.text):
        return "unexplained", f"{told}, where {want} was expected"
    return want.rule, told


def judged(own, source, path):
    """The heading under which a file is counted, and what is told of it."""
    tree, why, line = python_says(source, path, ast.PyCF_ONLY_AST)
    if tree is not None:
        return judged_tree(own, tree, source, path)
    told = f"{told_of(own)}, {why} on line {line} there"
    if own.text == TREE:
        return beyond(why, text_of(source)) or "unexplained", told
    return (LIMITS if by_limits(why) else REFUSED), told


def compare(program, folder):
    """Compares every file, names those that differ, and counts them."""
    paths = [path for path in sorted(folder.rglob("*.py")) if path.is_file()]
    counts, size = collections.Counter(), 0
    for path, own in zip(paths, own_outcomes(program, paths)):
        source = path.read_bytes()
        heading, told = judged(own, source, path)
        counts[heading] += 1
        size += len(source)
        if heading != BOTH:
            print(f"{path.relative_to(folder)}: {heading}: {told}", flush=True)
    print(f"Python {platform.python_version()}, {len(paths)} files, {size} bytes")
    for heading, count in counts.most_common():
        rule = LEFT_OUT.get(heading) or (heading in PASSED and "a tree here, refused by Python")
        print(f"{count:6} {heading}{f': {rule}' if rule else ''}")
    return counts["unexplained"]


def main():
    parser = argparse.ArgumentParser(description="Compares which sources are read with Python's ast.")
    parser.add_argument("--program", help="the built program that prints outcomes")
    parser.add_argument("folder", type=Path)
    words = parser.parse_args()
    with built("outcomes", words.program) as program:
        return 1 if compare(program, words.folder) else 0


if __name__ == "__main__":
    sys.exit(main())
