#!/usr/bin/env python3
"""Compares the abstract trees of `pyc_lower` with those that CPython's own `ast` gives, on every `.py` file below a folder.

    scripts/by_hand/compare_trees.py [--program PROGRAM] FOLDER

PROGRAM prints the abstract trees of the files that its standard input names (`bench/trees.rt.txt`); without it, it is built
first (`scripts/by_hand/build.py trees`), which takes minutes. A file passes where its tree is, node for node, the one that
`abstract_trees.py` makes of `ast` and of Python's tokens: each form, operator, name, parameter, default, decorator, alias,
position and mark. Each file that differs is named with the first difference, what the program gives before what Python says.

Left out are files that have a fault here or that Python refuses (`compare_parses.py` judges these). A string whose text
is an expression here alone, by what is let pass beyond Python, is not entered. That a function suspends is compared by the
rule of `pyc_ast`, which differs from CPython's in what stands in decorators, defaults, annotations and bases of definitions
inside it, in defaults of lambdas and in fields of f-strings: there CPython counts a `yield` or `await`.

The last line is `N passed, M failed`. The status is 1 where a file failed or none passed, else 0.
"""

import argparse
import ast
import collections
import os
import platform
import subprocess
import sys
import warnings
from pathlib import Path

from abstract_trees import ANY, tree_rows
from build import built
from compare_parses import NOT_READ, text_of

SECONDS = 600
BATCH = 50
MOST_RECURSIONS = 20_000
PASSED, FAILED = "passed", "failed"
FAULT, REFUSED = "left out: a fault here", "left out: refused by Python"


def answers(program, paths):
    """What the program prints for each of some files, in lines."""
    names = b"".join(os.fsencode(path) + b"\n" for path in paths)
    done = subprocess.run([program], input=names, capture_output=True, timeout=SECONDS, check=True)
    found = []
    for row in done.stdout.decode().split("\n")[:-1]:
        if row[:1].isdigit():
            found[-1].append(row)
        else:
            found.append([row])
    if len(found) != len(paths):
        raise ValueError(f"the program answers {len(found)} of {len(paths)} files")
    return found


def depth_of(row):
    return int(row.partition(" ")[0])


def after_subtree(rows, place):
    """Where the node at a place of some rows ends."""
    depth, place = depth_of(rows[place]), place + 1
    while place < len(rows) and depth_of(rows[place]) > depth:
        place += 1
    return place


def is_same(mine, theirs):
    """Whether two rows say the same; one of them may say of a string that anything is let pass."""
    return mine == theirs or (theirs.endswith(f" {ANY}") and mine.startswith(theirs[: -len(ANY)]))


def difference(mine, theirs):
    """The first difference of two trees, None where they are equal."""
    here = there = 0
    while here < len(mine) and there < len(theirs):
        if not is_same(mine[here], theirs[there]):
            return f"{mine[here]!r} here, {theirs[there]!r} there"
        here, there = (here + 1 if mine[here] == theirs[there] else after_subtree(mine, here)), there + 1
    if here == len(mine) and there == len(theirs):
        return None
    return f"{mine[here:here + 1]} here, {theirs[there:there + 1]} there, at the end"


def python_rows(source, path):
    """The lines of a file's abstract tree by Python, None where it refuses the file."""
    try:
        with warnings.catch_warnings():
            warnings.simplefilter("ignore")
            text = text_of(source)
            tree = compile(text, str(path), "exec", ast.PyCF_ONLY_AST, dont_inherit=True)
    except (*NOT_READ, UnicodeDecodeError):
        return None
    return tree_rows(text, tree)


def judged(answer, path):
    """The heading under which a file is counted, what is told of it, and how many nodes were compared."""
    if answer[0] != "tree":
        return FAULT, answer[0], 0
    theirs = python_rows(path.read_bytes(), path)
    if theirs is None:
        return REFUSED, "", 0
    told = difference(answer[1:], theirs)
    return (FAILED if told else PASSED), told, len(theirs)


def compare(program, folder):
    """Compares every file, names those that differ, and counts them."""
    paths = [path for path in sorted(folder.rglob("*.py")) if path.is_file()]
    counts, nodes, size = collections.Counter(), 0, 0
    for start in range(0, len(paths), BATCH):
        batch = paths[start : start + BATCH]
        for path, answer in zip(batch, answers(program, batch)):
            heading, told, count = judged(answer, path)
            counts[heading] += 1
            nodes += count
            size += path.stat().st_size if count else 0
            if heading == FAILED:
                print(f"{path.relative_to(folder)}: {told}", flush=True)
    print(f"Python {platform.python_version()}, {len(paths)} files; compared: {size} bytes, {nodes} nodes")
    for heading in (FAULT, REFUSED):
        print(f"{counts[heading]:6} {heading}")
    print(f"{counts[PASSED]} passed, {counts[FAILED]} failed")
    return counts[PASSED] > 0 and counts[FAILED] == 0


def main():
    parser = argparse.ArgumentParser(description="Compares abstract trees with those of Python's ast.")
    parser.add_argument("--program", help="the built program that prints abstract trees")
    parser.add_argument("folder", type=Path)
    words = parser.parse_args()
    sys.setrecursionlimit(MOST_RECURSIONS)
    with built("trees", words.program) as program:
        return 0 if compare(program, words.folder) else 1


if __name__ == "__main__":
    sys.exit(main())
