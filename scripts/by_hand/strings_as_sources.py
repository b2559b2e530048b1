#!/usr/bin/env python3
"""Writes the strings that stand in Python files as sources of their own, as they are and without their common indent.

    scripts/by_hand/strings_as_sources.py FROM TO

Each string of each `.py` file below the folder FROM is taken, and each example of a doctest in it; strings of more than
20,000 characters and of names alone are left. The folder TO is made. Tests of Python's own parser hold many sources
that `scripts/by_hand/compare_parses.py TO` can then compare.
"""

import ast
import doctest
import sys
import textwrap
import warnings
from pathlib import Path

MOST = 20_000
EXAMPLES = doctest.DocTestParser()


def strings_of(path):
    """The strings of a file that Python reads, with the examples in them."""
    try:
        tree = ast.parse(path.read_bytes())
    except (SyntaxError, ValueError):
        return
    for node in ast.walk(tree):
        if isinstance(node, ast.Constant) and isinstance(node.value, str):
            yield node.value
            try:
                yield from (example.source for example in EXAMPLES.get_examples(node.value))
            except ValueError:
                continue


def is_source(text):
    return len(text) <= MOST and not text.replace(".", "_").isidentifier()


def sources_of(folder):
    """The sources in the files below a folder, each once."""
    found = {}
    for path in sorted(folder.rglob("*.py")):
        for string in strings_of(path):
            found |= {text: None for text in (string, textwrap.dedent(string)) if is_source(text)}
    return list(found)


def main():
    if len(sys.argv) != 3:
        print(__doc__)
        return 2
    warnings.simplefilter("ignore")
    to = Path(sys.argv[2])
    to.mkdir(parents=True)
    count = 0
    for text in sources_of(Path(sys.argv[1])):
        try:
            (to / f"source{count:06}.py").write_bytes(text.encode())
            count += 1
        except UnicodeEncodeError:
            continue
    print(f"{count} sources")
    return 0


if __name__ == "__main__":
    sys.exit(main())
