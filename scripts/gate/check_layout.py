#!/usr/bin/env python3
"""Looks whether each file of code has a head, and whether the lines of code and definitions fit into 120 columns.

    scripts/gate/check_layout.py

A file below `src/` begins with `//!`. No line of a file in `src/` or `specs/` is wider than 120 columns, string literals
left out: they are told with their files by no line breaks of their own. An attribute is on one line, however wide, since
`rt fmt` sets it so. The last line is `N passed, M failed`, over the files.
"""

import re
import sys
from pathlib import Path

CRATES = Path(__file__).resolve().parents[2] / "crates"
COLUMNS = 120
STRING = re.compile(r'"(?:\\.|[^"\\])*(?:"|\\?$)')


def is_wide(line):
    """Whether a line is wider than it may be."""
    return len(STRING.sub('""', line)) > COLUMNS and not line.lstrip().startswith(("#[", "#!["))


def faults(path):
    """What is wrong with a file, a line each."""
    lines = path.read_text(encoding="utf-8").splitlines()
    name = path.relative_to(CRATES.parent)
    found = []
    if path.suffix == ".rt" and not (lines and lines[0].startswith("//!")):
        found.append(f"{name}: no head")
    found += [f"{name}:{at}: {len(line)} columns" for at, line in enumerate(lines, 1) if is_wide(line)]
    return found


def main():
    files = sorted([*CRATES.glob("*/src/**/*.rt"), *CRATES.glob("*/specs/*.antt")])
    failed = 0
    for path in files:
        found = faults(path)
        print("".join(f"{fault}\n" for fault in found), end="")
        failed += bool(found)
    print(f"{len(files) - failed} passed, {failed} failed")
    return 1 if failed else 0


if __name__ == "__main__":
    sys.exit(main())
