#!/usr/bin/env python3
"""Looks whether THEOREMS.md names each public call that has a condition.

    scripts/gate/check_conditions.py

A call is a function that a crate's root exports, or a method of a type or a trait that it exports, outside the attic. It
has a condition where its contract has a `requires`. The section "What calls require" names it in backticks, a method with
its type, or by its type alone. What the section names as a method has to be a call with a condition. The last line is
`N passed, M failed`, over the calls and the methods that the section names.
"""

import re
import sys

from check_uncalled import crates
from rattle_code import COMMENT, Reader, blanked
from repository import ROOT

PAGE = ROOT / "docs" / "THEOREMS.md"
HEADING = "\n## What calls require\n"


def signature(lines, line):
    """The text of a function's signature and contract, from the line where it begins, from 1, to its body."""
    indent = len(lines[line - 1]) - len(lines[line - 1].lstrip())
    found = [lines[line - 1]]
    for it in lines[line:]:
        if it.startswith((" " * indent + "{", " " * indent + "}")) or re.match(rf" {{{indent}}}(?:pub |fn )", it):
            break
        found.append(it)
    return "\n".join(found)


def is_public(it, exported, line):
    """Whether a function is a call of its crate, by the names that the crate's root exports."""
    if it.kind and it.trait:
        return False
    if it.trait:
        return it.trait in exported
    return re.match(r"\s*pub (?:const )?fn ", line) is not None and (it.kind or it.name) in exported


def conditions(crate):
    """Returns the calls of a crate that have a condition: the type or the trait, if there is one, and the name."""
    folder, found = ROOT / "crates" / crate, []
    root = folder / "src" / "lib.rt"
    exported = Reader(crate, "src/lib.rt", root.read_text(encoding="utf-8")).read().uses if root.is_file() else {}
    for path in sorted(folder.glob("src/**/*.rt")):
        text = path.read_text(encoding="utf-8")
        lines = COMMENT.sub(lambda it: blanked(it[0]) if it[0].startswith("//") else it[0], text).split("\n")
        for it in Reader(crate, path.name, text).read().functions:
            is_call = is_public(it, exported, lines[it.line - 1])
            if is_call and re.search(r"\brequires(?: \w+)? \{", signature(lines, it.line)):
                found.append((it.kind or it.trait, it.name))
    return found


def main():
    calls = [it for crate in crates() for it in conditions(crate)]
    section = PAGE.read_text(encoding="utf-8").partition(HEADING)[2].partition("\n## ")[0]
    named = set(re.findall(r"`([\w:]+)`", section))
    whole = {f"{kind}::{name}" for kind, name in calls}
    faults = [
        f"docs/THEOREMS.md: no row of what calls require has {kind}{kind and '::'}{name}"
        for kind, name in calls
        if not named & {kind or name, f"{kind}::{name}"}
    ]
    methods = [it for it in named if "::" in it and it.split("::")[0][:1].isupper()]
    faults += [f"docs/THEOREMS.md: {it} requires nothing" for it in methods if it not in whole]
    print("".join(f"{fault}\n" for fault in faults), end="")
    print(f"{len(calls) + len(methods) - len(faults)} passed, {len(faults)} failed")
    return 1 if faults else 0


if __name__ == "__main__":
    sys.exit(main())
