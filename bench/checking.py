#!/usr/bin/env python3
"""Measures how fast `check_unit` and `unsilenced` of `pyc_body` find the messages of an abstract tree.

    bench/checking.py [--program PROGRAM] [--keep FILE]

The source is one file of 10,000 lines that is made of ordinary statements at its top level: assignments, annotated and plain,
displays, arithmetic, comparisons, attributes, calls of functions, classes and methods, conditional expressions and tests of
None, over classes and functions of its own; one line in 40 has an error. PROGRAM is built from `bench/checking.rt.txt`
(`scripts/by_hand/build.py checking`, which is called where none is given). It makes a world of the one file and then its
messages, several times in one thread, and counts the processor time of each alone. The quickest turn is taken. With `--keep`
the source stays in FILE.

Nothing is passed or failed: the numbers depend on the machine. The aim is 300,000 lines a second, from abstract tree to
messages. The status is 1 where the program does not answer as it must.
"""

import argparse
import subprocess
import sys
from pathlib import Path

from parsing import SECONDS, processor
from programs import Stop, measured_by

LINES = 10_000
TURNS = 15
ERROR_EVERY = 40
START = '''from typing import Optional


class Point:
    name: str = ""

    def __init__(self, x: int, y: int = 0, *, label: str = "") -> None:
        pass

    def moved(self, dx: int, dy: int) -> "Point":
        return self

    def __add__(self, other: "Point") -> "Point":
        return self


class Named(Point):
    size: int = 1


def total(first: int, second: int = 0, *rest: int) -> int:
    return first


def find(name: str, among: list[str]) -> Optional[Point]:
    return None


origin: Point = Point(0, 0)
names: list[str] = []
sizes: dict[str, int] = {}
'''
ORDINARY = (
    "n{i}: int = {i}",
    'title{i} = "title {i}"',
    "n{i}: float = total({i}, 2, 3) * 2 + 1",
    'names{i}: list[str] = ["a", title, "b" + title]',
    'sizes["k{i}"] = total({i}) // 3',
    "origin.moved({i}, 2).moved(1, total(2))",
    "p{i}: Point = Named({i}, y=2, label=title)",
    "found{i}: Optional[Point] = find(title, names)",
    "ok{i} = found is not None and found.name == title",
    "far{i}: Point = found if found is not None else origin + Point({i})",
    "pair{i}: tuple[int, str] = ({i}, origin.name)",
    "isinstance(origin, Named) and total(origin.size, -{i})",
)
WRONG = 'wrong{i}: int = "text"'


def made_source():
    """The source, and how many messages it has."""
    lines = START.splitlines()
    lines += ['title: str = ""', "found: Optional[Point] = None"]
    errors = 0
    while len(lines) < LINES:
        number = len(lines)
        is_wrong = number % ERROR_EVERY == 0
        errors += is_wrong
        lines.append((WRONG if is_wrong else ORDINARY[number % len(ORDINARY)]).format(i=number))
    return "\n".join(lines).encode() + b"\n", errors


def measure(program, keep):
    source, errors = made_source()
    if keep:
        Path(keep).write_bytes(source)
    how = {"input": source, "capture_output": True, "timeout": SECONDS, "check": True}
    rows = [row.split() for row in subprocess.run([program, str(TURNS)], **how).stdout.decode().splitlines()]
    if len(rows) != TURNS or any(int(row[0]) != errors for row in rows):
        raise Stop(f"{program} found {sorted({row[0] for row in rows})} messages, not {errors}")
    checked, made = (min(int(row[at]) for row in rows) for at in (1, 2))
    print(f"{processor()}, the quickest of {TURNS} turns")
    print(f"{LINES:,} lines, {len(source):,} bytes, {errors} messages")
    print(f"messages: {checked / 1e6:.1f} ms, {LINES / checked * 1e9:,.0f} lines a second; the world: {made / 1e6:.1f} ms")


def main():
    parser = argparse.ArgumentParser(description="Measures how fast messages are found.")
    parser.add_argument("--program", help="the built program that checks")
    parser.add_argument("--keep", help="where the source stays")
    words = parser.parse_args()
    return measured_by(lambda program, _: measure(program, words.keep), "checking", words.program)


if __name__ == "__main__":
    sys.exit(main())
