#!/usr/bin/env python3
"""Compares the orders of `pyc_class_table` with those that Python itself makes, `type.__mro__`.

    scripts/by_hand/compare_classes.py [--count COUNT] [--seed SEED] PROGRAM

COUNT random modules are made, 10,000 by default, of up to ten classes each, which stand on one another and on builtin
classes. PROGRAM prints the orders of declared classes (`bench/classes.rt.txt`, built by `scripts/by_hand/build.py classes`).

For Python each builtin class is a class of its own with the bases that it has in Python, so that those of other layouts can
be bases together; `list`, `dict` and `tuple` are bases of which nothing is known. An instance can be called where a class of
the order has a member `__call__`. The rest is as in `compare_orders.py`. The status is 1 where an order differs, else 0.
"""

import argparse
import builtins
import collections
import random
import subprocess
import sys

from compare_orders import UNKNOWN, python_orders

NAMES = (
    "object int float str bytes list dict tuple BaseException bool Exception LookupError ArithmeticError ValueError "
    "TypeError RuntimeError AssertionError KeyError IndexError ZeroDivisionError OverflowError NotImplementedError "
    "RecursionError"
).split()
BUILTIN_ROWS = [[NAMES.index(base.__name__) for base in getattr(builtins, name).__bases__] for name in NAMES]
OF_OWN_FORM = {NAMES.index(name) for name in ("list", "dict", "tuple")}
FIRST = len(NAMES)
MOST_CLASSES = 10

Row = collections.namedtuple("Row", "bases has_call")


def random_base(source, number, count):
    """A base of a class: mostly one that is declared before it."""
    kind = source.random()
    if kind < 0.7 and number > 0:
        return FIRST + source.randrange(number)
    if kind < 0.92:
        return source.randrange(FIRST)
    return source.choice([UNKNOWN, FIRST + count + 1, FIRST + source.randrange(count)])


def random_module(source):
    """The rows of the classes of a module, of which a base may come after what stands on it."""
    count = source.randint(1, MOST_CLASSES)
    written = [[random_base(source, it, count) for _ in range(source.choice([0, 1, 1, 2, 2, 3]))] for it in range(count)]
    numbers = source.sample(range(count), count)
    rows = [None] * count
    for it, bases in enumerate(written):
        moved = [FIRST + numbers[b - FIRST] if b is not UNKNOWN and FIRST <= b < FIRST + count else b for b in bases]
        rows[numbers[it]] = Row(moved, source.random() < 0.2)
    return rows


def word_of(base):
    """A base as the program reads it."""
    if base is UNKNOWN:
        return "?"
    return NAMES[base] if base < FIRST else str(base - FIRST)


def line_of(rows):
    """A module as the program reads it."""
    return ";".join(" ".join([*map(word_of, row.bases), *["()"] * row.has_call]) for row in rows)


def wanted_line(rows):
    """The orders of a module by Python, as the program prints them."""
    known = [[UNKNOWN if base in OF_OWN_FORM else base for base in row.bases] or [0] for row in rows]
    orders = python_orders(BUILTIN_ROWS + known)[FIRST:]
    return ";".join(
        "".join(f"{NAMES[c] if c < FIRST else f'C{c - FIRST}'} " for c in order.classes)
        + (f"{order.unknown} " if order.unknown else "")
        + "()" * any(c >= FIRST and rows[c - FIRST].has_call for c in order.classes)
        for order in orders
    )


def main():
    parser = argparse.ArgumentParser()
    parser.add_argument("--count", type=int, default=10_000)
    parser.add_argument("--seed", type=int, default=1)
    parser.add_argument("program", help="the built program that prints orders of declared classes")
    words = parser.parse_args()
    source = random.Random(words.seed)
    modules = [random_module(source) for _ in range(words.count)]
    lines = "".join(line_of(rows) + "\n" for rows in modules)
    printed = subprocess.run([words.program], input=lines, stdout=subprocess.PIPE, text=True, check=True).stdout
    kinds, differing = collections.Counter(), 0
    for rows, found in zip(modules, printed.splitlines(), strict=True):
        wanted = wanted_line(rows)
        for order in wanted.split(";"):
            kinds.update(kind for kind in ("Base", "Cycle", "Merge", "()") if f" {kind}" in order)
        kinds["classes"] += len(rows)
        if found != wanted:
            differing += 1
            print(f"differs: {line_of(rows)}\n  found  {found}\n  wanted {wanted}")
    print(f"{words.count} modules, {differing} differ; {dict(sorted(kinds.items()))}")
    return 1 if differing else 0


if __name__ == "__main__":
    sys.exit(main())
