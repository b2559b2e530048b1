#!/usr/bin/env python3
"""Compares the orders of `pyc_mro` with those that Python itself makes, `type.__mro__`.

    scripts/by_hand/compare_orders.py [--count COUNT] [--seed SEED] [--program PROGRAM]

COUNT random hierarchies are made, 10,000 by default, of up to ten classes each. Without PROGRAM, what is compared is a
transliteration into Python of the definitions (`crates/pyc_mro/specs/`), name by name. PROGRAM prints the orders of tables
(`bench/orders.rt.txt`, built by `scripts/by_hand/build.py orders`), and its answers are compared then.

A class without bases has `object` as its only base in Python, so class 0 of each hierarchy stands for `object`, and a class
without other bases has it as its base. In Python a class can be made only where its bases are, so of a hierarchy without
rings each class is made after its bases; one whose bases have no merge is refused, and what stands on it cannot be made,
which is Base here. On a ring Python can make nothing: which classes come back to themselves is told by a plain search, and
what stands on them is Base.

The status is 1 where an order differs, else 0.
"""

import argparse
import collections
import random
import subprocess
import sys

UNKNOWN = None
BASE, CYCLE, MERGE = "Base", "Cycle", "Merge"
MOST_CLASSES = 10

Order = collections.namedtuple("Order", "classes unknown")


# ---- the definitions, transliterated


def classes_among(bases):
    return [base for base in bases if base is not UNKNOWN]


def bases_of(table, c):
    return table[c] if c < len(table) else []


def parents(table, c):
    return classes_among(bases_of(table, c))


def reaches(table, steps, source, to):
    if steps == 0:
        return False
    return any(parent == to or reaches(table, steps - 1, parent, to) for parent in parents(table, source))


def is_own_ancestor(table, c):
    return reaches(table, len(table), c, c)


def without(c, row):
    return [other for other in row if other != c]


def is_free(rows, c):
    return not any(c in row[1:] for row in rows)


def first_free(rows):
    return next((row[0] for row in rows if row and is_free(rows, row[0])), None)


def merge_within(steps, rows):
    if steps == 0:
        return None
    c = first_free(rows)
    if c is None:
        return None if any(rows) else []
    further = merge_within(steps - 1, [without(c, row) for row in rows])
    return None if further is None else [c, *further]


def merge(rows):
    return merge_within(sum(map(len, rows)) + 1, rows)


NO_ORDER = Order([], BASE)


def base_order(count, class_order, base):
    if base is UNKNOWN or base >= count:
        return NO_ORDER
    return class_order(base)


def linear_order(c, bases, orders):
    if any(order.unknown for order in orders):
        return Order([c], BASE)
    merged = merge([*(order.classes for order in orders), classes_among(bases)])
    return Order([c], MERGE) if merged is None else Order([c, *merged], None)


def order_within(table, depth, c):
    if depth == 0:
        return None
    bases = bases_of(table, c)
    orders = [base_order(len(table), lambda base: order_within(table, depth - 1, base), base) for base in bases]
    return None if None in orders else linear_order(c, bases, orders)


def order_of(table, c):
    if c >= len(table):
        return NO_ORDER
    if is_own_ancestor(table, c):
        return Order([c], CYCLE)
    return order_within(table, len(table) + 1, c) or Order([c], BASE)


# ---- Python's orders


def ringed(table):
    """The classes that a plain search from their bases comes back to."""
    found = set()
    for c in range(len(table)):
        work, seen = list(parents(table, c)), set()
        while work:
            d = work.pop()
            if d < len(table) and d not in seen:
                seen.add(d)
                work += parents(table, d)
        if c in seen:
            found.add(c)
    return found


def python_orders(table):
    """The orders that Python makes, of a table of which class 0 is `object`."""
    made, orders = {0: object}, {0: Order([0], None)}
    rings = ringed(table)
    orders.update({c: Order([c], CYCLE) for c in rings})
    left = [c for c in range(len(table)) if c not in orders]
    while left:
        ready = [c for c in left if all(base is UNKNOWN or base in orders or base >= len(table) for base in table[c])]
        if not ready:
            raise AssertionError(f"no class is ready: {table}")
        for c in ready:
            orders[c] = python_order(table, c, made)
        left = [c for c in left if c not in orders]
    return [orders[c] for c in range(len(table))]


def python_order(table, c, made):
    """The order that Python makes of a class whose bases were tried."""
    if any(base not in made for base in table[c]):
        return Order([c], BASE)
    try:
        made[c] = type(f"C{c}", tuple(made[base] for base in table[c]), {"number": c})
    except TypeError as fault:
        if "duplicate base class" not in str(fault) and "method resolution" not in str(fault):
            raise
        return Order([c], MERGE)
    return Order([0 if made[0] is it else it.number for it in made[c].__mro__], None)


def defined_orders(table):
    """The orders of a table by the definitions."""
    return [order_of(table, c) for c in range(len(table))]


def line_of(table):
    """A table as the program reads it."""
    return ";".join(" ".join("?" if base is UNKNOWN else str(base) for base in row) for row in table)


def order_in(text):
    """An order as the program prints it."""
    *classes, last = text.split(" ")
    return Order([int(word) for word in classes], last or None)


def program_orders(program, tables):
    """The orders of each table by the program."""
    lines = "".join(line_of(table) + "\n" for table in tables)
    printed = subprocess.run([program], input=lines, stdout=subprocess.PIPE, text=True, check=True).stdout
    return [[order_in(text) for text in line.split(";")] for line in printed.splitlines()]


def random_table(source):
    """A table of which class 0 is `object`: mostly without rings and with known bases."""
    count = source.randint(1, MOST_CLASSES)
    has_rings, has_unknown = source.random() < 0.2, source.random() < 0.2
    table = [[]]
    for c in range(1, count):
        last = count if has_rings else c
        several = min(last - 1, source.choice([0, 1, 1, 2, 2, 3, 4]))
        bases = source.sample(range(1, last), several) or [0]
        if source.random() < 0.05:
            bases.append(source.choice([0, *bases]))
        if has_unknown and source.random() < 0.3:
            bases.insert(source.randint(0, len(bases)), source.choice([UNKNOWN, count + 1]))
        table.append(bases)
    return renumbered(source, table)


def renumbered(source, table):
    """The same classes but `object` in another order, so that a base may come after what stands on it."""
    numbers = [0, *source.sample(range(1, len(table)), len(table) - 1)]
    rows = [None] * len(table)
    for c, bases in enumerate(table):
        rows[numbers[c]] = [base if base is UNKNOWN or base >= len(table) else numbers[base] for base in bases]
    return rows


def main():
    parser = argparse.ArgumentParser()
    parser.add_argument("--count", type=int, default=10_000)
    parser.add_argument("--seed", type=int, default=1)
    parser.add_argument("--program", help="the built program that prints orders")
    words = parser.parse_args()
    source = random.Random(words.seed)
    tables = [random_table(source) for _ in range(words.count)]
    made = program_orders(words.program, tables) if words.program else map(defined_orders, tables)
    kinds, differing = collections.Counter(), 0
    for table, found in zip(tables, made, strict=True):
        wanted = python_orders(table)
        kinds.update(order.unknown or "known" for order in wanted)
        if found != wanted:
            differing += 1
            print(f"differs: {table}\n  found {found}\n  wanted {wanted}")
    print(f"{words.count} hierarchies, {differing} differ; classes: {dict(sorted(kinds.items()))}")
    return 1 if differing else 0


if __name__ == "__main__":
    sys.exit(main())
