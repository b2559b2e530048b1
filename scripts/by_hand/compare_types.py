#!/usr/bin/env python3
"""Compares answers about types by `pyc_types` with those of a reference implementation in Python.

    scripts/by_hand/compare_types.py [--program PROGRAM] [--seed SEED] REFERENCE [COUNT]

REFERENCE is the folder that has the reference, a package `oracle` with the modules `types` and `expr`. PROGRAM answers
questions about types, a line each (`bench/assigning.rt.txt`); without it, it is built first
(`scripts/by_hand/build.py assigning`), which takes minutes. Asked are, of types that are made at random from the seed:

- of COUNT pairs, whether the first is assignable to the second: half of the pairs are a type and what a few small changes
  make of it, and half of these are two callables;
- of a fifth as many unions, and tests by `isinstance` and for None, how what is formed or left is written; some of the
  unions are about as large as one may be.

Unions are flat, as `union_of` forms them. Classes of a source have no known order, as in `Builtins`. Each answer that
differs is told with its question, what the program says before what the reference says; the last line is
`N passed, M failed`. The status is 1 where an answer differed or none was asked, else 0.
"""

import argparse
import collections
import importlib
import random
import subprocess
import sys
from pathlib import Path

from build import built

SECONDS = 600
BATCH = 20_000
COUNT = 100_000
SHARE = 5
DEPTH = 3
WIDE = 0.05
NAMES = ("x", "y", "z")
HOMES = ("m", "n")
OWN = ("A", "B")
KINDS = {"pos": "p", "star": "s", "kwonly": "k", "starstar": "d"}
MARKED = (":", "?")
COMMON = "object int float str bool bytes".split()
QUESTIONS = ("union", "narrow_to", "narrow_away", "without_none")


class Reference:
    """The reference implementation, with the orders that `Builtins` has."""

    def __init__(self, folder):
        sys.path.insert(0, str(folder))
        self.types = importlib.import_module("oracle.types")
        self.tests = importlib.import_module("oracle.expr")
        self.classes = sorted(name for _, name in self.types.BUILTIN_ORDER)

    def lins(self, named):
        """The order of a class, why it is not known if it is not, and whether its instances can be called."""
        order = self.types.BUILTIN_ORDER.get(named)
        return ((), "Base", False) if order is None else (order, "No", False)

    def left(self, ty, items):
        """How the type with these items is written, which are left of a type's."""
        if not items:
            return "nothing"
        same = tuple(items) == self.types.items(ty)
        return self.types.show(ty if same else self.types.union_of(items))

    def answer(self, question, types):
        """What the reference answers; the types after the first of a test by `isinstance` are class objects."""
        if question == "assignable":
            return "yes" if self.types.assignable(self.lins, *types) else "no"
        if question == "union":
            return self.types.show(self.types.union_of(types))
        first, classes = types[0], [it.a for it in types[1:]]
        if question == "narrow_to":
            return self.left(first, self.tests.narrow_to(self.lins, first, classes))
        if question == "narrow_away":
            return self.left(first, self.tests.narrow_away(self.lins, first, classes))
        return self.left(first, [it for it in self.types.items(first) if it is not self.types.NONE])


# ---- how the program reads a type


def name_of(named):
    home, own = named
    return ".".join([*home, own])


def parameter_words(param):
    mark = MARKED[param.default] + KINDS[param.kind]
    named = param.name if param.kind in ("pos", "kwonly") and param.name else ""
    return [*words_of(param.ty), mark + named]


def words_of(ty):
    """The words of a type."""
    plain = {"any": "Any", "none": "None", "module": "Module"}
    if ty.tag in plain:
        return [plain[ty.tag]]
    if ty.tag in ("inst", "type"):
        return [("@" if ty.tag == "type" else "") + name_of(ty.a)]
    if ty.tag == "call":
        params = [word for param in ty.a or () for word in parameter_words(param)]
        return ["(", *params, *words_of(ty.b), "dots)" if ty.a is None else "call)"]
    parts = [ty.a, ty.b] if ty.tag == "dict" else ty.a if ty.tag in ("tuple", "union") else [ty.a]
    return ["(", *(word for part in parts for word in words_of(part)), f"{ty.tag})"]


def line_of(question, types):
    return " ".join([question, *(word for ty in types for word in words_of(ty))])


# ---- types at random


class Maker:
    """Makes types, and small changes of types."""

    def __init__(self, reference, seed):
        self.types = reference.types
        self.classes = reference.classes
        self.random = random.Random(seed)

    def named(self):
        """A class: often a common one, and now and then one of a source."""
        chance = self.random.random()
        if chance < 0.6:
            return (), self.random.choice(COMMON)
        if chance < 0.9:
            return (), self.random.choice(self.classes)
        return (self.random.choice(HOMES),), self.random.choice(OWN)

    def leaf(self):
        kind = self.random.choices(("inst", "type", "none", "any", "module"), (12, 3, 2, 1, 0.5))[0]
        if kind == "inst":
            return self.types.inst(self.named())
        if kind == "type":
            return self.types.type_of(self.named())
        return {"none": self.types.NONE, "any": self.types.ANY}.get(kind) or self.types.module(("m",))

    def row(self, depth, most):
        return [self.type(depth) for _ in range(self.random.randint(0, most))]

    def params(self, depth):
        """Parameters as Python orders them, with names that differ; None for `...`."""
        if self.random.random() < 0.08:
            return None
        names = self.random.sample(NAMES, len(NAMES))
        found, places = [], self.random.randint(0, 2)
        for _ in range(places):
            name = names.pop() if self.random.random() < 0.6 else None
            found.append(self.param("pos", name, depth))
        if self.random.random() < 0.3:
            found.append(self.param("star", None, depth))
        for _ in range(self.random.choice((0, 0, 1, 2))):
            if names:
                found.append(self.param("kwonly", names.pop(), depth))
        if self.random.random() < 0.3:
            found.append(self.param("starstar", None, depth))
        return found

    def param(self, kind, name, depth):
        optional = kind in ("pos", "kwonly") and self.random.random() < 0.4
        return self.types.Param(kind, name, self.type(depth), optional)

    def callable(self, depth):
        return self.types.callable_(self.params(depth - 1), self.type(depth - 1))

    def type(self, depth):
        """A type that is at most so deep."""
        if depth == 0 or self.random.random() < 0.35:
            return self.leaf()
        return self.whole(depth)

    def whole(self, depth):
        """A type with parts."""
        form = self.random.choices(("list", "dict", "tuple", "tupleof", "union", "call"), (2, 2, 3, 2, 4, 4))[0]
        if form == "list":
            return self.types.list_of(self.type(depth - 1))
        if form == "dict":
            return self.types.dict_of(self.type(depth - 1), self.type(depth - 1))
        if form == "tuple":
            return self.types.tuple_fixed(self.row(depth - 1, 3))
        if form == "tupleof":
            return self.types.tuple_of(self.type(depth - 1))
        if form == "union":
            return self.types.union_of([self.type(depth - 1), *self.row(depth - 1, 3)])
        return self.callable(depth)

    # ---- small changes

    def changed_class(self, named):
        """The class itself, its base, or one near it."""
        order = self.types.BUILTIN_ORDER.get(named, (named,))
        return self.random.choice(order) if self.random.random() < 0.7 else self.named()

    def changed_row(self, row):
        row = list(row)
        if row and self.random.random() < 0.8:
            at = self.random.randrange(len(row))
            row[at] = self.changed(row[at])
        elif row and self.random.random() < 0.5:
            del row[self.random.randrange(len(row))]
        else:
            row.insert(self.random.randint(0, len(row)), self.type(1))
        return row

    def changed_param(self, param):
        """A parameter of the same kind, with a change of its type, its name or whether it may be left out."""
        name, ty, optional = param.name, param.ty, param.default
        chance = self.random.random()
        if chance < 0.6:
            ty = self.changed(ty)
        elif param.kind == "pos" and chance < 0.8:
            name = None if name else self.random.choice(NAMES)
        elif param.kind in ("pos", "kwonly"):
            optional = not optional
        return self.types.Param(param.kind, name, ty, optional)

    def changed_params(self, params):
        """Parameters with a change: of one, one more, one less, or other kinds."""
        if params is None or self.random.random() < 0.05:
            return self.params(1)
        params = list(params)
        chance = self.random.random()
        if params and chance < 0.5:
            at = self.random.randrange(len(params))
            params[at] = self.changed_param(params[at])
        elif params and chance < 0.65:
            del params[self.random.randrange(len(params))]
        elif chance < 0.9:
            params = params + (self.params(1) or [])
        else:
            params = [self.turned(param) for param in params]
        return self.ordered(params)

    def turned(self, param):
        """A named parameter that is filled by its name alone, where it was filled by place too, and back."""
        kinds = {"pos": "kwonly", "kwonly": "pos"}
        kind = kinds.get(param.kind, param.kind) if param.name else param.kind
        return self.types.Param(kind, param.name, param.ty, param.default)

    def ordered(self, params):
        """The parameters in an order that Python has, each name and each star once."""
        seen, found = set(), []
        for param in sorted(params, key=lambda it: list(KINDS).index(it.kind)):
            own = param.name if param.kind in ("pos", "kwonly") else param.kind
            if own is None or own not in seen:
                seen.add(own)
                found.append(param)
        return found

    def changed_union(self, items):
        """One item more, one less, one changed, or another order."""
        items = list(items)
        chance = self.random.random()
        if chance < 0.3:
            items.insert(self.random.randint(0, len(items)), self.type(1))
        elif chance < 0.5:
            del items[self.random.randrange(len(items))]
        elif chance < 0.8:
            items = self.changed_row(items)
        else:
            self.random.shuffle(items)
        return self.types.union_of(items or [self.leaf()])

    def changed(self, ty):
        """A type with a small change, or with none."""
        chance = self.random.random()
        if chance < 0.1:
            return ty
        if chance < 0.18:
            return self.types.union_of([ty, self.leaf()])
        if chance < 0.21:
            return self.random.choice((self.types.ANY, self.types.OBJECT))
        return self.changed_form(ty)

    def changed_form(self, ty):
        """A type of the same form mostly, with a change in it."""
        if ty.tag == "inst":
            return self.types.inst(self.changed_class(ty.a))
        if ty.tag == "type":
            return self.types.type_of(self.changed_class(ty.a))
        if ty.tag == "list":
            return self.types.list_of(self.changed(ty.a))
        if ty.tag == "dict":
            if self.random.random() < 0.5:
                return self.types.dict_of(self.changed(ty.a), ty.b)
            return self.types.dict_of(ty.a, self.changed(ty.b))
        if ty.tag == "tuple":
            return self.changed_tuple(ty)
        if ty.tag == "tupleof":
            return self.types.tuple_of(self.changed(ty.a))
        if ty.tag == "union":
            return self.changed_union(ty.a)
        if ty.tag == "call":
            return self.changed_callable(ty)
        return ty

    def changed_tuple(self, ty):
        if self.random.random() < 0.3:
            return self.types.tuple_of(self.types.union_of(ty.a) if ty.a else self.leaf())
        return self.types.tuple_fixed(self.changed_row(ty.a))

    def changed_callable(self, ty):
        if self.random.random() < 0.6:
            return self.types.callable_(self.changed_params(ty.a), ty.b)
        return self.types.callable_(ty.a, self.changed(ty.b))

    # ---- questions

    def pair(self):
        """Two types: of each four pairs two are near each other, and one of these is of two callables."""
        turn = self.random.randrange(4)
        if turn < 2:
            return self.type(DEPTH), self.type(DEPTH)
        first = self.callable(DEPTH) if turn == 2 else self.type(DEPTH)
        second = first
        for _ in range(self.random.randint(1, 3)):
            second = self.changed_form(second) if turn == 2 else self.changed(second)
        return (first, second) if self.random.random() < 0.5 else (second, first)

    def united(self):
        """Some types, some of them again, and now and then with one that is about as large as a union may be."""
        row = self.row(DEPTH, 4) or [self.leaf()]
        if self.random.random() < WIDE:
            room = self.types.MAX_SIZE - sum(ty.size for ty in row)
            row.insert(0, self.types.tuple_fixed([self.types.INT] * (room + self.random.randint(-4, 4))))
        return [*row, *self.random.sample(row, self.random.randint(0, len(row)))]

    def question(self):
        """A question of another kind, with its types."""
        question = self.random.choice(QUESTIONS)
        if question == "union":
            return question, self.united()
        items = [self.type(2) for _ in range(self.random.randint(1, 5))]
        if self.random.random() < 0.4:
            items.append(self.types.NONE)
        asked = [self.types.union_of(items)]
        if question != "without_none":
            asked += [self.types.type_of(self.named()) for _ in range(self.random.randint(0, 3))]
        return question, asked


# ---- the comparison


def answers(program, lines):
    """What the program answers to each line."""
    given = "".join(f"{line}\n" for line in lines).encode()
    done = subprocess.run([program], input=given, capture_output=True, timeout=SECONDS, check=True)
    found = done.stdout.decode().splitlines()
    if len(found) != len(lines):
        raise ValueError(f"the program answers {len(found)} of {len(lines)} lines")
    return found


def asked(maker, count):
    """The questions with their types, one after another."""
    for _ in range(count):
        yield "assignable", maker.pair()
    for _ in range(count // SHARE):
        yield maker.question()


def count_answer(counts, question, types, answer):
    """Counts a question, and what is told of it."""
    counts[question] += 1
    if question == "assignable":
        callables = all(it.tag == "call" for it in types)
        counts["yes"] += answer == "yes"
        counts["callables"] += callables
        counts["callables, yes"] += callables and answer == "yes"


def judge(program, reference, batch, counts):
    """Asks both the questions of a batch, and names those that are answered in two ways."""
    lines = [line_of(*it) for it in batch]
    for line, (question, types), mine in zip(lines, batch, answers(program, lines)):
        theirs = reference.answer(question, types)
        count_answer(counts, question, types, theirs)
        counts["passed" if mine == theirs else "failed"] += 1
        if mine != theirs:
            print(f"{line}: {mine} here, {theirs} there", flush=True)


def compare(program, folder, count, seed):
    """Compares all answers, names those that differ, and counts them."""
    reference, counts = Reference(folder), collections.Counter()
    batch = []
    for question in asked(Maker(reference, seed), count):
        batch.append(question)
        if len(batch) == BATCH:
            judge(program, reference, batch, counts)
            batch = []
    judge(program, reference, batch, counts)
    print(f"seed {seed}: {counts['assignable']} pairs, {counts['yes']} of them yes", end="; ")
    print(f"of two callables {counts['callables']}, {counts['callables, yes']} of them yes")
    print(", ".join(f"{question} {counts[question]}" for question in QUESTIONS))
    print(f"{counts['passed']} passed, {counts['failed']} failed")
    return counts["passed"] > 0 and counts["failed"] == 0


def main():
    parser = argparse.ArgumentParser(description="Compares answers about types with those of a reference.")
    parser.add_argument("--program", help="the built program that answers questions about types")
    parser.add_argument("--seed", type=int, default=1)
    parser.add_argument("reference", type=Path)
    parser.add_argument("count", nargs="?", type=int, default=COUNT)
    words = parser.parse_args()
    with built("assigning", words.program) as program:
        return 0 if compare(program, words.reference, words.count, words.seed) else 1


if __name__ == "__main__":
    sys.exit(main())
