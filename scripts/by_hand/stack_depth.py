#!/usr/bin/env python3
"""Finds how much stack `outcome` of `pyc_parse` takes for the deepest trees, and looks whether any source exhausts it.

    scripts/by_hand/stack_depth.py [--program PROGRAM]

PROGRAM is built from `bench/outcomes.rt.txt` (`scripts/by_hand/build.py outcomes`, which is called where no PROGRAM is given). For
each shape of source that nests or repeats something N times:

- the largest N for which there is a tree, up to what 1 MiB of source holds, and the smallest limit on the stack, in steps
  of 16 KiB, under which the program forms that tree and removes it;
- the same limit for the source with one repetition more, if it is refused;
- whether the program answers under the usual limit of 8 MiB for N = 2,000, for 100,000, and for the most that 1 MiB of
  source holds.

The status is 1 where the program does not answer under 8 MiB, else 0.
"""

import argparse
import resource
import subprocess
import sys

from build import built

MOST = 1 << 20
USUAL = 8192
# more than the height of a tree, which is 1,000 at most
HIGHEST = 1_100
STEP = 16
RUNS = 3
SECONDS = 300


def repeated(front, each, back, end=""):
    """A source with `each` so many times and then `back`, in a line that begins with `front`."""
    return lambda count: f"{front}{each * count}{back}{end * count}\n"


def blocks(header, body, second=""):
    """So many headers, each one space deeper than the one before, and then a body; a header may have a second line."""

    def source(count):
        lines = [f"{' ' * at}{line}\n" for at in range(count) for line in (header, second) if line]
        return "".join(lines) + " " * count + body + "\n"

    return source


def mixed(each, inner, end):
    """64 brackets, with so many operators shared among them."""

    def source(count):
        parts = [inner * (count // 64 + (at < count % 64)) + each for at in range(64)]
        return f"x = {''.join(parts)}1{end * 64}\n"

    return source


SHAPES = {
    "signs": repeated("x = ", "-", "1"),
    "not": repeated("x = ", "not ", "1"),
    "lambda": repeated("x = ", "lambda: ", "1"),
    "lambda with a default": repeated("x = ", "lambda x=1: ", "1"),
    "lambda in a default": repeated("x = ", "lambda x=", "1", ": 1"),
    "conditionals": repeated("x = ", "1 if 1 else ", "1"),
    "powers": repeated("x = ", "2**", "2"),
    "powers of signs": repeated("x = ", "2**-", "2"),
    "sums": repeated("x = ", "1+", "1"),
    "products": repeated("x = ", "1*", "1"),
    "and": repeated("x = ", "1 and ", "1"),
    "or": repeated("x = ", "1 or ", "1"),
    "comparisons": repeated("x = ", "1 < ", "1"),
    "attributes": repeated("x = x", ".a", ""),
    "calls of calls": repeated("x = x", "()", ""),
    "subscripts of subscripts": repeated("x = x", "[0]", ""),
    "attributes as a target": repeated("x", ".a", " = 1"),
    "parentheses": repeated("x = ", "(", "1", ")"),
    "tuples": repeated("x = ", "(1, ", "1", ")"),
    "lists": repeated("x = ", "[", "1", "]"),
    "sets": repeated("x = ", "{", "1", "}"),
    "dictionaries": repeated("x = ", "{1: ", "1", "}"),
    "arguments": repeated("x = ", "f(", "1", ")"),
    "keyword arguments": repeated("x = ", "f(x=", "1", ")"),
    "starred arguments": repeated("x = ", "f(*", "1", ")"),
    "indices": repeated("x = ", "x[", "1", "]"),
    "slices": repeated("x = ", "x[1:", "1", ":2]"),
    "comprehensions": repeated("x = ", "[x for x in ", "y", "]"),
    "generators": repeated("x = ", "f(x for x in y if ", "y", ")"),
    "yield": repeated("x = ", "(yield ", "1", ")"),
    "not in parentheses": mixed("(", "not ", ")"),
    "signs in parentheses": mixed("(", "-", ")"),
    "lambda in lists": mixed("[", "lambda: ", "]"),
    "lambda with a default in calls": mixed("f(x=", "lambda x=1: ", ")"),
    "conditionals in calls": mixed("f(", "1 if 1 else ", ")"),
    "targets in lists": repeated("", "[", "x", "]"),
    "targets in parentheses": lambda count: f"for {'(' * count}x{')' * count} in y: pass\n",
    "targets": repeated("", "x = ", "1"),
    "items": repeated("x = [", "1, ", "]"),
    "statements on a line": repeated("", "x; ", "x"),
    "lines": repeated("", "x\n", "x"),
    "if": blocks("if 1:", "pass"),
    "def": blocks("def f():", "pass"),
    "class": blocks("class C:", "pass"),
    "for": blocks("for x in y:", "x = " + "-" * 900 + "1"),
    "decorated def": blocks("@x", "pass", "def f():"),
    "else": blocks("if 1: pass", "pass", "else:"),
    "elif": lambda count: "if 1: pass\n" + "elif 1: pass\n" * count,
    "try": lambda count: "try: pass\n" + "except x: pass\n" * count,
    "decorators": lambda count: "@x\n" * count + "def f(): pass\n",
    "names of a module": repeated("import x", ".x", ""),
    "strings": repeated("x = ", "'' ", "''"),
}


def answer(program, source, kibibytes):
    """What the program says of a source under a limit on its stack, None where it does not end by itself."""

    def limit():
        resource.setrlimit(resource.RLIMIT_STACK, (1024 * kibibytes,) * 2)

    how = {"capture_output": True, "timeout": SECONDS, "check": False, "env": {}, "preexec_fn": limit}
    try:
        done = subprocess.run([program, "1"], input=source.encode(), **how)
    except (OSError, subprocess.SubprocessError):
        return None
    return done.stdout.decode().splitlines()[0] if done.returncode == 0 else None


def is_tree(program, source):
    return answer(program, source, 32 * USUAL) == "tree"


def largest(holds, low, high):
    """The largest number from low up to high of which `holds` is true, where it is true of low, and of each below such."""
    while low < high:
        middle = (low + high + 1) // 2
        low, high = (middle, high) if holds(middle) else (low, middle - 1)
    return low


def most_of(shape):
    """How many repetitions 1 MiB holds."""
    fits = 1
    while len(shape(2 * fits)) <= MOST:
        fits *= 2
    return largest(lambda count: len(shape(count)) <= MOST, fits, 2 * fits - 1)


def stack_for(program, source):
    """The smallest limit on the stack under which the program answers, several times over, in KiB."""
    wanted = answer(program, source, 32 * USUAL)
    high = 32 * USUAL // STEP
    steps = high - largest(lambda less: answer(program, source, STEP * (high - less)) == wanted, 0, high - 1)
    while any(answer(program, source, STEP * steps) != wanted for _ in range(RUNS)):
        steps += 1
    return STEP * steps


def deepest_of(program, shape, most):
    """The most repetitions with a tree: those that 1 MiB holds, or where these are refused, a number that the height or the
    brackets set."""
    if is_tree(program, shape(most)):
        return most
    return largest(lambda count: is_tree(program, shape(count)), 1, min(most, HIGHEST))


def judged(program, shape):
    """What is told of a shape, and whether the program always answers under the usual limit."""
    most = most_of(shape)
    deepest = deepest_of(program, shape, most)
    told = f"{deepest} times, {stack_for(program, shape(deepest))} KiB"
    if deepest < most:
        told += f"; refused once more, {stack_for(program, shape(deepest + 1))} KiB"
    counts = sorted({min(count, most) for count in (2_000, 100_000, most)})
    silent = [count for count in counts if answer(program, shape(count), USUAL) is None]
    return f"{told}; no answer at {silent}" if silent else told, not silent


def judge_all(program):
    base = stack_for(program, "x\n")
    print(f"a name: {base} KiB", flush=True)
    passed = True
    for name, shape in SHAPES.items():
        told, answers = judged(program, shape)
        passed = passed and answers
        print(f"{name}: {told}", flush=True)
    print("each shape is answered under 8 MiB" if passed else "some shape has no answer under 8 MiB")
    return passed


def main():
    parser = argparse.ArgumentParser(description="Finds the stack that the deepest trees take.")
    parser.add_argument("--program", help="the built program that prints outcomes")
    words = parser.parse_args()
    with built("outcomes", words.program) as program:
        return 0 if judge_all(program) else 1


if __name__ == "__main__":
    sys.exit(main())
