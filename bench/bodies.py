#!/usr/bin/env python3
"""Measures the built program on bodies: functions that strain it, and ordinary ones beside the top level.

    bench/bodies.py [PROGRAM]

Each straining text is one file with one function: with many assignments, with many locals, with narrowings of many places
and blocks after them, with a `try` of many handlers, with blocks of a kind one in another; or with one class of many
methods. A session adds it and checks
it, at half its size and at its whole size. The processor seconds of the whole session are printed, and how many times
those of the half they are: two where the cost grows as the text does, four where it grows as its square.

Ordinary code is the same statements, those of `bench/checking.py`, in files of 200 lines: once at the top level, once in
functions of 15 statements. Functions of loops, handlers and conditions stand beside them. For these the instructions a
line are counted (`valgrind --tool=callgrind`), those of the additions and those of a check: of a session that adds and
checks, less one that only adds.

Every straining text has one error in its last line, so each answer shows that all of it was read. Nothing is passed or
failed: the seconds depend on the machine, the ratios are of one run, the instructions are the same on each. The status is
1 where the program does not answer as it must.
"""

import re
import resource
import subprocess
import sys
import tempfile
from pathlib import Path

from checking import ORDINARY, START
from programs import Stop

PROGRAM = Path(__file__).resolve().parent.parent / "crates" / "dmypy" / "out" / "dmypy"
TURNS = 3
SECONDS = 600
FILES, LINES, STATEMENTS = 10, 200, 15
COUNTER = ("valgrind", "--tool=callgrind", "--callgrind-out-file=/dev/null")
INDENT = "    "
# the last line of each straining text, and what is told of it
WRONG, TOLD = 'wrong: int = ""', b"Found 1 error in 1 file (checked 1 source file)\n"
HEAD = """class C:
    a: int | None = None
    b: int | None = None


def f(c: bool, o: object, xs: list[int], s: C, x: int | None) -> None:""".splitlines()
# before each of the blocks that stand one in another: narrowings, and assignments that drop them
BEFORE = ("x = 3", "s.a = 3", "s.b = x", "x = None")
# the line that begins a block, and those that end it
KINDS = {
    "if": ("if x is None:", "else:", "    s.b = None"),
    "while": ("while c:", "else:", "    x = 1"),
    "for": ("for i in xs:", "else:", "    x = 1"),
    "with": ("with o as p:",),
    "finally": ("try:", "finally:", "    s.b = None"),
    "except": ("try:", "except ValueError as e:", "    x = 1", "except KeyError:", "    s.a = 3", "else:", "    x = None"),
}
BLOCKS = '''def walk{i}(points: list[Point], limit: Optional[int] = None) -> Optional[Point]:
    best: Optional[Point] = None
    count = 0
    for point in points:
        if limit is not None and count > limit:
            break
        if isinstance(point, Named):
            count += point.size
            continue
        try:
            best = point.moved(count, {i})
        except (ValueError, KeyError) as why:
            raise RuntimeError("text") from why
        finally:
            count = count + 1
    else:
        return None
    while best is not None:
        with open("name") as opened:
            best = None
    return best
'''.splitlines()


# ---- texts that strain


def function(lines):
    """The lines of a file with one function of these statements."""
    return [*HEAD, *(INDENT + line for line in [*lines, WRONG])]


def assignments(count):
    """Assignments that narrow a hundred locals in turn."""
    declared = [f"x{number}: int | None = None" for number in range(100)]
    return function(declared + [f"x{number % 100} = {('x', 'None', '3')[number % 3]}" for number in range(count)])


def plain_locals(count):
    return function([f"x{number} = {number}" for number in range(count)])


def narrowed(count):
    return [f"x{number}: int | None = {number}" for number in range(count)]


def narrowed_locals(count):
    return function(narrowed(count))


def joins(count):
    """Ten blocks where all that is narrowed meets what is narrowed."""
    return function(narrowed(count) + ["if c:", "    pass"] * 10)


def handlers(count):
    """The handlers of one `try`, where two hundred places are narrowed."""
    rows = [(f"except ValueError as e{number}:", f"    y{number} = {number}") for number in range(count)]
    return function(narrowed(200) + ["try:", "    pass"] + [line for row in rows for line in row])


def nested(kinds):
    """What makes blocks of these kinds, one in another, each with narrowings before it."""

    def lines(depth):
        rows, ends = [], []
        for level in range(depth):
            begin, *end = KINDS[kinds[level % len(kinds)]]
            rows += [INDENT * level + line for line in (*BEFORE, begin)]
            ends = [INDENT * level + line for line in end] + ends
        return function([*rows, INDENT * depth + "pass", *ends])

    return lines


def methods(count):
    """A class of methods, each of which calls another."""
    rows = [
        (f"    def m{number}(self, a: int) -> int:", f"        return self.m{7 * number % count}(a)") for number in range(count)
    ]
    return ["class Many:", *(line for row in rows for line in row), WRONG]


STRAINING = (
    ("assignments to a hundred narrowed locals", assignments, 10_000),
    ("locals", plain_locals, 5_000),
    ("narrowed locals", narrowed_locals, 5_000),
    ("narrowed locals before ten joins", joins, 2_000),
    ("handlers of a try", handlers, 500),
    ("methods of a class", methods, 1_000),
    *((f"{kind}, one in another", nested([kind]), 63) for kind in KINDS),
    ("blocks of each kind, one in another", nested(list(KINDS)), 63),
)


# ---- ordinary texts


def first_lines():
    return [*START.splitlines(), 'title: str = ""', "found: Optional[Point] = None"]


def statement(number):
    return ORDINARY[number % len(ORDINARY)].format(i=number)


def top_level(number):
    """A file of ordinary statements at its top level."""
    lines = first_lines()
    return lines + [statement(number + at) for at in range(len(lines), LINES)]


def functions(number):
    """A file of the same statements in functions."""
    lines = first_lines()
    while len(lines) < LINES:
        lines.append(f"def function{len(lines)}(first: int, second: str, third: Optional[Point]) -> None:")
        lines += [INDENT + statement(number + len(lines) + at) for at in range(STATEMENTS)]
    return lines[:LINES]


def functions_of_blocks(_):
    """A file of functions with loops, handlers and conditions."""
    lines = first_lines()
    while len(lines) + len(BLOCKS) <= LINES:
        lines += [line.format(i=len(lines)) for line in BLOCKS]
    return lines + ["pass"] * (LINES - len(lines))


# ---- sessions


def added(path, lines):
    source = ("\n".join(lines) + "\n").encode()
    return f"add {path} {len(source)}\n".encode() + source


def cost(program, session, told):
    """The processor seconds of a session, the fewest of some turns; its text must hold what is told."""
    fewest = None
    for _ in range(TURNS):
        before = resource.getrusage(resource.RUSAGE_CHILDREN)
        done = subprocess.run([program, "session"], input=session, capture_output=True, timeout=SECONDS, check=True)
        after = resource.getrusage(resource.RUSAGE_CHILDREN)
        if told not in done.stdout:
            raise Stop(f"the session ended with {done.stdout[-200:]!r}")
        taken = after.ru_utime - before.ru_utime + after.ru_stime - before.ru_stime
        fewest = taken if fewest is None else min(fewest, taken)
    return fewest


def checked_cost(program, lines):
    return cost(program, added("a.py", lines) + b"check\nstop\n", TOLD)


def measure_straining(program):
    for name, made, size in STRAINING:
        half, whole = (checked_cost(program, made(count)) for count in (size // 2, size))
        print(f"{size:6,} {name}: {1000 * whole:.0f} ms, {whole / half:.1f} times the half", flush=True)


def instructions(program, session, told):
    """The instructions of a session; its text must hold what is told."""
    with tempfile.TemporaryFile() as read:
        # from a file, so that the reads are the same on each run
        read.write(session)
        read.seek(0)
        done = subprocess.run([*COUNTER, program, "session"], stdin=read, capture_output=True, timeout=SECONDS, check=True)
    found = re.search(rb"refs:\s+([\d,]+)", done.stderr)
    if told not in done.stdout or not found:
        raise Stop(f"the session ended with {done.stdout[-200:]!r}, {done.stderr[-200:]!r}")
    return int(found[1].replace(b",", b""))


def measure_ordinary(program):
    for name, made in (("at the top level", top_level), ("in functions", functions), ("in blocks", functions_of_blocks)):
        adds = b"".join(added(f"file{number}.py", made(number)) for number in range(FILES))
        alone = instructions(program, adds + b"stop\n", b"ok\n")
        whole = instructions(program, adds + b"check\nstop\n", f"in {FILES} source files\n".encode())
        add, check = alone / FILES / LINES, (whole - alone) / FILES / LINES
        print(f"ordinary lines {name}: add {add:,.0f}, check {check:,.0f} instructions a line", flush=True)


def main():
    if len(sys.argv) > 2:
        print(__doc__)
        return 2
    program = sys.argv[1] if len(sys.argv) == 2 else PROGRAM
    try:
        measure_straining(program)
        measure_ordinary(program)
    except (OSError, Stop, subprocess.SubprocessError) as why:
        print(f"bench: {why}", file=sys.stderr)
        return 1
    return 0


if __name__ == "__main__":
    sys.exit(main())
