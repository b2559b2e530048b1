#!/usr/bin/env python3
"""Counts how often the built program asks for memory, and judges that a check asks for none where it has nothing to do.

    scripts/gate/counted_growths.py [--program PROGRAM] [--all]

What no contract counts is counted here: work beside that on the units that are examined again. A session adds files and
checks them, makes one edit and checks again, and from the edit on its growths of memory are counted. The session is run
with 1 and with 40 of something that has no part in the second check: lines of a file that is not examined again, files,
parameters of a function whose answer is known. The two counts differ by at most 8, which leaves room for lists that grow by
doubling. So a check fails that examines a unit beside those that it counts, forms an answer that it has, keeps none, or
builds a world that it has.

A unit is examined once: a line more of it costs what a line costs, and not twice that. A check lets the paths go that were
put before it: as many files as were put then cost less after it than without it.

With `--all` those are judged as well that do not hold yet, LATER below. Each comparison is one judgement. Ends with the line
`counted growths: P passed, F failed`, and with status 0 or 1.
"""

import argparse
import sys
import tempfile
from pathlib import Path
from typing import Callable, NamedTuple

from judging import PROGRAM, Tally
from preloaded import Program, Stop
from replies import add

FEW, MANY = 1, 40
MOST = 8
# a line that names a variable takes one growth where it is examined, and would take two where it were examined twice
MOST_EXAMINED = MOST + 3 * (MANY - FEW) // 2
BATCH = 50
CHECK = b"check\n"


class Comparison(NamedTuple):
    """A comparison: its name, the commands before the edit by how many there are of something, the edit with the check after
    it, and by how much the growths from the edit on may differ."""

    name: str
    before: Callable
    after: bytes
    most: int = MOST


def change(path, text):
    """The command that gives a file another text."""
    return f"change {path} {len(text.encode())}\n{text}".encode()


def adds(files):
    """The commands that add files."""
    return b"".join(add(path, text) for path, text in files.items())


def checked(files):
    """The commands that add files and check them, with one that is edited later."""
    return adds({"z.py": "k: int = 1\n", **files}) + CHECK


def numbered(line, count):
    """So many lines, each with its number."""
    return "".join(f"{line.format(at)}\n" for at in range(count))


# ---- what there is once or many times

READER = "from c import f\ndef g() -> None:\n    f\n"
IMPORTING = """import m{1}
class C(m{1}.C):
    x: int = 1
    def f(self) -> int: return self.x
def g(a: m{1}.C) -> int: return a.f()
"""


def lines(count):
    """A file with so many lines that ask for no answer."""
    return checked({"a.py": "def f() -> None:\n" + numbered('    [1, "a"]', count)})


def calls(count):
    """A file with so many lines, each of which asks for another answer."""
    functions = numbered("def f{}(a: int, b: dict[str, int]) -> list[int]: ...", count)
    return checked({"a.py": "import c\ndef g() -> None:\n" + numbered("    c.f{}", count), "c.py": functions})


def messages(count):
    """A file with so many lines that have a message."""
    return checked({"a.py": numbered("x{}: str = 1", count)})


def files(count):
    """So many files, each with a class that stands on that of the file before, and a function that calls its method."""
    first = "class C:\n    x: int = 1\n    def f(self) -> int: return 1\n"
    return checked({"m0.py": first, **{f"m{at}.py": IMPORTING.format(at, at - 1) for at in range(1, count + 1)}})


def parameters(count):
    """A function with so many parameters, and a file that names it."""
    parts = ", ".join(f"p{at}: dict[str, list[int]]" for at in range(count))
    return checked({"c.py": f"def f({parts}) -> int: ...\n", "reader.py": READER + "    1\n"})


def examined(count):
    """A file that is given so many lines, each of which names a variable."""
    return checked({}) + change("z.py", "k: int = 1\ndef f() -> None:\n" + "    k\n" * count)


EDITS = {
    "no edit": b"",
    "another body": change("z.py", "k: int = 2\n"),
    "another interface": change("z.py", 'k: str = ""\n'),
    "a file more": add("zz.py", "x: int = 1\n"),
}
BODIES, INTERFACES = list(EDITS)[:2], list(EDITS)[2:]
READER_EDITED = change("reader.py", READER + "    2\n")


def compared(name, before, edits):
    """The comparisons of one thing over some edits."""
    return [Comparison(f"{name}, {edit}", before, EDITS[edit] + CHECK) for edit in edits]


HOLDING = [
    *compared("lines of an unchanged file", lines, EDITS),
    *compared("calls in an unchanged file", calls, EDITS),
    *compared("unchanged files", files, BODIES),
    *compared("parameters of a function that is named", parameters, EDITS),
    Comparison("parameters of a function, another body that names it", parameters, READER_EDITED + CHECK),
    Comparison("lines that are examined", examined, CHECK, MOST_EXAMINED),
]
# after an edit of an interface the table of files is made anew, and what each file's units read is gone through; a report is
# at each check
LATER = [
    *compared("messages of an unchanged file", messages, EDITS),
    *compared("unchanged files", files, INTERFACES),
]


class Growths:
    """The growths of sessions of a program."""

    def __init__(self, program):
        self.program = program

    def count(self, session):
        """How many growths a session has up to the end of its last reply."""
        return self.program.growths_by_byte(["session"], session)[1][-1]

    def after(self, before, after):
        """How many growths these commands have after those."""
        return self.count(before + after) - self.count(before)


def judge(comparison, growths, tally):
    """Judges one comparison."""
    few, many = (growths.after(comparison.before(count), comparison.after) for count in (FEW, MANY))
    told = f"{comparison.name}: {few} growths with {FEW}, {many} with {MANY}, which is more than {comparison.most} apart"
    tally.judge(abs(many - few) <= comparison.most, told)


def judge_paths(growths, tally):
    """Judges that the paths that were put are let go where they are checked."""
    first, second = (adds({f"{word}{at}.py": "" for at in range(BATCH)}) for word in ("a", "b"))
    after_check, without = growths.after(CHECK + first + CHECK, second), growths.after(CHECK + first, second)
    told = f"{BATCH} files more take {after_check} growths after a check, and {without} without one"
    tally.judge(after_check < without, told)


def main():
    words = argparse.ArgumentParser(description="Counts how often the built program asks for memory.")
    words.add_argument("--program", type=Path, default=PROGRAM, help="another program")
    words.add_argument("--all", action="store_true", help="judge those as well that do not hold yet")
    given = words.parse_args()
    tally = Tally("counted growths")
    try:
        with tempfile.TemporaryDirectory() as folder:
            growths = Growths(Program(Path(folder), given.program.resolve()))
            for comparison in HOLDING + LATER * given.all:
                judge(comparison, growths, tally)
            judge_paths(growths, tally)
    except Stop as why:
        tally.judge(False, str(why))
    return tally.close()


if __name__ == "__main__":
    sys.exit(main())
