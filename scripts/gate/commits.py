#!/usr/bin/env python3
"""Follows the commits of a small repository by scripts/follow_commits.py.

    scripts/gate/commits.py [--program PROGRAM]

Ends with the line `commits: P passed, F failed`, and with status 0 or 1.
"""

import subprocess
import sys
import tempfile

from judging import Tally, program_given
from small_repository import SmallRepository

PRICES = "def price(net: float) -> float:\n    return net\n"
SHOP = "from prices import price\n\ntotal: float = price(1)\n"
STRAY = "y: int = ''\n"
WALRUS = "if (n := 1):\n    pass\n"
CALLED_TEXT = "def f(n: int) -> None: ...\n"
CALLS = "from pkg.a import f\n\nf('')\nf('')\n"
ROOTS = "[tool.dmypy]\nroots = ['.']\n"
CLEAN = "Success: no issues found in {}"
WRONG = "Found 2 errors in 2 files (checked {})"
FOUND = "Found 1 error in 1 file (checked {})"
CALLED = "Found 2 errors in 1 file (checked {})"
# each commit: what it writes, what it takes away, and the line on it
COMMITS = (
    ({"prices.py": PRICES, "shop.py": SHOP}, (), f"2 sent, 0 refused: {CLEAN.format('2 source files')}"),
    ({"prices.py": PRICES.replace("float)", "str)")}, (), f"1 sent, 0 refused: {WRONG.format('2 source files')}"),
    ({"text.txt": "", "caf\u00e9.py": "x = 1\n"}, (), f"1 sent, 0 refused: {WRONG.format('3 source files')}"),
    ({"costs.py": PRICES}, ("prices.py",), f"2 sent, 0 refused: {FOUND.format('3 source files')}"),
    ({"shop.py": SHOP.replace("prices", "costs")}, (), f"1 sent, 0 refused: {CLEAN.format('3 source files')}"),
    # (the text is no command: its name is not defined; and of a package and a module of one name the package counts)
    ({"my file.py": "stop\n", "shop/__init__.py": STRAY}, (), f"2 sent, 1 refused: {WRONG.format('4 source files')}"),
    ({}, ("shop.py",), f"1 sent, 0 refused: {WRONG.format('4 source files')}"),
    ({"costs.py": WALRUS}, ("shop/__init__.py",), f"2 sent, 0 refused: {WRONG.format('3 source files')}"),
    ({}, ("costs.py", "caf\u00e9.py", "my file.py"), f"3 sent, 0 refused: {CLEAN.format('0 source files')}"),
    # (with src as a root the calls are wrong, and without it the import)
    ({"src/pkg/a.py": CALLED_TEXT, "b.py": CALLS}, (), f"2 sent, 0 refused: {CALLED.format('2 source files')}"),
    ({"pyproject.toml": ROOTS}, (), f"2 sent, 0 refused: {FOUND.format('2 source files')}"),
    # (the stub is checked in place of the file)
    ({"b.pyi": "x: int\n"}, (), f"1 sent, 0 refused: {CLEAN.format('2 source files')}"),
    ({}, ("b.pyi",), f"1 sent, 0 refused: {FOUND.format('2 source files')}"),
)


def judge(room, tally):
    """Each line on a commit, the last line, and a part of the commits."""
    for written, taken, _ in COMMITS:
        room.commit(*taken, **written)
    names = room.git("rev-list", "--reverse", "HEAD").split()
    wanted = [f"{name[:12]} {line}: the fresh run's report\n" for name, (_, _, line) in zip(names, COMMITS)]
    done = room.script("follow_commits.py", ".")
    printed = done.stdout.decode().splitlines(keepends=True)
    for line, want in zip(printed, wanted):
        tally.judge(line == want, f"{line}is not\n{want}")
    last = f"{len(COMMITS)} of {len(COMMITS)} commits have the fresh run's report\n"
    tally.judge((printed[len(COMMITS) :], done.returncode) == ([last], 0), f"the end: {done}")
    done = room.script("follow_commits.py", ".", "HEAD~10..HEAD~8")
    printed = done.stdout.decode().splitlines(keepends=True)
    first = f"{names[-10][:12]} 3 sent, 0 refused: {FOUND.format('3 source files')}: the fresh run's report\n"
    tally.judge((len(printed), printed[0]) == (3, first), f"a part of the commits: {done}")


def judge_difference(room, tally):
    """A session that reports something else than a fresh run is found out."""
    lying = room.folder / "lying"
    options = '[ "$1" = check ] || set -- session --check-untyped-defs'
    lying.write_text(f'#!/bin/sh\n{options}\nexec "{room.program}" "$@"\n')
    lying.chmod(0o755)
    room.commit(**{"last.py": "def f():\n    return 1 + ''\n"})
    room.program = lying
    done = room.script("follow_commits.py", ".", "HEAD~2..HEAD")
    last = done.stdout.decode().splitlines()[-1]
    tally.judge((done.returncode, last) == (1, "1 of 2 commits have the fresh run's report"), f"another report: {done}")
    tally.judge(b"NOT the fresh run's report:\nb.py:1: error: " in done.stdout, f"the other report: {done}")
    tally.judge(done.stdout.count(b"\nlast.py:2: error: ") == 1, f"what differs: {done}")
    tally.judge(room.script("follow_commits.py", ".", "HEAD..HEAD").returncode == 1, "no commit at all")


def main():
    program = program_given("Follows the commits of a small repository.")
    tally = Tally("commits")
    with tempfile.TemporaryDirectory() as folder:
        room = SmallRepository(folder, program)
        try:
            room.git("init", "-q")
            judge(room, tally)
            judge_difference(room, tally)
        except (OSError, subprocess.SubprocessError) as why:
            tally.judge(False, why)
    return tally.close()


if __name__ == "__main__":
    sys.exit(main())
