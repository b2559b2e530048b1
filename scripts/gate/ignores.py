#!/usr/bin/env python3
"""Adds ignore comments to small projects by scripts/add_ignores.py.

    scripts/gate/ignores.py [--program PROGRAM]

Ends with the line `ignores: P passed, F failed`, and with status 0 or 1.
"""

import re
import subprocess
import sys

from judging import Tally, judge_in_rooms, program_given
from repository import ROOT
from small_repository import SmallRepository

LISTED = """x: list[int] = [
    '',\t
    1,  # one
    b'',  # two
]
"""
LISTED_AFTER = """x: list[int] = [
    '',  # type: ignore[list-item]
    1,  # one
    b'',  # type: ignore[list-item]  # two
]
"""
ENDED = """def f() -> int:
    if g:
        '''
'''
"""
ENDED_AFTER = """def f() -> int:  # type: ignore[return]
    if g:  # type: ignore[name-defined]
        '''
'''
"""
# the text of a file, and what the script makes of it
TEXTS = (
    ('x: int = ""\n', 'x: int = ""  # type: ignore[assignment]\n'),
    ('x: int = ""', 'x: int = ""  # type: ignore[assignment]'),
    ('x: int = ""  # why\ny = 1\n', 'x: int = ""  # type: ignore[assignment]  # why\ny = 1\n'),
    ("x: int = ''.a + y\n", "x: int = ''.a + y  # type: ignore[attr-defined, name-defined]\n"),
    ("x = y # type:ignore[a , b]# z\n", "x = y  # type: ignore[a, b, name-defined]  # z\n"),
    ('x: int = "#"\r\ny: int = 1\r\n', 'x: int = "#"  # type: ignore[assignment]\r\ny: int = 1\r\n'),
    ('\ufeffx: int = "\U0001f600"\rz = 1\r', '\ufeffx: int = "\U0001f600"  # type: ignore[assignment]\rz = 1\r'),
    ("x: int = \\\n  ''\n", "x: int = \\\n  ''  # type: ignore[assignment]\n"),
    (LISTED, LISTED_AFTER),
    (ENDED, ENDED_AFTER),
)
# the text of a file, and what --unused makes of it
UNUSED = (
    ("x = 1  # type: ignore[assignment]\n", "x = 1\n"),
    ("x = 1  # type: ignore\n", "x = 1\n"),
    ("x = 1  # type: ignore[assignment]  # why\n", "x = 1  # why\n"),
    ("x: int = ''  # type: ignore[assignment]\n", "x: int = ''  # type: ignore[assignment]\n"),
    ("x: int = ''  # type: ignore\n", "x: int = ''  # type: ignore\n"),
    ("x: int = ''  #type:ignore[assignment,index]# z\n", "x: int = ''  #type:ignore[assignment]  # z\n"),
    ("x = 1  # type: ignore[index, no-untyped-call]\n", "x = 1  # type: ignore[no-untyped-call]\n"),
    ("x = 1  # type: ignore [index]\n", "x = 1\n"),
    ("x = 1  # type: ignore why not\n", "x = 1  # why not\n"),
    ("x = 1  # type: ignore [index, x]  # why\n", "x = 1  # type: ignore[x]  # why\n"),
    ("x: int = ''  # type: ignore [index]\n", "x: int = ''  # type: ignore [index]\n"),
    ("x = 1  # type: ignore [no-untyped-call]\n", "x = 1  # type: ignore [no-untyped-call]\n"),
    ("x = 1  # type: ignore[no-untyped-call]\n", "x = 1  # type: ignore[no-untyped-call]\n"),
    (LISTED_AFTER, LISTED_AFTER),
    ("# type: ignore\n\nx: int = ''\n", "# type: ignore\n\nx: int = ''\n"),
    ("# type: ignore\nx: int = 1\n", "x: int = 1\n"),
    ("x = 1\r\n  # type: ignore[index]\r\ny = 2", "x = 1\r\ny = 2"),
    ("if 1:\n  # type: ignore[index] # why\n  x = 1\n", "if 1:\n  # why\n  x = 1\n"),
    ('s = "# type: ignore"  # see # type: ignore\n', 's = "# type: ignore"  # see # type: ignore\n'),
)
# texts with a line that can have no comment, or no comment that counts
OPEN = ("x: int = '''\n'''\n", "x = y + \\\n  1\n", "if (n := 1):\n    pass\n", "x = (\n", "x = $\n")


def judge_texts(room, tally):
    """Each text, and that nothing is changed the second time."""
    for text, wanted in TEXTS:
        room.write(**{"a.py": text})
        done = room.script("add_ignores.py", "a.py")
        got = room.read("a.py")
        clean = b"Success: no issues found in 1 source file\n"
        tally.judge((got, done.stdout, done.returncode) == (wanted, clean, 0), f"{text!r}: {got!r}: {done}")
        room.script("add_ignores.py", "a.py")
        tally.judge(room.read("a.py") == wanted, f"{text!r}: the second time: {room.read('a.py')!r}")
    for text in OPEN:
        room.write(**{"a.py": text})
        done = room.script("add_ignores.py", "a.py")
        got = room.read("a.py")
        is_told = done.stdout.startswith(b"a.py:1: error: ")
        tally.judge((got, is_told, done.returncode) == (text, True, 1), f"{text!r}: {got!r}: {done}")


def judge_unused(room, tally):
    """Comments that suppress nothing are taken away, and no others."""
    for text, wanted in UNUSED:
        room.write(**{"a.py": text})
        done = room.script("add_ignores.py", "--unused", "a.py")
        got = room.read("a.py")
        tally.judge((got, done.returncode) == (wanted, 0), f"--unused: {text!r}: {got!r}: {done}")
    room.write(**{"a.py": "x: int = ''\ny: int = 1  # type: ignore[assignment]\n"})
    done = room.script("add_ignores.py", "--unused", "a.py")
    is_right = room.read("a.py") == "x: int = ''\ny: int = 1\n" and done.stdout.startswith(b"a.py:1: error: ")
    tally.judge(is_right and done.returncode == 1, f"--unused adds nothing: {done}")
    codes = set(re.findall(r"(?m)^## (.*)$", (ROOT / "docs" / "CODES.md").read_text(encoding="utf-8")))
    script = (ROOT / "scripts" / "add_ignores.py").read_text(encoding="utf-8")
    listed = set(re.search(r'CODES = frozenset\(\n    """(.*?)"""', script, re.DOTALL)[1].split())
    tally.judge(listed == codes - {"syntax"} != set(), f"the codes of the script: {listed}")


def judge_projects(room, tally):
    """Whole folders, options, names of all kinds, and source roots."""
    inner = {"a.py": "import b\n\nx: str = b.f(1)\n", "b.py": "def f(n: int) -> int:\n    return n\n"}
    inner["c/d.py"] = "import os\n"
    room.write(**inner, **{"my file.py": "x: int = ''\n"})
    done = room.script("add_ignores.py", "--ignore-missing-imports")
    tally.judge(done.returncode == 0, f"a folder: {done}")
    changed = {"a.py": inner["a.py"].replace(")\n", ")  # type: ignore[assignment]\n")}
    changed["my file.py"] = "x: int = ''  # type: ignore[assignment]\n"
    for path, text in {**inner, **changed}.items():
        tally.judge(room.read(path) == text, f"{path}: {room.read(path)!r}")
    room.script("add_ignores.py", "c")
    tally.judge(room.read("c/d.py") == "import os  # type: ignore[import-not-found]\n", "an import that is not found")
    room.write(**{"src/pkg/m.py": inner["b.py"], "src/pkg/n.py": "from pkg.m import f\n\nx: str = f(1)\n"})
    done = room.script("add_ignores.py", "src/pkg/n.py")
    wanted = "from pkg.m import f\n\nx: str = f(1)  # type: ignore[assignment]\n"
    tally.judge(room.read("src/pkg/n.py") == wanted, f"a file of src: {done}")


def judge_stubs(room, tally):
    """A stub gets comments, and the file beside it, which is not checked, keeps its own."""
    beside = "x: int = ''  # type: ignore[assignment]\ny: int = ''\n"
    stub = "x: int = ''\n"
    room.write(**{"a.py": beside, "a.pyi": stub, "b.py": "y = 1  # type: ignore\n"})
    done = room.script("add_ignores.py")
    got = room.read("a.py"), room.read("a.pyi")
    wanted = (beside, "x: int = ''  # type: ignore[assignment]\n")
    tally.judge((got, done.returncode) == (wanted, 0), f"a file and its stub: {got}: {done}")
    room.write(**{"a.pyi": "x: int = 1  # type: ignore[assignment]\n"})
    done = room.script("add_ignores.py", "--unused")
    got = room.read("a.py"), room.read("a.pyi"), room.read("b.py")
    wanted = (beside, "x: int = 1\n", "y = 1\n")
    tally.judge((got, done.returncode) == (wanted, 0), f"--unused on a file and its stub: {got}: {done}")


def main():
    program = program_given("Adds ignore comments to small projects.")
    tally = Tally("ignores")
    faults = (OSError, subprocess.SubprocessError)
    tests = (judge_texts, judge_unused, judge_projects, judge_stubs)
    judge_in_rooms(tests, SmallRepository, program, tally, faults)
    return tally.close()


if __name__ == "__main__":
    sys.exit(main())
