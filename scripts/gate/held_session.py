#!/usr/bin/env python3
"""Holds one session of the built program over some hundred edits, and compares each report with that of a fresh process.

    scripts/gate/held_session.py [PROGRAM]

The workspace has at most as many files as there are paths below. An edit gives a file another of its texts, takes it
away, or brings it back; the texts of a path differ in an annotation, a body, a base, a name or a fault. After each edit
the session checks, and a new process gets all files that are then present and checks once: both reports have to be the
same bytes. The number of units that `status` says were examined is no larger than that of all; an edit that gives a file
the bytes that it has examines none.

Each report, and each number, is one judgement. Ends with the line `held: P passed, F failed`, and with status 0 or 1.
"""

import random
import re
import subprocess
import sys

from judging import PROGRAM, SECONDS, Tally

EDITS = 300
SEED = 7
# a few texts for each path
FILES = {
    "base.py": (
        "class B:\n    def f(self, n: int) -> int:\n        return n\n",
        "class B:\n    def f(self, n: str) -> int:\n        return 1\n",
        "class B:\n    x: int = 1\n    def f(self, n: int) -> int:\n        return 2\n",
        "class A: pass\nclass B(A):\n    def g(self) -> str:\n        return ''\n",
        "class B(C): pass\nclass C(B): pass\n",
        "class B(\n",
    ),
    "child.py": (
        "from base import B\nclass C(B):\n    def f(self, n: int) -> int:\n        return n\n",
        "from base import B\nclass C(B):\n    def f(self, n: str) -> int:\n        return 1\n",
        "from base import B\nclass C(B):\n    x: str = ''\n    def h(self) -> int:\n        return self.f(1)\n",
        "import base\nclass C(base.B): pass\n",
    ),
    "use.py": (
        "from child import C\nx: int = C().f(1)\ny: str = C().f('')\n",
        "from child import C\ndef use(c: C) -> int:\n    return c.f(1)\nx: int = use(C())\n",
        "import child\nimport missing\nreveal_type(child.C().x)\n",
        "from child import *\n",
    ),
    "missing.py": ("k: int = 1\n", "k: str = ''\n", "from use import x as k\n"),
    "p/__init__.py": ("from . import m\n", "from p.m import v\n", ""),
    "p/m.py": ("v: int = 1\n", "v: str = ''\n", "from missing import k as v\n", "def v() -> int:\n    return ''\n"),
    # stubs, which come beside these files and go
    "base.pyi": (
        "class B:\n    def f(self, n: int) -> int: ...\n",
        "class B:\n    x: str\n    def f(self, n: str) -> int: return ''\n",
        "from child import C as B\n",
    ),
    "p/m.pyi": ("v: int\n", "from missing import k as v\n", "from missing import k as k\n", "import p.m as m\n"),
    "far.py": (
        "from p import m\nx: int = m.v\n",
        "from p import v\nx: int = v\nfor i in [v]:\n    reveal_type(i)\n",
        "import p.m\nif p.m.v:\n    y: int = p.m.v  # type: ignore\n",
    ),
}


def put(word, path, text):
    """The command that adds or changes a file."""
    return f"{word} {path} {len(text.encode())}\n{text}".encode()


def run(program, commands):
    """What a session of the program prints."""
    return subprocess.run([program, "session"], input=commands, capture_output=True, timeout=SECONDS).stdout


def steps(chance):
    """Edits, each a command, the files that are present after it, and whether it leaves all bytes as they were."""
    held = {}
    for _ in range(EDITS):
        path = chance.choice(sorted(FILES))
        text = chance.choice(FILES[path])
        if path in held and chance.random() < 0.2:
            del held[path]
            yield f"remove {path}\n".encode(), dict(held), False
        else:
            word, same = ("change", held[path] == text) if path in held else ("add", False)
            held[path] = text
            yield put(word, path, text), dict(held), same


def reports(output):
    """The replies to `check` and to `status` in what a session printed, one after another."""
    pattern = rb"^((?:(?!ok\n).*\n)*?status [01]\n)(files \d+ bodies (\d+) rechecked (\d+)\n)"
    found = re.findall(pattern, output, re.MULTILINE)
    return [(report, int(bodies), int(examined)) for report, _, bodies, examined in found]


def main():
    program = sys.argv[1] if len(sys.argv) > 1 else PROGRAM
    tally = Tally("held")
    edits = list(steps(random.Random(SEED)))
    commands = b"".join(command + b"check\nstatus\n" for command, _, _ in edits)
    held = reports(run(program, commands))
    tally.judge(len(held) == EDITS, f"{len(held)} reports of {EDITS} edits")
    for number, ((command, files, same), (report, bodies, examined)) in enumerate(zip(edits, held)):
        fresh = b"".join(put("add", *it) for it in sorted(files.items())) + b"check\n"
        expected = run(program, fresh)[len(b"ok\n") * len(files) :]
        tally.judge(report == expected, f"edit {number}, {command!r}: {report!r}, from scratch {expected!r}")
        tally.judge(examined <= bodies, f"edit {number}: {examined} of {bodies} units examined")
        if same:
            tally.judge(examined == 0, f"edit {number}, {command!r}: {examined} units examined")
    return tally.close()


if __name__ == "__main__":
    sys.exit(main())
