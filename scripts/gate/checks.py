"""Checks of files: the files, and for each command line of `dmypy check` what it prints and tells."""

import os
from typing import NamedTuple

ERROR = 'error: Incompatible types in assignment (expression has type "str", variable has type "int")  [assignment]'
CLEAN = "Success: no issues found in 1 source file\n"
NONE = "Success: no issues found in 0 source files\n"


class Check(NamedTuple):
    """The options and the files of a command line, what is printed, what is told on standard error, and the status."""

    options: tuple
    files: tuple
    printed: str
    told: str
    status: int

    def words(self):
        """The words of the command line after the program's name."""
        return ["check", *self.options, *self.files]


CHECKS = [
    Check((), ("good.py",), CLEAN, "", 0),
    Check(("--check-untyped-defs",), ("good.py", "good.py"), CLEAN, "", 0),
    Check(
        (),
        ("bad.py", "good.py", "inner/bad.py"),
        f"bad.py:1: {ERROR}\ninner/bad.py:2: {ERROR}\nFound 2 errors in 2 files (checked 3 source files)\n",
        "",
        1,
    ),
    Check(
        (),
        ("folder.py", "good.py", "gone.py"),
        CLEAN,
        "dmypy: folder.py: refused 10 unreadable\ndmypy: gone.py: refused 10 unreadable\n",
        2,
    ),
    Check((), ("gone.py",), NONE, "dmypy: gone.py: refused 10 unreadable\n", 2),
    Check((), ("../good.py",), NONE, "dmypy: ../good.py: refused 2 path\n", 2),
    Check((), ("good.py", "good/__init__.py"), CLEAN, "dmypy: good/__init__.py: refused 7 module\n", 2),
    # (the stub is checked in place of the file beside it)
    Check((), ("bad.py", "bad.pyi"), CLEAN, "", 0),
    Check((), ("good.pyi", "good/__init__.py"), CLEAN, "dmypy: good/__init__.py: refused 7 module\n", 2),
    Check((), ("large.py",), NONE, "dmypy: large.py: refused 5 large\n", 2),
    # nothing writes to the pipe: a check that opened it would wait
    Check((), ("pipe.py", "good.py"), CLEAN, "dmypy: pipe.py: refused 10 unreadable\n", 2),
]


def make_files(folder):
    """Makes the files on which the checks run."""
    (folder / "folder.py").mkdir()
    (folder / "good").mkdir()
    (folder / "inner").mkdir()
    (folder / "good.py").write_text("x: int = 1\n")
    (folder / "good" / "__init__.py").write_text("")
    (folder / "good.pyi").write_text('def f() -> int: return "a"\n')
    (folder / "bad.py").write_text('x: int = "a"\n')
    (folder / "bad.pyi").write_text("x: int\n")
    (folder / "inner" / "bad.py").write_text('\ny: int = "a"\n')
    os.mkfifo(folder / "pipe.py")
    (folder / "large.py").write_text("\n" * 1_048_577)
