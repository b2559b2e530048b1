#!/usr/bin/env python3
"""Checks small projects by scripts/check_project.py.

    scripts/gate/project.py [--program PROGRAM]

Ends with the line `project: P passed, F failed`, and with status 0 or 1.
"""

import json
import os
import pty
import select
import shutil
import signal
import subprocess
import sys
import time
from random import Random

from judging import SECONDS, Tally, judge_in_rooms, program_given
from repository import ROOT
from small_repository import ENVIRONMENT, SmallRepository

sys.path.insert(0, str(ROOT / "editors"))
from lsp import settings
from lsp.checker import Checker
from lsp.opaque import form_at
from lsp.project import stamps

SCRIPT = ROOT / "scripts" / "check_project.py"
MODULE = "def f(n: int) -> int:\n    return n\n"
USE = "from pkg.m import f\n\nf('')\n"
WRONG = "x: int = ''\n"
ASSIGNMENT = 'Incompatible types in assignment (expression has type "{}", variable has type "{}")'
TEXT = ASSIGNMENT.format("str", "int")
ASSIGNED = f"error: {TEXT}  [assignment]"
CALLED = 'error: Argument 1 to "f" has incompatible type "str"; expected "int"  [arg-type]'
MISSING = 'error: Cannot find implementation or library stub for module named "{}"  [import-not-found]'
FOUND = "Found 1 error in 1 file (checked {} source files)"
ONE = "Found 1 error in 1 file (checked 1 source file)"
CLEAN = "Success: no issues found in 1 source file"
# what makes a folder the top of a project
MARK = {"setup.cfg": ""}


class Room(SmallRepository):
    """A folder whose files are checked."""

    def check(self, *words, inside="."):
        """Checks, and returns the status, the lines of standard output, and those of standard error."""
        done = self.run(sys.executable, SCRIPT, "--program", self.program, *words, inside=inside)
        return done.returncode, done.stdout.decode().splitlines(), done.stderr.decode().splitlines()


def layouts(room, tally):
    """Source roots as packages lie, and as imports name them. Each project is in a folder of its own."""
    told = f":3: {CALLED}"
    projects = {
        "src": ({"src/pkg/m.py": MODULE, "src/pkg/app.py": USE}, "src/pkg/app.py"),
        "lib": ({"lib/pkg/__init__.py": "", "lib/pkg/m.py": MODULE, "tests/test_m.py": USE}, "tests/test_m.py"),
        "flat": ({"pkg/__init__.py": "", "pkg/m.py": MODULE, "app.py": USE}, "app.py"),
        "nested": ({"src/pkg/a/m.py": MODULE, "src/pkg/b.py": USE.replace("pkg.m", ".a.m")}, "src/pkg/b.py"),
        "named": ({"src/pkg/m.py": MODULE, "app.py": USE.replace("pkg", "src.pkg")}, "app.py"),
        "package": ({"src/__init__.py": "", "src/m.py": MODULE, "app.py": USE.replace("pkg", "src")}, "app.py"),
        "pkg": ({"__init__.py": "", "m.py": MODULE, "app.py": USE}, "app.py"),
        "stray": ({"__init__.py": "", "pkg/m.py": MODULE, "app.py": USE}, "app.py"),
    }
    for name, (texts, path) in projects.items():
        room.write(**{f"{name}/{it}": text for it, text in {**texts, **MARK}.items()})
        wanted = (1, [f"{path}{told}", FOUND.format(len(texts))], [])
        got = room.check(inside=name)
        tally.judge(got == wanted, f"the project {name}: {got}")
        got = room.check(name)
        wanted = (1, [f"{name}/{path}{told}", FOUND.format(len(texts))], [])
        tally.judge(got == wanted, f"the project {name} from above: {got}")


def roots(room, tally):
    """The roots that a user gives, and the line on a file that fits an import under another root."""
    room.write(**{"packages/a/src/pkg/m.py": MODULE, "packages/b/src/app.py": USE, "tests/helpers.py": MODULE})
    room.write(**{"tests/test_a.py": "import helpers\nimport sys, no\n\nhelpers.f('')\n", **MARK})
    room.write(**{"tests/test_b.py": "import helpers\n"})
    status, told, said = room.check("--ignore-missing-imports")
    tally.judge((status, told) == (0, ["Success: no issues found in 5 source files"]), f"no roots: {told}")
    wanted = [
        "dmypy: packages/b/src/app.py:1: pkg.m is not found, but under the root 'packages/a/src' it would be "
        "packages/a/src/pkg/m.py, which is packages.a.src.pkg.m now",
        "dmypy: tests/test_a.py:1: helpers is not found, nor in 1 more import, but under the root 'tests' it would be "
        "tests/helpers.py, which is tests.helpers now",
        'dmypy: pyproject.toml gives roots so: [tool.dmypy] roots = ["packages/a/src", "tests"]',
    ]
    tally.judge(said == wanted, f"files under other roots: {said}")
    room.write(**{"pyproject.toml": "[tool.dmypy]\nroots = ['packages/*/src', 'tests']\n"})
    got = room.check("--ignore-missing-imports")
    lines = [f"packages/b/src/app.py:3: {CALLED}", f"tests/test_a.py:4: {CALLED}"]
    wanted = (1, [*lines, "Found 2 errors in 2 files (checked 5 source files)"], [])
    tally.judge(got == wanted, f"roots that are given: {got}")
    room.write(**{"pyproject.toml": "[tool.dmypy]\nroots = ['scr', './tests/']\n"})
    said = room.check("--ignore-missing-imports", "tests")[2]
    tally.judge(said == ["dmypy: no Python file lies below the root 'scr'"], f"a root without files: {said}")
    room.write(**{"pyproject.toml": "", "src/m.py": MODULE, "src/n.py": "import m\nimport src.m\n"})
    room.write(**{"src/o.py": "import m\nimport sys\n", "other/sys.py": ""})
    said = room.check("--ignore-missing-imports", "src")[2]
    wanted = [
        "dmypy: src/n.py:2: src.m is not found, but under the root '.' it would be src/m.py, which is m now",
        'dmypy: pyproject.toml gives roots so: [tool.dmypy] roots = ["."]',
    ]
    tally.judge(said == wanted, f"a file of src: {said}")


def words(room, tally):
    """Folders and files as users name them: what is reported is what is given, and imports find the rest."""
    room.write(**{"src/pkg/m.py": MODULE, "src/pkg/a.py": USE, "src/b.py": USE, "tests/c.py": WRONG, **MARK})
    told = [f"src/b.py:3: {CALLED}", f"src/pkg/a.py:3: {CALLED}", f"tests/c.py:1: {ASSIGNED}"]
    alone = [ONE]
    cases = [
        (("src", "tests"), ".", [*told, "Found 3 errors in 3 files (checked 4 source files)"]),
        ((), ".", [*told, "Found 3 errors in 3 files (checked 4 source files)"]),
        (("./src/pkg/",), ".", [told[1], FOUND.format(2)]),
        ((room.folder / "tests",), ".", [told[2], *alone]),
        ((room.folder / "src" / ".." / "src" / "b.py",), ".", [told[0], *alone]),
        (("src/b.py", "tests"), ".", [told[0], told[2], "Found 2 errors in 2 files (checked 2 source files)"]),
        (("../src/b.py",), "tests", [f"../{told[0]}", *alone]),
        ((), "src/pkg", [f"a.py:3: {CALLED}", FOUND.format(2)]),
    ]
    for given, inside, wanted in cases:
        got = room.check(*given, inside=inside)
        tally.judge(got == (1, wanted, []), f"{given} in {inside}: {got}")
    got = room.check("src/pkg/m.py")
    tally.judge(got == (0, [CLEAN], []), f"a file without an error: {got}")
    got = room.check("src", "gone.py")
    tally.judge(got == (2, [], ["dmypy: gone.py: no such file or folder"]), f"a file that is not there: {got}")
    (room.folder / "empty").mkdir()
    got = room.check("empty")
    tally.judge(got == (2, [], ["dmypy: no Python file lies in empty"]), f"a folder without files: {got}")
    got = room.check("--root", "tests", "src")
    said = [f"dmypy: {room.folder / 'src'} does not lie in {room.folder / 'tests'}"]
    tally.judge(got == (2, [], said), f"a file outside of the project: {got}")
    for home, told in ((room.folder, MISSING.format("tests.c")), ("/", "Success: no issues found in 1 source file")):
        room.write(**{"no/d.py": "import tests.c\n"})
        done = room.run("env", f"HOME={home}", sys.executable, SCRIPT, "--program", room.program, "no")
        tally.judge(told.encode() in done.stdout, f"the home folder {home} is no project: {done}")
    (room.folder / "setup.cfg").unlink()
    for given in (("src/b.py",), ("src/pkg/a.py",), (room.folder / "src",)):
        status, told, said = room.check(*given)
        is_right = (status, said) == (1, []) and CALLED in told[0]
        tally.judge(is_right, f"{given} where nothing marks the top: {told} {said}")


def names(room, tally):
    """Names that a session does not take, and files that name one module."""
    long = "/".join(["a" * 100] * 3) + ".py"
    paths = ["my file.py", "a%20b.py", "a b/m.py", long, "tab\there.py", "caf\u00e9.py"]
    room.write(**{path: WRONG for path in paths}, **{"a b/n.py": "from .m import x\n\ny: str = x\n"})
    room.write(**{"tool": WRONG, **MARK})
    (room.folder / os.fsdecode(b"caf\xe9.py")).write_text(WRONG)
    status, told, said = room.check()
    shown = [*(path.replace("\t", "\\t") for path in paths), "caf\\udce9.py"]
    lines = {f"{path}:1: {ASSIGNED}" for path in shown}
    lines.add(f"a b/n.py:3: error: {ASSIGNMENT.format('int', 'str')}  [assignment]")
    last = "Found 8 errors in 8 files (checked 8 source files)"
    tally.judge((status, set(told[:-1]), told[-1], said) == (1, lines, last, []), f"names of all kinds: {told} {said}")
    got = room.check("tool")
    tally.judge(got == (1, [f"tool:1: {ASSIGNED}", ONE], []), f"a file without .py: {got}")
    room.write(**{"src/pkg/m.py": WRONG, "pkg/m.py": "y: int = ''\n", "src/n.py": WRONG, "src/n/__init__.py": ""})
    status, told, said = room.check("src", "pkg")
    wanted = [
        "dmypy: pkg/m.py is not checked: src/pkg/m.py names the same module, pkg.m",
        "dmypy: src/n.py is not checked: src/n/__init__.py names the same module, n",
    ]
    right = (2, [f"src/pkg/m.py:1: {ASSIGNED}", FOUND.format(2)], wanted)
    tally.judge((status, told, said) == right, f"two files of one module: {told} {said}")
    room.write(**{"d/a.b.py": WRONG, "d/a/b.py": WRONG, "d.c/a.py": WRONG, "d/c/a.py": WRONG})
    got = room.check("d", "d.c")[1][-1]
    tally.judge(got == "Found 4 errors in 4 files (checked 4 source files)", f"dots in names: {got}")
    room.write(**{"large.py": "#" * 1048576 + "\n"})
    got = room.check("large.py")
    wanted = (2, ["Success: no issues found in 0 source files"])
    said = ["dmypy: large.py is not checked: it has more than 1,048,576 bytes"]
    tally.judge(got == (*wanted, said), f"a large file: {got}")


def stubs(room, tally):
    """A stub is checked in place of the file beside it, under another root, too."""
    room.write(**{"a.py": WRONG, "a.pyi": "x: str\n", "b.py": "from a import x\n\ny: int = x\n", **MARK})
    got = room.check()
    tally.judge(got == (1, [f"b.py:3: {ASSIGNED}", FOUND.format(2)], []), f"a file and its stub: {got}")
    got = room.check("a.py", "b.py")
    said = ["dmypy: a.py is not checked: its stub a.pyi is"]
    tally.judge(got == (2, [f"b.py:3: {ASSIGNED}", ONE], said), f"a file without its stub: {got}")
    got = room.check("a.pyi")
    tally.judge(got == (0, [CLEAN], []), f"a stub alone: {got}")
    got = room.check("--exclude", "*.pyi")
    wanted = (1, [f"a.py:1: {ASSIGNED}", FOUND.format(2)], [])
    tally.judge(got == wanted, f"stubs are left out: {got}")
    texts = {"typings/pkg/m.pyi": "def f(n: int) -> int: return ''\n", "src/pkg/m.py": WRONG, "src/app.py": USE}
    room.write(**{f"roots/{path}": text for path, text in texts.items()})
    room.write(**{"roots/pyproject.toml": "[tool.dmypy]\nroots = ['src', 'typings']\n"})
    got = room.check(inside="roots")
    tally.judge(got == (1, [f"src/app.py:3: {CALLED}", FOUND.format(2)], []), f"a stub under another root: {got}")
    packages = {"src/__init__.pyi": "", "src/m.pyi": MODULE, "app.py": USE.replace("pkg", "src"), "m.pyi": ""}
    room.write(**{f"packages/{path}": text for path, text in {**packages, **MARK}.items()})
    got = room.check(inside="packages")
    tally.judge(got == (1, [f"app.py:3: {CALLED}", FOUND.format(4)], []), f"a package by its stub: {got}")
    long = "/".join(["b" * 100] * 3)
    paths = [f"names/{it}" for it in ("my file.py", "__init__.py", ".py", "a.py.py", f"{long}.py")]
    room.write(**{path: WRONG for path in paths}, **{f"{path}i": "y: int = ''\n" for path in paths}, **MARK)
    room.write(**{"names/setup.cfg": "", "names/a.pyi": "", "names/a/__init__.pyi": WRONG})
    status, told, said = room.check(inside="names")
    lines = {f"{path[len('names/'):]}i:1: {ASSIGNED}" for path in paths} | {f"a/__init__.pyi:1: {ASSIGNED}"}
    last = "Found 6 errors in 6 files (checked 6 source files)"
    wanted = ["dmypy: a.pyi is not checked: a/__init__.pyi names the same module, names.a"]
    tally.judge((status, set(told[:-1]), told[-1], said) == (2, lines, last, wanted), f"names: {told} {said}")


def many(room, tally):
    """More files than a session holds: those that are given come first."""
    room.write(**{f"a/m{number}.py": "x = 1\n" for number in range(1024)}, **{"z/last.py": WRONG, **MARK})
    got = room.check("z")
    tally.judge(got == (1, [f"z/last.py:1: {ASSIGNED}", ONE], []), f"a file that is given among many: {got}")
    got = room.check()
    said = ["dmypy: z/last.py is not checked: the session holds 1,024 files already"]
    tally.judge(got == (2, ["Success: no issues found in 1024 source files"], said), f"many files: {got}")


def left_out(room, tally):
    """Files that are not the project's, by git and without, and those that a user leaves out."""
    folders = ["node_modules/x", "a/node_modules", "build/lib", "dist", "env", ".hidden", "__pycache__"]
    folders += ["c/site-packages", "old", "deep/old"]
    room.write(**{f"{folder}/a.py": WRONG for folder in folders}, **{"env/pyvenv.cfg": "", "b_pb2.py": WRONG, **MARK})
    room.write(**{"a/build/a.py": WRONG, "c.py": WRONG})
    kept = ["a/build/a.py", "b_pb2.py", "c.py", "deep/old/a.py", "old/a.py"]
    lines = lambda paths: [f"{path}:1: {ASSIGNED}" for path in paths]
    told = room.check()[1][:-1]
    tally.judge(told == lines(kept), f"without git: {told}")
    told = room.check("--exclude", "old", "--exclude", "*_pb2.py", "--exclude", "a/build")[1]
    tally.judge(told == [*lines(["c.py"]), ONE], f"patterns: {told}")
    room.write(**{"pyproject.toml": "[tool.dmypy]\nexclude = ['./old/', \"deep/*\", 'a']\n"})
    told = room.check()[1][:-1]
    tally.judge(told == lines(["b_pb2.py", "c.py"]), f"patterns of the settings: {told}")
    told = room.check("old/a.py", "c.py")[1][:-1]
    tally.judge(told == lines(["c.py", "old/a.py"]), f"a file that is given by itself: {told}")
    room.write(**{"pyproject.toml": "", ".gitignore": "old\n", "build/__init__.py": "", "build/b.py": WRONG})
    room.git("init", "-q")
    told = room.check()[1][:-1]
    wanted = [".hidden/a.py", "a/build/a.py", "b_pb2.py", "build/b.py", "build/lib/a.py", "c.py"]
    tally.judge(told == lines(wanted), f"with git: {told}")
    told = room.check("old")[1]
    tally.judge(told == [*lines(["old/a.py"]), ONE], f"a folder that git ignores is given: {told}")
    room.git("add", "-f", "old/a.py", "dist/a.py")
    told = room.check()[1][:-1]
    tally.judge(told == lines([*wanted, "dist/a.py", "old/a.py"]), f"what git tracks: {told}")


def read_settings(room, tally):
    """The table of pyproject.toml, by Python's reader and by the lines."""
    text = """[project]
name = "x"
[tool.dmypy]  # here
roots = ["src", # one
  'li\\b',
]
options = []
exclude = [ "a # b" , "\\u00e9\\t" ]   # two

program="a/b"
[tool.other]
roots = 1
"""
    wanted = {"roots": ["src", "li\\b"], "options": [], "exclude": ["a # b", "\u00e9\t"], "program": "a/b"}
    got = settings.read_lines(text)
    tally.judge(got == wanted, f"the lines of a table: {got}")
    tally.judge(not settings.tomllib or settings.read_whole(text) == wanted, "the whole text")
    tally.judge(settings.read_lines("[project]\n[tool.dmypyx]\n") is None, "no table")
    tally.judge(settings.read_lines("[tool . dmypy]") == {}, "a table without lines")


def use_settings(room, tally):
    """The settings of pyproject.toml, and what is wrong with some."""
    faults = {
        "roots = 'src'": "roots is no list of texts",
        "root = ['src']": "root is no setting: roots, exclude, options, program are",
        "options = ['--strict']": f"options has --strict, which is no option: {', '.join(settings.OPTIONS)} are",
        "program = ['dmypy']": "program is no text",
    }
    room.write(**{"a.py": "import os\n\ndef f():\n    return 1 + ''\n"})
    for line, fault in faults.items():
        room.write(**{"pyproject.toml": f"[tool.dmypy]\n{line}\n"})
        got = room.check()
        said = [f"dmypy: {room.folder / 'pyproject.toml'}: [tool.dmypy]: {fault}"]
        tally.judge(got == (2, [], said), f"{line}: {got}")
    room.write(**{"pyproject.toml": "[tool.dmypy]\nroots = [\n"})
    status, told, said = room.check()
    is_right = (status, told) == (2, []) and said[0].startswith(f"dmypy: {room.folder / 'pyproject.toml'}: ")
    tally.judge(is_right, f"no table: {said}")
    room.write(**{"pyproject.toml": "[tool.dmypy]\noptions = ['--check-untyped-defs']\n"})
    status, told, said = room.check("--ignore-missing-imports")
    wanted = 'a.py:4: error: Unsupported operand types for + ("int" and "str")  [operator]'
    tally.judge((status, told) == (1, [wanted, ONE]), f"options: {told}")
    room.write(**{"pyproject.toml": "[tool.dmypy]\nprogram = './no'\n"})
    done = room.run(sys.executable, SCRIPT)
    said = f"dmypy: no program was found: {room.folder / 'no'} is not there\n"
    tally.judge((done.returncode, done.stderr.decode()) == (2, said), f"the program of the settings: {done}")


def programs(room, tally):
    """Which program: $DMYPY, then that of the checkout, then those of the PATH that answer a session."""
    wrapped = f'#!/bin/sh\nexec "{room.program}" "$@"\n'
    places = ("other/dmypy", "own/dmypy", "released/dmypy-proved", "dmypy")
    for place in places:
        room.write(**{place: "#!/bin/sh\nexit 2\n" if place == places[0] else wrapped})
        (room.folder / place).chmod(0o755)
    room.write(**{"a/a.py": "x = 1\n"})
    for folder in ("editors", "scripts"):
        shutil.copytree(ROOT / folder, room.folder / "copy" / folder)
    other, own, released, _ = [str(room.folder / place) for place in places]
    what = f"{other} is another program, as mypy's daemon is: it answers no session"
    none, hint = "dmypy on the PATH is not there", ": give --program, or set $DMYPY\n"
    cases = [
        ((), None, f"no program was found: {none}{hint}"),
        ((other,), None, f"no program was found: {what}{hint}"),
        ((other, own), None, f"{own} is taken, since {what}\n"),
        ((other, released), None, ""),
        ((other,), own, ""),
        ((), "dmypy", f"no program was found: dmypy is not there; {none}{hint}"),
        ((own,), "/no/dmypy", f"{own} is taken, since /no/dmypy is not there\n"),
    ]
    for on_path, variable, said in cases:
        judge_program(room, tally, on_path, variable, said)
    room.write(**{"copy/out/dmypy": wrapped})
    (room.folder / "copy" / "out" / "dmypy").chmod(0o755)
    judge_program(room, tally, (other, own), None, "")


def judge_program(room, tally, on_path, variable, said):
    """What a copy of the script says where these programs are on the PATH, and where $DMYPY names one."""
    path = ":".join([*(os.path.dirname(it) for it in on_path), "/usr/bin:/bin"])
    environment = {**ENVIRONMENT, "PATH": path, **({"DMYPY": variable} if variable else {})}
    command = [sys.executable, room.folder / "copy" / "scripts" / "check_project.py", "a"]
    how = {"cwd": room.folder, "env": environment, "capture_output": True, "timeout": SECONDS, "check": False}
    done = subprocess.run(command, **how)
    status, told = (2, "") if said.startswith("no program") else (0, f"{CLEAN}\n")
    wanted = (status, told, said and f"dmypy: {said}")
    got = (done.returncode, done.stdout.decode(), done.stderr.decode())
    tally.judge(got == wanted, f"the PATH {on_path}, $DMYPY {variable}: {got}")


def outputs(room, tally):
    """Messages as objects, where lines are written, and the status."""
    room.write(**{"my file.py": WRONG, "b.py": "reveal_type(1)\nimport os\n", "c.py": "if (n := 1):\n    pass\n"})
    done = room.run(sys.executable, SCRIPT, "--program", room.program, "--json")
    hint = "dmypy leaves out `:=`, so nothing in this file is checked: assign the name in a statement of its own"
    missing = 'Cannot find implementation or library stub for module named "os"'
    wanted = [
        ("b.py", 1, 'Revealed type is "int"', None, None, "note"),
        ("b.py", 2, missing, None, "import-not-found", "error"),
        ("c.py", 1, "Outside the profile", hint, "syntax", "error"),
        ("my file.py", 1, TEXT, None, "assignment", "error"),
    ]
    fields = ("file", "line", "message", "hint", "code", "severity")
    objects = [{**dict(zip(fields, it)), "column": -1} for it in wanted]
    got = [json.loads(line) for line in done.stdout.decode().splitlines()]
    tally.judge((done.returncode, got) == (1, objects), f"--json: {got}")
    said = done.stderr.decode().splitlines()
    wanted = [
        "dmypy: Found 3 errors in 3 files (checked 3 source files)",
        "dmypy: 1 import finds no file of the project: --ignore-missing-imports leaves out such messages",
    ]
    tally.judge(said == wanted, f"standard error with --json: {said}")
    got = room.check("--opaque", "skip", "c.py")
    tally.judge(got == (0, [f"c.py:1: note: {hint}", CLEAN], []), f"--opaque skip: {got}")
    room.write(**{"d.py": "if (n := 1):\n    pass\nx = = 1\n"})
    got = room.check("--opaque", "skip", "d.py")
    lines = ["d.py:1: error: Outside the profile  [syntax]", f"d.py:1: note: {hint}", ONE]
    tally.judge(got == (1, lines, []), f"a file with a fault behind such a form: {got}")
    (room.folder / "d.py").unlink()
    got = room.check("c.py")
    lines = ["c.py:1: error: Outside the profile  [syntax]", f"c.py:1: note: {hint}", ONE]
    tally.judge(got == (1, lines, []), f"an opaque file: {got}")
    status, told, said = room.check("--version")
    tally.judge(status == 0 and told[0].startswith("dmypy check_project "), f"--version: {told} {said}")
    with open("/dev/full", "wb") as full:
        how = {"cwd": room.folder, "stdout": full, "stderr": subprocess.PIPE, "timeout": SECONDS, "check": False}
        done = subprocess.run([sys.executable, SCRIPT, "--program", room.program], **how)
    said = b"dmypy: the output cannot be written: No space left on device\n"
    tally.judge((done.returncode, done.stderr) == (2, said), f"a full output: {done}")


def forms(_, tally):
    """The forms that dmypy leaves out, each with its name; and lines that have none."""
    named = {
        "if (n := 1):\n    pass\n": "`:=`",
        "from os import *\n": "`import *`",
        "from os import (\n  a)\nfrom b import *\n": None,
        "async def f(a, /, b): ...\n": "`/` among parameters",
        "f = lambda a, /: 1\n": "`/` among parameters",
        "def f(a=1 / 2) -> None: ...\n": None,
        "match x:\n    case 1: ...\n": "`match`",
        "type X = int\n": "the `type` statement",
        "def f[T](a: T) -> T: ...\n": "type parameters",
        "class A[T]: ...\n": "type parameters",
        "except* ValueError:\n    pass\n": "`except*`",
        "x = a[*b]\n": "`*` in a subscript or in the annotation of `*args`",
        "def f(*a: *T) -> None: ...\n": "`*` in a subscript or in the annotation of `*args`",
        "x = [*b, a[1]]\n": None,
        "x = (\n": None,
        "x = '\n": None,
    }
    for text, name in named.items():
        form = form_at(text, 1)
        tally.judge((form and form.name) == name, f"the form of {text!r}: {form}")
    tally.judge(form_at("x = 1\n  if (n := 1):\n", 2).name == "`:=`", "the form of a line below another")


def baseline(room, tally):
    """Known errors: over lines that move, with new ones of the same text, and some that are gone."""
    room.write(**{"a.py": f"{WRONG}y: int = ''\n", "b/c.py": WRONG, **MARK})
    got = room.check("--baseline", "known.json")
    said = ["dmypy: known.json: No such file or directory; --write-baseline writes it"]
    tally.judge(got == (2, [], said), f"no file: {got}")
    got = room.check("--baseline", "known.json", "--write-baseline")
    tally.judge(got == (0, [], ["dmypy: 3 errors are known now: known.json"]), f"--write-baseline: {got}")
    entries = (("a.py", 2), ("b/c.py", 1))
    listed = [{"file": path, "code": "assignment", "message": TEXT, "count": count} for path, count in entries]
    tally.judge(json.loads(room.read("known.json")) == listed, f"the file: {room.read('known.json')}")
    room.write(**{"a.py": f"\n# moved\n{WRONG}y: int = ''\n"})
    wanted = (0, ["Success: no issues found in 2 source files"], ["dmypy: 3 known errors are not shown"])
    got = room.check("--baseline", "known.json")
    tally.judge(got == wanted, f"lines that move: {got}")
    got = room.check("--baseline", "../known.json", inside="b")
    tally.judge(got == (0, [CLEAN], ["dmypy: 1 known error is not shown"]), f"from a folder below: {got}")
    room.write(**{"a.py": f"z: int = ''\n{WRONG}y: int = ''\n", "d.py": "x: str = 1\n"})
    status, told, said = room.check("--baseline", "known.json")
    other = f"d.py:1: error: {ASSIGNMENT.format('int', 'str')}  [assignment]"
    lines = [*(f"a.py:{line}: {ASSIGNED}" for line in (1, 2, 3)), other]
    last = "Found 4 errors in 2 files (checked 3 source files)"
    tally.judge((status, told) == (1, [*lines, last]), f"new errors: {told}")
    wanted = [f"dmypy: a.py: of 3 errors 2 are known: {TEXT}", "dmypy: 1 known error is not shown"]
    tally.judge(said == wanted, f"new errors with the text of known ones: {said}")
    room.write(**{"a.py": "", "d.py": ""})
    got = room.check("--baseline", "known.json")
    gone = "dmypy: 2 known errors are gone: --write-baseline takes out what is gone"
    said = ["dmypy: 1 known error is not shown", gone]
    tally.judge(got == (0, ["Success: no issues found in 3 source files"], said), f"errors that are gone: {got}")
    room.check("--baseline", "known.json", "--write-baseline", "a.py")
    tally.judge(json.loads(room.read("known.json")) == listed[1:], f"a part is written: {room.read('known.json')}")
    room.write(**{"known.json": "{}x"})
    got = room.check("--baseline", "known.json")
    tally.judge(got == (2, [], ["dmypy: known.json: this is no file of known errors"]), f"another file: {got}")


EDITED = ("a.py", "a.pyi", "a/__init__.py", "a/__init__.pyi", "p/m.py", "p/m.pyi", "__init__.py", "b c.py")
EDITED_TEXTS = ("from p.m import f\nf('')\n", "import src.a\n", "from . import a\nreveal_type(a)\n", WRONG, MODULE)


def edited(room, random):
    """Changes, adds or removes a random file, of those that name one module, too."""
    name = random.choice(["", "src/", "lib/"]) + random.choice(EDITED)
    path = room.folder / name
    if random.random() < 0.4 and path.is_file():
        path.unlink()
        return
    room.write(**{name: f"{random.choice(EDITED_TEXTS)}# {random.random()}\n"})


def edits(room, tally):
    """Over random edits a checker has the report of a new one, the same roots, and the same files that are left out."""
    random = Random(1)
    held = Checker(room.folder, room.program, [])
    layouts_seen = set()
    for number in range(60):
        for _ in range(random.randint(1, 3)):
            edited(room, random)
        files, fresh = stamps(room.folder), Checker(room.folder, room.program, [])
        held.take(files)
        fresh.take(files)
        got, wanted = ((it.report(), it.refused, it.session.layout, it.strays()) for it in (held, fresh))
        fresh.close()
        tally.judge(got == wanted, f"edit {number}: {got}, of a new checker {wanted}")
        layouts_seen.add(wanted[2])
    held.close()
    tally.judge(len(layouts_seen) > 3, f"the layouts that the edits make: {layouts_seen}")


class Watched:
    """A check that goes on, with what it printed on both outputs."""

    def __init__(self, room, *words):
        command = [sys.executable, SCRIPT, "--program", room.program, "--watch", *words]
        how = {"cwd": room.folder, "env": ENVIRONMENT, "stdin": subprocess.DEVNULL}
        self.process = subprocess.Popen(command, stdout=subprocess.PIPE, stderr=subprocess.STDOUT, **how)
        self.text = b""

    def until(self, *wanted):
        """Reads until one of these texts is printed, and returns what was read, or what there is after a while."""
        end = time.monotonic() + SECONDS
        wanted = [it.encode() for it in wanted]
        while not any(it in self.text for it in wanted) and time.monotonic() < end:
            if select.select([self.process.stdout], [], [], 1)[0]:
                chunk = os.read(self.process.stdout.fileno(), 65536)
                if not chunk:
                    break
                self.text += chunk
        text, self.text = self.text.decode(), b""
        return text

    def stop(self):
        """Interrupts it, and returns its status."""
        self.process.send_signal(signal.SIGINT)
        try:
            return self.process.wait(SECONDS)
        finally:
            self.process.kill()
            self.process.wait()
            self.process.stdout.close()


def watch(room, tally):
    """A check that goes on over edits, new files, and settings."""
    room.write(**{"src/pkg/m.py": MODULE, "src/app.py": USE, **MARK})
    watched = Watched(room)
    told = watched.until("source files)\n")
    tally.judge(told == f"src/app.py:3: {CALLED}\n{FOUND.format(2)}\n", f"the first check: {told}")
    room.write(**{"src/pkg/m.py": MODULE.replace("n: int", "n: str").replace("return n", "return 1")})
    told = watched.until("2 source files\n")
    tally.judge(told.endswith("Success: no issues found in 2 source files\n"), f"an edit: {told}")
    room.write(**{"src/new.py": WRONG})
    told = watched.until("source files)\n")
    tally.judge(f"\nsrc/new.py:1: {ASSIGNED}\n{FOUND.format(3)}\n" in f"\n{told}", f"a new file: {told}")
    room.write(**{"pyproject.toml": "[tool.dmypy]\nroots = 'src'\n"})
    told = watched.until("texts\n")
    tally.judge(told.endswith("roots is no list of texts\n"), f"settings that are wrong: {told}")
    room.write(**{"pyproject.toml": "[tool.dmypy]\nroots = ['.']\n"})
    told = watched.until("source files)\n")
    lines = [f"src/app.py:1: {MISSING.format('pkg.m')}", f"src/new.py:1: {ASSIGNED}"]
    tally.judge("\n".join([*lines, "Found 2 errors in 2 files (checked 3 source files)"]) in told, f"settings: {told}")
    (room.folder / "src" / "new.py").unlink()
    room.write(**{"src/app.py": ""})
    told = watched.until("2 source files\n")
    tally.judge(told.endswith("Success: no issues found in 2 source files\n"), f"a file is gone: {told}")
    status = watched.stop()
    tally.judge(status == 0, f"the status of the last check: {status}")


def deaths(room, tally):
    """A session that is killed under --watch begins anew; in a single check it is a fault."""
    number, wrapped = room.folder / "number", room.folder / "wrapped"
    wrapped.write_text(f'#!/bin/sh\necho $$ > "{number}"\nexec "{room.program}" "$@"\n')
    wrapped.chmod(0o755)
    room.write(**{"a.py": WRONG})
    room.program, program = wrapped, room.program
    watched = Watched(room)
    watched.until("source file)\n")
    os.kill(int(number.read_text()), signal.SIGKILL)
    room.write(**{"a.py": "x = 1\n"})
    told = watched.until(f"{CLEAN}\n")
    tally.judge(told.endswith(f"{CLEAN}\n"), f"after it was killed: {told}")
    tally.judge(watched.stop() == 0, "the status")
    question = 'read line; echo "files 0 bodies 0 rechecked 0"; read line && echo ok; [ "$line" = stop ]'
    wrapped.write_text(f"#!/bin/sh\n{question}\n")
    got = room.check()
    tally.judge(got == (2, [], ["dmypy: the session ended"]), f"a session that ends: {got}")
    room.program = program


def progress(room, tally):
    """The line on a terminal, where it takes more than a second."""
    slow = room.folder / "slow"
    slowly = 'while read -r line; do [ "$line" = "status 1" ] && sleep 2; echo "$line"; done'
    slow.write_text(f'#!/bin/sh\n"{room.program}" "$@" | {slowly}\n')
    slow.chmod(0o755)
    room.write(**{"a.py": WRONG})
    for program, wanted in ((room.program, False), (slow, True)):
        ours, theirs = pty.openpty()
        command = [sys.executable, SCRIPT, "--program", program]
        how = {"cwd": room.folder, "stdout": subprocess.PIPE, "stderr": theirs, "timeout": SECONDS, "check": False}
        begun = time.monotonic()
        done = subprocess.run(command, **how)
        is_slow = time.monotonic() - begun > 1
        told = os.read(ours, 65536) if select.select([ours], [], [], 0)[0] else b""
        os.close(theirs)
        os.close(ours)
        tally.judge(done.stdout.decode() == f"a.py:1: {ASSIGNED}\n{ONE}\n", f"the report: {done}")
        is_right = (b"dmypy: 1 file is checked" in told) == wanted or is_slow and not wanted
        tally.judge(is_right, f"the line on a terminal: {told}")
        tally.judge(not told or told.endswith(b"\r"), f"the line is taken away: {told}")


TESTS = (
    *(layouts, roots, words, names, stubs, many, left_out, read_settings, use_settings, programs, outputs, forms),
    *(baseline, edits, watch, deaths, progress),
)


def main():
    program = program_given("Checks small projects.")
    tally = Tally("project")
    judge_in_rooms(TESTS, Room, program, tally, (OSError, subprocess.SubprocessError, ValueError))
    return tally.close()


if __name__ == "__main__":
    sys.exit(main())
