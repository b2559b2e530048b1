#!/usr/bin/env python3
"""Commits to small repositories with the commit hook, scripts/check_index.py.

    scripts/gate/hooks.py [--program PROGRAM]

Ends with the line `hooks: P passed, F failed`, and with status 0 or 1.
"""

import os
import re
import subprocess
import sys

from judging import Tally, judge_in_rooms, program_given
from repository import ROOT
from small_repository import SmallRepository

HOOK = ROOT / "scripts" / "check_index.py"
LISTED = ROOT / ".pre-commit-hooks.yaml"
GOOD = "def price(net: float) -> float:\n    return net\n"
SHOP = "from prices import price\n\ntotal: float = price(1)\n"
BAD = "def price(net: str) -> float:\n    return 1\n"
TOLD = 'shop.py:3: error: Argument 1 to "price" has incompatible type "int"; expected "str"  [arg-type]\n'
WRONG = 'x: int = ""\n'
ASSIGNED = 'error: Incompatible types in assignment (expression has type "str", variable has type "int")  [assignment]'


class Hooked(SmallRepository):
    """A repository whose commits are checked."""

    def __init__(self, folder, program):
        super().__init__(folder, program)
        self.git("init", "-q")
        self.commit(**{"prices.py": GOOD, "shop.py": SHOP})
        self.hook()

    def hook(self, *left_out, program=None, options=(), variables=None):
        """Sets the hook, with options, with files that are left out, and with variables of its own."""
        command = (sys.executable, HOOK, "--program", program or self.program, *options, "--", *left_out)
        words = " ".join(f"'{word}'" for word in command)
        path = self.folder / ".git" / "hooks" / "pre-commit"
        path.parent.mkdir(exist_ok=True)
        lines = [f"export {name}='{value}'" for name, value in (variables or {}).items()]
        path.write_text("\n".join(["#!/bin/sh", *lines, f"exec {words}\n"]))
        path.chmod(0o755)

    def try_commit(self, *words, inside="."):
        """Tries to commit. Returns whether it was committed, and what the hook said."""
        done = self.run("git", "commit", "-q", "-m", "another", *words, inside=inside)
        return done.returncode == 0, done.stderr.decode(errors="backslashreplace")

    def reset(self):
        """Goes back to the last commit."""
        self.git("reset", "-q", "--hard")


def contents(room, tally):
    """What is staged is checked, and not what lies in the work tree."""
    room.write(**{"prices.py": BAD})
    is_committed, said = room.try_commit("-a")
    tally.judge(not is_committed and said.startswith(TOLD), f"an error in another file: {said}")
    room.git("add", "-A")
    room.write(**{"prices.py": GOOD})
    tally.judge(not room.try_commit()[0], "wrong in the index, right on the disk")
    room.git("add", "-A")
    room.write(**{"prices.py": BAD, "new.py": "x: int = 1\n", "unstaged.py": WRONG})
    room.git("add", "new.py")
    tally.judge(room.try_commit()[0], "right in the index, wrong on the disk")
    room.reset()
    (room.folder / "prices.py").unlink()
    room.write(**{"new.py": "x: int = 2\n"})
    room.git("add", "new.py")
    tally.judge(room.try_commit()[0], "a file that is deleted on the disk alone")
    room.reset()
    room.write(**{"prices.py": BAD, "new.py": "x: int = 3\n"})
    room.git("add", "prices.py")
    tally.judge(room.try_commit("new.py")[0], "a commit of one file, with an error in what is staged beside it")
    tally.judge(not room.try_commit()[0], "the commit of the rest")
    room.reset()
    room.write(**{"new.py": WRONG, "sub/a.py": "x: int = 1\n"})
    room.git("add", "sub/a.py")
    tally.judge(room.try_commit(inside="sub")[0], "a commit from a folder below")
    is_committed, said = room.try_commit("-a", "--amend", inside="sub")
    tally.judge(not is_committed and said.startswith(f"new.py:1: {ASSIGNED}"), f"amending from a folder below: {said}")


def names(room, tally):
    """Renames, deletions, and names of all kinds."""
    room.git("mv", "prices.py", "costs.py")
    tally.judge(not room.try_commit()[0], "a module is renamed")
    room.write(**{"shop.py": SHOP.replace("prices", "costs")})
    tally.judge(room.try_commit("-a")[0], "a module is renamed where it is imported, too")
    room.git("rm", "-q", "costs.py")
    tally.judge(not room.try_commit()[0], "a module is deleted")
    room.git("rm", "-q", "shop.py")
    tally.judge(room.try_commit()[0], "all is deleted")
    room.write(**{"caf\u00e9.py": WRONG})
    room.git("add", "-A")
    is_committed, said = room.try_commit()
    tally.judge(not is_committed and said.startswith(f"caf\u00e9.py:1: {ASSIGNED}"), f"letters beyond ASCII: {said}")
    room.git("rm", "-q", "-f", "caf\u00e9.py")
    room.write(**{"my file.py": WRONG, "line\nend.py": WRONG, "a.py": "x: int = 1\n", "b.pyi": WRONG})
    (room.folder / os.fsdecode(b"caf\xe9.py")).write_text(WRONG)
    room.git("add", "-A")
    is_committed, said = room.try_commit()
    wanted = [f"{name}:1: {ASSIGNED}" for name in ("b.pyi", "caf\\udce9.py", "line\\nend.py", "my file.py")]
    last = "Found 4 errors in 4 files (checked 5 source files)"
    is_right = (is_committed, said.splitlines()) == (False, [*wanted, last])
    tally.judge(is_right, f"names that a session does not take: {said}")


def stubs(room, tally):
    """A stub is checked in place of the file beside it, where it is staged."""
    room.write(**{"prices.pyi": "def price(net: str) -> float: ...\n", "new.py": "x: int = 1\n"})
    room.git("add", "new.py")
    tally.judge(room.try_commit()[0], "a stub that is not staged")
    room.git("add", "prices.pyi")
    is_committed, said = room.try_commit()
    last = "Found 1 error in 1 file (checked 3 source files)\n"
    tally.judge((is_committed, said) == (False, TOLD + last), f"a stub that is staged: {said}")
    room.write(**{"prices.pyi": "def price(net: float) -> float: ...\n", "prices.py": WRONG})
    room.git("add", "-A")
    tally.judge(room.try_commit()[0], "an error in the file beside a stub")
    room.git("rm", "-q", "prices.pyi")
    is_committed, said = room.try_commit()
    tally.judge(not is_committed and said.startswith(f"prices.py:1: {ASSIGNED}"), f"the stub is deleted: {said}")


def left_out(room, tally):
    """Files and folders that are left out, and a program that is not there."""
    room.write(**{"old/walrus.py": "if (n := 1):\n    pass\n", "docs/a.py": WRONG, "docs/b/c.py": WRONG})
    room.git("add", "-A")
    tally.judge(not room.try_commit()[0], "files with errors")
    room.hook("old/walrus.py")
    tally.judge(not room.try_commit()[0], "one of them is left out")
    room.hook("old/walrus.py", "docs")
    tally.judge(room.try_commit()[0], "all of them are left out")
    room.hook(program="/nowhere/dmypy")
    room.write(**{"a.py": "x: int = 1\n"})
    room.git("add", "-A")
    is_committed, said = room.try_commit()
    wanted = "dmypy: no program was found: /nowhere/dmypy is not there\n"
    tally.judge((is_committed, said) == (False, wanted), f"no program: {said}")
    room.git("rm", "-q", "-r", "--cached", ".")
    room.hook()
    tally.judge(room.try_commit()[0], "no file at all")


def layouts(room, tally):
    """Paths as imports see them, and what pyproject.toml says: both as they are staged."""
    wrong = 'from pkg.prices import price\n\ntotal: str = price(1)\n'
    told = ASSIGNED.replace('"str", variable has type "int"', '"float", variable has type "str"')
    room.write(**{"src/pkg/prices.py": GOOD, "src/pkg/shop.py": wrong, "lib/tools.py": "from tool import price\n"})
    room.git("add", "-A")
    is_committed, said = room.try_commit()
    missing = 'error: Cannot find implementation or library stub for module named "tool"  [import-not-found]'
    lines = [f"src/pkg/shop.py:3: {told}", f"lib/tools.py:1: {missing}"]
    tally.judge((is_committed, said.splitlines()[:2]) == (False, lines), f"src and lib are roots: {said}")
    room.write(**{"lib/tools.py": "from tools.prices import price\n", "py/tools/prices.py": GOOD})
    room.write(**{"pyproject.toml": "[tool.dmypy]\nroots = ['py']\nexclude = ['lib', 'shop.py']\n"})
    room.git("add", "-A")
    room.write(**{"py/a.py": "from tools.prices import price\nx: str = price(1)\n"})
    room.git("add", "py/a.py")
    room.write(**{"pyproject.toml": "[tool.dmypy]\nroots = 'src'\n"})
    is_committed, said = room.try_commit()
    lines = [f"py/a.py:2: {told}", "Found 1 error in 1 file (checked 4 source files)"]
    tally.judge((is_committed, said.splitlines()) == (False, lines), f"the settings that are staged: {said}")
    room.git("rm", "-q", "-f", "--cached", "pyproject.toml")
    is_committed, said = room.try_commit()
    wanted = f"dmypy: {room.folder / 'pyproject.toml'}: [tool.dmypy]: roots is no list of texts\n"
    tally.judge((is_committed, said) == (False, wanted), f"the settings that are not staged: {said}")


def inner_project(room, tally):
    """A project in a folder of the repository."""
    told = ASSIGNED.replace('"str", variable has type "int"', '"float", variable has type "str"')
    room.write(**{"prices.py": BAD, "back/src/pkg/prices.py": GOOD})
    room.write(**{"back/pyproject.toml": "[tool.dmypy]\nexclude = ['old']\n"})
    room.write(**{"back/app.py": "from pkg.prices import price\nx: str = price(1)\n", "back/old/a.py": WRONG})
    room.write(**{"known.json": "[]\n", "front/a.py": WRONG})
    room.git("add", "-A")
    room.hook(options=("--root", "./back/", "--baseline", "known.json"))
    is_committed, said = room.try_commit()
    lines = [f"back/app.py:2: {told}", "Found 1 error in 1 file (checked 2 source files)"]
    tally.judge((is_committed, said.splitlines()) == (False, lines), f"a folder of the repository: {said}")
    room.script("check_project.py", "--root", "back", "--baseline", "known.json", "--write-baseline")
    room.git("add", "known.json")
    is_committed, said = room.try_commit()
    tally.judge(is_committed and "dmypy: 1 known error is not shown\n" in said, f"its known errors: {said}")


def known(room, tally):
    """Files with forms that are left out, and known errors."""
    walrus = "old/walrus.py:1: note: dmypy leaves out `:=`, so nothing in this file is checked: "
    instead = "assign the name in a statement of its own\n"
    room.write(**{"old/walrus.py": "if (n := 1):\n    pass\n"})
    room.git("add", "-A")
    is_committed, said = room.try_commit()
    lines = f"old/walrus.py:1: error: Outside the profile  [syntax]\n{walrus}{instead}"
    tally.judge(not is_committed and said.startswith(lines), f"a form that is left out: {said}")
    room.hook(options=("--opaque", "skip"))
    is_committed, said = room.try_commit()
    tally.judge(is_committed and said.startswith(walrus + instead), f"a file with such a form is skipped: {said}")
    room.write(**{"bad.py": WRONG, "known.json": "[]\n"})
    room.git("add", "-A")
    room.hook(options=("--opaque", "skip", "--baseline", "known.json"))
    tally.judge(not room.try_commit()[0], "an error that is not known")
    done = room.script("check_project.py", "--baseline", "known.json", "--write-baseline", "bad.py")
    tally.judge((done.returncode, done.stdout) == (0, b""), f"the error is made known: {done}")
    tally.judge(not room.try_commit()[0], "what is known is not staged")
    room.git("add", "-A")
    is_committed, said = room.try_commit()
    tally.judge(is_committed and "dmypy: 1 known error is not shown\n" in said, f"an error that is known: {said}")


def other_program(room, tally):
    """A program of the same name that is another one, as mypy's daemon is."""
    other, own = room.folder / "other" / "dmypy", room.folder / "own" / "dmypy"
    for path, text in ((other, "#!/bin/sh\nexit 2\n"), (own, f'#!/bin/sh\nexec "{room.program}" "$@"\n')):
        path.parent.mkdir()
        path.write_text(text)
        path.chmod(0o755)
    what = "is another program, as mypy's daemon is: it answers no session"
    room.write(**{"new.py": "x: int = 1\n"})
    room.git("add", "new.py")
    room.hook(program=other)
    is_committed, said = room.try_commit()
    tally.judge((is_committed, said) == (False, f"dmypy: no program was found: {other} {what}\n"), f"another: {said}")
    room.hook(program="dmypy", variables={"PATH": f"{other.parent}:{own.parent}:/usr/bin:/bin"})
    is_committed, said = room.try_commit()
    lines = [f"dmypy: {own} is taken, since {other} {what}", "Success: no issues found in 3 source files"]
    tally.judge((is_committed, sorted(said.splitlines())) == (True, sorted(lines)), f"the next on the PATH: {said}")


def listed(room, tally):
    """The hooks that pre-commit is told of."""
    entries = re.split(r"(?m)^- ", LISTED.read_text(encoding="utf-8"))[1:]
    hooks = {it["id"]: it for it in (dict(line.strip().split(": ", 1) for line in it.splitlines()) for it in entries)}
    wanted = {"dmypy": HOOK, "dmypy-project": HOOK.with_name("check_project.py")}
    tally.judge(hooks.keys() == wanted.keys(), f"the hooks: {[*hooks]}")
    for name, fields in hooks.items():
        entry = ROOT / fields["entry"]
        tally.judge(entry == wanted[name] and os.access(entry, os.X_OK), f"the entry: {fields['entry']}")
        how = [fields[it] for it in ("language", "pass_filenames", "always_run")]
        tally.judge(how == ["script", "false", "true"], f"the hook: {fields}")
        room.write(**{"new.py": "x: int = 1\n"})
        done = room.run(entry, "--program", room.program)
        tally.judge(done.returncode == 0 and b"Success: " in done.stdout, f"{name} on what is right: {done}")
        room.write(**{"new.py": WRONG})
        room.git("add", "-A")
        done = room.run(entry, "--program", room.program)
        is_right = done.returncode == 1 and done.stdout.startswith(f"new.py:1: {ASSIGNED}".encode())
        tally.judge(is_right, f"{name} on what is wrong: {done}")
        room.git("rm", "-q", "-f", "new.py")
    # (in a second work tree git tells a hook where its folder is, and not where the files are)
    room.git("worktree", "add", "-q", "--detach", "other")
    room.write(**{"other/.gitignore": "ignored.py\n", "other/inner/setup.cfg": "", "other/inner/a.py": WRONG})
    room.write(**{"other/inner/ignored.py": WRONG})
    hook = room.folder / ".git" / "hooks" / "pre-commit"
    command = (sys.executable, wanted["dmypy-project"], "--program", room.program, "inner")
    hook.write_text("#!/bin/sh\nexec " + " ".join(f"'{word}'" for word in command) + "\n")
    is_committed, said = room.try_commit("--allow-empty", inside="other")
    lines = [f"inner/a.py:1: {ASSIGNED}", "Found 1 error in 1 file (checked 1 source file)"]
    tally.judge((is_committed, said.splitlines()) == (False, lines), f"the work tree in a hook of git: {said}")


TESTS = (contents, names, stubs, left_out, layouts, inner_project, known, other_program, listed)


def main():
    program = program_given("Commits to small repositories with the commit hook.")
    tally = Tally("hooks")
    judge_in_rooms(TESTS, Hooked, program, tally, (OSError, subprocess.SubprocessError))
    return tally.close()


if __name__ == "__main__":
    sys.exit(main())
