"""Which `dmypy`: the program is one that answers a session. mypy's daemon has the same name, and answers none.

    find_program(given, folder)    the path of the program, and what was passed over: Found; NoProgram says what was
    version()                      the version of the tools

Where no program is given, these are tried: `$DMYPY`, the program of the checkout or of the installed folder that this
file is in, and those of the PATH: `dmypy-proved`, which is its name in a release, then each `dmypy`.
"""

import os
import shutil
import subprocess
from pathlib import Path
from typing import NamedTuple

from .trouble import Trouble, tell

NAME = "dmypy"
RELEASED = "dmypy-proved"
VARIABLE = "DMYPY"
# the folder that `editors` is in, and where a program lies below it
HOME = Path(__file__).resolve().parents[2]
OWN = ("bin/dmypy", "out/dmypy", "crates/dmypy/out/dmypy")
QUESTION, ANSWER = b"status\nstop\n", b"files 0 bodies 0 rechecked 0\nok\n"
VERSION = HOME / "VERSION"
SECONDS = 10
MISSING = "is not there"


class NoProgram(Trouble):
    """No program was found. The text says what was."""


class Found(NamedTuple):
    """The program, and what was tried before it: each path with what it is."""

    path: str
    passed_over: tuple = ()

    def text(self):
        """Returns a line on the programs that were passed over, empty if there are none."""
        others = "; ".join(f"{path} {what}" for path, what in self.passed_over)
        return f"{self.path} is taken, since {others}" if others else ""


def find_program(given=None, folder="."):
    """Returns the program: the one that is given, seen from a folder if it has a `/`, or else the first of all."""
    tried = []
    for path in dict.fromkeys((on_path(given, folder) or [given]) if given else candidates()):
        what = fault_of(path)
        if not what:
            return Found(path, tuple(tried))
        tried.append((path, what))
    if not given and not shutil.which(NAME):
        tried.append((f"{NAME} on the PATH", MISSING))
    found = "; ".join(f"{path} {what}" for path, what in tried)
    hint = "" if given else f": give --program, or set ${VARIABLE}"
    raise NoProgram(f"no program was found: {found}{hint}")


def program_of(given, settings, folder):
    """Returns the path of the program, and tells what was passed over: the program that is given, else that of the
    project's settings, which is seen from its folder, else the first of all."""
    found = find_program(given or settings.program, "." if given else folder)
    tell(*filter(None, [found.text()]))
    return found.path


def candidates():
    """Returns the paths of programs that are tried, the best first."""
    own = [str(HOME / path) for path in OWN if (HOME / path).is_file()]
    variable = os.environ.get(VARIABLE)
    named = (on_path(variable, ".") or [variable]) if variable else []
    return [*named, *own, *on_path(RELEASED, "."), *on_path(NAME, ".")]


def on_path(name, folder):
    """Returns the paths that a program's name may mean: one if it has a `/`, else those of files on the PATH."""
    if os.sep in name:
        return [os.path.abspath(os.path.join(folder, name))]
    folders = [os.path.abspath(it) for it in os.environ.get("PATH", os.defpath).split(os.pathsep) if it]
    found = [os.path.join(it, name) for it in folders]
    return [it for it in found if os.path.isfile(it)]


def fault_of(path):
    """Returns what a program is that answers no session, or an empty text."""
    if os.sep not in path or not os.path.isfile(path):
        return MISSING
    how = {"stdout": subprocess.PIPE, "stderr": subprocess.DEVNULL, "timeout": SECONDS, "check": False}
    try:
        done = subprocess.run([path, "session"], input=QUESTION, **how)
    except OSError as why:
        return f"cannot be started: {why.strerror}"
    except subprocess.TimeoutExpired:
        return f"does not answer in {SECONDS} seconds"
    if (done.stdout, done.returncode) == (ANSWER, 0):
        return ""
    return "is another program, as mypy's daemon is: it answers no session"


def version():
    """Returns the version of the tools."""
    return VERSION.read_text(encoding="utf-8").strip() if VERSION.is_file() else "without a version"
