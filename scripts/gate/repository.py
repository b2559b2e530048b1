"""The repository's crates, and the kit that checks them."""

import re
import shutil
import subprocess
from pathlib import Path

ROOT = Path(__file__).resolve().parents[2]
KIT = Path(shutil.which("rt")).resolve().parents[1]
PARTS = ("src", "specs", "proofs")
ROOM = re.compile(r"# (\w+)")
# how ARCHITECTURE.md says which crates a change proves again
ABOVE = re.compile(r"`(\w+)` and (\d+) above")


def listed(root=ROOT):
    """Returns the lines of crates.txt: each crate with its room, or None before the first, and the libraries it names."""
    found, room = [], None
    for line in (root / "crates.txt").read_text(encoding="utf-8").splitlines():
        begun = ROOM.fullmatch(line)
        room = begun[1] if begun else room
        name, colon, uses = line.partition("#")[0].partition(":")
        found += [(name.strip(), room, uses.split())] if colon else []
    return found


def libraries(root=ROOT):
    """Returns the libraries that each crate stands on, by crates.txt."""
    return {name: uses for name, _, uses in listed(root)}


def below(known, name):
    """Returns the repository's crates below a crate, each after those that it stands on."""
    found = {}

    def visit(crate):
        for it in known[crate]:
            if it in known and it not in found:
                visit(it)
                found[it] = None

    visit(name)
    return [*found]


def above(known, name):
    """Returns the repository's crates that stand on a crate, in the order of crates.txt, those of tests left out."""
    return [it for it in known if name in below(known, it) and not it.endswith("tests")]


def ask_git(root, *words):
    """Returns the lines that git answers, none where it does not."""
    command = ["git", "-c", "safe.directory=*", "-c", "core.quotePath=false", "-C", str(root), *words]
    try:
        ran = subprocess.run(command, stdin=subprocess.DEVNULL, capture_output=True, text=True, errors="replace", check=False)
    except OSError:
        return []
    return ran.stdout.splitlines() if ran.returncode == 0 else []


def last_changes(root=ROOT):
    """Returns when git last changed each crate, in seconds: what is not committed is as if it came after all."""
    found = {}
    for line in ask_git(root, "status", "--porcelain", "--", "crates"):
        found[crate_of(line[3:])] = float("inf")
    seconds = 0.0
    for line in ask_git(root, "log", "--format=@%ct", "--name-only", "--", "crates"):
        if line.startswith("@"):
            seconds = float(line[1:])
        elif line:
            found.setdefault(crate_of(line), seconds)
    return found


def crate_of(path):
    """Returns the crate that a path of the repository, crates/NAME/.., is in."""
    return path.strip('"').partition("crates/")[2].partition("/")[0]
