#!/usr/bin/env python3
"""Proves and builds a program of `bench/` over a library of the repository.

    scripts/by_hand/build.py NAME PROGRAM

NAME is that of a program in the table below, `bench/NAME.rt.txt`, and PROGRAM the file to write. The gate takes no crate
that is not listed, and these programs are none of the repository's: each is proved and built in a workspace of its own, in
a temporary folder, beside a copy of the built libraries.
"""

import contextlib
import shutil
import subprocess
import sys
import tempfile
from pathlib import Path

ROOT = Path(__file__).resolve().parents[2]
# each program with the libraries that it names; the first one stands on the others, and is built first
LIBRARIES = {
    "tokens": ["pyc_lex"],
    "outcomes": ["pyc_parse"],
    "trees": ["pyc_lower", "pyc_ast"],
    "reading": ["pyc_lower", "pyc_ast"],
    "assigning": ["pyc_types", "pyc_ast"],
    "types": ["pyc_types"],
    "orders": ["pyc_mro", "pyc_class_ids"],
    "checking": ["pyc_body", "pyc_iface", "pyc_lower", "pyc_names"],
    "classes": ["pyc_class_table", "pyc_ast", "pyc_class_ids", "pyc_builtins"],
}


def rows():
    """The crates of the repository, each with the libraries that it names."""
    lines = [line.partition("#")[0].partition(":") for line in (ROOT / "crates.txt").read_text().splitlines()]
    return {name.strip(): named.split() for name, _, named in lines if name.strip()}


def crates_of(library, named):
    """A library of the repository, and those of the repository below it."""
    found = [library]
    for name in named[library]:
        found += [it for it in crates_of(name, named) if it not in found] if name in named else []
    return found


def made(folder, name):
    """A workspace with the libraries, as they were built, and the program; it may name others beside the first."""
    named = rows()
    library, *beside = LIBRARIES[name]
    crates = crates_of(library, named)
    for crate in crates:
        leave_out = shutil.ignore_patterns("incremental")
        shutil.copytree(ROOT / "crates" / crate, folder / "crates" / crate, ignore=leave_out)
    source = folder / "crates" / name / "src"
    source.mkdir(parents=True)
    shutil.copyfile(ROOT / "bench" / f"{name}.rt.txt", source / "main.rt")
    shutil.copyfile(ROOT / "HANDLES", folder / "HANDLES")
    lines = [f"{crate}: {' '.join(named[crate])}" for crate in crates]
    (folder / "crates.txt").write_text("\n".join([*lines, f"{name}: {' '.join([library, *beside])}", ""]))
    return source.parent


def build(name, program):
    """Proves and builds the library, then the program, into a file."""
    subprocess.run(["rt", "lib"], cwd=ROOT / "crates" / LIBRARIES[name][0], stdout=sys.stderr, check=True)
    with tempfile.TemporaryDirectory(prefix=f"{name}-") as folder:
        crate = made(Path(folder), name)
        subprocess.run(["rt", "run"], cwd=crate, input=b"", stdout=sys.stderr, check=True)
        shutil.copy(crate / "out" / name, program)


@contextlib.contextmanager
def built(name, given):
    """The program of this name: the one that is given, or else one that is built and goes with the `with`."""
    with tempfile.TemporaryDirectory() as room:
        if not given:
            build(name, str(Path(room) / name))
        yield given or str(Path(room) / name)


def main():
    if len(sys.argv) != 3 or sys.argv[1] not in LIBRARIES:
        print(__doc__)
        return 2
    try:
        build(*sys.argv[1:])
    except (OSError, subprocess.CalledProcessError) as why:
        print(f"build: {why}", file=sys.stderr)
        return 1
    return 0


if __name__ == "__main__":
    sys.exit(main())
