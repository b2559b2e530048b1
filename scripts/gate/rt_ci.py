#!/usr/bin/env python3
"""Runs `rt ci` with the libraries below each crate remembered.

    scripts/gate/rt_ci.py [--anew] [NAME..]

The words are those of `rt ci`. It asks each crate for the libraries below it, and works these out anew for each library
on each way down: over the crates of this repository that takes it minutes before the first proof. Here its own program
runs, and each crate's libraries are worked out once. Where the kit's text of that method is another than the one below,
`rt ci` runs as it is, and a line says so.
"""

import functools
import importlib.machinery
import importlib.util
import inspect
import os
import shutil
import sys
import textwrap
from pathlib import Path

BELOW = '''\
def below(self):
    """Returns the repository's libraries below this crate, each after those that it uses."""
    found = []
    for dep in self.deps:
        found += [it for it in [*dep.below(), dep] if it not in found]
    return found
'''


def program():
    """Loads the kit's program `rt`, and does not run it."""
    sys.dont_write_bytecode = True
    path = str(Path(shutil.which("rt")).resolve())
    loader = importlib.machinery.SourceFileLoader("rt", path)
    made = importlib.util.module_from_spec(importlib.util.spec_from_loader("rt", loader))
    loader.exec_module(made)
    return made


def remembered(below):
    """The method `below` with each crate's answer worked out once. Each call gets a list of its own."""
    known = functools.lru_cache(maxsize=None)(lambda crate: tuple(below(crate)))
    return lambda crate: list(known(crate))


def known_program():
    """The kit's program with the method replaced, or None where its text is not the known one."""
    try:
        rt = program()
        crate = rt.rtlib.Crate
        if textwrap.dedent(inspect.getsource(crate.below)) != BELOW or "below" in vars(rt.Crate):
            return None
    except (AttributeError, ImportError, OSError, SyntaxError, TypeError):
        return None
    crate.below = remembered(crate.below)
    return rt


def main():
    words = ["ci", *sys.argv[1:]]
    rt = known_program()
    if rt is None:
        print("rt_ci: this kit works out a crate's libraries by another text: rt ci runs as it is", flush=True)
        os.execvp("rt", ["rt", *words])
    return rt.main(words)


if __name__ == "__main__":
    sys.exit(main())
