#!/usr/bin/env python3
"""Looks whether the program calls each function of the crates, or a list gives the reason why it stands there.

    scripts/gate/check_uncalled.py

The program calls what a way of calls from `main` reaches, as calls.py finds calls by names and by types of receivers: it
may take a function for called that is not. Each method that a trait of the standard library asks of a type counts as
called, as the formatting of a type does. A law counts, too: a function without parameters, result and steps, which is
stated and never run. The attic of crates.txt is left out: it has laws and tests alone, and no other crate names it.

The list is uncalled.txt: a line has the path of a function and its reason, a colon between them. What these functions
call has its reason with them. A line fails that names no function, or one that the program calls. The last line is
`N passed, M failed`, over the functions and the lines.
"""

import sys
from pathlib import Path

from calls import Calls, Program
from rattle_code import Reader
from repository import ROOT

LIST = Path(__file__).with_name("uncalled.txt")


def crates():
    """Returns the names of the crates outside the attic."""
    before = (ROOT / "crates.txt").read_text(encoding="utf-8").split("\n# attic\n")[0]
    lines = [it.partition("#")[0].partition(":")[0].strip() for it in before.splitlines()]
    return [it for it in lines if it]


def read(crate):
    """Returns what each file of a crate declares."""
    folder = ROOT / "crates" / crate
    files = sorted(folder.glob("src/**/*.rt"))
    return [Reader(crate, str(it.relative_to(folder)), it.read_text(encoding="utf-8")).read() for it in files]


def reached(program, begun):
    """Returns the functions that some functions call, on any way, with these. A trait's method calls each type's."""
    found, left = {id(it): it for it in begun}, [*begun]
    while left:
        caller = left.pop()
        typed = program.methods[caller.trait, caller.name] if caller.trait and not caller.kind else []
        for it in [*typed, *Calls(program, caller).read()]:
            if id(it) not in found:
                found[id(it)] = it
                left.append(it)
    return found


def is_law(it):
    """Whether a function is a law: it has no parameters, no result and no steps."""
    return not it.parameters and not it.result and it.body == ["{", "}"]


def listed():
    """Returns the path and the reason of each line of the list."""
    lines = LIST.read_text(encoding="utf-8").splitlines()
    parts = [it.partition(": ") for it in lines if it.strip() and not it.startswith("#")]
    return {path.strip(): reason.strip() for path, _, reason in parts}


def main():
    sources = [source for crate in crates() for source in read(crate)]
    functions = [it for source in sources for it in source.functions]
    program, reasons = Program(sources), listed()
    foreign = [it for it in functions if it.kind and it.trait and it.trait not in program.traits]
    called = reached(program, [it for it in functions if it.path() == "dmypy::main" or is_law(it)] + foreign)
    named = [it for it in functions if it.path() in reasons and id(it) not in called]
    known = reached(program, [*called.values(), *named])
    dead = [it for it in functions if id(it) not in known]
    why = f"strike it, or give its reason in {LIST.name}"
    faults = [f"{it.place()}: the program does not call {it.path()}: {why}" for it in dead]
    paths = {it.path() for it in named}
    faults += [f"{LIST.name}: {it}: the program calls it, or it is no function" for it in reasons if it not in paths]
    faults += [f"{LIST.name}: {it}: it has no reason" for it, reason in reasons.items() if not reason]
    print(*faults, sep="\n", end="\n" if faults else "")
    print(f"{len(functions) + len(reasons) - len(faults)} passed, {len(faults)} failed")
    return 1 if faults else 0


if __name__ == "__main__":
    sys.exit(main())
