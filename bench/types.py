#!/usr/bin/env python3
"""Measures how long copies of a type and tests of assignability take.

    bench/types.py [--program PROGRAM]

PROGRAM copies `dict[str, list[int]]`, each copy dropped at once, or asks whether `int` is assignable to `float | None`, as
often as its words say. It is built from `bench/types.rt.txt` where none is given (`scripts/by_hand/build.py types`, which
takes minutes). Each is done 1,000,000 times in one thread, in several runs of the program. What is counted is the processor
time of the run; that of the quickest run that does it no times is taken off that of the quickest that does.

Nothing is passed or failed: the numbers depend on the machine. The aim is 50 ms for each. The status is 1 where the program
does not answer as it must.
"""

import argparse
import resource
import subprocess
import sys

from parsing import SECONDS, processor
from programs import Stop, measured_by

TIMES = 1_000_000
TURNS = 15
DONE = {"copy": "copies of dict[str, list[int]]", "test": "tests of int against float | None"}


def children_seconds():
    """The processor time of all programs that were run."""
    used = resource.getrusage(resource.RUSAGE_CHILDREN)
    return used.ru_utime + used.ru_stime


def ran(program, what, times):
    """The seconds of processor time that one run takes."""
    before = children_seconds()
    done = subprocess.run([program, what, str(times)], capture_output=True, timeout=SECONDS, check=True)
    if done.stdout.decode() != f"{times}\n":
        raise Stop(f"{program} {what} {times} printed {done.stdout!r}")
    return children_seconds() - before


def measure(program):
    print(f"{processor()}, the quickest of {TURNS} runs")
    for what, told in DONE.items():
        times = [ran(program, what, TIMES) for _ in range(TURNS)]
        empty = [ran(program, what, 0) for _ in range(TURNS)]
        print(f"{TIMES:,} {told}: {1e3 * (min(times) - min(empty)):.1f} ms", end=" ")
        print(f"(of {1e3 * min(times):.1f} ms, {1e3 * min(empty):.1f} ms of them for none)", flush=True)


def main():
    parser = argparse.ArgumentParser(description="Measures copies of types and tests of assignability.")
    parser.add_argument("--program", help="the built program that copies and tests")
    words = parser.parse_args()
    return measured_by(lambda program, _: measure(program), "types", words.program)


if __name__ == "__main__":
    sys.exit(main())
