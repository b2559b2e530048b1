#!/usr/bin/env python3
"""Measures how fast `read` of `pyc_lower` makes an abstract tree of a source's bytes, and how much memory that tree holds.

    bench/reading.py [--program PROGRAM] [--rounds ROUNDS] [FOLDER]

The sources are the files below FOLDER that have a tree, each by itself, and those of `bench/parsing.py`: texts of up to 1 MiB
made of such files, and texts that are dense. PROGRAM is built from `bench/reading.rt.txt` (`scripts/by_hand/build.py reading`,
which is called where no PROGRAM is given). It reads a source several times in one thread, and counts the processor time of each
turn alone, first of the reading, from bytes to abstract tree, and then of the removal.

All sources are read in each of several rounds, so that each has its turns in moments that lie apart: the same program was seen
to take up to twice as long from one moment to the next, with nothing else running here. The quickest of a source's turns in all
rounds is taken, which can only get quicker with more rounds. Beside it is told each round by itself, with the quickest of the
round's turns of each source; a single turn is slower still.

Two memories are told, both without the source: the most that the program holds in one turn (VmHWM) less that in a turn with an
empty source; and what it keeps, the abstract tree alone: how much VmHWM grows with each further tree where all are kept.

Nothing is passed or failed: the numbers depend on the machine. The aim is 600,000 lines a second for files, and at most 10
bytes kept for a byte. The status is 1 where the program does not answer as it must.
"""

import argparse
import platform
import subprocess
import sys
import sysconfig
from pathlib import Path
from typing import NamedTuple

from parsing import DENSE, SECONDS, processor, ran, speed, texts_of, trees_of
from programs import Stop, measured_by

KEPT = 5
TURNS = 3


class Turn(NamedTuple):
    """The nanoseconds of a reading and of a removal."""

    formed: int
    removed: int


def quickest(turns):
    return Turn(min(it.formed for it in turns), min(it.removed for it in turns))


class Sources:
    """Sources of one sort, with the quickest turn of each in each round."""

    def __init__(self, what, sources):
        self.what, self.sources, self.rounds = what, sources, []
        self.size, self.lines = sum(map(len, sources)), sum(it.count(b"\n") for it in sources)

    def read(self, program):
        """Reads all in one more round."""
        self.rounds.append([quickest([Turn(*it) for it in ran(program, source, TURNS)[0]]) for source in self.sources])

    def speed_of(self, turns):
        return speed(self.lines, sum(it.formed for it in turns))

    def tell(self):
        """Prints the speed."""
        each = [quickest(turns) for turns in zip(*self.rounds)]
        formed, removed = (sum(part) for part in zip(*each))
        print(f"{self.what}: {len(self.sources)}, {self.size} bytes, {self.lines} lines")
        print(f"  reading  {self.speed_of(each)} lines a second, {1e3 * self.size / formed:.1f} MB a second")
        print(f"  rounds   {' '.join(self.speed_of(turns) for turns in self.rounds)}")
        print(f"  removal  {speed(self.lines, removed)} lines a second", flush=True)


def most_with(program, text, count):
    """The most bytes that the program holds that keeps so many abstract trees of a text."""
    how = {"capture_output": True, "timeout": SECONDS, "check": True}
    rows = subprocess.run([program, str(count), "keep"], input=text, **how).stdout.decode().splitlines()
    held = [1024 * int(row.split()[1]) for row in rows if row.startswith("VmHWM:")]
    if rows[:-1] != ["tree"] * count or len(held) != 1:
        raise Stop(f"{program} {count} keep printed {rows[:2]} for a text of {len(text)} bytes")
    return held[0]


def tell_memory(program, texts, empty):
    """Prints the memory over some texts."""
    held = [ran(program, it, 1)[1] - empty - len(it) for it in texts]
    kept = [(most_with(program, it, KEPT) - most_with(program, it, 1)) // (KEPT - 1) for it in texts]
    for name, found in (("held", held), ("kept", kept)):
        most = max(one / len(it) for one, it in zip(found, texts))
        print(f"  {name}     {sum(found) / sum(map(len, texts)):.1f} bytes a byte of source, at most {most:.1f}", flush=True)


def measure_all(program, folder, rounds):
    print(f"{processor()}, {platform.system()} {platform.release()}, {rounds} rounds of {TURNS} turns a source")
    empty = ran(program, b"", 1)[1]
    paths = trees_of(program, folder)
    texts = Sources("texts of files", texts_of(paths))
    sorts = [Sources("files, each by itself", [path.read_bytes() for path in paths]), texts]
    sorts += [Sources(what, [text]) for what, text in DENSE.items()]
    for _ in range(rounds):
        for sources in sorts:
            sources.read(program)
    for sources in sorts:
        sources.tell()
        if sources is not sorts[0]:
            tell_memory(program, sources.sources, empty)


def main():
    parser = argparse.ArgumentParser(description="Measures the reading of real sources.")
    parser.add_argument("--program", help="the built program that reads sources")
    parser.add_argument("--rounds", type=int, default=12, help="how often all sources are read, 12 where it is not set")
    parser.add_argument("folder", nargs="?", type=Path, default=Path(sysconfig.get_paths()["stdlib"]))
    words = parser.parse_args()
    return measured_by(lambda program, _: measure_all(program, words.folder, words.rounds), "reading", words.program)


if __name__ == "__main__":
    sys.exit(main())
