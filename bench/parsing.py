#!/usr/bin/env python3
"""Measures how fast `outcome` of `pyc_parse` reads a source, scan and tree, and how much memory it takes.

    bench/parsing.py [--program PROGRAM] [FOLDER]

The sources are texts of up to 1 MiB, which is the most that a file of a session may have: the `.py` files below FOLDER that
have a tree, one after another in order of their paths; FOLDER is this Python's standard library, without its packages,
where none is given. Four further texts of 1 MiB have as many statements, items or operands as bytes can have. PROGRAM is
built from `bench/outcomes.rt.txt` (`scripts/by_hand/build.py outcomes`, which is called where no PROGRAM is given). It reads each
text several times in one thread, and counts the processor time of each alone, first of the outcome and then of its
removal. The quickest of a text's turns is taken. The memory is the most that the program held in one turn (VmHWM), its
source included, less that in a turn with an empty source.

Nothing is passed or failed: the numbers depend on the machine. The status is 1 where the program does not answer as it
must.
"""

import argparse
import platform
import subprocess
import sys
import sysconfig
from pathlib import Path
from typing import NamedTuple

from programs import Stop, measured_by

MOST = 1 << 20
TEXTS = 16
TURNS = 9
SECONDS = 600
BYTE_ORDER_MARK = b"\xef\xbb\xbf"
DENSE = {
    "a name a line": b"x\n" * (MOST // 2),
    "a name an item": b"[" + b"x," * (MOST // 2 - 2) + b"]\n",
    "a call an item": b"[" + b"f()," * (MOST // 4 - 2) + b"]\n",
    "two operands a line": b"x+x\n" * (MOST // 4),
}


class Measured(NamedTuple):
    """The bytes and physical lines of a text, the nanoseconds of its quickest outcome and removal, and the bytes held."""

    size: int
    lines: int
    formed: int
    removed: int
    held: int


def trees_of(program, folder):
    """The files below a folder that have a tree."""
    paths = [path for path in sorted(folder.rglob("*.py")) if path.is_file() and "site-packages" not in path.parts]
    names = "".join(f"{path}\n" for path in paths).encode()
    done = subprocess.run([program], input=names, capture_output=True, timeout=SECONDS, check=True)
    return [path for path, row in zip(paths, done.stdout.split(b"\n")) if row == b"tree"]


def texts_of(paths):
    """Texts of up to 1 MiB that are made of whole files."""
    texts = [b""]
    for path in paths:
        part = path.read_bytes().removeprefix(BYTE_ORDER_MARK) + b"\n"
        if len(texts[-1]) + len(part) <= MOST:
            texts[-1] += part
        elif len(texts) == TEXTS:
            break
        elif len(part) <= MOST:
            texts.append(part)
    return texts


def ran(program, text, turns):
    """The nanoseconds of each outcome and removal of a text, and the most bytes that the program held."""
    how = {"capture_output": True, "timeout": SECONDS, "check": True}
    rows = [row.split() for row in subprocess.run([program, str(turns)], input=text, **how).stdout.decode().splitlines()]
    times = [(int(row[1]), int(row[2])) for row in rows if row[0] == str(len(text))]
    held = [1024 * int(row[1]) for row in rows if row[0] == "VmHWM:"]
    if len(times) != turns or [["tree"]] * turns != [row for row in rows if len(row) == 1] or len(held) != 1:
        raise Stop(f"{program} {turns} printed {rows[:2]} for a text of {len(text)} bytes")
    return times, held[0]


def measured(program, text, empty):
    times, _ = ran(program, text, TURNS)
    formed, removed = min(time[0] for time in times), min(time[1] for time in times)
    return Measured(len(text), text.count(b"\n"), formed, removed, ran(program, text, 1)[1] - empty)


def speed(lines, nanoseconds):
    return f"{1e9 * lines / nanoseconds:,.0f}"


def tell(what, found):
    """Prints the speed and the memory over some texts."""
    size, lines, formed, removed, held = map(sum, zip(*found))
    each = sorted(1e9 * it.lines / it.formed for it in found)
    most = max(it.held / it.size for it in found)
    print(f"{what}: {len(found)} texts, {size} bytes, {lines} lines")
    print(f"  outcome  {speed(lines, formed)} lines a second, {1e3 * size / formed:.1f} MB a second", end="")
    print(f" (slowest text {each[0]:,.0f} lines, quickest {each[-1]:,.0f})")
    print(f"  removal  {speed(lines, removed)} lines a second")
    print(f"  memory   {held / size:.1f} bytes a byte of source, at most {most:.1f}", flush=True)


def processor():
    for line in Path("/proc/cpuinfo").read_text().splitlines():
        if line.startswith("model name"):
            return line.partition(": ")[2]
    return platform.processor()


def measure_all(program, folder):
    print(f"{processor()}, {platform.system()} {platform.release()}, {TURNS} turns a text")
    empty = ran(program, b"", 1)[1]
    tell("files", [measured(program, text, empty) for text in texts_of(trees_of(program, folder))])
    for what, text in DENSE.items():
        tell(what, [measured(program, text, empty)])


def main():
    parser = argparse.ArgumentParser(description="Measures the outcome of real sources.")
    parser.add_argument("--program", help="the built program that prints outcomes")
    parser.add_argument("folder", nargs="?", type=Path, default=Path(sysconfig.get_paths()["stdlib"]))
    words = parser.parse_args()
    return measured_by(lambda program, _: measure_all(program, words.folder), "outcomes", words.program)


if __name__ == "__main__":
    sys.exit(main())
