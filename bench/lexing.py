#!/usr/bin/env python3
"""Measures how fast `pyc_lex` scans, and how much memory its tokens take.

    bench/lexing.py [--program PROGRAM] [FOLDER]

The source is one text: the `.py` files below FOLDER that scan without a fault, one after another in order of their paths,
up to 20 MB; FOLDER is this Python's standard library where none is given. A second text has the most tokens and lines that
so many bytes can have. PROGRAM is built from `bench/tokens.rt.txt` (`scripts/by_hand/build.py tokens`, which is called where no
PROGRAM is given). It scans the text several times in one thread, and times each scan alone, without the reading of the
text. What is printed is the speed by the processor time of all scans, and that of the quickest scan by the clock; on a busy
machine the first is the truer one. The memory is the most that the program holds with one scan, less the bytes of the text.

Nothing is passed or failed: the numbers depend on the machine. The status is 1 where the program does not answer as it
must.
"""

import argparse
import os
import platform
import subprocess
import sys
import sysconfig
import tempfile
from pathlib import Path

from programs import Stop, measured_by

MOST = 20_000_000
SCANS = 15
SECONDS = 120
BYTE_ORDER_MARK = b"\xef\xbb\xbf"


def rows_of(printed):
    """What the program prints for each scan: bytes, logical lines, tokens and nanoseconds; none where there is a fault."""
    rows = [row.split() for row in printed.decode().splitlines()]
    return [tuple(map(int, row)) for row in rows if len(row) == 4 and all(word.isdigit() for word in row)]


def is_clean(program, source):
    done = subprocess.run([program, "1"], input=source, capture_output=True, timeout=SECONDS, check=True)
    return len(rows_of(done.stdout)) == 1


def source_of(program, folder):
    """The text that is scanned, and how many files it is made of."""
    parts, size = [], 0
    for path in sorted(folder.rglob("*.py")):
        part = path.read_bytes()
        if part and size + len(part) < MOST and is_clean(program, part):
            parts.append(part.removeprefix(BYTE_ORDER_MARK) + b"\n")
            size += len(part)
    return b"".join(parts), len(parts)


def scanned(program, file, scans):
    """What the program prints of so many scans of a file, its processor time in seconds, and the most bytes that it holds."""
    with open(file, "rb") as source, tempfile.TemporaryFile() as out:
        process = subprocess.Popen([program, str(scans)], stdin=source, stdout=out)
        _, status, used = os.wait4(process.pid, 0)
        process.returncode = os.waitstatus_to_exitcode(status)
        out.seek(0)
        rows = rows_of(out.read())
    if process.returncode or len(rows) != scans:
        raise Stop(f"{program} {scans} ended with status {process.returncode} after {len(rows)} scans")
    return rows, used.ru_utime + used.ru_stime, 1024 * used.ru_maxrss


def measure(program, file, what):
    """Prints the speed and the memory of the scan of a file."""
    rows, seconds, _ = scanned(program, file, SCANS)
    size, lines, tokens, _ = rows[0]
    seconds -= scanned(program, file, 0)[1]
    memory = scanned(program, file, 1)[2] - size
    print(f"{what}: {size} bytes, {lines} logical lines, {tokens} tokens")
    print(f"  speed   {SCANS * size / seconds / 1e6:.1f} MB a second of processor time, {SCANS} scans")
    print(f"          {1000 * size / min(row[3] for row in rows):.1f} MB a second by the clock, the quickest scan")
    print(f"  memory  {memory / tokens:.1f} bytes a token", flush=True)


def processor():
    for line in Path("/proc/cpuinfo").read_text().splitlines():
        if line.startswith("model name"):
            return line.partition(": ")[2]
    return platform.processor()


def measure_all(program, folder, room):
    source, count = source_of(program, folder)
    print(f"{processor()}, {platform.system()} {platform.release()}")
    for what, text in ((f"{count} files", source), ("one token a line", b"x\n" * 5_000_000)):
        file = room / "source.py"
        file.write_bytes(text)
        measure(program, file, what)


def main():
    parser = argparse.ArgumentParser(description="Measures the scan of real source.")
    parser.add_argument("--program", help="the built program that prints tokens")
    parser.add_argument("folder", nargs="?", type=Path, default=Path(sysconfig.get_paths()["stdlib"]))
    words = parser.parse_args()
    return measured_by(lambda program, room: measure_all(program, words.folder, room), "tokens", words.program)


if __name__ == "__main__":
    sys.exit(main())
