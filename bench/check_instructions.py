#!/usr/bin/env python3
"""Measures how many instructions a check takes, the first and those after edits, by callgrind.

    bench/check_instructions.py [--program PROGRAM] [--files COUNT] [--jobs JOBS]

A session adds the files of workspace.py, 1,021 where no other number is given, and checks them; then it makes one edit and
checks again, and of this it counts the second check alone: the session is run with it and without it. The edits are none,
another body, a signature that one file reads, a method in the class at the root, a file that is added, a module that is
removed, and a signature that all files read. What is printed is the number of instructions in millions, that of the units
that were examined, and that of messages.

Nothing is passed or failed. With 1,021 files each of the sixteen runs takes a minute or more, and 1 GB at most. The status is
1 where the program does not answer as it must.
"""

import re
import sys

from instructions import MILLION, Counter, put, words_given
from programs import Stop, status_of
from workspace import edits, files

FILES = 1_021
REPLY = re.compile(rb"(?:Found (\d+) errors? in .*|Success: .*)\nstatus [01]\nfiles \d+ bodies \d+ rechecked (\d+)\n\Z")


def last_check(counter, before):
    """Has the check counted that comes after these commands, and gives what answers with the line on it."""
    with_check, without = counter.ask(before + b"check\nstatus\n"), counter.ask(before)

    def line():
        (most, printed), (least, _) = with_check.result(), without.result()
        found = REPLY.search(printed)
        if not found:
            raise Stop(f"a check was answered {printed[-200:]!r}")
        return f"{(most - least) / MILLION:10.2f} M, {int(found[2])} units examined, {int(found[1] or 0)} errors"

    return line


def measure(counter, count):
    """Counts all checks of so many files, and prints them."""
    adds = b"".join(put("add", path, text) for path, text in files(count).items())
    lines = [("the first check", last_check(counter, adds))]
    lines += [(edit.name, last_check(counter, adds + b"check\n" + edit.commands)) for edit in edits(count)]
    print(f"{count} files, {len(adds)} bytes", flush=True)
    for name, line in lines:
        print(f"  {name:36} {line()}", flush=True)


def main():
    words = words_given("Measures how many instructions checks take.")
    words.add_argument("--files", type=int, default=FILES, help="how many files there are")
    given = words.parse_args()
    return status_of(lambda: measure(Counter(given.program.resolve(), given.jobs), given.files))


if __name__ == "__main__":
    sys.exit(main())
