#!/usr/bin/env python3
"""Measures how long the built program takes to check imports.

    bench/imports.py [PROGRAM]

A session adds 1,000 made files and asks several times for a check, through pipes, as an editor does. Each file imports 20
names, each of which leads through up to ten other files to the one that declares it; each check follows all of them anew.
The first check and the median of the others are printed in milliseconds.

Nothing is passed or failed: the numbers depend on the machine. The status is 1 where the program does not answer as it
must.
"""

import statistics
import sys

from programs import Stop
from session import PROGRAM, Session

FILES = 1_000
IMPORTS = 20
DEPTH = 10
CHECKS = 11


def made_file(number):
    """A file of twenty names: the first of each ten files declares them, and each of the others imports them from the
    file before it."""
    level = number % DEPTH
    if level == 0:
        return "".join(f"x{name}: int = {name}\n" for name in range(IMPORTS)).encode()
    return "".join(f"from m{number - 1} import x{name}\n" for name in range(IMPORTS)).encode()


def main(arguments):
    session = Session(arguments[0] if arguments else str(PROGRAM))
    try:
        for number in range(FILES):
            source = made_file(number)
            session.ask(f"add m{number}.py {len(source)}\n".encode() + source, b"ok\n")
        _, first = session.ask(b"check\n", b"status ")
        others = [session.ask(b"check\n", b"status ")[1] for _ in range(CHECKS)]
    except (OSError, Stop) as why:
        print(f"bench: {why}", file=sys.stderr)
        return 1
    finally:
        session.close()
    print(f"{FILES} files, {IMPORTS} imports each: first check {1000 * first:.1f} ms, "
          f"others {1000 * statistics.median(others):.1f} ms")
    return 0


if __name__ == "__main__":
    sys.exit(main(sys.argv[1:]))
