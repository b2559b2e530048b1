#!/usr/bin/env python3
"""Measures how what a check costs grows with its source, over families of hostile sources, by callgrind.

    bench/hostile.py [--program PROGRAM] [--only NAME] [--jobs JOBS] [--times NUMBER]

hostile_sources.py makes the families. Of each the sources of a size and of twice that size are checked in a session, and what
is printed is the bytes of both sessions, the instructions of both in millions, how many times as many the second takes, and
how many times as much it prints. A cost that grows as its source does takes twice as many; the aim is at most 2.3 times as
many, or as much more as is printed. A family past that aim has a star. `--times` makes all sizes so many times as large.

Nothing is passed or failed. The status is 1 where the program does not answer.
"""

import sys

from hostile_sources import FAMILIES
from instructions import MILLION, Counter, words_given
from programs import status_of

MOST = 2.3


def measure(family, counter, size):
    """Has a family counted at a size and at twice that size, and gives what answers with the line on it."""
    sessions = [family.session(size), family.session(2 * size)]
    runs = [counter.ask(session) for session in sessions]

    def line():
        (one, printed), (two, more) = (run.result() for run in runs)
        cost, text = two / one, len(more) / len(printed)
        sizes = "{:>9} {:>9}".format(*map(len, sessions))
        mark = "*" if cost > max(MOST, text) else ""
        return f"{size:6} {sizes} {one / MILLION:9.1f} {two / MILLION:9.1f} {cost:6.2f} {text:6.2f} {mark}"

    return line


def measure_all(families, counter, times):
    """Counts families, and prints a line on each."""
    print(f"{'':40} {'size':>6} {'bytes':>9} {'twice':>9} {'M':>9} {'twice':>9} {'cost':>6} {'text':>6}", flush=True)
    for family, line in [(family, measure(family, counter, times * family.size)) for family in families]:
        print(f"{family.name:40} {line()}", flush=True)


def main():
    words = words_given("Measures how what a check costs grows with its source.")
    words.add_argument("--only", default="", help="the families whose names have this in them")
    words.add_argument("--times", type=int, default=1, help="how many times as large the sources are")
    given = words.parse_args()
    families = [family for family in FAMILIES if given.only in family.name]
    return status_of(lambda: measure_all(families, Counter(given.program.resolve(), given.jobs), given.times))


if __name__ == "__main__":
    sys.exit(main())
