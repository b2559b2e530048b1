#!/usr/bin/env python3
"""Prints what a change of a crate concerns: the crates that are proved again, and its doors.

    scripts/above.py CRATE
    scripts/above.py --write

A crate that changes is proved again, and with it each crate that stands on it, itself or through others, by the lists
of crates.txt. The crates of tests are left out: the gate runs their tests, and proves none of them. The doors of a crate
are its public names that crates of other rooms import, each with these crates.

With --write the numbers of the last column of ARCHITECTURE.md's table of changes are set anew.
"""

import sys
from collections import defaultdict
from pathlib import Path

sys.path.insert(0, str(Path(__file__).resolve().parent / "gate"))

from rattle_code import Reader  # noqa: E402
from repository import ABOVE, ROOT, above, libraries, listed  # noqa: E402


def doors(crate):
    """Returns each name of a crate that crates of other rooms import, with these crates."""
    room_of, found = {name: room for name, room, _ in listed()}, defaultdict(set)
    for path in sorted(ROOT.glob("crates/*/src/**/*.rt")):
        other = path.relative_to(ROOT).parts[1]
        if room_of.get(other, "attic") not in (room_of[crate], "attic"):
            uses = Reader(other, path.name, path.read_text(encoding="utf-8")).read().uses
            for name in (it[1] for it in uses.values() if it[0] == crate and len(it) > 1):
                found[name].add(other)
    return found


def show(crate):
    """Prints what a change of a crate concerns."""
    room_of, proved = {name: room for name, room, _ in listed()}, [crate, *above(libraries(), crate)]
    print(f"proved again: {len(proved)}, {crate} and {len(proved) - 1} above it")
    for room in dict.fromkeys(room_of[it] for it in proved):
        print(f"    {room}: {' '.join(it for it in proved if room_of[it] == room)}")
    found = doors(crate)
    print(f"doors: {len(found)}")
    for name in sorted(found):
        print(f"    {name}: {' '.join(sorted(found[name]))}")


def write():
    """Sets the numbers of ARCHITECTURE.md anew."""
    page, known = ROOT / "docs" / "ARCHITECTURE.md", libraries()
    text = page.read_text(encoding="utf-8")
    page.write_text(ABOVE.sub(lambda it: f"`{it[1]}` and {len(above(known, it[1]))} above", text), encoding="utf-8")


def main():
    words = sys.argv[1:]
    if words == ["--write"]:
        write()
    elif len(words) == 1 and words[0] in libraries():
        show(words[0])
    else:
        print("usage: scripts/above.py CRATE, of crates.txt, or scripts/above.py --write", file=sys.stderr)
        return 2
    return 0


if __name__ == "__main__":
    sys.exit(main())
