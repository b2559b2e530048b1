#!/usr/bin/env python3
"""Has the built program check files that import one name through many others, change the first, and check again.

    scripts/gate/long_imports.py [PROGRAM]

Two workspaces are checked, each as large as there may be, or nearly. In the first a name is passed on from file to file,
and the last assigns it to a variable of another type; the first file then declares it with that type. In the second each
file imports the name from the next, and the last from the first; the first then declares it. A check after such a change
examines the units of the changed file and of the others just those that read a key with another answer: where the name
is passed on this is the unit that uses it, since each file on the way asks only whether the next has such a name; in the
ring it is the imports of each other file.

Each reply is one judgement, and so are the numbers that `status` prints after each check. Ends with the line
`long imports: P passed, F failed`, and with status 0 or 1.
"""

import subprocess
import sys

from judging import PROGRAM, SECONDS, Tally
from replies import OK, Message, add, report

PASSED_ON = 1000
IN_A_RING = 1024
NO_STR = 'Incompatible types in assignment (expression has type "int", variable has type "str")  [assignment]'
CYCLE = 'Cannot resolve name "x" (possible cyclic definition)  [misc]'


def change(path, text):
    """The command that gives a file another text."""
    return f"change {path} {len(text)}\n{text}".encode()


def status(files, examined):
    """What `status` prints for so many files, each with two units, of which so many were examined."""
    return f"files {files} bodies {2 * files} rechecked {examined}\n".encode()


def passed_on(count):
    """Files that pass a name on, the change, and what each check and `status` print, before it and after."""
    files = {"m0.py": "k: int = 1\n"}
    files.update({f"m{at}.py": f"from m{at - 1} import k\n" for at in range(1, count + 1)})
    files["a.py"] = f"from m{count} import k\nx: str = k\n"
    held = len(files)
    before = report([Message("a.py", 2, "error", NO_STR)], held), status(held, 2 * held)
    return files, change("m0.py", 'k: str = ""\n'), before, (report([], held), status(held, 3))


def ring(count):
    """Files that import a name around, the change, and what each check and `status` print, before it and after."""
    files = {f"m{at}.py": f"from m{(at + 1) % count} import x\n" for at in range(count)}
    cycles = report([Message(path, 1, "error", CYCLE) for path in sorted(files)], count)
    before = cycles, status(count, 2 * count)
    return files, change("m0.py", "x: int = 1\n"), before, (report([], count), status(count, count + 1))


def replies_of(program, name, session, tally):
    """What a session prints, or nothing where it has no end, which counts as a failure."""
    try:
        return subprocess.run([program, "session"], input=session, capture_output=True, timeout=SECONDS, check=False).stdout
    except subprocess.TimeoutExpired:
        tally.judge(False, f"{name}: no end after {SECONDS} seconds")
        return b""


def judge(program, name, case, tally):
    """Runs a session over a workspace, and compares the replies in turn."""
    files, changed, before, after = case
    session = b"".join(add(path, text) for path, text in files.items()) + b"check\nstatus\n"
    left = replies_of(program, name, session + changed + b"check\nstatus\n", tally)
    what = ("added", "checked", "counted", "changed", "checked again", "counted again")
    for step, expected in zip(what, (OK * len(files), *before, OK, *after)):
        tally.judge(left.startswith(expected), f"{name}: {step}: {left[:200]!r}, expected {expected[:200]!r}")
        left = left[len(expected) :]
    tally.judge(not left, f"{name}: {left[:200]!r} is printed at the end")


def main():
    program = sys.argv[1] if len(sys.argv) > 1 else PROGRAM
    tally = Tally("long imports")
    judge(program, "passed on", passed_on(PASSED_ON), tally)
    judge(program, "ring", ring(IN_A_RING), tally)
    return tally.close()


if __name__ == "__main__":
    sys.exit(main())
