#!/usr/bin/env python3
"""Has the built program check the deepest inputs that the limits allow, with 2,048 KiB of stack.

    scripts/gate/deep_inputs.py [--program PROGRAM] [--stack KIBIBYTES] [--only NAME] [--least]

deep_sources.py makes the inputs, each with the messages on it by the written rules: trees of 1,000 nodes, 64 brackets and
64 indents, strings in annotations, types of 1,000 types, and these inside one another; a thousand classes and modules;
parameters by the thousand. A session adds the files, checks them, gives each a comment more and checks again, so that each
interface is compared; gives one of them a name more and checks again, so that answers are; and removes them. Every check
reports the same, and the last nothing.

Each input is one judgement. With `--least` nothing is judged: the smallest stack is printed, in steps of 16 KiB, under which the
program answers so. Ends with the line `deep inputs: P passed, F failed`, and with status 0 or 1.
"""

import argparse
import resource
import subprocess
import sys
from pathlib import Path

from deep_sources import DEEPEST
from judging import PROGRAM, Tally
from replies import OK, add, report

CHECK = b"check\n"
# a callable with a thousand parameters is costly
SECONDS = 600
STACK = 2048
STEP = 16
MOST = 64 * 1024


def session_of(deep):
    """The session over an input, and what it prints."""
    adds = [add(path, text) for path, text in deep.files.items()]
    changes = [change(path, f"{text}# changed\n") for path, text in deep.files.items()]
    first, text = next(iter(deep.files.items()))
    removals = [f"remove {path}\n".encode() for path in deep.files]
    told, done = report(deep.messages, len(deep.files)), OK * len(deep.files)
    added = change(first, f"{text}added: int = 1\n")
    session = [*adds, CHECK, *changes, CHECK, added, CHECK, *removals, CHECK]
    return b"".join(session), done + told + done + told + OK + told + done + report([], 0)


def change(path, text):
    """The command that gives a file another text."""
    return f"change {path} {len(text.encode())}\n{text}".encode()


def run(program, session, stack):
    """What the program prints of a session with so many KiB of stack, and its status, or why there is none."""

    def limit():
        resource.setrlimit(resource.RLIMIT_STACK, (1024 * stack,) * 2)

    how = {"input": session, "capture_output": True, "timeout": SECONDS, "check": False, "env": {}, "preexec_fn": limit}
    try:
        done = subprocess.run([program, "session"], **how)
    except subprocess.TimeoutExpired:
        return b"", f"no end after {SECONDS} seconds"
    return done.stdout, done.returncode


def difference(printed, expected):
    """Where what is printed is first another, and the line there."""
    pairs = zip(printed.splitlines(), expected.splitlines())
    wrong = next(((at, got, wanted) for at, (got, wanted) in enumerate(pairs, 1) if got != wanted), None)
    if wrong is None:
        return f"{len(printed)} bytes are printed, not {len(expected)}"
    return "line {}: {!r}, expected {!r}".format(wrong[0], wrong[1][:200], wrong[2][:200])


def judge(program, deep, stack, tally):
    """Judges one input under so much stack."""
    session, expected = session_of(deep)
    printed, status = run(program, session, stack)
    is_right = (printed, status) == (expected, 0)
    tally.judge(is_right, is_right or f"{deep.name}: status {status}; {difference(printed, expected)}")


def least(program, deep):
    """The smallest stack under which an input is answered as it must be, in KiB, or none."""
    session, expected = session_of(deep)
    low, high = 0, MOST // STEP
    if run(program, session, MOST) != (expected, 0):
        return None
    while high - low > 1:
        middle = (low + high) // 2
        low, high = (low, middle) if run(program, session, STEP * middle) == (expected, 0) else (middle, high)
    return STEP * high


def main():
    words = argparse.ArgumentParser(description="Has the built program check the deepest inputs with little stack.")
    words.add_argument("--program", type=Path, default=PROGRAM, help="another program")
    words.add_argument("--stack", type=int, default=STACK, help="how much stack there is, in KiB")
    words.add_argument("--only", help="the inputs whose names begin so")
    words.add_argument("--least", action="store_true", help="print the smallest stack for each input, and judge nothing")
    given = words.parse_args()
    tally, program = Tally("deep inputs"), given.program.resolve()
    for deep in DEEPEST:
        if not deep.name.startswith(given.only or ""):
            continue
        if given.least:
            print(f"{deep.name}: {least(program, deep)} KiB", flush=True)
        else:
            judge(program, deep, given.stack, tally)
    return 0 if given.least else tally.close()


if __name__ == "__main__":
    sys.exit(main())
