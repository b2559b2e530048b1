#!/usr/bin/env python3
"""Runs the first command of the README, `scripts/first-session.sh`, in each of its ways.

On the program that is built it prints what is stored beside the program, and the README quotes just that. The ways
that need the kit are run with a stand-in for `rt`, which notes how it is called: without a word the script has the
session run by `rt try` and says that nothing is proved; with --proved it names each crate, after those below it, with
its number. Ends with the line `readme: P passed, F failed`, and with status 0 or 1.
"""

import os
import subprocess
import sys
import tempfile
import textwrap
from pathlib import Path

from judging import SECONDS, Tally
from repository import ROOT, below, libraries

COMMAND = "scripts/first-session.sh"
PROGRAM = "dmypy"
STORED = (ROOT / "crates" / PROGRAM / "stdout").read_text()
# notes the crate and the words, fails with a message where it is to, and prints what the program would
STAND_IN = """#!/bin/sh
echo "${PWD##*/} $*" >> "$CALLS"
if [ "${PWD##*/} $1" = "$FAILING" ]; then echo "what is wrong" >&2; exit 1; fi
if [ "$1" = try ]; then cat stdout; fi
"""


def run(*words, failing=""):
    """Runs the script with the stand-in. Returns how it ended, and the calls of the stand-in."""
    with tempfile.TemporaryDirectory() as folder:
        calls, stand_in = Path(folder, "calls"), Path(folder, "rt")
        calls.touch()
        stand_in.write_text(STAND_IN)
        stand_in.chmod(0o755)
        search = f"{folder}{os.pathsep}{os.environ['PATH']}"
        environment = {**os.environ, "PATH": search, "CALLS": str(calls), "FAILING": failing}
        how = {"cwd": "/", "env": environment, "text": True, "timeout": 2 * SECONDS, "check": False}
        done = subprocess.run([ROOT / COMMAND, *words], capture_output=True, **how)
        return done, calls.read_text().splitlines()


def judge_built(tally):
    """The program that is built, and what the README says of it."""
    page = (ROOT / "README.md").read_text()
    done, calls = run("--built")
    tally.judge((done.stdout, done.stderr, done.returncode) == (STORED, "", 0), f"{COMMAND}: {done}")
    tally.judge(calls == [], f"calls of rt for the program that is built: {calls}")
    tally.judge(f"\n    {COMMAND}\n" in page, f"the README does not name {COMMAND}")
    tally.judge(textwrap.indent(STORED, "    ") in page, "the README does not quote the stored session")


def judge_unproved(tally):
    """The program that is compiled without proof."""
    done, calls = run()
    tally.judge((done.stdout, done.returncode) == (STORED, 0), f"without proof: {done}")
    tally.judge("it is NOT proved" in done.stderr, f"it is not said that nothing is proved: {done.stderr}")
    tally.judge(len(calls) == 1 and calls[0].startswith("dmypy try "), f"calls of rt without proof: {calls}")
    done, _ = run(failing="dmypy try")
    tally.judge(done.returncode == 1 and "what is wrong\n" in done.stderr, f"rt try fails: {done}")


def judge_proved(tally):
    """The program that is proved: each crate has a line, and stands after those below it."""
    done, calls = run("--proved")
    known = libraries()
    crates = [call.partition(" ")[0] for call in calls]
    tally.judge((done.stdout, done.returncode) == (STORED, 0), f"with proofs: {done}")
    wanted = [f"{crate} lib" for crate in crates[:-1]] + ["dmypy run -- session"]
    tally.judge(calls == wanted, f"calls of rt with proofs: {calls}")
    tally.judge(sorted(crates) == sorted([*below(known, PROGRAM), PROGRAM]), f"which crates are proved: {crates}")
    early = [crate for at, crate in enumerate(crates) if not set(below(known, crate)) <= set(crates[:at])]
    tally.judge(early == [], f"crates before those below them: {early}")
    told = [line for line in done.stderr.splitlines() if " minutes so far" in line]
    numbered = [f"crate {at} of {len(crates)}, {crate}" for at, crate in enumerate(crates, 1)]
    wanted = [f"first-session: {crate}; 0 minutes so far" for crate in numbered]
    tally.judge(told == wanted, f"the lines on crates: {told}")
    done, calls = run("--proved", failing="pyc_lex lib")
    tally.judge(done.returncode == 1 and "what is wrong\n" in done.stderr, f"a proof fails: {done}")
    tally.judge(calls[-1:] == ["pyc_lex lib"], f"what follows a proof that fails: {calls}")


def main():
    tally = Tally("readme")
    judge_built(tally)
    judge_unproved(tally)
    judge_proved(tally)
    done, calls = run("--nothing")
    tally.judge((done.stdout, done.returncode, calls) == ("", 2, []), f"an unknown word: {done}")
    return tally.close()


if __name__ == "__main__":
    sys.exit(main())
