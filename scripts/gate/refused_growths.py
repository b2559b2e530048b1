#!/usr/bin/env python3
"""Runs the proved program with each of its growths of memory refused in turn.

Stored sessions are run so (refused_in_sessions.py), and `dmypy check` on files (refused_in_checks.py). Before that the
growths of the turns that take no memory are counted (turns_without_growth.py): there are none.

Ends with the line `growths: P passed, F failed`, where each run, each session whose reports are compared with fresh
ones, each kind of refusal that must occur and each turn is one, and with status 0 or 1.
"""

import shutil
import sys
import tempfile
from pathlib import Path

from checks import make_files
from judging import Tally
from preloaded import Program, Stop
from refused_in_checks import judge_checks
from refused_in_sessions import SESSIONS, judge_sessions
from turns_without_growth import judge_turns


def main():
    tally = Tally("growths")
    try:
        with tempfile.TemporaryDirectory() as made:
            program = Program(Path(made))
            shutil.copytree(SESSIONS / "files", program.files, dirs_exist_ok=True)
            make_files(program.files)
            judge_turns(program, tally)
            judge_sessions(program, tally)
            judge_checks(program, tally)
    except Stop as why:
        tally.judge(False, str(why))
    return tally.close()


if __name__ == "__main__":
    sys.exit(main())
