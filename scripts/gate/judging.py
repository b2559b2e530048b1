"""What the scripts share that judge the built program."""

import argparse
import tempfile
from pathlib import Path

PROGRAM = Path(__file__).resolve().parents[2] / "crates" / "dmypy" / "out" / "dmypy"
# how long a run may take
SECONDS = 60


class Tally:
    """What a script judged. Each failure is told at once, in a line that begins with this name."""

    def __init__(self, name):
        self.name = name
        self.passed = 0
        self.failed = 0

    def judge(self, is_right, what):
        """Counts one judgement; `what` tells what is wrong where it is not right."""
        if is_right:
            self.passed += 1
        else:
            self.failed += 1
            print(f"{self.name}: failed: {what}", flush=True)

    def close(self):
        """Prints the line `NAME: P passed, F failed`, and gives the script's status, 0 or 1."""
        print(f"{self.name}: {self.passed} passed, {self.failed} failed")
        return 0 if self.failed == 0 else 1


def program_given(description):
    """Reads the words of a script that takes another program, and gives the program."""
    words = argparse.ArgumentParser(description=description)
    words.add_argument("--program", type=Path, default=PROGRAM, help="another program")
    return words.parse_args().program.resolve()


def judge_in_rooms(tests, room, program, tally, faults):
    """Runs each test in a room of its own, which is made of a new folder and the program. One of these faults fails the test."""
    for test in tests:
        with tempfile.TemporaryDirectory() as folder:
            try:
                test(room(folder, program), tally)
            except faults as why:
                tally.judge(False, f"{test.__name__}: {why}")
