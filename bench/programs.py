"""The program of a bench: the one that is given, or one that is built; and what goes wrong with it."""

import subprocess
import sys
import tempfile
from pathlib import Path

BUILD = Path(__file__).resolve().parent.parent / "scripts" / "by_hand" / "build.py"


class Stop(Exception):
    """The program does not answer as it must."""


def measured_by(measure, name, given):
    """Measures the program that is given, or else the one of this name in the table of `build.py`, which is built first, with
    a folder that goes when it is done; gives the status of the bench."""
    with tempfile.TemporaryDirectory() as folder:
        try:
            program = given or str(Path(folder) / name)
            if not given:
                subprocess.run([sys.executable, BUILD, name, program], check=True)
            measure(program, Path(folder))
        except (OSError, Stop, subprocess.SubprocessError) as why:
            print(f"bench: {why}", file=sys.stderr)
            return 1
    return 0


def status_of(measure):
    """Measures, and gives the status of the bench: 1 where the program does not answer as it must."""
    try:
        measure()
    except (OSError, Stop) as why:
        print(f"bench: {why}", file=sys.stderr)
        return 1
    return 0
