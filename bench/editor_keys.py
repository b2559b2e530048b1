#!/usr/bin/env python3
"""Says how long a key takes in an editor: `bench/editor_keys.py --program PROGRAM`

The client of the gate types into a file that all others of a small project import, key by key. For each turn the median of
the milliseconds from a key to its answer is printed. It judges nothing: the time depends on the machine and its load.
"""

import statistics
import sys
import tempfile
from pathlib import Path

sys.path.insert(0, str(Path(__file__).resolve().parents[1] / "scripts" / "gate"))
from editor_room import MODELS, SHOP, Room
from editor_sessions import TURNS, TYPED, typed
from judging import program_given
from language_client import Client


def main():
    program = program_given("Measures keys in an editor.")
    with tempfile.TemporaryDirectory() as folder:
        room = Room(folder, program)
        room.write(**{f"shop{number}.py": SHOP for number in range(40)})
        with Client(room.folder, "--program", program) as client:
            client.begin()
            client.open("models.py", MODELS)
            for turn in range(TURNS):
                first = 2 + turn * (len(TYPED) + 1)
                took = typed(client, (2, 26), first)
                print(f"turn {turn + 1}: {statistics.median(took):.1f} ms from a key to its answer, of {len(took)} keys")
                client.change("models.py", first + len(TYPED), {"text": MODELS})


if __name__ == "__main__":
    main()
