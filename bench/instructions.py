"""How many instructions the built program takes for a session, by callgrind: the number hardly depends on the machine."""

import argparse
import re
import subprocess
import tempfile
from concurrent.futures import ThreadPoolExecutor
from pathlib import Path

from programs import Stop
from session import PROGRAM

COLLECTED = re.compile(r"Collected : (\d+)")
MILLION = 1_000_000


def put(word, path, text):
    """The command that adds or changes a file."""
    return f"{word} {path} {len(text.encode())}\n{text}".encode()


class Counter:
    """Counts the instructions of sessions of a program, each once, several side by side."""

    def __init__(self, program, jobs):
        self.program = program
        self.jobs = ThreadPoolExecutor(jobs)
        self.counts = {}

    def ask(self, session):
        """Has a session counted, and gives what answers with the number and with what was printed."""
        if session not in self.counts:
            self.counts[session] = self.jobs.submit(self._count, session)
        return self.counts[session]

    def _count(self, session):
        with tempfile.TemporaryDirectory() as folder:
            place = Path(folder, "session")
            place.write_bytes(session)
            words = ["valgrind", "--tool=callgrind", f"--callgrind-out-file={folder}/out", self.program, "session"]
            with place.open("rb") as given:
                done = subprocess.run(words, stdin=given, capture_output=True, cwd=folder, check=False)
        found = COLLECTED.search(done.stderr.decode(errors="replace"))
        if done.returncode != 0 or not found:
            raise Stop(f"status {done.returncode}: {done.stderr[-500:]!r}")
        return int(found[1]), done.stdout


def words_given(description):
    """The words of a bench that counts instructions, to which others may be added."""
    words = argparse.ArgumentParser(description=description)
    words.add_argument("--program", type=Path, default=PROGRAM, help="another program")
    words.add_argument("--jobs", type=int, default=2, help="how many sessions are counted side by side")
    return words
