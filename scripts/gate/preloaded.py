"""The built program, in a folder of its own, with one of its growths of memory refused, or with its growths counted."""

import os
import subprocess
import tempfile
from pathlib import Path
from typing import NamedTuple

from judging import PROGRAM, SECONDS

SCRIPTS = Path(__file__).resolve().parent
MOST_GROWTHS = 100_000
# what the program tells where memory is refused while it reads its words
OUT_OF_MEMORY = b"error: out of memory\n"


class Stop(Exception):
    """The runs cannot go on."""


class Run(NamedTuple):
    """What a run wrote to standard output and to standard error, its status, how many bytes of standard input it read,
    and whether a growth was refused."""

    output: bytes
    told: bytes
    status: int
    count: int
    was_refused: bool


class Program:
    """The built program, or another. `files` is the folder in which it runs."""

    def __init__(self, folder, program=PROGRAM):
        if not program.is_file():
            raise Stop(f"{program} is not built: run `rt ci` first")
        self.program = program
        self.note = folder / "note"
        self.log = folder / "log"
        self.files = folder / "files"
        self.files.mkdir()
        self.preload = build_preload(folder)

    def run(self, words, given=b"", refuse=0):
        """A run with these words and this standard input. Growth number `refuse` is refused, or none if it is 0."""
        self.note.unlink(missing_ok=True)
        wanted = {"REFUSE_NTH": str(refuse), "REFUSE_NOTE": str(self.note)} if refuse else None
        return self._run(words, given, wanted)

    def growths_by_byte(self, words, given):
        """What a run wrote to standard output, and for each of these bytes how many growths came before its write."""
        self.log.unlink(missing_ok=True)
        done = self._run(words, given, {"GROWTH_LOG": str(self.log)})
        growths = []
        for line in self.log.read_text().splitlines():
            taken, count = map(int, line.split())
            growths += [count] * taken
        if len(growths) != len(done.output):
            raise Stop(f"{len(growths)} bytes in the log of a run that wrote {len(done.output)}")
        return done.output, growths

    def _run(self, words, given, preloaded):
        env = {"LD_PRELOAD": str(self.preload), **preloaded} if preloaded else {}
        how = {"cwd": self.files, "env": env, "timeout": SECONDS, "capture_output": True}
        with tempfile.TemporaryFile() as stdin:
            stdin.write(given)
            stdin.seek(0)
            try:
                done = subprocess.run([self.program, *words], stdin=stdin, check=False, **how)
            except (OSError, subprocess.TimeoutExpired) as error:
                raise Stop(f"{self.program.name}: {error}") from error
            # the program and this script share the place in the file
            count = os.lseek(stdin.fileno(), 0, os.SEEK_CUR)
        return Run(done.stdout, done.stderr, done.returncode, count, self.note.exists())


def growth_numbers(first=1):
    """The numbers of the growths to refuse, from `first` on. The runs end where none was refused, and not here."""
    yield from range(first, MOST_GROWTHS + 1)
    raise Stop(f"more than {MOST_GROWTHS} growths")


def build_preload(folder):
    """Builds the library that refuses and counts growths."""
    preload = folder / "refuse_nth.so"
    words = ["cc", "-O2", "-fPIC", "-shared", "-o", str(preload), str(SCRIPTS / "refuse_nth.c"), "-ldl"]
    try:
        done = subprocess.run(words, capture_output=True, text=True, check=False)
    except OSError as error:
        raise Stop(f"cc: {error}") from error
    if done.returncode != 0:
        raise Stop(f"cc: {done.stderr}")
    return preload
