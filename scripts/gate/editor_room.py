"""A folder with a small project, and servers of it, for scripts that judge the language server."""

import re
import subprocess
from pathlib import Path

from judging import SECONDS
from language_client import Client
from small_repository import SmallRepository

MODELS = """class Item:
    def __init__(self, price: int) -> None:
        self.price = price


def first() -> Item:
    return Item(1)
"""
SHOP = "from models import first\n\nprice: str = first().price\nreveal_type(price)\n"
ASSIGNED = 'Incompatible types in assignment (expression has type "int", variable has type "str")'
WRONG = (2, "assignment", ASSIGNED)
NOTE = (3, None, 'Revealed type is "str"')
MISSING = 'Cannot find implementation or library stub for module named "{}"'
UNKNOWN = (0, "import-not-found", MISSING.format("models"))
# the place of `int` in MODELS, of which the second line is broken by taking away its colon
PRICE = ((1, 30), (1, 33))
COLON = ((1, 42), (1, 43))


class Room(SmallRepository):
    """A folder with a small project."""

    def __init__(self, folder, program):
        super().__init__(folder, program)
        self.write(**{"models.py": MODELS, "shop.py": SHOP})

    def client(self, *words):
        """A server of the project that nobody has spoken to."""
        return Client(self.folder, "--program", self.program, *words)

    def begun(self, *words, **how):
        """A server that showed the messages of the project."""
        client = self.client(*words)
        client.begin(**how)
        client.checked("shop.py")
        return client


class Wrapped:
    """A script that runs the program, and writes down the process of each run with its words."""

    def __init__(self, room):
        self.path, self.runs = room.folder / "wrapped", room.folder / "runs"
        self.path.write_text(f'#!/bin/sh\necho $$ "$*" >> "{self.runs}"\nexec "{room.program}" "$@"\n')
        self.path.chmod(0o755)

    def session(self):
        """The process of the last session without options, as that of the project is here."""
        runs = [line.split(" ", 1) for line in self.runs.read_text().splitlines()]
        return int([number for number, words in runs if words == "session"][-1])


class Logged:
    """A script that runs the program, and keeps what the session of a project without options gets."""

    def __init__(self, room):
        self.program, self.path, self.log = room.program, room.folder / "logged", room.folder / "log"
        self.path.write_text(f'#!/bin/sh\ntee -a "{self.log}.$#" | "{room.program}" "$@"\n')
        self.path.chmod(0o755)

    def commands(self):
        """The commands of the last session, each a line with the bytes after it."""
        left = Path(f"{self.log}.1").read_bytes()
        found = []
        while left:
            line, _, left = left.partition(b"\n")
            words = line.split()
            size = int(words[2]) if words[:1] in ([b"add"], [b"change"]) else 0
            found = [] if line == b"stop" else [*found, (line, left[:size])]
            left = left[size:]
        return found

    def texts(self, path):
        """The texts of a file that the session was given, in order."""
        given = [(line.split(), text) for line, text in self.commands()]
        return [text for words, text in given if words[0] != b"remove" and words[1:2] == [path.encode()]]

    def examined(self):
        """How many units each check examined, by a session that gets the same commands."""
        asked = [line + b"\n" + text + (b"status\n" if line == b"check" else b"") for line, text in self.commands()]
        how = {"input": b"".join(asked), "stdout": subprocess.PIPE, "timeout": SECONDS, "check": True}
        answers = subprocess.run([self.program, "session"], **how).stdout.decode()
        return [int(number) for number in re.findall(r"^files \d+ bodies \d+ rechecked (\d+)$", answers, re.MULTILINE)]
