"""A folder with a few files and a repository of git, for scripts that judge what users run."""

import os
import subprocess
import sys
from pathlib import Path

from judging import SECONDS
from repository import ROOT

# no settings of the user or of the machine, and no names but these
ENVIRONMENT = {
    **{name: value for name, value in os.environ.items() if not name.startswith(("GIT_", "DMYPY"))},
    "GIT_CONFIG_GLOBAL": os.devnull,
    "GIT_CONFIG_NOSYSTEM": "1",
    "PYTHONDONTWRITEBYTECODE": "1",
    **{f"GIT_{who}_{what}": "a@b" for who in ("AUTHOR", "COMMITTER") for what in ("NAME", "EMAIL")},
}


class SmallRepository:
    """A folder, and the program that checks its files."""

    def __init__(self, folder, program):
        self.folder = Path(folder)
        self.program = program

    def write(self, **texts):
        """Writes files."""
        for path, text in texts.items():
            (self.folder / path).parent.mkdir(parents=True, exist_ok=True)
            (self.folder / path).write_bytes(text.encode())

    def read(self, path):
        """The text of a file."""
        return (self.folder / path).read_bytes().decode()

    def run(self, *command, inside="."):
        """Runs a command in a folder of the repository."""
        how = {"cwd": self.folder / inside, "env": ENVIRONMENT, "timeout": SECONDS, "check": False}
        return subprocess.run([*map(str, command)], stdin=subprocess.DEVNULL, capture_output=True, **how)

    def script(self, name, *words):
        """Runs a script of the project in the folder."""
        return self.run(sys.executable, ROOT / "scripts" / name, "--program", self.program, *words)

    def git(self, *words, inside="."):
        """Runs git, which has to succeed."""
        done = self.run("git", *words, inside=inside)
        if done.returncode:
            raise subprocess.SubprocessError(f"git {' '.join(words)}: {done}")
        return done.stdout.decode()

    def commit(self, *left_out, **texts):
        """Writes files, takes away those that are left out, and commits all."""
        self.write(**texts)
        for path in left_out:
            (self.folder / path).unlink()
        self.git("add", "-A")
        self.git("commit", "-q", "--no-verify", "-m", "a commit")
