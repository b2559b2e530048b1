"""The commands of the package `dmypy_proved`: each becomes the program, or a script that lies beside this file."""

import os
import sys
from pathlib import Path

HERE = Path(__file__).resolve().parent


def become(*words):
    """Becomes another program, with the words of the command line after its own."""
    os.execv(words[0], [*words, *sys.argv[1:]])


def program():
    """The proved program."""
    become(str(HERE / "out" / "dmypy"))


def check():
    """The checker of a project."""
    become(sys.executable, str(HERE / "scripts" / "check_project.py"))


def server():
    """The language server."""
    become(sys.executable, str(HERE / "editors" / "dmypy_lsp.py"))


def hook():
    """The commit hook."""
    become(sys.executable, str(HERE / "scripts" / "check_index.py"))


def ignores():
    """The script that adds ignore comments."""
    become(sys.executable, str(HERE / "scripts" / "add_ignores.py"))
