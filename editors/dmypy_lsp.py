#!/usr/bin/env python3
"""A language server for dmypy: it keeps sessions over the files of projects, and shows an editor what they report.

    editors/dmypy_lsp.py [--program PROGRAM] [--root FOLDER] [--pause SECONDS]
                         [--ignore-missing-imports] [--check-untyped-defs]

It speaks the language server protocol on standard input and output, and needs Python 3.9 or later, nothing else. An
editor may send the same settings as `initializationOptions`: `program`, `root`, `pause`, and a list `options`. The
table `[tool.dmypy]` of pyproject.toml has the roots and the options of a project, and what is left out of it.

Each folder of the workspace has a session. It holds the text of each open document as the editor has it, and the other
files as they lie on the disk: those that git tracks or does not ignore, or all without git. When nothing more is typed
the server has them checked, and sends the messages of each file where they changed. A warning says of a file that it is
refused. A file beside which a stub is, open or on the disk, has no messages: the stub is checked in its place.

While a document is typed, it may have a fault that makes all its names Any. As long as an unsaved document has one that
it did not have before, the session holds the text before it.
"""

import argparse
import sys
import warnings

from lsp.protocol import Channel
from lsp.server import Server, Settings
from lsp.session import add_words


def main():
    words = argparse.ArgumentParser(description="A language server for dmypy, on standard input and output.")
    add_words(words)
    words.add_argument("--root", default="", help="the project's folder, else the editor says it")
    words.add_argument("--pause", type=float, help="the seconds without typing before a check, else as checks are fast")
    given = words.parse_args()
    # (of texts that are read, and not run)
    warnings.simplefilter("ignore")
    settings = Settings(given.program or "", tuple(given.options), given.root, given.pause)
    return Server(Channel(sys.stdin.fileno(), sys.stdout.buffer), settings).run()


if __name__ == "__main__":
    sys.exit(main())
