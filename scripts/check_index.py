#!/usr/bin/env python3
"""Checks the Python files of git's index, as they are staged and not as they lie in the work tree: a commit hook.

    scripts/check_index.py [--program PROGRAM] [--ignore-missing-imports] [--check-untyped-defs] [--opaque {error,skip}]
                           [--baseline FILE] [--root FOLDER] [-- LEFT_OUT..]

It prints the report on all files that the index holds, under the paths that imports mean, as scripts/check_project.py
does; `[tool.dmypy]` of pyproject.toml holds here, too. A commit goes on with the status 0 alone. FOLDER is the
project's folder, and LEFT_OUT are files and folders that are not to be checked; these and FILE are seen from the top of
the work tree, which is the project's folder if none is given. Where pyproject.toml or FILE is in the index, what is
staged counts.
"""

import argparse
import os
import subprocess
import sys
import tempfile
from pathlib import Path

sys.path.insert(0, str(Path(__file__).resolve().parents[1] / "editors"))
from lsp.baseline import read_known
from lsp.checker import Checker
from lsp.paths import SUFFIXES
from lsp.program import program_of
from lsp.project import is_excluded
from lsp.results import add_result_words, outcome_of
from lsp.session import add_words
from lsp.settings import FILE, settings_of
from lsp.trouble import Trouble, run_told


def git(*words, **how):
    """Runs git, and returns what it prints."""
    done = subprocess.run(["git", *words], stdout=subprocess.PIPE, check=False, **how)
    if done.returncode:
        raise Trouble(f"git {words[0]} failed")
    return done.stdout


def staged_files(top, *pathspecs):
    """Returns the paths in the index that fit pathspecs, seen from the top of the work tree."""
    names = git("ls-files", "-z", "--cached", "--", *pathspecs, cwd=top).split(b"\0")
    return sorted({os.fsdecode(name) for name in names if name})


def check_out(top, files, folder):
    """Writes files of the index into a folder."""
    names = b"".join(os.fsencode(file) + b"\0" for file in files)
    git("checkout-index", "-z", "--stdin", f"--prefix={folder}/", cwd=top, input=names)


def check(top, folder, given):
    """Checks the files of the index, which are written into a folder of their own. Returns the status."""
    inner = "".join(f"{part}/" for part in given.root.split("/") if part not in ("", "."))
    python = staged_files(top, f":(literal){inner}" if inner else ".", *(f":(exclude){it}" for it in given.left_out))
    python = [path[len(inner) :] for path in python if path.endswith(SUFFIXES)]
    settings_file = f"{inner}{FILE}"
    staged = staged_files(top, *(f":(literal){path}" for path in (settings_file, given.baseline) if path))
    check_out(top, [*(inner + path for path in python), *staged], folder)
    project = folder / inner
    settings = settings_of(project if settings_file in staged else top / inner)
    known = None
    if given.baseline:
        known = read_known((folder if given.baseline in staged else top) / given.baseline)
    program = program_of(given.program, settings, top / inner)
    checker = Checker(project, program, settings.with_options(given.options), settings.roots)
    try:
        project.mkdir(parents=True, exist_ok=True)
        files = {path for path in python if not is_excluded(path, settings.exclude) and (project / path).is_file()}
        checker.take(dict.fromkeys(files, True))
        outcome = outcome_of(checker, checker.report(), known, given.opaque == "skip", lambda path: inner + path)
    finally:
        checker.close()
    outcome.tell()
    return outcome.status


def run(given):
    """Checks the index of the repository that the current folder is in. Returns the status."""
    top = Path(os.fsdecode(git("rev-parse", "--show-toplevel")[:-1]))
    with tempfile.TemporaryDirectory() as room:
        # (the name of the folder is that of a package, where it is one)
        return check(top, Path(room, top.name or "top"), given)


def main():
    words = argparse.ArgumentParser(description="Checks the Python files of git's index.")
    add_words(words)
    add_result_words(words)
    words.add_argument("--root", default=".", metavar="FOLDER", help="the project's folder, else the top")
    words.add_argument("left_out", nargs="*", metavar="LEFT_OUT", help="files and folders that are not checked")
    given = words.parse_args()
    return run_told(lambda: run(given))


if __name__ == "__main__":
    sys.exit(main())
