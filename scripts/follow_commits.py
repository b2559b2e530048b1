#!/usr/bin/env python3
"""Holds one session over a series of commits, and compares each report with that of a fresh run.

    scripts/follow_commits.py [--program PROGRAM] [--ignore-missing-imports] [--check-untyped-defs] REPOSITORY [COMMITS]

It goes through the commits of COMMITS, words of `git rev-list` as `HEAD~20..HEAD`, all that lead to HEAD if there are
none, from the oldest on along first parents. To the session it sends the Python files that a commit adds, changes and
removes, under the paths that imports mean; where the source roots change, or the table `[tool.dmypy]` of pyproject.toml
does, another session begins. For the fresh run it writes all files that the session holds into a folder and calls
`dmypy check`. It prints a line on each commit, and its status is 1 where some report is not that of the fresh run.
"""

import argparse
import subprocess
import sys
import tempfile
from pathlib import Path

sys.path.insert(0, str(Path(__file__).resolve().parents[1] / "editors"))
from lsp.checker import Checker
from lsp.paths import SUFFIXES
from lsp.program import program_of
from lsp.project import is_excluded
from lsp.results import say
from lsp.session import add_words, report_of
from lsp.settings import FILE, Settings, settings_of
from lsp.trouble import Trouble, run_told

NOTHING = "Success: no issues found in 0 source files\n"


class Repository:
    """A repository of git."""

    def __init__(self, folder):
        self.folder = folder

    def git(self, *words):
        """Runs git, and returns what it prints."""
        done = subprocess.run(["git", "-C", self.folder, *words], stdout=subprocess.PIPE, check=False)
        if done.returncode:
            raise Trouble(f"git {words[0]} failed")
        return done.stdout

    def commits(self, words):
        """Returns the names of commits, the oldest first."""
        return self.git("rev-list", "--reverse", "--first-parent", *words).decode().split()

    def files(self, commit):
        """Returns the blob of each Python file of a commit by its path, and that of pyproject.toml. Links and modules
        are no files."""
        found = {}
        for entry in self.git("ls-tree", "-r", "-z", "--full-tree", commit).split(b"\0"):
            head, _, name = entry.decode(errors="surrogateescape").partition("\t")
            if (name.endswith(SUFFIXES) or name == FILE) and head.startswith("100"):
                found[name] = head.split()[2]
        return found

    def content(self, blob):
        """Returns the bytes of a blob."""
        return self.git("cat-file", "blob", blob)


class Follower:
    """A checker that follows a repository. `files` has the blob of each file of the commit."""

    def __init__(self, repository, program, options):
        self.repository = repository
        self.program = program
        self.options = options
        self.files = {}
        self.settings = self.checker = None

    def follow(self, commit):
        """Sends what a commit changed. Returns how many files changed."""
        self.files = self.repository.files(commit)
        settings = self.settings_of(self.files.pop(FILE, None))
        if not self.checker or settings != self.settings:
            self.close()
            options, folder = settings.with_options(self.options), Path(self.repository.folder).resolve()
            self.checker = Checker(folder, self.program, options, settings.roots, read=self.read)
            self.settings = settings
        excluded = {path for path in self.files if is_excluded(path, settings.exclude)}
        return self.checker.take({path: blob for path, blob in self.files.items() if path not in excluded})

    def settings_of(self, blob):
        """Returns the settings of a commit, by the blob of its pyproject.toml, if it has one."""
        with tempfile.TemporaryDirectory() as folder:
            if blob:
                Path(folder, FILE).write_bytes(self.repository.content(blob))
            return settings_of(folder)

    def read(self, path):
        """Returns the bytes of a file of the commit."""
        return self.repository.content(self.files[path])

    def reports(self):
        """Returns what the session reports on the files that it holds, and what a fresh run does."""
        held = self.checker.session.files
        command = [self.program, "check", *self.checker.options, "--", *sorted(held)]
        with tempfile.TemporaryDirectory() as folder:
            for name, path in held.items():
                Path(folder, name).parent.mkdir(parents=True, exist_ok=True)
                Path(folder, name).write_bytes(self.read(path))
            how = {"cwd": folder, "stdout": subprocess.PIPE, "check": False}
            fresh = subprocess.run(command, **how).stdout.decode() if held else NOTHING
        return self.checker.report().text(), report_of(fresh, held).text()

    def close(self):
        """Ends the session."""
        if self.checker:
            self.checker.close()


def tell_of(follower, commit):
    """Follows a commit, and tells of it. Returns whether the report is that of the fresh run."""
    sent = follower.follow(commit)
    report, fresh = follower.reports()
    is_same = "the fresh run's report" if report == fresh else f"NOT the fresh run's report:\n{report}{fresh}"
    say(f"{commit[:12]} {sent} sent, {len(follower.checker.refused)} refused: {fresh.splitlines()[-1]}: {is_same}")
    return report == fresh


def run(given):
    """Follows the commits that are given. Returns the status."""
    repository = Repository(given.repository)
    follower = Follower(repository, program_of(given.program, Settings(), "."), given.options)
    commits = repository.commits(given.commits)
    try:
        same = sum(tell_of(follower, commit) for commit in commits)
    finally:
        follower.close()
    say(f"{same} of {len(commits)} commits have the fresh run's report")
    return 0 if same == len(commits) > 0 else 1


def main():
    words = argparse.ArgumentParser(description="Holds one session over a series of commits.")
    add_words(words)
    words.add_argument("repository", help="the repository's folder")
    words.add_argument("commits", nargs="*", default=["HEAD"], help="words of git rev-list, HEAD if there are none")
    given = words.parse_args()
    return run_told(lambda: run(given))


if __name__ == "__main__":
    sys.exit(main())
