#!/usr/bin/env python3
"""Tests the script that tries must-fail edits, on a repository of two tiny crates that is made in a folder of its own.

    scripts/gate/edits_test.py

The lower crate gives back what it is given; the upper one gives back the first of two numbers, which its contract says, and
tells whether a number is small, of which its contract says nothing. So an edit of the first must be refused, and one of the
second is let through. What is kept of edits lies in a folder of this test.

The last line is `edits_test: P passed, F failed`."""

import os
import shutil
import subprocess
import sys
import tempfile
import time
from pathlib import Path

from judging import Tally
from repository import last_changes

SCRIPT = Path(__file__).resolve().with_name("edits.py")
FILES = {
    "HANDLES": "Handles allowed: none.\n",
    "crates.txt": "low:\nupper: low\n",
    "crates/low/src/lib.rt": """\
//! The lower crate.
#![tactic(auto)]

ghost use Rattle.std.specs.Prelude.{◌≡◌};

/// Returns what it is given.
pub fn same(x: usize) -> usize
    ensures { result ≡ x }
{
    x
}
""",
    "crates/upper/src/lib.rt": """\
//! The upper crate.
#![tactic(auto)]

ghost use Rattle.std.specs.Prelude.{◌≡◌};

use low::same;

/// Returns the first of the two.
pub fn first(x: usize, _y: usize) -> usize
    ensures { result ≡ x }
{
    same(x)
}

/// Returns whether a number is small.
pub fn is_small(x: usize) -> bool {
    x < 5
}
""",
    "crates/upper/must-fail/second_of_the_two.edit": "file: src/lib.rt\nold:     same(x)\nnew:     same(_y)\n",
    "crates/upper/must-fail/five_is_small.edit": "file: src/lib.rt\ntried: by hand\nold:     x < 5\nnew:     x <= 5\n",
}
UNFIT = {
    "crates/upper/must-fail/of_no_text.edit": "file: src/lib.rt\nold:     same(z)\nnew:     same(x)\n",
    "crates/upper/must-fail/of_no_function.edit": "file: src/lib.rt\nrefuses: last\nold:     same(x)\nnew:     same(_y)\n",
}


class Repository:
    """The repository of the two crates, with a copy in which they are built and a folder for what is kept of edits."""

    def __init__(self, room):
        self.root, self.tree, self.kept, self.work = (room / it for it in ("root", "tree", "kept", "work"))
        self.work.mkdir()
        for name, text in FILES.items():
            self.write(name, text)

    def write(self, name, text):
        """Writes a file."""
        (self.root / name).parent.mkdir(parents=True, exist_ok=True)
        (self.root / name).write_text(text, encoding="utf-8")

    def build(self):
        """Proves and builds the crates in the copy, and returns whether they are proved."""
        shutil.rmtree(self.tree, ignore_errors=True)
        shutil.copytree(self.root, self.tree, ignore=shutil.ignore_patterns("must-fail"))
        how = {"stdin": subprocess.DEVNULL, "stdout": subprocess.PIPE, "stderr": subprocess.STDOUT}
        ran = subprocess.run(["rt", "ci"], cwd=self.tree, text=True, errors="replace", check=False, **how)
        if ran.returncode:
            print(ran.stdout, end="")
        return ran.returncode == 0

    def commit(self, seconds):
        """Commits all files at that time."""
        given = {"GIT_COMMITTER_DATE": f"@{seconds} +0000", "GIT_AUTHOR_DATE": f"@{seconds} +0000"}
        for words in (["init", "-q"], ["add", "-A"], ["-c", "user.name=t", "-c", "user.email=t@t", "commit", "-qm", "t"]):
            subprocess.run(["git", *words], cwd=self.root, env={**os.environ, **given}, check=True)

    def begin(self, *words, minutes=None):
        """Begins to try the edits, and returns the process."""
        given = {"RT_JOBS": "1", "TMPDIR": str(self.work), **({"GATE_MINUTES": minutes} if minutes else {})}
        around = {name: it for name, it in os.environ.items() if name != "GATE_MINUTES"}
        places = ["--root", self.root, "--libraries", self.tree / "crates", "--kept", self.kept]
        how = {"stdin": subprocess.DEVNULL, "stdout": subprocess.PIPE, "stderr": subprocess.STDOUT, "text": True}
        return subprocess.Popen([sys.executable, SCRIPT, *places, *words], env={**around, **given}, **how)

    def edits(self, *words, minutes=None):
        """Tries the edits, and returns the status and what was said."""
        process = self.begin(*words, minutes=minutes)
        said, _ = process.communicate()
        return process.returncode, said

    def entries(self):
        """Returns the names of the entries that are kept."""
        return sorted(it.name for it in self.kept.glob("*"))


class Test:
    """The steps of the test, each over what those before it left."""

    def __init__(self, repository, tally):
        self.repository, self.tally = repository, tally

    def judge(self, what, ran, status, *lines):
        """Judges a run: it ended with this status, and said these lines."""
        found, said = ran
        lacking = [it for it in lines if it not in said]
        self.tally.judge(found == status and not lacking, f"{what}: status {found}, no {lacking} in:\n{said}")

    def keeps(self, what, number):
        """Judges how many entries are kept."""
        entries = self.repository.entries()
        self.tally.judge(len(entries) == number, f"{what}: {len(entries)} entries, not {number}: {entries}")

    def no_time(self):
        """Where there is no time none is tried, and that is said and is no failure."""
        ran = self.repository.edits(minutes="0")
        counts = ("edits: 0 tried, 0 kept, 1 by hand, 1 not tried\n", "edits: 0 passed, 0 failed\n")
        self.judge("no time", ran, 0, "edits: upper: 1 not tried: ", *counts)
        self.keeps("no time", 0)

    def twice(self):
        """The second run of a crate's edits tries none, unless all are to be tried anew."""
        tried = ("second_of_the_two.edit: refused: ", "edits: 1 tried, 0 kept, 1 by hand, 0 not tried\n")
        kept = ("edits: upper: 1 kept: ", "edits: 0 tried, 1 kept, 1 by hand, 0 not tried\n", "edits: 1 passed, 0 failed\n")
        self.judge("first run", self.repository.edits(), 0, *tried)
        self.keeps("first run", 1)
        self.judge("second run", self.repository.edits(), 0, *kept)
        self.judge("second run without time", self.repository.edits(minutes="0"), 0, *kept)
        self.judge("anew", self.repository.edits("--anew"), 0, *tried)

    def not_whole(self):
        """An entry that is not whole, or that says nothing of the edit, counts for nothing."""
        entry = self.repository.kept / self.repository.entries()[0]
        whole = entry.read_text(encoding="utf-8")
        for text in (whole[:-1], whole.replace("second_of_the_two", "another")):
            entry.write_text(text, encoding="utf-8")
            self.judge(f"entry {text}", self.repository.edits(), 0, "edits: 1 tried, 0 kept, ")
            self.tally.judge(entry.read_text(encoding="utf-8") == whole, f"entry {text}: not written anew")

    def comment_below(self):
        """A changed comment in a library below has the edits tried again."""
        name = "crates/low/src/lib.rt"
        self.repository.write(name, FILES[name].replace("The lower crate.", "The crate below."))
        self.tally.judge(self.repository.build(), "the crates are not proved with another comment")
        self.judge("comment below", self.repository.edits(), 0, "edits: 1 tried, 0 kept, ")
        self.keeps("comment below", 2)

    def changed_meanwhile(self):
        """Where a file changes while edits are tried, nothing is kept."""
        name = "crates/upper/src/lib.rt"
        process = self.repository.begin("--anew")
        while process.poll() is None and not [*self.repository.work.glob("edits-*/*")]:
            time.sleep(0.05)
        self.repository.write(name, FILES[name].replace("The upper crate.", "The crate above."))
        said, _ = process.communicate()
        lines = ("edits: upper: not kept, ", "edits: 1 passed, 0 failed\n")
        self.judge("changed meanwhile", (process.returncode, said), 0, *lines)
        self.keeps("changed meanwhile", 2)

    def let_through(self):
        """An edit that is let through fails, and then nothing is kept."""
        counts = ("edits: 2 tried, 0 kept, 0 by hand, 0 not tried\n", "edits: 1 passed, 1 failed\n")
        self.judge("let through", self.repository.edits("--all"), 1, "five_is_small.edit: NOT REFUSED\n", *counts)
        self.keeps("let through", 2)

    def unfit(self):
        """An edit that does not fit its text, or names no function, fails, whether it is tried or not."""
        self.judge("all fit", self.repository.edits("--fit"), 0, "edits: 2 passed, 0 failed\n")
        for name, text in UNFIT.items():
            self.repository.write(name, text)
        faults = [f"upper/{Path(it).name}: BAD EDIT: " for it in UNFIT]
        self.judge("two do not fit", self.repository.edits("--fit"), 1, *faults, "edits: 2 passed, 2 failed\n")
        self.judge("unfit and tried", self.repository.edits(), 1, *faults, "edits: 1 passed, 2 failed\n")
        self.keeps("unfit", 2)

    def last_changed(self):
        """The crates that were changed last are told by their commits, and by what is not committed."""
        root, name = self.repository.root, "crates/low/src/lib.rt"
        self.repository.commit(1000)
        self.repository.write("crates/upper/src/lib.rt", FILES["crates/upper/src/lib.rt"] + "\n")
        self.repository.commit(2000)
        found = last_changes(root)
        self.tally.judge(found == {"low": 1000, "upper": 2000}, f"last changes: {found}")
        self.repository.write(name, FILES[name] + "\n")
        found = last_changes(root)
        self.tally.judge(found == {"low": float("inf"), "upper": 2000}, f"last changes, one not committed: {found}")

    def run(self):
        """Runs all steps."""
        self.tally.judge(self.repository.build(), "the crates are not proved")
        for step in (self.no_time, self.twice, self.not_whole, self.comment_below):
            step()
        for step in (self.changed_meanwhile, self.let_through, self.unfit, self.last_changed):
            step()


def main():
    tally = Tally("edits_test")
    with tempfile.TemporaryDirectory(prefix="edits-test-") as room:
        Path(room).chmod(0o755)
        Test(Repository(Path(room)), tally).run()
    return tally.close()


if __name__ == "__main__":
    sys.exit(main())
