#!/usr/bin/env python3
"""Tries must-fail edits: `edits.py [--libraries FOLDER] [--follow LOG] [--begun SECONDS] [--anew] [--all] [CRATE..]`.

The libraries that the crates stand on are those that `rt ci` left in FOLDER/NAME/out; FOLDER is `crates` where it is not
named. With `--follow` that `rt ci` still runs and writes LOG: the edits of a crate are tried once LOG says that it is proved,
and count as failed where it is not.

The prover must refuse each edit `crates/NAME/must-fail/*.edit`. One with a line `tried: by hand` stands beside others that turn
what its crate promises: it is tried with `--all` alone. `--fit` tries none, and looks whether each fits its text.
`rt must-fail NAME` tries them all one by one, each with a load of the whole crate. Here several edits of one crate stand in one
check, at most one to a function, and the check asks for the edited functions alone, with the proofs of the others left open and
their bodies left out. A proof reads what other functions promise and not their bodies, so an edit of one body leaves the proof
of another as it was, and wants none of it: an edit counts as refused in such a check only where the prover refuses a goal at a
place in that very function, or an answer of its proof. One of which it says neither is tried in the next check, and at last
alone, in a check of the whole crate. One that takes away a place which an answer names that only lists lemmas
(`first_of (grind ..`) is tried again without such answers, over which the prover looks for a proof by itself. An edit of what
is stated, or of what several functions read, has a line `refuses: FUNCTION`: it is tried in a check of that function, with
others of such a line where no function of theirs reads a file that another of them changes. The checks of a crate run one after
another over what the earlier ones kept, so that the first alone reads what is stated in it.

Where all edits of a crate were refused, that is kept on this machine (`--kept` names the folder), and they are not tried again
while all that they stand on stays the same (kept.py); `--anew` tries all. The crates that git changed last come first.
`GATE_MINUTES` says how many minutes after SECONDS, in seconds as `date +%s` has them, or after the start, no more crate's edits
are begun: they are named as not tried, which is no failure. Without it there is no such end.

`RT_JOBS` says how many checks run side by side, 4 where it is not set. The line before the last counts the edits that were
tried, kept, left to be tried by hand and not tried, and the last line is `edits: N passed, M failed`."""

import argparse
import os
import sys
import tempfile
import time
from collections import Counter
from concurrent.futures import ThreadPoolExecutor
from pathlib import Path

from edit import edits_of
from kept import STORE, Kept
from proofs import Processors, Proofs, Turns
from repository import ROOT, below, last_changes, libraries
from trial import Setting, Trial


def arguments():
    """Returns what the command line gives."""
    given = argparse.ArgumentParser(description="Tries must-fail edits.")
    given.add_argument("--root", type=Path, default=ROOT, help="the repository")
    given.add_argument("--libraries", type=Path, help="where the crates were built")
    given.add_argument("--follow", type=Path, help="the log of the `rt ci` that builds the libraries")
    given.add_argument("--begun", type=float, default=time.time(), help="when the gate began")
    given.add_argument("--kept", type=Path, default=STORE, help="where it is kept that edits were refused")
    given.add_argument("--anew", action="store_true", help="those that an earlier run tried, too")
    given.add_argument("--all", action="store_true", help="those that are tried by hand, too")
    given.add_argument("--fit", action="store_true", help="tries none, and looks whether each fits its text")
    given.add_argument("crates", nargs="*", help="the crates, all where none is named")
    return given.parse_args()


def close(passed, failed):
    """Prints the last line, and returns the status."""
    print(f"edits: {passed} passed, {failed} failed")
    return 1 if failed else 0


def look_at_fit(edits):
    """Says which edits do not fit their text, and returns the status."""
    unfit = [it for it in edits if it.fault]
    for it in unfit:
        print(f"{it.crate}/{it.path.name}: BAD EDIT: {it.fault}")
    return close(len(edits) - len(unfit), len(unfit))


def in_order(trials, root, known):
    """Returns trials in the order in which they are begun: those of crates that git changed last first, and of those of one
    change the ones with the most to do."""
    changed = last_changes(root)
    much = lambda it: len(it.edits) * (8 + len(below(known, it.name)))
    return sorted(trials, key=lambda it: (-changed.get(it.name, 0), -much(it)))


def run_all(turns, jobs):
    """Runs trials side by side, and returns the sum of their counts."""

    def work():
        """Runs one trial after another."""
        counts = Counter()
        while turn := turns.take():
            trial, is_proved = turn
            counts += trial.run(is_proved)
        return counts

    with ThreadPoolExecutor(jobs) as pool:
        workers = [pool.submit(work) for _ in range(jobs)]
    return sum((it.result() for it in workers), Counter())


def main():
    given = arguments()
    root, known = given.root.resolve(), libraries(given.root)
    edits = {name: edits_of(name, root) for name in given.crates or known}
    if given.fit:
        return look_at_fit([it for found in edits.values() for it in found])
    tried = {name: [it for it in found if given.all or it.fault or not it.by_hand] for name, found in edits.items()}
    jobs, built = int(os.environ.get("RT_JOBS", "4")), (given.libraries or root / "crates").resolve()
    proofs = Proofs(built, given.follow, Processors(jobs))
    end = given.begun + 60 * float(os.environ.get("GATE_MINUTES", "inf"))
    with tempfile.TemporaryDirectory(prefix="edits-") as room:
        setting = Setting(known, built, Path(room), proofs, Kept(given.kept, given.anew), end)
        trials = [Trial(setting, root / "crates" / name, found) for name, found in tried.items() if found]
        counts = run_all(Turns(in_order(trials, root, known), proofs), jobs)
    by_hand = sum(len(edits[it]) - len(tried[it]) for it in edits)
    print(f"edits: {counts['tried']} tried, {counts['kept']} kept, {by_hand} by hand, {counts['left']} not tried")
    return close(counts["passed"], counts["failed"])


if __name__ == "__main__":
    sys.exit(main())
