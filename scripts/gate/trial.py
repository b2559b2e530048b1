"""The trial of the edits of one crate: the checks that the prover makes of copies of it."""

import shutil
import tempfile
import threading
import time
from collections import Counter
from dataclasses import dataclass
from pathlib import Path

from crate_copy import has_listing, leave_open, make_copy, strip_answers
from edit import apart, files_read, one_a_function
from kept import Kept
from proofs import Proofs
from repository import KIT, below
from verdict import answer_refused, refusal, refusal_in_check, refusal_of_crate

# Held while something is said, so that what several trials say at once stands in lines of its own.
SAYS = threading.Lock()


@dataclass
class Setting:
    """What the trials share: the libraries that each crate stands on, the folder where these were built and one for what the
    checks keep, the proofs beside which they are made, what earlier runs kept, and when no more trial begins."""

    known: dict
    built: Path
    room: Path
    proofs: Proofs
    kept: Kept
    end: float


def words(known, folder, built):
    """Returns the command that checks the crate in a folder over the libraries that were built in another."""
    name = folder.name
    found = ["--crate-name", name, "src/main.rt" if (folder / "src/main.rt").is_file() else "src/lib.rt"]
    for it in ["std", *[it for it in known[name] if it not in known]]:
        found += ["--extern", f"{it}={KIT}/rlibs/{it}.rlib"]
    found += ["-L", f"dependency={KIT}/rlibs"]
    for it in [it for it in known[name] if it in known]:
        found += ["--extern", f"{it}={built}/{it}/out/rlib/{it}.rlib"]
    for it in below(known, name):
        found += ["-L", f"dependency={built}/{it}/out/rlib"]
    found += ["--antt-project", f"{KIT}/rattle/logic/antt-project.json", "--logic-built", f"{KIT}/logic_built"]
    return [str(KIT / "bin/rattle"), "check", *found, "--links", f"{name}=", "--jobs", "1"]


class Trial:
    """The trial of the edits of one crate, with the folder where its checks keep what they proved."""

    def __init__(self, setting, folder, edits):
        self.setting, self.folder, self.name, self.edits = setting, folder, folder.name, edits
        self.words = words(setting.known, folder, setting.built)
        self.library = setting.built / self.name / "out" / "rlib" / f"{self.name}.rlib"
        self.proved, self.checks, self.last = setting.room / self.name, 0, {}
        self.left, self.said, self.failed = [*edits], [], 0

    def check(self, edits, only, bare=False):
        """Checks a copy of the crate with these edits, and returns the status and what the prover said; a bare copy is without
        the answers that only list lemmas."""
        self.checks += 1
        copy = Path(tempfile.mkdtemp(dir=self.setting.room))
        make_copy(self.folder, copy, edits)
        if bare:
            strip_answers(copy)
        holes = leave_open(self.library, copy, edits, only) if only else []
        asked = [word for it in sorted(only) for word in ("--only", it)]
        command = [*self.words, "--incremental", str(self.proved), *asked, *holes]
        if self.checks > 1:
            self.setting.proofs.wait()
        run = self.setting.proofs.processors.run
        ran = run(command, copy)
        if ran.returncode < 0:
            # (killed, most likely for memory)
            ran = run(command, copy)
        shutil.rmtree(copy)
        return ran.returncode, ran.stdout

    def together(self, edits, bare=False):
        """Tries edits in one check, and judges those that are refused. Returns those that it does not judge."""
        status, said = self.check(edits, {it.place[3] for it in edits}, bare)
        if status == 2:
            self.say(said.rstrip().splitlines()[-1])
        for it in edits:
            self.last[it] = said
            if status == 1 and (why := refusal(it, said, files_read(it) if it.refuses else ())):
                self.judge(it, why)
        return [it for it in edits if it in self.left]

    def in_turn(self, edits, bare=False):
        """Tries edits of bodies in checks, each with one edit of a function, and with what the check before passed over."""
        while part := one_a_function(edits):
            passed_over = self.together(part, bare)
            if len(passed_over) == len(part):
                break
            edits = [it for it in edits if it not in part or it in passed_over]

    def alone(self, edit):
        """Tries one edit, on the function that it names or on the whole crate, and returns why it is refused, or None."""
        if edit.refuses and edit.place and (why := refusal_in_check(edit, *self.check([edit], {edit.place[3]}, True))):
            return why
        if edit.is_body and (why := answer_refused(edit, self.last.get(edit, ""))):
            return why
        return refusal_of_crate(*self.check([edit], set(), True))

    def judge(self, edit, why):
        """Keeps what came of an edit, None where it was not refused."""
        self.left.remove(edit)
        self.failed += why is None
        self.said.append(f"{self.name}/{edit.path.name}: {'NOT REFUSED' if why is None else 'refused: ' + why[:160]}")

    def try_all(self):
        """Tries all edits, and says what came of each."""
        for it in [it for it in self.left if it.fault]:
            self.judge(it, None)
            self.said.append(f"{self.name}/{it.path.name}: BAD EDIT: {it.fault}")
        for part in apart([it for it in self.left if it.refuses]):
            if len(part) > 1 and part[0].place:
                self.together(part)
        self.in_turn([*self.left])
        self.in_turn([it for it in self.left if it.is_body and it.place and has_listing(it)], True)
        for it in [*self.left]:
            self.judge(it, self.alone(it))
        shutil.rmtree(self.proved, ignore_errors=True)
        with SAYS:
            print("\n".join(self.said), flush=True)

    def say(self, what):
        """Says something of the crate's edits."""
        with SAYS:
            print(f"edits: {self.name}: {what}", flush=True)

    def run(self, is_proved):
        """Tries all edits, unless their crate is not proved, an earlier run tried them, or the time is over. Returns how many
        were tried, kept and left, and how many passed and failed."""
        count, kept = len(self.edits), self.setting.kept
        stands_on = lambda: kept.sum_of(self.setting.known, self.setting.built, self.folder, self.edits)
        if not is_proved:
            self.say(f"{count} NOT TRIED: the crate is not proved")
            return Counter(left=count, failed=count)
        before = stands_on()
        if kept.has(before, self.edits):
            self.say(f"{count} kept: an earlier run on this machine tried them, and nothing that they stand on has changed")
            return Counter(kept=count, passed=count)
        if not self.setting.proofs.wait(self.setting.end):
            self.say(f"{count} not tried: the time for edits was over before they began")
            return Counter(left=count)
        begun = time.monotonic()
        self.try_all()
        self.say(f"{count} tried in {self.checks} checks, {time.monotonic() - begun:.0f} s")
        if stands_on() != before:
            self.say("not kept, since files changed while they were tried")
        elif not self.failed:
            kept.keep(before, self.edits)
        return Counter(tried=count, passed=count - self.failed, failed=self.failed)
