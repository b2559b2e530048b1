"""Runs `dmypy check` with each of its growths refused in turn.

Each check of checks.py is run with its first growth refused, then with its second, and so on, until a run in which none
was refused. Such a run prints and tells what checks.py says. Each other run ends with status 2 and does one of three:

- It prints nothing and tells `error: out of memory`, before the first file.
- It tells `dmypy: FILE: refused 9 memory` for exactly one file whose path is not refused, in its place among the lines
  on the other files. The rest is what the program prints and tells, with memory enough, for the other files.
- It tells `dmypy: refused 9 memory` after the lines on the files, and prints nothing.
"""

from checks import CHECKS, NONE
from preloaded import OUT_OF_MEMORY, growth_numbers

OF_A_CHECK = b"dmypy: refused 9 memory\n"


class Checks:
    """Runs of checks, each judged. `seen` holds the kinds of refusal that occurred."""

    def __init__(self, program, tally):
        self.program = program
        self.tally = tally
        self.seen = set()

    def outcome(self, options, files):
        """What is printed and told for these files with memory enough."""
        if not files:
            return NONE.encode(), b""
        done = self.program.run(["check", *options, *files])
        return done.output, done.told

    def variants(self, check):
        """What is printed and told where a growth is refused, with the kind of the refusal."""
        variants = {(b"", OUT_OF_MEMORY): "start", (b"", check.told.encode() + OF_A_CHECK): "check"}
        for place, file in enumerate(check.files):
            if f"dmypy: {file}: refused 2 path\n" in check.told:
                continue
            before = self.outcome(check.options, check.files[:place])[1]
            printed, told = self.outcome(check.options, check.files[:place] + check.files[place + 1:])
            line = f"dmypy: {file}: refused 9 memory\n".encode()
            variants[(printed, before + line + told.removeprefix(before))] = "file"
        return variants

    def judge_check(self, check):
        """Judges the runs of one check."""
        name = " ".join(check.words())
        variants = self.variants(check)
        for nth in growth_numbers():
            done = self.program.run(check.words(), refuse=nth)
            if not done.was_refused:
                expected = (check.printed.encode(), check.told.encode(), check.status)
                is_right = (done.output, done.told, done.status) == expected
                self.tally.judge(is_right, f"{name}, no growth refused: {done}")
                return
            kind = variants.get((done.output, done.told))
            self.tally.judge(kind is not None and done.status == 2, f"{name}, growth {nth} refused: {done}")
            self.seen.add(kind)

    def judge_seen(self):
        """Judges that each kind of refusal occurred."""
        for kind in ("start", "file", "check"):
            self.tally.judge(kind in self.seen, f"no check had a growth refused at its {kind}")


def judge_checks(program, tally):
    """Judges the runs of all checks."""
    checks = Checks(program, tally)
    for check in CHECKS:
        checks.judge_check(check)
    checks.judge_seen()
