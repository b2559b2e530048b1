"""The `rt ci` that builds the libraries, and the processors that it leaves for the checks of edits."""

import math
import os
import queue
import re
import subprocess
import threading
import time
from pathlib import Path

# How long, in seconds, a processor has been free of proofs where a check may take it.
FREE = 4


class Processors:
    """The processors on which no check of an edit runs, at first as many as there are jobs."""

    def __init__(self, jobs):
        usable, self.free = sorted(os.sched_getaffinity(0)), queue.SimpleQueue()
        for it in range(jobs):
            self.free.put(usable[it % len(usable)])

    def run(self, command, folder):
        """Runs a command in a folder on one processor, which no other of these commands uses: the prover would start a thread
        for each processor that it may use, and spend a third more in all."""
        processor = self.free.get()
        how = {"stdin": subprocess.DEVNULL, "stdout": subprocess.PIPE, "stderr": subprocess.STDOUT, "errors": "replace"}
        try:
            return subprocess.run(command, cwd=folder, preexec_fn=lambda: os.sched_setaffinity(0, {processor}), **how)
        finally:
            self.free.put(processor)


class Proofs:
    """The `rt ci` that builds the libraries in a folder and writes a log, if there is one, beside which checks are made: it
    takes as many processors as it has checks, and those that it leaves free are for the edits."""

    def __init__(self, built, log, processors):
        self.built, self.log, self.processors, self.begins = built, log, processors, threading.Lock()

    def state(self):
        """Returns the crates of which its log says that they are proved, None where there is no log and all are, and whether it
        has ended: its log has its closing line."""
        if self.log is None:
            return None, True
        text = self.log.read_text(encoding="utf-8", errors="replace")
        proved = set(re.findall(r"(?m)^rt: (\w+) (?:proved|is kept: .*)$", text))
        return proved, bool(re.search(r"(?m)^\d+ passed, \d+ failed", text))

    def running(self):
        """Returns how many checks it runs."""
        found = 0
        for it in Path("/proc").glob("[0-9]*"):
            try:
                found += os.readlink(it / "cwd").startswith(f"{self.built}/") and os.readlink(it / "exe").endswith("/rattle")
            except OSError:
                # (the process has ended)
                pass
        return found

    def wait(self, end=math.inf):
        """Waits until a processor is free, and returns whether one is before that time."""
        with self.begins:
            since = time.monotonic()
            while time.time() < end:
                if time.monotonic() - since >= FREE or self.state()[1]:
                    return True
                time.sleep(1)
                if self.running() >= self.processors.free.qsize():
                    since = time.monotonic()
            return False


class Turns:
    """The trials in turn, the first ones first: each once its crate is proved, and at last those whose crates are not."""

    def __init__(self, trials, proofs):
        self.left, self.proofs, self.takes = [*trials], proofs, threading.Lock()

    def take(self):
        """Returns the next trial and whether its crate is proved, once there is one, or None where none is left."""
        with self.takes:
            while self.left:
                proved, is_over = self.proofs.state()
                is_proved = lambda it: proved is None or it.name in proved
                found = next((it for it in self.left if is_proved(it)), self.left[0] if is_over else None)
                if found:
                    self.left.remove(found)
                    return found, is_proved(found)
                time.sleep(2)
        return None
