#!/usr/bin/env python3
"""Runs the built program on real files: `dmypy check FILE...`, a session that reads them by `update`, and sessions whose
input or output fails.

A run has a limit of time. Ends with the line `files: P passed, F failed`, where each run is one, and with status 0 or 1.
"""

import os
import subprocess
import sys
import tempfile
import threading
from pathlib import Path

from checks import CHECKS, CLEAN, make_files
from judging import PROGRAM, SECONDS, Tally


def judge_checks(folder, tally):
    """`dmypy check` on files of this folder."""
    how = {"cwd": folder, "capture_output": True, "text": True, "timeout": SECONDS, "check": False}
    for check in CHECKS:
        try:
            done = subprocess.run([PROGRAM, *check.words()], **how)
            is_right = (done.stdout, done.stderr, done.returncode) == (check.printed, check.told, check.status)
        except subprocess.TimeoutExpired as late:
            done, is_right = late, False
        tally.judge(is_right, f"{' '.join(check.words())}: {done}")
    done = subprocess.run([PROGRAM, "check"], **how)
    tally.judge(done.stdout == "" and "<FILE>..." in done.stderr and done.returncode == 2, f"check: {done}")


def judge_words(folder, tally):
    """A file whose name is not UTF-8 is refused for its path, and the others are checked."""
    how = {"cwd": folder, "capture_output": True, "timeout": SECONDS, "check": False}
    done = subprocess.run([PROGRAM, "check", b"caf\xe9.py", "good.py", b"\xff\xfe"], **how)
    told = b"dmypy: caf\x1a.py: refused 2 path\ndmypy: \x1a\x1a: refused 2 path\n"
    tally.judge((done.stdout, done.stderr, done.returncode) == (CLEAN.encode(), told, 2), f"names that are no text: {done}")
    done = subprocess.run([PROGRAM, "check", "a" * 100_000, "good.py"], **how)
    tally.judge((done.stdout, done.returncode) == (CLEAN.encode(), 2), f"a long word: {done}")
    done = subprocess.run([PROGRAM, b"\xff"], **how)
    tally.judge((done.stdout, done.returncode) == (b"", 2), f"a word that is no text and no command: {done}")


def judge_updates(folder, tally):
    """A session over pipes in which a file changes and vanishes: the last bytes that were read stay."""
    (folder / "late.py").write_text('x: int = "a"\n')
    with subprocess.Popen([PROGRAM, "session"], cwd=folder, stdin=subprocess.PIPE, stdout=subprocess.PIPE) as session:
        # a session that does not answer is killed, and what it did not say is judged
        watch = threading.Timer(SECONDS, session.kill)
        watch.start()

        def asked(command, lines):
            try:
                session.stdin.write(command.encode())
                session.stdin.flush()
            except BrokenPipeError:
                return ""
            return b"".join(session.stdout.readline() for _ in range(lines)).decode()

        tally.judge(asked("update late.py\n", 1) == "ok\n", "update of a file")
        tally.judge(asked("check\n", 3).endswith("status 1\n"), "check of it")
        (folder / "late.py").write_text("x: int = 1\n")
        tally.judge(asked("update late.py\n", 1) == "ok\n", "update of a file that changed")
        (folder / "late.py").unlink()
        tally.judge(asked("update late.py\n", 1) == "refused 10 unreadable\n", "update of a file that vanished")
        tally.judge(asked("check\n", 2) == CLEAN + "status 0\n", "check without it")
        tally.judge(asked("update pipe.py\n", 1) == "refused 10 unreadable\n", "update of a pipe")
        tally.judge(asked("stop\n", 1) == "ok\n", "stop")
        try:
            session.stdin.close()
        except BrokenPipeError:
            pass
        tally.judge(session.wait(SECONDS) == 0, "the session's status")
        watch.cancel()


def judge_faults(folder, tally):
    """A session whose input or output fails, and a check whose output fails, tell why on standard error."""
    how = {"cwd": folder, "stderr": subprocess.PIPE, "timeout": SECONDS, "check": False}
    for words, sent in ((["session"], b"status\n"), (["check", "good.py"], b""), (["check", "bad.py"], b"")):
        with open("/dev/full", "wb") as full:
            done = subprocess.run([PROGRAM, *words], input=sent, stdout=full, **how)
        is_right = (done.stderr, done.returncode) == (b"dmypy: the output cannot be written\n", 2)
        tally.judge(is_right, f"{words} with a full output: {done}")
    folder_as_input = os.open(folder, os.O_RDONLY)
    try:
        done = subprocess.run([PROGRAM, "session"], stdin=folder_as_input, stdout=subprocess.PIPE, **how)
    finally:
        os.close(folder_as_input)
    tally.judge((done.stderr, done.returncode) == (b"dmypy: the input cannot be read\n", 2), f"a folder as input: {done}")


def judge_closed(folder, tally):
    """A check prints its report also where a file is refused and standard error takes nothing; where neither takes
    anything, or the output alone, its status says so."""
    how = {"cwd": folder, "stdin": subprocess.DEVNULL, "timeout": SECONDS, "check": False}
    refused = [PROGRAM, "check", "gone.py", "good.py"]
    closed = ["sh", "-c", 'exec "$@" 2>&-', "sh", *refused]
    done = subprocess.run(closed, stdout=subprocess.PIPE, **how)
    tally.judge((done.stdout, done.returncode) == (CLEAN.encode(), 2), f"a closed standard error: {done}")
    with open("/dev/full", "wb") as full:
        done = subprocess.run(refused, stdout=subprocess.PIPE, stderr=full, **how)
        tally.judge((done.stdout, done.returncode) == (CLEAN.encode(), 2), f"a full standard error: {done}")
        done = subprocess.run([PROGRAM, "check", "good.py"], stdout=subprocess.PIPE, stderr=full, **how)
        tally.judge((done.stdout, done.returncode) == (CLEAN.encode(), 0), f"one with nothing to take: {done}")
        done = subprocess.run(refused, stdout=full, stderr=full, **how)
        tally.judge(done.returncode == 2, f"a full output and a full standard error: {done}")
    told = b"dmypy: gone.py: refused 10 unreadable\ndmypy: the output cannot be written\n"
    closed = ["sh", "-c", 'exec "$@" >&-', "sh", *refused]
    done = subprocess.run(closed, stderr=subprocess.PIPE, **how)
    tally.judge((done.stderr, done.returncode) == (told, 2), f"a closed output: {done}")


def main():
    tally = Tally("files")
    with tempfile.TemporaryDirectory() as name:
        folder = Path(name)
        make_files(folder)
        judge_checks(folder, tally)
        judge_words(folder, tally)
        judge_updates(folder, tally)
        judge_faults(folder, tally)
        judge_closed(folder, tally)
    return tally.close()


if __name__ == "__main__":
    sys.exit(main())
