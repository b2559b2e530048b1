#!/usr/bin/env python3
"""Runs sessions with many classes on the built program, and looks whether each is answered as it must be.

    scripts/by_hand/hostile_classes.py [--keep FOLDER] [PROGRAM]

Each session adds its files, asks for a check and stops. It passes where the program ends within a second, with a stack
of 8 MiB at most, and has printed the written text: a message at each class that is its own ancestor, one at each whose
bases have no common order, and none at a class below these or at any other. How long each took is printed too; it says
little where the machine does other work beside.

With `--keep` the sessions stay in that folder, as cases of `rt try --cases`: `NAME` what is read, `NAME.stdout` what is
printed. PROGRAM is that of the repository where none is given. The last line is `N passed, M failed`. The status is 1
where a session failed, else 0.
"""

import argparse
import itertools
import resource
import subprocess
import sys
import time
from pathlib import Path
from typing import NamedTuple

PROGRAM = Path(__file__).resolve().parents[2] / "crates" / "dmypy" / "out" / "dmypy"
SECONDS = 1
STACK = 8 << 20
CLASSES = 1_000
BASES = 64


class Told(NamedTuple):
    """A message: the path and the line at which it stands, and its text."""

    path: str
    line: int
    text: str


def class_line(name, *bases):
    """A class statement on a line by itself."""
    return f"class {name}({', '.join(bases)}): pass\n" if bases else f"class {name}: pass\n"


def cycle(path, line, name):
    """The message on a class that is its own ancestor."""
    return Told(path, line, f'Cycle in the bases of "{name}"  [misc]')


def no_order(path, line, name):
    """The message on a class whose bases have no common order."""
    return Told(path, line, f'Cannot determine consistent method resolution order (MRO) for "{name}"  [misc]')


# ---- workspaces: the files by path, and the messages on them


def chain():
    """Classes of which each stands on the one before it and on the first."""
    lines = [class_line("D0"), class_line("D1", "D0")]
    lines += [class_line(f"D{at}", f"D{at - 1}", "D0") for at in range(2, CLASSES)]
    return {"d.py": "".join(lines)}, []


def chain_without_an_order():
    """Such a chain in which the second class has the first as a base twice: it has no order, nor has one below it."""
    lines = [class_line("D0")] + [class_line(f"D{at}", f"D{at - 1}", "D0") for at in range(1, CLASSES)]
    return {"d.py": "".join(lines)}, [no_order("d.py", 2, "D1")]


def chain_backwards():
    """A chain of which each class stands on the one after it."""
    lines = [class_line(f"D{at}", f"D{at + 1}", f"D{CLASSES}") for at in range(CLASSES - 1)]
    lines += [class_line(f"D{CLASSES - 1}", f"D{CLASSES}"), class_line(f"D{CLASSES}")]
    return {"d.py": "".join(lines)}, []


def bases_without_an_order():
    """Classes of which each has a base before one that stands on it."""
    lines = [class_line("A"), class_line("B", "A")] + [class_line(f"F{at}", "A", "B") for at in range(CLASSES)]
    return {"f.py": "".join(lines)}, [no_order("f.py", at + 3, f"F{at}") for at in range(CLASSES)]


def cycle_in_a_file():
    """Classes of which each stands on the one after it, and the last on the first, and one below them."""
    lines = [class_line(f"C{at}", f"C{(at + 1) % CLASSES}") for at in range(CLASSES)] + [class_line("Below", "C0")]
    return {"c.py": "".join(lines)}, [cycle("c.py", at + 1, f"C{at}") for at in range(CLASSES)]


def cycle_over_files():
    """The same with each class in a file of its own, which imports the one after it."""
    files = {}
    for at in range(CLASSES):
        after = (at + 1) % CLASSES
        files[f"m{at}.py"] = f"from m{after} import C{after}\n{class_line(f'C{at}', f'C{after}')}"
    return files, [cycle(f"m{at}.py", 2, f"C{at}") for at in range(CLASSES)]


def many_bases():
    """A class that stands on many, and one that stands on it and on these."""
    names = [f"B{at}" for at in range(BASES)]
    lines = [class_line(name) for name in names] + [class_line("C", *names), class_line("D", "C", *names)]
    return {"b.py": "".join(lines)}, []


def many_bases_without_an_order():
    """A class that stands on many, and one that stands on it and on these in the other sequence."""
    files, _ = many_bases()
    backwards = class_line("E", "C", *(f"B{at}" for at in reversed(range(BASES))))
    return {"b.py": files["b.py"] + backwards}, [no_order("b.py", BASES + 3, "E")]


WORKSPACES = (
    chain,
    chain_without_an_order,
    chain_backwards,
    bases_without_an_order,
    cycle_in_a_file,
    cycle_over_files,
    many_bases,
    many_bases_without_an_order,
)


# ---- sessions


def counted(count, word):
    return f"{count} {word}{'' if count == 1 else 's'}"


def report(files, messages):
    """What a check prints."""
    if not messages:
        return f"Success: no issues found in {counted(len(files), 'source file')}\nstatus 0\n"
    told = sorted(messages, key=lambda it: (it.path.encode(), it.line, it.text))
    lines = "".join(f"{it.path}:{it.line}: error: {it.text}\n" for it in told)
    faulty = counted(len({it.path for it in messages}), "file")
    found = f"Found {counted(len(messages), 'error')} in {faulty}"
    return f"{lines}{found} (checked {counted(len(files), 'source file')})\nstatus 1\n"


def session_of(files, messages):
    """The bytes of a session, and those that it prints."""
    adds = "".join(f"add {path} {len(text.encode())}\n{text}" for path, text in files.items())
    printed = "ok\n" * len(files) + report(files, messages) + "ok\n"
    return f"{adds}check\nstop\n".encode(), printed.encode()


def keep(folder):
    """Writes each session, and what it prints."""
    folder.mkdir(parents=True, exist_ok=True)
    for workspace in WORKSPACES:
        session, printed = session_of(*workspace())
        (folder / workspace.__name__).write_bytes(session)
        (folder / f"{workspace.__name__}.stdout").write_bytes(printed)


def bounded():
    resource.setrlimit(resource.RLIMIT_STACK, (STACK, STACK))


def fault(program, session, printed):
    """What is wrong with the program's answer to a session, or None."""
    how = {"input": session, "capture_output": True, "timeout": SECONDS, "check": False, "preexec_fn": bounded}
    try:
        done = subprocess.run([program, "session"], **how)
    except subprocess.TimeoutExpired:
        return f"no answer within {SECONDS} second"
    if done.returncode != 0 or done.stderr:
        return f"status {done.returncode}, {done.stderr[:200]!r} on standard error"
    got, wanted = done.stdout.splitlines(), printed.splitlines()
    if done.stdout == printed:
        return None
    same = sum(1 for _ in itertools.takewhile(lambda pair: pair[0] == pair[1], zip(got, wanted)))
    told, due = got[same : same + 1], wanted[same : same + 1]
    return f"line {same + 1} of {len(got)} is {told}, of {len(wanted)} that are wanted {due}"


def judge(program):
    """Runs each session on a program; how many failed."""
    failed = 0
    for workspace in WORKSPACES:
        session, printed = session_of(*workspace())
        start = time.perf_counter()
        wrong = fault(program, session, printed)
        took = time.perf_counter() - start
        print(f"{workspace.__name__}: {wrong or f'{took:.3f} seconds'}", flush=True)
        failed += wrong is not None
    return failed


def main():
    parser = argparse.ArgumentParser(description="Runs sessions with many classes on the built program.")
    parser.add_argument("--keep", type=Path, help="the folder for the sessions")
    parser.add_argument("program", nargs="?", default=str(PROGRAM), help="the built program")
    words = parser.parse_args()
    try:
        if words.keep:
            keep(words.keep)
        failed = judge(words.program)
    except OSError as why:
        print(f"hostile_classes: {why}", file=sys.stderr)
        return 1
    print(f"{len(WORKSPACES) - failed} passed, {failed} failed")
    return 1 if failed else 0


if __name__ == "__main__":
    sys.exit(main())
