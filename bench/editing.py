#!/usr/bin/env python3
"""Measures the built program: what a check after an edit costs beside one from scratch.

    bench/editing.py [PROGRAM]

A session gets 1,021 made files, each with a class, and with functions whose bodies call those of the file before; it
checks, and then checks after edits: none, another body, another comment, another result of a
function that one file reads, and of one that all files read. Each check is measured by the processor time of the program, several times, and the
medians are printed in milliseconds, with the number of units that were examined. Then one file of a small workspace is
edited and checked 100,000 times, and the memory that the program holds after each tenth is printed.

Nothing is passed or failed: the numbers depend on the machine.
"""

import re
import statistics
import sys
from pathlib import Path

from session import PROGRAM, Session

FILES = 1_021
TIMES = 5
EDITS = 100_000
HEAD = "from hot import shared\n"
BODY = """class C{n}:
    def __init__(self, a: int) -> None:
        self.a = a
        self.b: str = "{word}"
    def total(self, other: int) -> int:
        values = [self.a, other, 1]
        result = 0
        for value in values:
            if value > 2:
                result += value
        return result + shared()
def make{n}(a: int) -> {result}:
    c = C{n}(a)
    if c.total(1) > 3:
        return {given}
    return {given}
def use{n}(a: int) -> int:
    made = C{n}(a).total(a)
    return made + {before}
"""


def source(number, word="s", result="int", given="a"):
    """The text of a file, which reads the file before it."""
    before = f"make{number - 1}(a)" if number else "a"
    imported = f"from m{number - 1} import make{number - 1}\n" if number else ""
    return HEAD + imported + BODY.format(n=number, word=word, result=result, given=given, before=before)


def put(word, path, text):
    """The command that adds or changes a file."""
    return f"{word} {path} {len(text.encode())}\n{text}".encode()


def processor_time(session):
    """The seconds of processor time that the program has used."""
    return int(Path(f"/proc/{session.process.pid}/schedstat").read_text().split()[0]) / 1e9


def memory(session):
    """The memory that the program holds, in KiB."""
    found = re.search(r"VmRSS:\s*(\d+)", Path(f"/proc/{session.process.pid}/status").read_text())
    return int(found.group(1))


def check(session):
    """Checks; gives the seconds that it took, and the number of units that were examined."""
    begun = processor_time(session)
    session.ask(b"check\n", b"status ")
    took = processor_time(session) - begun
    status, _ = session.ask(b"status\n", b"files ")
    return took, int(status.split()[-1])


def measure(session, name, edits):
    """Checks after each of these edits, and prints what it took."""
    found = []
    for commands in edits:
        for command in commands:
            session.ask(command, b"ok\n")
        found.append(check(session))
    took, examined = statistics.median(it[0] for it in found), found[-1][1]
    print(f"  {name:32} {1000 * took:8.2f} ms, {examined} units examined", flush=True)


def edits_of_many(program):
    """Checks of many files."""
    session = Session(program)
    for number in range(FILES - 1):
        session.ask(put("add", f"m{number}.py", source(number)), b"ok\n")
    session.ask(put("add", "hot.py", "def shared() -> int:\n    return 1\n"), b"ok\n")
    print(f"{FILES} files", flush=True)
    measure(session, "the first check", [[]])
    measure(session, "no edit", [[]] * TIMES)
    middle = f"m{FILES // 2}.py"
    turns = range(TIMES)
    measure(session, "another body", [[put("change", middle, source(FILES // 2, word=f"w{it}"))] for it in turns])
    measure(session, "another comment", [[put("change", middle, source(FILES // 2) + f"# {it}\n")] for it in turns])
    for name, path, text in (
        ("a result that one file reads", middle, lambda it: source(FILES // 2, result=("str", "int")[it % 2])),
        ("a result that all files read", "hot.py", lambda it: f"def shared() -> {('str', 'int')[it % 2]}:\n    return 1\n"),
    ):
        measure(session, name, [[put("change", path, text(it))] for it in turns])
    session.close()


def many_edits(program):
    """Many edits of few files."""
    session = Session(program)
    for number in range(3):
        session.ask(put("add", f"m{number}.py", source(number)), b"ok\n")
    print(f"{EDITS} edits of 3 files: KiB after each tenth", flush=True)
    for number in range(EDITS):
        result = ("int", "str")[number // 3 % 2]
        session.ask(put("change", "m1.py", source(1, word=f"w{number}", result=result)), b"ok\n")
        session.ask(b"check\n", b"status ")
        if (number + 1) % (EDITS // 10) == 0:
            print(f"  {number + 1:8} {memory(session)}", flush=True)
    session.close()


def main():
    if len(sys.argv) > 2:
        print(__doc__)
        return 2
    program = sys.argv[1] if len(sys.argv) == 2 else PROGRAM
    edits_of_many(program)
    many_edits(program)
    return 0


if __name__ == "__main__":
    sys.exit(main())
