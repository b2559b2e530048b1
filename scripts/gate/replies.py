"""What a session adds, and what is printed where it is checked."""

from typing import NamedTuple

OK = b"ok\n"


class Message(NamedTuple):
    """An error or a note at a line of a file, with its text as it is printed: that of an error ends with its code."""

    path: str
    line: int
    kind: str
    text: str


def add(path, source=""):
    """The command that adds a file."""
    return f"add {path} {len(source.encode())}\n{source}".encode()


def counted(number, word):
    """A number with its word, which is singular for 1."""
    return f"{number} {word}{'' if number == 1 else 's'}"


def report(messages, files):
    """What a check of so many files prints where it reports these messages, which are in order."""
    lines = "".join(f"{it.path}:{it.line}: {it.kind}: {it.text}\n" for it in messages)
    wrong = [it.path for it in messages if it.kind == "error"]
    checked = counted(files, "source file")
    found = f"Found {counted(len(wrong), 'error')} in {counted(len(set(wrong)), 'file')} (checked {checked})"
    summary = found if wrong else f"Success: no issues found in {checked}"
    return f"{lines}{summary}\nstatus {1 if wrong else 0}\n".encode()
