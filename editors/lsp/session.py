"""A client of `dmypy session`: it gives files to the session and asks it for reports. docs/RULES.md has the commands.

    Session(program, options, folder, layout, patience)    starts a session; Ended says why there is none
    session.update(path), session.give(path, content)      what the session refuses of a file, or None
    session.remove(path)
    session.check()                                        the Report on the files that are present
    session.why(path, refusal)                             a text on a refusal, for users

All paths are those of the disk, seen from the folder. The session has others, as imports see the files: paths.py.
"""

import os
import select
import stat
import subprocess
from pathlib import Path
from typing import NamedTuple

from .paths import INIT, LONGEST_PATH, SUFFIXES, Layout, beside, module_key, module_named
from .settings import OPTIONS
from .trouble import Trouble

LARGEST_FILE = 1048576
MOST_FILES = 1024
CHUNK = 65536
ENDS = (b"\nstatus 0\n", b"\nstatus 1\n")
BAD_PATH = "2 path"
LARGE = "5 large"
MANY = "6 many"
TAKEN = "7 module"
UNREADABLE = "10 unreadable"
NO_MEMORY = b"refused 9 memory\n"
# what may be wrong with a file, by the words after `refused`
REASONS = {
    BAD_PATH: "no session takes its path",
    LARGE: "it has more than 1,048,576 bytes",
    MANY: "the session holds 1,024 files already",
    TAKEN: "another file names the same module",
    "9 memory": "there is no memory for it",
    UNREADABLE: "no regular file can be read there",
}


class Ended(Trouble):
    """The session could not be started, or it ended, or it is silent."""


class Silent(Ended):
    """The session does not answer."""


class Message(NamedTuple):
    """A message of a report. `line` is counted from 1, and `code` is empty for a note."""

    path: str
    line: int
    kind: str
    text: str
    code: str = ""

    def shown(self):
        """Returns the message as a line of a report."""
        return f"{printable(self.path)}:{self.line}: {self.kind}: {self.text}{f'  [{self.code}]' if self.code else ''}"


class Report(NamedTuple):
    """What a check prints before its status."""

    found: tuple
    summary: str
    is_clean: bool

    def messages(self):
        """Returns the messages."""
        return [*self.found]

    def text(self):
        """Returns the report as `dmypy check` prints it, with the paths of the disk."""
        return "".join(f"{line}\n" for line in (*(it.shown() for it in self.found), self.summary))


def printable(path):
    """Returns a path as it is printed: on one line, and with what is no text in digits."""
    return path if path.isprintable() else ascii(path)[1:-1]


def summary(errors, files, checked):
    """Returns the last line of a report: how many errors there are in how many files, and how many were checked."""
    of = f"{checked} source file{'' if checked == 1 else 's'}"
    if not errors:
        return f"Success: no issues found in {of}"
    found = f"Found {errors} error{'' if errors == 1 else 's'}"
    return f"{found} in {files} file{'' if files == 1 else 's'} (checked {of})"


def message_of(line, files):
    """Returns the message of a line of a report. No path of a session has a space, so the first one ends the place."""
    place, _, rest = line.partition(" ")
    name, _, number = place.rstrip(":").rpartition(":")
    path = files.get(name, name)
    kind, _, text = rest.partition(": ")
    if kind == "note":
        return Message(path, int(number), kind, text)
    text, _, code = text.rpartition("  [")
    return Message(path, int(number), kind, text, code.rstrip("]"))


def report_of(text, files, known=()):
    """Returns the report that a text has, with the paths of the disk: `files` has them by those of the session. `known`
    has messages by their lines."""
    *lines, last = text.split("\n")[:-1]
    found = tuple(known[line] if line in known else message_of(line, files) for line in lines)
    return Report(found, last, last.startswith("Success: "))


def is_file_path(path):
    """Whether a file of a session may have this path."""
    try:
        name = path.encode()
    except UnicodeEncodeError:
        return False
    parts = path.split("/")
    return (
        len(name) <= LONGEST_PATH
        and all(byte > ord(" ") and byte != 127 for byte in name)
        and not any(part in ("", ".", "..") for part in parts)
        and parts[-1].endswith(SUFFIXES)
        and parts[-1] not in SUFFIXES
        and beside(path) != INIT
    )


def add_words(words):
    """Adds the program and its options to a command line."""
    words.add_argument("--program", help="the program, else $DMYPY, this checkout's own, or dmypy on the PATH")
    for option in OPTIONS:
        words.add_argument(option, dest="options", action="append_const", const=option, default=[], help="its option")


def content_of(path):
    """Returns the bytes of a regular file, or None: of a large one no more than tell that it is large."""
    try:
        if not stat.S_ISREG(os.stat(path).st_mode):
            return None
        with open(path, "rb") as file:
            return file.read(LARGEST_FILE + 1)
    except OSError:
        return None


class Session:
    """A running session on the files of a folder. `files` has the files that are present, by the session's own paths.

    A file that is refused is not present: the session would keep the text that it had before. The session reads the
    bytes after an `add` or a `change` as commands where the path has a space, so no path goes out that it cannot take.
    A session that is silent for `patience` seconds has ended, if that is some number.
    """

    def __init__(self, program, options, folder, layout=Layout(), patience=None):
        self.folder = Path(folder)
        self.layout = layout
        self.patience = patience
        self.files = {}
        # the messages of the last report, by their lines
        self.known = {}
        self.buffer = b""
        pipes = {"stdin": subprocess.PIPE, "stdout": subprocess.PIPE, "bufsize": 0}
        try:
            self.process = subprocess.Popen([program, "session", *options], cwd=folder, **pipes)
        except OSError as why:
            raise Ended(f"{program} cannot be started: {why.strerror}") from why
        os.set_blocking(self.process.stdin.fileno(), False)

    def update(self, path):
        """Has the session hold a file as it lies on the disk. Returns what the session refuses of it, or None."""
        content = content_of(self.folder / path)
        if content is not None:
            return self.give(path, content)
        self.remove(path)
        return UNREADABLE

    def give(self, path, content):
        """Has the session hold a file with these bytes. Returns what the session refuses of it, or None."""
        name = self.layout.session_path(path)
        if not is_file_path(name):
            return BAD_PATH
        if self.files.get(name, path) != path:
            return TAKEN
        word = "change" if name in self.files else "add"
        reply = self._ask(f"{word} {name} {len(content)}\n".encode() + content)
        if reply == "ok":
            if name not in self.files:
                self.files[name], self.known = path, {}
            return None
        self.remove(path)
        return reply.partition(" ")[2]

    def remove(self, path):
        """Takes a file out of the session, if it is present."""
        name = self.layout.session_path(path)
        if self.files.get(name) == path:
            del self.files[name]
            self._ask(f"remove {name}\n".encode())

    def holds(self, path):
        """Whether a file is present."""
        return self.files.get(self.layout.session_path(path)) == path

    def stub(self, path):
        """Returns the stub that is taken in place of a file that is present, or None."""
        return self.files.get(f"{self.layout.session_path(path)}i")

    def why(self, path, refusal):
        """Returns why a file is not checked, for users."""
        if refusal != TAKEN:
            return REASONS.get(refusal, f"refused {refusal}")
        own = self.layout.session_path(path)
        others = [file for name, file in self.files.items() if module_key(name) == module_key(own)]
        return f"{printable(others[0])} names the same module, {module_named(own)}" if others else REASONS[TAKEN]

    def check(self):
        """Returns the report on the files that are present, or None where there is no memory for it."""
        self._send(b"check\n")
        while not self.buffer.endswith(ENDS) and self.buffer != NO_MEMORY:
            self._read()
        text, self.buffer = self.buffer.decode(), b""
        if text.encode() == NO_MEMORY:
            return None
        report = report_of(text[: -len(ENDS[0]) + 1], self.files, self.known)
        self.known = dict(zip(text.split("\n"), report.found))
        return report

    def _ask(self, command):
        """Sends a command, and returns the reply."""
        self._send(command)
        while b"\n" not in self.buffer:
            self._read()
        reply, _, self.buffer = self.buffer.partition(b"\n")
        return reply.decode()

    def _send(self, command):
        left, sink = memoryview(command), self.process.stdin
        try:
            while left:
                self._wait([], [sink])
                left = left[os.write(sink.fileno(), left[:CHUNK]) :]
        except (OSError, ValueError) as why:
            raise Ended("the session ended") from why

    def _read(self):
        self._wait([self.process.stdout], [])
        chunk = os.read(self.process.stdout.fileno(), CHUNK)
        if not chunk:
            raise Ended("the session ended")
        self.buffer += chunk

    def _wait(self, sources, sinks):
        """Waits until one of these streams is ready."""
        if not any(select.select(sources, sinks, [], self.patience)):
            raise Silent(f"the session does not answer in {self.patience:g} seconds")

    def close(self):
        """Ends the session."""
        self.process.kill()
        self.process.wait()
        for stream in (self.process.stdin, self.process.stdout):
            try:
                stream.close()
            except OSError:
                pass
