"""The texts that an editor holds, and places in them. It counts lines from 0, and columns in units of UTF-16."""

import itertools
import re
from typing import NamedTuple

LINE_END = re.compile(r"\r\n|\n|\r")
STAMPS = itertools.count()
# the front of a line on which a statement of the top level begins, if it is in no string and in no brackets
TOP = re.compile(r"^[^\s#)\]}]", re.MULTILINE)


def units(text):
    """Returns the number of units of UTF-16 in a text."""
    return len(text) if text.isascii() else len(text.encode("utf-16-le", "surrogatepass")) // 2


def characters(text, column):
    """Returns how many characters of a text stand before a column. A column past the end is the end."""
    if text.isascii():
        return min(column, len(text))
    passed = itertools.accumulate(1 + (character > "\uffff") for character in text)
    return next((at for at, after in enumerate(passed) if after > column), len(text))


def lines_of(text):
    """Returns the lines of a text, without their ends."""
    return LINE_END.split(text) if "\r" in text else text.split("\n")


class Text(NamedTuple):
    """A text with a stamp that no other text of a document has."""

    stamp: int
    text: str

    def content(self):
        """Returns the bytes of the text. Half of a surrogate pair is no UTF-8, and the checker reports it so."""
        return self.text.encode("utf-8", "surrogatepass")


class Document:
    """A text that an editor holds.

    `is_saved` says that the text is that of the disk, as the editor opened or saved it. `good` is the last text in
    which a check found no fault, or None; `before` and `after` are how many characters at the front and at the end of
    the text stand in it, too. `fault` is the message on a fault that keeps the text from the session, which then holds
    `good`, and `is_read` says that somebody looked for one.
    """

    def __init__(self, uri, version, text):
        self.uri = uri
        self.is_saved = True
        self.good = None
        self.before = self.after = 0
        self._set(version, text)

    def change(self, version, changes):
        """Applies changes in order: of a range, or of the whole text where a change has no range."""
        text = self.text
        for change in changes:
            begin, end = places(text, change["range"]) if change.get("range") else (0, len(text))
            self.before = min(self.before, begin)
            self.after = min(self.after, len(text) - end)
            text = text[:begin] + change["text"] + text[end:]
        self.is_saved = False
        self._set(version, text)

    def _set(self, version, text):
        self.version = version
        self.now = Text(next(STAMPS), text)
        self.fault = None
        self.is_read = False

    @property
    def text(self):
        """The text as the editor has it."""
        return self.now.text

    @property
    def is_typed(self):
        """Whether the text is not saved, and a text before it had no fault."""
        return self.good is not None and not self.is_saved

    def held(self):
        """Returns the text that the session is to hold."""
        return self.good if self.fault else self.now

    def keep(self):
        """Takes note that a check found no fault in the text."""
        self.good = self.now
        self.before = self.after = len(self.text)

    def edited(self):
        """Returns the statements of the top level that differ from the good text, as far as lines tell their ends."""
        text = self.text
        begin, end = self.before, len(text) - self.after
        while begin > 0:
            begin = text.rfind("\n", 0, max(0, begin - 1)) + 1
            if TOP.match(text, begin):
                break
        behind = TOP.search(text, max(begin + 1, end))
        return text[begin : behind.start() if behind else len(text)]


def places(text, span):
    """Returns where a range begins and ends in a text."""
    lines = lines_of(text)
    return [place(text, lines, span[side]) for side in ("start", "end")]


def place(text, lines, position):
    """Returns where a position is in a text with these lines."""
    line = position["line"]
    if line >= len(lines):
        return len(text)
    ends = (found.end() - found.start() for found in LINE_END.finditer(text)) if "\r" in text else itertools.repeat(1)
    start = sum(map(len, lines[:line])) + sum(itertools.islice(ends, line))
    return start + characters(lines[line], position["character"])
