"""Known errors: a file that lists them by path, code and text, with how many there are, so that lines may move.

    read_known(path)           the known errors: BadBaseline says what is wrong with the file
    write_known(path, known)
    known_errors(messages)     those of messages
    unknown(messages, known)   the messages less the errors that are known
"""

import json
from collections import Counter
from pathlib import Path
from typing import NamedTuple

from .trouble import Trouble


class BadBaseline(Trouble):
    """A file of known errors cannot be read."""


class Key(NamedTuple):
    """What known errors are told apart by."""

    file: str
    code: str
    message: str


def key_of(message):
    """Returns the key of an error."""
    return Key(message.path, message.code, message.text)


def known_errors(messages):
    """Returns how many errors there are of each key."""
    return Counter(key_of(it) for it in messages if it.kind == "error")


def unknown(messages, known):
    """Returns the messages without the known errors. Where there are more of a key than are known, all of them are
    left, since any may be the new one."""
    found = known_errors(messages)
    return [it for it in messages if it.kind != "error" or found[key_of(it)] > known[key_of(it)]]


def read_known(path):
    """Returns the known errors of a file."""
    try:
        entries = json.loads(Path(path).read_bytes())
        return Counter({Key(it["file"], it["code"], it["message"]): int(it["count"]) for it in entries})
    except OSError as why:
        raise BadBaseline(f"{path}: {why.strerror}; --write-baseline writes it") from why
    except (ValueError, TypeError, KeyError) as why:
        raise BadBaseline(f"{path}: this is no file of known errors") from why


def write_known(path, known):
    """Writes known errors into a file, a line for each key."""
    lines = [json.dumps({**key._asdict(), "count": count}) for key, count in sorted(known.items()) if count]
    text = ",\n".join(lines)
    try:
        Path(path).write_text(f"[\n{text}\n]\n" if lines else "[]\n", encoding="utf-8")
    except OSError as why:
        raise BadBaseline(f"{path}: {why.strerror}") from why
