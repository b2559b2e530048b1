"""What a project says of itself: the table `[tool.dmypy]` of its pyproject.toml.

    settings_of(folder)    the Settings of a project; BadSettings says what is wrong with them

Python has a reader of TOML since 3.11. Before, the lines of this one table are read here: texts, and lists of texts.
"""

import ast
import re
from pathlib import Path
from typing import NamedTuple

from .trouble import Trouble

try:
    import tomllib
except ImportError:
    tomllib = None

FILE = "pyproject.toml"
OPTIONS = ("--ignore-missing-imports", "--check-untyped-defs")
TABLE = re.compile(r"^[ \t]*\[[ \t]*tool[ \t]*\.[ \t]*dmypy[ \t]*\][ \t]*(?:#.*)?$", re.MULTILINE)
# the settings in another form
OTHER = re.compile(r"^[ \t]*tool[ \t]*\.[ \t]*dmypy[ \t]*[.=]", re.MULTILINE)
NEXT = re.compile(r"^[ \t]*\[[^\n]*\][ \t]*(?:#.*)?$", re.MULTILINE)
STRING = r"""(?:"(?:[^"\\\n]|\\.)*"|'[^'\n]*')"""
BLANK = r"(?:[ \t\r\n]|\#[^\n]*)*"
LIST = rf"\[{BLANK}(?:{STRING}{BLANK},?{BLANK})*\]"
LINE = re.compile(rf"{BLANK}([A-Za-z0-9_-]+)[ \t]*=[ \t]*({STRING}|{LIST})[ \t\r]*(?:\#[^\n]*)?(?:\n|\Z)")
TEXT = re.compile(rf"{STRING}|\#[^\n]*")


class BadSettings(Trouble):
    """The settings of a project cannot be read, or say what there is not."""


class Settings(NamedTuple):
    """The settings of a project; `program` is empty where it names none."""

    roots: tuple = ()
    exclude: tuple = ()
    options: tuple = ()
    program: str = ""

    def with_options(self, given):
        """Returns the options of the project and those that are given, each once."""
        return [*dict.fromkeys([*self.options, *given])]


def settings_of(folder):
    """Returns the settings of a project, those that are left out as they are by themselves."""
    table = table_of(folder) or {}
    for name, value in table.items():
        fault = fault_of(name, value)
        if fault:
            raise BadSettings(f"{Path(folder, FILE)}: [tool.dmypy]: {name} {fault}")
    return Settings(**{name: tuple(value) if isinstance(value, list) else value for name, value in table.items()})


def fault_of(name, value):
    """Returns what is wrong with a setting, or an empty text."""
    if name not in Settings._fields:
        return f"is no setting: {', '.join(Settings._fields)} are"
    if name == "program":
        return "" if isinstance(value, str) else "is no text"
    if not isinstance(value, list) or not all(isinstance(it, str) for it in value):
        return "is no list of texts"
    unknown = [it for it in value if it not in OPTIONS] if name == "options" else []
    return f"has {unknown[0]}, which is no option: {', '.join(OPTIONS)} are" if unknown else ""


def table_of(folder):
    """Returns the table of a project, or None where it has none."""
    try:
        text = Path(folder, FILE).read_bytes().decode()
    except OSError:
        return None
    except UnicodeDecodeError as why:
        raise BadSettings(f"{Path(folder, FILE)}: {why}") from why
    if "dmypy" not in text:
        return None
    try:
        return read_whole(text) if tomllib else read_lines(text)
    except ValueError as why:
        raise BadSettings(f"{Path(folder, FILE)}: {why}") from why


def read_whole(text):
    """Returns the table of a text by Python's reader, or None."""
    tools = tomllib.loads(text).get("tool", {})
    return tools.get("dmypy") if isinstance(tools, dict) else None


def read_lines(text):
    """Returns the table of a text by its lines, or None."""
    begun = TABLE.search(text)
    if not begun and OTHER.search(text):
        raise ValueError("this Python reads no more of TOML than the table [tool.dmypy]")
    if not begun:
        return None
    end = NEXT.search(text, begun.end())
    rest = text[begun.end() : end.start() if end else len(text)]
    found = {}
    while rest.strip():
        line = LINE.match(rest)
        if not line:
            if re.fullmatch(BLANK, rest):
                break
            raise ValueError(f"[tool.dmypy]: cannot be read by this Python: {rest.strip().splitlines()[0]}")
        texts = [text_of(it[0]) for it in TEXT.finditer(line[2]) if not it[0].startswith("#")]
        found[line[1]] = texts if line[2].startswith("[") else texts[0]
        rest = rest[line.end() :]
    return found


def text_of(quoted):
    """Returns the text of a string of TOML: one in single quotes has no escapes."""
    return quoted[1:-1] if quoted.startswith("'") else ast.literal_eval(quoted)
