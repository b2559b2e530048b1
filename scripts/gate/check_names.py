#!/usr/bin/env python3
"""Checks that what the documents name is there, and that each crate stands in its room.

    scripts/gate/check_names.py

In `crates.txt` a comment of one word begins a room. Each folder of `crates/` is listed there once, in one room, and the rooms
have no cycle: a crate names crates of its own room and of earlier ones. The attic is the last room: no other names it.
ARCHITECTURE.md has a heading for each room, in the same order, with a table of just its crates. Where it says how many
crates are above another, as many are: `scripts/above.py --write` sets the numbers.

In README.md and below docs/ each link to a file of the repository has its target, and the heading that it may name. Where
a link's text is one name in backticks and its target a file of code, of definitions, an edit or a row, that file defines
the name, or is that edit or row. In ARCHITECTURE.md, INDEX.md and its pages, THEOREMS.md and README.md each crate in
backticks is listed, and each path in backticks is the end of one of the repository. The last line is
`N passed, M failed`.

The text of each message of docs/index/messages.md stands in the definition, in the code and in the row that its line
links, and the line links an edit.
"""

import os
import re
import sys
from pathlib import Path

from repository import ABOVE, ROOT, above, libraries, listed

DOCS = ROOT / "docs"
INDEX = DOCS / "index"
PAGES = [ROOT / "README.md", *sorted(DOCS.glob("**/*.md"))]
MAPS = {ROOT / "README.md", *(DOCS / f"{name}.md" for name in ("ARCHITECTURE", "INDEX", "THEOREMS")), *INDEX.glob("*.md")}
MESSAGES = INDEX / "messages.md"

BLOCK = re.compile(r"^```.*?^```|^    [^\n]*$|<!--.*?-->", re.DOTALL | re.MULTILINE)
LINK = re.compile(r"\[((?:`[^`]*`|[^\]`])*)\]\(([^)\s]+)\)")
CODE = re.compile(r"`([^`\n]+)`")
NAME = re.compile(r"`((?:[A-Za-z_]\w*::)*[A-Za-z_]\w*)`")
CRATE = re.compile(r"(?:pyc_\w+|dmypy)")
SUFFIXES = (".rt", ".antt", ".py", ".sh", ".c", ".md", ".txt", ".edit", ".test", ".session", ".stdout")
NOT_OURS = {".git", "out", "__pycache__"}
# what begins a path of the repository
FIRST = {"crates", "editors", "scripts", "docs", "bench", ".ci", "src", "specs", "proofs", "must-fail"}
# no path of the repository: made by `rt`, or words that stand for a name
NO_PATH = re.compile(r"(^|/)out(/|$)|NAME|\.\.|^\.git/")
ATTIC = "attic"
# a heading of ARCHITECTURE.md with what stands below it, and the crate that a line of a table is on
SECTION = re.compile(r"^### (\w+)\n(.*?)(?=^#|\Z)", re.DOTALL | re.MULTILINE)
ROW = re.compile(r"^\| `(\w+)` \|", re.MULTILINE)

ITEM = r"^\s*(?:pub(?:\(\w+\))? )?(?:const |unsafe )?(?:fn|struct|enum|trait|type|const|static|mod)\s+{}\b"
VARIANT = r"^    {}\s*(?:,|\(|\{{|$)"
OWNER = r"^(?:pub )?(?:struct|enum|trait|impl)\b[^{{]*\b{}\b"
DEFINED = r"^\s*(?:(?:pub|abbrev|unfoldable|opaque|data|record|private)\s+)+{}(?![\w'])"
MEMBER = r"^\s+(?:pub )?{}\s*:(?!:)"


def has(pattern, name, text):
    """Whether a line of a text is of this pattern, with this name."""
    return re.search(pattern.format(re.escape(name)), text, re.MULTILINE) is not None


def defines(path, name):
    """Whether a file of code or of definitions defines a name, `Type::name` and `file::name` too."""
    text = path.read_text(encoding="utf-8")
    *owners, last = name.split("::")
    if path.suffix == ".antt":
        return not owners and (has(DEFINED, last, text) or has(MEMBER, last, text))
    known = all(owner in (path.stem, path.parent.name) or has(OWNER, owner, text) for owner in owners)
    return known and (has(ITEM, last, text) or (bool(owners) and has(VARIANT, last, text)))


def headings(path):
    """The names that a link may give to the headings of a page."""
    lines = re.findall(r"^#+ (.*)$", path.read_text(encoding="utf-8"), re.MULTILINE)
    return {re.sub(r"[^\w\- ]", "", line.lower()).replace(" ", "-") for line in lines}


def fault_of_link(page, text, target):
    """What is wrong with a link, or None."""
    place, _, heading = target.partition("#")
    path = (page.parent / place).resolve() if place else page
    if not path.exists() or not path.is_relative_to(ROOT):
        return f"{target}: no such file"
    if heading and heading not in headings(path):
        return f"{target}: no such heading"
    name = NAME.fullmatch(text)
    if name and path.suffix in (".rt", ".antt") and not defines(path, name[1]):
        return f"{target}: does not define {name[1]}"
    if name and path.suffix in (".edit", ".test", ".session") and path.stem != name[1]:
        return f"{target}: is not {name[1]}"
    return None


def texts_of_messages(page, text):
    """Each place that a row of the page's messages gives for its text, with what is wrong where it does not have it."""
    for line in text.splitlines() if page == MESSAGES else ():
        cells = line.split(" | ")
        message = re.match(r"\| `([^`]+)`", line)
        if not message or not LINK.search(line):
            continue
        # a definition, the code and a row: what stands between the parts of the text in each of them
        plain = [re.escape(part) for part in re.split(r"\{\w+\}", message[1])]
        quoted = [part.replace('"', r'\\"') for part in plain]
        patterns = (r'"[^"]*"'.join(filter(None, quoted)), r"\{\w+\}".join(quoted), r"[^\n]+".join(plain))
        for cell, pattern in zip(cells[2:], patterns):
            target = LINK.search(cell)[2]
            path = page.parent / target
            printed = path.with_suffix(".stdout")
            files = [file for file in (printed, path) if file.is_file()]
            shown = files[0].read_text(encoding="utf-8") if files else ""
            if cell == cells[4] and path.suffix != ".rt" and cells[1].startswith("`"):
                pattern += re.escape(f"  [{cells[1].strip('`')}]")
            is_there = re.search(pattern, re.sub(r"\\\n\s*", "", shown))
            yield target, None if is_there else f"{target}: does not have the text {message[1]}"
        yield message[1], None if ".edit)" in cells[-1] else f"{message[1]}: its line names no edit"


def crates():
    """The crates of `crates.txt`."""
    return {name for name, _, _ in listed()}


def described():
    """The rooms of ARCHITECTURE.md in order, each with the crates of its table."""
    text = (DOCS / "ARCHITECTURE.md").read_text(encoding="utf-8")
    return [(found[1].lower(), set(ROW.findall(found[2]))) for found in SECTION.finditer(text) if ROW.search(found[2])]


def fault_of_crate(name, lines):
    """What is wrong with where a crate stands among these lines of `crates.txt`, or None."""
    places = [room for other, room, _ in lines if other == name]
    if len(places) != 1:
        return f"crates.txt: {name} is listed {len(places)} times"
    return None if places[0] else f"crates.txt: {name} is in no room"


def fault_of_use(room, other, order):
    """What is wrong where a crate of one room names one of another, by the order of the rooms, or None."""
    if other == ATTIC and room != ATTIC:
        return "is of the attic"
    return None if order.index(other) <= order.index(room) else f"is of the later room {other}"


def judgements_of_uses(lines, order):
    """Each crate that a crate names, with what is wrong with that, or None."""
    room_of = {name: room for name, room, _ in lines}
    for name, use in ((name, use) for name, _, uses in lines for use in uses if use in room_of):
        fault = fault_of_use(room_of[name], room_of[use], order)
        yield use, fault and f"crates.txt: {name} names {use}, which {fault}"


def judgements_of_rooms():
    """Each crate, each crate that one names, and the rooms of the map, with what is wrong with them, or None."""
    lines = listed()
    order = list(dict.fromkeys(room for _, room, _ in lines))
    folders = {path.name for path in (ROOT / "crates").iterdir() if (path / "src").is_dir()}
    for name in sorted(folders | crates()):
        yield name, fault_of_crate(name, lines)
    yield from judgements_of_uses(lines, order)
    wanted = [(room, {name for name, its, _ in lines if its == room}) for room in order]
    yield "rooms", None if described() == wanted else "docs/ARCHITECTURE.md: its rooms are not those of crates.txt"


def judgements_of_numbers():
    """Each number of crates above another that the map gives, with what is wrong with it, or None."""
    known = libraries()
    for name, given in ABOVE.findall((DOCS / "ARCHITECTURE.md").read_text(encoding="utf-8")):
        number = len(above(known, name)) if name in known else "none"
        yield name, None if given == str(number) else f"docs/ARCHITECTURE.md: {name} has {number} above, not {given}"


def is_path(word):
    """Whether a word in backticks is a path of the repository."""
    if " " in word or NO_PATH.search(word):
        return False
    first, _, rest = word.partition("/")
    if rest or word.endswith("/"):
        return first in FIRST or CRATE.fullmatch(first) is not None
    return word.endswith(SUFFIXES) and word.count(".") == 1 and word[0] not in ".*-"


def paths():
    """All files and folders of the repository, from its top, without what `rt` and git keep."""
    found = []
    for folder, folders, files in os.walk(ROOT):
        folders[:] = [name for name in folders if name not in NOT_OURS]
        found += [(Path(folder) / name).relative_to(ROOT) for name in (*folders, *files)]
    return found


def judgements(page, there):
    """Each thing that a page names, with what is wrong with it, or None; `there` are all paths."""
    text = BLOCK.sub("", page.read_text(encoding="utf-8"))
    for found in LINK.finditer(text):
        if "://" not in found[2]:
            yield found[2], fault_of_link(page, found[1], found[2])
    if page not in MAPS:
        return
    yield from texts_of_messages(page, text)
    known = crates()
    for word in sorted({found[1] for found in CODE.finditer(LINK.sub("", text))}):
        if CRATE.fullmatch(word):
            yield word, None if word in known else f"{word}: no such crate"
        elif is_path(word):
            yield word, None if any(path.match(word) for path in there) else f"{word}: no such path"


def main():
    there = paths()
    faults = [fault for _, fault in (*judgements_of_rooms(), *judgements_of_numbers())]
    for page in PAGES:
        faults += [fault and f"{page.relative_to(ROOT)}: {fault}" for _, fault in judgements(page, there)]
    failed = [fault for fault in faults if fault]
    print("".join(f"{fault}\n" for fault in failed), end="")
    print(f"{len(faults) - len(failed)} passed, {len(failed)} failed")
    return 1 if failed else 0


if __name__ == "__main__":
    sys.exit(main())
