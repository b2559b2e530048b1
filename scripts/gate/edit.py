"""A must-fail edit: what it changes of its crate, and the function that the prover must refuse."""

import re

from repository import ROOT
from source import cycle_named, declared, enclosing


class Edit:
    """An edit: the file, its pairs of an old and a new text, and the lines of the function that must be refused."""

    def __init__(self, path, folder):
        self.path, self.crate, self.folder = path, folder.name, folder
        text = path.read_text(encoding="utf-8")
        line = lambda name: (re.search(rf"(?m)^{name}: (.*)$", text) or (None, None))[1]
        self.file, self.refuses, self.by_hand = line("file"), line("refuses"), line("tried") == "by hand"
        self.pairs = re.findall(r"(?m)^old: (.*)\nnew: (.*)$", text)
        self.is_body = bool(self.file and self.file.startswith("src/") and not self.refuses)
        self.fault, self.place, self.cycle = self.find_fault(), None, None
        if self.fault is None:
            self.place = self.find_function()
        if self.place:
            file, begin, end, name = self.place
            # (one that calls itself may be a cycle by itself, which has its name)
            self.cycle = cycle_named(self.text_of(file), begin, end) or name.rpartition("::")[2]

    def text_of(self, file):
        """Returns the text of a file of the crate."""
        return (self.folder / file).read_text(encoding="utf-8")

    def find_fault(self):
        """Returns why the edit does not fit its text, or None."""
        if not self.file or not (self.folder / self.file).is_file():
            return f"{self.file} is no file of its crate" if self.file else "it names no file"
        if not self.pairs:
            return "it has no pair of an old and a new text"
        text = self.text_of(self.file)
        for old, new in self.pairs:
            if text.count(old) != 1 or old == new:
                return f"{old!r} stands in {self.file} {text.count(old)} times, or is not changed"
        if self.refuses and not declared(self.folder, self.refuses):
            return f"{self.refuses} is no function of its crate"
        return None

    def find_function(self):
        """Returns the file, the first line, the last line and the path of the function that the edit changes, or None."""
        if self.refuses:
            return declared(self.folder, self.refuses)
        if not self.is_body:
            return None
        text = self.text_of(self.file)
        places = {enclosing(self.file, text, text.index(old)) for old, _ in self.pairs}
        return places.pop() if len(places) == 1 else None


def edits_of(name, root=ROOT):
    """Returns a crate's edits."""
    folder = root / "crates" / name
    return [Edit(path, folder) for path in sorted((folder / "must-fail").glob("*.edit"))]


def apply(edits, copy):
    """Changes the files of a crate's copy by edits, each where its old text stands in the file as it was."""
    for name in sorted({it.file for it in edits}):
        file = copy / name
        text = file.read_text(encoding="utf-8")
        pairs = [pair for it in edits if it.file == name for pair in it.pairs]
        for at, old, new in sorted(((text.index(old), old, new) for old, new in pairs), reverse=True):
            text = text[:at] + new + text[at + len(old) :]
        file.write_text(text, encoding="utf-8")


def one_a_function(edits):
    """Returns edits of bodies, at most one to a function."""
    found = {}
    for it in edits:
        if it.is_body and it.place:
            found.setdefault(it.place[3], it)
    return [*found.values()]


def apart(edits):
    """Returns edits of what is stated in parts, in each of which no function reads what another edit changes."""
    parts = []
    for it in edits:
        is_stated = it.refuses and it.place and not it.fault and not it.file.startswith("src/")
        read = files_read(it) if is_stated else None
        beside = lambda one, other: read and other and it.file not in other and one.file not in read
        found = next((part for part in parts if all(beside(*one) for one in part)), None)
        if found is None:
            parts.append(found := [])
        found.append((it, read))
    return [[it for it, _ in part] for part in parts]


def files_read(edit):
    """Returns the files of definitions and lemmas of its own crate that an edit's function may read, as they name one another."""
    folder, inside = edit.folder, edit.place[3].split("::")
    left = [edit.place[0], *(str(it.relative_to(folder)) for it in folder.glob(f"proofs/**/{inside[-1]}/*.antt"))]
    found = set(left)
    while left:
        named = [it for it in files_named(folder, edit.text_of(left.pop())) if it not in found]
        found.update(named)
        left += dict.fromkeys(named)
    return found


def files_named(folder, text):
    """Returns the files of definitions and lemmas of a crate that a text of it names."""
    names = re.findall(rf"\b(?:Rattle\.{folder.name}|crate)(?:\.|::)((?:specs|proofs)(?:(?:\.|::)\w+)+)", text)
    parts = [re.split(r"\.|::", it) for it in names]
    files = ["/".join(it[:end]) + ".antt" for it in parts for end in range(2, len(it) + 1)]
    return [it for it in files if (folder / it).is_file()]
