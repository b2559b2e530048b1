"""A made workspace, for measures: files of some 200 lines that read one another, and edits of it."""

from typing import NamedTuple

from instructions import put

# the files beside those that are numbered
ROOT = "core/base.py"
HOT = "core/hot.py"
CLASSES = 9
NODE = """class Node:
    name: str = ""
    size: int = 0
    def __init__(self, name: str, size: int) -> None:
        self.name = name
        self.size = size
    def label(self) -> str:
        return self.name
    def grown(self, by: int) -> int:
        return self.size + by
"""
METHOD = """    def another(self, by: int) -> int:
        return by
"""
SHARED = "def shared(a: int{more}) -> int:\n    return a\n"
CLASS = """class C{number}_{at}({base}):
    limit: int = {at}
    def __init__(self, name: str, size: int) -> None:
        self.name = name
        self.size = size
        self.parts: list[int] = [size, {at}]
    def label(self) -> str:
        return self.name + "{at}"
    def grown(self, by: int) -> int:
        total = self.size
        for part in self.parts:
            if part > by:
                total += part
            elif part < 0:
                total -= part
        return total + shared(by)
    def longest(self, names: list[str]) -> str:
        found = ""
        for name in names:
            if len(name) > 3 and name != self.name:
                found = name
        return found
"""
FUNCTIONS = """def make{number}(a: int{more}) -> {result}:
    node = C{number}_0("{word}", a)
    if node.grown(1) > 3:
        return {given}
    return {given}
def use{number}(a: int) -> int:
    made = C{number}_1("made", a)
    total = made.grown(a) + made.limit
    for part in made.parts:
        total += part
    before = {before}
    return total + before
def either{number}(a: int, node: Node | None) -> str:
    if node is None:
        return "none"
    if isinstance(node, C{number}_2):
        return node.longest([node.name, node.label()])
    return node.label()
def table{number}(names: list[str]) -> dict[str, int]:
    found: dict[str, int] = {{}}
    for name in names:
        found[name] = shared(len(name))
    return found
"""


def source(number, word="s", result="int", given="a", more=""):
    """The text of a file of this number, which reads the file before it, and the two that all read."""
    before = f"make{number - 1}(a)" if number else "a"
    heads = ["from core.base import Node\n", "from core.hot import shared\n"]
    if number:
        heads.append(f"from m{number - 1} import make{number - 1}\n")
    bases = ["Node", *(f"C{number}_{at}" if at % 2 else "Node" for at in range(CLASSES - 1))]
    classes = [CLASS.format(number=number, at=at, base=base) for at, base in enumerate(bases)]
    parts = {"number": number, "word": word, "result": result, "given": given, "more": more, "before": before}
    return "".join([*heads, *classes, FUNCTIONS.format(**parts)])


def files(count):
    """So many files by path."""
    numbered = {f"m{number}.py": source(number) for number in range(count - 2)}
    return {ROOT: NODE, HOT: SHARED.format(more=""), **numbered}


class Edit(NamedTuple):
    """An edit: what it does, and its commands."""

    name: str
    commands: bytes


def edits(count):
    """Edits of so many files, each by itself."""
    middle = count // 2
    path = f"m{middle}.py"
    return [
        Edit("no change", b""),
        Edit("another body", put("change", path, source(middle, word="t"))),
        Edit("a signature that one file reads", put("change", path, source(middle, more=", b: int = 0"))),
        Edit("a method in the class at the root", put("change", ROOT, NODE + METHOD)),
        Edit("a file added", put("add", "added.py", source(middle))),
        Edit("a module removed", f"remove {path}\n".encode()),
        Edit("a signature that all files read", put("change", HOT, SHARED.format(more=", b: int = 0"))),
    ]
