"""Paths as imports see them: with src/pkg/m.py a project imports pkg.m, so a session gets that file as pkg/m.py.

    layout_of(folder, files, roots, imports)    chooses the source roots of a project's folder: its Layout
    layout.session_path(path)                   the path that a session gets for a file of the folder
    layout.rank(path), layout.rivals(files)     which of two files that name one module is Python's choice
    read_imports(folder, files)                 what each file imports by an absolute name
    layout.strays(imports)                      imports that find nothing, though a file fits them under another root

All paths are strings with `/`, seen from the project's folder; `files` are those of its Python files. A Session that
has the layout (session.py) takes and gives paths of the disk, so that its users need no more than `layout_of`.

**Roots.** Those that are given, as `[tool.dmypy] roots` has them, `*` and the like in a part of them; a file below two
of them belongs to the longer one. If none are given, they are `src` and `lib`, as they are no packages, and the folder
itself. A folder with an `__init__.py` or `__init__.pyi` is a package, and one without is none, unless the imports of
the project say otherwise: whichever more of them name, the folder or what lies in it, decides. The project's folder may
be a package, too: its files then have its name before theirs. What lies below no root has its path from the folder.

**Stubs.** A file and the stub beside it, whose name has an `i` more, name one module, and a session gets both. It takes
the stub: the other file has no messages. They may lie under two roots, as typings/m.pyi and src/m.py.

**Names.** A session takes no space, no control character, no bytes that are no text, and no path of more than 255
bytes. Such a byte goes out as `%` and two digits, and `%` itself as `%25`, so that no two files come to one path, and
imports find all other names as they are. A path that is still too long goes out as a number.
"""

import hashlib
import os
import re
import sys
import unicodedata
from collections import Counter
from fnmatch import fnmatchcase
from pathlib import Path
from typing import NamedTuple

USUAL_ROOTS = ("src", "lib")
HERE = "."
INIT = "__init__.py"
# how the names of Python files end: those of stubs, which stand beside a path without the last `i`, and others
STUB = ".pyi"
SUFFIXES = (".py", STUB)
LONGEST_PATH = 255
NOT_TAKEN = re.compile("[\x00-\x20\x7f%\udc80-\udcff]")
IMPORT = re.compile(
    r"^[ \t]*(?:from[ \t]+([^\W\d][\w.]*)[ \t]+import\b|import[ \t]+([^\W\d][^\n\r#;\\]*))",
    re.MULTILINE,
)
# names of Python's own library, as far as this Python knows them: an import of one seldom means a file of the project
LIBRARY = frozenset(getattr(sys, "stdlib_module_names", sys.builtin_module_names))


class Import(NamedTuple):
    """A module that a file imports by an absolute name, on a line counted from 1."""

    line: int
    module: str

    def first(self):
        """Returns the name of the module at the top."""
        return self.module.partition(".")[0]


class Stray(NamedTuple):
    """An import that finds nothing, though `file` fits it under the root: the first of `count` such imports."""

    path: str
    line: int
    module: str
    file: str
    root: str
    count: int


class Layout(NamedTuple):
    """The source roots of a project's folder, and the packages that the folder itself lies in, as `outer/pkg`."""

    roots: tuple = (HERE,)
    package: str = ""

    def root_of(self, path):
        """Returns the root of a file: the longest, but of its own `__init__.py` a root is none."""
        found = [root for root in self.roots if path.startswith(f"{root}/") and beside(path) != f"{root}/{INIT}"]
        return max(found, key=len, default=HERE)

    def session_path(self, path):
        """Returns the path that a session gets for a file."""
        root = self.root_of(path)
        seen = path if root == HERE else path[len(root) + 1 :]
        if root == HERE and self.package:
            seen = f"{self.package}/{seen}"
        # (a stub has the path of the file that it stands beside, and an `i` more)
        own, last = beside(seen), "i" if is_stub(seen) else ""
        name = own.rpartition("/")[2]
        is_module = name.endswith(".py") and name != ".py" and own != INIT
        given = encoded(own) if is_module else f"{encoded(own)}%.py"
        if len(f"{given}{last}".encode()) > LONGEST_PATH:
            given = f"%{hashlib.sha256(given.encode()).hexdigest()}.py"
        return given + last

    def rank(self, path):
        """Returns what sorts files: by their roots, packages before modules of the same name, then by their paths, a
        stub before the file that it stands beside."""
        root = self.root_of(path)
        at = self.roots.index(root) if root in self.roots else len(self.roots)
        return at, not beside(path).endswith(f"/{INIT}"), beside(path), path == beside(path)

    def rivals(self, files):
        """Returns for each file that names the same module as one before it, by rank, that one. A file and the stub
        beside it are no rivals."""
        first, held, found = {}, {}, {}
        for path in sorted(files, key=self.rank):
            name = self.session_path(path)
            winner = first.setdefault(module_key(name), name)
            if beside(winner) != beside(name):
                found[path] = held[winner]
            elif held.setdefault(name, path) != path:
                found[path] = held[name]
        return found

    def strays(self, imports, files=None):
        """Returns the imports that find nothing, though a file fits them under another root: the first of each root.
        `imports` are those of all files; `files`, if they are given, those whose imports are looked at."""
        there = modules_there(map(self.session_path, imports))
        asked = [(path, it) for path in (imports if files is None else files) for it in imports[path]]
        lost = [(path, it) for path, it in asked if it.module not in there and it.first() not in LIBRARY]
        fitting = files_by_ending(imports) if lost else {}
        found = {}
        for path, it in lost:
            stray = stray_import(path, it, fitting.get(it.module, {}))
            if stray:
                before = found.get(stray.root, stray)
                found[stray.root] = before._replace(count=before.count + 1)
        return [*found.values()]


def encoded(path):
    """Returns a path with what a session does not take in digits. No two paths are the same then."""
    return NOT_TAKEN.sub(lambda it: "".join(f"%{byte:02X}" for byte in it[0].encode(errors="surrogateescape")), path)


def is_stub(path):
    """Whether a path is that of a stub."""
    return path.endswith(STUB)


def beside(path):
    """Returns the path that a stub stands beside, and of any other file its own."""
    return path[:-1] if is_stub(path) else path


def is_package_folder(folder):
    """Whether a folder has the file of a package, or its stub."""
    return any((folder / f"{INIT}{last}").is_file() for last in ("", "i"))


def module_of(path):
    """Returns the module that the path of a file or a folder names."""
    return ".".join(module_parts(path))


def module_named(path):
    """Returns the module that a path of a session names, as imports write it."""
    return unicodedata.normalize("NFKC", module_of(path))


def module_key(path):
    """Returns what tells apart the modules that paths of a session name, in parts of which there may be dots."""
    return unicodedata.normalize("NFKC", "/".join(module_parts(path)))


def module_parts(path):
    """Returns the parts of the module that the path of a file or a folder names."""
    own = beside(path)
    parts = (own[: -len(".py")] if own.endswith(".py") else own).split("/")
    return parts[:-1] if parts[-1] == "__init__" else parts


def modules_there(paths):
    """Returns the modules that files name or lie under."""
    return {".".join(parts[:end]) for parts in map(module_parts, paths) for end in range(1, len(parts) + 1)}


def read_imports(folder, files):
    """Returns what each file imports by an absolute name. A file that cannot be read imports nothing."""
    found = {}
    for path in files:
        try:
            is_file = os.path.isfile(os.path.join(folder, path))
            found[path] = imports_of(Path(folder, path).read_bytes().decode(errors="replace")) if is_file else []
        except OSError:
            found[path] = []
    return found


def imports_of(text):
    """Returns what a text imports by an absolute name, by its lines: what a string says counts, too."""
    found = []
    for it in IMPORT.finditer(text):
        line = text.count("\n", 0, it.start()) + 1
        names = [it[1]] if it[1] else [word.split()[0] for word in it[2].split(",") if word.strip()]
        found += [Import(line, name) for name in names]
    return found


def layout_of(folder, files, roots=(), imports=None):
    """Returns the layout of a project. `roots` are those that the user gives, `imports` those of the files, if they
    were read already."""
    files = [*files]
    if roots:
        return Layout(given_roots(roots, files))
    there = {*map(beside, files)}
    usual = [root for root in USUAL_ROOTS if any(path.startswith(f"{root}/") for path in files)]
    is_package = INIT in there
    if not usual and not is_package:
        return Layout()
    counts = named(read_imports(folder, files) if imports is None else imports)
    is_root = {root: not is_imported(root, counts, inside(files, root), f"{root}/{INIT}" in there) for root in usual}
    roots = (*filter(is_root.get, usual), HERE)
    outer = packages_above(Path(os.path.abspath(folder))) if is_package else ""
    is_inner = is_package and is_imported(outer.partition("/")[0], counts, inside(files, HERE), True)
    return Layout(roots, outer if is_inner else "")


def is_imported(folder, counts, names, is_package):
    """Whether imports name a folder rather than what lies in it: what more of them name, else as it is a package."""
    of_folder, of_names = counts.get(folder, 0), sum(counts.get(name, 0) for name in names)
    return of_folder > of_names or of_folder == of_names and is_package


def inside(files, root):
    """Returns the modules that lie directly in a root, and in no other place of that name at the top."""
    top = {module_of(path.partition("/")[0]) for path in files}
    if root == HERE:
        return top
    return {module_of(path[len(root) + 1 :].partition("/")[0]) for path in files if path.startswith(f"{root}/")} - top


def named(imports):
    """Returns how many imports name each module at the top, less those of Python's own library."""
    return Counter(it.first() for its in imports.values() for it in its if it.first() not in LIBRARY)


def packages_above(folder):
    """Returns the name of a folder that is a package, with those of the packages that it is in before it."""
    parts = [folder.name]
    for outer in folder.parents:
        if not is_package_folder(outer):
            break
        parts.insert(0, outer.name)
    return "/".join(filter(None, parts))


def given_roots(roots, files):
    """Returns the folders of files that fit the roots that a user gives, in their order, and the project's own last."""
    folders = sorted({parent for path in files for parent in parents(path)})
    found = [folder for root in map(parts_of, roots) for folder in folders if fits(folder, root)]
    return (*dict.fromkeys([*found, HERE]),)


def empty_roots(roots, files):
    """Returns the roots that a user gives and that no file lies below."""
    folders = {parent for path in files for parent in parents(path)}
    return [root for root in roots if not any(fits(folder, parts_of(root)) for folder in folders)]


def parents(path):
    """Returns the folders that a file is in, the project's own first."""
    parts = path.split("/")
    return [HERE, *("/".join(parts[:end]) for end in range(1, len(parts)))]


def parts_of(root):
    """Returns the parts of a root that a user gives. Without parts it is the project's folder."""
    return [part for part in root.split("/") if part not in ("", HERE)]


def fits(folder, pattern):
    """Whether a folder fits the parts of a pattern."""
    parts = parts_of(folder)
    return len(parts) == len(pattern) and all(map(fnmatchcase, parts, pattern))


def files_by_ending(files):
    """Returns the files that name each module, or lie in it, by the roots under which they do: none is a package."""
    packages = {path[: -len(INIT)] for path in map(beside, files) if path.rpartition("/")[2] == INIT}
    found = {}
    for root, module, path in (way for path in sorted(files) for way in ways_to(path, packages)):
        found.setdefault(module, {}).setdefault(root, path)
    return found


def ways_to(path, packages):
    """Returns the modules that a file names or lies in, under each folder that it is in and that is no package: the
    root, the module, and the path."""
    roots = [root for root in parents(path) if ("" if root == HERE else f"{root}/") not in packages]
    parts = {root: module_parts(path if root == HERE else path[len(root) + 1 :]) for root in roots}
    return [(root, ".".join(its[:end]), path) for root, its in parts.items() for end in range(1, len(its) + 1)]


def stray_import(path, it, fitting):
    """Returns an import that finds nothing with the file that fits it, the nearest to its own, if there is one."""
    others = {root: file for root, file in fitting.items() if file != path}
    if not others:
        return None
    nearness = {root: len(os.path.commonprefix([parts_of(root), path.split("/")])) for root in others}
    root = max(sorted(others), key=nearness.get)
    return Stray(path, it.line, it.module, others[root], root, 0)
