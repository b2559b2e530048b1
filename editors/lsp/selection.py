"""Which files a user means by folders and files, and of which project they are.

    select(words, root)            a Selection; NotThere says which word names nothing
    selection.stamps(exclude)      all files of the project with what changes when they do
    selection.is_given(path)       whether the user means a file of the project

The project's folder is the one that its own files mark (project.py). Where nothing marks it, it is the folder above the
packages of what is given, or above a `src` or `lib` that these are in; its files are then those that are given, and the
packages and modules beside them, so that no home folder is searched for them.
"""

import os
from pathlib import Path

from .paths import HERE, USUAL_ROOTS, is_package_folder
from .project import project_folder, stamp, stamps, stamps_below
from .trouble import Trouble


class NotThere(Trouble):
    """A word names no file and no folder with Python files."""


class Selection:
    """Folders and files that a user gives, of one project. `folders` and `files` are seen from the project's folder."""

    def __init__(self, folder, is_marked, folders, files):
        self.folder = folder
        self.is_marked = is_marked
        self.folders = folders
        self.files = files

    def is_given(self, path):
        """Whether the user means a file."""
        return path in self.files or any(is_below(path, folder) for folder in self.folders)

    def stamps(self, exclude=()):
        """Returns the files of the project, with what changes when they do. A file that is given by itself is not left
        out."""
        found = stamps(self.folder, exclude, None if self.is_marked else self._is_near)
        for folder in self.folders:
            # (git ignores it, and the user means it)
            if not any(is_below(path, folder) for path in found):
                found.update(stamps_below(self.folder, folder, exclude))
        given = {path: stamp(self.folder / path) for path in self.files}
        return {**found, **{path: its for path, its in given.items() if its}}

    def _is_near(self, folder):
        """Whether a folder is a package, or in one that is given, or holds one."""
        given = [*self.folders, *(path.rpartition("/")[0] or HERE for path in self.files if "/" in path)]
        near = (is_below(folder, it) or is_below(it, folder) for it in given)
        return is_package_folder(self.folder / folder) or any(near)

    def shown(self, path):
        """Returns the path of a file as it is seen from the current folder."""
        return os.path.relpath(self.folder / path)


def is_below(path, folder):
    """Whether a path is a folder, or below it."""
    return folder == HERE or path == folder or path.startswith(f"{folder}/")


def select(words, root=None):
    """Returns the files that words name, in the project that they are in: all of its root, or of the current folder, if
    there are no words."""
    given = [Path(os.path.abspath(word)) for word in words or [root or HERE]]
    missing = [word for word, path in zip(words, given) if not path.is_dir() and not path.is_file()]
    if missing:
        raise NotThere(f"{missing[0]}: no such file or folder")
    common = Path(os.path.commonpath([path if path.is_dir() else path.parent for path in given]))
    marked = Path(os.path.abspath(root)) if root else project_folder(common)
    folder = marked or unmarked_folder(common)
    seen = {path: Path(os.path.relpath(path, folder)).as_posix() for path in given}
    outside = [str(path) for path, its in seen.items() if its.split("/")[0] == ".."]
    if outside:
        raise NotThere(f"{outside[0]} does not lie in {folder}")
    folders = [its for path, its in seen.items() if path.is_dir()]
    return Selection(folder, bool(marked), folders, {its for path, its in seen.items() if not path.is_dir()})


def unmarked_folder(common):
    """Returns the folder of a project that nothing marks."""
    here = Path.cwd()
    roots = [it for it in (common, *common.parents) if it.name in USUAL_ROOTS and here in it.parents]
    if roots:
        return roots[-1].parent
    while is_package_folder(common) and common != common.parent:
        common = common.parent
    return common.parent if common.name in USUAL_ROOTS else common
