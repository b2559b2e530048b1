"""The Python files of a folder, as git or the disk has them.

    stamps(root, exclude)    each file with what changes when it does
    project_folder(path)     the folder of the project that a file or a folder is in, as its own files say

What git ignores is left out, and so are hidden folders where git does not answer, `node_modules`, `site-packages`,
virtual environments, and `build` and `dist` at the top that are no packages. What git tracks is the project's, wherever
it lies.
"""

import os
import stat
import subprocess
from fnmatch import fnmatchcase
from pathlib import Path

from .paths import SUFFIXES, is_package_folder
from .settings import FILE, table_of

OUTPUTS = ("build", "dist")
OTHERS = ("node_modules", "site-packages", "__pycache__")
# what git says to the hooks that it runs, of a repository that may be another one
OF_HOOKS = ("GIT_DIR", "GIT_WORK_TREE", "GIT_INDEX_FILE", "GIT_PREFIX", "GIT_COMMON_DIR")
MARKS = (FILE, "setup.py", "setup.cfg", ".git")


def stamps(root, exclude=(), is_walked=None):
    """Returns the path of each Python file of a project, from its folder, with what changes when the file does. Without
    git no folder is looked into of which `is_walked` says no."""
    listed = tracked(root)
    paths = walked(root, is_walked or (lambda folder: True)) if listed is None else listed
    top = str(root)
    found = {path: stamp(f"{top}/{path}") for path in paths if not exclude or not is_excluded(path, exclude)}
    return {path: its for path, its in found.items() if its}


def stamps_below(root, folder, exclude):
    """Returns the files below a folder of a project as the disk has them."""
    inner = "" if folder == "." else f"{folder}/"
    paths = [inner + path for path in walked(root / folder, lambda _: True)]
    found = {path: stamp(root / path) for path in paths if not is_excluded(path, exclude)}
    return {path: its for path, its in found.items() if its}


def stamp(path):
    """Returns what changes when a regular file does, or None where there is none."""
    try:
        status = os.stat(path)
    except OSError:
        return None
    return (status.st_mtime_ns, status.st_size, status.st_ino) if stat.S_ISREG(status.st_mode) else None


def is_excluded(path, patterns):
    """Whether a file fits a pattern, or a folder does that it is in: by the whole path, or where the pattern has no `/`
    by the name alone."""
    parts = path.split("/")
    ways = ["/".join(parts[:end]) for end in range(1, len(parts) + 1)]
    for pattern in patterns:
        whole = "/".join(part for part in pattern.split("/") if part not in ("", "."))
        if any(fnmatchcase(it, whole) for it in (ways if "/" in pattern.rstrip("/") else parts)):
            return True
    return False


def tracked(root):
    """Returns the files below a folder that git tracks, or does not ignore; None where git does not answer."""
    options = ["-z", "-t", "--cached", "--others", "--exclude-standard", "--", *(f"*{it}" for it in SUFFIXES)]
    environment = {name: value for name, value in os.environ.items() if name not in OF_HOOKS}
    how = {"stdin": subprocess.DEVNULL, "capture_output": True, "env": environment, "check": False}
    try:
        listed = subprocess.run(["git", "-C", str(root), "ls-files", *options], **how)
    except OSError:
        return None
    if listed.returncode:
        return None
    found, walks = set(), {}
    for entry in filter(None, listed.stdout.split(b"\0")):
        state, _, path = os.fsdecode(entry).partition(" ")
        if state != "?" or is_source(root, path.rpartition("/")[0], walks):
            found.add(path)
    return sorted(found)


def is_source(root, folder, walks):
    """Whether the files of a folder that git does not track are the project's. `walks` has the answers so far."""
    if folder and folder not in walks:
        walks[folder] = is_source(root, folder.rpartition("/")[0], walks) and not is_left_out(root, folder)
    return walks.get(folder, True)


def is_left_out(root, folder):
    """Whether a folder holds no files of the project, but those of another one or what a build made."""
    name = folder.rpartition("/")[2]
    if name in OUTPUTS and folder == name:
        return not is_package_folder(root / folder)
    return name in OTHERS or (root / folder / "pyvenv.cfg").exists()


def walked(root, is_walked):
    """Returns the files below a folder, but for hidden folders and those that are left out."""
    found = []
    for folder, folders, files in os.walk(root):
        inner = "" if folder == str(root) else os.path.relpath(folder, root) + "/"
        folders[:] = [name for name in folders if not name.startswith(".") and not is_left_out(root, inner + name)]
        folders[:] = [name for name in folders if is_walked(inner + name)]
        found += [inner + name for name in files if name.endswith(SUFFIXES)]
    return sorted(found)


def project_folder(path):
    """Returns the folder of the project that a folder is in, or None: the nearest one, up to git's, whose
    pyproject.toml has the table `[tool.dmypy]`, else the nearest one with a file that projects have at their top. That
    is not the user's home folder, in which such a file may lie, too."""
    nearest = None
    home = Path(os.path.expanduser("~"))
    homes = {home, *home.parents}
    for folder in (path, *path.parents):
        if table_of(folder) is not None:
            return folder
        if nearest is None and folder not in homes and any((folder / mark).exists() for mark in MARKS):
            nearest = folder
        if (folder / ".git").exists():
            break
    return nearest
