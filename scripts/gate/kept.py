"""What is kept on this machine of edits: of which crates all that were tried were refused.

An entry lies beside the kit, as what `rt ci` keeps does, and its name is the sum of all that the edits of its crate stand on, so
that it never goes stale: these scripts, the kit, the crate and its edits, and the libraries below it, as they were built and as
they are written. It is written apart and then renamed, so that nobody meets half of it; one that is not whole counts for
nothing."""

import hashlib
import json
import os
import stat
import sys
import tempfile
from pathlib import Path

from repository import KIT, PARTS, below

STORE = KIT.parent / "dmypy-kept-edits"
HERE = Path(__file__).resolve().parent


class Kept:
    """The entries in a folder, which belongs to whoever runs this and is closed to others; without such a folder nothing is
    kept. Where all is to be tried anew, none is looked for."""

    def __init__(self, folder=STORE, is_anew=False):
        self.folder, self.is_anew, self.kit = None, is_anew, sum_of_kit()
        try:
            folder.mkdir(mode=0o700, parents=True, exist_ok=True)
            found = folder.lstat()
            if stat.S_ISDIR(found.st_mode) and found.st_uid == os.geteuid():
                folder.chmod(0o700)
                self.folder = folder
        except OSError:
            pass
        if self.folder is None:
            print(f"edits: {folder} cannot be used, so nothing is kept", flush=True)

    def sum_of(self, known, built, folder, edits):
        """Returns the sum of all that these edits of the crate in a folder stand on, over the libraries that were built in
        another."""
        name = folder.name
        lower = below(known, name)
        found = hashlib.sha256(repr((self.kit, name, [(it, known[it]) for it in (name, *lower)])).encode())
        found.update(repr([it.path.name for it in edits]).encode())
        for path in sorted(scripts()):
            add_file(found, HERE, path)
        for part in (*PARTS, "must-fail"):
            add_files(found, folder, part)
        for it in lower:
            # (a library as it was built has no comments)
            for part in PARTS:
                add_files(found, built / it, part)
        for it in (name, *lower):
            add_file(found, built, built / it / "out" / "rlib" / f"{it}.rlib" / "format")
        return found.hexdigest()

    def has(self, key, edits):
        """Returns whether an entry of this sum says that all these edits were refused."""
        if self.folder is None or self.is_anew:
            return False
        try:
            found = json.loads((self.folder / key).read_text(encoding="utf-8"))
            return found == entry(key, edits)
        except (OSError, ValueError):
            return False

    def keep(self, key, edits):
        """Keeps that all these edits were refused."""
        if self.folder is None:
            return
        try:
            with tempfile.NamedTemporaryFile("w", prefix="new-", dir=self.folder, delete=False, encoding="utf-8") as file:
                json.dump(entry(key, edits), file)
            os.replace(file.name, self.folder / key)
        except OSError as fault:
            print(f"edits: {edits[0].crate}: not kept: {fault}", flush=True)


def entry(key, edits):
    """Returns what an entry says: its sum, the crate, and the edits that were refused."""
    return {"sum": key, "crate": edits[0].crate, "refused": [it.path.name for it in edits]}


def scripts():
    """Returns the scripts of this folder that run here."""
    files = {Path(it.__file__).resolve() for it in [*sys.modules.values()] if getattr(it, "__file__", None)}
    return {it for it in files if it.parent == HERE}


def sum_of_kit():
    """Returns a sum of the kit: what names it, and the size and the time of each file that a check reads."""
    found = hashlib.sha256((KIT / "KIT-ID").read_bytes())
    folders = [KIT / it for it in ("bin", "logic_built", "rattle/logic", "rattle/antt")]
    files = [Path(at) / name for folder in folders for at, _, names in os.walk(folder) for name in names]
    # (the other files of a library are held to the sum in its `format`)
    files += [it for part in ("format", "toolchain/*") for it in KIT.glob(f"rlibs/*.rlib/{part}")]
    for path in sorted(files):
        status = path.lstat()
        found.update(f"{path} {status.st_mode} {status.st_size} {status.st_mtime_ns}\n".encode())
    return found.hexdigest()


def add_files(found, folder, part):
    """Adds the files of a part of a folder to a sum."""
    files = [Path(at) / name for at, _, names in os.walk(folder / part) for name in names]
    for path in sorted(files):
        add_file(found, folder, path)


def add_file(found, folder, path):
    """Adds the name and the text of a file below a folder to a sum, or that it is not there."""
    try:
        text = path.read_bytes()
    except OSError:
        text = None
    found.update(repr((str(path.relative_to(folder)), text)).encode())
