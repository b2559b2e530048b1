#!/usr/bin/env python3
"""Packs a release: a wheel and a tar file with the program, the scripts and the pages for users, the language server.

    scripts/release/pack.py PROGRAM FOLDER

Files lie in a release as in the checkout, below one folder, and the program is its out/dmypy. So a script finds there,
from its own place, what it finds in a checkout. The wheel has a command for each line of COMMANDS, and the tar file a
link in bin/. No command has the name of one of mypy's. The bytes of both files depend on the packed files and the
version alone: names are sorted, every time is the same, no owner is written, and nothing is compressed.
"""

import base64
import hashlib
import io
import re
import sys
import tarfile
import zipfile
from pathlib import Path

ROOT = Path(__file__).resolve().parents[2]
RELEASE = Path("scripts/release")
NAME = "dmypy-proved"
PACKAGE = "dmypy_proved"
TAG = "py3-none-manylinux_2_34_x86_64"
PROGRAM = "out/dmypy"
PAGES = ("docs/CODES.md", "docs/DIFFERENCES.md", "docs/RULES.md", "docs/USING.md")
SCRIPTS = ("scripts/add_ignores.py", "scripts/check_index.py", "scripts/check_project.py", "scripts/follow_commits.py")
# each command, with its function in commands.py and the file that it runs
COMMANDS = (
    ("dmypy-check", "check", "scripts/check_project.py"),
    ("dmypy-hook", "hook", "scripts/check_index.py"),
    ("dmypy-ignores", "ignores", "scripts/add_ignores.py"),
    ("dmypy-lsp", "server", "editors/dmypy_lsp.py"),
    ("dmypy-proved", "program", PROGRAM),
)
SUMMARY = "Checks annotated Python files in sessions, by a proved program"
# the first time that a zip file can hold, and that time in seconds
TIME = (1980, 1, 1, 0, 0, 0)
SECONDS = 315532800
FILE, EXECUTABLE = 0o644, 0o755


def read_version():
    """Returns the version of the checkout."""
    version = (ROOT / "VERSION").read_text(encoding="utf-8").strip()
    if not re.fullmatch(r"\d+\.\d+\.\d+", version):
        raise ValueError(f"VERSION holds {version!r}, and not three numbers")
    return version


def mode_of(path):
    """Returns whether a file may be run, as its mode, by its place and its first bytes."""
    return EXECUTABLE if path.read_bytes().startswith((b"#!", b"\x7fELF")) else FILE


def packed(program):
    """Returns the files of a release, by their paths in it: each with its bytes and its mode."""
    servers = [path.relative_to(ROOT).as_posix() for path in (ROOT / "editors").rglob("*.py")]
    places = {path: ROOT / path for path in ("VERSION", *PAGES, *SCRIPTS, *servers)}
    places[PROGRAM] = program
    places["README.md"] = ROOT / RELEASE / "README.md"
    return {path: (place.read_bytes(), mode_of(place)) for path, place in sorted(places.items())}


def sum_of(content):
    """Returns the sum of a file, as a wheel's RECORD has it."""
    return "sha256=" + base64.urlsafe_b64encode(hashlib.sha256(content).digest()).rstrip(b"=").decode()


def described(version, files):
    """Returns the files of a wheel that describe it, without RECORD, by their names."""
    head = f"Metadata-Version: 2.1\nName: {NAME}\nVersion: {version}\nSummary: {SUMMARY}\nRequires-Python: >=3.9\n"
    entries = "".join(f"{name} = {PACKAGE}.commands:{function}\n" for name, function, _ in COMMANDS)
    return {
        "METADATA": f"{head}Description-Content-Type: text/markdown\n\n".encode() + files["README.md"][0],
        "WHEEL": f"Wheel-Version: 1.0\nGenerator: {RELEASE}/pack.py\nRoot-Is-Purelib: false\nTag: {TAG}\n".encode(),
        "entry_points.txt": f"[console_scripts]\n{entries}".encode(),
    }


def wheel_files(version, files):
    """Returns the files of a wheel, by their paths in it: each with its bytes and its mode."""
    found = {f"{PACKAGE}/{path}": file for path, file in files.items()}
    found[f"{PACKAGE}/__init__.py"] = (b"", FILE)
    found[f"{PACKAGE}/commands.py"] = ((ROOT / RELEASE / "commands.py").read_bytes(), FILE)
    folder = f"{PACKAGE}-{version}.dist-info"
    for name, content in described(version, files).items():
        found[f"{folder}/{name}"] = (content, FILE)
    lines = [f"{path},{sum_of(content)},{len(content)}\n" for path, (content, _) in sorted(found.items())]
    found[f"{folder}/RECORD"] = ("".join([*lines, f"{folder}/RECORD,,\n"]).encode(), FILE)
    return found


def write_wheel(path, files):
    """Writes a wheel with these files."""
    with zipfile.ZipFile(path, "w", zipfile.ZIP_STORED) as wheel:
        for name, (content, mode) in sorted(files.items()):
            entry = zipfile.ZipInfo(name, TIME)
            entry.create_system = 3
            entry.external_attr = (0o100000 | mode) << 16
            wheel.writestr(entry, content)


def tar_entry(name, mode, **how):
    """Returns the head of a file in a tar file."""
    entry = tarfile.TarInfo(name)
    entry.mtime = SECONDS
    entry.mode = mode
    for field, value in how.items():
        setattr(entry, field, value)
    return entry


def write_tar(path, folder, files):
    """Writes a tar file with these files, and a link for each command, below a folder."""
    links = {f"bin/{name}": f"../{target}" for name, _, target in COMMANDS}
    with tarfile.open(path, "w", format=tarfile.USTAR_FORMAT) as tar:
        for name in sorted([*files, *links]):
            if name in links:
                tar.addfile(tar_entry(f"{folder}/{name}", 0o777, type=tarfile.SYMTYPE, linkname=links[name]))
            else:
                content, mode = files[name]
                tar.addfile(tar_entry(f"{folder}/{name}", mode, size=len(content)), io.BytesIO(content))


def main():
    program, folder = map(Path, sys.argv[1:])
    try:
        version, files = read_version(), packed(program)
    except (OSError, ValueError) as why:
        print(f"release: {why}", file=sys.stderr)
        return 2
    write_wheel(folder / f"{PACKAGE}-{version}-{TAG}.whl", wheel_files(version, files))
    write_tar(folder / f"{NAME}-{version}-linux-x86_64.tar", f"{NAME}-{version}", files)
    return 0


if __name__ == "__main__":
    sys.exit(main())
