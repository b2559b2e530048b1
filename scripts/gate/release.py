#!/usr/bin/env python3
"""Makes a release by scripts/release.sh, installs its wheel, unpacks its tar file, and runs what is in them.

    scripts/gate/release.py [--program PROGRAM]

The wheel is installed by pip into a virtual environment of its own, from no index. The commands of a release run where
the PATH has another `dmypy`, as mypy's is. Ends with the line `release: P passed, F failed`, and with status 0 or 1.
"""

import base64
import csv
import hashlib
import json
import os
import re
import shutil
import subprocess
import sys
import tarfile
import tempfile
import zipfile
from pathlib import Path
from urllib.parse import unquote, urlsplit

from examples import README, blocks_of
from judging import SECONDS, Tally, program_given
from language_client import Client, Silent
from repository import ROOT
from small_repository import ENVIRONMENT, SmallRepository

VERSION = (ROOT / "VERSION").read_text().strip()
WHEEL = f"dmypy_proved-{VERSION}-py3-none-manylinux_2_34_x86_64.whl"
TAR = f"dmypy-proved-{VERSION}-linux-x86_64.tar"
SUMS = "SHA256SUMS"
COMMANDS = {"dmypy-check", "dmypy-hook", "dmypy-ignores", "dmypy-lsp", "dmypy-proved"}
# what mypy installs: packages and commands
TAKEN = {"mypy", "mypyc", "stubgen", "stubtest", "dmypy"}
# a session with one wrong assignment, and its replies
SESSION = 'add a.py 13\nx: int = "a"\ncheck\nstatus\nstop\n'
ASSIGNED = 'Incompatible types in assignment (expression has type "str", variable has type "int")'
REPLIES = (
    f"ok\na.py:1: error: {ASSIGNED}  [assignment]\nFound 1 error in 1 file (checked 1 source file)\n"
    "status 1\nfiles 1 bodies 2 rechecked 2\nok\n"
)
# a project below src/, of which one file imports the other
PRICES = "def price(net: float) -> str:\n    return str(net)\n"
SHOP = "from shop.prices import price\n\ntotal: int = price(1)\n"
PROJECT = {"__init__": "", "prices": PRICES, "cart": SHOP}
TOLD = f"src/shop/cart.py:3: error: {ASSIGNED}  [assignment]"
FAULTS = (OSError, Silent, ValueError, subprocess.SubprocessError, tarfile.TarError, zipfile.BadZipFile)


def make(program, folder, script=ROOT / "scripts" / "release.sh"):
    """Makes a release of a program, or of the one that lies beside the script."""
    words = ["--program", program] if program else []
    return run(script, *words, "--to", folder)


def run(*command, folder="/", sent=None, environment=ENVIRONMENT):
    """Runs a command."""
    how = {"cwd": folder, "env": environment, "input": sent, "timeout": 2 * SECONDS, "check": False}
    return subprocess.run([*map(str, command)], capture_output=True, text=True, **how)


def judge_making(program, folders, tally):
    """A release has three files, with the right sums. Another one of the same files has the same bytes."""
    for folder in folders:
        folder.mkdir()
        os.utime(folder, (0, 0))
        done = make(program, folder)
        tally.judge(done.returncode == 0 and "which is not the gate's" in done.stderr, f"a release: {done}")
    files = [{path.name: path.read_bytes() for path in folder.iterdir()} for folder in folders]
    tally.judge(files[0].keys() == {WHEEL, TAR, SUMS}, f"the files of a release: {[*files[0]]}")
    tally.judge(files[0] == files[1], "two releases of the same files differ")
    wanted = "".join(f"{hashlib.sha256(files[0][name]).hexdigest()}  {name}\n" for name in (TAR, WHEEL))
    tally.judge(files[0][SUMS].decode() == wanted, f"the sums: {files[0][SUMS]}")


def judge_gates_program(program, folder, tally):
    """Without another program a release has the one that the gate left, if it is there and has its sum."""
    for place in ("VERSION", "docs", "editors", "scripts"):
        copied = shutil.copytree if (ROOT / place).is_dir() else shutil.copy
        copied(ROOT / place, folder / place)
    script, made = folder / "scripts" / "release.sh", folder / "made"
    done = make(None, made, script)
    is_told = "release: there is no out/dmypy: scripts/gate.sh" in done.stderr
    tally.judge(done.returncode == 2 and is_told, f"no program: {done}")
    tally.judge(not made.exists(), "there is a release without a program")
    (folder / "out").mkdir()
    shutil.copy(program, folder / "out" / "dmypy")
    (folder / "out" / "dmypy.sha256").write_text(f"{'0' * 64}  dmypy\n")
    done = make(None, made, script)
    tally.judge(done.returncode == 2 and "out/dmypy is not what the gate left" in done.stderr, f"another sum: {done}")
    (folder / "out" / "dmypy.sha256").write_text(f"{hashlib.sha256(program.read_bytes()).hexdigest()}  dmypy\n")
    done = make(None, made, script)
    tally.judge((done.returncode, done.stderr) == (0, ""), f"the gate's program: {done}")
    tally.judge(sorted(path.name for path in made.iterdir()) == [SUMS, TAR, WHEEL], "the files of its release")
    (folder / "VERSION").write_text("new\n")
    done = make(None, made, script)
    tally.judge(done.returncode == 2 and "VERSION holds 'new'" in done.stderr, f"no version: {done}")
    tally.judge([*made.iterdir()] == [], "an old release is left where a new one cannot be made")
    done = run(script, "--to")
    tally.judge((done.returncode, done.stderr) == (2, "release: a word is missing after --to\n"), f"no folder: {done}")
    done = run(script, "--anew", "1")
    tally.judge((done.returncode, done.stderr) == (2, "release: no such word: --anew\n"), f"an unknown word: {done}")


def judge_wheel(path, tally):
    """What a wheel says of itself is right, and none of its names is one of mypy's."""
    with zipfile.ZipFile(path) as wheel:
        files = {entry.filename: wheel.read(entry) for entry in wheel.infolist()}
        times = {entry.date_time for entry in wheel.infolist()}
    tally.judge([*files] == sorted(files) and len(times) == 1, f"the order and the times of files: {[*files]}, {times}")
    info = f"dmypy_proved-{VERSION}.dist-info"
    record = {name: (its, size) for name, its, size in csv.reader(files[f"{info}/RECORD"].decode().splitlines())}
    for name, content in files.items():
        its = base64.urlsafe_b64encode(hashlib.sha256(content).digest()).decode().rstrip("=")
        wanted = ("", "") if name == f"{info}/RECORD" else (f"sha256={its}", str(len(content)))
        tally.judge(record.pop(name, None) == wanted, f"RECORD of {name}")
    tally.judge(record == {}, f"RECORD has files that are not there: {[*record]}")
    said = files[f"{info}/METADATA"].decode()
    tally.judge(f"\nName: dmypy-proved\nVersion: {VERSION}\n" in said and "License" not in said, f"METADATA: {said}")
    tally.judge("\nTag: py3-none-manylinux_2_34_x86_64\n" in files[f"{info}/WHEEL"].decode(), "the tag of WHEEL")
    head, *lines = files[f"{info}/entry_points.txt"].decode().splitlines()
    commands = {line.partition(" = ")[0] for line in lines}
    tally.judge((head, commands) == ("[console_scripts]", COMMANDS), f"the commands: {lines}")
    tops = {name.partition("/")[0] for name in files}
    tally.judge(tops == {"dmypy_proved", info}, f"the folders: {tops}")
    tally.judge(not TAKEN & (tops | commands), f"names that mypy has: {tops}, {commands}")


def judge_program(program, tally):
    """The program needs the C library alone, and no later one than the wheel's name says."""
    content = program.read_bytes()
    versions = {int(found) for found in re.findall(rb"GLIBC_2\.(\d+)", content)}
    tally.judge(versions != set() and max(versions) <= 34, f"the versions of the C library: {versions}")
    libraries = set(re.findall(rb"\0(lib[\w.+-]+\.so[\d.]*)\0", content))
    tally.judge(libraries == {b"libc.so.6"}, f"the libraries: {libraries}")


class Release(SmallRepository):
    """A small project in which commands of a release are run, from a folder of commands."""

    def __init__(self, folder, commands):
        super().__init__(folder, commands / "dmypy-proved")
        self.commands = commands
        other = self.folder / "other" / "dmypy"
        self.write(**{"other/dmypy": "#!/bin/sh\necho 'usage: dmypy [-h]' >&2\nexit 2\n"})
        other.chmod(0o755)
        search = os.pathsep.join([str(other.parent), os.path.dirname(sys.executable), "/usr/bin", "/bin"])
        known = {name: value for name, value in ENVIRONMENT.items() if name != "DMYPY"}
        self.environment = {**known, "PATH": search}
        self.write(**{f"project/src/shop/{name}.py": text for name, text in PROJECT.items()})

    def call(self, name, *words, inside=".", sent=None):
        """Runs a command of the release."""
        return run(self.commands / name, *words, folder=self.folder / inside, sent=sent, environment=self.environment)


def judge_sessions(room, tally):
    """The program: a first session, and the first example of the README."""
    done = room.call("dmypy-proved", "session", sent=SESSION)
    tally.judge((done.stdout, done.stderr, done.returncode) == (REPLIES, "", 0), f"a session: {done}")
    prices, shop, report = blocks_of(README.read_text(encoding="utf-8"))[:3]
    room.write(**{"prices.py": prices, "shop.py": shop})
    done = room.call("dmypy-proved", "check", "prices.py", "shop.py")
    tally.judge((done.stdout, done.stderr, done.returncode) == (report, "", 1), f"the README's example: {done}")


def judge_project(room, tally):
    """The checker of a project below src/."""
    done = room.call("dmypy-check", inside="project")
    tally.judge((done.stdout.splitlines()[:1], done.returncode) == ([TOLD], 1), f"a project: {done}")
    done = room.call("dmypy-check", "--version")
    tally.judge(VERSION in done.stdout.split() and done.returncode == 0, f"the version: {done}")


def judge_hook(room, tally):
    """The commit hook, and the script that adds ignore comments, on the same project."""
    room.git("init", "-q", inside="project")
    room.git("add", "-A", inside="project")
    done = room.call("dmypy-hook", "--ignore-missing-imports", inside="project")
    tally.judge((done.stdout.splitlines()[:1], done.returncode) == ([TOLD], 1), f"the hook: {done}")
    done = room.call("dmypy-ignores", "--ignore-missing-imports", inside="project")
    tally.judge(done.returncode == 0, f"ignore comments: {done}")
    wanted = SHOP.replace("(1)\n", "(1)  # type: ignore[assignment]\n")
    now = room.read("project/src/shop/cart.py")
    tally.judge(now == wanted, f"the file with its comment: {now}")


def judge_server(room, tally):
    """The language server."""
    with Client(room.folder / "project", command=[room.commands / "dmypy-lsp"], environment=room.environment) as client:
        told = client.begin()
        wanted = {"name": "dmypy", "version": VERSION}
        tally.judge(told.get("serverInfo") == wanted, f"what the server is: {json.dumps(told)}")
        client.checked("src/shop/cart.py")
        tally.judge(client.told("src/shop/cart.py") == [(2, "assignment", ASSIGNED)], f"its messages: {client.shown}")
        link = urlsplit(client.shown["src/shop/cart.py"][0].get("codeDescription", {}).get("href", ""))
        page = Path(unquote(link.path))
        tally.judge(page.is_file() and link.fragment == "assignment", f"the link of a message: {link.geturl()}")


def attempt(judge, tally, *given):
    """Judges something of which a fault is one failure."""
    try:
        judge(*given, tally)
    except FAULTS as why:
        tally.judge(False, f"{judge.__name__}: {why}")


def judge_commands(commands, tally):
    """Runs the commands of a release."""
    found = {path.name for path in commands.iterdir() if path.name.startswith("dmypy")}
    tally.judge(found == COMMANDS, f"the commands in {commands}: {found}")
    with tempfile.TemporaryDirectory() as folder:
        room = Release(folder, commands)
        for judge in (judge_sessions, judge_project, judge_server, judge_hook):
            attempt(judge, tally, room)


def install(wheel, folder):
    """Installs a wheel into a new virtual environment, without network. Returns the folder of its commands."""
    environment = {name: value for name, value in ENVIRONMENT.items() if not name.startswith("PIP_")}
    environment.update(PIP_CONFIG_FILE=os.devnull, PIP_DISABLE_PIP_VERSION_CHECK="1", HOME=str(folder))
    pip = ("-m", "pip", "install", "--quiet", "--no-index", "--no-deps", wheel)
    for words in ((sys.executable, "-m", "venv", folder), (folder / "bin" / "python3", *pip)):
        done = run(*words, environment=environment)
        if done.returncode:
            raise subprocess.SubprocessError(f"the wheel cannot be installed: {done}")
    return folder / "bin"


def unpack(path, folder):
    """Unpacks a tar file. Returns the folder of its commands."""
    with tarfile.open(path) as tar:
        # (a Python that knows this filter lets no entry out of the folder)
        tar.extraction_filter = getattr(tarfile, "data_filter", None)
        tar.extractall(folder)
    return folder / f"dmypy-proved-{VERSION}" / "bin"


def judge_installed(wheel, folder, tally):
    """The commands of a wheel that is installed."""
    judge_commands(install(wheel, folder), tally)


def judge_unpacked(path, folder, tally):
    """The commands of a tar file that is unpacked."""
    judge_commands(unpack(path, folder), tally)


def main():
    program = program_given("Makes a release, installs it and runs what is in it.")
    tally = Tally("release")
    with tempfile.TemporaryDirectory() as room:
        folder = Path(room)
        made, gate = folder / "made", folder / "gate"
        gate.mkdir()
        attempt(judge_making, tally, program, (made, folder / "again"))
        attempt(judge_gates_program, tally, program, gate)
        attempt(judge_program, tally, program)
        attempt(judge_wheel, tally, made / WHEEL)
        attempt(judge_installed, tally, made / WHEEL, folder / "environment")
        attempt(judge_unpacked, tally, made / TAR, folder / "unpacked")
    return tally.close()


if __name__ == "__main__":
    sys.exit(main())
