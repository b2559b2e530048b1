#!/usr/bin/env python3
"""Runs the examples of docs/CODES.md, docs/DIFFERENCES.md and the README, and tries what docs/USING.md quotes.

    scripts/gate/examples.py [--program PROGRAM]

Each indented block of the first two pages is a file a.py, or some files, of which a line `# file: PATH` begins each; or
the report on the block before it, without the last line. The command with its options stands on the page. A block
without a report is clean. The README has two files and the whole report. CODES.md has a part for each code of docs/index/messages.md, in order, and the report of each has the
code. A problem matcher finds the parts of an error, and no note and no summary. The lines that USING.md quotes of
scripts/check_project.py are those on a small project, and with the settings that stand there no import of it finds
nothing. Ends with the line `examples: P passed, F failed`, and with status 0 or 1.
"""

import json
import re
import subprocess
import sys
import tempfile
from pathlib import Path

from judging import SECONDS, Tally, program_given
from repository import ROOT

CHECKER = ROOT / "scripts" / "check_project.py"
CODES = ROOT / "docs" / "CODES.md"
PAGES = (CODES, ROOT / "docs" / "DIFFERENCES.md")
MESSAGES = ROOT / "docs" / "index" / "messages.md"
README = ROOT / "README.md"
RECIPES = ROOT / "docs" / "USING.md"
ERROR = {"file": "pkg/a.py", "line": "12", "severity": "error", "message": 'Name "x" is not defined'}
ERROR["code"] = "name-defined"
NO_ERRORS = ('a.py:1: note: Revealed type is "int"', "Found 1 error in 1 file (checked 1 source file)")
COMMAND = re.compile(r"`dmypy (check(?: --[a-z-]+)*) a\.py`")
BLOCK = re.compile(r"(?:^    .*\n|^\n(?=    ))+", re.MULTILINE)
FILE = re.compile(r"^# file: (\S+)\n", re.MULTILINE)
REPORT = re.compile(r"\w+\.pyi?:\d+: ")
CODE = re.compile(r"  \[([a-z-]+)\]$", re.MULTILINE)
LISTED = re.compile(r"^\| `[^|]*\| `([a-z-]+)` \|", re.MULTILINE)
CLEAN = "Success: no issues found in "
# a project with an import that finds nothing, and with an opaque file
PROJECT = {
    "app.py": "from shop.prices import price\n",
    "server/shop/prices.py": "price = 1\n",
    "a.py": "names = [1]\nif (count := len(names)) > 1:\n    pass\n",
}


def blocks_of(text):
    """The indented blocks of a page."""
    return [re.sub(r"(?m)^    ", "", found[0]).strip("\n") + "\n" for found in BLOCK.finditer(text)]


def files_of(block):
    """The files of a block, by their paths."""
    _, *parts = FILE.split(block)
    return dict(zip(parts[::2], parts[1::2])) or {"a.py": block}


def examples(text):
    """The files of a page, each block with the report on it, which is empty where it is clean."""
    blocks = blocks_of(text)
    for block, after in zip(blocks, [*blocks[1:], ""]):
        if not REPORT.match(block):
            yield block, after if REPORT.match(after) else ""


def write(folder, files):
    """Writes files with these texts."""
    for path, text in files.items():
        Path(folder, path).parent.mkdir(parents=True, exist_ok=True)
        Path(folder, path).write_text(text, encoding="utf-8")


def check_project(program, files, *words):
    """Checks a project of these files. Returns the lines that are printed, of messages and of all else."""
    with tempfile.TemporaryDirectory() as folder:
        write(folder, files)
        how = {"cwd": folder, "capture_output": True, "text": True, "timeout": SECONDS, "check": False}
        done = subprocess.run([sys.executable, CHECKER, "--program", program, "--root", ".", *words], **how)
        return [*done.stdout.splitlines(), *done.stderr.splitlines()]


def run(program, words, files):
    """Runs a check on files with these texts."""
    with tempfile.TemporaryDirectory() as folder:
        write(folder, files)
        how = {"cwd": folder, "capture_output": True, "text": True, "timeout": SECONDS, "check": False}
        return subprocess.run([program, *words, *files], **how)


def judge_readme(program, tally):
    """The example of the README: two files, and the whole report on them."""
    prices, shop, report = blocks_of(README.read_text(encoding="utf-8"))[:3]
    done = run(program, ["check"], {"prices.py": prices, "shop.py": shop})
    tally.judge((done.stdout, done.returncode) == (report, 1), f"the README's example: {done}")


def judge_example(program, words, source, wanted, tally):
    """The report on the files of a block, less its last line."""
    done = run(program, words, files_of(source))
    *lines, last = done.stdout.splitlines(keepends=True)
    is_right = ("".join(lines), done.returncode) == (wanted, 1 if wanted else 0)
    tally.judge(is_right and bool(wanted) != last.startswith(CLEAN), f"{source}{done.stdout}{done.stderr}")


def judge_page(page, program, tally):
    """The examples of a page."""
    text = page.read_text(encoding="utf-8")
    words = COMMAND.search(text)[1].split()
    for source, wanted in examples(text):
        judge_example(program, words, source, wanted, tally)
    wanted = len(re.findall(r"(?m)^The report:$", text))
    reports = sum(bool(report) for _, report in examples(text))
    tally.judge(reports == wanted > 0, f"{page.name}: {reports} reports, not {wanted}")


def judge_codes(tally):
    """The parts of CODES.md are the codes of all messages, and each has a report with its code."""
    codes = sorted(set(LISTED.findall(MESSAGES.read_text(encoding="utf-8"))))
    parts = re.split(r"(?m)^## ", CODES.read_text(encoding="utf-8"))[1:]
    names = [part.partition("\n")[0] for part in parts]
    tally.judge(names == codes != [], f"CODES.md has {names}, not {codes}")
    for name, part in zip(names, parts):
        first = next((report for _, report in examples(part)), "")
        tally.judge(set(CODE.findall(first)) == {name}, f"CODES.md: the report of {name}: {first}")


def front(value):
    """The first item of a list, or what is no list."""
    return value[0] if isinstance(value, list) else value


def judge_matchers(tally):
    """The problem matchers of USING.md, of which an editor and a server have one each."""
    found = [json.loads(block) for block in blocks_of(RECIPES.read_text(encoding="utf-8")) if block.startswith("{")]
    tally.judge(len(found) == 2, f"USING.md has {len(found)} problem matchers")
    for matcher in found:
        pattern = front(front(matcher["problemMatcher"])["pattern"])
        match = re.search(pattern["regexp"], "{file}:{line}: {severity}: {message}  [{code}]".format(**ERROR))
        parts = {name: match and match[pattern[name]] for name in ERROR}
        tally.judge(parts == ERROR, f"what a problem matcher finds: {parts}")
        for line in NO_ERRORS:
            tally.judge(not re.search(pattern["regexp"], line), f"a problem matcher finds an error: {line}")


def judge_project(program, tally):
    """The lines on a project that USING.md quotes, and the settings by which an import finds its file."""
    blocks = blocks_of(RECIPES.read_text(encoding="utf-8"))
    quoted = [line for block in blocks if block.startswith(("dmypy: ", "a.py:")) for line in block.splitlines()]
    printed = check_project(program, PROJECT, "--ignore-missing-imports")
    missing = [line for line in quoted if line not in printed]
    tally.judge(len(quoted) == 4 and missing == [], f"of {quoted} {missing} are not printed: {printed}")
    settings = [block for block in blocks if block.startswith("[tool.dmypy]\n")]
    printed = check_project(program, {**PROJECT, "pyproject.toml": "".join(settings)})
    is_found = printed and not any("is not found" in line for line in printed)
    tally.judge(len(settings) == 1 and is_found, f"with the settings {settings}: {printed}")


def main():
    program = program_given("Runs the examples of the pages for users.")
    tally = Tally("examples")
    for page in PAGES:
        judge_page(page, program, tally)
    judge_readme(program, tally)
    judge_codes(tally)
    judge_matchers(tally)
    judge_project(program, tally)
    return tally.close()


if __name__ == "__main__":
    sys.exit(main())
