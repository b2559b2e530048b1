#!/usr/bin/env python3
"""Compares what `dmypy session` prints with what a reference implementation in Python prints, on many sessions.

    scripts/by_hand/compare_sessions.py [--program PROGRAM] [--seed SEED] [--stage STAGE] [--python FOLDER]
        [--expressions | --statements | --edits] [--keep FOLDER] REFERENCE [COUNT]

REFERENCE is the folder that has the reference, a package `oracle` with the module `__main__`; STAGE is the one that it
is run at. PROGRAM is `dmypy`, built; without it, `rt try` builds and runs it, without proofs. The sessions are:

- for each package in the table below, its files in Python's standard library (FOLDER, or that of this Python), added in
  lots of about 300 KB at most, and then `check`, `status` and `stop`, with and without `--ignore-missing-imports`;
- COUNT sessions made at random from the seed: a few small files, of imports, definitions, assignments and blocks over
  few names, some of them with a fault, and commands that add, change, remove and check them, with options at random;
- with `--expressions` only COUNT sessions of other files (typed_files.py), each a workspace of one to three files with
  classes, functions, variables of many types and some 30 statements a file, expressions and assignments, which is
  checked once;
- with `--statements` only COUNT sessions of such files whose functions, methods, classes and blocks hold many statements
  (statement_files.py), with options at random;
- with `--edits` only COUNT sessions of such files that are edited and checked many times (edited_files.py), with options
  at random.

A session passes where all that is printed and the status are the same. Decorators in parentheses are not among the
random lines: the reference reads them in another way. With `--keep` the sessions stay in that folder: `NAME` what is
read, `NAME.args` the options, `NAME.stdout` what the reference prints. Each session that differs is named.
The last line is `N passed, M failed`. The status is 1 where a session differs or none was compared, else 0.
"""

import argparse
import collections
import importlib
import multiprocessing
import os
import random
import re
import subprocess
import sys
import sysconfig
import tempfile
from pathlib import Path

from edited_files import EditMaker
from statement_files import StatementMaker
from typed_files import TypedMaker

PROGRAM = Path(__file__).resolve().parents[2] / "crates" / "dmypy"
COUNT = 1_000
STAGE = 14
LOT = 300_000
SECONDS = 600
IGNORE_MISSING, CHECK_UNTYPED = "--ignore-missing-imports", "--check-untyped-defs"
PACKAGES = """asyncio collections concurrent ctypes curses dbm distutils email encodings ensurepip html http importlib
    json lib2to3 logging multiprocessing pydoc_data re sqlite3 tomllib unittest urllib venv wsgiref xml xmlrpc zoneinfo
    """.split()
SAME = "output=expected"

Session = collections.namedtuple("Session", "name commands options files")


# ---- sessions of real packages


def added(path, source, word="add"):
    return f"{word} {path} {len(source)}\n".encode() + source


def lots(folder, package):
    """The files of a package in lots, each a list of paths with their bytes; the top files have no package's name."""
    found = (folder / package).rglob("*.py") if package else folder.glob("*.py")
    rows, size = [], 0
    for path in sorted(found):
        source = path.read_bytes()
        if rows and size + len(source) > LOT:
            yield rows
            rows, size = [], 0
        rows.append((path.relative_to(folder).as_posix(), source))
        size += len(source)
    if rows:
        yield rows


def package_sessions(folder):
    """The sessions of all packages, and of the top files."""
    for package in [*PACKAGES, ""]:
        for number, rows in enumerate(lots(folder, package)):
            commands = b"".join(added(*row) for row in rows) + b"check\nstatus\nstop\n"
            for mark, options in (("plain", []), ("missing", [IGNORE_MISSING])):
                yield Session(f"{package or 'top'}_{number}_{mark}", commands, options, len(rows))


# ---- sessions at random

NAMES = "a b c d m p q x y f A B int str __init__ typing abc".split()
UNICODE = ("ﬁ", "fi", "ａ", "ª", "𝐱", "ｉｆ", "é", "e\u0301", "ſ", "s", "µ", "μ", "Ａ", "ｉnt", "ｔyping")
PATHS = """a.py b.py c.py d.py p/__init__.py p/a.py p/b.py p/m.py p/q/__init__.py p/q/a.py p/q/m.py q/a.py q/b/c.py
    q/b/__init__.py a/b.py a/__init__.py x/y/m.py x.py""".split()
RARE_PATHS = """typing.py typing_extensions.py collections/abc.py collections/__init__.py abc.py __future__.py
    collections/x.py typing/a.py abc/x.py p.py ａ.py p/ａ.py ﬁ.py fi.py int.py if.py p/__init__/a.py a.b.py a-b.py
    collections/abc/x.py p/q.py p/typing.py p/p/__init__.py p/p/p.py m.py q/__init__.py é.py
    ℀.py a/c.py a．b.py p/__ｉnit__.py __ｉnit__.py p/__init__.py/a.py p/q/a/b/c/d.py .a.py p/ﬁ/x.py p/fi/x.py
    a.pyi a.pyi b.pyi c.pyi p/__init__.pyi p/a.pyi p/m.pyi q/__init__.pyi x.pyi a/__init__.pyi typing.pyi
    a.py.py a.py.pyi ａ.pyi a.pyi/b.py __ｉnit__.pyi p/p.pyi p.pyi""".split()
BAD_PATHS = """__init__.py /a.py a//b.py ../a.py ./a.py .py a.pyii a.txt p/.py a p/../b.py __init__.pyi .pyi p/.pyi
    a.PYI""".split()
FIXED = "typing typing_extensions collections collections.abc abc __future__".split()
FIVE = "int str bool float None".split()
ANNOTATIONS = """(int); "int"; 'str'; (None); object; list[int]; int | None; typing.Any; Optional[int]; a; p.q;
    A; bytes; complex; ...; int.x; (int, str); f(1); ｉnt; ﬂoat""".replace("\n   ", "").split("; ")
LITERALS = """0; 1; 1_000; 0x1F; 0b1; 0O7; 007; 1.0; .5; 1.; 1e5; 1E-5; 1j; 1.5J; "s"; 's'; u"s"; r"\\s"; b"s";
    Rb"s"; f"{a}"; F''; "a" "b"; b"a" b"b"; f"a" "b"; True; False; None; ""; '''t'''""".replace("\n   ", "").split("; ")
VALUES = """-1; (1); ("s"); ...; a; [1]; []; {}; {1: 2}; {1}; (1,); (); f(1); a.b; a[0]; lambda: 0; 1 + 1;
    "s" + "t"; not a; (yield); a if b else c; [a for a in b]; (None); a.b(c); (1j); await a; {**a}; [*a];
    f"{a!r:>{b}}"; a < b < c; *a, b; a, b""".replace("\n   ", "").split("; ")
CODES = "assignment import-not-found attr-defined misc no-redef syntax name-defined".split()
FAULTS = """x = (|y = $|x = 'a|if a:|else: pass|match a:\n    case b: pass|x = (y := 1)|from a import *|type X = int
    |try: pass|x = 1 +|    x = 1|@a|def f(a, /): pass|if a:\n\tx = 1\n        y = 1|x = )|x = t"s"|x = f"{"|class A(:
    |import a.|from . import|del 1|1 = a|a: int: int|print 1|from .a import (b|if a:\n    x = 1\n  y = 1|x = y = : 1
    |for a in b: pass\nelse|x = 1__0|x = 1 2|def f(): pass; x = (""".replace("\n    |", "|").split("|")


class Maker:
    """Makes files and sessions."""

    def __init__(self, seed):
        self.random = random.Random(seed)
        self.names, self.modules, self.imports = NAMES, [], 0.36

    def one(self, rows):
        return self.random.choice(rows)

    def chance(self, share):
        return self.random.random() < share

    def some(self, make, most, least=1):
        return [make() for _ in range(self.random.randint(least, most))]

    # ---- parts of lines

    def name(self):
        if self.chance(0.08):
            return self.one(UNICODE)
        return self.one(self.names if self.chance(0.85) else NAMES)

    def dotted(self, most=3):
        if self.modules and self.chance(0.6):
            return self.one(self.modules)
        if self.chance(0.12):
            return self.one(FIXED) + self.one(("", "", ".x"))
        return ".".join(self.some(self.name, most))

    def alias(self):
        return f" as {self.name()}" if self.chance(0.25) else ""

    def origin(self):
        """What stands between `from` and `import`."""
        if self.chance(0.5):
            return self.dotted()
        dots = self.one((".", ".", ".", "..", "..", "...", "....", ". .", ". ..", ".....")) 
        return dots + (self.dotted(2) if self.chance(0.6) else "")

    def imported(self):
        if self.chance(0.4):
            return "import " + ", ".join(self.dotted() + self.alias() for _ in range(self.one((1, 1, 1, 2))))
        names = ", ".join(self.name() + self.alias() for _ in range(self.one((1, 1, 2, 3))))
        form = self.random.random()
        if form < 0.15:
            names = f"({names}{self.one(('', ','))})"
        elif form < 0.22:
            names = "(" + names.replace(", ", f",{self.ignore()}\n  ") + "\n)"
        return f"from {self.origin()} import {names}"

    def literal(self):
        if self.chance(0.04):
            return self.one(('"""a\nb"""', '("a"\n "b")', '"a" \\\n "b"'))
        return self.one(LITERALS)

    def value(self):
        return self.literal() if self.chance(0.7) else self.one(VALUES)

    def single(self):
        """A target that is no tuple and no list."""
        form = self.random.random()
        if form < 0.75:
            return self.name()
        if form < 0.85:
            return f"({self.name()})"
        if form < 0.93:
            return f"{self.name()}.{self.name()}"
        return f"{self.name()}[{self.value()}]"

    def target(self, depth=2):
        if depth == 0 or self.chance(0.6):
            return self.single()
        parts = self.some(lambda: self.target(depth - 1), 3)
        if self.chance(0.2):
            parts[self.random.randrange(len(parts))] = f"*{self.single()}"
        whole = ", ".join(parts)
        return self.one((f"({whole},)", f"[{whole}]", f"[{whole}]"))

    def targets(self):
        """A target as it stands in an assignment; a tuple needs no parentheses there."""
        if self.chance(0.15):
            return ", ".join([self.target(1), self.target(1)])
        return self.target()

    def annotation(self):
        return self.one(FIVE) if self.chance(0.7) else self.one(ANNOTATIONS)

    def annotated(self):
        target = self.name() if self.chance(0.8) else self.single()
        value = f" = {self.value()}" if self.chance(0.8) else ""
        return f"{target}: {self.annotation()}{value}"

    def ignore(self):
        """What stands behind a statement in its line."""
        form = self.random.random()
        if form < 0.75:
            return ""
        if form < 0.85:
            return f"  {self.one(('#', '# ', '#  '))}type:{self.one(('', ' '))}ignore" + self.one(
                ("", "", " ", " # why", "#x", "x", "\t", " [misc]", "[]", " why", ":")
            )
        if form < 0.97:
            codes = self.one((",", ", ", " , ")).join(self.some(lambda: self.one(CODES), 3))
            return f"  # type: ignore[{codes}]" + self.one(("", " ", "# b", "x"))
        return "  # a # type: ignore"

    # ---- statements

    def decorators(self, indent):
        rows = []
        while self.chance(0.25):
            own = self.name()
            row = self.one(
                ("property", "staticmethod", "classmethod", "abstractmethod", "abc.abstractmethod", "overload", own,
                 f"{own}.setter", f"{own}.setter", f"{own}.getter", "typing.overload", "a.b.setter", f"{own}()",
                 "a.property", "ｐroperty", "functools.wraps(a)", f"{own}.setter()"),
            )
            rows.append(f"{indent}@{row}{self.ignore()}\n")
        return "".join(rows)

    def parameter(self):
        return self.name() + self.one(("", "", ": int", ": str = 1", "=1", ": zz"))

    def head(self):
        if self.chance(0.4):
            bases = self.one(("", "()", "(A)", "(B, A)", "(1)", "(zz)", "(a.b)", "(A, metaclass=B)", "(*a)"))
            return f"class {self.name()}{bases}:"
        params = ", ".join(self.some(self.parameter, 3, 0))
        result = self.one(("", "", " -> int", " -> None", " -> zz"))
        return f"{self.one(('', '', '', 'async '))}def {self.name()}({params}){result}:"

    def simple(self):
        if self.chance(self.imports):
            return self.imported()
        form = self.random.uniform(0.36, 1)
        if form < 0.62:
            return self.annotated()
        if form < 0.76:
            targets = self.some(self.targets, 2)
            return " = ".join([*targets, self.value()])
        if form < 0.80:
            return f"{self.single()} {self.one(('+=', '-=', '|=', '//='))} {self.value()}"
        if form < 0.84:
            return f"del {self.targets()}"
        return self.one(
            ("pass", "...", '"doc"', f"{self.name()}", f"print({self.value()})", f"assert {self.name()}", "return",
             f"global {self.name()}", f"nonlocal {self.name()}", "raise", "break", "continue", f"yield {self.name()}",
             f"await {self.name()}", f"{self.name()} = yield", f"raise {self.name()} from {self.name()}"),
        )

    def line(self, indent):
        """A line of simple statements."""
        rows = self.some(self.simple, 2) if self.chance(0.15) else [self.simple()]
        return indent + "; ".join(rows) + self.one(("", "", "", ";")) + self.ignore() + "\n"

    def suite(self, head, indent, depth):
        """A header with what stands under it."""
        if self.chance(0.3):
            return f"{indent}{head} {self.simple()}{self.ignore()}\n"
        deeper = indent + self.one(("    ", "    ", "  ", "\t"))
        return f"{indent}{head}{self.ignore()}\n" + self.statements(deeper, depth - 1, 3)

    def block(self, indent, depth):
        """A compound statement."""
        form = self.random.random()

        def suite(head):
            return self.suite(head, indent, depth)

        if form < 0.35:
            return self.decorators(indent) + suite(self.head())
        if form < 0.55:
            middle = "".join(self.some(lambda: suite(f"elif {self.value()}:"), 2)) if self.chance(0.2) else ""
            last = suite("else:") if self.chance(0.3) else ""
            return suite(f"if {self.one(('0', '1', 'TYPE_CHECKING', self.name()))}:") + middle + last
        if form < 0.65:
            last = suite("else:") if self.chance(0.2) else ""
            start = self.one(("", "", "", "async "))
            return suite(f"{start}for {self.targets()} in {self.value()}:") + last
        if form < 0.71:
            return suite(f"while {self.value()}:") + (suite("else:") if self.chance(0.2) else "")
        if form < 0.82:
            items = ", ".join(
                self.name() + (f" as {self.target()}" if self.chance(0.7) else "") for _ in range(self.one((1, 1, 2)))
            )
            start = self.one(("", "", "", "async "))
            return suite(f"{start}with ({items}):" if self.chance(0.2) else f"{start}with {items}:")
        return self.tried(suite)

    def tried(self, suite):
        rows = [suite("try:")]
        for _ in range(self.one((0, 1, 1, 2))):
            rows.append(suite(self.one((f"except {self.name()} as {self.name()}:", f"except {self.name()}:", "except:",
                                        f"except (A, B) as {self.name()}:"))))
        if len(rows) > 1 and self.chance(0.3):
            rows.append(suite("else:"))
        if len(rows) == 1 or self.chance(0.3):
            rows.append(suite("finally:"))
        return "".join(rows)

    def statements(self, indent, depth, most):
        rows = []
        for _ in range(self.random.randint(1, most)):
            if depth > 0 and self.chance(0.25):
                rows.append(self.block(indent, depth))
            else:
                rows.append(self.line(indent))
            if self.chance(0.05):
                rows.append(self.one(("\n", f"{indent}# c\n", "#type: ignore\n", "\f\n", f"{indent}\\\n\n")))
        return "".join(rows)

    def source(self):
        """The bytes of a file."""
        if self.chance(0.05):
            return self.one((b"", b"# c", b"\n\n", b"\xff", b"# type: ignore", b"\xef\xbb\xbf"))
        text = self.statements("", 3, 6)
        if self.chance(0.04):
            first = ("# type: ignore\n", "\n#type:ignore\n", "# type: ignore[misc]\n", '"d"\n# type: ignore\n')
            text = self.one(first) + text
        if self.chance(0.04):
            rows = text.splitlines(keepends=True)
            rows.insert(self.random.randint(0, len(rows)), self.one(FAULTS).rstrip(" \n") + "\n")
            text = "".join(rows)
        if self.chance(0.05):
            text = text.replace("\n", self.one(("\r\n", "\r")))
        if self.chance(0.1):
            text = text.rstrip("\n")
        return (b"\xef\xbb\xbf" if self.chance(0.03) else b"") + text.encode()

    # ---- sessions

    def path(self):
        if self.chance(0.02):
            return self.one(BAD_PATHS)
        return self.one(RARE_PATHS if self.chance(0.15) else PATHS)

    def step(self, paths):
        """A command; paths are those that were named before."""
        form = self.random.random()
        path = self.one(paths) if self.chance(0.9) else self.path()
        if form < 0.35:
            return added(path, self.source(), "change")
        if form < 0.55:
            return f"remove {path}\n".encode()
        if form < 0.75:
            return added(path, self.source())
        if form < 0.92:
            return b"check\n"
        return self.one(
            (b"status\n", b"status\n", b"\n", b"check \n", f"update {path}\n".encode(), b"add a.py x\n", b"stop\n",
             b"status\r\n", b"add a.py 99999999999\n"),
        )

    def session(self, number):
        paths = self.some(self.path, 6)
        self.names = self.random.sample(NAMES, self.one((2, 3, 5, 10)))
        self.imports = self.one((0.36, 0.36, 0.95))
        self.modules = [path.removesuffix("i")[:-3].replace("/", ".").removesuffix(".__init__") for path in paths]
        words = r"(?!if\b)\w+(\.(?!if\b)\w+)*"
        self.modules = [name for name in self.modules if re.fullmatch(words, name)]
        commands = [added(path, self.source()) for path in paths] + [b"check\n"]
        commands += self.some(lambda: self.step(paths), 8, 0)
        commands += [b"check\n", b"status\n", b"stop\n"]
        options = [it for it, share in ((IGNORE_MISSING, 0.3), (CHECK_UNTYPED, 0.15)) if self.chance(share)]
        files = sum(it.startswith((b"add ", b"change ")) for it in commands)
        return Session(f"random_{number:05}", b"".join(commands), options, files)


def checking_session(name, files, options):
    """The session that adds these files, each a path with its text, and checks them."""
    commands = b"".join(added(path, text.encode()) for path, text in files) + b"check\nstatus\nstop\n"
    return Session(name, commands, options, len(files))


def edits_session(name, maker):
    """A session of edits."""
    commands, files = maker.edits()
    return Session(name, commands, maker.options(), files)


# ---- what the reference prints


class Reference:
    """The reference implementation at a stage, in this process."""

    def __init__(self, folder, stage):
        sys.path.insert(0, str(folder))
        self.main = importlib.import_module("oracle.__main__")
        self.stage = stage

    def replies(self, session):
        """What the reference prints, and its status."""
        options = self.main.Options()
        options.stage = self.stage
        options.ignore_missing = IGNORE_MISSING in session.options
        options.check_untyped = CHECK_UNTYPED in session.options
        told = []
        daemon = self.main.make_daemon(options, False)
        # nothing can be fetched
        status = self.main.Session(daemon, session.commands, told.append, lambda path: None).run()
        return "".join(told).encode(), status


def replies(words):
    """What the reference prints and its status, in a process of its own."""
    session, folder, stage = words
    reference = Reference(folder, stage)
    return reference.main.deep(reference.replies, session)


# ---- what the program prints


def written(room, session, expected):
    """Writes a session as a case of `rt try --cases`."""
    (room / session.name).write_bytes(session.commands)
    (room / f"{session.name}.stdout").write_bytes(expected)
    if session.options:
        (room / f"{session.name}.args").write_text("".join(f"{it}\n" for it in session.options))


def verdict(words):
    """What a built program says of a session, against the text and the status that are expected."""
    program, session, (text, status) = words
    line = [program, "session", *session.options]
    try:
        done = subprocess.run(line, input=session.commands, capture_output=True, timeout=SECONDS)
    except subprocess.TimeoutExpired:
        return f"no answer in {SECONDS} s"
    if done.stdout == text:
        return SAME if done.returncode == status else f"status {done.returncode}, expected {status}"
    for number, (mine, theirs) in enumerate(zip(done.stdout.split(b"\n"), text.split(b"\n")), 1):
        if mine != theirs:
            return f"line {number}: {mine!r} here, {theirs!r} there"
    return f"{len(done.stdout)} bytes here, {len(text)} there; status {done.returncode}, {done.stderr[-200:]!r}"


def tried(room, sessions, expected):
    """What `rt try` says of each session of a folder."""
    line = ["rt", "try", "--cases", room, "--", "session"]
    done = subprocess.run(line, cwd=PROGRAM, stdout=subprocess.PIPE, stderr=subprocess.STDOUT)
    rows = done.stdout.decode(errors="replace").splitlines()
    found = {row.split()[0].removeprefix("case="): row for row in rows if row.startswith("case=")}
    if not found:
        raise ValueError("\n".join(rows[-20:]))
    for session, (_, status) in zip(sessions, expected):
        row = found.get(session.name, "not run")
        same = f" {SAME} " in f"{row} " and f" status={status} " in row
        yield SAME if same else f"{row}; expected status {status}"


# ---- the comparison


def count_session(session, expected, counts):
    """Counts the files and bytes of a session, its checks and refusals, and the messages of it by their codes."""
    counts["files"] += session.files
    counts["bytes"] += len(session.commands)
    for code in re.findall(rb"  \[([a-z-]+)\]$", expected, re.MULTILINE):
        counts[code.decode()] += 1
    counts["refused"] += len(re.findall(rb"^refused ", expected, re.MULTILINE))
    counts["checks"] += len(re.findall(rb"^status [01]$", expected, re.MULTILINE))


def compare(sessions, words, room):
    """Compares all sessions, names those that differ, and counts them."""
    counts = collections.Counter()
    with multiprocessing.Pool(max(1, (os.cpu_count() or 2) // 2)) as pool:
        expected = pool.map(replies, [(it, words.reference, words.stage) for it in sessions], chunksize=4)
        for session, (text, _) in zip(sessions, expected):
            written(room, session, text)
            count_session(session, text, counts)
        if words.program:
            answers = pool.imap(verdict, [(words.program, *it) for it in zip(sessions, expected)])
        else:
            answers = tried(room, sessions, expected)
        for session, answer in zip(sessions, answers):
            counts["passed" if answer == SAME else "failed"] += 1
            if answer != SAME:
                print(f"{session.name}: {answer}", flush=True)
    told = ", ".join(f"{name} {counts[name]}" for name in sorted(counts) if name not in ("passed", "failed"))
    print(f"seed {words.seed}, stage {words.stage}, sessions {len(sessions)}: {told}")
    print(f"{counts['passed']} passed, {counts['failed']} failed")
    return counts["passed"] > 0 and counts["failed"] == 0


def main():
    parser = argparse.ArgumentParser(description="Compares replies of sessions with those of a reference.")
    place = lambda word: Path(word).absolute()
    parser.add_argument("--program", type=place, help="dmypy, built; else rt try runs it")
    parser.add_argument("--seed", type=int, default=1)
    parser.add_argument("--expressions", action="store_true", help="only sessions of files with many expressions")
    parser.add_argument("--statements", action="store_true", help="only sessions of files with many statements")
    parser.add_argument("--edits", action="store_true", help="only sessions of files that are edited many times")
    parser.add_argument("--stage", type=int, default=STAGE, help=f"{STAGE} if none is given")
    parser.add_argument("--python", type=place, default=Path(sysconfig.get_path("stdlib")))
    parser.add_argument("--keep", type=place, help="the folder for the sessions; without it they go")
    parser.add_argument("reference", type=place)
    parser.add_argument("count", nargs="?", type=int, default=COUNT)
    words = parser.parse_args()
    if words.expressions:
        maker = TypedMaker(words.seed)
        sessions = [checking_session(f"expressions_{it:05}", maker.files(), []) for it in range(words.count)]
    elif words.statements:
        maker = StatementMaker(words.seed)
        sessions = [checking_session(f"statements_{it:05}", maker.files(), maker.options()) for it in range(words.count)]
    elif words.edits:
        maker = EditMaker(words.seed)
        sessions = [edits_session(f"edits_{it:05}", maker) for it in range(words.count)]
    else:
        maker = Maker(words.seed)
        sessions = [*package_sessions(words.python), *(maker.session(number) for number in range(words.count))]
    if words.keep:
        words.keep.mkdir(parents=True, exist_ok=True)
    with tempfile.TemporaryDirectory() as room, tempfile.TemporaryDirectory() as empty:
        # the program fetches nothing: the reference cannot
        os.chdir(empty)
        return 0 if compare(sessions, words, words.keep or Path(room)) else 1


if __name__ == "__main__":
    sys.exit(main())
