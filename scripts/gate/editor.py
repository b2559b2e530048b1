#!/usr/bin/env python3
"""Runs the language server, editors/dmypy_lsp.py, on small projects, with a client that does what an editor does.

    scripts/gate/editor.py [--program PROGRAM]

Ends with the line `editor: P passed, F failed`, and with status 0 or 1.
"""

import os
import subprocess
import sys
import time

import editor_edits
import editor_folders
import editor_names
import editor_sessions
from editor_room import ASSIGNED, COLON, MISSING, MODELS, NOTE, PRICE, SHOP, UNKNOWN, WRONG, Room
from judging import SECONDS, Tally, judge_in_rooms, program_given
from language_client import Client, Silent, edit
from repository import ROOT


def protocol(room, tally):
    """Requests in their order, and what is none."""
    with room.client() as client:
        tally.judge(client.ask("textDocument/hover") == -32002, "a request before initialize")
        can = client.begin()["capabilities"]
        wanted = {"openClose": True, "change": 2, "save": {"includeText": False}}
        tally.judge(can["textDocumentSync"] == wanted and can["hoverProvider"] is True, f"what it can do: {can}")
        tally.judge(client.ask("initialize") == -32600, "a second initialize")
        tally.judge(client.ask("textDocument/rename") == -32601, "a request that is unknown")
        tally.judge(client.ask("textDocument/hover", position=3) == -32602, "a request without its document")
        client.send(b"{")
        tally.judge(client.take(lambda it: "error" in it)["error"]["code"] == -32700, "what is no message")
        tally.judge(client.ask("shutdown") is None, "shutdown")
        tally.judge(client.ask("textDocument/hover") == -32600, "a request after shutdown")
        client.tell("exit")
        tally.judge(client.server.wait(SECONDS) == 0, "the status after shutdown and exit")
    with room.begun() as client:
        client.tell("exit")
        tally.judge(client.server.wait(SECONDS) == 1, "the status of an exit without shutdown")
    with room.begun() as client:
        client.server.stdin.close()
        tally.judge(client.server.wait(SECONDS) == 1, "the status where the editor goes")


def messages(room, tally):
    """What a message has, and which files have some."""
    with room.begun() as client:
        error, note = client.shown["shop.py"]
        span = {"start": {"line": 2, "character": 0}, "end": {"line": 2, "character": 26}}
        wanted = {"range": span, "severity": 1, "source": "dmypy", "message": ASSIGNED, "code": "assignment"}
        wanted["codeDescription"] = {"href": f"file://{ROOT}/docs/CODES.md#assignment"}
        tally.judge(error == wanted, f"an error: {error}")
        tally.judge((note["severity"], "code" in note) == (3, False), f"a note: {note}")
        tally.judge(client.told("shop.py") == [WRONG, NOTE], f"the first messages: {client.shown}")
        tally.judge("models.py" not in client.shown, "a file without messages is shown")
        client.open("models.py", MODELS, 7)
        shown = client.shown["models.py"], client.versions["models.py"]
        tally.judge(shown == ([], [7]), f"an open document without messages: {shown}")


def edits(room, tally):
    """Changes of ranges, in UTF-16, several at once, and of a whole text."""
    with room.begun() as client:
        client.open("shop.py", SHOP)
        client.change("shop.py", 2, edit((2, 7), (2, 10), "int"))
        tally.judge(client.told("shop.py") == [(3, None, 'Revealed type is "int"')], f"a range: {client.shown}")
        client.change("shop.py", 3, edit((2, 7), (2, 10), "str"), edit((0, 0), (0, 0), "\n"), edit((4, 0), (5, 0), ""))
        tally.judge(client.told("shop.py") == [(3, *WRONG[1:])], f"three ranges: {client.shown}")
        client.change("shop.py", 4, {"range": None, "text": 'a = "\U0001d54f\u00e4"; b: int = 1\r\nc: int = 2\r'})
        tally.judge(client.told("shop.py") == [], f"a whole text: {client.shown}")
        client.change("shop.py", 5, edit((0, 20), (0, 21), '"\U0001f600"'), edit((1, 9), (2, 0), '""'))
        ends = [it["range"]["end"]["character"] for it in client.shown["shop.py"]]
        told = [it[0] for it in client.told("shop.py")]
        tally.judge((told, ends) == ([0, 1], [24, 11]), f"beyond the basic plane: {client.shown}")
        past = edit((9, 9), (9, 9), "\nd: int = ''")
        client.change("shop.py", 6, edit((0, 6), (0, 8), ""), edit((0, 17), (0, 22), "b"), past)
        told = [it[:2] for it in client.told("shop.py")]
        tally.judge(told == [(1, "assignment"), (2, "assignment")], f"past the end: {client.shown}")


def two_documents(room, tally):
    """A document changes the messages of another, and goes back to the disk where it is closed."""
    with room.begun() as client:
        client.open("shop.py", SHOP)
        client.open("models.py", MODELS)
        client.change("models.py", 2, edit(*PRICE, "str"))
        tally.judge(client.told("shop.py") == [NOTE], f"an unsaved change: {client.shown}")
        told = [it[:2] for it in client.told("models.py")]
        tally.judge(told == [(6, "arg-type")], f"its own messages: {client.shown}")
        client.close("models.py")
        client.checked("models.py")
        told = client.told("shop.py"), client.told("models.py")
        tally.judge(told == ([WRONG, NOTE], []), f"closed unsaved: {client.shown}")
        client.open("late.py", "def late() -> int:\n    return 1\n")
        client.change("shop.py", 2, {"text": "from late import late\n\nx: str = late()\n"})
        told = [it[:2] for it in client.told("shop.py")]
        tally.judge(told == [(2, "assignment")], f"a document without a file: {client.shown}")
        client.close("late.py")
        client.checked("late.py")
        told = client.told("shop.py")
        tally.judge(told == [(0, "import-not-found", MISSING.format("late"))], f"closed without a file: {client.shown}")


def faults(room, tally):
    """While a document is typed and has a fault, the messages of the files that are not edited stand still."""
    room.write(**{"other.py": "from models import Item\n\nx: str = Item(1).price\n", "late.py": "import gone\n"})
    still = [(2, "assignment", ASSIGNED)]
    with room.begun() as client:
        client.open("models.py", MODELS)
        client.open("other.py", (room.folder / "other.py").read_text())
        client.change("models.py", 2, edit(*COLON, ""))
        tally.judge([it[1] for it in client.told("models.py")] == ["syntax"], f"a fault: {client.shown}")
        told = client.told("shop.py"), client.told("other.py")
        tally.judge(told == ([WRONG, NOTE], still), f"messages stand still: {client.shown}")
        client.change("other.py", 2, edit((2, 3), (2, 6), "int"), edit((3, 0), (3, 0), "reveal_type(x)\n"))
        told = client.told("other.py")
        tally.judge(told == [(3, None, 'Revealed type is "int"')], f"an edited file: {client.shown}")
        tally.judge(client.told("shop.py") == [WRONG, NOTE], f"the rest stands still: {client.shown}")
        client.change("models.py", 3, edit(COLON[0], COLON[0], ":"), edit(*PRICE, "str"))
        tally.judge(client.told("shop.py") == [NOTE], f"the fault is mended: {client.shown}")
        client.change("models.py", 4, edit(*PRICE, "int"))
        client.change("models.py", 5, edit(*COLON, ""))
        client.save("models.py")
        client.checked("shop.py")
        tally.judge(client.told("shop.py") == [NOTE], f"a fault that is saved: {client.shown}")
    with room.begun() as client:
        client.open("models.py", MODELS.replace("None:", "None"))
        tally.judge(client.told("shop.py") == [NOTE], f"a fault that was there before: {client.shown}")
        client.change("models.py", 2, edit((0, 0), (0, 0), "\n"))
        tally.judge(client.told("late.py")[0][1] == "import-not-found", f"an import: {client.shown}")
        client.open("gone.py", "")
        tally.judge(client.told("late.py") == [], f"a fault that stays is no typing: {client.shown}")


def disk(room, tally):
    """Files of the disk that come, change and go."""
    with room.begun(capabilities={"workspace": {"didChangeWatchedFiles": {"dynamicRegistration": True}}}) as client:
        asked = [it["method"] for _, params in client.asked for it in params["registrations"]]
        tally.judge(asked == ["workspace/didChangeWatchedFiles"], f"the server asks for word of files: {client.asked}")
        room.write(**{"models.py": MODELS.replace("int", "str"), "sub/new.py": 'x: int = ""\n'})
        client.touch(2, "models.py")
        client.touch(1, "sub/new.py")
        client.checked("sub/new.py")
        told = [it[:2] for it in client.told("models.py")]
        tally.judge(told == [(6, "arg-type")], f"a file that changed: {client.shown}")
        told = client.told("shop.py"), [it[0] for it in client.told("sub/new.py")]
        tally.judge(told == ([NOTE], [0]), f"one that came: {client.shown}")
        before = (room.folder / "models.py").stat()
        room.write(**{"models.py": MODELS})
        os.utime(room.folder / "models.py", ns=(before.st_atime_ns, before.st_mtime_ns))
        client.touch(2, "models.py")
        client.checked("models.py")
        tally.judge(client.told("shop.py") == [WRONG, NOTE], f"one that changed at the same time: {client.shown}")
        client.open("shop.py", SHOP)
        (room.folder / "models.py").unlink()
        client.touch(3, "models.py")
        client.checked("shop.py", 1)
        tally.judge(client.told("shop.py") == [UNKNOWN, NOTE], f"one that went: {client.shown}")
        room.write(**{"models.py": MODELS})
        client.save("shop.py")
        client.checked("shop.py", 1)
        tally.judge(client.told("shop.py") == [WRONG, NOTE], f"a save looks at the disk: {client.shown}")


def refusals(room, tally):
    """Files that the session refuses have a warning. Names that it cannot take go out under others."""
    large = "# " + "x" * 1_048_576 + "\n"
    room.write(**{"large.py": large, "shop/__init__.py": "", "on disk.py": "x: int = ''\n"})
    with room.begun() as client:
        reasons = {
            "large.py": "it has more than 1,048,576 bytes",
            "shop.py": "shop/__init__.py names the same module, shop",
        }
        for path, reason in reasons.items():
            told = client.told(path)
            tally.judge(told == [(0, None, f"dmypy does not check this file: {reason}")], f"{path}: {told}")
            shown = [it["severity"] for it in client.shown.get(path, [])]
            tally.judge(shown == [2], f"the warning on {path}: {shown}")
        wrong = [(0, "assignment")]
        told = [it[:2] for it in client.told("on%20disk.py")]
        tally.judge(told == wrong, f"a name with a space: {client.shown.get('on%20disk.py')}")
        long = (f"{'a' * 253}.py", f"{'a' * 252}.py", f"{'a/' * 300}b.py")
        for path in ("my%20file.py", "tab%09.py", "line%0Aend.py", "caf%E9.py", *long):
            client.open(path, "x: int = ''\nstop\nadd = 3\n")
            told = [it[:2] for it in client.told(path)]
            tally.judge(told == [*wrong, (1, "name-defined")], f"{path}: {client.shown[path]}")
        client.open("models.py", MODELS)
        client.change("models.py", 2, {"text": large})
        tally.judge([it["severity"] for it in client.shown["models.py"]] == [2], "a document that is too large")
        client.open("other.py", SHOP)
        tally.judge(client.told("other.py") == [UNKNOWN, NOTE], f"its text is gone: {client.shown}")
        client.change("models.py", 3, {"text": MODELS})
        told = client.told("models.py"), client.told("other.py")
        tally.judge(told == ([], [WRONG, NOTE]), f"it is small again: {client.shown}")
        (room.folder / "shop" / "__init__.py").unlink()
        client.touch(3, "shop/__init__.py")
        client.checked("shop.py")
        tally.judge(client.told("shop.py") == [WRONG, NOTE], f"the name of its module is free: {client.shown}")


def settings(room, tally):
    """Options, root and pause, by words and by what the editor sends."""
    room.write(**{"inner/shop.py": "import gone\nx: int = ''\n\ndef f(a=1):\n    return 1 + ''\n"})
    inner = room.folder / "inner"
    cases = [
        (("--ignore-missing-imports",), None, [1]),
        (("--check-untyped-defs",), None, [0, 1, 4]),
        ((), {"options": ["--ignore-missing-imports", "--check-untyped-defs"]}, [1, 4]),
    ]
    for words, options, lines in cases:
        with Client(inner, "--program", room.program, *words) as client:
            client.begin(options=options)
            client.checked("shop.py")
            tally.judge([it[0] for it in client.told("shop.py")] == lines, f"{words} {options}: {client.shown}")
    for words, options in ((("--root", inner), None), ((), {"root": str(inner)})):
        with Client(room.folder, "--program", room.program, *words) as client:
            client.begin(options=options, root=not words)
            client.checked("inner/shop.py")
            tally.judge(list(client.shown) == ["inner/shop.py"], f"the root {words} {options}: {client.shown}")
    (room.folder / "link").symlink_to(inner)
    with Client(inner, "--program", room.program, "--root", room.folder / "link") as client:
        client.begin()
        client.open("shop.py", "x: int = ''\n", 2)
        tally.judge([it[0] for it in client.told("shop.py")] == [0], f"a folder behind a link: {client.shown}")
    with Client(room.folder, "--program", "none", "--pause", "9") as client:
        client.begin(options={"program": str(room.program), "pause": 1})
        client.checked("shop.py")
        client.open("shop.py", SHOP)
        for version in range(2, 6):
            time.sleep(0.1)
            client.send_change("shop.py", version, edit((0, 0), (0, 0), "\n"))
        client.checked("shop.py", 5)
        tally.judge(client.versions["shop.py"] == [None, 1, 5], f"edits without a pause are one: {client.versions}")
    with Client(inner, "--program", room.program) as client:
        client.begin(options={"options": ["--fast"], "colour": 3})
        client.checked("shop.py")
        said = ['dmypy: the setting options cannot be ["--fast"]; the setting colour cannot be 3']
        tally.judge(client.said == said, f"settings that are of no use: {client.said}")
        tally.judge([it[0] for it in client.told("shop.py")] == [0, 1], f"the check without them: {client.shown}")


def files(room, tally):
    """Which files of a folder are the project's, by git and without."""
    wrong = "x: int = ''\n"
    paths = ("new.py", "ignored.py", "caf\u00e9.py", ".hidden/a.py", "__pycache__/a.py", "env/a.py", "text.txt")
    room.write(**{path: wrong for path in (*paths, "sub/a.py", "sub/b.pyi")})
    room.write(**{".gitignore": "ignored.py\nenv\n", "env/pyvenv.cfg": ""})
    with room.begun() as client:
        walked = {"new.py", "ignored.py", "caf%C3%A9.py", "sub/a.py", "sub/b.pyi", "shop.py"}
        tally.judge(set(client.shown) == walked, f"the files without git: {sorted(client.shown)}")
    room.git("init", "-q")
    room.git("add", "shop.py", "caf\u00e9.py", "models.py")
    with room.begun() as client:
        tracked = {"new.py", "caf%C3%A9.py", ".hidden/a.py", "sub/a.py", "sub/b.pyi", "shop.py"}
        tally.judge(set(client.shown) == tracked, f"the files with git: {sorted(client.shown)}")
        client.open("ignored.py", wrong)
        told = [it[0] for it in client.told("ignored.py")]
        tally.judge(told == [0], f"an open file that git ignores: {client.shown}")
        client.close("ignored.py")
        client.checked("ignored.py")
        tally.judge(client.told("ignored.py") == [], f"the file is closed: {client.shown}")


TESTS = (protocol, messages, edits, two_documents, faults, disk, refusals, settings, files)


def main():
    program = program_given("Runs the language server on small projects.")
    tally = Tally("editor")
    tests = (*TESTS, *editor_sessions.TESTS, *editor_names.TESTS, *editor_folders.TESTS, *editor_edits.TESTS)
    judge_in_rooms(tests, Room, program, tally, (Silent, OSError, subprocess.SubprocessError))
    return tally.close()


if __name__ == "__main__":
    sys.exit(main())
