"""Which files the language server checks, in which folders, and under which paths imports find them."""

import os
import time

from editor_room import MISSING, MODELS, NOTE, SHOP, WRONG
from language_client import edit
from repository import ROOT

WRONG_FIRST = (0, "assignment", 'Incompatible types in assignment (expression has type "str", variable has type "int")')
BAD = "x: int = ''\n"
ELSEWHERE = "dmypy does not check this file: it lies in no folder that is open in the editor"


def folders(room, tally):
    """Each folder of the workspace has a session of its own; a file inside two belongs to the inner one."""
    room.write(**{f"{folder}/shop.py": SHOP for folder in ("one", "two", "two/inner")})
    room.write(**{"one/models.py": MODELS, "two/inner/models.py": MODELS})
    room.write(**{"two/models.py": MODELS.replace("int", "str")})
    with room.client() as client:
        client.begin(folders=["one", "two"])
        client.checked("two/models.py")
        told = [client.told(path) for path in ("one/shop.py", "one/models.py", "two/shop.py")]
        tally.judge(told == [[WRONG, NOTE], [], [NOTE]], f"two folders: {client.shown}")
        told = [it[:2] for it in client.told("two/models.py")]
        tally.judge(told == [(6, "arg-type")], f"the second folder: {client.shown}")
        tally.judge(client.told("two/inner/shop.py") == [NOTE], f"a folder in a folder: {client.shown}")
        client.open("two/inner/shop.py", SHOP)
        client.refolder(added=["two/inner"])
        client.checked("two/inner/shop.py", 1)
        tally.judge(client.told("two/inner/shop.py") == [WRONG, NOTE], f"an inner folder that is added: {client.shown}")
        client.change("two/inner/shop.py", 2, edit((2, 7), (2, 10), "int"))
        told = client.told("two/inner/shop.py")
        tally.judge(told == [(3, None, 'Revealed type is "int"')], f"an edit in the inner folder: {client.shown}")
        client.refolder(removed=["two"])
        client.checked("two/shop.py")
        told = client.told("two/shop.py"), client.told("two/models.py"), client.told("one/shop.py")
        tally.judge(told == ([], [], [WRONG, NOTE]), f"a folder that is taken away: {client.shown}")
        client.refolder(removed=["two/inner"])
        client.checked("two/inner/shop.py", 2)
        found = [(it["severity"], it["message"]) for it in client.shown["two/inner/shop.py"]]
        tally.judge(found == [(3, ELSEWHERE)], f"a document that is in no folder any more: {client.shown}")


def elsewhere(room, tally):
    """A document outside all folders says so, until it is closed or its folder is added."""
    room.write(**{"one/shop.py": BAD, "two/shop.py": BAD})
    with room.client() as client:
        client.begin(folders=["one"])
        client.checked("one/shop.py")
        client.open("two/shop.py", BAD, 4)
        found = [(it["range"]["start"]["line"], it["severity"], it["message"]) for it in client.shown["two/shop.py"]]
        tally.judge(found == [(0, 3, ELSEWHERE)], f"a document outside: {client.shown}")
        client.close("two/shop.py")
        client.checked("two/shop.py")
        tally.judge(client.shown["two/shop.py"] == [], f"it is closed: {client.shown}")
        client.open("two/other.pyi", "")
        tally.judge(len(client.shown["two/other.pyi"]) == 1, f"a stub outside: {client.shown}")
        client.close("two/other.pyi")
        client.open("two/shop.py", BAD, 5)
        client.refolder(added=["two"])
        client.checked("two/shop.py", 5)
        tally.judge(client.told("two/shop.py") == [WRONG_FIRST], f"its folder is added: {client.shown}")
        for uri in ("untitled:1.py", client.uri("notes.txt")):
            client.tell("textDocument/didOpen", textDocument={"uri": uri, "version": 1, "text": BAD})
        client.change("two/shop.py", 6, edit((0, 3), (0, 6), "str"))
        there = {"one/shop.py", "two/shop.py", "two/other.pyi"}
        tally.judge({*client.shown} == there, f"what is no Python file: {client.shown}")


STUB = "class Item:\n    price: str\n\ndef first() -> Item: ...\n"


def stubs(room, tally):
    """A file whose stub is open or on the disk has no messages; the stub has, and imports find it."""
    with room.begun() as client:
        client.open("models.py", f"{MODELS}{BAD}")
        told = client.told("models.py"), client.told("shop.py")
        tally.judge(told == ([(7, *WRONG_FIRST[1:])], [WRONG, NOTE]), f"without a stub: {client.shown}")
        client.open("models.pyi", f"{BAD}{STUB}")
        told = [client.told(path) for path in ("models.py", "models.pyi", "shop.py")]
        tally.judge(told == [[], [WRONG_FIRST], [NOTE]], f"an open stub: {client.shown}")
        tally.judge(client.hover("models.py", 6, 11) is None, "hover in the file beside it")
        found = client.definitions("shop.py", 2, 13)
        tally.judge(found == [("models.pyi", 4, 4, 9)], f"a definition in the stub: {found}")
        client.change("models.py", 2, edit((0, 0), (0, 0), "("))
        tally.judge(client.told("models.py") == [], f"a fault in the file beside it: {client.shown}")
        client.close("models.pyi")
        client.checked("models.py", 2)
        told = [it[1] for it in client.told("models.py")], client.told("models.pyi"), client.told("shop.py")
        tally.judge(told == (["syntax"], [], [WRONG, NOTE]), f"the stub is closed: {client.shown}")
        room.write(**{"models.pyi": STUB})
        client.touch(1, "models.pyi")
        client.checked("models.py", 2)
        told = client.told("models.py"), client.told("shop.py")
        tally.judge(told == ([], [NOTE]), f"a stub on the disk: {client.shown}")


def layouts(room, tally):
    """A file goes out under the path that imports mean, and its messages come back at the path of the disk."""
    use = "from pkg.models import first\n\nprice: str = first().price\n"
    room.write(**{"src/pkg/__init__.py": "", "src/pkg/models.py": MODELS})
    room.write(**{"src/pkg/use.py": use, "tests/test_use.py": use, "far.py": use.replace("pkg.models", "pkg2.m")})
    room.write(**{"other/pkg2/__init__.py": "", "other/pkg2/m.py": MODELS})
    lost = (0, "import-not-found", MISSING.format("pkg2.m"))
    with room.client() as client:
        client.begin()
        client.checked("tests/test_use.py")
        told = client.told("src/pkg/use.py"), client.told("tests/test_use.py"), client.told("far.py")
        tally.judge(told == ([WRONG], [WRONG], [lost]), f"files below src: {client.shown}")
        said = (
            "dmypy: far.py:1: pkg2.m is not found, but under the root 'other' it would be other/pkg2/m.py, which is "
            'other.pkg2.m now; pyproject.toml gives roots so: [tool.dmypy] roots = ["src", "other"]'
        )
        tally.judge(client.said == [said], f"a file that fits an import under another root: {client.said}")
        client.open("src/pkg/models.py", MODELS)
        client.change("src/pkg/models.py", 2, edit((1, 30), (1, 33), "str"))
        tally.judge(client.told("tests/test_use.py") == [], f"an edit below src: {client.shown}")
        tally.judge(client.hover("src/pkg/models.py", 2, 21) == "price: str", "hover below src")
        found = client.definitions("tests/test_use.py", 2, 13)
        tally.judge(found == [("src/pkg/models.py", 5, 4, 9)], f"a definition below src: {found}")
        room.write(**{"pyproject.toml": '[tool.dmypy]\nroots = ["src", "other"]\n'})
        client.touch(1, "pyproject.toml")
        client.checked("far.py")
        tally.judge(client.told("far.py") == [WRONG], f"roots that the project says: {client.shown}")


def project_settings(room, tally):
    """The table `[tool.dmypy]` of pyproject.toml has what is left out and the options; its program is not run."""
    table = '[tool.dmypy]\nexclude = ["old"]\noptions = ["--ignore-missing-imports"]\nprogram = "./run"\n'
    room.write(**{"pyproject.toml": table, "old/a.py": BAD, "new.py": f"import gone\n{BAD}"})
    room.write(run="#!/bin/sh\ntouch ran\n")
    (room.folder / "run").chmod(0o755)
    with room.client() as client:
        client.begin()
        client.checked("new.py")
        tally.judge(not (room.folder / "ran").exists(), "the project's own program is run")
        said = ["dmypy: ./run, the program that pyproject.toml names, is not run in an editor"]
        tally.judge(client.said == said, f"what the user is told of it: {client.said}")
        told = [(it[0] - 1, *it[1:]) for it in client.told("new.py")]
        tally.judge(told == [WRONG_FIRST], f"an option of the project: {client.shown}")
        client.open("old/a.py", BAD)
        tally.judge(client.shown["old/a.py"] == [], f"a document that is left out: {client.shown}")
        tally.judge(client.hover("old/a.py", 0, 0) is None, "hover on a document that is left out")
        room.write(**{"pyproject.toml": "[tool.dmypy]\nroot = 'src'\n"})
        client.touch(2, "pyproject.toml")
        told = client.take(lambda it: "no setting" in str(it.get("params")))["params"]["message"]
        said = "[tool.dmypy]: root is no setting: roots, exclude, options, program are"
        tally.judge(told == f"dmypy: {room.folder}/pyproject.toml: {said}", f"settings that are none: {told}")


def unseen_changes(room, tally):
    """What changed on the disk without a word is seen before a check, if the last look is 2 seconds old."""
    with room.begun() as client:
        client.open("shop.py", SHOP)
        room.write(**{"models.py": MODELS.replace("int", "str"), "new.py": BAD})
        time.sleep(2.1)
        client.change("shop.py", 2, edit((4, 0), (4, 0), "\n"))
        tally.judge(client.told("shop.py") == [NOTE], f"a file that changed: {client.shown}")
        tally.judge(client.told("new.py") == [WRONG_FIRST], f"a file that came: {client.shown}")
        room.write(**{"models.py": MODELS})
        os.unlink(room.folder / "new.py")
        time.sleep(2.1)
        client.change("shop.py", 3, edit((4, 0), (4, 0), "\n"))
        told = client.told("shop.py"), client.told("new.py")
        tally.judge(told == ([WRONG, NOTE], []), f"as it was before: {client.shown}")
        room.write(**{"new.py": BAD})
        time.sleep(2.1)
        tally.judge(client.hover("shop.py", 2, 1) == "price: str", "hover after a change of the disk")
        client.checked("new.py")
        tally.judge(client.told("new.py") == [WRONG_FIRST], f"a file that hover met: {client.shown}")


def version(room, tally):
    """The server says its version, which stands in one file."""
    with room.client() as client:
        answer = client.ask("initialize", capabilities={}, rootUri=client.uri("").rstrip("/"))
        wanted = {"name": "dmypy", "version": (ROOT / "VERSION").read_text(encoding="utf-8").strip()}
        tally.judge(answer["serverInfo"] == wanted, f"the server's name: {answer['serverInfo']}")
        folders_known = answer["capabilities"]["workspace"]["workspaceFolders"]
        tally.judge(folders_known == {"supported": True, "changeNotifications": True}, f"folders: {folders_known}")


def no_folder(room, tally):
    """Where the editor opens no folder, each document has that of its project, or else one with its packages alone."""
    room.write(**{"marked/setup.py": "", "marked/src/pkg/models.py": MODELS, "marked/far/bad.py": BAD})
    room.write(**{"marked/src/pkg/use.py": SHOP.replace("models", "pkg.models")})
    room.write(**{"bare/shop.py": SHOP, "bare/models.py": MODELS, "bare/far/bad.py": BAD, "bare/near/__init__.py": BAD})
    with room.client() as client:
        client.begin(root=False)
        client.open("marked/src/pkg/use.py", SHOP.replace("models", "pkg.models"))
        told = client.told("marked/src/pkg/use.py"), client.told("marked/far/bad.py")
        tally.judge(told == ([WRONG, NOTE], [WRONG_FIRST]), f"a project with a mark: {client.shown}")
        client.open("bare/shop.py", SHOP)
        told = client.told("bare/shop.py"), client.told("bare/near/__init__.py"), client.told("bare/far/bad.py")
        tally.judge(told == ([WRONG, NOTE], [WRONG_FIRST], []), f"a folder without a mark: {client.shown}")


TESTS = (no_folder, folders, elsewhere, stubs, layouts, project_settings, unseen_changes, version)
