"""What the language server does with its sessions: one that dies or is silent, old texts, typing, the program."""

import ast
import os
import signal
import time

from editor_room import MODELS, NOTE, PRICE, SHOP, WRONG, Logged, Wrapped
from language_client import Client, edit
from small_repository import ENVIRONMENT

# how often the text is typed (bench/editor_keys.py says how long a key takes)
TURNS = 3
TYPED = """
    def twice(self) -> int:
        both = self.price + len("ab")
        if both > 3:
            return both
        return self.price
"""


def deaths(room, tally):
    """A session that is killed is started anew with all texts, also while it is asked."""
    wrapped = Wrapped(room)
    with Client(room.folder, "--program", wrapped.path) as client:
        client.begin()
        client.checked("shop.py")
        client.open("models.py", MODELS)
        client.open("shop.py", SHOP)
        client.change("models.py", 2, edit(*PRICE, "str"))
        os.kill(wrapped.session(), signal.SIGKILL)
        client.change("shop.py", 2, edit((3, 0), (4, 0), ""))
        tally.judge(client.told("shop.py") == [], f"killed between checks: {client.shown}")
        stopped = wrapped.session()
        os.kill(stopped, signal.SIGSTOP)
        client.send_change("shop.py", 3, edit((2, 7), (2, 10), "int"))
        time.sleep(0.5)
        os.kill(stopped, signal.SIGKILL)
        client.checked("shop.py", 3)
        wrong = 'Incompatible types in assignment (expression has type "str", variable has type "int")'
        tally.judge(client.told("shop.py") == [(2, "assignment", wrong)], f"killed while it is asked: {client.shown}")
        os.kill(wrapped.session(), signal.SIGKILL)
        tally.judge(client.hover("shop.py", 2, 1) is None, "hover on a session that is killed")
        tally.judge(client.hover("shop.py", 2, 1) == "price: int", "hover on the one after it")
        tally.judge(client.said == [], f"what the user is told: {client.said}")
        wrapped.path.unlink()
        os.kill(wrapped.session(), signal.SIGKILL)
        client.send_change("shop.py", 4, edit((2, 7), (2, 10), "str"))
        client.take(lambda it: it.get("method") == "window/showMessage")
        said = [f"dmypy: no program was found: {wrapped.path} is not there"]
        tally.judge(client.said == said, f"no program: {client.said}")


def silence(room, tally):
    """A session that does not answer in 10 seconds is started anew, and the user told."""
    wrapped = Wrapped(room)
    with Client(room.folder, "--program", wrapped.path) as client:
        client.begin()
        client.checked("shop.py")
        client.open("shop.py", SHOP)
        os.kill(wrapped.session(), signal.SIGSTOP)
        begun = time.monotonic()
        client.change("shop.py", 2, edit((2, 7), (2, 10), "int"))
        took = time.monotonic() - begun
        tally.judge(client.told("shop.py") == [(3, None, 'Revealed type is "int"')], f"after silence: {client.shown}")
        tally.judge(took >= 10, f"the patience: {took} s")
        said = ["dmypy: the session does not answer in 10 seconds, and is started anew"]
        tally.judge(client.said == said, f"what the user is told of silence: {client.said}")


def old_texts(room, tally):
    """A report on a text that was changed while the session was asked is not shown."""
    wrapped = Wrapped(room)
    with Client(room.folder, "--program", wrapped.path, "--pause", "0") as client:
        client.begin()
        client.checked("shop.py")
        client.open("shop.py", SHOP)
        session = wrapped.session()
        os.kill(session, signal.SIGSTOP)
        client.send_change("shop.py", 2, edit((2, 7), (2, 10), "int"))
        time.sleep(0.5)
        client.send_change("shop.py", 3, edit((2, 7), (2, 10), "bool"))
        client.request(77, "textDocument/hover", textDocument={"uri": client.uri("shop.py")}, position={})
        client.tell("$/cancelRequest", id=77)
        time.sleep(0.5)
        os.kill(session, signal.SIGCONT)
        cancelled = client.take(lambda it: it.get("id") == 77)
        tally.judge(cancelled["error"]["code"] == -32800, f"a request that is taken back: {cancelled}")
        client.checked("shop.py", 3)
        tally.judge(client.versions["shop.py"] == [None, 1, 3], f"the versions that are shown: {client.versions}")
        tally.judge(client.told("shop.py")[1] == (3, None, 'Revealed type is "bool"'), f"the last text: {client.shown}")


def typed(client, begin, version):
    """Types TYPED into models.py from a place on, key by key. Returns how many milliseconds each answer took."""
    line, column = begin
    took = []
    for number, key in enumerate(TYPED, version):
        begun = time.monotonic()
        client.change("models.py", number, edit((line, column), (line, column), key))
        took.append(1000 * (time.monotonic() - begun))
        line, column = (line + 1, 0) if key == "\n" else (line, column + 1)
    return took


def typing(room, tally):
    """Each key in a file that all others import is answered at once; a text with a fault is kept from the session."""
    logged = Logged(room)
    room.write(**{f"shop{number}.py": SHOP for number in range(40)})
    with Client(room.folder, "--program", logged.path) as client:
        client.begin()
        client.open("models.py", MODELS)
        for first in range(2, 2 + TURNS * (len(TYPED) + 1), len(TYPED) + 1):
            typed(client, (2, 26), first)
            told = client.told("models.py"), client.told("shop7.py")
            tally.judge(told == ([], [WRONG, NOTE]), f"after the last key: {told}")
            client.change("models.py", first + len(TYPED), {"text": MODELS})
        wanted = [*range(1, 2 + TURNS * (len(TYPED) + 1))]
        shown = client.versions["models.py"]
        tally.judge(shown == wanted, f"the versions that are shown: {shown}")
    faulty = [text for text in logged.texts("models.py") if not is_python(text)]
    tally.judge(faulty == [], f"texts with a fault that were given: {faulty}")


def is_python(text):
    """Whether Python takes a text."""
    try:
        ast.parse(text)
    except SyntaxError:
        return False
    return True


def programs(room, tally):
    """Which program runs: the one that is given, or `$DMYPY`, or the first of the PATH that answers a session."""
    other, empty = room.folder / "other", room.folder / "empty"
    room.write(**{"other/dmypy": "#!/bin/sh\necho mypy\n"})
    (other / "dmypy").chmod(0o755)
    empty.mkdir()
    with Client(room.folder, environment={**ENVIRONMENT, "DMYPY": room.program, "PATH": other}) as client:
        client.begin()
        client.checked("shop.py")
        tally.judge(client.told("shop.py") == [WRONG, NOTE], f"the program by its variable: {client.shown}")
    (other / "bin").mkdir()
    (other / "bin" / "dmypy").symlink_to(room.program)
    with Client(room.folder, environment={**ENVIRONMENT, "DMYPY": other / "dmypy", "PATH": other / "bin"}) as client:
        client.begin()
        client.checked("shop.py")
        tally.judge(client.told("shop.py") == [WRONG, NOTE], f"the program after another one: {client.shown}")
        what = f"{other}/dmypy is another program, as mypy's daemon is: it answers no session"
        tally.judge(len(client.said) == 1 and what in client.said[0], f"what the user is told: {client.said}")
    with Client(room.folder, "--program", other / "dmypy") as client:
        client.begin()
        client.take(lambda it: it.get("method") == "window/showMessage")
        tally.judge(client.said == [f"dmypy: no program was found: {what}"], f"another program: {client.said}")


TESTS = (deaths, silence, old_texts, typing, programs)
