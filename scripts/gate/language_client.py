"""A client of the language server, as an editor is one: it sends texts and edits, and keeps what it is shown."""

import json
import queue
import subprocess
import sys
import tempfile
import threading

from judging import SECONDS
from repository import ROOT
from small_repository import ENVIRONMENT

SERVER = ROOT / "editors" / "dmypy_lsp.py"


class Silent(Exception):
    """The server did not say what was waited for."""


def edit(begin, end, text):
    """A change of a text between two places, each a line and a column."""
    start, stop = ({"line": line, "character": column} for line, column in (begin, end))
    return {"range": {"start": start, "end": stop}, "text": text}


class Client:
    """A running server in a folder. `shown` has the diagnostics of each file by its path, `versions` those that came
    with them, in order, and `said` the messages to the user."""

    def __init__(self, root, *words, command=(sys.executable, SERVER), environment=ENVIRONMENT):
        self.root = root
        self.shown = {}
        self.versions = {}
        self.said = []
        self.asked = []
        self.number = 0
        self.inbox = queue.Queue()
        self.errors = tempfile.TemporaryFile()
        pipes = {"stdin": subprocess.PIPE, "stdout": subprocess.PIPE, "stderr": self.errors}
        self.server = subprocess.Popen([*map(str, (*command, *words))], cwd="/", env=environment, **pipes)
        self.reader = threading.Thread(target=self.read, daemon=True)
        self.reader.start()

    def __enter__(self):
        return self

    def __exit__(self, *_):
        self.server.kill()
        self.server.wait()
        self.reader.join()
        for stream in (self.server.stdin, self.server.stdout, self.errors):
            try:
                stream.close()
            except OSError:
                pass

    def read(self):
        """Puts the server's messages into the inbox, and None at their end."""
        for head in iter(self.server.stdout.readline, b""):
            self.server.stdout.readline()
            self.inbox.put(json.loads(self.server.stdout.read(int(head.partition(b":")[2]))))
        self.inbox.put(None)

    def send(self, body):
        """Sends the bytes of a message."""
        self.server.stdin.write(b"Content-Length: %d\r\n\r\n%s" % (len(body), body))
        self.server.stdin.flush()

    def tell(self, method, **params):
        """Sends a notification."""
        self.send(json.dumps({"jsonrpc": "2.0", "method": method, "params": params}).encode())

    def ask(self, method, **params):
        """Sends a request, and returns the result or the code of the error."""
        self.number += 1
        self.request(self.number, method, **params)
        answer = self.take(lambda it: it.get("id") == self.number and "method" not in it)
        return answer["error"]["code"] if "error" in answer else answer["result"]

    def request(self, number, method, **params):
        """Sends a request."""
        self.send(json.dumps({"jsonrpc": "2.0", "id": number, "method": method, "params": params}).encode())

    def take(self, is_wanted):
        """Takes messages up to a wanted one, and returns it."""
        while True:
            try:
                message = self.inbox.get(timeout=SECONDS)
            except queue.Empty:
                raise Silent("the server says nothing") from None
            if message is None:
                self.errors.seek(0)
                raise Silent(f"the server ended: {self.errors.read().decode()}")
            self.note(message)
            if is_wanted(message):
                return message

    def note(self, message):
        """Keeps what a message of the server says."""
        method, params = message.get("method"), message.get("params")
        if method == "textDocument/publishDiagnostics":
            path = self.path(params["uri"])
            self.shown[path] = params["diagnostics"]
            self.versions.setdefault(path, []).append(params.get("version"))
        elif method == "window/showMessage":
            self.said.append(params["message"])
        elif method is not None and "id" in message:
            self.asked.append((method, params))
            self.send(json.dumps({"jsonrpc": "2.0", "id": message["id"], "result": None}).encode())

    def uri(self, path):
        """The name of a file: of one in the folder by its path."""
        return path if path.startswith("file:") else f"file://{self.root}/{path}"

    def path(self, uri):
        """The path of a file in the folder, or the whole name of another."""
        return uri[len(self.uri("")) :] if uri.startswith(self.uri("")) else uri

    def folder(self, path):
        """A folder inside the server's folder, as the protocol names it."""
        return {"uri": self.uri(path).rstrip("/"), "name": path}

    def begin(self, options=None, capabilities=None, root=True, folders=None):
        """Begins to speak with the server. Returns what it can do."""
        given = {"rootUri": self.uri("").rstrip("/") if root else None}
        if folders is not None:
            given["workspaceFolders"] = [self.folder(path) for path in folders]
        answer = self.ask("initialize", capabilities=capabilities or {}, initializationOptions=options, **given)
        self.tell("initialized")
        return answer

    def refolder(self, added=(), removed=()):
        """Adds folders to the workspace, and takes others away."""
        event = {"added": [self.folder(path) for path in added], "removed": [self.folder(path) for path in removed]}
        self.tell("workspace/didChangeWorkspaceFolders", event=event)

    def open(self, path, text, version=1):
        """Opens a document, and waits until it is checked."""
        document = {"uri": self.uri(path), "languageId": "python", "version": version, "text": text}
        self.tell("textDocument/didOpen", textDocument=document)
        self.checked(path, version)

    def change(self, path, version, *changes):
        """Changes a document, and waits until it is checked."""
        self.send_change(path, version, *changes)
        self.checked(path, version)

    def send_change(self, path, version, *changes):
        """Changes a document."""
        document = {"uri": self.uri(path), "version": version}
        self.tell("textDocument/didChange", textDocument=document, contentChanges=list(changes))

    def save(self, path):
        """Says that a document is saved."""
        self.tell("textDocument/didSave", textDocument={"uri": self.uri(path)})

    def close(self, path):
        """Closes a document."""
        self.tell("textDocument/didClose", textDocument={"uri": self.uri(path)})

    def touch(self, kind, *paths):
        """Says that files of the disk were created (1), changed (2) or deleted (3)."""
        self.tell("workspace/didChangeWatchedFiles", changes=[{"uri": self.uri(path), "type": kind} for path in paths])

    def hover(self, path, line, column):
        """The text that is shown at a place, or None."""
        place = {"line": line, "character": column}
        found = self.ask("textDocument/hover", textDocument={"uri": self.uri(path)}, position=place)
        return found and found["contents"]["value"]

    def definitions(self, path, line, column):
        """Where the name at a place is defined: the path, the line and the columns of each place."""
        place = {"line": line, "character": column}
        found = self.ask("textDocument/definition", textDocument={"uri": self.uri(path)}, position=place)
        ranges = [(it["range"]["start"], it["range"]["end"]) for it in found]
        columns = [(begin["line"], begin["character"], end["character"]) for begin, end in ranges]
        return [(self.path(it["uri"]), *its) for it, its in zip(found, columns)]

    def actions(self, path, line, **more):
        """The code actions on a line, for what is shown there."""
        shown = [it for it in self.shown.get(path, []) if it["range"]["start"]["line"] == line]
        where = {"start": {"line": line, "character": 0}, "end": {"line": line, "character": 0}}
        document = {"uri": self.uri(path)}
        context = {"diagnostics": shown, **more}
        return self.ask("textDocument/codeAction", textDocument=document, range=where, context=context)

    def checked(self, path, version=None):
        """Waits until a file is shown, in a version if it is open, and all that the same check shows."""
        self.take(
            lambda it: it.get("method") == "textDocument/publishDiagnostics"
            and self.path(it["params"]["uri"]) == path
            and it["params"].get("version") == version
        )
        self.ask("nothing")

    def told(self, path):
        """The messages that are shown of a file: each line, counted from 0, with its code and its text."""
        return [(it["range"]["start"]["line"], it.get("code"), it["message"]) for it in self.shown.get(path, [])]
