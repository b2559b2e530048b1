"""Answers an editor in the language server protocol."""

import json
import sys
import time
from typing import NamedTuple
from urllib.parse import unquote, urlsplit

from . import actions, definitions, hover, screen
from .documents import Document
from .program import version
from .protocol import Closed
from .session import Ended
from .settings import OPTIONS
from .trees import word_at
from .workspace import Workspace

NO_REQUEST, NO_METHOD, BAD_PARAMS, NOT_BEGUN, CANCELLED = -32600, -32601, -32602, -32002, -32800
CAPABILITIES = {
    "positionEncoding": "utf-16",
    "textDocumentSync": {"openClose": True, "change": 2, "save": {"includeText": False}},
    "hoverProvider": True,
    "definitionProvider": True,
    "codeActionProvider": {"codeActionKinds": [actions.KIND]},
    "workspace": {"workspaceFolders": {"supported": True, "changeNotifications": True}},
}
WATCHED = {"watchers": [{"globPattern": "**/*.{py,pyi}"}, {"globPattern": "**/pyproject.toml"}]}
# notifications after which a report is on an old text
EDITS = ("textDocument/didOpen", "textDocument/didChange", "textDocument/didClose")
# how many seconds a check takes that follows each key, and how many pass without one before a check that takes longer
QUICK, PAUSE = 0.05, 0.1


class Settings(NamedTuple):
    """How the server runs sessions. Without a root it takes the editor's folders."""

    program: str = ""
    options: tuple = ()
    root: str = ""
    pause: object = None

    def merged(self, given):
        """Returns these settings with those that an editor sends, less those that are of no use."""
        known = {name: given[name] for name in self._fields if name in given and is_of_use(name, given[name])}
        return self._replace(**known)


def useless(wishes):
    """Returns the names of settings that are none, or cannot have their values."""
    return [name for name in wishes if name not in Settings._fields or not is_of_use(name, wishes[name])]


def is_of_use(name, value):
    """Whether a setting may have a value."""
    if name == "options":
        return isinstance(value, (list, tuple)) and all(it in OPTIONS for it in value)
    return isinstance(value, (int, float) if name == "pause" else str)


class Server:
    """Answers an editor. `due` is when the next check is due, and `status` that of the program, once it is to end."""

    def __init__(self, channel, settings):
        self.channel = channel
        self.settings = settings
        self.workspace = None
        self.is_watching = False
        self.is_shut = False
        self.due = None
        self.status = None
        self.remarks = set()
        # how many seconds the last check took
        self.took = 0

    def run(self):
        """Serves until the editor ends it or goes. Returns the program's status."""
        try:
            while self.status is None:
                message = self.channel.receive(None if self.due is None else max(0, self.due - time.monotonic()))
                if message is None:
                    self.check()
                else:
                    self.handle(message)
        except Closed:
            self.status = 1
        if self.workspace:
            self.workspace.close_all()
        return self.status

    def handle(self, message):
        """Handles a message of the editor. One without a method answers a request of the server."""
        method, number = message.get("method"), message.get("id")
        if not isinstance(method, str):
            return
        code = self.fault_of(method, number)
        try:
            result = HANDLERS[method](self, message.get("params") or {}) if code is None else None
        except (AttributeError, LookupError, RecursionError, TypeError, ValueError) as why:
            print(f"dmypy_lsp: {method}: {why!r}", file=sys.stderr)
            code = BAD_PARAMS
        if "id" not in message:
            return
        if code is None:
            self.channel.answer(number, result)
        else:
            self.channel.fail(number, code, f"{method} is not answered")

    def fault_of(self, method, number):
        """Returns why a message is not handled now, or None."""
        if self.is_shut and method != "exit" or self.workspace and method == "initialize":
            return NO_REQUEST
        if not self.workspace and method not in ("initialize", "shutdown", "exit"):
            return NOT_BEGUN
        if method not in HANDLERS:
            return NO_METHOD
        if number is not None and any(is_cancel(it, number) for it in self.channel.arrived()):
            return CANCELLED
        return None

    def tell(self, text, kind=screen.ERROR):
        """Shows the user a text."""
        self.channel.notify("window/showMessage", {"type": kind, "message": f"dmypy: {text}"})

    def remark(self, text):
        """Shows the user a text that may be of use, unless it is empty or was shown before."""
        if text and text not in self.remarks:
            self.remarks.add(text)
            self.tell(text, screen.INFORMATION)

    def initialize(self, params):
        """Learns the settings and the folders."""
        wishes = params.get("initializationOptions")
        wishes = wishes if isinstance(wishes, dict) else {}
        self.settings = self.settings.merged(wishes)
        given = [local_folder(it.get("uri")) for it in params.get("workspaceFolders") or ()]
        given = given or [local_folder(params.get("rootUri")) or params.get("rootPath") or ""]
        workspace = (params.get("capabilities") or {}).get("workspace") or {}
        self.is_watching = bool((workspace.get("didChangeWatchedFiles") or {}).get("dynamicRegistration"))
        self.workspace = Workspace(self.settings, self.tell, self.remark)
        for root in filter(None, [self.settings.root] if self.settings.root else given):
            self.workspace.add(root)
        self.workspace.finds_projects = not self.workspace.folders
        self.remark("; ".join(f"the setting {name} cannot be {json.dumps(wishes[name])}" for name in useless(wishes)))
        return {"capabilities": CAPABILITIES, "serverInfo": {"name": "dmypy", "version": version()}}

    def initialized(self, _):
        """Asks the editor for word of changed files, and checks for the first time."""
        if self.is_watching:
            watched = {"id": "files", "method": "workspace/didChangeWatchedFiles", "registerOptions": WATCHED}
            self.channel.request("watch", "client/registerCapability", {"registrations": [watched]})
        self.wait()

    def shutdown(self, _):
        """Ends the sessions. Only `exit` is handled after it."""
        self.is_shut = True
        self.due = None
        if self.workspace:
            self.workspace.close_all()

    def exit(self, _):
        """Ends the program."""
        self.status = 0 if self.is_shut else 1

    def opened(self, params):
        """Takes the text of a document that the editor opened."""
        given = params["textDocument"]
        self.workspace.open(Document(given["uri"], given["version"], given["text"]))
        self.show_elsewhere([given["uri"]])
        self.wait()

    def changed(self, params):
        """Changes the text of an open document."""
        given = params["textDocument"]
        document = self.workspace.documents.get(given["uri"])
        if document:
            document.change(given["version"], params["contentChanges"])
            self.touch(given["uri"])

    def saved(self, params):
        """Takes note that the text of a document is that of the disk, and looks at the disk again."""
        uri = params["textDocument"]["uri"]
        if uri in self.workspace.documents:
            self.workspace.documents[uri].is_saved = True
        self.touch(uri, True)

    def closed(self, params):
        """Goes back to the disk's text of a document, if the disk has the file."""
        uri = params["textDocument"]["uri"]
        if uri in self.workspace.elsewhere():
            screen.publish(self.channel, uri, None, [])
        self.workspace.close(uri)
        self.wait()

    def watched(self, params):
        """Looks at the disk again."""
        for change in params["changes"]:
            folder, path = self.workspace.find(change["uri"])
            if folder:
                folder.resend(path)
                folder.touch(path)
        self.workspace.look_again()
        self.wait()

    def refoldered(self, params):
        """Takes folders of the workspace away, and adds others."""
        if self.settings.root:
            return
        before = self.workspace.elsewhere()
        removed, added = ([local_folder(it["uri"]) for it in params["event"][which]] for which in ("removed", "added"))
        for folder in filter(None, map(self.workspace.remove, removed)):
            screen.clear(self.channel, folder)
        for root in added:
            self.workspace.add(root)
        self.show_elsewhere(self.workspace.elsewhere() - before)
        self.wait()

    def show_elsewhere(self, uris):
        """Shows of each of these documents if it lies in no folder."""
        for uri in self.workspace.elsewhere() & {*uris}:
            screen.show_elsewhere(self.channel, self.workspace.documents[uri])

    def touch(self, uri, is_on_disk=False):
        """Has a check of a file's folder follow."""
        folder, path = self.workspace.find(uri)
        if folder:
            folder.touch(path, is_on_disk)
            self.wait()

    def wait(self):
        """Has a check follow when nothing else came for a while."""
        pause = self.settings.pause
        if pause is None:
            pause = 0 if self.took < QUICK else PAUSE
        self.due = time.monotonic() + pause

    def hover(self, params):
        """Returns the type of the name at a place, or None."""
        folder, path = self.workspace.find(params["textDocument"]["uri"])
        document = folder and folder.documents.get(path)
        word = word_at(document.text, params["position"]) if document else None
        for probe in hover.probes(document.text, word) if word else ():
            shown = folder.revealed(path, probe.text, probe.line)
            self.wait_for(folder)
            if shown:
                return {"contents": {"kind": "plaintext", "value": f"{probe.shown}: {shown}"}}
        return None

    def definition(self, params):
        """Returns where the name at a place is defined, in files of its folder."""
        folder, path = self.workspace.find(params["textDocument"]["uri"])
        if not folder:
            return []
        found = definitions.places(folder, path, params["position"])
        self.wait_for(folder)
        return [{"uri": folder.uri_of(it.path), "range": it.range} for it in found]

    def wait_for(self, folder):
        """Has a check follow if the disk has other files than before, which a request then met."""
        if folder.is_due and self.due is None:
            self.wait()

    def code_action(self, params):
        """Returns the edits that may suppress the errors at a place."""
        document = self.workspace.documents.get(params["textDocument"]["uri"])
        context = params["context"]
        is_wanted = document and actions.KIND in (context.get("only") or [actions.KIND])
        return actions.ignores(document, context["diagnostics"]) if is_wanted else []

    def check(self):
        """Checks the folders in which something changed, and shows the editor what is new. A report on a text that was
        changed meanwhile is not shown: a check of the new one follows."""
        self.due = None
        for folder in self.workspace.folders:
            if not folder.is_due:
                continue
            begun = time.monotonic()
            found = self.report(folder)
            self.took = time.monotonic() - begun
            if any(it.get("method") in EDITS for it in self.channel.arrived()):
                self.wait()
                return
            folder.is_due = False
            if found is not None:
                screen.show(self.channel, folder, found)

    def report(self, folder):
        """Returns the messages on the files of a folder, or None. Tells the user of trouble, once."""
        try:
            found = folder.report()
            trouble = "there is no memory for a check" if found is None else ""
        except Ended as why:
            found, trouble = None, str(why)
        trouble = "; ".join(filter(None, [folder.disk.trouble, trouble]))
        if trouble and trouble != folder.trouble:
            self.tell(trouble)
        folder.trouble = trouble
        return found


def local_folder(uri):
    """Returns the path of a folder, or an empty text."""
    return unquote(urlsplit(uri or "").path, errors="surrogateescape")


def is_cancel(message, number):
    """Whether a message takes back the request of this number."""
    return message.get("method") == "$/cancelRequest" and (message.get("params") or {}).get("id") == number


HANDLERS = {
    "initialize": Server.initialize,
    "initialized": Server.initialized,
    "shutdown": Server.shutdown,
    "exit": Server.exit,
    "textDocument/didOpen": Server.opened,
    "textDocument/didChange": Server.changed,
    "textDocument/didSave": Server.saved,
    "textDocument/didClose": Server.closed,
    "textDocument/hover": Server.hover,
    "textDocument/definition": Server.definition,
    "textDocument/codeAction": Server.code_action,
    "workspace/didChangeWatchedFiles": Server.watched,
    "workspace/didChangeWorkspaceFolders": Server.refoldered,
}
