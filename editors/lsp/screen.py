"""What an editor is shown of a folder: the messages of each file where they changed, each on its whole line."""

from typing import NamedTuple

from .documents import units
from .faults import SYNTAX, fault_among
from .opaque import form_at
from .program import HOME
from .session import Message

ERROR, WARNING, INFORMATION = 1, 2, 3
SEVERITIES = {"error": ERROR, "warning": WARNING, "note": INFORMATION}
SOURCE = "dmypy"
CODES = HOME / "docs" / "CODES.md"
OUTSIDE = "Outside the profile"
# the faults that a form which is left out may have: the second may be an error, too
OPAQUE = (OUTSIDE, "Invalid syntax")
ELSEWHERE = "dmypy does not check this file: it lies in no folder that is open in the editor"


class Shown(NamedTuple):
    """What an editor was shown last of a file, under which name: of which text, and the messages on it."""

    uri: str
    stamp: object
    version: object
    messages: tuple


NOTHING = Shown("", None, None, ())


class Found(NamedTuple):
    """What a check found, by path: messages, and why files are not checked."""

    messages: dict
    unchecked: dict

    def of(self, path):
        """Returns the messages to show of a file."""
        reason = self.unchecked.get(path)
        warning = Message(path, 1, "warning", f"dmypy does not check this file: {reason}")
        return (*self.messages.get(path, ()), *([warning] if reason else []))

    def differing(self, other):
        """Returns the files of which something else was found."""
        pairs = (self.messages, other.messages), (self.unchecked, other.unchecked)
        return {path for one, two in pairs for path in (*one, *two) if one.get(path) != two.get(path)}


def show(channel, folder, messages):
    """Shows the messages of a folder's files where they changed, less those that stand still while a fault is typed."""
    documents, found = folder.documents, Found(messages, folder.unchecked())
    faulty = {path for path in documents if fault_among(messages.get(path, ()))}
    is_typing = any(documents[path].is_typed and not documents[path].fault for path in faulty)
    changed = {*found.differing(folder.found or Found({}, {})), *folder.still, *documents, *folder.edited}
    folder.still = changed - faulty - folder.edited if is_typing else set()
    for path in sorted(changed - folder.still):
        show_file(channel, folder, path, found.of(path) if folder.shows(path) else ())
    folder.found = found
    folder.edited.clear()


def show_file(channel, folder, path, messages):
    """Shows the messages of a file, if they changed, or are those of another version of its text."""
    document, uri = folder.documents.get(path), folder.uri_of(path)
    now = Shown(uri, document.now.stamp if document else folder.sent.get(path), document and document.version, messages)
    before = folder.shown.get(path, NOTHING)
    if before.uri not in ("", uri) and before.messages:
        publish(channel, before.uri, None, [])
    if before == now or not document and not messages and not before.messages and before.version is None:
        return
    lines = folder.lines(path) if messages else []
    publish(channel, uri, now.version, [diagnostic(it, lines) for it in messages])
    folder.shown[path] = now


def publish(channel, uri, version, diagnostics):
    """Sends what is to be shown of a file, with the version of its text, if an editor has it."""
    params = {"uri": uri, "diagnostics": diagnostics}
    channel.notify("textDocument/publishDiagnostics", params if version is None else {**params, "version": version})


def show_elsewhere(channel, document):
    """Shows that a document lies in no folder."""
    where = {"range": span(0, 0, 0), "severity": INFORMATION, "source": SOURCE, "message": ELSEWHERE}
    publish(channel, document.uri, document.version, [where])


def clear(channel, folder):
    """Takes away all that is shown of a folder."""
    for shown in folder.shown.values():
        if shown.messages:
            publish(channel, shown.uri, None, [])
    folder.shown.clear()


def span(line, begin, end):
    """Returns the range between two columns of a line."""
    return {"start": {"line": line, "character": begin}, "end": {"line": line, "character": end}}


def diagnostic(message, lines):
    """Returns a message as an editor takes it."""
    line = message.line - 1
    text, severity = weighed(message, lines)
    found = {
        "range": span(line, 0, units(lines[line]) if line < len(lines) else 0),
        "severity": severity,
        "source": SOURCE,
        "message": text,
    }
    if message.code:
        found["code"] = message.code
        if CODES.is_file():
            found["codeDescription"] = {"href": f"{CODES.as_uri()}#{message.code}"}
    return found


def weighed(message, lines):
    """Returns the text of a message with its severity. A form that is left out is no error of the user."""
    if message.code != SYNTAX or message.text not in OPAQUE:
        return message.text, SEVERITIES[message.kind]
    text = "\n".join(lines)
    form = form_at(text, message.line)
    if form and (message.text == OUTSIDE or form.is_python(text)):
        return f"{message.text}: {form.text()}", INFORMATION
    return message.text, INFORMATION if message.text == OUTSIDE else ERROR
