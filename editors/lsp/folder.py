"""The files of a folder: the texts of an editor, the others on the disk, and the session that checks them."""

import os
from pathlib import Path
from urllib.parse import unquote, urlsplit

from .disk import Disk
from .documents import lines_of
from .faults import Faults, fault_among
from .paths import SUFFIXES, is_stub
from .program import NoProgram, find_program
from .results import stray_lines
from .session import Ended, Session, Silent

# how many seconds a session may be silent. It is twice as long after each time that one was
PATIENCE = 10
REVEALED = 'Revealed type is "'


def local_path(uri):
    """Returns the path of a file of the disk, or None where the name is that of something else."""
    parts = urlsplit(uri)
    return Path(unquote(parts.path, errors="surrogateescape")) if parts.scheme == "file" else None


def path_below(root, uri):
    """Returns the path of a Python file below a folder, seen from there, or None."""
    given = local_path(uri)
    if given is None or given.suffix not in SUFFIXES:
        return None
    for path, folder in ((given, root), (Path(os.path.realpath(given)), Path(os.path.realpath(root)))):
        if folder in path.parents:
            return path.relative_to(folder).as_posix()
    return None


def by_path(messages):
    """Returns messages by their paths."""
    found = {}
    for it in messages:
        found.setdefault(it.path, []).append(it)
    return found


class Folder:
    """A folder of a workspace, which one session checks. `tell` shows the user a text, and `remark` shows it once.

    `documents` are the open ones by path, and `inner` the folders inside this one that have sessions of their own.
    `sent` says by path of which text the session was told, and `refused` what it refused. `edited` are the files that
    were edited or sent since messages were shown last; `found` is what a check found then, `shown` what was shown, and
    `still` are the files of which it is not what was found (screen.py).
    """

    def __init__(self, root, settings, tell, remark, is_marked=True):
        self.root = root
        self.settings = settings
        self.tell = tell
        self.remark = remark
        self.disk = Disk(root, is_marked)
        self.session = None
        self.faults = None
        self.patience = PATIENCE
        self.is_due = True
        self.trouble = ""
        self.documents = {}
        self.inner = ()
        self.uris = {}
        self.sent = {}
        self.refused = {}
        self.edited = set()
        self.found = None
        self.shown = {}
        self.still = set()

    def touch(self, path=None, is_on_disk=False):
        """Takes note that a file was edited, or something on the disk."""
        self.is_due = True
        if path:
            self.edited.add(path)
        if is_on_disk:
            self.disk.forget()

    def shows(self, path):
        """Whether the messages of a file are shown here, and not by a folder inside this one."""
        return not path.startswith(self.inner)

    def uri_of(self, path):
        """Returns the name that the editor has for a file."""
        if path in self.documents:
            return self.documents[path].uri
        if path not in self.uris:
            self.uris[path] = (self.root / path).as_uri()
        return self.uris[path]

    def text(self, path):
        """Returns the text of a file as it is now."""
        if path in self.documents:
            return self.documents[path].text
        try:
            return (self.root / path).read_bytes().decode(errors="replace")
        except OSError:
            return ""

    def lines(self, path):
        """Returns the lines of a file as it is now."""
        return lines_of(self.text(path))

    def modules(self):
        """Returns the file of each module that the files name: its stub where it has one."""
        files = sorted(self.disk.files - self.disk.left_out.keys(), key=is_stub)
        return {self.disk.module(path): path for path in files}

    def strays(self):
        """Returns the imports that find nothing, though a file fits them under another root."""
        return self.disk.strays()

    def report(self):
        """Returns the messages on all files as they are now, by path, or None where there is no memory for them. A
        session that died or is silent is started anew, once."""
        for is_last in (False, True):
            try:
                self._send_changes()
                report = self.session.check()
                return None if report is None else self._found(report)
            except Ended as why:
                self._end(why, not is_last)
                if is_last:
                    raise

    def _end(self, why, is_told):
        """Ends a session that failed. After one that was silent, which the user is told, the next may be so longer."""
        self.close()
        if isinstance(why, Silent):
            self.patience *= 2
            if is_told:
                self.tell(f"{why}, and is started anew")

    def _found(self, report):
        """Returns the messages of a report by path. Takes note of which documents have no fault, but for those that are not
        checked since their stubs are."""
        found = by_path(report.messages())
        taken = [(path, it) for path, it in self.documents.items() if not self.session.stub(path)]
        for path, document in taken:
            if document.fault:
                found[path] = [document.fault._replace(path=path)]
            elif not fault_among(found.get(path, ())):
                document.keep()
            elif document.is_saved:
                document.good = None
        return found

    def _send_changes(self, but=None):
        """Starts the session where there is none, and tells it what changed, but for one file."""
        before = self.disk.settings, self.disk.layout, self.disk.stamps
        self.disk.look(self.documents)
        if before[:2] != (self.disk.settings, self.disk.layout):
            self.close()
        if not self.session:
            self._start()
        if before[2] != self.disk.stamps:
            self.is_due = True
            self.remark("; ".join(stray_lines(self, str)))
        self._look_for_faults()
        stamps = {**self.disk.stamps, **{path: document.held().stamp for path, document in self.documents.items()}}
        wanted = {path: stamps[path] for path in self.disk.files if path not in self.disk.left_out}
        self._take_away([path for path in self.sent if path not in wanted])
        for path in sorted(path for path, stamp in wanted.items() if self.sent.get(path) != stamp):
            if path != but:
                self._send(path)
            self.sent[path] = None if path == but else wanted[path]

    def _take_away(self, gone):
        """Takes files out of the session."""
        for path in gone:
            self.session.remove(path)
            self.refused.pop(path, None)
            del self.sent[path]

    def _start(self):
        """Starts the session."""
        own = self.disk.settings
        try:
            found = find_program(self.settings.program)
        except NoProgram as why:
            raise Ended(str(why)) from why
        self.remark(found.text())
        if own.program:
            # (whoever opens a folder does not mean to run what came with it)
            self.remark(f"{own.program}, the program that pyproject.toml names, is not run in an editor")
        options = tuple(dict.fromkeys((*own.options, *self.settings.options)))
        self.session = Session(found.path, options, self.root, self.disk.layout, self.patience)
        self.faults = Faults(found.path, self.root, self.patience)

    def _look_for_faults(self):
        """Looks for faults in the documents that were typed since the last look."""
        for document in self.documents.values():
            if document.is_typed and not document.is_read:
                document.fault = self.faults.fault_of(document)
            if document.is_saved:
                document.fault = None
            document.is_read = True

    def unchecked(self):
        """Returns why files are not checked, by path."""
        return {**self.disk.left_out, **self.refused}

    def _send(self, path):
        """Tells the session the text of a file."""
        self.edited.add(path)
        document = self.documents.get(path)
        reason = self.session.give(path, document.held().content()) if document else self.session.update(path)
        self.refused.pop(path, None)
        if reason:
            self.refused[path] = self.session.why(path, reason)

    def resend(self, path):
        """Has the text of a file sent again with the next report."""
        if path in self.sent:
            self.sent[path] = None

    def revealed(self, path, text, line):
        """Returns the type that a note on a line of another text of a file reveals, or None."""
        try:
            self._send_changes(but=path)
            if path not in self.sent or path in self.documents and self.documents[path].fault:
                return None
            self.session.give(path, text.encode("utf-8", "surrogatepass"))
            report = self.session.check()
        except Ended as why:
            self._end(why, True)
            return None
        finally:
            self.resend(path)
        found = report.messages() if report else []
        notes = [it.text for it in found if (it.path, it.line, it.kind) == (path, line, "note")]
        return notes[0][len(REVEALED) : -1] if notes else None

    def close(self):
        """Ends the session."""
        for session in (self.session, self.faults):
            if session:
                session.close()
        self.session = self.faults = None
        self.sent = {}
        self.refused = {}
