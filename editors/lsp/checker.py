"""The files of a project, and the session that holds them.

    checker = Checker(folder, program, options, roots, is_given, read)
    checker.take(files)      has the session hold these files, each with what changes when the file does
    checker.report()         the report on them; Ended says why there is none
    checker.refused          the files that are not checked, each with the reason
    checker.taken()          the files that are: those that are held, but for those beside whose paths stubs are held
    checker.strays()         imports of given files that find nothing, though a file fits them under another root

What is held, and under which paths, depends on the files alone, and not on the order in which they came: the report is
that of a checker that is given the same files at once.
"""

from pathlib import Path

from .paths import imports_of, layout_of, module_of
from .session import MANY, MOST_FILES, REASONS, UNREADABLE, Ended, Session, content_of, printable


class Checker:
    """A session over the files of a folder. `read` returns the bytes of a file, and `is_given` says which files the
    user means: where there are too many, the session holds these first."""

    def __init__(self, folder, program, options, roots=(), is_given=lambda path: True, read=None):
        self.folder = Path(folder)
        self.program = program
        self.options = options
        self.roots = roots
        self.is_given = is_given
        self.read = read or (lambda path: content_of(self.folder / path))
        self.session = None
        self.seen = {}
        self.imports = {}
        # what the session is to hold, why the others are left out, and what it failed to take
        self.wanted = []
        self.left_out = {}
        self.failed = {}
        self.refused = {}

    def take(self, files, tell=lambda text: None):
        """Has the session hold these files. `tell` is called with how far that is. Returns how many files changed."""
        changed = {path for path, its in files.items() if self.seen.get(path) != its}
        gone = self.seen.keys() - files.keys()
        if not changed and not gone and self.session:
            return 0
        contents = {path: self.read(path) for path in changed}
        self._choose(files, {path: imports_of((its or b"").decode(errors="replace")) for path, its in contents.items()})
        for path in self.held() - {*self.wanted}:
            self.session.remove(path)
        self.failed = {path: why for path, why in self.failed.items() if path in self.wanted and path not in changed}
        self._send([path for path in self.wanted if path in changed or not self._has(path)], contents, tell)
        self.refused = {**self.left_out, **self.failed, **self._passed_over()}
        self.seen = dict(files)
        return len(changed) + len(gone)

    def _send(self, paths, contents, tell):
        """Gives the session files, with these contents as far as they were read."""
        for number, path in enumerate(paths):
            tell(f"{number} of {len(paths)} files are read")
            self._give(path, contents[path] if path in contents else self.read(path))

    def _choose(self, files, imports):
        """Chooses the roots, by what changed files import, and which files the session is to hold under them."""
        is_known = self.session and files.keys() == self.seen.keys()
        if is_known and all(self.imports[path] == its for path, its in imports.items()):
            return
        self.imports = {path: its for path, its in {**self.imports, **imports}.items() if path in files}
        layout = layout_of(self.folder, files, self.roots, self.imports)
        if not self.session or layout != self.session.layout:
            self.close()
            self.session = Session(self.program, self.options, self.folder, layout)
        self._leave_out(files, layout, layout.rivals(files))

    def _leave_out(self, files, layout, rivals):
        """Chooses which files the session is to hold: none that names the same module as another, and not too many."""
        held = sorted(files.keys() - rivals.keys(), key=lambda path: (not self.is_given(path), layout.rank(path)))
        self.wanted = held[:MOST_FILES]
        self.left_out = {path: REASONS[MANY] for path in held[MOST_FILES:]}
        for path, rival in rivals.items():
            module = module_of(layout.session_path(rival))
            self.left_out[path] = f"{printable(rival)} names the same module, {module}"

    def _passed_over(self):
        """Returns the files that the user means, and of which the session takes stubs that the user does not mean."""
        stubs = {path: self.session.stub(path) for path in self.held() if self.is_given(path)}
        return {path: f"its stub {printable(it)} is" for path, it in stubs.items() if it and not self.is_given(it)}

    def _has(self, path):
        """Whether the session holds a file, or failed to."""
        return self.session.holds(path) or path in self.failed

    def _give(self, path, content):
        """Gives the session a file."""
        if content is None:
            self.session.remove(path)
            self.failed[path] = REASONS[UNREADABLE]
            return
        refusal = self.session.give(path, content)
        if refusal:
            self.failed[path] = self.session.why(path, refusal)

    def report(self):
        """Returns the report on the files that the session holds."""
        report = self.session.check()
        if report is None:
            raise Ended("there is no memory for a check")
        return report

    def held(self):
        """Returns the files that the session holds."""
        return {*self.session.files.values()}

    def taken(self):
        """Returns the files that the session checks."""
        return {path for path in self.held() if not self.session.stub(path)}

    def strays(self):
        """Returns the imports of given files that find nothing, though a file fits them under another root."""
        return self.session.layout.strays(self.imports, sorted(filter(self.is_given, self.imports)))

    def close(self):
        """Ends the session."""
        if self.session:
            self.session.close()
        self.session = None
        self.failed = {}
