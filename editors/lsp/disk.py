"""What a folder of the disk has for a session: its files, the settings of its project, the paths that imports see."""

import time

from .paths import Layout, imports_of, is_package_folder, layout_of, module_named
from .project import is_excluded, stamps
from .session import MANY, MOST_FILES, REASONS, content_of, printable
from .settings import BadSettings, Settings, settings_of

# how many seconds what was seen counts, where nobody says that it changed
AGAIN = 2


class Disk:
    """A folder as it was when somebody looked last. `stamps` has by path what changes when a file does, and `imports`
    what each file imports. `files` are those of the disk and of an editor, and `left_out` has the reason why no session
    gets some of them."""

    def __init__(self, root, is_marked):
        self.root = root
        self.is_walked = (lambda folder: True) if is_marked else (lambda folder: is_package_folder(root / folder))
        self.until = 0
        self.settings = Settings()
        self.trouble = ""
        self.stamps = {}
        self.imports = {}
        self.layout = Layout()
        self.files = frozenset()
        self.left_out = {}
        # the open files, where these are held before others
        self.opened = frozenset()

    def forget(self):
        """Has the next look see the disk as it then is."""
        self.until = 0

    def look(self, documents):
        """Sees what changed, if the last look is too old. `documents` are the paths of files that an editor holds."""
        before = self.settings, self.stamps
        if time.monotonic() >= self.until:
            self._read_settings()
            self._read_files(stamps(self.root, self.settings.exclude, self.is_walked))
            self.until = time.monotonic() + AGAIN
        files = frozenset({*self.stamps, *(path for path in documents if not is_excluded(path, self.settings.exclude))})
        if before != (self.settings, self.stamps) or files != self.files:
            self._lay_out(files)
        opened = frozenset(documents) if len(files) > MOST_FILES else frozenset()
        if opened != self.opened:
            self._leave_out(opened)

    def _read_settings(self):
        try:
            self.settings, self.trouble = settings_of(self.root), ""
        except BadSettings as why:
            self.settings, self.trouble = Settings(), str(why)

    def _read_files(self, found):
        """Reads the imports of the files that changed."""
        changed = [path for path, its in found.items() if self.stamps.get(path) != its]
        self.imports = {path: self.imports[path] for path in found if path in self.imports}
        for path in changed:
            self.imports[path] = imports_of((content_of(self.root / path) or b"").decode(errors="replace"))
        self.stamps = found

    def _lay_out(self, files):
        """Chooses the paths of the files, and those of two files that name one module."""
        imports = {path: self.imports.get(path, []) for path in files}
        before = self.layout, self.files
        self.layout, self.files = layout_of(self.root, files, self.settings.roots, imports), files
        if before != (self.layout, self.files):
            self._leave_out(self.opened)

    def _leave_out(self, opened):
        """Chooses the files that no session gets: those that come second, and those that are too many."""
        self.opened = opened
        rivals = self.layout.rivals(self.files)
        same = "names the same module"
        self.left_out = {path: f"{printable(it)} {same}, {self.module(it)}" for path, it in rivals.items()}
        rest = sorted(self.files - rivals.keys(), key=lambda path: (path not in opened, self.layout.rank(path)))
        self.left_out.update((path, REASONS[MANY]) for path in rest[MOST_FILES:])

    def module(self, path):
        """Returns the module that a file names."""
        return module_named(self.layout.session_path(path))

    def strays(self):
        """Returns the imports that find nothing, though a file fits them under another root."""
        return self.layout.strays(self.imports)
