"""The folders that an editor opened, and its documents."""

import os
from pathlib import Path

from .folder import Folder, local_path, path_below
from .paths import SUFFIXES
from .project import project_folder
from .selection import unmarked_folder


class Workspace:
    """Folders, each with a session of its own. A document belongs to the innermost folder that it lies in.

    Where the editor opened none, `finds_projects` says that the folder of the project of each document is one.
    """

    def __init__(self, settings, tell, remark):
        self.settings = settings
        self.tell = tell
        self.remark = remark
        self.folders = []
        self.documents = {}
        self.finds_projects = False

    def add(self, root, is_marked=True):
        """Adds a folder, unless it is there already. One that nothing marks as a project's has its packages alone."""
        root = Path(os.path.abspath(root))
        if all(folder.root != root for folder in self.folders):
            self.folders.append(Folder(root, self.settings, self.tell, self.remark, is_marked))
            self._settle()

    def remove(self, root):
        """Takes a folder away, and returns it, or None where it is not there."""
        root = Path(os.path.abspath(root))
        found = next((folder for folder in self.folders if folder.root == root), None)
        if found:
            self.folders.remove(found)
            found.close()
            self._settle()
        return found

    def find(self, uri):
        """Returns the folder of a file with its path there, or None and None."""
        found = [(folder, path_below(folder.root, uri)) for folder in self.folders]
        found = [(folder, path) for folder, path in found if path]
        return max(found, key=lambda it: len(it[0].root.parts), default=(None, None))

    def open(self, document):
        """Takes a document."""
        self.documents[document.uri] = document
        if self.finds_projects and document.uri in self.elsewhere():
            parent = local_path(document.uri).parent
            marked = project_folder(parent)
            self.add(marked or unmarked_folder(parent), bool(marked))
        self._place(document)

    def close(self, uri):
        """Takes a document away."""
        self.documents.pop(uri, None)
        folder, path = self.find(uri)
        if folder and folder.documents.pop(path, None):
            folder.touch(path, True)

    def elsewhere(self):
        """Returns the names of the documents of Python files that lie in no folder."""
        files = [uri for uri in self.documents if (local_path(uri) or Path()).suffix in SUFFIXES]
        return {uri for uri in files if self.find(uri) == (None, None)}

    def _place(self, document):
        """Puts a document into its folder, if it has one."""
        folder, path = self.find(document.uri)
        if folder:
            folder.documents[path] = document
            folder.touch(path)

    def _settle(self):
        """Has each folder know those inside it, and puts the documents into their folders."""
        for folder in self.folders:
            others = [other.root for other in self.folders if folder.root in other.root.parents]
            folder.inner = tuple(f"{other.relative_to(folder.root).as_posix()}/" for other in others)
            folder.documents.clear()
            folder.found = None
            folder.touch()
        self._place_all()

    def _place_all(self):
        """Puts the documents into their folders."""
        for document in self.documents.values():
            self._place(document)

    def look_again(self):
        """Has the next check of each folder look at the disk."""
        for folder in self.folders:
            folder.touch(is_on_disk=True)

    def close_all(self):
        """Ends all sessions."""
        for folder in self.folders:
            folder.close()
