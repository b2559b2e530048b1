"""A session apart that finds the fault of a text, so that the session of the project need not take a text with one."""

from .session import Ended, Session

SYNTAX = "syntax"
FILE = "a.py"


def fault_among(messages):
    """Returns the message on a fault among those of a file, or None."""
    return next((it for it in messages if it.code == SYNTAX), None)


class Faults:
    """A session that holds one text at a time. If it does not answer, no fault is found: the other session finds it."""

    def __init__(self, program, folder, patience):
        self.start = lambda: Session(program, ("--ignore-missing-imports",), folder, patience=patience)
        self.session = None

    def fault_of(self, document):
        """Returns the message on the fault of a document, or None. Most often the statements that were edited tell."""
        try:
            if not self._fault(document.edited().encode("utf-8", "surrogatepass")):
                return None
            return self._fault(document.now.content())
        except Ended:
            self.close()
            return None

    def _fault(self, content):
        """Returns the message on the fault of a text."""
        self.session = self.session or self.start()
        report = None if self.session.give(FILE, content) else self.session.check()
        return fault_among(report.messages()) if report else None

    def close(self):
        """Ends the session."""
        if self.session:
            self.session.close()
        self.session = None
