"""What keeps the scripts and the language server from a check, and how scripts end with it."""

import sys


class Trouble(Exception):
    """There is no check. The text says why, for users."""


def tell(*lines):
    """Prints lines on standard error, each on one line of its own."""
    for line in lines:
        shown = line if line.isprintable() else ascii(line)[1:-1]
        print(f"dmypy: {shown}", file=sys.stderr, flush=True)


def run_told(work):
    """Does the work of a script, which gives its status, and tells what keeps it from that: then the status is 2."""
    try:
        return work()
    except Trouble as why:
        tell(str(why))
        return 2
    except KeyboardInterrupt:
        return 130
    except OSError as why:
        # (what is left in the buffer of the output would fail once more)
        sys.stdout = None
        tell(f"the output cannot be written: {why.strerror}")
        return 2
