#!/usr/bin/env python3
"""Looks whether each file of code, definitions and proofs is in the layout that the kit's formatter gives it.

    scripts/gate/check_format.py

`rt ci` refuses a crate with a file that is not, after the proofs of all crates below it; here it is told in seconds. The files
are the .rt and .antt files that git has; in a folder that is no checkout, those of the crates. `rt fmt` in the crate's folder
sets them right. The last line is `N passed, M failed`, over the files."""

import subprocess
import sys

from repository import KIT, PARTS, ROOT, ask_git

SUFFIXES = (".rt", ".antt")


def files():
    """Returns the paths of the files from the top of the repository."""
    known = ask_git(ROOT, "ls-files", "--", *(f"*{it}" for it in SUFFIXES))
    if known:
        return [it for it in known if (ROOT / it).is_file()]
    found = [it for part in PARTS for it in ROOT.glob(f"crates/*/{part}/**/*") if it.suffix in SUFFIXES]
    return sorted(str(it.relative_to(ROOT)) for it in found)


def main():
    known = files()
    command = [KIT / "bin" / "rattle", "fmt", "--check", *known]
    how = {"stdin": subprocess.DEVNULL, "stdout": subprocess.PIPE, "stderr": subprocess.STDOUT, "text": True}
    ran = subprocess.run(command, cwd=ROOT, errors="replace", check=False, **how)
    print(ran.stdout, end="")
    told = ran.stdout.splitlines()
    failed = sum(any(line.startswith((f"{it} ", f"{it}:")) for line in told) for it in known)
    failed = max(failed, int(ran.returncode != 0))
    print(f"{len(known) - failed} passed, {failed} failed")
    return 1 if failed else 0


if __name__ == "__main__":
    sys.exit(main())
