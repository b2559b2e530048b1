"""Makes sessions at random, of small workspaces that are edited and checked many times.

The files are those of statement_files.py. An edit is a near one: a type, a literal, a name or an operator of one line is
another one, a line goes, comes twice or changes its place, a comment or an empty line comes in, a file is put with the
bytes that it has, gets a fault, loses it again, goes, comes back, or a file comes that was sought and not there. After
most edits the workspace is checked, and `status` tells how many units were examined.

Used by compare_sessions.py, which says how sessions of these files are compared.
"""

import re

from statement_files import StatementMaker

# words that stand for one another
TYPES = "int str bool float None bytes object".split()
LITERALS = '1 2 "a" "" True None 1.5 b"x"'.split()
OPERATORS = "+ - * / == < and or".split()
WORD = re.compile(r'"[^"]*"|\w+|[-+*/<]|==')
FAULTS = ("def (\n", "x = )\n", "match x:\n", "x: int = \n")
SOUGHT = "missing.py missing/part.py p/__init__.py p/m.py p/q.py d/e.py typing.py a/x.py".split()


HEADS = ("class ", "def ", "async ", "@", "import ", "from ", "else", "elif", "except", "finally", "if ", "for ", "while ",
         "with ", "try")


class EditMaker(StatementMaker):
    """Makes sessions of edits."""

    def source(self, module):
        """A shorter text: of the lines of the top level that begin nothing most go."""
        lines = super().source(module).splitlines(keepends=True)
        return "".join(it for it in lines if it[0] == " " or it.startswith(HEADS) or self.chance(0.35))

    def near_word(self, word, words):
        """A word that may stand where this one stood; `words` are those of the workspace."""
        for row in (TYPES, LITERALS, OPERATORS):
            if word in row:
                return self.one(row)
        return self.one(words) if word.isidentifier() else word

    def other_word(self, line, words):
        """The line with one other word."""
        found = list(WORD.finditer(line))
        if not found:
            return line
        it = self.one(found)
        return line[: it.start()] + self.near_word(it.group(), words) + line[it.end() :]

    def edited(self, text, words):
        """The text of a file with a near edit."""
        lines = text.splitlines(keepends=True) or ["\n"]
        at = self.random.randrange(len(lines))
        form = self.random.random()
        if form < 0.6:
            lines[at] = self.other_word(lines[at], words)
        elif form < 0.7:
            del lines[at]
        elif form < 0.78:
            lines.insert(at, lines[at])
        elif form < 0.84:
            other = self.random.randrange(len(lines))
            lines[at], lines[other] = lines[other], lines[at]
        elif form < 0.94:
            lines.insert(at, self.one(("\n", "# c\n", "# type: ignore\n")))
        else:
            lines[at] = lines[at].rstrip("\n") + self.one(("  # type: ignore\n", "  # c\n"))
        return "".join(lines)

    def step(self, held, gone):
        """Commands that edit the files that are held, by their paths; `gone` has what stood at paths that have none."""
        words = sorted(set(re.findall(r"[^\W\d]\w*", " ".join(held.values())))) or ["x"]
        form = self.random.random()
        path = self.one(sorted(held)) if held else None
        if path is None or form < 0.08:
            path = self.one(sorted(set(SOUGHT) | set(gone)))
            if path in held:
                return f"change {path} ", path, held[path]
            text = gone.get(path, self.one(("", "x: int = 1\n", self.one(sorted(held.values()) or [""]))))
            return f"add {path} ", path, text
        if form < 0.16:
            return f"remove {path}\n", path, None
        if form < 0.22:
            return f"change {path} ", path, held[path]
        if form < 0.28:
            gone[path] = held[path]
            return f"change {path} ", path, self.one(FAULTS) + held[path]
        if form < 0.36 and path in gone:
            return f"change {path} ", path, gone[path]
        return f"change {path} ", path, self.edited(held[path], words)

    def edits(self):
        """The bytes of a session, and how many times a file comes in it."""
        held, gone, commands = dict(self.files()), {}, []
        for path, text in held.items():
            source = text.encode()
            commands.append(f"add {path} {len(source)}\n".encode() + source)
        commands.append(b"check\nstatus\n")
        files = len(held)
        for _ in range(self.random.randint(2, 12)):
            head, path, text = self.step(held, gone)
            if text is None:
                gone[path] = held.pop(path)
                commands.append(head.encode())
            else:
                held[path] = text
                source = text.encode()
                commands.append(f"{head}{len(source)}\n".encode() + source)
                files += 1
            if self.chance(0.75):
                commands.append(b"check\nstatus\n")
        return b"".join(commands) + b"check\nstatus\nstop\n", files
