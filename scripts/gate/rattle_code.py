"""The code of the crates as tokens: its functions, types and imports, without what is for the prover alone."""

import re
from dataclasses import dataclass, field

STRING = r'b?"(?:\\[\s\S]|[^"\\])*"|b?\'(?:\\.[^\']*|[^\'\\])\''
TOKEN = re.compile(STRING + r"|'\w+|\w+|::|->|=>|\.\.=?|&&|[^\s\w]")
COMMENT = re.compile(r"//[^\n]*|" + STRING)
GHOST = re.compile(r"\b(?:requires|ensures)(?: \w+)? \{|\bghost use\b|\bghost \w+(?: =|:) \{")
ATTRIBUTE = re.compile(r"#!?\[")
OPEN, CLOSE = "([{", ")]}"


@dataclass
class Function:
    """A function or a constant: where it stands, the type and the trait of its block, and the tokens of its parts."""

    crate: str
    file: str
    line: int
    name: str
    kind: str = ""
    trait: str = ""
    bounds: dict = field(default_factory=dict)
    parameters: list = field(default_factory=list)
    result: list = field(default_factory=list)
    body: list = field(default_factory=list)

    def path(self):
        """Its path: the crate, the type or the trait of its block, its name."""
        return "::".join(it for it in (self.crate, self.kind or self.trait, self.name) if it)

    def place(self):
        """Its file and line, from the top of the repository."""
        return f"crates/{self.crate}/{self.file}:{self.line}"


@dataclass
class Source:
    """What a file of code declares: its functions, the tokens of each field's and variant's type, and its imports."""

    crate: str
    file: str
    functions: list = field(default_factory=list)
    fields: list = field(default_factory=list)
    uses: dict = field(default_factory=dict)


def closed(text, at):
    """The place behind the brackets that open at a place of a text or of a list of tokens."""
    depth = 0
    for place in range(at, len(text)):
        depth += text[place] in OPEN
        depth -= text[place] in CLOSE
        if depth == 0:
            return place + 1
    return len(text)


def blanked(text):
    """A text as spaces, its lines kept."""
    return re.sub(r"[^\n]", " ", text)


def item_end(text, at):
    """The place behind the item that begins at a place: behind its braces, or its semicolon."""
    found = re.compile(r"[{;]").search(text, at)
    return closed(text, found.start()) if found[0] == "{" else found.end()


def ghost_end(text, found):
    """The place behind a part for the prover alone, or behind an attribute, with the item where that is a test."""
    if found[0].startswith("ghost use"):
        return text.index(";", found.end()) + 1
    end = closed(text, found.end() - 1)
    if re.match(r"#\[(cfg\(test\)|test)\]", found.string[found.start() : end]):
        return item_end(text, end)
    return end


def plain(text):
    """A text without comments, attributes, tests and parts for the prover alone: each is blanked, so that lines stay."""
    text = COMMENT.sub(lambda it: blanked(it[0]) if it[0].startswith("//") else it[0], text)
    for pattern in (GHOST, ATTRIBUTE):
        parts, at = [], 0
        for it in pattern.finditer(text):
            if it.start() >= at:
                end = ghost_end(text, it)
                parts += [text[at : it.start()], blanked(text[it.start() : end])]
                at = end
        text = "".join([*parts, text[at:]])
    return text


class Reader:
    """Reads the declarations of a file."""

    def __init__(self, crate, file, text):
        self.source, self.at = Source(crate, file), 0
        self.tokens, self.lines = [], []
        line, last = 1, 0
        text = plain(text)
        for it in TOKEN.finditer(text):
            line, last = line + text.count("\n", last, it.start()), it.start()
            self.tokens.append(it[0])
            self.lines.append(line)

    def read(self):
        """Reads the whole file."""
        self.items(len(self.tokens), "", "", {})
        return self.source

    def until(self, *words):
        """The place of the next of these tokens outside brackets, from where the reader stands."""
        at = self.at
        while at < len(self.tokens) and self.tokens[at] not in words:
            at = closed(self.tokens, at) if self.tokens[at] in OPEN else at + 1
        return at

    def items(self, end, kind, trait, bounds):
        """Reads the items up to a place, those of a block of methods with its type, its trait and its parameters."""
        while self.at < end:
            self.item(self.tokens[self.at], kind, trait, bounds)

    def item(self, word, kind, trait, bounds):
        """Reads an item that begins with a word, or goes past the word."""
        if word == "fn":
            self.function(kind, trait, bounds)
        elif word in ("struct", "enum"):
            self.type()
        elif word == "trait":
            name = self.tokens[self.at + 1]
            self.block("", name)
        elif word == "impl":
            self.block(*self.implemented())
        elif word == "use":
            end = self.until(";")
            self.use(self.tokens[self.at + 1 : end], [])
            self.at = end + 1
        elif word == "mod" and self.tokens[self.at + 2] == "{":
            self.at += 3
        elif word in ("const", "static") and self.tokens[self.at + 1] != "fn":
            self.constant(kind, trait, bounds)
        else:
            self.at += 1

    def made(self, kind, trait):
        """A function or a constant whose name stands behind the next word."""
        line, name = self.lines[self.at], self.tokens[self.at + 1]
        return Function(self.source.crate, self.source.file, line, name, kind, trait)

    def function(self, kind, trait, bounds):
        """Reads a function."""
        made = self.made(kind, trait)
        self.at += 2
        made.bounds = {**bounds, **self.generics()}
        end = closed(self.tokens, self.at)
        made.parameters = self.tokens[self.at + 1 : end - 1]
        self.at = end
        end = self.until("{", ";")
        made.result = self.tokens[self.at : end]
        self.at = end
        end = closed(self.tokens, end) if self.tokens[end] == "{" else end + 1
        made.body = self.tokens[self.at : end]
        self.at = end
        self.source.functions.append(made)

    def constant(self, kind, trait, bounds):
        """Reads a constant, as a function without parameters."""
        made = self.made(kind, trait)
        made.bounds = bounds
        end = self.until(";")
        self.at += 2
        middle = self.until("=", ";")
        made.result, made.body = self.tokens[self.at : middle], self.tokens[middle:end]
        self.at = end + 1
        self.source.functions.append(made)

    def generics(self):
        """Reads parameters in <>, if they stand here: each with the names in its bound."""
        if self.tokens[self.at] != "<":
            return {}
        end = self.angle_end(self.at)
        words, self.at = self.tokens[self.at + 1 : end - 1], end
        parts = [it[1:] if it[0] == "const" else it for it in separated(words)]
        return {it[0]: [word for word in it[1:] if re.match(r"\w", word)] for it in parts if it[0][0] != "'"}

    def angle_end(self, at):
        """The place behind the <> that opens at a place."""
        depth = 0
        for place in range(at, len(self.tokens)):
            depth += (self.tokens[place] == "<") - (self.tokens[place] == ">")
            if depth == 0:
                return place + 1
        return len(self.tokens)

    def implemented(self):
        """Reads the head of a block of methods behind `impl`: its type and its trait."""
        self.at += 1
        self.bounds = self.generics()
        head = self.tokens[self.at : self.until("{")]
        trait, kind = "", head
        if "for" in head:
            middle = head.index("for")
            trait, kind = headed(head[:middle]), head[middle + 1 :]
        kind = headed(kind)
        return kind, trait

    def block(self, kind, trait):
        """Reads a block of methods."""
        bounds = getattr(self, "bounds", {})
        self.bounds = {}
        if not kind:
            self.at += 2
            bounds = self.generics()
        begin = self.until("{")
        end = closed(self.tokens, begin)
        self.at = begin + 1
        self.items(end - 1, kind, trait, bounds)
        self.at = end

    def type(self):
        """Reads a struct or an enum: each field, and each variant with what it holds."""
        word, name = self.tokens[self.at], self.tokens[self.at + 1]
        self.at += 2
        generics = self.generics()
        end = self.until("{", "(", ";")
        self.at = end
        if self.tokens[end] == ";":
            self.source.fields.append((name, name, [], generics))
            self.at = end + 1
            return
        inside = self.tokens[end + 1 : closed(self.tokens, end) - 1]
        self.at = closed(self.tokens, end)
        self.source.fields.append((name, name, inside, generics))
        for part in separated(inside):
            self.source.fields += parts_of(name, word, part, generics)

    def use(self, words, before):
        """Reads the path of an import."""
        if "{" in words:
            at = words.index("{")
            for part in separated(words[at + 1 : -1]):
                self.use(part, before + words[:at])
            return
        path = [it for it in before + words if it != "::"]
        name = path[-1]
        if "as" in path:
            path = path[: path.index("as")]
        if name == "self" and len(path) > 1:
            path = path[:-1]
            name = path[-1]
        self.source.uses[name] = path


def separated(words):
    """The parts of a list of tokens between its commas."""
    parts, at, begin, depth = [], 0, 0, 0
    while at < len(words):
        if words[at] in OPEN:
            at = closed(words, at)
            continue
        depth += (words[at] == "<") - (words[at] == ">")
        if words[at] == "," and depth <= 0:
            parts.append(words[begin:at])
            begin = at + 1
        at += 1
    return [it for it in [*parts, words[begin:]] if it]


def parts_of(name, word, part, generics):
    """The entries of a field of a struct or of a variant of an enum: its owner, its name, the tokens of its type."""
    part = [it for it in part if it != "pub"]
    if part and part[0] == "(" and word == "struct":
        part = part[closed(part, 0) :]
    if word == "struct":
        return [(name, part[0], part[2:], generics)] if part[1:2] == [":"] else []
    found = [(name, part[0], part[1:], generics)]
    if part[1:2] == ["{"]:
        for it in separated(part[2:-1]):
            found.append((name, it[0], it[2:], generics))
    return found


def headed(words):
    """The name of the type or the trait that some tokens name: the last of its path, without what stands in <>."""
    found, depth = "", 0
    for word in words:
        depth += (word == "<") - (word == ">")
        if depth == 0 and word == "where":
            break
        if depth == 0 and re.match(r"[A-Za-z_]", word) and word not in ("dyn", "mut", "impl"):
            found = word
    return found or (words[0] if words else "")
