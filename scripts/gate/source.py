"""The source that an edit changes: its functions, and their cycles of calls."""

import re
from pathlib import Path


def functions(file, text):
    """Returns each function of a file of code: its first and last line, both from 1, and its path below the crate."""
    module = [it for it in Path(file).with_suffix("").parts[1:] if it not in ("lib", "main", "mod")]
    lines, found, blocks = text.split("\n"), [], []
    for at, line in enumerate(lines):
        indent = len(line) - len(line.lstrip())
        # (parameters of a block may stand on lines of their own)
        end = next(it for it in range(at, len(lines)) if lines[it].endswith("{")) if re.match(r"\s*impl<$", line) else at
        head = " ".join([line, *(it.strip() for it in lines[at + 1 : end + 1])])
        if opened := re.match(r"\s*(?:impl\b|(?:pub )?trait )(.*?)(?: where .*)?\{?$", head):
            blocks.append((indent, block_name(opened[1])))
        if line.rstrip().endswith("{}") and opened:
            blocks.pop()
        while blocks and line.rstrip() == " " * blocks[-1][0] + "}":
            blocks.pop()
        named = re.match(r"\s*(?:pub(?:\([a-z ]+\))? )?(?:const )?fn (\w+)", line)
        if named:
            inside = [name for depth, name in blocks if depth < indent]
            # (a method is named by its type's module, so the end of its name tells it)
            found.append((*lines_of(lines, at, indent), "::".join([*(inside or module), named[1]])))
    return found


def lines_of(lines, at, indent):
    """Returns the first and the last line, both from 1, of the function whose name stands on a line."""
    end = next((it for it in range(at, len(lines)) if lines[it] == " " * indent + "}"), at)
    if lines[at].rstrip().endswith("}"):
        end = at
    begin = at
    while begin and re.match(r"\s*(#\[|///|requires|ensures|ghost|\})", lines[begin - 1]):
        begin -= 1
    return begin + 1, end + 1


def parted(head):
    """Returns the list of type parameters that the head of a block begins with, and the rest of the head."""
    depth = 0
    for at, character in enumerate(head):
        depth += (character == "<") - (character == ">")
        if depth == 0:
            return (head[1:at], head[at + 1 :].strip()) if head.startswith("<") else ("", head)
    return "", head


def block_name(head):
    """Returns the segment of a path for a block of methods: the type's name, then of a trait's the trait's with its types, but
    for parameters of the block."""
    listed, head = parted(head.replace("->", "").strip())
    while (plain := re.sub(r"<[^<>]*>|\([^()]*\)", "", listed)) != listed:
        listed = plain
    parameters = re.findall(r"(?:^|,)\s*(\w+)", listed)
    *trait, kind = head.split(" for ")
    words = lambda it: (re.split("::", word)[-1] for word in re.findall(r"(?<!')\b[\w:]+", it))
    named = lambda it: "".join(word for word in words(it) if word not in parameters)
    while (plain := re.sub(r"<[^<>]*>", "", kind)) != kind:
        kind = plain
    return named(kind) + "".join(named(it) for it in trait)


def enclosing(file, text, at):
    """Returns the file, lines and path of the function around a place of a text, or None."""
    line = text.count("\n", 0, at) + 1
    around = [it for it in functions(file, text) if it[0] <= line <= it[1]]
    return (file, *around[-1]) if around else None


def functions_in(folder):
    """Returns each function of a crate: its file's text, its file, its first and last line and its path."""
    for path in sorted(folder.glob("src/**/*.rt")):
        file, text = str(path.relative_to(folder)), path.read_text(encoding="utf-8")
        for begin, end, name in functions(file, text):
            yield text, file, begin, end, name


def declared(folder, name):
    """Returns the file, lines and path of the function with that path below the crate, or None."""
    return next(((file, begin, end, found) for _, file, begin, end, found in functions_in(folder) if found == name), None)


def body_of(lines, begin, end, indent):
    """Returns the line that opens the body of a function between these lines, or None."""
    named = next(it for it in range(begin, end) if re.match(r"\s*(pub(\([a-z ]+\))? )?fn ", lines[it]))
    for at in range(named, end):
        is_signature = at == named or lines[at].startswith(" " * indent + ")")
        if lines[at] == " " * indent + "{" or is_signature and lines[at].endswith(" {"):
            return at
    return None


def cycle_named(text, begin, end):
    """Returns the name of the cycle of calls that a function between these lines, both from 1, says it is in, or None."""
    named = re.search(r"#\[cycle\((\w+)\)\]", "\n".join(text.split("\n")[begin - 1 : end]))
    return named and named[1]


def cycles_of(folder):
    """Returns the name of the cycle of calls that each function of a crate is in, or None. A method goes by its type's name and
    its own, another function by its path below the crate."""
    found = {}
    for text, _, begin, end, path in functions_in(folder):
        traits = re.findall(r"(?m)^\s*(?:pub )?trait (\w+)", text)
        # (what a trait promises has no proof)
        if not (path.split("::")[-2:-1] and path.split("::")[-2] in traits):
            found[path] = cycle_named(text, begin, end)
    return found


def key_of(cycles, path):
    """Returns the path by which the function of a proof stands in this map, or None: a method is there by its type alone, whose
    module its proof's path begins with, whatever file the method stands in."""
    named = path.replace(".", "::").split("::")
    ends = ("::".join(named[at:]) for at in range(len(named)))
    return next((it for it in ends if it in cycles), None)


def ends_alike(one, other):
    """Returns whether one of two paths ends in the other."""
    longer, shorter = sorted((one.split("::"), other.split("::")), key=len, reverse=True)
    return longer[len(longer) - len(shorter) :] == shorter
