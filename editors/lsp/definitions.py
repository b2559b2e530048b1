"""Where a name is defined in the files of a folder: by imports, classes and their ancestors, and the types of values.

    places(folder, path, position)    the places of the definitions of the name there

What the files bind is read from their trees; the type of a value is asked of the session, as hover asks it.
"""

import ast
import itertools
import re
from typing import NamedTuple, Optional

from .documents import lines_of, units
from .hover import dotted, probes_of
from .names import FUNCTIONS, arguments, attributes, bindings, bound_by, class_around, declared_elsewhere, name_span
from .names import own_nodes, scopes_of
from .paths import INIT, beside
from .trees import first_line, mended, word_at, words_from

# how many imports a name may come through
LONGEST_WAY = 50
CLASS_NAME = re.compile(r"(?:type\[)?([^\W\d][\w.]*)")


class Definition(NamedTuple):
    """What binds a name: a node of a file; a file without a node is a module, and a module without a file a folder."""

    module: str
    path: Optional[str] = None
    node: Optional[ast.AST] = None
    name: str = ""


class Place(NamedTuple):
    """A range of a file, as an editor counts."""

    path: str
    range: dict


def places(folder, path, position):
    """Returns where the name at a position is defined."""
    finder = Finder(folder)
    word, source = word_at(folder.text(path), position), finder.source(path)
    try:
        found = finder.of_word(path, source, word) if word and source else []
    except RecursionError:
        # (of a class that has itself among its ancestors, say)
        return []
    known = [finder.place(it) for it in found if it.path]
    return [it for at, it in enumerate(known) if it not in known[:at]]


class Finder:
    """Finds definitions in the files of a folder. `sources` has those that were read, each with one tree."""

    def __init__(self, folder):
        self.folder = folder
        self.sources = {}
        self.modules = folder.modules()
        self.packages = {".".join(it.split(".")[:end]) for it in self.modules for end in range(1, it.count(".") + 1)}

    def source(self, path):
        """Returns a file with its tree, or None where it has too many faults."""
        if path not in self.sources:
            self.sources[path] = mended(self.folder.text(path))
        return self.sources[path]

    def place(self, found):
        """Returns the place of a definition."""
        if found.node is None:
            return Place(found.path, span_of("", 0, 0))
        source = self.source(found.path)
        begin, end = name_span(source, found.node, found.name)
        return Place(found.path, span_of(source.text, begin, end))

    def of_word(self, path, source, word):
        """Returns the definitions of a word of a file."""
        statement = source.statement(word.line, word.begin)
        if isinstance(statement, (ast.Import, ast.ImportFrom)):
            return self.of_import(path, source, statement, word)
        if isinstance(statement, (ast.Global, ast.Nonlocal)):
            return self.shown(self.of_name(path, source, statement, word.text))
        argument = source.argument(word)
        if argument:
            return self.of_argument(path, source, argument)
        node = source.expression(word)
        if node is None:
            bound = bound_at(source, word)
            return [self.definition(path, it, word.text) for it in bound] or self.of_quoted(path, source, word)
        if isinstance(node, ast.Attribute):
            found = [self.member(owner, node.attr) for owner in self.owners(path, source, node.value)]
            return [it for its in found for it in self.shown(its)]
        return self.shown(self.of_name(path, source, node, node.id))

    def of_quoted(self, path, source, word):
        """Returns the definitions of a name of an annotation that is a string."""
        string = source.quoted(word.line, word.end)
        first, *rest = dotted(source, word).split(".") if string else [""]
        found = self.shown(self.of_name(path, source, string, first))
        for name in rest:
            found = self.shown([it for one in found for it in self.member(one, name)])
        return found

    def definition(self, path, node, name):
        """Returns the definition by a node of a file."""
        return Definition(self.folder.disk.module(path), path, node, name)

    def shown(self, found):
        """Returns where the first of several definitions leads that leads to the project, or the first itself."""
        for it in found:
            led = self.follow(it)
            if led:
                return led
        return found[:1]

    def of_name(self, path, source, node, name):
        """Returns the bindings of a name that is looked for at a node."""
        for scope in scopes_of(source, node):
            found = [] if declared_elsewhere(scope, name) else bindings(scope, name)
            if found:
                return [self.definition(path, it, name) for it in found]
        return []

    def in_module(self, module, name):
        """Returns the bindings of a name in a module, or its submodule of that name."""
        path = self.modules.get(module)
        source = path and self.source(path)
        found = bindings(source.tree, name) if source else []
        inner = f"{module}.{name}" if module else name
        return [self.definition(path, it, name) for it in found] or self.of_module(inner)

    def of_module(self, module):
        """Returns a module of the project, as a list."""
        if module in self.modules:
            return [Definition(module, self.modules[module])]
        return [Definition(module)] if module in self.packages else []

    def follow(self, found):
        """Returns what a definition leads to, through imports: nothing where one leads out of the project."""
        todo = [found]
        for it in itertools.islice(todo, LONGEST_WAY):
            if not isinstance(it.node, ast.alias):
                return [it]
            todo += self.imported(it)
        return []

    def imported(self, found):
        """Returns what the name of an import leads to, by one step."""
        source = self.source(found.path)
        statement = source.parents[found.node]
        if isinstance(statement, ast.Import):
            return self.of_module(found.node.name if found.node.asname else found.name)
        return self.in_module(self.base(found.path, statement), found.node.name)

    def base(self, path, statement):
        """Returns the module that a from-import imports from."""
        parts = self.folder.disk.module(path).split(".")
        ups = statement.level - beside(path).endswith(INIT) if statement.level else len(parts)
        return ".".join([*parts[: max(0, len(parts) - ups)], *filter(None, [statement.module])])

    def of_import(self, path, source, statement, word):
        """Returns what a word of an import leads to."""
        words = list(words_from(lines_of(source.text), first_line(statement)))
        targets = self.targets(path, statement)
        at = next((at for at, it in enumerate(words[: len(targets)]) if it == word), None)
        found = [] if at is None else targets[at]()
        return [led for it in found for led in self.follow(it)]

    def targets(self, path, statement):
        """Returns what each name of an import leads to, keywords with it, in order."""
        nothing = list
        found = [nothing]
        base = ""
        if isinstance(statement, ast.ImportFrom):
            base = self.base(path, statement)
            own = statement.module.split(".") if statement.module else []
            found += [self.module_of(base, len(own) - end) for end in range(1, len(own) + 1)] + [nothing]
        for it in statement.names:
            if isinstance(statement, ast.ImportFrom):
                ways = [lambda name=it.name: self.in_module(base, name)]
            else:
                parts = it.name.split(".")
                ways = [self.module_of(it.name, len(parts) - end) for end in range(1, len(parts) + 1)]
            found += [*ways, *([nothing, ways[-1]] if it.asname else [])]
        return found

    def module_of(self, module, ups):
        """Returns a way to the package some levels above a module."""
        parts = module.split(".")
        return lambda: self.of_module(".".join(parts[: len(parts) - ups]))

    def of_attribute(self, path, source, node):
        """Returns the definitions of an attribute."""
        found = [self.member(owner, node.attr) for owner in self.owners(path, source, node.value)]
        return [it for its in found for it in its]

    def owners(self, path, source, node):
        """Returns the modules and classes in which the attributes of an expression are looked for."""
        own = self.static(path, source, node)
        led = [it for found in own for it in self.follow(found)]
        known = [it for it in led if it.node is None or isinstance(it.node, ast.ClassDef)]
        if known:
            return known[:1]
        if own and not led:
            return []
        owner, method = class_around(source, node)
        if owner and isinstance(node, ast.Name) and [it.arg for it in arguments(method)[:1]] == [node.id]:
            return [self.definition(path, owner, owner.name)]
        return self.by_type(path, source, node)

    def static(self, path, source, node):
        """Returns the definitions of a name, or of an attribute of one."""
        if isinstance(node, ast.Name):
            return self.of_name(path, source, node, node.id)
        return self.of_attribute(path, source, node) if isinstance(node, ast.Attribute) else []

    def by_type(self, path, source, node):
        """Returns the classes in the type of an expression, as the session has it."""
        statement = next((it for it, _ in source.steps(node) if it in source.statements), None)
        for probe in probes_of(source, node, source.shown(node), statement):
            shown = self.folder.revealed(path, probe.text, probe.line)
            if shown:
                names = [CLASS_NAME.match(it) for it in split_union(shown)]
                return [found for name in names if name for found in self.classes(path, source, name[1])]
        return []

    def classes(self, path, source, name):
        """Returns the class that a name means in a file, or else all of that name: those near the file, if any."""
        led = [it for one in bindings(source.tree, name) for it in self.follow(self.definition(path, one, name))]
        classes = [it for it in led if isinstance(it.node, ast.ClassDef)]
        if classes:
            return classes[:1]
        head = re.compile(rf"^class\s+{re.escape(name)}\b", re.MULTILINE)
        files = [(it, self.source(it)) for it in sorted(self.modules.values()) if head.search(self.folder.text(it))]
        nodes = [(it, node) for it, its in files if its for node in its.tree.body if isinstance(node, ast.ClassDef)]
        found = [self.definition(it, node, name) for it, node in nodes if node.name == name]
        near = self.near(path, source) if len(found) > 1 else ()
        return [it for it in found if it.path in near] or found

    def near(self, path, source):
        """Returns the file itself, and those that its imports lead to."""
        names = [(it, name) for it in own_nodes(source.tree) if isinstance(it, ast.alias) for name in bound_by(it)]
        return {path, *(led.path for it, name in names for led in self.follow(self.definition(path, it, name)))}

    def member(self, owner, name, seen=()):
        """Returns the definitions of a member of a module or a class, or of the first of its ancestors that has one."""
        if owner.node is None:
            return self.in_module(owner.module, name)
        if owner in seen or not isinstance(owner.node, ast.ClassDef):
            return []
        found = bindings(owner.node, name) or attributes(owner.node, name)
        if found:
            return [self.definition(owner.path, it, name) for it in found]
        return next(filter(None, (self.member(it, name, (*seen, owner)) for it in self.bases(owner))), [])

    def bases(self, owner):
        """Returns the classes of the project that a class names as its bases."""
        source = self.source(owner.path)
        nodes = [it.value if isinstance(it, ast.Subscript) else it for it in owner.node.bases]
        found = [led for it in nodes for one in self.static(owner.path, source, it)[:1] for led in self.follow(one)]
        return [it for it in found if isinstance(it.node, ast.ClassDef)]

    def of_argument(self, path, source, argument):
        """Returns the parameter that the name of an argument means."""
        call = source.parents[argument]
        led = [it for found in self.static(path, source, getattr(call, "func", call)) for it in self.follow(found)]
        makers = [self.member(it, "__init__") if isinstance(it.node, ast.ClassDef) else [it] for it in led]
        functions = [it for its in makers for it in its if isinstance(it.node, FUNCTIONS)]
        found = [(it, one) for it in functions for one in arguments(it.node) if one.arg == argument.arg]
        fields = [one for it in led for one in self.member(it, argument.arg)] if not functions else []
        return [self.definition(it.path, one, one.arg) for it, one in found][:1] or fields[:1]


def bound_at(source, word):
    """Returns the node that binds a word at its place: a definition, a parameter, a name of `except`."""
    place = source.starts[word.line - 1] + word.begin
    named = [it for it in source.parents if word.text in (getattr(it, "name", None), getattr(it, "arg", None))]
    there = [it for it in named if hasattr(it, "lineno") and it.lineno <= word.line <= it.end_lineno]
    return [it for it in there if not isinstance(it, ast.keyword) and name_span(source, it, word.text)[0] == place][:1]


def split_union(shown):
    """Returns the items of a union, as a type is shown."""
    items, depth = [""], 0
    for character in shown:
        depth += (character in "([{") - (character in ")]}")
        if character == "|" and depth == 0:
            items.append("")
        else:
            items[-1] += character
    return [it.strip() for it in items]


def span_of(text, begin, end):
    """Returns the range between two places of a text."""
    return {"start": position_of(text, begin), "end": position_of(text, end)}


def position_of(text, place):
    """Returns the line and the column of a place of a text."""
    lines = lines_of(text[:place])
    return {"line": len(lines) - 1, "character": units(lines[-1])}
