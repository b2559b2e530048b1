"""The names that the scopes of a tree bind, and where each stands in the text."""

import ast
import re

FUNCTIONS = (ast.FunctionDef, ast.AsyncFunctionDef)
DEFINITIONS = (*FUNCTIONS, ast.ClassDef)
COMPREHENSIONS = (ast.ListComp, ast.SetComp, ast.DictComp, ast.GeneratorExp)
INNER = (*DEFINITIONS, ast.Lambda, *COMPREHENSIONS)
HEAD = re.compile(r"(?:async\s+)?(?:def|class)\s+")


def scopes_of(source, node):
    """Returns the scopes in which a name is looked for at a node, from the inside: a class if it is the first."""
    found = []
    for child, parent in source.steps(node):
        is_scope = isinstance(parent, (ast.Module, *COMPREHENSIONS))
        is_scope = is_scope or isinstance(parent, DEFINITIONS) and child in parent.body
        is_scope = is_scope or isinstance(parent, ast.Lambda) and child is parent.body
        if is_scope and not (found and isinstance(parent, ast.ClassDef)):
            found.append(parent)
    return found


def class_around(source, node):
    """Returns the class of which the innermost function around a node is a method, and the method, or None and None."""
    steps = source.steps(node)
    method = next((parent for child, parent in steps if isinstance(parent, FUNCTIONS)), None)
    owner = source.parents.get(method)
    return (owner, method) if isinstance(owner, ast.ClassDef) else (None, None)


def bindings(scope, name):
    """Returns the nodes that bind a name in a scope, in the order of the text."""
    found = [node for node in own_nodes(scope) if name in bound_by(node)]
    return sorted(found, key=lambda it: (getattr(it, "lineno", 0), getattr(it, "col_offset", 0)))


def own_nodes(scope):
    """Returns the nodes of a scope, without those that are in an inner one."""
    found = []
    todo = [*ast.iter_child_nodes(scope)]
    for node in todo:
        found.append(node)
        todo += [] if isinstance(node, INNER) else ast.iter_child_nodes(node)
    return found


def arguments(scope):
    """Returns the parameters of a function."""
    given = getattr(scope, "args", None)
    if given is None:
        return []
    return [it for it in (*given.posonlyargs, *given.args, *given.kwonlyargs, given.vararg, given.kwarg) if it]


def bound_by(node):
    """Returns the names that a node binds itself."""
    if isinstance(node, ast.Name):
        return () if isinstance(node.ctx, ast.Load) else (node.id,)
    if isinstance(node, ast.alias):
        return (node.asname or node.name.partition(".")[0],)
    if isinstance(node, ast.arg):
        return (node.arg,)
    named = isinstance(node, (*DEFINITIONS, ast.ExceptHandler)) or type(node).__name__ in ("MatchAs", "MatchStar")
    return (node.name,) if named and node.name else ()


def declared_elsewhere(scope, name):
    """Whether a function declares that a name belongs to another scope."""
    others = (ast.Global, ast.Nonlocal)
    return isinstance(scope, FUNCTIONS) and any(isinstance(it, others) and name in it.names for it in own_nodes(scope))


def attributes(owner, name):
    """Returns the nodes by which the methods of a class assign an attribute, those with an annotation first."""
    found = []
    for method in own_nodes(owner):
        first = arguments(method)[:1] if isinstance(method, FUNCTIONS) else []
        if first:
            nodes = [it for it in ast.walk(method) if isinstance(it, ast.Attribute) and it.attr == name]
            found += [it for it in nodes if is_stored(it, first[0].arg)]
    annotated = {it.target for it in ast.walk(owner) if isinstance(it, ast.AnnAssign)}
    return sorted(found, key=lambda it: (it not in annotated, it.lineno, it.col_offset))


def is_stored(node, first):
    """Whether an attribute is one of the first parameter, and assigned."""
    return isinstance(node.ctx, ast.Store) and isinstance(node.value, ast.Name) and node.value.id == first


def name_span(source, node, name):
    """Returns where the name that a node binds begins and ends in the text."""
    if not hasattr(node, "lineno"):
        # (before Python 3.10 the names of an import have no place of their own)
        node = source.parents[node]
    begin, end = source.span(node)
    if isinstance(node, DEFINITIONS):
        begin = HEAD.match(source.text, begin).end()
    elif isinstance(node, ast.Attribute):
        begin = end - len(name)
    elif not isinstance(node, (ast.Name, ast.arg)):
        found = re.search(rf"\b{re.escape(name)}\b", source.text[begin:end])
        begin += found.start() if found else 0
    return begin, begin + len(name)
