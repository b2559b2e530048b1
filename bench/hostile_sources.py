"""Families of hostile sources: each gives the commands of a session by a size, in whose bytes it is linear."""

from typing import Callable, NamedTuple

from instructions import put

CHECK = b"check\n"


class Family(NamedTuple):
    """A family: its name, the smaller of the sizes at which it is measured, and the session of a size."""

    name: str
    size: int
    session: Callable


def one_file(name, size, text):
    """A family of sessions with one file, whose text a function makes."""
    return Family(name, size, lambda count: put("add", "a.py", text(count)) + CHECK)


def lines(line, count, first=0):
    """So many lines, each with its number."""
    return "".join(line.format(at) + "\n" for at in range(first, first + count))


def row(part, count, between=", "):
    """So many parts with their numbers, and something between them."""
    return between.join(part.format(at) for at in range(count))


def classes(count, name="C"):
    return lines(f"class {name}{{}}: ...", count)


# ---- unions



def unions_in_unions(count):
    """Lists of unions of 65 classes, so many inside one another, of two parameters that differ at the innermost place."""
    inner, other = "int", "str"
    for _ in range(count):
        front = row("C{}", 65, " | ")
        inner, other = (f"{front} | list[{it}]" for it in (inner, other))
    return f"{classes(65)}def f(a: {inner}, b: {other}) -> None:\n    a = b\n"


def unions_assigned(count):
    """Two parameters whose unions have so many items, in other sequences, one assigned to the other."""
    forward, backward = row("C{}", count, " | "), " | ".join(f"C{at}" for at in reversed(range(count)))
    return f"{classes(count)}def f(a: {forward}, b: {backward}) -> None:\n    a = b\n"


def unions_written(count):
    """A union of so many items, written twice."""
    written = row("C{}", count, " | ")
    return f"{classes(count)}def f(a: {written}) -> {written}: ...\n"


def unions_of_conditionals(count):
    """A value that is one of so many."""
    chosen = row("C{}() if y else ", count, "") + "None"
    return f"{classes(count)}y: bool = True\nx: int = {chosen}\n"


def unions_of_displays(count):
    """A list of so many items, each of another class."""
    return f"{classes(count)}x: int = [{row('C{}()', count)}]\n"


# ---- parameters


def called(count):
    """A call with so many arguments."""
    return f"def f({row('p{}: int', count)}) -> int: ...\nx: str = f({row('1', count)})\n"


def called_by_name(count):
    """A call with so many arguments that are named, in another sequence."""
    named = ", ".join(f"p{at}=1" for at in reversed(range(count)))
    return f"def f({row('p{}: int', count)}) -> int: ...\nx: str = f({named})\n"


def callables(count):
    """Two callables of so many parameters, one assigned to the other."""
    taken = row("int", count)
    head = "from typing import Callable\n"
    return f"{head}def f(a: Callable[[{taken}], int], b: Callable[[{taken}], str]) -> None:\n    a = b\n"


def functions_assigned(count):
    """A function with so many parameters that are named, assigned to one that takes them in another sequence."""
    names, others = row("p{}: int", count), ", ".join(f"p{at}: int" for at in reversed(range(count)))
    return f"class A:\n    def f(self, *, {names}) -> int: ...\nclass B(A):\n    def f(self, *, {others}) -> int: ...\n"


# ---- states


def function(body):
    return f"def f(y: bool) -> None:\n{body}"


def locals_tested(count):
    """So many locals with as many tests."""
    return function(lines("    v{0}: int | None = None", count) + lines("    if v{0} is None: v{0} = 1", count))


def locals_joined(count):
    """So many locals that are narrowed, and as many meetings of two ways."""
    return function(lines("    v{0}: int | None = 1", count) + "    if y: pass\n" * count)


def locals_tried(count):
    """So many tests of one local in as many statements."""
    tried = "    try:\n        if v{0} is None: v{0} = 1\n    except Exception: pass"
    return function(lines("    v{0}: int | None = None", count) + lines(tried, count))


def attributes_narrowed(count):
    """So many attributes that are narrowed."""
    body = lines("        if self.v{0} is None: self.v{0} = 1", count)
    return f"class C:\n{lines('    v{0}: int | None = None', count)}    def f(self) -> None:\n{body}"


# ---- bodies of classes


def methods(count):
    """A class with so many methods."""
    return "class C:\n" + lines("    def m{}(self) -> int: return 1", count)


def properties(count):
    """A class with so many properties that can be set."""
    one = "    @property\n    def p{0}(self) -> int: return 1\n    @p{0}.setter\n    def p{0}(self, a: int) -> None: ..."
    return "class C:\n" + lines(one, count)


def redefined(count):
    """A class that defines a method so many times."""
    return "class C:\n" + "    def m(self) -> int: return 1\n" * count


def overridden(count):
    """A class with so many methods, all of which another overrides."""
    return methods(count) + "class D(C):\n" + lines("    def m{}(self) -> int: return 1", count)


def attributes_assigned(count):
    """A class with so many attributes that a method assigns."""
    return "class C:\n    def __init__(self) -> None:\n" + lines("        self.x{} = 1", count)


def attribute_used(count):
    """A method that uses an attribute so many times."""
    return "class C:\n    x: int = 1\n    def f(self) -> None:\n" + "        self.x\n" * count


def members_sought(count):
    """A class with so many methods, each of which calls the one before."""
    return "class C:\n    def m0(self) -> int: return 1\n" + "".join(
        f"    def m{at}(self) -> int: return self.m{at - 1}()\n" for at in range(1, count)
    )


# ---- classes and their orders


def classes_named(count):
    """So many classes, each of which a parameter names."""
    return classes(count) + f"def f({row('p{0}: C{0}', count)}) -> None: ...\n"


def chain(count):
    """So many classes, of which each stands on the one before."""
    return "class D0: ...\n" + "".join(f"class D{at}(D{at - 1}): ...\n" for at in range(1, count))


def bases(count):
    """A class with so many bases."""
    return f"{classes(count)}class D({row('C{}', count)}): ...\n"


def chain_of_pairs(count):
    """So many classes, of which each stands on the one before and on the first."""
    return "class D0: ...\nclass D1(D0): ...\n" + "".join(f"class D{at}(D{at - 1}, D0): ...\n" for at in range(2, count))


def overridden_along(count):
    """So many classes in a chain, each with a method that overrides that of the one before."""
    method = "\n    def f(self) -> int: return 1\n"
    return f"class D0: {method}" + "".join(f"class D{at}(D{at - 1}): {method}" for at in range(1, count))


# ---- files


def adds(files):
    return b"".join(put("add", path, text) for path, text in files.items())


def passed_on(count):
    """So many files that pass a name on."""
    files = {"m0.py": "k: int = 1\n"}
    files |= {f"m{at}.py": f"from m{at - 1} import k\n" for at in range(1, count)}
    return adds(files) + CHECK


def ring(count):
    """So many files that import a name around, and then no longer."""
    files = {f"m{at}.py": f"from m{(at + 1) % count} import x\n" for at in range(count)}
    return adds(files) + CHECK + put("change", "m0.py", "x: int = 1\n") + CHECK


def names_passed_on(count):
    """Ten files that pass so many names on."""
    files = {"m0.py": lines("k{}: int = 1", count)}
    files |= {f"m{at}.py": lines(f"from m{at - 1} import k{{}}", count) for at in range(1, 10)}
    return adds(files) + CHECK


def kept_messages(count):
    """So many messages that are kept, and ten edits of another file."""
    files = {"a.py": lines("x{}: str = 1", count), "b.py": "k: int = 1\n"}
    edits = b"".join(put("change", "b.py", f"k: int = {at}\n") + CHECK for at in range(2, 12))
    return adds(files) + CHECK + edits


FAMILIES = [
    one_file("unions in unions", 4, unions_in_unions),
    one_file("unions assigned", 200, unions_assigned),
    one_file("unions written", 100, unions_written),
    one_file("unions of conditionals", 100, unions_of_conditionals),
    one_file("unions of displays", 100, unions_of_displays),
    one_file("arguments by place", 250, called),
    one_file("arguments by name", 250, called_by_name),
    one_file("parameters of callables", 250, callables),
    one_file("parameters by name", 250, functions_assigned),
    one_file("locals that are tested", 150, locals_tested),
    one_file("locals that are joined", 150, locals_joined),
    one_file("locals that are tried", 150, locals_tried),
    one_file("attributes that are narrowed", 150, attributes_narrowed),
    one_file("methods", 500, methods),
    one_file("properties", 250, properties),
    one_file("methods that are defined again", 500, redefined),
    one_file("methods that are overridden", 500, overridden),
    one_file("attributes that are assigned", 500, attributes_assigned),
    one_file("uses of an attribute", 1_000, attribute_used),
    one_file("methods that call one another", 500, members_sought),
    one_file("classes that are named", 500, classes_named),
    one_file("classes in a chain", 200, chain),
    one_file("classes in a chain with two bases", 200, chain_of_pairs),
    one_file("bases of a class", 200, bases),
    one_file("overrides along a chain", 100, overridden_along),
    Family("files that pass a name on", 250, passed_on),
    Family("files in a ring", 250, ring),
    Family("names that are passed on", 100, names_passed_on),
    Family("messages that are kept", 500, kept_messages),
    # these are linear
    one_file("branches", 1_000, lambda count: "y: bool = True\nif y: pass\n" + "elif y: pass\n" * count),
    one_file("handlers", 1_000, lambda count: "try: pass\n" + "except Exception: pass\n" * count),
    one_file("comparisons", 2_000, lambda count: f"x = {'1 < ' * count}1\n"),
    one_file("functions", 500, lambda count: lines("def f{}(a: int) -> int: return a", count)),
    one_file("items of a list", 2_000, lambda count: f"x = [{row('{}', count)}]\n"),
    one_file("locals", 1_000, lambda count: function(lines("    v{} = 1", count))),
]
