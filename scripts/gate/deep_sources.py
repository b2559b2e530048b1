"""The deepest inputs of each kind that the limits allow: files, and the messages on them by the written rules.

A tree is at most 1,000 nodes high, brackets and indents nest to 64, strings in annotations to 4, and a type that an
expression forms has at most 1,000 types. A session has at most 1,024 files. A class may stand on any other, and a name may
lead through any import; a function has as many parameters as its line has.
"""

from typing import NamedTuple

from replies import Message

# how many operators or calls the tree of a line with one statement and one name or number takes
HIGHEST = 997
NESTED = 64
TYPES = 1_000
CLASSES = 1_000
MODULES = 1_000
FILES = 1_024
PARAMETERS = 1_024
# the blocks of a method in a class, and of a function
IN_A_METHOD = NESTED - 2
IN_A_FUNCTION = NESTED - 1
NO_SUM = 'Unsupported operand types for + ("int" and "str")  [operator]'
NOT_ITERABLE = '"int" has no attribute "__iter__" (not iterable)  [attr-defined]'
NO_TYPE = "Invalid type comment or annotation  [valid-type]"
NO_TEXT = '""'
WRONG_SUM = '1 + ""'
MARK = "mark: str = 1\n"


class Deep(NamedTuple):
    """An input: its name, its files by path, and the messages on them, in the order of a report."""

    name: str
    files: dict
    messages: list


def result(shown, wanted):
    """The message on a value that a function gives, with its type as it is shown."""
    return f'Incompatible return value type (got "{shown}", expected "{wanted}")  [return-value]'


def argument(shown, callee="g", wanted="int", number=1):
    """The message on an argument of a call."""
    return f'Argument {number} to "{callee}" has incompatible type "{shown}"; expected "{wanted}"  [arg-type]'


def item(shown, wanted):
    """The message on the first item of a list."""
    return f'List item 0 has incompatible type "{shown}"; expected "{wanted}"  [list-item]'


def overriding(number, wanted):
    """The message on a parameter of a method that overrides that of a class A."""
    told = f'Argument {number} of "f" is incompatible with supertype "A"; supertype defines the argument type as "{wanted}"'
    return f"{told}  [override]"


def mismatch(shown, wanted="str"):
    """The message on a value that is assigned to a variable, each with its type as it is shown."""
    return f'Incompatible types in assignment (expression has type "{shown}", variable has type "{wanted}")  [assignment]'


def one_file(name, text, *errors):
    """An input of one file, with the lines and texts of its errors."""
    return Deep(name, {"a.py": text}, [Message("a.py", line, "error", told) for line, told in errors])


def marked(name, text, *errors):
    """The same with a line behind that has an error, where most of the text has none."""
    return one_file(name, text + MARK, *errors, (text.count("\n") + 1, mismatch("int")))


def nested(opening, inner, closing, count=NESTED):
    """Something in so many brackets."""
    return opening * count + inner + closing * count


def shared(operator, opening, closing, inner="1", height=1, most=HIGHEST):
    """Something in 64 brackets, each of so many nodes, with as many operators as the height then allows, shared among them."""
    left = most - height * NESTED
    parts = [operator * (left // NESTED + (at < left % NESTED)) + opening for at in range(NESTED)]
    return "".join(parts) + inner + closing * NESTED


# ---- one expression

CALLABLE = 'class C:\n    c: "C"\n    def __call__(self, *a: object, **k: object) -> "C": ...\n'
INDEXED = '    def __getitem__(self, at: object) -> "C": ...\nc: C = C()\n'
CHAINED = CALLABLE + INDEXED
ANY = "def g(*a: object, **k: object) -> int: ...\ny: bool = True\n"


def of_int(name, text):
    """An expression of type int, after the functions that it calls."""
    return one_file(name, f"{ANY}x: str = {text}\n", (3, mismatch("int")))


def chained(name, part):
    """A chain of parts behind an instance of a class of which each gives such an instance again."""
    return one_file(name, f"{CHAINED}x: str = c{part * HIGHEST}\n", (6, mismatch("C")))


def list_text(count, inner="int"):
    """A list of lists, so many, as a type is shown."""
    return nested("list[", inner, "]", count)


HIGH_TREES = [
    of_int("signs", "-" * HIGHEST + "1"),
    one_file("not", f"x: str = {'not ' * HIGHEST}1\n", (1, mismatch("bool"))),
    marked("lambda", f"x = {'lambda: ' * HIGHEST}1\n"),
    marked("lambda with a default", f"x = {'lambda a=1: ' * (HIGHEST - 1)}1\n"),
    marked("lambda in a default", f"x = {nested('lambda a=', '1', ': 1', 498)}\n"),
    of_int("conditionals", "1 if y else " * HIGHEST + "1"),
    marked("powers", f"x = {'2**' * HIGHEST}2\n"),
    marked("powers of signs", f"x = {'2**-' * 498}2\n"),
    of_int("sums", "1 + " * HIGHEST + "1"),
    of_int("products", "1 * " * HIGHEST + "1"),
    of_int("and", "1 and " * HIGHEST + "1"),
    of_int("or", "1 or " * HIGHEST + "1"),
    one_file("comparisons", f"x: str = {'1 < ' * 5_000}1\n", (1, mismatch("bool"))),
    chained("attributes", ".c"),
    chained("calls", "()"),
    chained("subscripts", "[0]"),
    marked("attributes as a target", f"{CHAINED}c{'.c' * HIGHEST} = C()\n"),
    marked("deleted attributes", f"{CHAINED}del c{'.c' * HIGHEST}\n"),
    marked("attributes that are narrowed", f"{CHAINED}if c{'.c' * (HIGHEST - 1)}:\n    pass\n"),
    marked("attributes of a module", f"import a\nx = a{'.a' * HIGHEST}\n"),
    one_file("parentheses", f"x: str = {nested('(', '1', ')')}\n", (1, mismatch("int"))),
    one_file("tuples", f"x: str = {nested('(', '1', ',)')}\n", (1, mismatch(nested("tuple[", "int", "]")))),
    one_file("lists", f"x: str = {nested('[', '1', ']')}\n", (1, mismatch(list_text(NESTED)))),
    one_file("dictionaries", f"x: str = {nested('{1: ', '1', '}')}\n", (1, mismatch(nested("dict[int, ", "int", "]")))),
    marked("sets", f"x = {nested('{', '1', '}')}\n"),
    of_int("arguments", nested("g(", "1", ")")),
    of_int("keyword arguments", nested("g(a=", "1", ")")),
    of_int("starred arguments", f"g(*{nested('[', '1', ']', NESTED - 1)})"),
    one_file("indices", f"{CHAINED}x: str = {nested('c[', 'c', ']')}\n", (6, mismatch("C"))),
    one_file("slices", f"{CHAINED}x: str = {nested('c[1:', '1', ':2]')}\n", (6, mismatch("C"))),
    marked("comprehensions", f"x = {nested('[y for y in ', '[1]', ']', NESTED - 1)}\n"),
    of_int("generators", f"{nested('g(y for y in [1] if ', '1', ')', NESTED - 1)}"),
    marked("yield", f"def f() -> object:\n    x = {nested('(yield ', '1', ')')}\n"),
    marked("targets in lists", f"{nested('[', 'x', ']')} = 1\n", (1, NOT_ITERABLE)),
    of_int("signs in parentheses", shared("-", "(", ")")),
    of_int("sums in parentheses", shared("1 + ", "(", ")")),
    one_file("not in parentheses", f"x: str = {shared('not ', '(', ')')}\n", (1, mismatch("bool"))),
    marked("lambda in lists", f"x = {shared('lambda: ', '[', ']')}\n"),
    marked("lambda in calls", f"{ANY}x = {shared('lambda a=1: ', 'g(a=', ')', height=2)}\n"),
    of_int("conditionals in calls", shared("1 if y else ", "g(", ")", height=2)),
]

# ---- strings in annotations, each in the one before

QUOTES = ('"""', "'''", '"', "'")


def quoted(part, inner):
    """Something in five levels of an expression, of which each but the first is a string in the one before."""
    text = part(inner)
    for quote in reversed(QUOTES):
        text = part(quote + text + quote)
    return text


def lists_around(inner):
    return nested("list[", inner, "]", IN_A_FUNCTION)


def optional_around(inner):
    return nested("Optional[", inner, "]", IN_A_FUNCTION)


def callables_around(inner):
    return nested("Callable[[", inner, "], int]", IN_A_FUNCTION // 2)


def union_of(first, item="int", count=TYPES - 10):
    """A union of which each further item takes a node of height more."""
    return first + f" | {item}" * count


def shown_callables(inner):
    """What such callables are shown as."""
    return nested("Callable[[", inner, "], int]", IN_A_FUNCTION // 2 * (len(QUOTES) + 1))


def subscripts_around(inner):
    return f"A[{inner}]" + "[int]" * (TYPES - 10)


def lists_or_ints_around(inner):
    return union_of(lists_around(inner), count=HIGHEST - 2 * NESTED)


def shown_lists_or_ints(levels):
    """What so many levels of these are shown as."""
    return list_text(IN_A_FUNCTION, shown_lists_or_ints(levels - 1)) + " | int" if levels else "str"


SHOWN_LISTS_OR_INTS = shown_lists_or_ints(len(QUOTES) + 1)
DEEP_LISTS = IN_A_FUNCTION * (len(QUOTES) + 1)
HEAD = "from typing import Callable, Optional\nclass A: ...\n"


def parameter(name, annotation, shown):
    """A parameter with a type that is assigned to a variable of another."""
    return one_file(name, f"{HEAD}def f(a: {annotation}) -> None:\n    x: bytes = a\n", (4, mismatch(shown, "bytes")))


def no_type(name, opening, closing, height=1):
    """An annotation that is no type, in brackets with conditionals."""
    part = lambda inner: shared("1 if y else ", opening, closing, inner, height, HIGHEST - 4)
    return one_file(name, f"y: bool = True\nz: {quoted(part, 'int')} = 1\n", (2, NO_TYPE))


def two_parameters(name, first, second, shown, wanted):
    """Two parameters of which the second is assigned to the first, whose type is another at the innermost place."""
    return one_file(name, f"{HEAD}def f(a: {first}, b: {second}) -> None:\n    a = b\n", (4, mismatch(shown, wanted)))


def overridden(first, second, shown):
    """A method whose parameter is of another type than that of the method that it overrides, at the innermost place."""
    text = f"class A:\n    def f(self, a: {first}) -> None: ...\nclass B(A):\n    def f(self, a: {second}) -> None: ...\n"
    return one_file("overridden by a parameter that differs", text, (4, overriding(1, shown)))


ANNOTATIONS = [
    parameter("lists in strings", quoted(lists_around, "int"), list_text(DEEP_LISTS)),
    parameter("optional in strings", quoted(optional_around, "int"), "int | None"),
    parameter("callables in strings", quoted(callables_around, "int"), shown_callables("int")),
    parameter("subscripts of a class", "A" + "[int]" * 900, "A"),
    two_parameters(
        "lists that differ",
        quoted(lists_around, "int"),
        quoted(lists_around, "str"),
        list_text(DEEP_LISTS, "str"),
        list_text(DEEP_LISTS),
    ),
    two_parameters(
        "callables that differ",
        quoted(callables_around, "int"),
        quoted(callables_around, "str"),
        shown_callables("str"),
        shown_callables("int"),
    ),
    overridden(quoted(lists_around, "int"), quoted(lists_around, "str"), list_text(DEEP_LISTS)),
    marked("attributes of a module in an annotation", f"import a\nclass C: ...\ndef f(b: a{'.a' * 990}.C) -> None: ...\n"),
]

# in each string a tree stands that is nearly as high as the whole line may be
HIGH_STRINGS = [
    parameter("unions in strings", quoted(union_of, "str"), "str | int"),
    parameter("unions of lists in strings", quoted(lists_or_ints_around, "str"), SHOWN_LISTS_OR_INTS),
    parameter("subscripts in strings", quoted(subscripts_around, "int"), "A"),
    no_type("dictionaries in strings", "{1: ", "}"),
    no_type("lists in strings that are no types", "[", "]"),
    no_type("calls in strings", "f(", ")", height=2),
]

# ---- blocks in blocks, and expressions in them

# the lines that stand before the next block and those behind it
BLOCKS = {
    "if": (("if y:",), ()),
    "elif": (("if y: pass", "elif y:"), ()),
    "else": (("if y: pass", "else:"), ()),
    "while": (("while y:",), ()),
    "else of a while": (("while y: pass", "else:"), ()),
    "for": (("for i in [1]:",), ()),
    "else of a for": (("for i in [1]: pass", "else:"), ()),
    "with": (("with g(1) as i:",), ()),
    "try": (("try:",), ("except Exception: pass",)),
    "handlers": (("try: pass", "except Exception:"), ()),
    "else of a try": (("try: pass", "except Exception: pass", "else:"), ()),
    "finally": (("try: pass", "finally:"), ()),
}
INSIDE = {
    "displays": shared("1 if y else ", "[", "]", WRONG_SUM, most=HIGHEST - 1),
    "dictionaries": shared("1 if y else ", "{1: ", "}", WRONG_SUM, most=HIGHEST - 1),
    "tuples": shared("1 if y else ", "(", ",)", WRONG_SUM, most=HIGHEST - 1),
    "calls": shared("1 if y else ", "g(", ")", WRONG_SUM, height=2, most=HIGHEST - 1),
    "keyword arguments": shared("1 if y else ", "g(a=", ")", WRONG_SUM, height=2, most=HIGHEST - 1),
    "indices": shared("1 if y else ", "c[", "]", WRONG_SUM, height=2, most=HIGHEST - 1),
    "signs": shared("-", "(", ")", WRONG_SUM, most=HIGHEST - 1),
    "sums": shared("1 + ", "(", ")", WRONG_SUM, most=HIGHEST - 1),
    "or": shared("y or ", "(", ")", WRONG_SUM, most=HIGHEST - 1),
    "and": shared("y and ", "(", ")", WRONG_SUM, most=HIGHEST - 1),
    "not": shared("not ", "(", ")", WRONG_SUM, most=HIGHEST - 1),
    "comparisons": shared("1 < ", "(", ")", WRONG_SUM, most=NESTED),
}


def in_blocks(kind, inner, count, first=0):
    """A line in so many blocks of a kind, the outermost with an indent of so many spaces."""
    before, behind = BLOCKS[kind]
    front = [" " * (first + at) + line for at in range(count) for line in before]
    back = [" " * (first + at) + line for at in reversed(range(count)) for line in behind]
    return "\n".join([*front, " " * (first + count) + inner, *back]) + "\n"


def line_in_blocks(kind, count, before=""):
    """The line at which such a line stands, behind a text."""
    return before.count("\n") + count * len(BLOCKS[kind][0]) + 1


def blocks(kind):
    """As many blocks of a kind as there may be, and an error in the innermost."""
    text = in_blocks(kind, "x: str = 1", NESTED)
    return one_file(f"blocks: {kind}", ANY + text, (line_in_blocks(kind, NESTED, ANY), mismatch("int")))


METHOD = f"{CHAINED}{ANY}class D:\n def f(self) -> None:\n"


def expression_in_blocks(kind, inside):
    """One of the deepest expressions in as many blocks as a method may have."""
    text = METHOD + in_blocks(kind, INSIDE[inside], IN_A_METHOD, 2)
    return one_file(f"{inside} in blocks: {kind}", text, (line_in_blocks(kind, IN_A_METHOD, METHOD), NO_SUM))


def condition_in_blocks(inside):
    """Such an expression as a condition in blocks."""
    text = METHOD + in_blocks("if", f"if {INSIDE[inside]}: pass", IN_A_METHOD, 2)
    return one_file(f"condition in blocks: {inside}", text, (line_in_blocks("if", IN_A_METHOD, METHOD), NO_SUM))


IN_BLOCKS = [
    *(blocks(kind) for kind in BLOCKS),
    marked("blocks: class", "".join(f"{' ' * at}class C:\n" for at in range(NESTED)) + " " * NESTED + "pass\n"),
    marked("blocks: def", "".join(f"{' ' * at}def f() -> None:\n" for at in range(NESTED)) + " " * NESTED + "pass\n"),
    *(expression_in_blocks(kind, inside) for kind in BLOCKS for inside in INSIDE),
    *(condition_in_blocks(inside) for inside in INSIDE),
]

# ---- types of as many types as there may be


def grown(name, start, wrap, count):
    """Locals of which each wraps the one before, in the body of a function."""
    wrapped = (f"    {name}{at} = {wrap.format(f'{name}{at - 1}')}\n" for at in range(1, count))
    return "".join([f"    {name}0 = {start}\n", *wrapped])


LISTS = TYPES - 1
PAIRS = LISTS // 2
GROWN = "def g(a: int) -> int: ...\ndef f(y: bool) -> int:\n"
BOTH_GROWN = GROWN + grown("v", "1", "[{}]", TYPES) + grown("w", '""', "[{}]", TYPES)


def of_grown(name, start, wrap, count, shown):
    """A type that grows to as many types as there may be, and a local that would have one more and is Any."""
    text = GROWN + grown("v", start, wrap, count + 1) + f"    a: str = v{count - 1}\n    b: str = v{count}\n    return 1\n"
    return one_file(name, text, (count + 4, mismatch(shown)))


def with_grown(name, text, told):
    """A line behind locals that are lists of lists, `v0` to `v999` of `int` and `w0` to `w999` of `str`, and its message."""
    return one_file(name, f"{BOTH_GROWN}    {text}\n    return 1\n", (BOTH_GROWN.count("\n") + 1, told))


def with_both(name, line, told):
    """The same behind a local that is either."""
    text = f"{BOTH_GROWN}    both = v498 if y else w498\n"
    return one_file(name, f"{text}    {line}\n    return 1\n", (text.count("\n") + 1, told))


def expected_in_blocks(kind):
    """A display that is assigned to a local with the largest type, in as many blocks and brackets as there may be. Its
    innermost item is a list of another type."""
    parts = [f"v{LISTS - at} if y else " * (HIGHEST // NESTED - 1) + "[" for at in range(NESTED)]
    left = LISTS - NESTED
    text = in_blocks(kind, f"v{LISTS} = {''.join(parts)}w{left}{']' * NESTED}", IN_A_FUNCTION, 1)
    front = f"{GROWN}    c = g\n{grown('v', '1', '[{}]', TYPES)}{grown('w', NO_TEXT, '[{}]', TYPES)}".replace("    ", " ")
    line = line_in_blocks(kind, IN_A_FUNCTION, front)
    told = item(list_text(left, "str"), list_text(left))
    return one_file(f"display of the largest type in blocks: {kind}", f"{front}{text} return 1\n", (line, told))


LARGE_TYPES = [
    of_grown("types of lists", "1", "[{}]", TYPES, list_text(LISTS)),
    of_grown("types of tuples", "1", "({},)", TYPES, nested("tuple[", "int", "]", LISTS)),
    of_grown("types of dictionaries", "1", "{{1: {}}}", PAIRS + 1, nested("dict[int, ", "int", "]", PAIRS)),
    with_grown("assigned", "v999 = w999", mismatch(list_text(LISTS, "str"), list_text(LISTS))),
    with_grown("passed", "g(v999)", argument(list_text(LISTS))),
    with_grown("given", "return v999", result(list_text(LISTS), "int")),
    with_grown("listed", "a: list[int] = [v999]", item(list_text(LISTS), "int")),
    with_grown("iterated", "for a in v999: b: str = a", mismatch(list_text(LISTS - 1))),
    with_grown("subscripted", f"a: str = v999{'[0]' * 990}", mismatch(list_text(LISTS - 990))),
    with_both("either", "a: str = both", mismatch(f"{list_text(498)} | {list_text(498, 'str')}")),
    with_both("either to one", "v498 = both", mismatch(f"{list_text(498)} | {list_text(498, 'str')}", list_text(498))),
    *(expected_in_blocks(kind) for kind in BLOCKS),
]

# ---- classes


def class_line(name, *bases, body="pass"):
    return f"class {name}({', '.join(bases)}): {body}\n" if bases else f"class {name}: {body}\n"


def chain(count, body="pass"):
    """So many classes, each of which stands on the one before; the first has this body."""
    return class_line("D0", body=body) + "".join(class_line(f"D{at}", f"D{at - 1}") for at in range(1, count))


def chain_backwards(count):
    """So many classes, each of which stands on the one after it, and the last."""
    lines = [class_line(f"D{at}", f"D{at + 1}") for at in range(count)]
    return "".join(lines) + class_line(f"D{count}", body="k: int = 1")


def chain_over_files(count):
    """So many classes, each in a file of its own, that stands on the one of the file before."""
    files = {"d0.py": class_line("D0", body="k: int = 1")}
    for at in range(1, count):
        files[f"d{at}.py"] = f"from d{at - 1} import D{at - 1}\n{class_line(f'D{at}', f'D{at - 1}')}"
    files["a.py"] = f"from d{count - 1} import D{count - 1}\nx: str = D{count - 1}().k\n"
    return Deep("classes in a chain over files", files, [Message("a.py", 2, "error", mismatch("int"))])


def told_each(text, count):
    """The messages on so many lines, from the first on, each with its number."""
    return [(at + 1, text.format(at)) for at in range(count)]


def cycle(count):
    """Classes of which each stands on the one after it, and the last on the first."""
    return "".join(class_line(f"D{at}", f"D{(at + 1) % count}") for at in range(count))


def called_through(count):
    """Classes of which each is called by the next one, and the last by a method."""
    lines = [f'class D{at}:\n    __call__: "D{at + 1}"\n' for at in range(count - 1)]
    return "".join(lines) + f"class D{count - 1}:\n    def __call__(self) -> int: ...\nx: str = D0()()\n"


def linked(count):
    """Classes of which each has an attribute of the next."""
    lines = [class_line(f"D{at}", body=f'n: "D{at + 1}"') for at in range(count)]
    return "".join(lines) + class_line(f"D{count}") + f"x: str = D0(){'.n' * count}\n"


def bases(count):
    """A class that stands on so many, and one that stands on it and on these."""
    names = [f"B{at}" for at in range(count)]
    lines = [class_line(name) for name in names]
    return "".join(lines) + class_line("C", *names, body="k: int = 1") + class_line("D", "C", *names) + "x: str = D().k\n"


def overridden_along(count):
    """Classes in a chain, of which the first has a method, and the last one whose result does not fit."""
    below = f"class E(D{count - 1}):\n    def f(self) -> str: ...\n"
    return chain(count, "\n    def f(self) -> int: ...") + below


MANY_CLASSES = [
    one_file("classes in a chain", f"{chain(CLASSES, 'k: int = 1')}x: str = D999().k\n", (CLASSES + 1, mismatch("int"))),
    one_file(
        "classes in a chain backwards",
        chain_backwards(CLASSES) + "x: str = D0().k\n",
        (CLASSES + 2, mismatch("int")),
    ),
    chain_over_files(MODULES),
    one_file("classes in a ring", cycle(CLASSES), *told_each('Cycle in the bases of "D{}"  [misc]', CLASSES)),
    one_file("classes called through", called_through(CLASSES), (2 * CLASSES + 1, mismatch("int"))),
    one_file("classes linked", linked(HIGHEST - 1), (HIGHEST + 1, mismatch(f"D{HIGHEST - 1}"))),
    one_file("bases", bases(200), (203, mismatch("int"))),
    one_file(
        "overridden along a chain",
        overridden_along(CLASSES),
        (CLASSES + 3, 'Return type "str" of "f" incompatible with return type "int" in supertype "D0"  [override]'),
    ),
    one_file(
        "narrowed along a chain",
        f"{chain(CLASSES)}def f(a: D0) -> None:\n    if isinstance(a, D999):\n        x: str = a\n",
        (CLASSES + 3, mismatch("D999")),
    ),
]

# ---- modules

DEEPEST_PACKAGE = 125


def ring(count):
    """Files that import a name around."""
    files = {f"m{at}.py": f"from m{(at + 1) % count} import x\n" for at in range(count)}
    told = 'Cannot resolve name "x" (possible cyclic definition)  [misc]'
    return Deep("imports in a ring", files, [Message(path, 1, "error", told) for path in sorted(files)])


def passed_on(count):
    """Files that pass a name on."""
    files = {f"m{at}.py": f"from m{at - 1} import k\n" for at in range(1, count)}
    files |= {"m0.py": "k: int = 1\n", "a.py": f"from m{count - 1} import k\nx: str = k\n"}
    return Deep("imports in a chain", files, [Message("a.py", 2, "error", mismatch("int"))])


def modules_linked(count):
    """Files of which each imports the next as a module."""
    files = {f"m{at}.py": f"import m{at + 1} as n\n" for at in range(count)}
    files |= {f"m{count}.py": "k: int = 1\n", "a.py": f"import m0\nx: str = m0{'.n' * count}.k\n"}
    return Deep("modules linked", files, [Message("a.py", 2, "error", mismatch("int"))])


def package():
    """A module that lies as deep as its path allows, under a name with as many dots, and one that goes up again."""
    name = ".".join(["a"] * DEEPEST_PACKAGE)
    path = f"{name.replace('.', '/')}/k.py"
    files = {path: f"from {'.' * (DEEPEST_PACKAGE + 1)} import b\nk: int = 1\n"}
    files["b.py"] = f"import {name}.k\nx: str = {name}.k.k\ny: str = {'(' * NESTED}{name}.k.k{')' * NESTED}\n"
    return Deep("packages", files, [Message("b.py", line, "error", mismatch("int")) for line in (2, 3)])


MANY_MODULES = [passed_on(MODULES), ring(FILES), modules_linked(HIGHEST - 2), package()]

# ---- parameters


def row(part, count=PARAMETERS):
    """So many parts with their numbers, and commas between them."""
    return ", ".join(part.format(at) for at in range(count))


def called(name, head, arguments, told):
    """A call of a function with as many parameters."""
    return one_file(name, f"def g({head}) -> int: ...\ng({arguments})\n", (2, told))


def method(word, last):
    """A class with a method with as many parameters, of which the last is of this type."""
    return f"class {word}:\n    def f(self, {row('p{}: int', PARAMETERS - 1)}, last: {last}) -> int: ...\n"


INTS = row("int", TYPES - 2)
MISSING = f'Missing positional argument "p{PARAMETERS - 1}" in call to "g"  [call-arg]'
MANY_PARAMETERS = [
    called("called by place", row("p{}: int"), row("1", PARAMETERS - 1) + ', ""', argument("str", number=PARAMETERS)),
    called(
        "called by name",
        row("p{}: int"),
        row("p{}=1", PARAMETERS - 1) + f', p{PARAMETERS - 1}=""',
        f'Argument "p{PARAMETERS - 1}" to "g" has incompatible type "str"; expected "int"  [arg-type]',
    ),
    called("called with less", row("p{}: int"), row("1", PARAMETERS - 1), MISSING),
    one_file(
        "callables",
        f"from typing import Callable\ndef f(a: Callable[[{INTS}], int], b: Callable[[{INTS}], str]) -> None:\n    a = b\n",
        (3, mismatch(f"Callable[[{INTS}], str]", f"Callable[[{INTS}], int]")),
    ),
    one_file(
        "overridden",
        method("A", "int") + method("B(A)", "str"),
        (4, overriding(PARAMETERS, "int")),
    ),
    marked("parameters of a lambda", f"x = lambda {row('p{}')}: 1\n"),
]

# ---- statements in a row, and long rows in one


def wide(name, text, line):
    """A text with an error on this line."""
    return one_file(name, text, (line, mismatch("int")))


ROWS = [
    wide("elif", "if y: pass\n" + "elif y: pass\n" * 5_000 + "else:\n    x: str = 1\ny: bool = True\n", 5_003),
    wide("handlers", "try: pass\n" + "except Exception: pass\n" * 1_000 + "else:\n    x: str = 1\n", 1_003),
    wide("statements on a line", "pass; " * 5_000 + "x: str = 1\n", 1),
    wide("statements", "pass\n" * 20_000 + "x: str = 1\n", 20_001),
    wide("targets", "x = " * 990 + "1\ny: str = x\n", 2),
    wide("decorators", ANY + "@g\n" * 1_000 + "def f() -> None:\n    x: str = 1\n", 1_004),
    wide("items of a with", f"{ANY}with {', '.join(['g(1)'] * 1_000)}:\n    x: str = 1\n", 4),
    wide("strings", "a = " + '"" ' * 5_000 + "\nx: str = 1\n", 2),
]

DEEPEST = [*HIGH_TREES, *ANNOTATIONS, *HIGH_STRINGS, *IN_BLOCKS, *LARGE_TYPES, *MANY_CLASSES, *MANY_MODULES, *MANY_PARAMETERS, *ROWS]
