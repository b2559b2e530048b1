"""Sessions at the limits, each with its name and what it prints: too large, or too regular, to be stored."""

from replies import OK, Message, add, report

COMMAND = b"refused 1 command\n"
PATH = b"refused 2 path\n"
LARGE = b"refused 5 large\n"
MANY = b"refused 6 many\n"
MODULE = b"refused 7 module\n"
MOST_BYTES = 1_048_576
MOST_FILES = 1024


def clean(files):
    """What a check prints for so many files without an error."""
    return report([], files)


def checked(path, text, errors=()):
    """A session that adds one file and checks it, and what it prints: these errors, each a line and its message."""
    messages = [Message(path, line, "error", message) for line, message in errors]
    return add(path, text) + b"check\n", OK + report(messages, 1)


def path_of(count):
    """A path of so many bytes."""
    return "a" * (count - 3) + ".py"


def nested(count):
    """An assignment of a number in so many parentheses."""
    return f"x = {'(' * count}1{')' * count}\n"


def blocks(count):
    """So many headers, each in the block of the one before, and a statement in the last."""
    return "".join(f"{' ' * depth}if 1:\n" for depth in range(count)) + f"{' ' * count}pass\n"


def full():
    """A session that holds as many files as there may be, and what it prints."""
    paths = [f"m{at}.py" for at in range(MOST_FILES)]
    session = b"".join(map(add, paths)) + add("more.py") + add("m7/__init__.py")
    session += b"remove m7.py\n" + add("more.py") + b"check\n"
    return session, OK * MOST_FILES + MANY + MODULE + OK + OK + clean(MOST_FILES)


def full_of_pairs():
    """A session that holds as many files as there may be, each a stub or the file beside one, and what it prints."""
    pairs = MOST_FILES // 2
    session = b"".join(add(f"m{at}.py{last}") for at in range(pairs) for last in ("", "i"))
    session += add("more.pyi") + add("m7/__init__.pyi") + b"check\n"
    session += b"remove m7.py\n" + add("more.pyi") + b"check\n"
    return session, OK * MOST_FILES + MANY + MODULE + clean(pairs) + OK + OK + clean(pairs + 1)


def ring(count):
    """A session with so many files that import one name around, until the first declares it, and what it prints."""
    files = {f"m{at}.py": f"from m{(at + 1) % count} import x\n" for at in range(count)}
    told = 'Cannot resolve name "x" (possible cyclic definition)  [misc]'
    messages = [Message(path, 1, "error", told) for path in sorted(files)]
    session = b"".join(add(path, text) for path, text in files.items()) + b"check\n"
    session += b"change m0.py 11\nx: int = 1\ncheck\n"
    return session, OK * count + report(messages, count) + OK + clean(count)


def classes(count, called="C{}"):
    """So many classes, each of which is called by the next, of which a type may be made, and the last by a method."""
    calls = [f"\"{called.format(at + 1)}\"" for at in range(count - 1)]
    lines = [f"class C{at}:\n    __call__: {call}\n" for at, call in enumerate(calls)]
    return "".join(lines) + f"class C{count - 1}:\n    def __call__(self, a: int) -> int: ...\n"


def called_through(count):
    """A session that calls an instance of the first of so many such classes, and what it prints."""
    errors = [(2 * count + 1, no_str("int")), (2 * count + 1, NO_FIRST)]
    return checked("c.py", f"{classes(count)}x: str = C0()(\"\")\n", errors)


def called_through_unions(count):
    """A session that does so where each class but the last is called by a union of the next and of another callable."""
    text = f"from typing import Callable\n{classes(count, 'C{} | Callable[[int], bytes]')}x: str = C0()(\"\")\n"
    return checked("c.py", text, [(2 * count + 2, no_str("int | bytes")), (2 * count + 2, NO_FIRST)])


TOO_DEEP = "Too deeply nested  [syntax]"
INVALID = "Invalid syntax  [syntax]"
LISTS = "list[" * 60 + "int" + "]" * 60
CALLS = "f(" * 60 + "1" + ")" * 60
CALLED = "Union[Callable[[int], int], Callable[[float], int]]"
EMPTY = '""'
DICT, ENTRY = "x: dict[int, int]", '1: ""'
CALLEE = "def g(*a: int): ...\n"
DECLARED = f"from typing import Callable, Union\nf: {CALLED}\n"
OPTIONAL = "def f() -> int | None: ...\n"
LONG_OR = " or ".join(["f()"] * 899 + ["1"])
NARROWED = "a: int | None = f()\n" + " and ".join(["a", *["a + 1"] * 898, f"a + {EMPTY}"])
NO_SUM = 'Unsupported operand types for + ("int" and "str")  [operator]'
NO_ITEM = 'List item 19999 has incompatible type "str"; expected "int"  [list-item]'
NO_ENTRY = 'Dict entry 19999 has incompatible type "int": "str"; expected "int": "int"  [dict-item]'
NO_FIRST = 'Argument 1 to "function" has incompatible type "str"; expected "int"  [arg-type]'
NO_ARGUMENT = 'Argument 20000 to "g" has incompatible type "str"; expected "int"  [arg-type]'


def no_str(shown):
    """The message on a value that is assigned to a `str`, with what its type is shown as."""
    return f'Incompatible types in assignment (expression has type "{shown}", variable has type "str")  [assignment]'


def row(count, part, last=None):
    """So many parts with commas between them, of which the last may be another."""
    return ", ".join([part] * (count - 1) + [last or part])


def total(count, last="1"):
    """A sum of so many terms, with this last one."""
    return " + ".join(["1"] * (count - 1) + [last])


def assigned(text, shown=None):
    """A session that assigns a value to a `str`, told with what its type is shown as, or not told."""
    return checked("e.py", f"x: str = {text}\n", [(1, no_str(shown))] if shown else [])


LIMITS = [
    ("limits/largest_file", add("a.py", "\n" * MOST_BYTES) + b"check\n", OK + clean(1)),
    ("limits/file_one_byte_too_large", add("a.py", "\n" * (MOST_BYTES + 1)) + b"check\n", LARGE + clean(0)),
    ("limits/file_one_byte_too_large_at_the_end", add("a.py", "\n" * (MOST_BYTES + 1)), LARGE),
    ("limits/as_many_files_as_there_may_be", *full()),
    ("limits/as_many_pairs_as_there_may_be", *full_of_pairs()),
    ("limits/long_import_ring", *ring(300)),
    ("limits/longest_path", add(path_of(255)), OK),
    ("limits/longest_path_of_a_stub", add(f"{path_of(254)}i"), OK),
    ("limits/path_of_a_stub_one_byte_too_long", add(f"{path_of(255)}i"), PATH),
    ("limits/path_one_byte_too_long", add(path_of(256)), PATH),
    ("limits/longest_line", add(path_of(506)), PATH),
    ("limits/longest_line_with_a_carriage_return", add(path_of(506)).replace(b"\n", b"\r\n"), PATH),
    ("limits/line_one_byte_too_long", add(path_of(507)), COMMAND),
    ("limits/line_one_byte_too_long_with_a_carriage_return", add(path_of(507)).replace(b"\n", b"\r\n"), COMMAND),
    ("limits/line_longer_than_one_read", add(path_of(5000)), COMMAND),
    ("limits/overlong_line_is_skipped", b"q" * 513 + b"\ncheck\n", COMMAND + clean(0)),
    ("limits/deepest_brackets", *checked("d.py", nested(64))),
    ("limits/brackets_one_too_deep", *checked("d.py", nested(65), [(1, TOO_DEEP)])),
    ("limits/deepest_blocks", *checked("d.py", blocks(64))),
    ("limits/blocks_one_too_deep", *checked("d.py", blocks(65), [(66, TOO_DEEP)])),
    ("limits/many_signs", *checked("d.py", f"x = {'-' * 900}1\n")),
    ("limits/highest_tree", *checked("d.py", f"x = {'-' * 997}1\n")),
    ("limits/tree_one_node_too_high", *checked("d.py", f"x = {'-' * 998}1\n", [(1, INVALID)])),
    ("limits/too_many_signs", *checked("d.py", f"x = {'-' * 2000}1\n", [(1, INVALID)])),
    ("limits/lists_in_lists", *checked("l.py", f"def f(a: {LISTS}) -> {LISTS}:\n    return a\n")),
    (
        "limits/calls_in_calls",
        *checked("u.py", f"from typing import Callable, Union\ndef g(f: {CALLED}) -> int:\n    return {CALLS}\n"),
    ),
    ("limits/calls_of_a_union_in_calls", *checked("u.py", f"{DECLARED}x: str = {CALLS}\n", [(3, no_str("int"))])),
    ("limits/long_sum", *assigned(total(900), "int")),
    ("limits/long_sum_with_a_wrong_end", *checked("e.py", f"{total(900, EMPTY)}\n", [(1, NO_SUM)])),
    ("limits/longest_sum", *checked("e.py", f"{total(998, EMPTY)}\n", [(1, NO_SUM)])),
    ("limits/sum_one_term_too_long", *checked("e.py", f"{total(999, EMPTY)}\n", [(1, INVALID)])),
    ("limits/long_or", *checked("o.py", f"{OPTIONAL}x: str = {LONG_OR}\n", [(2, no_str("int"))])),
    ("limits/long_and_with_a_wrong_end", *checked("o.py", f"{OPTIONAL}{NARROWED}\n", [(3, NO_SUM)])),
    ("limits/long_list", *assigned(f"[{row(20_000, '1')}]", "list[int]")),
    ("limits/list_with_a_wrong_end", *checked("e.py", f"x: list[int] = [{row(20_000, '1', EMPTY)}]\n", [(1, NO_ITEM)])),
    ("limits/dict_with_a_wrong_end", *checked("e.py", f"{DICT} = {{{row(20_000, '1: 1', ENTRY)}}}\n", [(1, NO_ENTRY)])),
    ("limits/call_with_a_wrong_end", *checked("e.py", f"{CALLEE}g({row(20_000, '1', EMPTY)})\n", [(2, NO_ARGUMENT)])),
    # a call goes through as many classes as there are
    ("limits/call_through_999_classes", *called_through(999)),
    ("limits/call_through_1500_classes", *called_through(1500)),
    ("limits/call_through_1500_unions", *called_through_unions(1500)),
    ("limits/call_through_4000_classes", *called_through(4000)),
    ("limits/call_through_4000_unions", *called_through_unions(4000)),
    # a tuple of 999 items is a type of 1,000 types; one of more is Any
    ("limits/largest_type", *assigned(f"({row(999, '1')})", f"tuple[{row(999, 'int')}]")),
    ("limits/type_that_is_too_large", *assigned(f"({row(1000, '1')})")),
    ("limits/type_that_is_far_too_large", *assigned(f"({row(20_000, '1')})")),
    ("limits/largest_sum_of_tuples", *assigned(f"({row(500, '1')}) + ({row(499, '1')})", f"tuple[{row(999, 'int')}]")),
    ("limits/sum_of_tuples_that_is_too_large", *assigned(f"({row(500, '1')}) + ({row(500, '1')})")),
    ("limits/list_of_a_tuple_that_is_too_large", *assigned(f"[({row(999, '1')})]")),
]
