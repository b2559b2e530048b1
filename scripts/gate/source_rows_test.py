"""A row that passes, and changes of it with each of which it fails."""

from source_rows import NoRow, session_of

RIGHT = """\
# flags: --ignore-missing-imports
# file: b.py
from gone import x
y: int = "a"  # E: Incompatible types in assignment (expression has type "str", variable has type "int")  [assignment]
v: list[int, str]  # E: Wrong number of type arguments for "list"  [valid-type]
w: dict[k, h]  # E: "k" is not valid as a type  [valid-type]
               # E: "h" is not valid as a type  [valid-type]
h = k = 1
# file: a.py
reveal_type("a")  # N: Revealed type is "str"
z = u  # E: Name "u" is not defined  [name-defined]
"""
# what stands in the row, and what stands there in its place
FAILING = (
    ('variable has type "int")', 'variable has type "bool")'),
    ("[name-defined]", "[valid-type]"),
    ('reveal_type("a")  # N: Revealed type is "str"', 'reveal_type("a")'),
    ("  # E: Wrong number of type arguments", "  # Wrong number of type arguments"),
    ("h = k = 1", 'h = k = 1  # E: Name "h" is not defined  [name-defined]'),
    ("# N: Revealed", "# E: Revealed"),
    ('# E: Name "u"', '# N: Name "u"'),
    ("h = k = 1\n", 'h = k = 1\n# E: Name "u" is not defined  [name-defined]\n'),
    ("\nz = u  # E", "\nz = u\n\n# E"),
    ('# E: "k" is', '# E: "h" is'),
    ('               # E: "h" is not valid as a type  [valid-type]\n', ""),
    ("# flags: --ignore-missing-imports\n", ""),
)
# the same, where the text is then no row
NO_ROWS = (
    ("# flags: --ignore-missing-imports\n# file: b.py\n", "# flags: --ignore-missing-imports\n"),
    ("# flags: --ignore-missing-imports\n", "\n"),
    ("# file: a.py\n", "# file: b.py\n"),
    ("# file: a.py\n", "#file: a.py\n"),
    ("# file: a.py\n", "# file: a.py\n# E: Name\n"),
    ("# N: Revealed", "# N:Revealed"),
    ("h = k = 1", "h = k = 1  # E: A # E: B"),
    ("h = k = 1", "h = k = 1  # E:"),
    ("[name-defined]\n", "[name-defined]"),
)


def changed(change):
    """The text of the row after a change."""
    old, new = change
    assert old in RIGHT, old
    return RIGHT.replace(old, new)


def is_row(change):
    """Whether the text is a row after a change."""
    try:
        return session_of(changed(change)) is not None
    except NoRow:
        return False
