"""Makes small workspaces at random, of files that hold classes, functions, variables and many expressions.

A workspace has one to three files, which import each other. A file declares classes with members of every kind,
functions with parameters of every kind and variables of many types, and then has statements at its top level:
expressions, assignments and annotated assignments, nested up to three deep. A value is made for a type that is wanted
there, so many lines pass; now and then it is made for another, or for none, so many lines are told of. Names that
nothing defines stand in expressions and in annotations of top-level statements alone, and `yield` and `await` nowhere
outside functions and lambdas.

Used by compare_sessions.py, which says how sessions of these files are compared.
"""

import collections
import random

# A type: its form, its parts, and the name of a class with its module ("" for a builtin's).
Ty = collections.namedtuple("Ty", "form parts name module", defaults=((), "", ""))
# A parameter: its kind ("", "*", "**" or "only"), name, type (None without annotation) and whether it has a default.
Param = collections.namedtuple("Param", "kind name ty default")
# What a class or a module has: its name, its kind, its type, and the parameters of what can be called.
Named = collections.namedtuple("Named", "name kind ty params", defaults=((),))

ANY, NONE, OBJECT = Ty("any"), Ty("none"), Ty("class", (), "object")
INT, STR, FLOAT, BOOL, BYTES = (Ty("class", (), it) for it in "int str float bool bytes".split())
PLAIN = (INT, INT, STR, STR, FLOAT, BOOL, BYTES, NONE, ANY)
EXCEPTIONS = [Ty("class", (), it) for it in "BaseException Exception ValueError KeyError LookupError".split()]

CLASSES = "A B C D E".split()
FUNCTIONS = "f g h k".split()
VARIABLES = "u v w x y z xs d t o cb n s".split()
MEMBERS = "a b c m p q r s".split()
PARAMETERS = "a b c d e".split()
UNDEFINED = "nope zz undefined".split()
OPERATORS = "+ - * @ / // % ** << >> & | ^".split()
ORDERINGS = "< > <= >=".split()
SPECIAL = {
    **{f"__{name}__": 1 for name in """add sub mul matmul truediv floordiv mod pow lshift rshift and or xor lt gt le ge
    getitem getattr eq contains iadd""".split()},
    **{f"__{name}__": 0 for name in "neg pos invert iter len bool enter str".split()},
    "__call__": None,
    "__setitem__": 2,
}
BUILTIN_NAMES = """len id print sorted isinstance repr abs max sum open range zip map NotImplemented super type object
    int str float list dict tuple bytes bool ValueError KeyError OSError callable input hash set __name__ __file__
    __doc__ reveal_type property Exception""".split()
BUILTIN_MEMBERS = """upper split join append pop get items keys setdefault popitem count index copy encode partition
    real bit_length args strip find format maketrans hex decode clear insert is_integer __class__ __doc__ __dict__
    __init__ __name__ startswith sort with_traceback update add_note nope""".split()
KINDS = """annotated annotated literal assigned self self method method method property property settable static
    classmethod async wrapped nested imported""".split()
BASES = "int str float bytes Exception object list dict list[int] bool BaseException KeyError".split()
PATHS = ("a.py", "b.py", "c.py", "p/__init__.py", "p/m.py", "p/q/__init__.py", "d/e.py")
RELATIVE = ("from . import m", "from .. import a", "from . import nope as h9", "from .m import A as G",
            "from . import q as r9", "from ..a import C as H")
RARE_PATHS = ("typing.py", "abc.py", "p/typing.py")
TYPING = "Any Optional Union List Dict Tuple Callable cast TYPE_CHECKING reveal_type TypeVar Protocol".split()
LITERALS = {
    "int": ("0", "1", "2", "7", "42", "1_000", "0x1F", "007", "0b10"),
    "str": ("'a'", '"b"', "''", "'x' 'y'", "r'\\d'", "u'q'", "'''t'''"),
    "float": ("1.0", ".5", "2.", "1e3"),
    "bool": ("True", "False"),
    "bytes": ("b'x'", "b'' b'y'", "rb'z'"),
}
ODD = ("...", "1j", "2.5J", "None", "True", "1", "0", "'s'", "()", "[]", "{}", "NotImplemented", "__name__", "Ellipsis")
CODES = "assignment attr-defined call-arg arg-type operator index misc union-attr list-item name-defined".split()


class Module:
    """A module of a workspace: what it declares, and what it may name, each with the text that names it."""

    def __init__(self, path):
        self.path = path
        self.name = path[:-3].removesuffix("/__init__").replace("/", ".")
        self.classes, self.functions, self.variables = [], [], []
        self.imports = []
        self.seen = []  # pairs of a text and a Named
        self.near = []  # texts that name modules
        self.typing = {}  # a name of the module typing, with the text that names it


class Class:
    """A class with its members; it stands beside what is Named."""

    kind, params = "class", ()

    def __init__(self, name, module):
        self.name, self.ty, self.members = name, Ty("class", (), name, module), []


class TypedMaker:
    """Makes files and sessions."""

    def __init__(self, seed):
        self.random = random.Random(f"typed {seed}")
        self.module, self.modules = None, []

    def one(self, rows):
        return self.random.choice(rows)

    def chance(self, share):
        return self.random.random() < share

    def some(self, make, most, least=0):
        return [make() for _ in range(self.random.randint(least, most))]

    def by_share(self, *rows):
        """Calls one of the makers, each with its share, and what it takes."""
        make, *words = self.random.choices([it[1:] for it in rows], [it[0] for it in rows])[0]
        return make(*words)

    # ---- types

    def user_class(self):
        """A class of the workspace, by its name and module."""
        rows = [(cls, module) for module in self.modules for cls in module.classes]
        near = [(cls, module) for cls, module in rows if module is self.module]
        if not rows:
            return INT
        cls, module = self.one(near if near and self.chance(0.7) else rows)
        return Ty("class", (), cls.name, module.name)

    def ty(self, depth=2):
        """Some type."""
        if depth == 0 or self.chance(0.5):
            return self.by_share(
                (6, self.one, PLAIN), (4, self.user_class), (0.7, self.one, EXCEPTIONS), (0.5, lambda: OBJECT)
            )
        return self.by_share(
            (3, lambda: Ty("list", (self.ty(depth - 1),))),
            (2.5, lambda: Ty("dict", (self.one((STR, INT, self.ty(0))), self.ty(depth - 1)))),
            (2, lambda: Ty("tuple", tuple(self.some(lambda: self.ty(depth - 1), 3)))),
            (1, lambda: Ty("many", (self.ty(depth - 1),))),
            (4, lambda: Ty("union", tuple(self.some(lambda: self.ty(depth - 1), 3, 2)))),
            (3, lambda: Ty("union", (self.ty(depth - 1), NONE))),
            (1, lambda: Ty("call", tuple(self.some(lambda: self.ty(depth - 1), 2)) + (self.ty(depth - 1),))),
            (0.6, lambda: Ty("any call", (self.ty(depth - 1),))),
            (1.2, lambda: Ty("type", (self.one((self.user_class(), self.one((INT, STR, OBJECT)))),))),
        )

    def class_text(self, ty):
        """The text that names a class here, or None."""
        if not ty.module:
            return ty.name
        for text, named in self.module.seen:
            if named.kind == "class" and (named.name, named.ty.module) == (ty.name, ty.module):
                return text
        return None

    def spelled(self, ty):
        """A type as an annotation spells it; what cannot be named here is another type."""
        text = self.spelled_plainly(ty)
        form = self.random.random()
        if form < 0.03 and '"' not in text:
            return f'"{text}"'
        return f"({text})" if form < 0.05 else text

    def spelled_plainly(self, ty):
        typing, form = self.module.typing, ty.form
        if form == "any":
            return typing.get("Any", "object")
        if form == "none":
            return "None"
        if form == "class":
            return self.class_text(ty) or "int"
        parts = [self.spelled(it) for it in ty.parts]
        if form in ("list", "dict"):
            name = form
            if form.capitalize() in typing and self.chance(0.3):
                name = typing[form.capitalize()]
            return name if self.chance(0.04) else f"{name}[{', '.join(parts)}]"
        if form in ("tuple", "many"):
            name = typing["Tuple"] if "Tuple" in typing and self.chance(0.3) else "tuple"
            return f"{name}[{parts[0]}, ...]" if form == "many" else f"{name}[{', '.join(parts) or '()'}]"
        if form == "union":
            if parts[-1] == "None" and len(parts) == 2 and "Optional" in typing and self.chance(0.4):
                return f"{typing['Optional']}[{parts[0]}]"
            if "Union" in typing and self.chance(0.3):
                return f"{typing['Union']}[{', '.join(parts)}]"
            return " | ".join(parts)
        if form == "type":
            return f"type[{parts[0]}]"
        if "Callable" not in typing:
            return "object"
        inside = "..." if form == "any call" else f"[{', '.join(parts[:-1])}]"
        return f"{typing['Callable']}[{inside}, {parts[-1]}]"

    def odd_annotation(self):
        """An annotation of a statement at the top level that is none, or hardly one."""
        seen = [text for text, _ in self.module.seen] or ["int"]
        return self.one(("1", "int[str]", "list[int, str]", "dict[int]", "(int, str)", "nope", "f()", "'a b'", "type",
                         "list[()]", "dict[(str, int)]", "Callable", "print", "[int]", "tuple", "int | nope", "typing",
                         self.one(seen), f"{self.one(seen)}.{self.one(MEMBERS)}", "'list[int]'", "not int"))

    # ---- what a workspace declares

    def params(self, count=None):
        """Parameters; of each kind, if no count is given, else such a number of plain ones."""
        names = self.random.sample(PARAMETERS, len(PARAMETERS))
        optional, rows = False, []

        def typed():
            return None if self.chance(0.15) else self.ty(1)

        plain = self.one((0, 1, 1, 2, 2, 3)) if count is None else count
        for _ in range(plain):
            optional = optional or (count is None and self.chance(0.25))
            rows.append(Param("", names.pop(), typed(), optional))
        if count is None:
            if self.chance(0.15):
                rows.append(Param("*", "args", typed(), False))
            if self.chance(0.2):
                rows += [Param("only", names.pop(), typed(), self.chance(0.4)) for _ in range(self.one((1, 1, 2)))]
            if self.chance(0.12):
                rows.append(Param("**", "kw", typed(), False))
        return tuple(rows)

    def member(self, name):
        """A member of a class under this name."""
        if name in SPECIAL:
            return Named(name, "method", self.ty(1), self.params(SPECIAL[name]))
        kind = self.one(KINDS)
        ty = self.one((INT, STR, FLOAT, BOOL, BYTES)) if kind == "literal" else self.ty()
        return Named(name, kind, ty, self.params())

    def declared(self, module):
        """Declares names in a module."""
        module.classes = []
        for name in self.random.sample(CLASSES, self.one((0, 1, 2, 2, 3))):
            cls = Class(name, module.name)
            names = self.random.sample(MEMBERS, self.random.randint(0, 4))
            names += self.random.sample(sorted(SPECIAL), self.one((0, 0, 1, 2, 4)))
            cls.members = names
            module.classes.append(cls)

    def filled(self, module):
        """Gives the classes of a module their members, and the module its functions and variables."""
        self.module = module
        for cls in module.classes:
            cls.members = [self.member(name) for name in cls.members]
            if self.chance(0.5):
                cls.members.append(Named("__init__", "method", NONE, self.params()))
        for name in self.random.sample(FUNCTIONS, self.random.randint(0, 3)):
            kind = self.one(("function",) * 12 + ("async", "wrapped"))
            module.functions.append(Named(name, kind, self.ty(), self.params()))
        for name in self.random.sample(VARIABLES, self.random.randint(2, 8)):
            kind = self.one(("annotated",) * 7 + ("literal", "assigned"))
            ty = self.one((INT, STR, FLOAT, BOOL, BYTES)) if kind == "literal" else self.ty(3)
            module.variables.append(Named(name, kind, ty))

    def imported(self, module):
        """Imports for a module, and what they let it name."""
        own = [*module.classes, *module.functions, *module.variables]
        module.seen = [(it.name, it) for it in own]
        taken = {it.name for it in own}
        for name in TYPING:
            form = self.random.random()
            if form < 0.6:
                text = name if self.chance(0.93) else f"{name}_"
                module.imports.append(f"from typing import {name}" + (f" as {text}" if text != name else ""))
                module.typing[name] = text
            elif form < 0.7:
                module.typing[name] = "typing." + name
        module.imports.append(self.one(("import typing", "import typing as typing", "import abc, typing")))
        if self.chance(0.1):
            module.imports.append("from collections.abc import Callable as Function")
            module.typing["Callable"] = "Function"
        for number, other in enumerate(self.modules):
            if other is module:
                continue
            form = self.random.random()
            if form < 0.45 and other.name.split(".")[0] not in taken:
                module.imports.append(f"import {other.name}")
                module.near += [other.name, other.name.split(".")[0]]
                module.seen += [(f"{other.name}.{it.name}", it) for it in self.names_of(other)]
            elif form < 0.6:
                module.imports.append(f"import {other.name} as m{number}")
                module.near.append(f"m{number}")
                module.seen += [(f"m{number}.{it.name}", it) for it in self.names_of(other)]
            for it in self.names_of(other):
                if self.chance(0.35):
                    text = it.name if it.name not in taken else f"{it.name}2"
                    if text not in taken:
                        taken.add(text)
                        words = it.name if text == it.name else f"{it.name} as {text}"
                        module.imports.append(f"from {other.name} import {words}")
                        module.seen.append((text, it))
        if "/" in module.path and self.chance(0.3):
            module.imports.append(self.one(RELATIVE))
        if self.chance(0.08):
            module.imports.append(self.one(("import missing", "from missing import q", "from typing import cast as c2",
                                            "from typing import reveal_type as show", "import typing as ty")))
        self.random.shuffle(module.imports)

    @staticmethod
    def names_of(module):
        return [*module.classes, *module.functions, *module.variables]

    # ---- definitions as they are written

    def param(self, param):
        text = param.name + (f": {self.spelled(param.ty)}" if param.ty else "")
        if param.kind in ("*", "**"):
            return param.kind + text
        return text + (f" = {self.value(param.ty or ANY, 0)}" if param.default else "")

    def listed(self, params, first=()):
        rows, starred = list(first), False
        for param in params:
            if param.kind == "only" and not starred:
                rows.append("*")
            starred = starred or param.kind in ("*", "only")
            rows.append(self.param(param))
        return ", ".join(rows)

    def result(self, ty):
        return "" if self.chance(0.1) else f" -> {self.spelled(ty)}"

    def method(self, indent, named):
        kind, name = named.kind, named.name
        first = {"static": (), "classmethod": ("cls",)}.get(kind, (self.one(("self", "self", "self", "this")),))
        if name == "__init__" and self.chance(0.05):
            first = ("self: object",)
        params = () if kind in ("property", "settable") else named.params
        head = f"def {name}({self.listed(params, first)}){self.result(named.ty)}:"
        mark = {"property": "@property", "settable": "@property", "static": "@staticmethod",
                "classmethod": "@classmethod", "wrapped": "@wrapped"}.get(kind)
        lines = [mark] if mark else []
        if self.chance(0.04) and kind in ("property", "method"):
            lines.insert(self.random.randint(0, len(lines)), "@abstractmethod")
        body = "pass"
        if named.params and kind in ("method", "classmethod") and self.chance(0.3):
            body = f"{first[0]}.{self.one(MEMBERS)} = {self.one([it.name for it in named.params])}"
        lines += [("async " if kind == "async" else "") + head, f"    {body}"]
        if kind == "settable":
            value = f"def {name}(self, value: {self.spelled(named.ty)}) -> None:"
            lines += [f"@{name}.setter", value, "    pass"]
        return [indent + it for it in lines]

    def class_lines(self, cls):
        """The lines of a class."""
        bases = [self.base(cls) for _ in range(self.one((0, 0, 1, 1, 2)))]
        head = f"class {cls.name}({', '.join(bases)}):" if bases or self.chance(0.1) else f"class {cls.name}:"
        lines, through_self = [head], []
        for it in cls.members:
            if it.kind == "annotated":
                value = f" = {self.value(it.ty, 1)}" if self.chance(0.4) else ""
                lines.append(f"    {it.name}: {self.spelled(it.ty)}{value}")
            elif it.kind == "literal":
                lines.append(f"    {it.name} = {self.one(LITERALS[it.ty.name])}")
            elif it.kind == "assigned":
                lines.append(f"    {it.name} = {self.value(it.ty, 1)}")
            elif it.kind == "nested":
                lines += [f"    class {it.name}:", "        pass"]
            elif it.kind == "imported":
                lines.append(f"    import typing as {it.name}")
            elif it.kind == "self":
                through_self.append(it)
            else:
                lines += self.method("    ", it)
        if through_self:
            lines.append("    def set(self, v: int, w: str = '') -> None:")
            for it in through_self:
                value = self.one(("v", "w", self.one(ODD), self.value(it.ty, 1)))
                lines.append(f"        self.{it.name}" + self.one((f": {self.spelled(it.ty)}", "", "")) + f" = {value}")
        return lines if len(lines) > 1 else [*lines, "    pass"]

    def base(self, cls):
        """A base of a class, mostly one that does not stand on it."""
        form = self.random.random()
        if form < 0.6:
            ty = self.user_class()
            is_before = (ty.name, ty.module) < (cls.name, cls.ty.module)
            return is_before and self.class_text(ty) or "object"
        if form < 0.63:
            return self.class_text(self.user_class()) or "object"
        if form < 0.9:
            return self.one(BASES)
        named = [text for text, _ in self.module.seen]
        return self.one([self.module.typing.get("Any", "object"), "print", "f'x'", "typing.Generic", *named])

    def definition(self, named):
        """The lines of a function or variable."""
        if named.kind in ("function", "async", "wrapped"):
            head = f"def {named.name}({self.listed(named.params)}){self.result(named.ty)}:"
            lines = ["@wrapped"] if named.kind == "wrapped" else []
            return [*lines, ("async " if named.kind == "async" else "") + head, "    pass"]
        if named.kind == "literal":
            return [f"{named.name} = {self.one(LITERALS[named.ty.name])}"]
        if named.kind == "assigned":
            return [f"{named.name} = {self.value(named.ty, 2)}"]
        value = f" = {self.value(named.ty, 2)}" if self.chance(0.7) else ""
        target = f"({named.name})" if self.chance(0.03) else named.name
        return [f"{target}: {self.spelled(named.ty)}{value}"]

    # ---- expressions

    def value(self, ty, depth):
        """An expression, mostly of this type."""
        if depth < 0:
            return self.shortest(ty)
        if self.chance(0.12):
            return self.any_value(depth)
        if depth > 0 and self.chance(0.3):
            return self.by_share(
                (3, self.conditional, ty, depth - 1), (2, self.either, ty, depth - 1),
                (2, self.in_parentheses, ty, depth), (3, self.revealed, ty, depth - 1),
                (1, self.made_by_cast, ty, depth - 1), (3, self.made_by_call, ty, depth)
            )
        if self.chance(0.4):
            rows = [text for text, it in self.module.seen if it.ty == ty and it.kind not in ("class", "function")]
            if rows:
                return self.one(rows)
        return self.fresh(ty, depth)

    def shortest(self, ty):
        """An expression without others in it, of this type if there is one."""
        form = ty.form
        if form == "class":
            if ty.name in LITERALS and not ty.module:
                return self.one(LITERALS[ty.name])
            return f"{self.class_text(ty) or 'object'}()"
        if form == "union":
            return self.shortest(self.one(ty.parts))
        if form == "type":
            return self.class_text(ty.parts[0]) or "int"
        return {"list": "[]", "dict": "{}", "tuple": "()", "many": "()", "none": "None"}.get(form) or self.name()

    def in_parentheses(self, ty, depth):
        text = self.value(ty, depth - 1)
        return f"(\n    {text}\n)" if self.chance(0.1) else f"({text})"

    def fresh(self, ty, depth):
        """An expression for a type, by its form."""
        form, parts = ty.form, ty.parts
        if form == "none":
            return "None"
        if form == "class":
            return self.instance(ty, depth)
        if form == "list":
            rows = self.some(lambda: self.value(parts[0], depth - 1), 3)
            if self.chance(0.06):
                rows.append(f"*{self.any_value(0)}")
            return f"[{', '.join(rows)}]"
        if form == "dict":
            rows = self.some(lambda: f"{self.value(parts[0], depth - 1)}: {self.value(parts[1], depth - 1)}", 2)
            if self.chance(0.06):
                rows.append(f"**{self.any_value(0)}")
            return f"{{{', '.join(rows)}}}"
        if form in ("tuple", "many"):
            kinds = parts if form == "tuple" else parts * self.one((0, 1, 2, 3))
            rows = [self.value(it, depth - 1) for it in kinds]
            if self.chance(0.04):
                rows.insert(0, f"*{self.any_value(0)}")
            return f"({', '.join(rows)}{',' if len(rows) == 1 else ''})"
        if form == "union":
            return self.value(self.one(parts), depth)
        if form == "type":
            return self.class_text(parts[0]) or "int"
        if form in ("call", "any call"):
            rows = [text for text, it in self.module.seen if it.kind in ("function", "class")]
            return self.one([*rows, "print", "len", "lambda: 0", "lambda a: a"])
        return self.any_value(depth)

    def instance(self, ty, depth):
        """An instance of a class."""
        if not ty.module:
            if ty.name in LITERALS:
                form = self.random.random()
                if ty.name == "str" and form < 0.15:
                    return f"f'{{{self.simple_inside()}}}t'"
                if form < 0.6 or depth == 0:
                    return self.one(LITERALS[ty.name])
                return self.by_share(
                    (2, self.operation, depth - 1), (1, self.comparison, depth - 1),
                    (1, self.called_builtin, depth - 1), (1, self.subscript, depth - 1),
                    (1, self.attribute, depth - 1)
                )
            return "object()" if ty.name == "object" else f"{ty.name}({self.one(('', self.any_value(0)))})"
        text = self.class_text(ty)
        if text is None:
            return self.any_value(depth)
        cls = next((it for _, it in self.module.seen if it.kind == "class" and it.ty == ty), None)
        init = next((it for it in cls.members if it.name == "__init__"), None)
        return f"{text}({self.arguments(init.params if init else (), depth - 1)})"

    def simple_inside(self):
        """What a field of an f-string holds."""
        return self.one(("1", "x", "nope", "x.y", "f(1)", "x!r", "x:>3"))

    def arguments(self, params, depth):
        """Arguments, mostly for these parameters."""
        plain, named = [], []
        for it in params:
            ty = it.ty or ANY
            if it.kind == "*":
                plain += self.some(lambda ty=ty: self.value(ty, depth), 2)
            elif it.kind == "**":
                words = self.random.sample(UNDEFINED, self.one((0, 1, 2)))
                named += [f"{name}={self.value(ty, depth)}" for name in words]
            elif it.default and self.chance(0.5) or self.chance(0.05):
                continue
            elif it.kind == "only" or named or self.chance(0.2):
                named.append(f"{it.name}={self.value(ty, depth)}")
            else:
                plain.append(self.value(ty, depth))
        if self.chance(0.06):
            plain.append(self.any_value(depth))
        if self.chance(0.05):
            named.append(f"{self.one(PARAMETERS)}={self.any_value(depth)}")
        if self.chance(0.03):
            plain.append(f"*{self.any_value(0)}")
        if self.chance(0.03):
            named.append(f"**{self.any_value(0)}")
        self.random.shuffle(named)
        named.sort(key=lambda row: row.startswith("**"))
        comma = ",\n    " if self.chance(0.04) else ", "
        return comma.join([*plain, *named])

    def name(self):
        """A name, of the module or a builtin one."""
        form = self.random.random()
        if form < 0.84 and self.module.seen:
            return self.one(self.module.seen)[0]
        if form < 0.86 and self.module.near:
            return self.one(self.module.near)
        if form < 0.96:
            return self.one(BUILTIN_NAMES)
        return self.one(UNDEFINED)

    def class_of(self, ty):
        """The class of the workspace that a type is an instance of, or one of its items is, or None."""
        for it in (ty, *ty.parts) if ty and ty.form == "union" else (ty,):
            for module in self.modules:
                for cls in module.classes:
                    if cls.ty == it:
                        return cls
        return None

    def place(self):
        """A name with attributes after it, now and then."""
        if not self.module.seen or self.chance(0.15):
            text, ty = self.name(), None
        else:
            text, named = self.one(self.module.seen)
            ty = named.ty if named.kind not in ("class", "function") else None
        while self.chance(0.6 if self.class_of(ty) else 0.1):
            cls = self.class_of(ty)
            if cls and cls.members and self.chance(0.9):
                member = self.one(cls.members)
                text, ty = f"{text}.{member.name}", member.ty
            else:
                text, ty = f"{text}.{self.one(MEMBERS)}", None
        return text

    def of_class(self, depth):
        """An expression that has a member of a class, its text and the member; None where there is no class."""
        rows = [(text, it) for text, it in self.module.seen if it.kind == "class" and it.members]
        if not rows:
            return None
        text, cls = self.one(rows)
        member = self.one(cls.members)
        form = self.random.random()
        if form < 0.2:
            return text, member
        ty = cls.ty if form < 0.75 else Ty("union", (cls.ty, self.ty(0)))
        return f"({self.value(ty, depth)})", member

    def any_value(self, depth):
        """Some expression."""
        if depth <= 0 or self.chance(0.1):
            return self.by_share(
                (6, self.name), (2, self.one, ODD), (1, lambda: self.one(LITERALS[self.one(sorted(LITERALS))])),
                (1, self.place)
            )
        depth -= 1
        return self.by_share(
            (2, self.value, self.ty(), depth + 1), (3, self.attribute, depth), (3, self.subscript, depth),
            (4, self.operation, depth), (2, self.comparison, depth), (5, self.call, depth),
            (1.5, self.unary, depth), (1.5, self.conditional, None, depth), (1.5, self.either, None, depth),
            (1, self.denied, depth), (2, self.revealed, None, depth), (0.6, self.made_by_cast, self.ty(1), depth),
            (1, self.display, depth), (0.5, self.comprehension, depth), (0.3, self.function_of, depth),
            (0.6, self.called_builtin, depth), (0.3, self.name)
        )

    def wanted(self, ty, depth):
        return self.any_value(depth) if ty is None else self.value(ty, depth)

    def primary(self, depth):
        """Something that an attribute, a call or a subscript can follow."""
        text = self.any_value(depth) if self.chance(0.5) else self.place()
        is_plain = text.replace(".", "").replace("_", "").isalnum() and not text[0].isdigit()
        return text if is_plain and text not in ("not", "lambda") else f"({text})"

    def attribute(self, depth):
        found = self.of_class(depth) if self.chance(0.5) else None
        if found:
            return f"{found[0]}.{found[1].name}"
        base = self.primary(depth)
        rows = MEMBERS + MEMBERS + BUILTIN_MEMBERS
        return f"{base}.{self.one(rows)}"

    def index(self, depth):
        form = self.random.random()
        if form < 0.35:
            return self.one(("0", "1", "2", "-1", "(0)", "-(1)", "9", "- 2", "00", "0x0", "True"))
        if form < 0.5:
            ends = [self.one(("", self.any_value(0))) for _ in range(self.one((2, 2, 3)))]
            return ":".join(ends)
        if form < 0.6:
            return f"{self.any_value(0)}, {self.any_value(0)}"
        return self.value(self.one((INT, STR, self.ty(1))), depth)

    def subscript(self, depth):
        if self.chance(0.5):
            return f"{self.primary(depth)}[{self.index(depth)}]"
        inside = self.ty(1)
        row = self.one((Ty("list", (inside,)), Ty("dict", (STR, inside)), Ty("tuple", (inside, INT)),
                        Ty("many", (inside,)), STR, BYTES, Ty("union", (Ty("list", (inside,)), STR)),
                        self.user_class()))
        return f"({self.value(row, depth)})[{self.index(depth)}]"

    def operand(self, depth):
        text = self.any_value(depth)
        is_bare = self.chance(0.2) and "\n" not in text and not text.startswith("not ")
        return text if is_bare else f"({text})"

    def operation(self, depth):
        ty = self.one((INT, FLOAT, STR, BYTES, BOOL, self.ty(1), self.ty()))
        rows = [f"({self.value(ty, depth)})" if self.chance(0.6) else self.operand(depth)]
        for _ in range(self.one((1, 1, 1, 2))):
            right = f"({self.value(ty, depth)})" if self.chance(0.5) else self.operand(depth)
            rows += [self.one(OPERATORS + ["+", "|", "%", "*"]), right]
        return " ".join(rows)

    def unary(self, depth):
        return f"{self.one('- + ~'.split())}{self.operand(depth)}"

    def comparison(self, depth):
        rows = [self.operand(depth)]
        for _ in range(self.one((1, 1, 1, 2))):
            word = self.one(ORDERINGS * 3 + ["==", "!=", "is", "is not", "in", "not in"])
            rows += [word, self.operand(depth)]
        return " ".join(rows)

    def denied(self, depth):
        return f"not {self.operand(depth)}"

    def condition(self, depth):
        """A condition, mostly one that says something of a place."""
        form = self.random.random()
        place = self.place()
        if form < 0.2:
            return place
        if form < 0.4:
            return f"{place} {self.one(('is', 'is not', '==', '!='))} None"
        if form < 0.6:
            classes = self.some(lambda: self.class_text(self.user_class()) or "int", 2, 1) + self.some(
                lambda: self.one("int str list dict float bool tuple object bytes Exception Any print".split()), 1)
            self.random.shuffle(classes)
            what = classes[0] if self.chance(0.6) else f"({', '.join(classes)},)"
            return f"isinstance({place}, {what})"
        if form < 0.8 and depth > 0:
            left, right = self.condition(depth - 1), self.condition(depth - 1)
            return self.one((f"({left}) and ({right})", f"({left}) or ({right})", f"not ({left})"))
        if form < 0.86:
            checking = self.module.typing.get("TYPE_CHECKING", "2")
            return self.one(("True", "False", "0", "1", "None", checking, "not True", "None is x", "x is None is None",
                             "isinstance(x, ())", "callable(x)", "'s'", "1.0"))
        return self.any_value(depth - 1)

    def with_place(self, ty, depth, condition):
        """A value, often one that has a place of the condition in it."""
        if self.chance(0.55):
            words = [it for it, _ in self.module.seen if it in condition]
            if words:
                place = self.one(words)
                return self.one((place, f"reveal_type({place})", f"{place}.{self.one(MEMBERS)}", f"{place} + 1"))
        return self.wanted(ty, depth)

    def conditional(self, ty, depth):
        condition = self.condition(2)
        left, right = (self.with_place(ty, depth, condition) for _ in range(2))
        return f"(({left}) if ({condition}) else ({right}))"

    def either(self, ty, depth):
        left = self.condition(1) if self.chance(0.6) else self.wanted(ty, depth)
        right = self.with_place(ty, depth, left)
        return f"(({left}) {self.one(('and', 'or'))} ({right}))"

    def revealed(self, ty, depth):
        name = self.module.typing.get("reveal_type", "reveal_type") if self.chance(0.3) else "reveal_type"
        return f"{name}({self.wanted(ty, depth)})"

    def made_by_cast(self, ty, depth):
        name = self.module.typing.get("cast")
        if name is None:
            return self.wanted(ty, depth)
        text = self.spelled(ty or self.ty())
        return f"{name}({text}, {self.any_value(depth)})" if self.chance(0.95) else f"{name}({text})"

    def display(self, depth):
        rows = self.some(lambda: self.any_value(depth), 3, 1)
        if self.chance(0.15):
            rows[-1] = f"*{self.operand(0)}"
        form = self.random.random()
        if form < 0.4:
            return f"[{', '.join(rows)}]"
        if form < 0.6:
            return f"({', '.join(rows)},)"
        if form < 0.75:
            return f"{{{', '.join(rows)}}}"
        rows = [f"{self.any_value(depth)}: {self.any_value(depth)}" for _ in range(self.one((0, 1, 2)))]
        if self.chance(0.15):
            rows.append(f"**{self.operand(0)}")
        return f"{{{', '.join(rows)}}}"

    def comprehension(self, depth):
        inside = f"for i in {self.operand(depth)}"
        return self.one((f"[i {inside}]", f"{{i {inside}}}", f"{{i: i {inside}}}", f"(i {inside})",
                         f"[nope {inside} if i]"))

    def function_of(self, _):
        return f"(lambda {self.one(('', 'a', 'a, b=1', '*a', '*, a', '**a'))}: {self.one(('0', 'nope', 'a'))})"

    def called_builtin(self, depth):
        name = self.one("len print sorted isinstance repr id callable abs int str list dict tuple float object".split())
        return f"{name}({', '.join(self.some(lambda: self.any_value(depth), 2))})"

    def made_by_call(self, ty, depth):
        """A call of a function that gives this type, if there is one."""
        rows = [(text, it) for text, it in self.module.seen if it.kind == "function" and it.ty == ty]
        if not rows:
            return self.fresh(ty, depth)
        text, it = self.one(rows)
        return f"{text}({self.arguments(it.params, depth - 1)})"

    def call(self, depth):
        functions = [(text, it) for text, it in self.module.seen if it.kind == "function"]
        classes = [(text, it) for text, it in self.module.seen if it.kind == "class"]
        form = self.random.random()
        if functions and form < 0.35:
            text, it = self.one(functions)
            return f"{text}({self.arguments(it.params, depth)})"
        if classes and form < 0.7:
            text, it = self.one(classes)
            if form < 0.45 or not it.members:
                return self.instance(it.ty, depth)
            member = self.one(it.members)
            base = text if self.chance(0.3) else self.value(it.ty, depth - 1)
            params = member.params
            if self.chance(0.7) or member.name not in SPECIAL:
                return f"({base}).{member.name}({self.arguments(params, depth)})"
            return f"({base})({self.arguments(params, depth)})"
        if form < 0.8:
            return f"{self.primary(depth)}.{self.one(BUILTIN_MEMBERS)}({self.arguments(self.params(), depth)})"
        return f"{self.primary(depth)}({self.arguments(self.params(), depth)})"

    # ---- statements

    def target(self, depth=2):
        """A target, with a type that suits it or None."""
        form = self.random.random()
        variables = [(text, it) for text, it in self.module.seen if it.kind not in ("function", "class")]
        if variables and form < 0.5:
            text, it = self.one(variables)
            return self.one((text, text, text, f"({text})")), it.ty
        found = self.of_class(0) if form < 0.63 else None
        if found:
            return f"{found[0]}.{found[1].name}", found[1].ty
        if form < 0.7:
            return f"{self.primary(0)}.{self.one(MEMBERS)}", None
        if form < 0.85:
            return f"{self.primary(0)}[{self.index(0)}]", None
        if depth > 0:
            rows = [self.target(depth - 1) for _ in range(self.one((1, 2, 2, 3)))]
            texts = [it[0] for it in rows]
            if self.chance(0.15):
                starred = self.random.randrange(len(texts))
                if texts[starred][0] not in "([":
                    texts[starred] = "*" + texts[starred]
            types = tuple(it[1] or ANY for it in rows)
            whole = ", ".join(texts)
            rows = [f"({whole},)", f"[{whole}]"]
            if depth == 2:
                rows.append(whole if len(texts) > 1 else f"{whole},")
            return self.one(rows), Ty("tuple", types)
        return self.one(VARIABLES), None

    def statement(self):
        """A statement of the top level, in one logical line."""
        form = self.random.random()
        if form < 0.25:
            return f"reveal_type({self.any_value(3)})"
        if form < 0.4:
            return self.any_value(3)
        if form < 0.72:
            targets = [self.target() for _ in range(self.one((1, 1, 1, 1, 2, 3)))]
            ty = targets[0][1]
            return " = ".join([*(it[0] for it in targets), self.wanted(ty, 3)])
        ty = self.ty(3)
        text = self.spelled(ty)
        if self.chance(0.06):
            text = self.odd_annotation()
        form = self.random.random()
        target = self.one(VARIABLES)
        if form > 0.75:
            target = self.one((f"({target})", f"{self.primary(0)}.{self.one(MEMBERS)}",
                               f"{self.primary(0)}[{self.index(0)}]"))
        return f"{target}: {text}" + (f" = {self.value(ty, 3)}" if self.chance(0.93) else "")

    def ignore(self):
        if self.chance(0.97):
            return ""
        return self.one(("  # type: ignore", f"  # type: ignore[{self.one(CODES)}]"))

    def block(self):
        """A compound statement of the top level, whose insides say little."""
        name, other = self.one(VARIABLES), self.one(VARIABLES)
        literal = f"{name}: {self.one(('int', 'str', 'float', 'bool', 'None'))} = {self.one(ODD)}"
        return self.one(
            (["if x:", f"    {literal}"], [f"for {name} in y:", "    pass"],
             ["try:", f"    {literal}", "except OSError:", f"    {other} = 1"], [f"import typing as {name}"],
             [f"with x as {name}:", f"    {other} = 'a'"], [f"del {name}"], [f"{name} += 1"], ["pass"],
             ["while 0:", f"    {other}: int = 'a'", "else:", f"    {name} = 2"])
        )

    def large(self):
        """A line whose type has about as many nodes as a type may have."""
        left, right = (f"({'0, ' * self.one((497, 498, 499, 500, 501))})" for _ in range(2))
        right = right.replace("0", self.one(("0", "''")))
        form = self.one(("{} + {}", "{} if x else {}", "{}, {}", "[{}, {}]", "{{0: {}, 1: {}}}", "{} or {}",
                         "[{}] + [{}]"))
        return f"reveal_type(({form.format(left, right)}))"

    def source(self, module):
        """The text of a file."""
        self.module = module
        rows = [[it] for it in module.imports]
        parts = [self.class_lines(it) for it in module.classes] + [
            self.definition(it) for it in [*module.functions, *module.variables]
        ]
        parts += [[self.statement() + self.ignore()] for _ in range(self.random.randint(15, 45))]
        if self.chance(0.02):
            parts.append([self.large()])
        if self.chance(0.3):
            parts += [self.block() for _ in range(self.one((1, 2)))]
        if self.chance(0.6):
            # what is declared comes first
            rest = parts[len(module.classes) + len(module.functions) + len(module.variables):]
            self.random.shuffle(rest)
            parts[len(parts) - len(rest):] = rest
        else:
            self.random.shuffle(parts)
        return "".join(f"{line}\n" for rows in [*rows, *parts] for line in rows)

    def files(self):
        """The files of a workspace, each a path with its text."""
        paths = self.random.sample(PATHS, self.one((1, 1, 2, 2, 3)))
        if self.chance(0.03):
            paths.append(self.one(RARE_PATHS))
        self.modules = [Module(path) for path in paths]
        for module in self.modules:
            self.declared(module)
        for module in self.modules:
            self.filled(module)
        for module in self.modules:
            self.imported(module)
        return [(module.path, self.source(module)) for module in self.modules]
