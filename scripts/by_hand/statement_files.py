"""Makes small workspaces at random, of files whose functions, methods, classes and blocks hold many statements.

The files are those of typed_files.py, but the body of a function or method has statements over its parameters, its
locals and the attributes of its instance: assignments of every form, conditions that say something of places, loops
with `break` and `continue`, `try` with handlers, `with`, `return`, `raise`, `assert`, `del`, imports, nested functions
and classes. Defaults are expressions, now and then wrong ones. So do the bodies of classes, and the blocks of the top
level. Some functions have no annotation, some suspend, some end without a `return`.

Used by compare_sessions.py, which says how sessions of these files are compared.
"""

import re

from typed_files import ANY, EXCEPTIONS, MEMBERS, NONE, VARIABLES, Named, Ty, TypedMaker

LOCALS = "p q r l1 l2 l3 e v w x".split()
IN_PLACE = "+= += += -= *= /= //= %= **= @= |= &= ^= <<= >>=".split()
MODULES = "typing abc collections missing missing.part collections.abc p p.m p.q a b c d.e".split()
STUBS = (["pass"], ["..."], ['"""doc"""'], ['"doc"', "..."], ["pass", "..."], ['("doc")'], ["(...)", "pass"], ["...", '"late"'])


class StatementMaker(TypedMaker):
    """Makes files and sessions."""

    def __init__(self, seed):
        super().__init__(f"statements {seed}")
        self.locals, self.loops, self.gives, self.own = [], 0, None, None

    # ---- what a body may name

    def local(self):
        """A local of the function, with its type or None."""
        if self.locals and self.chance(0.7):
            named = self.one(self.locals)
            return named.name, named.ty
        return self.one(LOCALS), None

    def place(self):
        """A name with attributes after it, mostly one of the function's."""
        if not self.locals or self.chance(0.3):
            return super().place()
        text, ty = self.local()
        while self.chance(0.5 if self.class_of(ty) else 0.08):
            cls = self.class_of(ty)
            if cls and cls.members and self.chance(0.9):
                member = self.one(cls.members)
                text, ty = f"{text}.{member.name}", member.ty
            else:
                text, ty = f"{text}.{self.one(MEMBERS)}", None
        return text

    def name(self):
        if self.locals and self.chance(0.45):
            return self.local()[0]
        return super().name()

    # ---- functions

    def inside(self, params, result, first=(), own=None):
        """The lines of a function's body, without an indent."""
        seen, kept = self.module.seen, (self.locals, self.loops, self.gives, self.own)
        self.locals, self.loops, self.gives, self.own = [], 0, result, own
        if first:
            word = first[0].split(":")[0]
            self.locals += [Named(word, "local", own or ANY)] * 2
        for it in params:
            kind = {"*": Ty("many", (it.ty or ANY,)), "**": Ty("dict", (Ty("class", (), "str"), it.ty or ANY))}
            self.locals += [Named(it.name, "local", kind.get(it.kind, it.ty or ANY))] * 2
        taken = {it.name for it in self.locals}
        self.module.seen = [row for row in seen if row[0] not in taken] + [(it.name, it) for it in self.locals]
        lines = [] if self.chance(0.9) else ['"doc"']
        lines += self.statements(3, self.random.randint(2, 9))
        if self.chance(0.06):
            lines.insert(self.one((0, len(lines))), f"global {self.one(LOCALS)}, {self.one(VARIABLES)}")
        if self.chance(0.03):
            lines.append(self.one(("yield 1", "x = await q", "yield", "return [(await q) for e in v]")))
        if result not in (None, NONE) and self.chance(0.65):
            lines.append(f"return {self.value(result, 2)}")
        self.module.seen, (self.locals, self.loops, self.gives, self.own) = seen, kept
        return lines

    def function_body(self, params, result, first=(), own=None):
        if self.chance(0.12):
            return list(self.one(STUBS))
        return self.inside(params, result, first, own)

    def param(self, param):
        text = super().param(param)
        if param.default and self.chance(0.15):
            return text.split(" = ")[0] + " = " + self.one(("...", "None", self.any_value(1), self.any_value(2)))
        return text

    def method(self, indent, named):
        lines = super().method("", named)
        out = []
        for number, line in enumerate(lines):
            if line.startswith("    ") and number and lines[number - 1].endswith(":"):
                head = lines[number - 1]
                words = head[head.index("(") + 1:]
                is_setter = "value: " in words and named.kind == "settable" and number == len(lines) - 1
                first = () if named.kind == "static" else (words.split(",")[0].split(")")[0].split(":")[0],)
                own = None if named.kind in ("static", "classmethod") else self.own
                result = NONE if is_setter else named.ty if "->" in head else None
                params = () if named.kind in ("property", "settable") else named.params
                rest = [] if line.strip() == "pass" else [line.strip()]
                out += ["    " + it for it in rest + self.function_body(params, result, first, own)]
            else:
                out.append(line)
        return [indent + it for it in out]

    def class_lines(self, cls):
        kept, self.own = self.own, cls.ty
        lines = super().class_lines(cls)
        for _ in range(self.one((0, 0, 1, 2))):
            lines += ["    " + it for it in self.class_statement(cls)]
        self.own = kept
        return lines

    def class_statement(self, cls):
        """The lines of a statement in the body of a class."""
        names = [it.name for it in cls.members] or MEMBERS
        name, other = self.one(names), self.one(MEMBERS)
        return self.one((
            [f"{name} = {self.any_value(2)}"], [f"{other} = {self.one((name, f'{name} + 1'))}"],
            [f"reveal_type({name})"], [f"{other}: {self.spelled(self.ty(2))} = {self.any_value(1)}"],
            [f"if {self.condition(2)}:", f"    {other}: {self.spelled(self.ty(1))}", "else:", f"    reveal_type({name})"],
            [f"{name} += {self.any_value(1)}"], [f"del {other}"], [self.an_import()], [f"{other}, {name} = {self.any_value(2)}"],
            [f"for {other} in {self.any_value(1)}:", f"    reveal_type({other})"], [f"reveal_type({cls.name})"],
            ["yield 1"] if self.chance(0.1) else ["pass"], [f"def {other}(a: int = {name}): reveal_type(a)"],
            [f"with {self.any_value(1)} as {other}:", f"    reveal_type({other})"], ["return 1"], ["break"],
        ))

    def definition(self, named):
        lines = super().definition(named)
        if named.kind not in ("function", "async", "wrapped"):
            return lines
        if self.chance(0.06):
            # no annotation
            lines[-2] = f"def {named.name}({', '.join(it.name for it in named.params if not it.kind)}):"
        result = named.ty if "->" in lines[-2] else None
        return [*lines[:-1], *("    " + it for it in self.function_body(named.params, result))]

    # ---- statements

    def statements(self, depth, count):
        lines = []
        for _ in range(count):
            lines += self.some_statement(depth)
        return lines

    def suite(self, head, depth, most=3):
        return [head, *("    " + it for it in self.statements(depth - 1, self.random.randint(1, most)))]

    def some_statement(self, depth):
        """The lines of a statement in a function."""
        if depth > 0 and self.chance(0.34):
            return self.by_share((5, self.tested, depth), (2, self.repeated, depth), (2, self.iterated, depth),
                                 (2.5, self.tried, depth), (1, self.entered, depth), (0.5, self.nested, depth))
        return [self.simple()]

    def simple(self):
        """A statement in one line."""
        if self.loops and self.chance(0.12):
            return self.one(("break", "continue"))
        return self.by_share(
            (9, self.shown), (9, self.assigned), (3, self.annotated), (2, self.augmented), (1, self.deleted),
            (1.2, self.returned), (0.5, self.raised), (1.2, self.asserted), (1, self.an_import), (0.3, lambda: "pass"),
            (0.1, lambda: self.one(("break", "continue"))), (2, self.any_value, 2), (0.1, lambda: f"nonlocal {self.one(LOCALS)}")
        )

    def shown(self):
        return f"reveal_type({self.place() if self.chance(0.75) else self.any_value(2)})"

    def goal(self, depth=1):
        """A target, with its type or None."""
        if self.chance(0.6):
            name, ty = self.local()
            return name, ty
        if self.chance(0.5):
            text = self.place()
            return text, None
        if depth and self.chance(0.35):
            rows = [self.goal(depth - 1) for _ in range(self.one((1, 2, 2, 3)))]
            texts = [it[0] for it in rows]
            if self.chance(0.2):
                texts[0] = "*" + texts[0] if texts[0][0] not in "([" else texts[0]
            return self.one((f"({', '.join(texts)},)", f"[{', '.join(texts)}]")), Ty("tuple", tuple(it[1] or ANY for it in rows))
        return self.target(1)

    def assigned(self):
        targets = [self.goal() for _ in range(self.one((1, 1, 1, 1, 2)))]
        words = [set(re.findall(r"\w+", it[0])) for it in targets]
        if len(targets) > 1 and words[0] & words[1]:
            # which of two targets of one name declares it is no matter of a comparison
            targets = targets[:1]
        text = self.wanted(targets[0][1] if self.chance(0.8) else None, 2)
        if self.chance(0.12):
            text = "None"
        return " = ".join([*(it[0] for it in targets), text])

    def annotated(self):
        ty = self.ty(2)
        if self.chance(0.4):
            ty = Ty("union", (ty, NONE))
        name = self.one(LOCALS) if self.chance(0.8) else self.place()
        text = self.spelled(ty) if self.chance(0.95) else self.odd_annotation()
        if name.isidentifier():
            self.locals.append(Named(name, "local", ty))
        return f"{name}: {text}" + (f" = {self.value(ty, 2)}" if self.chance(0.8) else "")

    def augmented(self):
        text, ty = self.goal(0)
        while text[0] in "([":
            text, ty = self.goal(0)
        return f"{text} {self.one(IN_PLACE)} {self.wanted(ty if self.chance(0.7) else None, 1)}"

    def deleted(self):
        return f"del {self.goal()[0]}".replace("*", "")

    def returned(self):
        if self.chance(0.2):
            return "return"
        if self.gives and self.chance(0.75):
            return f"return {self.value(self.gives, 2)}"
        return f"return {self.any_value(1)}"

    def raised(self):
        cause = f" from {self.any_value(1)}" if self.chance(0.3) else ""
        return self.one(("raise", f"raise {self.any_value(1)}{cause}", f"raise ValueError({self.any_value(0)}){cause}"))

    def asserted(self):
        return f"assert {self.condition(2)}" + (f", {self.shown()}" if self.chance(0.3) else "")

    def an_import(self):
        name = self.one(MODULES)
        alias = f" as {self.one(LOCALS)}" if self.chance(0.5) else ""
        what = self.one(("A", "B", "f", "x", "nope", "m", "Any", "q"))
        return self.one((f"import {name}{alias}", f"from {name} import {what}{alias}", f"from . import {what}{alias}",
                         f"from .m import {what}{alias}", f"import {name}, {self.one(MODULES)}{alias}"))

    def tested(self, depth):
        lines = self.suite(f"if {self.condition(2)}:", depth)
        while self.chance(0.25):
            lines += self.suite(f"elif {self.condition(2)}:", depth)
        if self.chance(0.5):
            lines += self.suite("else:", depth)
        return lines

    def looped(self, head, depth):
        self.loops += 1
        lines = self.suite(head, depth)
        self.loops -= 1
        if self.chance(0.35):
            lines += self.suite("else:", depth)
        return lines

    def repeated(self, depth):
        return self.looped(f"while {self.condition(2)}:", depth)

    def iterated(self, depth):
        target, ty = self.goal()
        if self.chance(0.5):
            target, ty = self.one(LOCALS), None
        inside = ty or self.ty(1)
        whole = self.one((Ty("list", (inside,)), Ty("many", (inside,)), Ty("dict", (inside, ANY)), Ty("tuple", (inside, inside))))
        text = self.value(whole, 1) if self.chance(0.7) else self.any_value(1)
        return self.looped(f"{self.one(('', '', '', '', 'async '))}for {target} in {text}:", depth)

    def tried(self, depth):
        lines = self.suite("try:", depth)
        handlers = self.one((0, 1, 1, 1, 2))
        for number in range(handlers):
            name = f" as {self.one(LOCALS)}" if self.chance(0.7) else ""
            classes = [self.one(EXCEPTIONS).name for _ in range(2)]
            what = self.one((classes[0], classes[0], f"({', '.join(classes)})", f"({classes[0]},)", self.any_value(1), "()",
                             f"({classes[0]}, {self.any_value(0)})", "OSError"))
            is_bare = number == handlers - 1 and self.chance(0.15)
            lines += self.suite("except:" if is_bare else f"except {what}{name}:", depth, 2)
        if handlers and self.chance(0.35):
            lines += self.suite("else:", depth, 2)
        if not handlers or self.chance(0.4):
            lines += self.suite("finally:", depth, 2)
        return lines

    def entered(self, depth):
        items = []
        for _ in range(self.one((1, 1, 2))):
            items.append(f"({self.any_value(1)})" + (f" as {self.goal(0)[0]}" if self.chance(0.7) else ""))
        return self.suite(f"{self.one(('', '', '', 'async '))}with {', '.join(items)}:", depth)

    def nested(self, depth):
        name = self.one(LOCALS)
        return self.one(([f"def {name}(a: int = {self.any_value(0)}) -> str:", "    return a"],
                         [f"class {name}(nope):", "    reveal_type(1)"], [f"class {name}: pass"],
                         [f"async def {name}(): yield 1"], [f"@wrapped", f"def {name}(): return nope"]))

    def block(self):
        """A compound statement of the top level."""
        return self.some_statement(2) if self.chance(0.8) else super().block()

    def source(self, module):
        text = super().source(module)
        self.module = module
        lines = [line for _ in range(self.one((0, 1, 2, 3))) for line in self.some_statement(3)]
        return text + "".join(f"{line}\n" for line in lines)

    def options(self):
        """Options of a session."""
        return [it for it, share in (("--ignore-missing-imports", 0.2), ("--check-untyped-defs", 0.3)) if self.chance(share)]


