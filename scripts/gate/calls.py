"""What a function calls, by its tokens: an approximation that finds the types of receivers where the text names them.

A type is the set of the names in its text: `&mut Vec<Rc<Row>>` is Vec, Rc and Row. A method of the standard library
leaves the set as it is. Where nothing says the type of a receiver, it is None: a call may mean each method of its name.
"""

import re
from collections import defaultdict

from rattle_code import CLOSE, OPEN, closed, separated

# words of a pattern that bind nothing, and those behind which an expression ends
NO_BINDING = {"mut", "ref", "if", "true", "false", "_", "self", "let", "in", "move"}
PLAIN = {"Some", "Ok", "Err", "Rc", "Box"}


def opened(tokens, at):
    """The place of the bracket that is closed at a place."""
    depth = 0
    for place in range(at, -1, -1):
        depth += tokens[place] in CLOSE
        depth -= tokens[place] in OPEN
        if depth == 0:
            return place
    return 0


def names_in(tokens):
    """The names of types in some tokens."""
    return {it for it in tokens if re.match(r"[A-Z]|str$|u8$|usize$|bool$", it)}


def joined(sets):
    """The union of some types, None where one is not known."""
    found = set()
    for it in sets:
        if it is None:
            return None
        found |= it
    return found


class Program:
    """The declarations of all files, by name."""

    def __init__(self, sources):
        self.sources = {(it.crate, it.file): it for it in sources}
        self.methods, self.free, self.named = defaultdict(list), defaultdict(list), defaultdict(list)
        self.fields, self.traits = {}, {it.trait for s in sources for it in s.functions if it.trait and not it.kind}
        for source in sources:
            for it in source.functions:
                self.add(it)
            for owner, name, tokens, generics in source.fields:
                found = names_in(tokens)
                # (what stands for a parameter of its type is not known)
                known = None if found & set(generics) else found
                self.fields.setdefault((owner, name), set())
                self.fields[owner, name] = joined([self.fields[owner, name], known])

    def add(self, it):
        """Enters a function."""
        if not it.kind and not it.trait:
            self.free[it.name].append(it)
            return
        self.named[it.name].append(it)
        for owner in {it.kind, it.trait} - {""}:
            # (an impl for a parameter is one for any type)
            self.methods["*" if owner in it.bounds else owner, it.name].append(it)

    def methods_of(self, types, name):
        """The methods of a name of some types, or of any type where they are not known."""
        if types is None:
            return self.named.get(name, [])
        return [it for owner in (*sorted(types), "*") for it in self.methods.get((owner, name), [])]


class Calls:
    """The calls of one function."""

    def __init__(self, program, function):
        self.program, self.function, self.tokens = program, function, function.body
        self.source = program.sources[function.crate, function.file]
        self.bound, self.asked = defaultdict(list), {}
        own = {function.kind} if function.kind and function.kind not in function.bounds else {function.trait or "*"}
        self.own = own | set(function.bounds.get(function.kind, ()))
        for part in separated(function.parameters):
            if ":" in part:
                middle = part.index(":")
                self.bind(part[:middle], self.types(part[middle + 1 :]))
        self.read_bindings()

    def types(self, tokens):
        """The type that some tokens name, `Self` and parameters replaced."""
        found = set()
        for it in names_in(tokens):
            found |= self.own if it == "Self" else {it, *self.function.bounds.get(it, ())}
        return found

    def bind(self, pattern, type_of):
        """Takes down what each name of a pattern is bound to: a type, or the place where its expression ends."""
        found = []
        for at, word in enumerate(pattern):
            if re.match(r"[a-z_]\w*$", word) and word not in NO_BINDING and pattern[at + 1 : at + 2] != [":"]:
                found.append(word)
        # (a variant or a struct that the pattern names says what its parts are)
        parts = []
        for at, word in enumerate(pattern):
            if re.match(r"[A-Z]", word) and pattern[at + 1 : at + 2] != ["::"]:
                owners = self.types(pattern[at - 2 : at - 1]) if pattern[at - 1 : at] == ["::"] else {word}
                parts += [self.program.fields[it, word] for it in owners if (it, word) in self.program.fields]
        for it in found:
            self.bound[it].append((type_of, parts))

    def read_bindings(self):
        """Reads each binding of the body: by let, for, match and closures."""
        for at, word in enumerate(self.tokens):
            if word == "let":
                self.read_let(at)
            elif word == "for":
                middle = self.find(at, "in")
                self.bind(self.tokens[at + 1 : middle], self.find(middle, "{") - 1)
            elif word == "match":
                self.read_arms(self.find(at, "{"))
            elif word == "|" and self.tokens[at - 1] in ("(", ",", "move", "="):
                self.read_closure(at)

    def find(self, at, *words):
        """The place of the next of these tokens outside brackets."""
        at += 1
        while at < len(self.tokens) and self.tokens[at] not in words:
            if self.tokens[at] in CLOSE:
                return at
            at = closed(self.tokens, at) if self.tokens[at] in OPEN else at + 1
        return at

    def read_let(self, at):
        """Reads a binding by let."""
        middle = self.find(at, "=", ";")
        pattern = self.tokens[at + 1 : middle]
        if ":" in pattern and "{" not in pattern:
            part = pattern.index(":")
            self.bind(pattern[:part], self.types(pattern[part + 1 :]))
        elif self.tokens[at - 1] in ("if", "while", "&&"):
            self.bind(pattern, self.find(middle, "{", "&&") - 1)
        else:
            self.bind(pattern, self.find(middle, ";", "else") - 1)

    def read_arms(self, at):
        """Reads the patterns of a match whose braces open at a place."""
        end, place = closed(self.tokens, at) - 1, at
        while place < end:
            arrow = self.find(place, "=>")
            if arrow >= end:
                return
            pattern = self.tokens[place + 1 : arrow]
            if "if" in pattern:
                pattern = pattern[: pattern.index("if")]
            self.bind(pattern, at - 1)
            place = closed(self.tokens, arrow + 1) - 1 if self.tokens[arrow + 1] == "{" else self.find(arrow, ",")
            if self.tokens[place + 1 : place + 2] == [","]:
                place += 1

    def read_closure(self, at):
        """Reads the parameters of a closure: without a type they are of the receiver's that it is given to."""
        end = self.tokens.index("|", at + 1)
        place, depth = at - 1, 0
        while place > 0 and not (depth == 0 and self.tokens[place] == "("):
            depth += (self.tokens[place] in CLOSE) - (self.tokens[place] in OPEN)
            place -= 1
        is_method = place > 2 and self.tokens[place - 2] == "."
        for part in separated(self.tokens[at + 1 : end]):
            if ":" in part:
                self.bind(part[: part.index(":")], self.types(part[part.index(":") + 1 :]))
            else:
                self.bind(part, place - 3 if is_method else None)

    def type_of_name(self, name):
        """The type of a local name, or None."""
        if name in self.asked:
            return self.asked[name]
        # (a name bound by way of itself has what its other bindings say)
        self.asked[name] = set()
        found = []
        for given, parts in self.bound[name]:
            known = self.type_at(given) if isinstance(given, int) else given
            found.append(joined(parts) if known is None and parts else joined([known, *parts]))
        self.asked[name] = joined(found)
        return self.asked[name]

    def type_at(self, at):
        """The type of the expression that ends at a place, or None."""
        if at < 0:
            return None
        word, before = self.tokens[at], self.tokens[at - 1] if at else ""
        if word == "?":
            return self.type_at(at - 1)
        if word == ")":
            return self.type_of_call(opened(self.tokens, at), at)
        if word == "]":
            begin = opened(self.tokens, at)
            return self.type_at(begin - 1) if re.match(r"[\w)\]?]", self.tokens[begin - 1]) else None
        if word == "}":
            name = self.tokens[opened(self.tokens, at) - 1]
            return self.types([name]) if re.match(r"[A-Z]", name) else None
        if word[:1] in "\"'" or word[:2] in ("b\"", "b'"):
            return {"str"}
        if before == ".":
            return self.type_of_field(self.type_at(at - 2), word)
        if before == "::":
            return self.types([self.tokens[at - 2]])
        if word == "self":
            return self.own
        if word in self.bound:
            return self.type_of_name(word)
        constant = [it for it in self.program.free.get(word, []) if not it.parameters]
        return joined(self.types(it.result) for it in constant) if constant else None

    def type_of_field(self, types, name):
        """The type of a field, or None."""
        if types is None:
            return None
        if name.isdigit():
            return joined([types, *(self.program.fields.get((it, it), set()) for it in types)])
        found = [self.program.fields[it, name] for it in types if (it, name) in self.program.fields]
        return joined(found) if found else None

    def type_of_call(self, begin, end):
        """The type of a call whose parentheses stand at two places, or of what they hold, or None."""
        name, mark = self.tokens[begin - 1], self.tokens[begin - 2] if begin > 1 else ""
        if not re.match(r"\w", name) or name in ("in", "match", "if", "return"):
            return self.type_at(end - 1)
        if mark == ".":
            types = self.type_at(begin - 3)
            found = self.program.methods_of(types, name)
            return self.results(found, types or set()) if found else types
        arguments = [begin + 1, *self.commas(begin, end)]
        inside = lambda: joined(self.type_at(it - 1) for it in [*arguments[1:], end] if it > begin + 1)
        if mark == "::":
            owner = self.types([self.tokens[begin - 3]])
            found = self.program.methods_of(owner, name) if owner else self.called_free(begin - 1)
            if found:
                return self.results(found, owner)
            return joined([owner, inside()]) if owner & PLAIN else owner or None
        if name in PLAIN:
            return inside()
        if re.match(r"[A-Z]", name):
            return self.types([name])
        found = self.called_free(begin - 1)
        return self.results(found, set()) if found else None

    def commas(self, begin, end):
        """The places of the commas between parentheses."""
        found, at = [], self.find(begin, ",")
        while at < end:
            found.append(at)
            at = self.find(at, ",")
        return found

    def results(self, functions, own):
        """The type of what some functions answer, or None."""
        found = []
        for it in functions:
            types = names_in(it.result)
            if types & set(it.bounds):
                return None
            found.append(types - {"Self"} | (own if "Self" in types else set()))
        return joined(found)

    def called_free(self, at):
        """The functions outside blocks that the name at a place may mean."""
        name = self.tokens[at]
        path = self.source.uses.get(name, [name])
        known = self.program.free.get(path[-1], [])
        if self.tokens[at - 1] == "::":
            path = [self.tokens[at - 2], name]
            path = [*self.source.uses.get(path[0], path[:1]), name]
        elif len(path) == 1:
            return [it for it in known if (it.crate, it.file) == (self.function.crate, self.function.file)]
        crate = self.function.crate if path[0] in ("crate", "self", "super") else path[0]
        return [it for it in known if it.crate == crate] or [it for it in known if path[0] != "std"]

    def read(self):
        """The functions that the body may call."""
        found = []
        for at, word in enumerate(self.tokens):
            if not re.match(r"[A-Za-z_]", word):
                continue
            before = self.tokens[at - 1] if at else ""
            after = self.tokens[at + 1] if at + 1 < len(self.tokens) else ""
            if before == ".":
                if after in ("(", "::"):
                    found += self.program.methods_of(self.type_at(at - 2), word)
            elif before == "::" and re.match(r"[A-Z]", self.tokens[at - 2]):
                found += self.program.methods_of(self.types([self.tokens[at - 2]]), word)
            elif word in self.program.free or word in self.source.uses:
                found += self.called_free(at)
        return found
