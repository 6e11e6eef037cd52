"""Definitions with every name resolved: terms have the meanings of names instead of the names."""

from dataclasses import dataclass

from . import Refused
from .library import Constructs, Defined, IsEquality, IsModule, IsNative, IsType
from .modules import Definition
from .terms import Apply, Binds, If, Lambda, Let, Matches, Member, Name, Number, Parser, Record, Splits, Text, Update

COND = "mathlib.Core.Bool.cond"


@dataclass(slots=True)
class Local:
    """An argument of a clause or of a lambda, or what a `let` binds; its name is unique in its definition."""

    name: str


@dataclass(slots=True)
class Global:
    definition: Definition


@dataclass(slots=True)
class Construct:
    name: str
    arity: int


@dataclass(slots=True)
class Primitive:
    name: str


@dataclass(slots=True)
class Equality:
    kind: str


@dataclass(slots=True)
class Clause:
    patterns: list
    body: object
    line: int


class Resolver:
    """Resolves the names of one definition; `reach` is called with each definition that it names."""

    def __init__(self, library, definition, reach):
        self.library, self.definition, self.reach = library, definition, reach
        self.here, self.count, self.section = definition.module, 0, {}

    def refuse(self, why, line):
        raise Refused(f"{self.definition.name}: {why}", self.here.file, line)

    def clauses(self):
        if not self.definition.clauses:
            self.refuse("it has no clauses", self.definition.line)
        found = [self.clause(item) for item in self.definition.clauses]
        if len({len(clause.patterns) for clause in found}) > 1:
            self.refuse("its clauses take different numbers of arguments", self.definition.line)
        return found

    def clause(self, item):
        line = item[0].line
        patterns, body = Parser(self.library, self.here, item, line).clause(self.definition.name)
        bound = {}
        section = [self.pattern(Binds(name), bound) for name in self.definition.section]
        self.section = dict(bound)
        patterns = section + [self.pattern(pattern, bound) for pattern in patterns]
        return Clause(patterns, self.term(body, bound), line)

    def fresh(self, name):
        self.count += 1
        return f"v{self.count}_{name}" if name.isascii() and name.isidentifier() else f"v{self.count}"

    # ---- patterns

    def pattern(self, pattern, bound):
        """Resolves a pattern, and adds its names to the bound ones."""
        if isinstance(pattern, Binds):
            if pattern.name == "_":
                return pattern
            bound[pattern.name] = self.fresh(pattern.name)
            return Binds(bound[pattern.name])
        inner = [self.pattern(it, bound) for it in pattern.patterns]
        return Splits(inner) if isinstance(pattern, Splits) else Matches(pattern.name, inner)

    # ---- terms

    def term(self, term, bound):
        match term:
            case Number() | Text():
                return term
            case Name(name, line):
                return self.name(name, line, bound)
            case Apply(head, args):
                return self.applied(self.term(head, bound), [self.term(it, bound) for it in args])
            case If(test, yes, no, line):
                return If(self.term(test, bound), self.term(yes, bound), self.term(no, bound), line)
            case Member(inner, label, line):
                return self.path(term, bound) or Member(self.term(inner, bound), label, line)
            case Record(fields):
                return Record(self.fields(fields, bound))
            case Update(inner, fields):
                return Update(self.term(inner, bound), self.fields(fields, bound))
            case Lambda(names, body):
                inner = {**bound, **{name: self.fresh(name) for name in names}}
                return Lambda([inner[name] for name in names], self.term(body, inner))
            case Let():
                return self.let(term, bound)

    def fields(self, fields, bound):
        return [(label, self.term(it, bound)) for label, it in fields]

    def applied(self, head, args):
        if isinstance(head, Apply):
            head, args = head.head, head.args + args
        if isinstance(head, Primitive) and head.name == COND and len(args) == 3:
            return If(*args, None)
        return Apply(head, args)

    def let(self, term, bound):
        value = self.term(term.value, bound)
        new = [self.fresh(name) for name in term.names]
        body = self.term(term.body, {**bound, **dict(zip(term.names, new))})
        if not term.is_tuple:
            return Let(new, False, value, body)
        whole = self.fresh("parts")
        for at, name in reversed(list(enumerate(new))):
            body = Let([name], False, Member(Local(whole), str(at), None), body)
        return Let([whole], False, value, body)

    def path(self, term, bound):
        """The meaning of a path such as `ended.Script`, with the fields after it; None if it is a field of a term."""
        labels = []
        while isinstance(term, Member):
            labels, line, term = [term.label, *labels], term.line, term.term
        if not isinstance(term, Name) or term.name in bound:
            return None
        head = self.library.meaning(self.here, term.name)
        if isinstance(head, IsEquality) and labels == ["ghosts", "eq"]:
            return Equality(head.kind)
        if head is not None and not isinstance(head, (IsModule, IsType)):
            return None
        path = [term.name, *labels]
        for end in range(len(path), 1, -1):
            found = self.library.meaning_of_path(self.here, path[:end])
            if found is not None and not isinstance(found, (IsModule, IsType)):
                out = self.meant(found, ".".join(path[:end]), line)
                for label in path[end:]:
                    out = Member(out, label, line)
                return out
        self.refuse(f"there is no `{'.'.join(path)}`", line)

    def name(self, name, line, bound):
        if name in bound:
            return Local(bound[name])
        return self.meant(self.library.meaning(self.here, name), name, line)

    def meant(self, meaning, name, line):
        match meaning:
            case Defined(definition):
                self.reach(definition)
                own = definition.module is self.here and definition.section
                if own and self.definition.section[:len(own)] == own:
                    return Apply(Global(definition), [Local(self.section[it]) for it in own])
                return Global(definition)
            case Constructs(constructor, arity):
                return Construct(constructor, arity)
            case IsNative(native):
                return Primitive(native)
        kind = {IsModule: "a module", IsType: "a type"}.get(type(meaning), "no name that is known")
        self.refuse(f"`{name}` is {kind} here", line)
