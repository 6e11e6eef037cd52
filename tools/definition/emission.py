"""Writes Python: for each definition a function of all its arguments, and one that takes them one by one.

In what follows `known` are the names whose values are computed already: of every other one it is asked first.
"""

import keyword
import re
from dataclasses import dataclass

from . import Refused
from .core import Construct, Equality, Global, Local, Primitive
from .terms import Apply, Binds, If, Lambda, Let, Matches, Member, Number, Record, Splits, Text, Update
from .values import CHEAP

# Constructors that are Python's own values: the test for one, and its value if it takes no arguments.
TESTS = {"zero": "{0} == 0", "suc": "{0} > 0", "true": "{0}", "false": "not {0}", "nil": "not {0}", "cons": "{0}"}
OWN = {"zero": "0", "true": "True", "false": "False", "nil": "()"}
EQUAL = "(lambda one: lambda other: same(one, other))"
CODES = "lib.Chars.codes"


@dataclass(slots=True)
class Place:
    """A place that a run may reach, or that may be changed: a clause, the branch or the test of an `if`, or a number."""

    path: str
    clause: int
    kind: str
    line: int


def label(name):
    """A field's name in Python."""
    return f"_{name}" if name[0].isdigit() else f"{name}_" if keyword.iskeyword(name) else name


class Emitter:
    """Python for definitions. With `marks` a run notes each clause and branch that it reaches in `MARKS`; with `bends` the
    place whose number is `BENT[0]` is changed: a test is turned, and a number one more; with both a run notes these places
    and changes none."""

    def __init__(self, clauses, strictness, native, lines, options):
        self.clauses, self.strictness, self.native, self.lines, self.options = clauses, strictness, native, lines, options
        self.names = {path: f"f{at}_" + re.sub(r"\W", "_", path.rpartition(".")[2], flags=re.A) for at, path in enumerate(clauses)}
        self.constants, self.out, self.places = {}, [], []
        self.path, self.clause, self.is_own = None, 0, False

    def program(self):
        """The whole source."""
        for path in self.clauses:
            self.function(path)
        return "\n".join([f"{name} = {python}" for python, name in self.constants.items()] + self.out) + "\n"

    # ---- places

    def place(self, kind, line):
        self.places.append(Place(self.path, self.clause, kind, line))
        return len(self.places) - 1

    def has_marks(self):
        """Whether clauses and branches are noted."""
        return self.options.marks and not self.options.bends and self.is_own

    def marked(self, python, kind, line):
        return f"(MARKS.add({self.place(kind, line)}) or {python})" if self.has_marks() else python

    def mark(self, kind, line, pad):
        if self.has_marks():
            self.out.append(f"{pad}MARKS.add({self.place(kind, line)})")

    def bent(self, python, operator, kind, line):
        """A test or a number as a place that may be changed."""
        if not (self.options.bends and self.is_own):
            return python
        at = self.place(kind, line or self.lines[self.path][self.clause])
        return f"(MARKS.add({at}) or {python})" if self.options.marks else f"({python} {operator} (BENT[0] == {at}))"

    def number(self, value):
        return self.bent(str(value), "+", f"number {value}", None)

    def test(self, term, known):
        return self.bent(self.strictly(term.test, known), "!=", "test", term.line)

    # ---- terms

    def constant(self, python):
        return self.constants.setdefault(python, f"K{len(self.constants)}")

    def strictly(self, term, known):
        """Python that computes a term."""
        match term:
            case Number(value):
                return self.number(value)
            case Text(value):
                return repr(value)
            case Local(name):
                return name if name in known else f"({name} if {name}.__class__ is not Later else {name}.get())"
            case Member(inner, name, _):
                return f"(t_ if (t_ := {self.strictly(inner, known)}.{label(name)}).__class__ is not Later else t_.get())"
            case Record(fields):
                return f"Record({self.fields(fields, known)})"
            case Update(inner, fields):
                return f"updated({self.strictly(inner, known)}, {self.fields(fields, known)})"
            case If(_, yes, no, line):
                test, line = self.test(term, known), line or self.lines[self.path][self.clause]
                yes = self.marked(self.strictly(yes, known), "then", line)
                return f"({yes} if {test} else {self.marked(self.strictly(no, known), 'else', line)})"
            case Lambda(names, body):
                return "(" + "".join(f"lambda {name}: " for name in names) + self.strictly(body, known - {*names}) + ")"
            case Let(names, _, value, body):
                inside = known | {*names} if names[0] in self.strictness.needed(body) else known
                value = self.strictly(value, known) if inside is not known else self.lazily(value, known)
                return f"(lambda {names[0]}: {self.strictly(body, inside)})({value})"
            case Apply(head, args):
                return self.call(head, args, known)
        return self.alone(term)

    def fields(self, fields, known):
        return ", ".join(f"{label(name)}={self.lazily(it, known)}" for name, it in fields)

    def alone(self, term):
        """A function without all its arguments."""
        match term:
            case Global(definition):
                name = self.names[definition.path]
                return f"k{name}" if self.strictness.arity[definition.path] else f"{name}()"
            case Construct(name, arity):
                if arity == 0:
                    return OWN.get(name) or self.constant(f"({name!r},)")
                return self.constant(self.curried(arity, lambda args: self.construct(name, args)))
            case Primitive(name):
                return self.constant(self.curried(self.native[name].arity, lambda args: self.word(name, [Local(it) for it in args], frozenset())))
            case Equality():
                return self.constant(EQUAL)
        raise Refused(f"no Python for {term}")

    @staticmethod
    def curried(arity, body):
        args = [f"a{at}" for at in range(arity)]
        return "(" + "".join(f"lambda {it}: " for it in args) + body(args) + ")"

    @staticmethod
    def construct(name, args):
        if name == "suc":
            return f"(now({args[0]}) + 1)"
        return f"({args[0]}, {args[1]})" if name == "cons" else f"({', '.join([repr(name), *args])})"

    def word(self, name, args, known):
        """A function that isn't translated, with all its arguments."""
        word = self.native[name]
        if name == CODES and isinstance(args[0], Text):
            return self.constant(f"codes({args[0].value!r})")
        at_once = word.strict + word.late
        return word.form.format(*(self.strictly(it, known) if at in at_once else self.lazily(it, known) for at, it in enumerate(args)))

    def call(self, head, args, known):
        match head:
            case Primitive(name) if len(args) >= (arity := self.native[name].arity):
                return self.applied(self.word(name, args[:arity], known), args[arity:], known)
            case Global(definition) if 0 < (arity := self.strictness.arity[definition.path]) <= len(args):
                strict = self.strictness.strict[definition.path]
                given = [self.strictly(it, known) if at in strict else self.lazily(it, known) for at, it in enumerate(args[:arity])]
                return self.applied(f"{self.names[definition.path]}({', '.join(given)})", args[arity:], known)
            case Construct(name, arity) if len(args) == arity:
                if name == "suc":
                    return f"({self.strictly(args[0], known)} + 1)"
                return self.construct(name, [self.lazily(it, known) for it in args])
            case Equality() if len(args) == 2:
                return f"same({self.strictly(args[0], known)}, {self.strictly(args[1], known)})"
        return self.applied(self.strictly(head, known), args, known)

    def applied(self, python, args, known):
        return python + "".join(f"({self.lazily(it, known)})" for it in args)

    def lazily(self, term, known):
        """Python for a lazy term, or for its value if that is as cheap."""
        match term:
            case Local(name):
                return name
            case Member(Local(name), field, _) if name in known:
                return f"{name}.{label(field)}"
            case _ if self.is_at_hand(term, known):
                return self.strictly(term, known)
        return f"Later(lambda: {self.strictly(term, known)})"

    def is_at_hand(self, term, known):
        """Whether a term may be computed at once."""
        match term:
            case Number() | Text() | Lambda() | Record() | Primitive() | Construct() | Equality():
                return True
            case Global(definition):
                return self.strictness.arity[definition.path] > 0
            case Apply(Construct(name, arity), args):
                return len(args) <= arity and name != "suc"
            case Apply(Global(definition), args):
                return len(args) < self.strictness.arity[definition.path]
            case Apply(Primitive(name), args):
                is_text = name == CODES and isinstance(args[0], Text)
                return is_text or name in CHEAP and len(args) == self.native[name].arity and all(self.is_cheap(it, known) for it in args)
        return False

    def is_cheap(self, term, known):
        return isinstance(term, Number) or isinstance(term, Local) and term.name in known or isinstance(term, Apply) and isinstance(term.head, Primitive) and self.is_at_hand(term, known)

    # ---- functions

    def function(self, path):
        clauses, name, arity = self.clauses[path], self.names[path], self.strictness.arity[path]
        self.path, self.clause, self.is_own = path, 0, self.options.is_own(path)
        args = [f"a{at}" for at in range(arity)]
        self.out.append(f"def {name}{'' if arity else '_now'}({', '.join(args)}):")
        strict = self.strictness.strict[path]
        known = {args[at] for at in strict}
        for self.clause, clause in enumerate(clauses):
            if self.match(list(zip(args, clause.patterns)), clause, known, {}, 1, known):
                break
        else:
            self.out.append(f"    raise NoClause({path!r})")
        if not arity:
            self.out.append(f"{name}_value = Later({name}_now)\ndef {name}(): return {name}_value.get()")
        if path in self.options.shared:
            self.out.append(f"{name} = shared({name})")
        if self.options.is_traced(path):
            self.out.append(f"{name} = traced({path!r}, {name})")
        if arity:
            given = ", ".join(f"now({it})" if at in strict else it for at, it in enumerate(args))
            self.out.append(f"k{name} = {self.curried(arity, lambda _: f'{name}({given})')}")

    def match(self, left, clause, known, env, depth, outer):
        """Writes nested tests of the remaining patterns, and then the body; returns whether they always succeed."""
        pad = "    " * depth
        while left and isinstance(left[0][1], Binds):
            python, pattern = left.pop(0)
            env = env if pattern.name == "_" else {**env, pattern.name: python}
        if not left:
            self.mark("clause", clause.line, pad)
            self.out += [f"{pad}{name} = {python}" for name, python in env.items()]
            self.body(clause.body, frozenset(name for name, python in env.items() if python in known), depth)
            return True
        python, pattern = left.pop(0)
        if python not in known:
            self.out.append(f"{pad}if {python}.__class__ is Later: {python} = {python}.get()")
            known = known | {python}
            if depth == 1:
                outer.add(python)
        if isinstance(pattern, Splits):
            parts = [(f"{python}_{at}", it) for at, it in enumerate(pattern.patterns)]
            self.out += [f"{pad}{part} = {python}._{at}" for at, (part, _) in enumerate(parts)]
            return self.match(parts + left, clause, known, env, depth, outer)
        self.out.append(f"{pad}if {TESTS.get(pattern.name, '{0}[0] == ' + repr(pattern.name)).format(python)}:")
        parts, known = self.parts(python, pattern, known, depth + 1)
        self.match(parts + left, clause, known, env, depth + 1, outer)
        return False

    def parts(self, python, pattern, known, depth):
        """Takes a constructor apart."""
        pad = "    " * depth
        if pattern.name == "suc":
            self.out.append(f"{pad}{python}_p = {python} - 1")
            return [(f"{python}_p", pattern.patterns[0])], known | {f"{python}_p"}
        first = 0 if pattern.name == "cons" else 1
        wanted = [(at, it) for at, it in enumerate(pattern.patterns) if it != Binds("_")]
        self.out += [f"{pad}{python}_{at} = {python}[{at + first}]" for at, _ in wanted]
        parts = [(f"{python}_{at}", it) for at, it in wanted]
        return parts, known - {part for part, _ in parts}

    def body(self, term, known, depth):
        """Writes the statements of a clause's body."""
        pad = "    " * depth
        while isinstance(term, Let):
            name, needed = term.names[0], term.names[0] in self.strictness.needed(term.body)
            self.out.append(f"{pad}{name} = {self.strictly(term.value, known) if needed else self.lazily(term.value, known)}")
            known, term = known | {name} if needed else known, term.body
        if isinstance(term, If):
            line = term.line or self.lines[self.path][self.clause]
            self.out.append(f"{pad}if {self.test(term, known)}:")
            self.mark("then", line, pad + "    ")
            self.body(term.yes, known, depth + 1)
            self.mark("else", line, pad)
            self.body(term.no, known, depth)
            return
        self.out.append(f"{pad}return {self.strictly(term, known)}")
