"""The definitions that some roots use, as Python functions."""

import pathlib
import sys
from dataclasses import dataclass, field

from . import Refused, values
from .core import Resolver
from .emission import Emitter
from .strictness import Strictness
from .tracing import Tracer

SHARED = pathlib.Path(__file__).with_name("shared.txt")


def shared_definitions():
    """The definitions that shared.txt names, by path."""
    rows = [line.partition("#")[0].split() for line in SHARED.read_text(encoding="utf-8").splitlines()]
    return {f"Rattle.{crate}.specs.{rest}" for row in rows if row for crate, _, rest in [row[0].partition(".")]}


@dataclass
class Options:
    """Options of a program: whether it notes the places it reaches, can be changed at places, prints calls."""

    marks: bool = False
    bends: bool = False
    trace: tuple = ()
    tracer: object = None
    own: frozenset = frozenset()
    shared: frozenset = field(default_factory=shared_definitions)

    def is_own(self, path):
        """Whether a definition is the project's own."""
        return path.split(".")[1] in self.own

    @staticmethod
    def is_named(path, name):
        return short_name(path).endswith(f".{name}")

    def is_traced(self, path):
        return any(self.is_named(path, name) for name in self.trace) or "*" in self.trace and self.is_own(path)


def short_name(path):
    """A definition as it is named to a reader: `.sg_maxmin.Fill.fill`."""
    return "." + path.removeprefix("Rattle.").replace(".specs.", ".", 1)


class Program:
    """Python of all definitions that the roots use, by the names of the roots."""

    def __init__(self, library, roots, **options):
        self.library, self.definitions, self.clauses = library, {}, {}
        own = frozenset(it.name for it in library.crates.iterdir()) if library.crates.is_dir() else frozenset()
        self.options = Options(own=own, **options)
        self.refused = []
        self.resolve(roots.values())
        if self.refused:
            raise self.refused[0]
        self.strictness = Strictness(self.clauses, library.native)
        lines = {path: [clause.line for clause in found] for path, found in self.clauses.items()}
        emitter = Emitter(self.clauses, self.strictness, library.native, lines, self.options)
        self.source, self.places, self.names = emitter.program(), emitter.places, emitter.names
        self.marks, self.bent = set(), [-1]
        self.tracer = self.options.tracer or Tracer(self)
        self.space = {**vars(values), "MARKS": self.marks, "BENT": self.bent, "traced": self.tracer.traced}
        self.roots = {name: definition.path for name, definition in roots.items()}
        sys.setrecursionlimit(10**9)
        exec(compile(self.source, "definition", "exec"), self.space)

    def resolve(self, roots):
        waiting = list(roots)
        self.definitions = {it.path: it for it in waiting}

        def reach(definition):
            if definition.path not in self.definitions:
                self.definitions[definition.path] = definition
                waiting.append(definition)

        while waiting:
            definition = waiting.pop()
            try:
                self.clauses[definition.path] = Resolver(self.library, definition, reach).clauses()
            except Refused as why:
                self.refused.append(why)

    def function(self, path):
        """The function of a definition, which takes its arguments one by one; its value if it takes none."""
        name = self.names[path]
        return self.space[f"k{name}"] if self.strictness.arity[path] else self.space[name]()

    def __getattr__(self, name):
        if name == "roots" or name not in self.roots:
            raise AttributeError(name)
        return self.function(self.roots[name])
