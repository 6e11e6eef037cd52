"""Evaluates a term, read with the names that a module of specs/ has, and those of the kit's prelude."""

from . import Refused
from .lexer import tokens
from .library import Library
from .modules import Definition, Use
from .program import Program
from .tracing import shown

PRELUDE = "Rattle.std.specs.Prelude"


def evaluate(top, name, term, plain=False):
    """The value of a term, as a text."""
    library = Library(top, plain=plain)
    crate, _, inner = name.partition(".")
    here = library.module(f"Rattle.{crate}.specs.{inner}")
    if here is None:
        raise Refused(f"there is no module {name}")
    names = [short for use in library.module(PRELUDE).uses for _, short in use.leaves or ()]
    here.uses.append(Use(PRELUDE, [(it, it) for it in names], None))
    it = Definition(here, "it", 1, [], [])
    it.clauses.append(tokens(f"it = {term}", "the term"))
    program = Program(library, {"it": it})
    return shown(program.it, "", True)
