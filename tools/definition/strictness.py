"""Finds the arguments that a function surely computes: these are computed before the call, all others on demand."""

from .core import Construct, Global, Local, Primitive
from .terms import Apply, Binds, If, Let, Member, Update


class Strictness:
    """For each definition, by its path, the places of its arguments that are surely computed."""

    def __init__(self, clauses, native):
        self.native = native
        self.arity = {path: len(found[0].patterns) for path, found in clauses.items()}
        # from all of them down to those that remain
        self.strict = {path: frozenset(range(count)) for path, count in self.arity.items()}
        changed = True
        while changed:
            changed = False
            for path, found in clauses.items():
                now = self.strict[path] & self.of_clauses(found)
                changed = changed or now != self.strict[path]
                self.strict[path] = now

    def of_clauses(self, clauses):
        """The arguments that each clause computes; the first one that is matched is, whichever clause fits."""
        first = next((at for at, it in enumerate(clauses[0].patterns) if not isinstance(it, Binds)), None)
        found = None
        for clause in clauses:
            needed = self.needed(clause.body)
            here = {at for at, it in enumerate(clause.patterns) if not isinstance(it, Binds) or it.name in needed}
            here |= {first} - {None}
            found = here if found is None else found & here
        return frozenset(found)

    def needed(self, term):
        """The names that are surely computed where a term is."""
        match term:
            case Local(name):
                return {name}
            case Member(inner, _, _) | Update(inner, _):
                return self.needed(inner)
            case If(test, yes, no, _):
                return self.needed(test) | (self.needed(yes) & self.needed(no))
            case Let(names, _, value, body):
                inside = self.needed(body)
                return inside - {*names} | (self.needed(value) if names[0] in inside else set())
            case Apply(head, args):
                return self.needed_by_call(head, args)
        return set()

    def needed_by_call(self, head, args):
        match head:
            case Primitive(name):
                word = self.native[name]
                places = word.strict if len(args) >= word.arity else ()
            case Global(definition):
                places = self.strict.get(definition.path, ()) if len(args) >= self.arity.get(definition.path, 0) else ()
            case Construct(name, _):
                places = (0,) if name == "suc" else ()
            case _:
                return self.needed(head)
        return set().union(*(self.needed(args[at]) for at in places))
