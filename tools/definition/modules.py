"""Reads the items of a module: what it uses, its definitions, constructors, types and operators. Types are never parsed."""

from dataclasses import dataclass, field

from . import Refused
from .lexer import depth_of, tokens

MODIFIERS = {"pub", "abbrev", "unfoldable", "inline", "pattern", "axiom", "ghost"}
FIXITIES = ("infixl", "infixr", "infix")
# Items that aren't needed to compute definitions.
PASSED_OVER = {"unfolding", "open", "ruleset", "deriving", "instance"}


@dataclass(slots=True)
class Use:
    """`use PATH`, perhaps with leaves (the whole name and the one that it has here), or with another name."""

    path: str
    leaves: list | None
    alias: str | None

    def own_name(self):
        return self.alias or self.path.rpartition(".")[2]


@dataclass(eq=False, slots=True)
class Definition:
    """A definition: the tokens of its type and of each clause, and the parameters of the sections around it."""

    module: "Module"
    name: str
    line: int
    type: list
    section: list
    clauses: list = field(default_factory=list)

    @property
    def path(self):
        return f"{self.module.path}.{self.name}"


@dataclass(eq=False, slots=True)
class Constructor:
    """A constructor of a `data` of a module."""

    module: "Module"
    kind: str
    name: str
    arity: int
    line: int


class Module:
    """A module of definitions."""

    def __init__(self, path, file):
        self.path, self.file = path, file
        self.uses, self.definitions, self.constructors, self.types, self.fixities = [], {}, {}, set(), {}
        self.meanings, self.operators = {}, {}
        self.block(tokens(file.read_text(encoding="utf-8"), file), [])

    def block(self, body, section):
        """Reads the items of one indentation."""
        current = None
        for item in items_of(body):
            kept = [k for k, token in enumerate(item) if token.text not in MODIFIERS]
            head = item[kept[0]] if kept else item[0]
            rest = item[kept[0] + 1:] if kept else []
            if head.text == "use":
                self.uses.append(self.use(rest))
            elif head.text in FIXITIES:
                self.fixities.update({token.text: (head.text, int(rest[0].text)) for token in rest[1:]})
            elif head.text == "mutual":
                self.block(rest, section)
            elif head.text == "module":
                end = top_level(rest, "where")
                self.block(rest[end + 1:], section + parameters(rest[1:end]))
            elif head.text in ("record", "data"):
                self.types.add(rest[0].text)
                if head.text == "data":
                    self.data(rest)
            elif head.text not in PASSED_OVER and head.text != "mod":
                current = self.definition(item[kept[0]:], section, current)
                continue
            if head.text not in PASSED_OVER:
                current = None

    def definition(self, item, section, current):
        """Takes a signature, or a clause of the definition before."""
        colon = top_level(item, ":", "=")
        if colon is not None:
            name = item[0].text
            self.definitions[name] = Definition(self, name, item[0].line, item[colon + 1:], section)
            return self.definitions[name]
        if current is None:
            raise Refused(f"a clause without a signature: {item[0].text}", self.file, item[0].line)
        current.clauses.append(item)
        return current

    def data(self, rest):
        """Takes the constructors of a `data`."""
        where = next((k for k, token in enumerate(rest) if token.is_name("where")), len(rest))
        for row in items_of(rest[where + 1:]):
            colon = top_level(row, ":")
            for token in row[:colon] if colon is not None else ():
                self.constructors[token.text] = Constructor(self, rest[0].text, token.text, arity_of(row[colon + 1:]), rest[0].line)

    def use(self, rest):
        """Reads the rest of a `use`."""
        path, at = [rest[0].text], 1
        while at + 1 < len(rest) and rest[at].is_mark(".") and not rest[at + 1].is_mark("{"):
            path.append(rest[at + 1].text)
            at += 2
        alias = rest[at + 1].text if at < len(rest) and rest[at].is_name("as") else None
        if at >= len(rest) or not rest[at].is_mark("."):
            return Use(".".join(path), None, alias)
        leaves, whole = [], []
        for token in rest[at + 2:]:
            if token.kind == "mark" and token.text in ",}":
                if whole:
                    name, _, short = "".join(whole).partition(" as ")
                    leaves.append((name, short or name))
                whole = []
            else:
                whole.append(" as " if token.is_name("as") else token.text)
        return Use(".".join(path), leaves, None)


def items_of(body):
    """Cuts tokens into items: each begins in the column of the first, and includes the following indented lines."""
    found, indent = [], min((token.column for token in body if token.first), default=0)
    for token in body:
        if not found or token.first and token.column == indent and depth_of(token) >= 0:
            found.append([])
        found[-1].append(token)
    return found


def top_level(item, text, before=None):
    """The place of a token outside of all brackets, unless this other one comes before it."""
    depth = 0
    for at, token in enumerate(item):
        depth += depth_of(token)
        if depth == 0 and token.is_name(text):
            return at
        if depth == 0 and before and token.is_name(before):
            return None
    return None


def parameters(group):
    """The explicit parameters of a telescope, as `(a b : A) {c : C}`."""
    found, depth, named = [], 0, False
    for token in group:
        depth += depth_of(token)
        if depth == 1 and token.is_mark("("):
            named = True
        elif token.is_name(":") or depth == 0:
            named = False
        elif named:
            found.append(token.text)
    return found


def arity_of(kind):
    """The number of explicit arguments of a type: binders, and types before arrows."""
    count, group, depth = 0, [], 0
    for token in kind:
        depth += depth_of(token)
        if depth == 0 and token.is_name("→"):
            is_telescope = top_level_binder(group)
            count += len(parameters(group)) if is_telescope else 1
            group = []
        else:
            group.append(token)
    return count


def top_level_binder(group):
    """Whether a group before an arrow binds names: it has a `:` directly in its brackets."""
    depth = 0
    for token in group:
        depth += depth_of(token)
        if depth == 1 and token.is_name(":"):
            return True
    return False
