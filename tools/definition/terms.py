"""Parses terms and patterns. Constructs that the definitions don't use (types, `elim`, record patterns) are errors."""

from dataclasses import dataclass

from . import Refused
from .lexer import depth_of, unquoted
from .library import Constructs
from .modules import top_level

# ---- terms


@dataclass(slots=True)
class Number:
    value: int


@dataclass(slots=True)
class Text:
    value: str


@dataclass(slots=True)
class Name:
    name: str
    line: int


@dataclass(slots=True)
class Apply:
    head: object
    args: list


@dataclass(slots=True)
class If:
    test: object
    yes: object
    no: object
    line: int


@dataclass(slots=True)
class Member:
    """A field of a record, or a name after a module or a type."""

    term: object
    label: str
    line: int


@dataclass(slots=True)
class Record:
    """A record, or a tuple, whose fields are 0, 1, .."""

    fields: list


@dataclass(slots=True)
class Update:
    """A record with other values of some fields."""

    term: object
    fields: list


@dataclass(slots=True)
class Lambda:
    names: list
    body: object


@dataclass(slots=True)
class Let:
    """`let x = value in body`; with several names, of the parts of a tuple."""

    names: list
    is_tuple: bool
    value: object
    body: object


# ---- patterns


@dataclass(slots=True)
class Binds:
    name: str


@dataclass(slots=True)
class Matches:
    """A constructor with patterns of its arguments."""

    name: str
    patterns: list


@dataclass(slots=True)
class Splits:
    """A tuple."""

    patterns: list


# What ends the arguments of an application.
STOPS = {"=", ":", "|", "↦", "then", "else", "in", "→", "×", "]"}
TYPES = {"→", "×", "Type"}


class Parser:
    """Reads the tokens of a clause in line `line`: constructors that are declared further down aren't known there."""

    def __init__(self, library, here, tokens, line):
        self.library, self.here, self.tokens, self.at, self.line = library, here, tokens, 0, line

    # ---- tokens

    def refuse(self, why):
        token = self.peek() or (self.tokens[-1] if self.tokens else None)
        raise Refused(why, self.here.file, token.line if token else self.line)

    def peek(self, further=0):
        at = self.at + further
        return self.tokens[at] if at < len(self.tokens) else None

    def sees(self, text):
        token = self.peek()
        return token is not None and token.text == text and token.kind != "string"

    def take(self):
        if self.peek() is None:
            self.refuse("the clause ends too early")
        self.at += 1
        return self.tokens[self.at - 1]

    def want(self, text):
        if not self.sees(text):
            self.refuse(f"`{text}` is wanted here")
        return self.take()

    def whole(self):
        """A term that takes all remaining tokens."""
        term = self.term()
        if self.peek() is not None:
            self.refuse(f"`{self.peek().text}` isn't understood here")
        return term

    def operator(self, least):
        """The fixity of the operator that comes next, if it binds as tightly as that."""
        token = self.peek()
        if token is None or token.kind != "name" or token.text == "=":
            return None
        found = self.library.fixity(self.here, token.text)
        return found if found and found[1] >= least else None

    # ---- terms

    def term(self, least=-1):
        left = self.operand()
        while (fixity := self.operator(least)) is not None:
            operator = self.take()
            right = self.term(fixity[1] + (fixity[0] != "infixr"))
            left = Apply(Name(f"◌{operator.text}◌", operator.line), [left, right])
        if self.peek() is not None and self.peek().kind == "name" and self.peek().text in TYPES:
            self.refuse("a type can't be computed")
        return left

    def operand(self):
        token = self.peek()
        if token is None:
            self.refuse("a term is wanted")
        if token.kind == "name":
            special = {"λ": self.lambda_term, "let": self.let, "if": self.if_term, "do": self.do, "elim": self.elim}.get(token.text)
            if special:
                return special()
        return self.application()

    def application(self):
        head, args = self.atom(), []
        while (token := self.peek()) is not None:
            if token.is_mark("{"):
                self.pass_braces()
            elif token.is_name("λ") or token.is_name("let"):
                args.append(self.operand())
                break
            elif self.begins_atom(token):
                args.append(self.atom())
            else:
                break
        return Apply(head, args) if args else head

    def begins_atom(self, token):
        if token.kind == "mark":
            return token.text == "("
        if token.kind != "name":
            return True
        return token.text not in STOPS and token.text != "if" and (token.text == "record" or self.library.fixity(self.here, token.text) is None)

    def pass_braces(self):
        """Skips an implicit argument."""
        depth = 0
        while True:
            depth += depth_of(self.take())
            if depth == 0:
                return

    def elim(self):
        self.refuse("`elim` can't be computed")

    def if_term(self):
        line = self.take().line
        test = self.term()
        self.want("then")
        yes = self.term()
        self.want("else")
        return If(test, yes, self.term(5), line)

    def do(self):
        """Lines `x ← term` and `let x = term`, and a last term."""
        self.take()
        column, rows = self.peek().column, []
        while self.peek() is not None and self.peek().column >= column:
            if not rows or self.peek().first and self.peek().column == column:
                rows.append([])
            rows[-1].append(self.take())
        body = self.part(rows[-1]).whole()
        for row in reversed(rows[:-1]):
            if row[0].text == "let":
                body = Let([row[1].text], False, self.part(row[top_level(row, "=") + 1:]).whole(), body)
            elif len(row) > 2 and row[1].text == "←":
                body = Apply(Name("◌>>=◌", row[0].line), [self.part(row[2:]).whole(), Lambda([row[0].text], body)])
            else:
                raise Refused("a line of `do` can't be parsed", self.here.file, row[0].line)
        return body

    def part(self, tokens):
        return Parser(self.library, self.here, tokens, self.line)

    def atom(self):
        token = self.take()
        if token.kind == "string":
            return self.members(Text(unquoted(token.text)))
        if token.kind == "number":
            return Number(int(token.text.replace("_", ""), 0))
        if token.is_mark("("):
            return self.members(self.in_parentheses())
        if token.is_name("record"):
            return self.members(self.record())
        if token.kind != "name" or token.text in TYPES:
            self.at -= 1
            self.refuse(f"`{token.text}` can't be computed")
        return self.members(Name(token.text, token.line))

    def in_parentheses(self):
        parts = [self.term()]
        while self.sees(","):
            self.take()
            if not self.sees(")"):
                parts.append(self.term())
        self.want(")")
        return parts[0] if len(parts) == 1 else Record([(str(at), part) for at, part in enumerate(parts)])

    def record(self):
        base = None if self.sees("{") else self.atom()
        self.want("{")
        fields = []
        while not self.sees("}"):
            label = self.take().text
            self.want("=")
            fields.append((label, self.term()))
            if self.sees(";"):
                self.take()
        self.want("}")
        return Record(fields) if base is None else Update(base, fields)

    def members(self, term):
        """The fields that follow without a blank, as in `flow.uses`."""
        while (dot := self.peek()) is not None and dot.is_mark(".") and not dot.blank_before and not dot.blank_after and self.peek(1):
            self.take()
            term = Member(term, self.take().text, dot.line)
        return term

    def lambda_term(self):
        self.take()
        names = []
        while not (self.peek() and self.peek().is_mark(".")):
            token = self.take()
            if token.is_mark("{"):
                self.at -= 1
                self.pass_braces()
            elif token.is_mark("("):
                names += self.typed_names()
            elif token.is_name("record"):
                self.refuse("a record in a pattern isn't understood")
            else:
                names.append(token.text)
        self.want(".")
        return Lambda(names, self.term())

    def typed_names(self):
        """The names of `(a b : A)`, after its bracket."""
        names, depth = [], 1
        while not self.sees(":"):
            names.append(self.take().text)
        while depth:
            depth += depth_of(self.take())
        return names

    def let(self):
        self.take()
        first = self.take()
        names, is_tuple = [first.text], first.is_mark("(")
        if is_tuple:
            names = []
            while not self.sees(")"):
                token = self.take()
                names += [] if token.is_mark(",") else [token.text]
            self.take()
        elif self.sees(":"):
            depth = 0
            while depth or not self.sees("="):
                depth += depth_of(self.take())
        self.want("=")
        value = self.term()
        self.want("in")
        return Let(names, is_tuple, value, self.term())

    # ---- patterns

    def clause(self, name):
        """The patterns of a clause and its body."""
        end = top_level(self.tokens, "=")
        if end is None:
            self.refuse("a clause without `=`")
        left = Parser(self.library, self.here, self.tokens[:end], self.line)
        return left.left_side(name), Parser(self.library, self.here, self.tokens[end + 1:], self.line).whole()

    def left_side(self, name):
        operator = name.strip("◌")
        if name.count("◌") == 2 and not self.sees(name):
            first = self.pattern_atom()
            self.want(operator)
            return [first, self.pattern_atom() if self.at == len(self.tokens) - 1 or self.sees("(") else self.pattern_application()]
        self.want(name)
        found = []
        while self.peek() is not None:
            if self.peek().is_mark("{"):
                self.pass_braces()
            else:
                found.append(self.pattern_atom())
        return found

    def pattern(self, least=-1):
        left = self.pattern_application()
        while (fixity := self.operator(least)) is not None:
            name = f"◌{self.take().text}◌"
            right = self.pattern(fixity[1] + (fixity[0] != "infixr"))
            left = self.matches(self.library.meaning(self.here, name), name, [left, right])
        return left

    def matches(self, meaning, name, patterns):
        if not isinstance(meaning, Constructs):
            self.refuse(f"`{name}` is no constructor")
        if len(patterns) != meaning.arity:
            self.refuse(f"`{name}` takes {meaning.arity} arguments")
        return Matches(meaning.name, patterns)

    def pattern_application(self):
        token = self.peek()
        if token is None or token.kind != "name":
            return self.pattern_atom()
        name, meaning = self.pattern_head()
        if meaning is None:
            return Binds(name)
        args = []
        while (token := self.peek()) is not None and not token.is_mark(")") and not token.is_mark(",") and self.operator(-1) is None:
            if token.is_mark("{"):
                self.pass_braces()
            else:
                args.append(self.pattern_atom())
        return self.matches(meaning, name, args)

    def pattern_head(self):
        """A name, perhaps with a module, and the constructor that it means; any other name binds the value."""
        token = self.take()
        if token.kind != "name":
            self.at -= 1
            self.refuse("a number isn't understood in a pattern" if token.kind == "number" else f"`{token.text}` isn't understood in a pattern")
        path = [token.text]
        while (dot := self.peek()) is not None and dot.is_mark(".") and not dot.blank_before and not dot.blank_after:
            self.take()
            path.append(self.take().text)
        if len(path) > 1:
            meaning = self.library.meaning_of_path(self.here, path)
            if not isinstance(meaning, Constructs):
                self.refuse(f"`{'.'.join(path)}` is no constructor")
            return ".".join(path), meaning
        meaning = self.library.meaning(self.here, token.text)
        return token.text, meaning if isinstance(meaning, Constructs) and not self.is_further_down(meaning) else None

    def is_further_down(self, meaning):
        return meaning.constructor is not None and meaning.constructor.module is self.here and meaning.constructor.line > self.line

    def pattern_atom(self):
        if self.peek() is not None and self.peek().is_mark("("):
            self.take()
            parts = [self.pattern()]
            while self.sees(","):
                self.take()
                parts.append(self.pattern())
            self.want(")")
            return parts[0] if len(parts) == 1 else Splits(parts)
        name, meaning = self.pattern_head()
        return Binds(name) if meaning is None else self.matches(meaning, name, [])
