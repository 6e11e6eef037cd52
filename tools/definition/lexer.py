"""Cuts the text of a module into tokens."""

import re
from dataclasses import dataclass

from . import Refused

# Blanks and comments, and a token: a string, a mark, a name in brackets, a name or number.
TOKEN = re.compile(r"""((?:\s+|--[^\n]*)*)(?:("(?:\\.|[^"\\])*")|([(){};,@.])|«([^»]*)»|([^\s(){}.;,@"«»]+)|\Z)""")
KINDS = {2: "string", 3: "mark", 4: "name", 5: "name"}
NUMBER = re.compile(r"0[xob][0-9a-fA-F_]+|[0-9][0-9_]*")
ESCAPE = re.compile(r"\\(?:x([0-9a-fA-F]{2})|u\{([0-9a-fA-F]+)\}|(.))", re.S)
PLAIN = {"n": "\n", "t": "\t", "r": "\r", "0": "\0"}


@dataclass(slots=True)
class Token:
    """A token: `kind` is string, mark, name or number; `first` is true for the first of a line."""

    kind: str
    text: str
    line: int
    column: int
    first: bool
    blank_before: bool
    blank_after: bool = False

    def is_mark(self, text):
        return self.kind == "mark" and self.text == text

    def is_name(self, text):
        return self.kind == "name" and self.text == text


def tokens(text, file=None):
    """Returns the tokens of a text."""
    found, at, line, start = [], 0, 1, 0
    for match in TOKEN.finditer(text):
        if match.start() != at:
            break
        at, gap, kind = match.end(), match[1], match.lastindex
        is_first = not found
        if gap:
            if found:
                found[-1].blank_after = True
            if "\n" in gap:
                line, start, is_first = line + gap.count("\n"), match.start() + gap.rindex("\n") + 1, True
        if kind > 1:
            word = match[kind]
            name = "number" if kind == 5 and word[0] in "0123456789" and NUMBER.fullmatch(word) else KINDS[kind]
            found.append(Token(name, word, line, match.end(1) - start, is_first, bool(gap) or is_first))
    if at != len(text):
        raise Refused(f"no token: {text[at:at + 20]!r}", file, line)
    if found:
        found[-1].blank_after = True
    return found


def unquoted(text):
    """Returns the text of a literal."""

    def one(match):
        code = match[1] or match[2]
        return chr(int(code, 16)) if code else PLAIN.get(match[3], match[3])

    return ESCAPE.sub(one, text[1:-1])


def depth_of(token):
    """The change of the depth of brackets after a token."""
    return (token.text in "({") - (token.text in ")}") if token.kind == "mark" else 0
