"""Prints the calls of definitions, with their arguments and results."""

import sys

from .values import Later, Record, items_of, now

MOST_ITEMS, MOST_DEPTH, MOST_BYTES = 24, 6, 120
# Fields that are texts.
TEXTS = dict.fromkeys(("id", "name", "out", "err", "text", "bytes"), "Text")


class Tracer:
    """Calls a function after each call of a traced definition, with the path, the arguments and the result."""

    def __init__(self, program):
        self.program, self.depth = program, 0

    def traced(self, path, function):
        def traced(*args):
            self.depth += 1
            try:
                result = function(*args)
            finally:
                self.depth -= 1
            self.tell(path, args, result)
            return result

        return traced

    def tell(self, path, args, result):
        definition = self.program.definitions[path]
        kinds = kinds_of(definition.type)
        names = names_of(definition, self.program.clauses[path])
        shown_args = "".join(f"\n    {name} = {shown(it, kind, False)}" for name, it, kind in zip(names, args, kinds + [""] * len(args)))
        place = f"{definition.module.file.name}:{definition.line}"
        print(f"{definition.name} ({place}){shown_args}\n    -> {shown(result, kinds[-1] if kinds else '', True)}", file=sys.stderr)


def names_of(definition, clauses):
    """The names of the arguments, those of the first clause that names each."""
    found = []
    for at in range(len(clauses[0].patterns)):
        names = [getattr(clause.patterns[at], "name", "_") for clause in clauses]
        named = next((name.partition("_")[2] for name in names if name.startswith("v") and "_" in name), None)
        found.append(named or f"argument {at + 1}")
    return found


def kinds_of(tokens):
    """The types between the arrows of a signature, each as a text."""
    found, depth, group = [], 0, []
    for token in tokens:
        if token.kind == "mark":
            depth += (token.text in "({") - (token.text in ")}")
        if depth == 0 and token.is_name("→"):
            found.append(" ".join(group))
            group = []
        elif not (depth == 0 and token.is_mark("}")):
            group.append(token.text)
    return [*found, " ".join(group)]


def shown(value, kind="", force=True, depth=0):
    """A value as a text; parts that weren't computed are computed with `force`, and shown as `_` without."""
    if value.__class__ is Later:
        if value.how is not None and not force:
            return "_"
        value = now(value)
    if isinstance(value, Record):
        return shown_record(value, force, depth)
    if isinstance(value, tuple):
        if value == () or value[0].__class__ is not str:
            return shown_list(value, kind, force, depth)
        inner = " ".join(in_brackets(shown(it, "", force, depth + 1)) for it in value[1:])
        return f"{value[0]} {inner}" if inner else value[0]
    return {True: "true", False: "false"}[value] if isinstance(value, bool) else str(value) if isinstance(value, int) else repr(value) if isinstance(value, str) else "a function"


def in_brackets(text):
    return f"({text})" if " " in text and text[0] not in "{[\"" else text


def shown_record(value, force, depth):
    fields = value.__dict__
    if depth >= MOST_DEPTH:
        return "{..}"
    if list(fields) == ["_0"]:
        return shown(fields["_0"], "", force, depth)
    if "_0" in fields:
        return "(" + ", ".join(shown(it, "", force, depth + 1) for it in fields.values()) + ")"
    return "{" + "; ".join(f"{label.strip('_')} = {shown(it, TEXTS.get(label, ''), force, depth + 1)}" for label, it in fields.items()) + "}"


def shown_list(value, kind, force, depth):
    items, rest = [], value
    while rest and (len(items) < MOST_ITEMS or all(is_letter(it) for it in items) and len(items) < MOST_BYTES):
        items.append(rest[0])
        rest = rest[1]
        if rest.__class__ is Later:
            if rest.how is not None and not force:
                return "[" + ", ".join(shown(it, "", force, depth + 1) for it in items) + ", _]"
            rest = now(rest)
    numbers = [it for it in items if is_letter(it)]
    if items and len(numbers) == len(items) and ("Text" in kind or is_text(items)):
        text = bytes(map(now, items)).decode("ascii")
        return '"' + text.replace("\n", "\\n") + ('"' if not rest else '.."')
    if depth >= MOST_DEPTH and items:
        return "[..]"
    return "[" + ", ".join(shown(it, "", force, depth + 1) for it in items) + (", ..]" if rest else "]")


def is_letter(item):
    if item.__class__ is Later:
        if item.how is not None:
            return False
        item = item.value
    return item.__class__ is int and (31 < item < 127 or item == 10)


def is_text(items):
    """Whether numbers are likely a text: long enough, and with letters, of which there are several."""
    letters = [now(it) for it in items if chr(now(it)).isalpha()]
    return len(items) > 7 and 4 * len(letters) >= len(items) and len(set(letters)) > 2
