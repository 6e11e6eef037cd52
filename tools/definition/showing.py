"""Finds, for each definition, a case that shows it: a call with its arguments and its result."""

from .asking import ask
from .tracing import kinds_of, names_of, shown

# The number of calls of a definition in a case among which the shortest is chosen, and the limit of calls in a case.
MOST_CALLS, MOST_STEPS, LONGEST = 12, 30_000, 700


class Enough(Exception):
    """A case makes more calls than the limit."""


class Examples:
    """The calls of each definition in the first case that shows it. It is a tracer of a program."""

    def __init__(self):
        self.program, self.calls, self.steps, self.shown = None, {}, 0, set()

    def traced(self, path, function):
        def traced(*args):
            self.steps += 1
            if self.steps > MOST_STEPS:
                raise Enough
            result = function(*args)
            if path not in self.shown:
                calls = self.calls.setdefault(path, [])
                if len(calls) < MOST_CALLS:
                    calls.append((args, result))
            return result

        return traced

    def of_case(self, case, folder):
        """The arguments and the result of each definition that no earlier case shows, by its path."""
        self.calls, self.steps = {}, 0
        try:
            ask(self.program, case.words, folder, case.contexts)
        except Enough:
            pass
        # computing values to show them makes no calls of the case
        calls, self.calls, self.steps = self.calls, {}, -10**9
        found = {path: min((self.text(path, *call) for call in made), key=worth) for path, made in calls.items()}
        found = {path: text for path, text in found.items() if sum(map(len, text[1])) + len(text[2]) <= LONGEST}
        self.shown |= found.keys()
        return found

    def text(self, path, args, result):
        definition = self.program.definitions[path]
        kinds = kinds_of(definition.type)
        names = names_of(definition, self.program.clauses[path])
        return names, [shown(it, kind, False) for it, kind in zip(args, kinds + [""] * len(args))], shown(result, kinds[-1] if len(kinds) > len(args) else "", False)


def worth(text):
    """Calls by how well they show a definition: what has items before what is empty, then the short before the long."""
    _, args, result = text
    empty = sum(it in ("[]", "None", "0", "false") for it in [*args, result])
    hidden = sum("_" == it or ".." in it for it in [*args, result])
    return 4 * hidden + 2 * empty + sum(len(it) // 40 for it in [*args, result]), sum(map(len, args)) + len(result), args, result
