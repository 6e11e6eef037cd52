"""Runs the definition: reads the modules of specs/ and of the kit, and makes a Python program of them.

    lexer       the text of a module, cut into tokens
    modules     the items of a module: what it uses, definitions with their clauses, constructors, operators
    library     where modules are, and what a name means in one
    terms       the parser of terms and patterns
    core        definitions with every name resolved
    strictness  which arguments a function surely computes
    emission    Python source
    values      values at run time, and the words that aren't translated: whole numbers, truth values, text literals
    program     the definitions that roots stand on, as functions
    asking      the words of a command line and three parts, to two streams and a status
    tracing     the calls of a definition, printed
"""


class Refused(Exception):
    """A construct that can't be translated, with its file and line."""

    def __init__(self, why, file=None, line=None):
        super().__init__(why)
        self.why, self.file, self.line = why, file, line

    def __str__(self):
        place = f"{self.file}:{self.line}: " if self.line else f"{self.file}: " if self.file else ""
        return place + self.why
