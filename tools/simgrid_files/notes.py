"""Messages about SimGrid's files: errors and warnings, each with its file and line."""


class Refused(Exception):
    """A file uses an unsupported feature. `place` is an element, or a file and a line."""

    def __init__(self, place, text):
        super().__init__(text)
        self.file, self.line = place_of(place)

    def __str__(self):
        return f"{at(self.file, self.line)}: {plain(self.args[0])}"


class Unread(Exception):
    """A file can't be read, or isn't XML."""


def place_of(place):
    return (place.file, place.line) if hasattr(place, "line") else place


def at(file, line):
    return f"{file}:{line}" if line else str(file)


def plain(text):
    """A text on one line, in ASCII, without characters that a TOML comment can't have."""
    text = text.encode("ascii", "backslashreplace").decode()
    return "".join(letter if letter.isprintable() else "?" for letter in text)


def quoted(text):
    return '"' + text.replace("\\", "\\\\").replace('"', '\\"') + '"'


class Notes:
    """Warnings: each text once, with its first place, the number of its places and of their files."""

    def __init__(self):
        self.model, self.found = [], {}

    def of_model(self, text):
        """Adds a note on the model, which has no line in a file and isn't an error with --strict."""
        if text not in self.model:
            self.model.append(text)

    def add(self, place, text):
        file, line = place_of(place)
        first = self.found.setdefault(plain(text), [file, line, 0, set()])
        first[2] += 1
        first[3].add(file)

    def lines(self):
        for text, (file, line, count, files) in self.found.items():
            where = f", in {len(files)} files" if len(files) > 1 else ""
            yield f"{at(file, line)}: {text}" + (f" ({count} times{where})" if count > 1 else "")

    def all(self):
        return [*self.model, *self.lines()]
