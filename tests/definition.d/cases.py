"""The cases that the definition is asked: those of tests/cases.d, and the rows of the tables of sg_job_cases."""

import importlib.machinery
import importlib.util
import pathlib
import re
import sys

TOP = pathlib.Path(__file__).resolve().parents[2]
TABLES = TOP / "crates/sg_job_cases/src"
CONTEXTS = 4096
# Keys of the tables that no reader of them needs, or of what isn't the definition's: how parts and streams take and give.
UNSEEN = {"need", "calls", "writes", "--"}
NOT_ASKED = {"failing_call": "a call of a part that fails", "failing_write": "a write that fails", "meeting": "actors that count each other"}


class Case:
    """Words and files, and both streams and the status that are expected."""

    def __init__(self, name, words, files, out, err, status, contexts=CONTEXTS):
        self.name, self.words, self.files, self.contexts = name, words, files, contexts
        self.out, self.err, self.status = out, err, status

    def __str__(self):
        return self.name

    def size(self):
        return sum(map(len, self.files.values()))

    def mentions(self, text):
        """Whether a text stands in the name or in a file."""
        return text in self.name or any(text.encode() in data for data in self.files.values())

    def differences(self, answer):
        """What differs between what is expected and an answer of the definition."""
        if self.status not in answer.statuses:
            yield f"status {' or '.join(map(str, sorted(answer.statuses)))}, and {self.status} is expected"
        if answer.out is None:
            return
        if answer.out != self.out:
            yield f"out: {answer.out[-600:]!r}, and {self.out[-600:]!r} is expected"
        if answer.err != self.err:
            yield f"err: {answer.err[-600:]!r}, and {self.err[-600:]!r} is expected"


def module(path):
    """A script of tests/ as a module."""
    sys.dont_write_bytecode = True
    loader = importlib.machinery.SourceFileLoader(path.name, str(path))
    found = importlib.util.module_from_spec(importlib.util.spec_from_loader(path.name, loader))
    loader.exec_module(found)
    return found


def written():
    """The cases of tests/cases.d."""
    reader = module(TOP / "tests/cases")
    for file in sorted(reader.FOLDER.glob("*.txt")):
        for case in reader.cases_of(file):
            files = {name: case.bytes_of(name) for name in reader.FILES if name in case.texts}
            words = [word.lower() if word in ("PLATFORM", "DEPLOYMENT", "SCRIPT") else word for word in case.words]
            yield Case(f"{file.name}: {case.name}", words, files, case.bytes_of("out"), case.bytes_of("err"), case.status)


# ---- rows of tables


def literal(text):
    """A text of a table: ` | ` breaks a line, `^` is a carriage return, `~` no text, `%FIRST%END%ITEM%` items with numbers."""
    found = b""
    for at, piece in enumerate(pieces := text.split("%")):
        if at % 4 == 0:
            found += lines(piece)
        elif at % 4 == 3:
            found += b"".join(lines(piece.replace("#", str(number))) for number in range(int(pieces[at - 2]), int(pieces[at - 1])))
    return found


def lines(text):
    return text.replace(" | ", "\n").encode().replace(b"^", b"\r").replace(b"~", b"\xff")


def constants(file):
    """The text constants of a file of Rattle that are public."""
    return dict(re.findall(r'^pub const (\w+): &str = "\\\n(.*?)";$', file.read_text(encoding="utf-8"), re.S | re.M))


def named_texts():
    """The platforms and deployments of texts.rt, by their names."""
    table = re.search(r'const TEXTS: &str = "\\\n(.*?)";$', (TABLES / "texts.rt").read_text(encoding="utf-8"), re.S | re.M)[1]
    heads = (section.partition("\n") for section in table.split("== ")[1:])
    return {head.split()[0]: text for head, _, text in heads}


def actors(hosts):
    """A deployment of the actors p0, p1 and so on, which replay on these hosts, and of a mutex and a semaphore."""
    found = "".join(f"{{name = 'p{number}', host = '{host}', function = 'replay'}}, " for number, host in enumerate(hosts))
    return f"mutex = [{{id = 'm1'}}]\nsemaphore = [{{id = 's1', capacity = 0}}]\nactor = [{found}]\n".encode()


class Row:
    """A row of a table, while its lines are taken."""

    def __init__(self, texts):
        self.texts, self.files, self.contexts = texts, {"p": b"", "d": b"", "s": b""}, 20
        self.words, self.out, self.err, self.status, self.why = ["simgrid_replay", "replay", "p", "d", "s"], b"", b"", 0, None

    def take(self, key, text):
        parts = {"platform": "p", "deployment": "d", "with": "p", "script": "s", "unended": "s", "lines": "s",
                 "long_platform": "p", "long_line": "s"}
        if key == "job":
            self.words = text.split()
        elif key == "over":
            platform, _, deployment = text.partition(" ")
            self.files["p"] = literal(self.texts.get(platform, ""))
            self.files["d"] = actors(deployment.split()) if deployment.startswith("h") else literal(self.texts.get(deployment, ""))
        elif key in ("platform", "deployment"):
            self.files[parts[key]] = literal(text)
        elif key in ("with", "script"):
            self.files[parts[key]] += literal(text) + b"\n"
        elif key == "unended":
            self.files["s"] += literal(text)
        elif key == "lines":
            times, _, line = text.partition(" ")
            self.files["s"] += int(times) * (lines(line) + b"\n")
        elif key.startswith("long_"):
            size, _, byte = text.partition(" ")
            self.files[parts[key]] = self.files[parts[key]][:int(size)].ljust(int(size), b" " if byte in ("", "_") else byte[:1].encode())
        elif key == "crew":
            self.contexts = int(text.split()[1])
        elif key in ("out", "err", "front"):
            name = "out" if key == "front" else key
            setattr(self, name, getattr(self, name) + literal(text) + (b"" if key == "front" else b"\n"))
        elif key == "status":
            self.status = int(text)
        elif key in NOT_ASKED:
            self.why = NOT_ASKED[key]
        elif key not in UNSEEN:
            raise ValueError(f"no such key: {key}")

    def case(self, place, number):
        """The case of this row, and why it isn't asked."""
        named = [word for word in self.words[2:] if word in ("p", "d", "s", "-")]
        why = None if named == ["p", "d", "s"][:len(named)] else "a part that stands in memory under another name"
        name = f"{place} {number}: {' '.join(self.words)}"
        return Case(name, self.words[1:], dict(self.files), self.out, self.err, self.status, self.contexts), self.why or why


def rows():
    """The rows of the tables, and for each that isn't asked why."""
    texts = named_texts()
    for file in sorted(TABLES.glob("*.rt")):
        for name, table in constants(file).items():
            yield from rows_of(f"sg_job_cases/{file.name} {name}", table, texts)


def rows_of(place, table, texts):
    """The rows of a table: a blank line ends a row, and `same` begins one that differs in what stands behind it."""
    row, number = Row(texts), 0
    for line in table.splitlines():
        if line in ("", "same"):
            number += 1
            yield row.case(place, number)
        if line == "":
            row = Row(texts)
        elif line != "same":
            key, _, text = line.partition(" ")
            row.take(key, text)
