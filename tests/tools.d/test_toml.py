"""The reader of TOML in tools/explain: values as tomllib has them, each at its place in the text, and the program's judgement."""

import random
import tomllib
import unittest
from concurrent.futures import ThreadPoolExecutor

from common import Folder, module

EXPLAIN = module("explain")

TEXTS = ["", "a", "a b", "#", "\u00e9", "\U0001f600", "a\nb", "\t", "\"", "'", "\\", "]", "}", "x = 1", "'''", '"""']


class Writer:
    """Writes random trees as TOML 1.0, in all the ways that it has."""

    def __init__(self, rng):
        self.rng = rng

    def document(self):
        lines = self.pairs(self.rng.randint(0, 4), 0)
        for number in range(self.rng.randint(0, 4)):
            name = f"t{number}" + self.rng.choice(["", "", ".sub", ' . "a b"'])
            many, blank = self.rng.random() < 0.5, self.rng.choice(["", " "])
            for _ in range(self.rng.choice([1, 1, 2, 3]) if many else 1):
                lines.append(("[[" if many else "[") + blank + name + blank + ("]]" if many else "]") + self.end())
                lines += self.pairs(self.rng.randint(0, 3), 0)
        return "\n".join(lines) + self.rng.choice(["", "\n"])

    def end(self):
        return self.rng.choice(["", "", " ", "\t# note [x] = \"", "\r"])

    def pairs(self, count, depth):
        lines = []
        for number in range(count):
            key = self.rng.choice([f"k{number}", f'"k {number}"', f"'{number}'", f"d{number}.x", f"d{number} . y.z", f"{number}-_"])
            lines += self.rng.choice([[], [], ["", "# a comment"]])
            lines.append(f"{self.rng.choice(['', '  '])}{key}{self.rng.choice(['=', ' = '])}{self.value(depth)}{self.end()}")
        return lines

    def value(self, depth):
        kind = self.rng.choice(["text", "text", "number", "float", "truth", "date"] + ["array", "table"] * (depth < 3))
        if kind == "text":
            return self.text(self.rng.choice(TEXTS))
        if kind == "number":
            return self.rng.choice(["0", "+1", "-17", "1_000", "0xdead_BEEF", "0o17", "0b101", "9223372036854775807", "-9223372036854775808"])
        if kind == "float":
            return self.rng.choice(["1.5", "-0.0", "1e3", "6.6E-3", "inf", "-inf", "1_0.0_1"])
        if kind == "truth":
            return self.rng.choice(["true", "false"])
        if kind == "date":
            return self.rng.choice(["2020-02-29", "07:32:00", "1979-05-27T07:32:00Z", "1979-05-27 07:32:00.5", "1979-05-27T00:32:00-07:00"])
        if kind == "array":
            items = [self.value(depth + 1) for _ in range(self.rng.randint(0, 3))]
            gap = self.rng.choice(["", " ", "\n\t", "  # ] note\n"])
            return "[" + ",".join(gap + item + gap for item in items) + self.rng.choice(["", ","]) * bool(items) + gap + "]"
        return "{" + ", ".join(f"k{i} = {self.flat(depth + 1)}" for i in range(self.rng.randint(0, 3))) + "}"

    def flat(self, depth):
        """A value without a newline outside a text."""
        while True:
            value = self.value(depth)
            if "\n" not in value or value.startswith(('"""', "'''")):
                return value

    def text(self, text):
        escaped = "".join({"\n": "\\n", "\r": "\\r", "\t": "\\t", '"': '\\"', "\\": "\\\\"}.get(c, c) for c in text)
        ways = [f'"{escaped}"', f'"""{escaped}"""', f'"""\n{escaped}\\\n   """']
        if "'" not in text and "\n" not in text:
            ways.append(f"'{text}'")
        if "'" not in text:
            ways.append(f"'''\n{text}'''")
        if '"' not in text and "\\" not in text:
            ways.append(f'"""\n{text}"""')
        return self.rng.choice(ways)


def plain(value):
    """A value of tomllib in the form that `Node.plain` has: dates as texts, here both made alike."""
    if isinstance(value, dict):
        return {key: plain(item) for key, item in value.items()}
    if isinstance(value, list):
        return [plain(item) for item in value]
    return "date" if hasattr(value, "isoformat") else value


def without_dates(node):
    if node.kind == "table":
        return {name: without_dates(entry.node) for name, entry in node.data.items()}
    if node.kind == "array":
        return [without_dates(item) for item in node.data]
    return "date" if node.kind == "date" else node.data


def scalars(node):
    """All values with a place of their own: texts, numbers, arrays and tables in braces."""
    if node.kind == "table":
        for entry in node.data.values():
            yield from scalars(entry.node)
    elif node.kind == "array":
        for item in node.data:
            yield from scalars(item)
    if node.origin == EXPLAIN.VALUE:
        yield node


def spoiled(rng, text):
    """The text with a piece put in, left out or exchanged."""
    at = rng.randint(0, len(text))
    piece = rng.choice(list("[]{}=\"',.#\n\r\\ _-0a\0\x7f") + ["[[", "]]", '"""', "'''", "a = 1\n", "[t0]\n", "[[t0]]\n", "\ufeff", "1e999",
                                                            "\\x41", "\\e", "01", "1__0", "\u201c", "9223372036854775808", "07:32"])
    return text[:at] + piece + text[at + rng.choice([0, 0, 1, 3]):]


class Reader(unittest.TestCase):
    def test_generated_texts(self):
        """600 texts have tomllib's values, and each value stands where its place says."""
        for number in range(600):
            text = Writer(random.Random(f"toml {number}")).document()
            try:
                expected = plain(tomllib.loads(text))
            except tomllib.TOMLDecodeError:
                with self.assertRaises(EXPLAIN.NotToml, msg=text):
                    EXPLAIN.Toml(text).parse()
                continue
            root = EXPLAIN.Toml(text).parse()
            self.assertEqual(without_dates(root), expected, text)
            for node in scalars(root):
                alone = tomllib.loads("x = " + text[node.start:node.end])["x"]
                self.assertEqual(plain(alone), without_dates(node), text)

    def test_spoiled_texts(self):
        """The program takes a spoiled text as TOML where the reader does; so does tomllib, but for what TOML 1.1 added."""
        texts, rng = [], random.Random("spoiled")
        for number in range(300):
            text = Writer(random.Random(f"spoiled {number}")).document()
            for _ in range(rng.choice([1, 1, 2])):
                text = spoiled(rng, text)
            texts.append(text)
        folders = [Folder(p=text, d="", s="") for text in texts]
        with ThreadPoolExecutor(8) as pool:
            runs = list(pool.map(Folder.replayed, folders))
        refused = 0
        for text, run in zip(texts, runs):
            with self.subTest(text):
                told = EXPLAIN.Platform("p", text.encode()).first()
                self.assertEqual(told[0].line + "\n", run.stderr.decode())
                if told[0].line == "platform: not TOML":
                    refused += 1
                    self.assertLessEqual(told[0].span[0], len(text))
        self.assertGreater(refused, 80)
        self.assertGreater(len(texts) - refused, 50)

    def test_texts_of_the_newer_version(self):
        for text in ('a = "\\e\\x41"', "a = {\n b = 1, # note\n}", "a = 07:32", "a = 0001-01-01 00:00", "a = 0000-02-29"):
            with self.subTest(text):
                EXPLAIN.Toml(text).parse()

    def test_refused_texts(self):
        """Texts that the program's reader refuses, with the place of the complaint."""
        for text, place in (
                ("a = 1\na = 2", (2, 1)), ("[a]\n[a]", (2, 1)), ("a = [1 2]", (1, 6)), ("a = 'x", (1, 5)), ("a = \"\\q\"", (1, 6)),
                ("a = [\n1,\n", (1, 5)), ("a = 1 b = 2", (1, 7)), ("[[a]\n", (1, 4)), ("a.b = 1\n[a]", (2, 1)), ("a = {}\n[a.b]", (2, 2)),
                ("[[a.b]]\n[a]\nb.c = 1", (3, 1)), ("a = 01", (1, 5)), ("a = 1e400", (1, 5)), ("a = 1979-02-30", (1, 5)), ("a", (1, 2)),
                ("a = " + "[" * 81 + "]" * 81, (1, 85)), ("a." * 80 + "a = 1", (1, 160)), ("a = 1\rb = 2", (1, 6)), ("# \x7f", (1, 3))):
            with self.subTest(text), self.assertRaises(EXPLAIN.NotToml) as fault:
                EXPLAIN.Toml(text).parse()
            with self.subTest(text):
                self.assertEqual(EXPLAIN.Source("", text).place(fault.exception.start), place)


if __name__ == "__main__":
    unittest.main()
