"""XML files as elements with line numbers."""

import os
import sys
import xml.parsers.expat as expat

from .notes import Refused, Unread, quoted

DEEPEST = 64


class Element:
    """An element with its attributes, its contents and its place."""

    def __init__(self, tag, attrib, file, line):
        self.tag, self.attrib, self.file, self.line = tag, attrib, file, line
        self.children, self.text = [], ""

    def get(self, key, default=""):
        """An attribute; SimGrid ignores empty ones."""
        return self.attrib.get(key) or default

    def need(self, key):
        if key not in self.attrib:
            raise Refused(self, f"<{self.tag}> without {key}")
        return self.attrib[key]

    def only(self, known):
        """Raises `Refused` for an unknown attribute."""
        for key, value in self.attrib.items():
            if key not in known and value:
                raise Refused(self, f"<{self.tag} {key}={quoted(value)}> isn't supported")

    def __str__(self):
        name = next((f" {key}={quoted(self.attrib[key])}" for key in ("id", "src", "host") if key in self.attrib), "")
        return f"<{self.tag}{name}>"


def read_bytes(name):
    try:
        if name == "-":
            return sys.stdin.buffer.read() if sys.stdin else b""
        with open(name, "rb") as file:
            return file.read()
    except (OSError, ValueError) as fault:
        raise Unread(f"{name}: {getattr(fault, 'strerror', None) or fault}") from None


def read_lines(name):
    """The lines of a file of ASCII."""
    try:
        return read_bytes(name).decode("ascii").splitlines()
    except UnicodeDecodeError as fault:
        raise Unread(f"{name}: {fault}") from None


def find(name, folder):
    """The path of a file that is named relative to the working folder, or to another folder."""
    return name if name == "-" or os.path.exists(name) else os.path.join(folder, name)


def read(name, data=None):
    """The root of an XML file."""
    parser, stack, root = expat.ParserCreate(), [], []

    def start(tag, attrib):
        element = Element(tag, attrib, name, parser.CurrentLineNumber)
        if len(stack) >= DEEPEST:
            raise Refused(element, f"elements deeper than {DEEPEST}")
        (stack[-1].children if stack else root).append(element)
        stack.append(element)

    def text(data):
        if stack:
            stack[-1].text += data

    parser.StartElementHandler, parser.CharacterDataHandler = start, text
    parser.EndElementHandler = lambda tag: stack.pop()
    parser.buffer_text = True
    try:
        parser.Parse(read_bytes(name) if data is None else data, True)
    except (expat.ExpatError, ValueError, LookupError) as fault:
        raise Unread(f"{name}: not XML: {fault}") from None
    return root[0]
