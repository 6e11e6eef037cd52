"""Traces that are replayed unchanged, and the script."""

import os
from collections import Counter
from typing import NamedTuple

from . import xmlfile
from .notes import Refused

# Lines that all actors have a part in.
GATHER = ("barrier", "bcast", "reduce", "allreduce", "alltoall")


class Line(NamedTuple):
    """A line of a trace, with its file and number."""
    text: str
    words: tuple
    file: str
    line: int


def lines_of(path):
    """The lines of a trace; comments and empty lines have no words."""
    found = []
    for number, text in enumerate(xmlfile.read_lines(path), 1):
        words = tuple(text.split())
        found.append(Line(text, () if words and words[0].startswith("#") else words, path, number))
    return found


def read(paths):
    """The lines of each trace. An index, as `smpirun -trace-ti` writes it, is replaced by the traces that it names."""
    found = []
    for path in paths:
        lines = lines_of(path)
        given = [line for line in lines if line.words]
        if given and all(len(line.words) == 1 for line in given) and not all(line.words[0].isdecimal() for line in given):
            found += [lines_of(named(line)) for line in given]
        else:
            found.append(lines)
    return found


def named(line):
    """The trace that a line of an index names: in the folder of the index, or relative to the working folder, as in SimGrid."""
    name = line.words[0]
    for path in (os.path.join(os.path.dirname(line.file), name), name):
        if os.path.isfile(path):
            return path
    raise Refused(line, f"{name}: there is no such file in the folder of the index, nor in this one; a line of an SMPI trace has a rank and an action")


class Script:
    """The lines of script.txt, each with its place in SimGrid's files; for SMPI's ranks also the number of messages by size."""

    def __init__(self, notes, ranks=0):
        self.notes, self.ranks, self.lines, self.places, self.gathers = notes, ranks, [], [], None
        self.sizes = Counter()

    def line(self, text, place):
        self.lines.append(text)
        self.places.append(place)

    def add(self, lines, actor=None):
        """Adds a trace unchanged. The trace of a single actor may use another name; it becomes the actor's."""
        for line in lines:
            text = line.text
            if actor and line.words and line.words[0] != actor:
                self.notes.add(line, f"lines of {line.words[0]} in a trace of {actor} are {actor}'s, as in SimGrid")
                text = " ".join((actor, *line.words[1:]))
            if len(line.words) > 1 and line.words[1] in GATHER:
                self.gathers = self.gathers or line
            self.line(text, line)

    def text(self):
        return "".join(line + "\n" for line in self.lines)


def judge(script, explain, deployment):
    """Raises `Refused` for the first line that the program would reject, with its place."""
    judged = explain.Script("script.txt", script.text().encode(), deployment)
    for finding in judged.findings():
        number = int(finding.line.split()[2].rstrip(":")) if finding.line.startswith("script line") else 0
        place = script.places[number - 1] if number else (script.places[0] if script.places else ("script.txt", 0))
        raise Refused(place, f"{finding.line.partition(': ')[2]}: {finding.found}"
                      + (f"; allowed: {finding.allowed}" if finding.allowed else ""))
