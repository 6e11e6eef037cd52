"""Rows of the output files, each with its place in SimGrid's files."""

import importlib.machinery
import importlib.util
import os
import re

from .notes import Refused, plain

MOST_BYTES = 16 * 1024 * 1024
# Above this number the rows that a topology gives aren't checked again; they are made of checked names.
MOST_READ = 20_000
PLACED = re.compile(r"\(table ([0-9]+), row ([0-9]+), key [0-9]+\)")


def toml(value):
    if isinstance(value, bool):
        return "true" if value else "false"
    if isinstance(value, (list, tuple)):
        return "[" + ", ".join(map(toml, value)) + "]"
    return str(value) if isinstance(value, int) else f'"{value}"'


class Rows:
    """The rows by table, in the order of the tables."""

    def __init__(self, name, tables):
        self.name, self.tables = name, {table: [] for table in tables}

    def add(self, table, place, **keys):
        self.tables[table].append((keys, place))
        return keys

    def text(self, notes, every=True):
        """The TOML; without `every`, only the first rows of long tables."""
        lines = [f"# {plain(note)}\n" for note in notes]
        for table, rows in self.tables.items():
            for keys, _ in rows if every else rows[:MOST_READ]:
                lines.append(f"\n[[{table}]]\n" + "".join(f"{key} = {toml(value)}\n" for key, value in keys.items()))
        return "".join(lines).lstrip("\n")

    def place(self, line, otherwise):
        """The place in SimGrid's files of the row that a fault line names."""
        number, row = map(int, PLACED.search(line).groups() if PLACED.search(line) else (0, 0))
        rows = list(self.tables.values())[number - 1] if number else []
        return rows[row - 1][1] if 0 < row <= len(rows) else otherwise


def explain():
    """Loads the tool that has the rules of the three files."""
    path = os.path.join(os.path.dirname(os.path.dirname(os.path.abspath(__file__))), "explain")
    loader = importlib.machinery.SourceFileLoader("explain_of_from_simgrid", path)
    module = importlib.util.module_from_spec(importlib.util.spec_from_loader(loader.name, loader))
    loader.exec_module(module)
    return module


def judge(rows, text, part, otherwise):
    """Raises `Refused` for a fault that the program would report, with the place in SimGrid's files."""
    if len(text.encode()) > MOST_BYTES:
        raise Refused(otherwise, f"the {rows.name} would have {len(text.encode()):,} bytes, but at most {MOST_BYTES:,} are allowed"
                      + (": use fewer hosts in topologies, or shorter names" if rows.name == "platform" else ""))
    for finding in part.first():
        place = rows.place(finding.line, otherwise)
        raise Refused(place, f"{finding.line}: {finding.found}" + (f"; allowed: {finding.allowed}" if finding.allowed else ""))
