"""Runs the definition of the program: from a command line and the bytes of three files to two streams and a status."""

import os
import pathlib
import re
import sys
from dataclasses import dataclass

from . import Refused
from .library import Library
from .program import Program
from .values import Later, Record, bytes_of, forget, items_of, list_of, now

CONTEXTS = 4096
HELP = {"DisplayHelp", "DisplayVersion"}
PARTS = {"replay": 3, "run": 2, "churn": 0}


@dataclass
class Answer:
    """The allowed statuses and both streams; the streams are None for help, the version and an invalid command line."""

    statuses: set
    out: bytes | None
    err: bytes | None
    kinds: tuple = ()


def roots(library):
    """The definitions that the contract of the top call cites, and those that give a job and a number for a status."""
    text = (library.crates / "simgrid_replay/src/whole_call.rt").read_text(encoding="utf-8")
    found = {}
    for path, leaves in re.findall(r"^ghost use (Rattle\.[\w.]+)\.\{([^}]*)\};", text, re.M):
        for name in ("outcome", "refusals"):
            if name in re.split(r",\s*", leaves):
                found[name] = library.member(path, name).definition
    # the job comes with the faults
    found["asked_of"] = found["refusals"].module.definitions["asked_of"]
    found["status_code"] = library.find("status_code")
    return found


def definition(top, plain=False, **options):
    """The definition of the program of a repository."""
    library = Library(top, plain=plain)
    return Program(library, roots(library), **options)


def text(data):
    return list_of(data if isinstance(data, bytes) else os.fsencode(data))


def source(name, is_script=False, folder="."):
    """The bytes of a file, or that it can't be read."""
    try:
        if is_script and os.path.basename(name) == b"-":
            data = sys.stdin.buffer.read()
        else:
            data = pathlib.Path(os.fsdecode(os.path.join(os.fsencode(folder), name))).read_bytes()
    except OSError:
        return Record(bytes=(), broken=True)
    return Record(bytes=text(data), broken=False)


def ask(program, words, folder=".", contexts=CONTEXTS):
    """The answer of the definition to a command line, with the files of a folder."""
    forget()
    words = list_of([text(word) for word in ("simgrid_replay", *words)])
    kinds = tuple(kind[0] for kind in items_of(program.refusals(words)))
    if kinds:
        return Answer({0 if kind in HELP else 2 for kind in kinds}, None, None, kinds)
    _, job = now(program.asked_of(words))
    command, *names = now(now(job).request)
    names = [bytes_of(name) for name in names[:PARTS[command]]]
    parts = [Later(lambda at=at, name=name: source(name, at == 2, folder)) for at, name in enumerate(names)]
    nothing = [Record(bytes=(), broken=False)] * (3 - len(parts))
    got = program.outcome(job)(contexts)
    for part in parts + nothing:
        got = got(part)
    return Answer({program.status_code(got.status)}, bytes_of(got.out), bytes_of(got.err))


def checked(top):
    """Raises `Refused` if the folder isn't the repository."""
    if not (pathlib.Path(top) / "crates/simgrid_replay/src/whole_call.rt").exists():
        raise Refused(f"{top} isn't a checkout of simgrid_replay")
