"""The trace of a program: the actions of its actors, in the form of docs/specification.md, which the tools read."""

import re
from typing import TextIO

from .rounds import maestro


def seconds(time: int) -> str:
    text = f"{time:010}"
    return f"{text[:-9]}.{text[-9:]}"


# Actors that have moved get numbers from here on.
MOVED = 10**6


class Trace:
    """Writes the lines. The number of an actor is its pid, which is appended to a name that an earlier actor has.

    In a trace an actor stays on its host; an actor that moves becomes another one.
    """

    def __init__(self, out: TextIO):
        self.out, self.ids, self.names, self.taken = out, {}, {}, set()

    def id_of(self, actor) -> tuple[str, str]:
        """The name and the beginning of a line of an actor where it is now."""
        key = actor.pid, actor._host.id
        found = self.ids.get(key)
        if found is None:
            if actor.pid not in self.names:
                number, name = actor.pid, re.sub(r"[^A-Za-z0-9_.-]", "_", actor.name)[:40] or "_"
                name = f"{name}-{number}" if name in self.taken else name
                self.names[actor.pid] = name
            else:
                number, name = MOVED + len(self.ids), f"{self.names[actor.pid]}.{actor._host.id}"[:64]
            self.taken.add(name)
            found = self.ids[key] = name, f"[{actor._host.id}:{name}:({number})"
        return found

    def name_of(self, actor) -> str:
        return self.id_of(actor)[0]

    def add(self, actor, begin: int, text: str) -> None:
        """Adds an action that ends now."""
        now = maestro.now
        self.out.write(f"{self.id_of(actor)[1]} {seconds(now)}] {text} {seconds(now - begin)}\n")

    def sent(self, message, begin: int) -> None:
        """Adds a send, if the actors have called put and get; else a wait."""
        size = round(message.size)
        text = f"send {self.name_of(message.receiver)} {size}" if message.blocking == 2 else "wait"
        self.add(maestro.current, begin, text)

    def received(self, message, begin: int) -> None:
        self.add(maestro.current, begin, f"recv {self.name_of(message.sender)}" if message.blocking == 2 else "wait")

    def deadlock(self) -> None:
        """Adds the end of a run in which actors are blocked."""
        self.out.write(f"deadlock at {seconds(maestro.now)}\n")
        for actor in maestro.actors.values():
            self.out.write(f"blocked {self.id_of(actor)[1]}] wait\n")
        self.out.flush()

    def end(self, lines: list[str]) -> None:
        """Adds the last lines of the program: when the run ended, and energies."""
        self.out.write("".join(f"{line}\n" for line in lines))
        self.out.flush()
