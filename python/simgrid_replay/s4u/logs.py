"""Lines of the log, as SimGrid lays them out."""

import re
import sys
from collections.abc import Callable

from .rounds import SECOND, maestro

LEVELS = {"DEBUG": 1, "VERBOSE": 2, "INFO": 3, "WARNING": 4, "ERROR": 5, "CRITICAL": 6}
THRESHOLDS = {"trace": 0, "debug": 1, "verb": 2, "verbose": 2, "info": 3, "warn": 4, "warning": 4, "error": 5, "critical": 6}

Layout = Callable[[float, str, str, int, str, str], str]
layout: Layout | None = None
threshold = LEVELS["INFO"]


def set_up(words: list[str]) -> None:
    """Takes the options `--log=..` of a command line: a layout, and the least level."""
    global layout, threshold
    layout, threshold = None, LEVELS["INFO"]
    for word in words:
        for setting in word.removeprefix("--log=").split(" ") if word.startswith("--log=") and ".fmt:" not in word else [word]:
            name, _, value = setting.removeprefix("--log=").partition(":")
            if name == "root.fmt" and word.startswith("--log="):
                layout = layout_of(value)
            elif name in ("root.thres", "root.threshold", "python.thres", "python.threshold") and value in THRESHOLDS:
                threshold = THRESHOLDS[value]


def layout_of(text: str) -> Layout:
    """What writes a line by SimGrid's layout: %r date, %h host, %a actor, %i its number, %m message, %e blank, %n end of line."""
    parts = re.findall(r"%([0-9]*\.?[0-9]*)([a-zA-Z])|([^%]+)", text)

    def lay_out(date: float, host: str, actor: str, pid: int, level: str, message: str) -> str:
        words = {"e": " ", "a": actor, "t": actor, "h": host, "i": str(pid), "m": message, "n": "\n", "c": "python", "p": level}
        out = []
        for width, code, plain in parts:
            if plain:
                out.append(plain)
            elif code == "r":
                out.append(f"%{width}{'' if '.' in width else '.6'}f" % date)
            else:
                out.append(words.get(code, ""))
        return "".join(out)
    return lay_out


def write(level: str, message: str, category: str = "python") -> None:
    """Writes a line to standard error, where its level is logged."""
    if LEVELS[level] < threshold:
        return
    actor, date = maestro.current, maestro.now / SECOND
    host, name, pid = (actor._host.name, actor.name, actor.pid) if actor else ("", "maestro", 0)
    if layout is not None:
        sys.stderr.write(layout(date, host, name, pid, level, message))
    else:
        who = f"{host}:{name}:({pid}) " if actor else ""
        sys.stderr.write(f"[{who}{date:.6f}] [{category}/{level}] {message}\n")
