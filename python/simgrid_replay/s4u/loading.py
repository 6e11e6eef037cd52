"""Loads platforms (SimGrid's XML and this program's TOML) and deployments."""

import os
import tomllib
import xml.etree.ElementTree as ET
from collections.abc import Callable
from types import SimpleNamespace

from ..routes import number
from . import logs
from .actors import Actor
from .errors import NotHere
from .platform import Host, Link, SplitDuplexLink, network
from .rounds import maestro
from .zones import NetPoint, simgrid_files

functions: dict[str, Callable] = {}
OFF = ("0", "no", "off", "false")


def load_platform(path: str, model: str) -> None:
    """Adds the hosts and links of a platform file."""
    if os.fspath(path).endswith(".toml"):
        with open(path, "rb") as file:
            network.document = tomllib.load(file)
        hosts, links, speeds = {}, {}, {}
    else:
        hosts, links = read_xml(path, model)
        speeds = speeds_of(path)
    for row in network.document.get("host", []):
        name = hosts.get(row["id"], row["id"])
        Host(name, row, *speeds.get(name, (None, 0)), NetPoint(name, row["id"]))
    for row in network.document.get("link", []):
        kind = SplitDuplexLink if row.get("sharing_policy") == "SPLITDUPLEX" else Link
        kind(links.get(row["id"], row["id"]), row)
    follow_states()
    follow_speeds()


def read_xml(path: str, model: str) -> tuple[dict[str, str], dict[str, str]]:
    """Reads a platform of SimGrid, and returns SimGrid's names of hosts and links by their names here."""
    simgrid_files()
    from simgrid_files import convert, notes
    try:
        study = convert.study(SimpleNamespace(platform=path, deployment=None, model=model, crosstraffic="no", unit="1"))
    except (notes.Refused, notes.Unread) as fault:
        raise NotHere(str(fault)) from None
    network.document = tomllib.loads(study.texts["platform.toml"])
    setting = study.platform.settings.get("network/crosstraffic")
    if setting is not None:
        network.cross = setting.get("value").lower() not in OFF
    return tuple({own: name for name, own in names.of.items()} for names in (study.platform.names, study.platform.link_names))


def speeds_of(path: str) -> dict[str, tuple[list[float], int]]:
    """The speeds of each host that has several, and the number of the first."""
    found = {}
    root = ET.parse(path).getroot()
    for host in root.iter("host"):
        found[host.get("id")] = several(host), int(host.get("pstate", "0"))
    clusters = [(cluster.get("prefix", ""), several(cluster)) for cluster in root.iter("cluster")]
    for row in network.document.get("host", []):
        for prefix, speeds in clusters:
            if row["id"].startswith(prefix) and row["id"] not in found:
                found[row["id"]] = speeds, 0
    return found


def several(element) -> list[float]:
    return [float(number(text.strip())) for text in element.get("speed").split(",")]


def seconds(text: str) -> float:
    return float(number(text))


def period_of(row: dict) -> float:
    """The period of a profile, or -1."""
    return seconds(row["loop"]) + seconds(row["dates"][-1]) if "loop" in row else -1


def follow_states() -> None:
    """Applies state profiles here, since the program doesn't kill the actors of a host."""
    for row in network.document.pop("state_profile", []):
        thing = next(host for host in network.hosts.values() if host.id == row["host"]) if "host" in row else network.by_id[row["link"]]
        points = [(seconds(date), float(state == "on")) for date, state in zip(row["dates"], row["states"])]
        thing.on = not (points and points[0] == (0.0, 0.0))
        network.any_off = network.any_off or not thing.on
        network.followed.append((thing.turn, points, period_of(row), True))


def follow_speeds() -> None:
    """Lets hosts follow the profiles of their speeds."""
    for row in network.document.get("profile", []):
        if "host" in row:
            host = next(host for host in network.hosts.values() if host.id == row["host"])
            points = [(seconds(date), float(number(value)) / host.speed) for date, value in zip(row["dates"], row["values"])]
            network.followed.append((host.mirror.set_ratio, points, period_of(row), False))


def load_deployment(path: str) -> None:
    """Starts the actors of a deployment file of SimGrid's."""
    for element in ET.parse(path).getroot().iter():
        if element.tag in ("actor", "process"):
            deploy(element)


def deploy(element) -> None:
    words = [child.get("value") for child in element.iter("argument")]
    name = element.get("function")
    if name not in functions:
        raise NotHere(f"no function {name} is registered for the deployment")
    host, start, kill = Host.by_name(element.get("host")), float(element.get("start_time", "0")), float(element.get("kill_time", "-1"))
    restart, function = element.get("on_failure") == "RESTART", called(functions[name])

    def begin() -> None:
        if restart:
            host.boot.append((name, function, words))
        if not host.on:
            logs.write("WARNING", f"Cannot launch actor '{name}' on failed host '{host.name}'")
            logs.write("WARNING", f"Starting actor {name}({host.name}) failed because its host is turned off.")
            maestro.last_pid += 1
            return
        actor = Actor(name, host, function, words, None)
        if kill >= 0:
            maestro.alarms.after(kill - maestro.now / 10**9, actor.end)
    if start > 0:
        maestro.alarms.after(start, begin)
    else:
        begin()


def called(function: Callable) -> Callable:
    """Calls a function; of a class it makes an object, which it calls."""
    def main(*words) -> None:
        made = function(*words)
        if callable(made):
            made()
    return main
