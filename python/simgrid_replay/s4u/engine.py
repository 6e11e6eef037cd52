"""The engine: loads a platform and a deployment, and runs the actors."""

import os
from collections.abc import Callable

from .. import find_program
from .. import toml as toml_text
from . import loading, logs, zones
from .bridge import CONTEXTS, Bridge
from .errors import Deadlock, NotHere
from .messages import Mailbox
from .order import in_order
from .platform import Host, Link, begin_profiles, network
from .rounds import SECOND, Maestro, maestro, nanoseconds
from .trace import Trace
from .zones import NetPoint, NetZone

# The number of workers of a run over all hosts; hosts on which actors start have most of them.
WORKERS = 16384


class Settings:
    """What `python3 -m simgrid_replay.s4u` sets, before the program makes its engine."""

    trace: str | None = os.environ.get("SIMGRID_REPLAY_TRACE") or None
    workers = int(os.environ.get("SIMGRID_REPLAY_WORKERS") or 0)


class EngineClass(type):
    """`Engine.clock` and `Engine.instance` are properties of the class."""

    @property
    def clock(cls) -> float:
        """The date in seconds."""
        return maestro.now / SECOND

    @property
    def instance(cls) -> "Engine":
        """The engine, which is created if necessary."""
        return Engine.made or Engine([])

    def get_clock(cls) -> float:
        return maestro.now / SECOND


class Engine(metaclass=EngineClass):
    """The simulation, of which there is one at a time."""

    made: "Engine | None" = None

    def __init__(self, args: list[str] = ()):
        """Takes SimGrid's options `--log=..` and `--cfg=..` from the words of a command line."""
        if Engine.made is not None:
            reset()
        Engine.made, self.model, self.last_lines = self, "LV08", []
        logs.set_up(list(args))
        for word in args:
            if word.startswith("--cfg="):
                self.set_config(word.removeprefix("--cfg="))

    @property
    def clock(self) -> float:
        return maestro.now / SECOND

    @property
    def instance(self) -> "Engine":
        return self

    @staticmethod
    def set_config(setting: str) -> None:
        """Takes a setting `NAME:VALUE` of SimGrid. Settings that change no date here are ignored."""
        name, _, value = setting.partition(":")
        if name == "network/crosstraffic":
            network.cross = value.lower() not in loading.OFF
        elif name == "network/model" and value in ("LV08", "CM02"):
            Engine.instance.model = value
        elif name in ("host/model", "network/model") and value not in ("default", "compound"):
            raise NotHere(f"the model {value}")

    # Platforms and deployments ---------------------------------------------------------------------------------------

    def load_platform(self, path: str) -> None:
        """Loads a platform: TOML if the file's name ends in .toml, else SimGrid's XML."""
        loading.load_platform(path, self.model)

    def load_deployment(self, path: str) -> None:
        """Starts the actors of a deployment in SimGrid's XML."""
        loading.load_deployment(path)

    @staticmethod
    def register_actor(name: str, function: Callable) -> None:
        """Gives a deployment the function of this name."""
        loading.functions[name] = function

    @staticmethod
    def host_by_name(name: str) -> Host | None:
        return network.hosts.get(name)

    @property
    def all_hosts(self) -> list[Host]:
        return [network.hosts[name] for name in sorted(network.hosts)]

    def get_all_hosts(self) -> list[Host]:
        return self.all_hosts

    @property
    def all_links(self) -> list[Link]:
        return [network.links[name] for name in sorted(network.links)]

    def get_all_links(self) -> list[Link]:
        return self.all_links

    @property
    def all_netpoints(self) -> list[NetPoint]:
        return [host.netpoint for host in self.all_hosts]

    @property
    def netzone_root(self) -> NetZone:
        """The zone that has all others."""
        row = next(row for row in network.document["zone"] if "parent" not in row)
        zone = NetZone.__new__(NetZone)
        zone.name, zone._row, zone.netpoint = row["id"], row, NetPoint(row["id"], row["id"])
        return zone

    def get_netzone_root(self) -> NetZone:
        return self.netzone_root

    def netpoint_by_name(self, name: str) -> NetPoint | None:
        return network.hosts[name].netpoint if name in network.hosts else None

    @staticmethod
    def mailbox_by_name_or_create(name: str) -> Mailbox:
        return Mailbox.by_name(name)

    # The run ---------------------------------------------------------------------------------------------------------

    def run(self) -> None:
        """Runs until all actors have ended. A deadlock raises Deadlock, and an exception in an actor ends the run."""
        self.run_until(-1)

    def run_until(self, max_date: float = -1) -> None:
        """Runs up to a date."""
        try:
            self.begin()
            self.go_on(max_date)
        except BaseException:
            if maestro.bridge is not None:
                maestro.bridge.close()
            if maestro.trace:
                maestro.trace.out.flush()
            raise

    def begin(self) -> None:
        """Starts the program if it isn't running yet."""
        if maestro.bridge is not None:
            return
        if not network.hosts:
            raise NotHere("a run without hosts: load or create a platform")
        hosts = list(network.hosts.values())
        bridge = Bridge(find_program(), toml_text(network.text_document()), [host.id for host in hosts], shares(hosts))
        maestro.bridge = bridge
        if Settings.trace:
            maestro.trace = Trace(open(Settings.trace, "w", encoding="ascii"))
        begin_profiles()

    def go_on(self, max_date: float) -> None:
        reached = []
        if max_date >= 0:
            maestro.alarms.add(nanoseconds(max_date), lambda: reached.append(True))
        bridge = maestro.bridge
        while True:
            maestro.run_ready()
            if reached or not maestro.actors:
                break
            if maestro.is_stuck():
                raise deadlock()
            maestro.advance()
        if not maestro.actors:
            self.last_lines = bridge.finish()
            if maestro.trace:
                maestro.trace.end(self.last_lines)


def shares(hosts: list[Host]) -> list[int]:
    """The number of workers of each host. Hosts on which actors start have most."""
    total = Settings.workers or WORKERS
    busy = sum(1 for host in hosts if host.actors) or len(hosts)
    least = max(1, total // 4 // len(hosts))
    most = max(least, total * 3 // 4 // busy)
    return [min(CONTEXTS, most if host.actors else least) for host in hosts]


def deadlock() -> Deadlock:
    """Logs what each actor waits for, and returns the exception."""
    logs.write("CRITICAL", "Oops! Deadlock detected, some activities are still around but will never complete. This usually happens "
               "when the user code is not perfectly clean.", "ker_engine")
    lines = []
    for actor in maestro.actors.values():
        what = " or ".join(activity.describe() for activity in actor.wait.activities) if actor.wait else "being resumed"
        lines.append(f"Actor {actor.pid} ({actor.name}@{actor.host.name}): waiting for {what}")
        logs.write("INFO", lines[-1], "ker_engine")
    if maestro.trace:
        maestro.trace.deadlock()
    return Deadlock(f"deadlock at {maestro.now / SECOND:.6f}: " + "; ".join(lines[:8]) + ("; .." if len(lines) > 8 else ""))


def reset() -> None:
    """Resets the state, so that a process can make several runs."""
    if maestro.bridge is not None:
        maestro.bridge.close()
    maestro.__init__()
    network.__init__()
    loading.functions.clear()
    Mailbox.boxes.clear()
    zones.NetZone.points.clear()
    zones.NetZone.ways.clear()


Maestro.in_order = staticmethod(in_order)
