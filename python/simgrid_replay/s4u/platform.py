"""Hosts and links, and the network that they make."""

from collections import deque
from collections.abc import Callable, Iterator

from ..finer import finer, is_symmetrical, unit_of
from ..routes import Router, number
from . import logs
from .actors import Actor, maestro
from .errors import NetworkFailureException, NotHere
from .executions import Mirror
from .profiles import points_of, unrolled
from .rounds import SECOND, simcall

# The most zones of a platform.
MOST_ZONES = 1024


class Network:
    """The platform: the tables of its TOML in `document`, its hosts and links by name, and the running messages."""

    def __init__(self) -> None:
        self.document: dict[str, list[dict]] = {}
        self.hosts: dict[str, Host] = {}
        self.links: dict[str, Link] = {}
        self.by_id: dict[str, Link] = {}
        self.on_creation: list[Callable] = []
        self.cross, self.unit = True, 1
        self.messages: dict = {}
        self.any_off = self.limited = False
        self.router: Router | None = None
        self.routes: dict = {}
        self.followed: list = []

    def table(self, name: str) -> list[dict]:
        return self.document.setdefault(name, [])

    def text_document(self) -> dict:
        """The platform in the form that the program reads."""
        self.add_loops()
        self.unit = unit_of(self.document)
        return finer(self.document, self.unit, self.cross and is_symmetrical(self.document))

    def add_loops(self) -> None:
        """Routes each host of a Star zone to itself up and down its own links, as in SimGrid: in its own zone.

        A platform has at most 1,024 zones; with more hosts they keep the program's loopback.
        """
        zones = {row["id"]: row for row in self.table("zone")}
        spokes = {row["child"]: row for row in self.table("spoke")}
        hosts = [row for row in self.table("host") if zones[row["zone"]]["routing"] == "Star" and row["id"] in spokes]
        if not hosts or len(zones) + len(hosts) > MOST_ZONES:
            return
        router, taken = Router(self.document), {*zones, *self.by_id, *(row["id"] for row in [*self.table("host"), *self.table("router")])}
        for row in hosts:
            host, zone = row["id"], row["zone"]
            own = next(name for number in range(len(hosts) + 1) if (name := f"{host[:56]}_z{number or ''}") not in taken)
            taken.add(own)
            up, down, gateway = router.spokes[host]
            self.table("zone").append({"id": own, "parent": zone, "routing": "Full"})
            self.table("route").append({"src": host, "dst": host, "links": list(dict.fromkeys([*up, *down]))})
            row["zone"] = own
            spokes[host].update(child=own, gateway=gateway)

    def links_between(self, source: "Host", target: "Host") -> list["Link"]:
        """The links of the route from a host to another one, or to itself where a route is declared."""
        found = self.routes.get((source, target))
        if found is None:
            if self.router is None:
                self.router = Router(self.document)
            names = self.router.route(source.id, target.id) or []
            found = self.routes[source, target] = [self.by_id[name] for name in names]
        return found

    def declares_loopback(self, host: "Host") -> bool:
        return bool(self.links_between(host, host))

    # Links with a limit of simultaneous messages

    def queue(self, message) -> bool:
        """Whether a message has to wait, since a link of its route has reached its limit."""
        links = [link for link in self.links_between(message.source, message.target) if link.limit]
        full = any(len(link.users) >= link.limit for link in links)
        for link in links:
            if full:
                link.waiting.append(message)
            else:
                link.users[message] = None
        return full

    def unqueue(self, message) -> None:
        """Starts the messages that have waited for one that has completed or failed."""
        for link in self.links_between(message.source, message.target):
            if link.limit and message in link.users:
                del link.users[message]
                while link.waiting and len(link.users) < link.limit:
                    link.waiting.popleft().begin()


network = Network()


class Host:
    """A host. `index` is its number in the program, `on` whether it is turned on."""

    class SharingPolicy:
        NONLINEAR, LINEAR = "NONLINEAR", "LINEAR"

    NONLINEAR, LINEAR = "NONLINEAR", "LINEAR"

    def __init__(self, name: str, row: dict, speeds: list[float] | None = None, pstate: int = 0, netpoint=None):
        self.name, self.id, self._row, self.netpoint = name, row["id"], row, netpoint
        self._speeds = speeds or [float(number(row["speed"]))]
        self._pstate = self._base = pstate if pstate < len(self._speeds) else 0
        self.scale, self.on, self.index, self.network = 1.0, True, len(network.hosts), network
        self.actors: dict[int, Actor] = {}
        self.boot: list[tuple] = []
        self.mirror = Mirror(self)
        network.hosts[name] = self
        for function in network.on_creation:
            function(self)

    def __repr__(self) -> str:
        return f"<Host {self.name}>"

    @staticmethod
    def by_name(name: str) -> "Host":
        """The host of this name."""
        if name not in network.hosts:
            raise ValueError(f"Host not found: {name}")
        return network.hosts[name]

    @staticmethod
    def current() -> "Host":
        """The host of the actor that calls."""
        return maestro.current._host

    @staticmethod
    def on_creation_cb(function: Callable[["Host"], None]) -> None:
        """Has the function called for each host that is made."""
        network.on_creation.append(function)

    @property
    def speed(self) -> float:
        """The flops a second of a core in its current state."""
        return self._speeds[self._pstate]

    @property
    def available_speed(self) -> float:
        """The part of the speed that profiles leave, from 0 to 1."""
        return self.mirror.ratio

    @property
    def core_count(self) -> int:
        return self._row.get("core", 1)

    @core_count.setter
    def core_count(self, count: int) -> None:
        if maestro.bridge:
            raise NotHere("Host.core_count during the run")
        self._row["core"] = count

    def set_core_count(self, count: int) -> "Host":
        self.core_count = count
        return self

    @property
    def load(self) -> float:
        """The flops a second at which the host computes now."""
        return self.mirror.load()

    @property
    def pstate_count(self) -> int:
        return len(self._speeds)

    get_pstate_count = pstate_count.fget

    def pstate_speed(self, state: int) -> float:
        return self._speeds[state]

    get_pstate_speed = pstate_speed

    @property
    def pstate(self) -> int:
        """The state, which selects one of the host's speeds. Running executions continue at the new speed."""
        return self._pstate

    @pstate.setter
    def pstate(self, state: int) -> None:
        def change() -> None:
            self.mirror.update()
            self._pstate, self.scale = state, self._speeds[self._base] / self._speeds[state]
            for execution in list(self.mirror.executions):
                execution.restart()
        simcall(change)

    def get_netpoint(self):
        return self.netpoint

    def set_sharing_policy(self, policy, cb=None) -> "Host":
        if policy == Host.NONLINEAR:
            raise NotHere("hosts with a user-defined sharing function")
        return self

    def set_state_profile(self, profile: str, period: float) -> "Host":
        """Turns the host off and on at dates: lines `DATE 0` or `DATE 1`."""
        network.followed.append((self.turn, points_of(profile), period, True))
        return self

    def set_speed_profile(self, profile: str, period: float) -> "Host":
        """Changes the speed at dates: lines `DATE RATIO`."""
        points = points_of(profile)
        row = {"host": self.id, "dates": [f"{date:.9f}" for date, _ in points], "values": [str(round(x * self.speed)) for _, x in points]}
        if period > 0:
            row["loop"] = f"{period - points[-1][0]:.9f}"
        network.table("profile").append(row)
        network.followed.append((self.mirror.set_ratio, points, period, False))
        return self

    # Failures

    def turn(self, on: bool) -> None:
        """Turns the host on or off. Off, its executions and messages fail, and its actors are killed."""
        on = on > 0
        if on == self.on:
            return
        self.on = on
        if not on:
            fail_messages("Remote peer failed", lambda message: self in (message.source, message.target))
            maestro.after[0].extend(execution.fail for execution in self.mirror.executions)
            for actor in list(self.actors.values()):
                actor.end()
        elif self.boot:
            logs.write("INFO", f"Restart actors on host {self.name}")
            for name, function, words in self.boot:
                Actor(name, self, function, words, None)

    def turn_off(self) -> None:
        simcall(self.turn, False)

    def turn_on(self) -> None:
        simcall(self.turn, True)

    def is_on(self) -> bool:
        return self.on

    def route_to(self, to: "Host") -> tuple[list["Link"], float]:
        """The links to another host, and their latencies in all."""
        links = network.links_between(self, to)
        return links, sum(link.latency for link in links)

    def get_disks(self):
        raise NotHere("disks")

    def create_disk(self, *words):
        raise NotHere("disks")

    def set_coordinates(self, coordinates) -> None:
        raise NotHere("coordinates")

    def seal(self) -> "Host":
        return self


class Link:
    """A link."""

    class SharingPolicy:
        NONLINEAR, WIFI, SPLITDUPLEX, SHARED, FATPIPE = "NONLINEAR", "WIFI", "SPLITDUPLEX", "SHARED", "FATPIPE"

    NONLINEAR, WIFI, SPLITDUPLEX, SHARED, FATPIPE = "NONLINEAR", "WIFI", "SPLITDUPLEX", "SHARED", "FATPIPE"

    def __init__(self, name: str, row: dict, direction: str = ""):
        self.name, self.id, self._row, self.on = name + direction, row["id"] + direction, row, True
        self.limit, self.users, self.waiting = 0, {}, deque()
        network.links[self.name] = network.by_id[self.id] = self

    def __repr__(self) -> str:
        return f"<Link {self.name}>"

    @staticmethod
    def by_name(name: str) -> "Link":
        """The link of this name."""
        if name not in network.links:
            raise ValueError(f"Link not found: {name}")
        return network.links[name]

    def set_latency(self, latency: str | float) -> "Link":
        """Sets the latency, before the run begins."""
        self._fixed("latency")
        self._row["latency"] = latency if isinstance(latency, str) else f"{latency:.9f}"
        return self

    def set_bandwidth(self, bandwidth: float) -> "Link":
        """Sets the bytes a second, before the run begins."""
        self._fixed("bandwidth")
        self._row["bandwidth"] = str(round(bandwidth))
        return self

    def _fixed(self, what: str) -> None:
        if maestro.bridge:
            raise NotHere(f"a new {what} of a link during the run; a profile can change the bandwidth")

    def set_bandwidth_profile(self, profile: str, period: float) -> "Link":
        """Changes the bandwidth at dates: lines `DATE BYTES_A_SECOND`."""
        points = points_of(profile)
        row = {"link": self.id, "dates": [f"{date:.9f}" for date, _ in points], "values": [str(round(value)) for _, value in points]}
        if period > 0:
            row["loop"] = f"{period - points[-1][0]:.9f}"
        network.table("profile").append(row)
        return self

    def set_latency_profile(self, profile: str, period: float) -> "Link":
        raise NotHere("profiles of latencies")

    def set_state_profile(self, profile: str, period: float) -> "Link":
        """Turns the link off and on at dates: lines `DATE 0` or `DATE 1`."""
        network.followed.append((self.turn, points_of(profile), period, True))
        return self

    def set_sharing_policy(self, policy: str, cb=None) -> "Link":
        if policy in (Link.NONLINEAR, Link.WIFI):
            raise NotHere(f"links that are {policy}")
        self._row["sharing_policy"] = policy
        return self

    def set_concurrency_limit(self, limit: int) -> "Link":
        """Limits the number of messages that use the link at once. The others wait before their latency passes."""
        self.limit = limit
        network.limited = True
        return self

    def set_host_wifi_rate(self, host: Host, level: int) -> None:
        raise NotHere("Wi-Fi links")

    @property
    def bandwidth(self) -> float:
        """The bytes a second."""
        return float(number(str(self._row["bandwidth"])))

    @property
    def latency(self) -> float:
        """The latency in seconds."""
        return float(number(str(self._row.get("latency", "0"))))

    def turn(self, on: bool) -> None:
        """Turns the link on or off. Off, the messages over it fail."""
        self.on = on > 0
        network.any_off = network.any_off or not self.on
        if not self.on:
            fail_messages("Link failure", lambda message: self in network.links_between(message.source, message.target))

    def turn_off(self) -> None:
        simcall(self.turn, False)

    def turn_on(self) -> None:
        simcall(self.turn, True)

    def is_on(self) -> bool:
        return self.on

    def seal(self) -> "Link":
        return self


class SplitDuplexLink(Link):
    """A link with two directions, each with the whole bandwidth."""

    def __init__(self, name: str, row: dict):
        super().__init__(name, row)
        self.link_up, self.link_down = Link(name, row, "_UP"), Link(name, row, "_DOWN")

    def get_link_up(self) -> Link:
        return self.link_up

    def get_link_down(self) -> Link:
        return self.link_down

    def set_concurrency_limit(self, limit: int) -> "Link":
        for link in (self.link_up, self.link_down):
            link.set_concurrency_limit(limit)
        return self

    def turn(self, on: bool) -> None:
        self.on = on > 0
        for link in (self.link_up, self.link_down):
            link.turn(on)


class LinkInRoute:
    """A link of a route, in one of its directions."""

    class Direction:
        UP, DOWN, NONE = "_UP", "_DOWN", ""

    UP, DOWN, NONE = "_UP", "_DOWN", ""

    def __init__(self, link: Link, direction: str = ""):
        self.id = link.id + direction


def fail_messages(text: str, chosen: Callable) -> None:
    """Lets running messages fail, after the calls of this scheduling round."""
    for message in network.messages:
        if chosen(message):
            maestro.after[1].append(lambda message=message: message.break_off(text))


def follow(turn: Callable, changes: Iterator[tuple[float, float]], wanted: bool) -> None:
    """Makes the changes of a profile, each at its date; each begins the wait for the next."""
    for date, value in changes:
        def change(value=value) -> None:
            turn(value)
            follow(turn, changes, wanted)
        maestro.alarms.after(date - maestro.now / SECOND, change, wanted)
        return


def begin_profiles() -> None:
    """Begins to follow all profiles."""
    for turn, points, period, wanted in network.followed:
        follow(turn, unrolled(points, period), wanted)
