"""Platforms that a program creates: zones with their hosts, links and routes."""

import re
import sys
from collections.abc import Callable
from types import SimpleNamespace

from .. import tool_folder
from ..routes import number
from .errors import NotHere
from .platform import Host, Link, LinkInRoute, SplitDuplexLink, network

# SimGrid's default network.
NETWORK = {"latency_factor": "13.01", "bandwidth_factor": "0.97", "window": "4068474"}


class NetPoint:
    """A host, a router or a zone, as a point of routes."""

    def __init__(self, name: str, id: str):
        self.name, self.id = name, id


def simgrid_files():
    """Finds the modules that read SimGrid's files, which belong to the tools."""
    folder = tool_folder()
    if folder is None:
        raise NotHere("the tools of simgrid_replay, which read SimGrid's platforms, aren't installed with this package")
    if str(folder) not in sys.path:
        sys.path.append(str(folder))
    import simgrid_files
    return simgrid_files


def quantity(value) -> str:
    """A number, or a text with a unit; of a list the first."""
    if isinstance(value, (list, tuple)):
        value = value[0]
    return value.split(",")[0].strip() if isinstance(value, str) else str(round(value))


def id_of(name: str, taken: set[str]) -> str:
    """The name that the program has for something."""
    plain = re.sub(r"[^A-Za-z0-9_.-]", "_", name)[:64] or "_"
    made, count = plain, 1
    while made in taken:
        count += 1
        made = f"{plain[:56]}_{count}"
    taken.add(made)
    return made


class NetZone:
    """A zone: hosts, routers and zones, and routes between them."""

    points: set[str] = set()
    ways: set[str] = set()

    def __init__(self, name: str, routing: str):
        self.name = name
        self._row = {"id": id_of(name, NetZone.points), "routing": routing}
        self.netpoint = NetPoint(name, self._row["id"])
        if not network.table("network"):
            network.table("network").append(dict(NETWORK))
        network.table("zone").append(self._row)

    @staticmethod
    def create_full_zone(name: str) -> "NetZone":
        """A zone whose routes are all declared."""
        return NetZone(name, "Full")

    create_empty_zone = create_full_zone

    @staticmethod
    def create_star_zone(name: str) -> "NetZone":
        """A zone in which each host has a route to the middle."""
        return NetZone(name, "Star")

    @staticmethod
    def create_floyd_zone(name: str) -> "NetZone":
        """A zone in which routes are shortest paths."""
        return NetZone(name, "Dijkstra")

    create_dijkstra_zone = create_floyd_zone

    @staticmethod
    def create_vivaldi_zone(name: str) -> "NetZone":
        raise NotHere("Vivaldi zones")

    @staticmethod
    def create_wifi_zone(name: str) -> "NetZone":
        raise NotHere("Wi-Fi zones")

    @staticmethod
    def create_torus_zone(name, parent, dimensions, callbacks, bandwidth, latency, policy) -> "NetZone":
        """A torus, given by its number of points in each dimension."""
        return topology("TORUS", name, parent, ",".join(map(str, dimensions)), callbacks, (bandwidth, latency, policy))

    @staticmethod
    def create_fatTree_zone(name, parent, params, callbacks, bandwidth, latency, policy) -> "NetZone":
        levels, down, up, count = params.words
        text = ";".join([str(levels)] + [",".join(map(str, part)) for part in (down, up, count)])
        return topology("FAT_TREE", name, parent, text, callbacks, (bandwidth, latency, policy))

    @staticmethod
    def create_dragonfly_zone(name, parent, params, callbacks, bandwidth, latency, policy) -> "NetZone":
        groups, chassis, routers, nodes = params.words
        text = ";".join([",".join(map(str, part)) for part in (groups, chassis, routers)] + [str(nodes)])
        return topology("DRAGONFLY", name, parent, text, callbacks, (bandwidth, latency, policy))

    def get_netpoint(self) -> NetPoint:
        return self.netpoint

    def set_parent(self, zone: "NetZone") -> "NetZone":
        """Puts the zone into another one."""
        self._row["parent"] = zone.netpoint.id
        return self

    def create_host(self, name: str, speed) -> Host:
        """A host with a speed in flops a second, or with several speeds to select from."""
        row = {"id": id_of(name, NetZone.points), "zone": self.netpoint.id, "speed": quantity(speed)}
        network.table("host").append(row)
        speeds = [speed] if isinstance(speed, (int, float, str)) else list(speed)
        return Host(name, row, [speed_of(one) for one in speeds], netpoint=NetPoint(name, row["id"]))

    def create_link(self, name: str, bandwidth) -> Link:
        """A link with a bandwidth in bytes a second."""
        row = {"id": id_of(name, NetZone.ways), "bandwidth": quantity(bandwidth)}
        network.table("link").append(row)
        return Link(name, row)

    def create_split_duplex_link(self, name: str, bandwidth) -> SplitDuplexLink:
        """A link with two directions."""
        row = {"id": id_of(name, NetZone.ways), "bandwidth": quantity(bandwidth), "sharing_policy": "SPLITDUPLEX"}
        network.table("link").append(row)
        return SplitDuplexLink(name, row)

    def create_router(self, name: str) -> NetPoint:
        """A point of routes that isn't a host."""
        row = {"id": id_of(name, NetZone.points), "zone": self.netpoint.id}
        network.table("router").append(row)
        return NetPoint(name, row["id"])

    def add_route(self, src, dst, gw_src, gw_dst, links: list[LinkInRoute], symmetrical: bool = True) -> None:
        """Declares a route; without a target that from a host of a Star zone to its middle."""
        names = [link.id for link in links]
        if dst is None or src is None:
            self._spoke((src or dst).id, gw_src or gw_dst, "up" if src else "down", names)
            return
        row = {"src": src.id, "dst": dst.id, **({"gw_src": gw_src.id} if gw_src else {}), **({"gw_dst": gw_dst.id} if gw_dst else {})}
        row.update({"links": names, **({} if symmetrical else {"symmetrical": False})})
        network.table("zone_route" if gw_src or gw_dst else "route").append(row)

    def _spoke(self, child: str, gateway: NetPoint | None, way: str, names: list[str]) -> None:
        for row in network.table("spoke"):
            if (row["zone"], row["child"]) == (self.netpoint.id, child):
                row[way] = names
                return
        row = {"zone": self.netpoint.id, "child": child, **({"gateway": gateway.id} if gateway else {})}
        network.table("spoke").append({**row, way: names})

    def set_property(self, key: str, value: str) -> "NetZone":
        return self

    def seal(self) -> "NetZone":
        return self


def speed_of(value) -> float:
    return float(number(value.strip())) if isinstance(value, str) else float(value)


def topology(kind: str, name: str, parent: NetZone | None, text: str, callbacks: "ClusterCallbacks", of_links: tuple) -> NetZone:
    """A zone with a route for each pair of its points, as a torus, fat tree or dragonfly has it."""
    simgrid_files()
    from simgrid_files.topologies import KINDS, limiter
    (point, _, limit), (bandwidth, latency, policy) = callbacks.words, of_links
    split = policy == Link.SPLITDUPLEX
    zone = NetZone(name, "Full")
    if parent:
        zone.set_parent(parent)
    made = KINDS[kind](None, SimpleNamespace(id=name, split=split, limiter=limit is not None, parameters=text), {})
    leaves = [point(zone, [place], place) for place in range(made.size)]
    ids = {limiter(name, number): limit(zone, [0, 0], number).id for number in (made.limiters if limit else ())}
    for link, factor in made.links.items():
        create: Callable = zone.create_split_duplex_link if split else zone.create_link
        create(link, bandwidth * factor).set_latency(latency)
    for place, (source, gateway) in enumerate(leaves):
        for other, (target, further) in enumerate(leaves):
            if place != other:
                row = {"src": source.id, "dst": target.id, "symmetrical": False,
                       "links": [ids.get(link, link) for link in made.route(place, other)]}
                if gateway:
                    row.update(gw_src=gateway.id, gw_dst=further.id)
                network.table("zone_route" if gateway else "route").append(row)
    return zone


class ClusterCallbacks:
    """The functions that make the points, loopbacks and limiters of a cluster."""

    def __init__(self, netpoint: Callable, loopback: Callable | None = None, limiter: Callable | None = None):
        self.words = netpoint, loopback, limiter


class FatTreeParams:
    def __init__(self, levels: int, down: list[int], up: list[int], number: list[int]):
        self.words = levels, down, up, number


class DragonflyParams:
    def __init__(self, groups, chassis, routers, nodes: int):
        self.words = groups, chassis, routers, nodes


class Disk:
    """Exists for SimGrid's sake: there are no disks."""

    class SharingPolicy:
        NONLINEAR, LINEAR = 0, 1

    class Operation:
        READ, WRITE, READWRITE = 0, 1, 2


class Io:
    """Exists for SimGrid's sake: there are no disks."""
