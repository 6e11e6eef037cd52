"""Finds the routes of a platform, given as the tables of its TOML, by the rules of docs/specification.md."""

import heapq
import re
from fractions import Fraction

UNITS = {"": 1, "Bps": 1, "bps": Fraction(1, 8), "f": 1, "s": 1, "m": 60, "h": 3600, "d": 86400, "w": 604800,
         "ms": Fraction(1, 10**3), "us": Fraction(1, 10**6), "ns": Fraction(1, 10**9)}


def number(text: str) -> Fraction:
    """The value of a text with a unit, in bytes or flops a second, or seconds."""
    digits, unit = re.fullmatch(r"([0-9.]+(?:[eE][+-]?[0-9]+)?)(.*)", text).groups()
    if unit in UNITS:
        return Fraction(digits) * UNITS[unit]
    letter, binary, rest = re.fullmatch(r"([kKMGTP])(i?)(.*)", unit).groups()
    return Fraction(digits) * (1024 if binary else 1000) ** " kMGTP".index(letter.replace("K", "k")) * UNITS[rest]


class Router:
    """Links by name as (bytes a second, seconds, is a fat pipe), and routes of points."""

    def __init__(self, platform: dict):
        self.links, self.split, self.order = {}, set(), {}
        for row in platform.get("link", []):
            split = row.get("sharing_policy") == "SPLITDUPLEX"
            for name in (row["id"] + "_UP", row["id"] + "_DOWN") if split else (row["id"],):
                self.order[name] = len(self.order)
                self.links[name] = (number(row["bandwidth"]), Fraction(int(number(row.get("latency", "0")) * 10**9), 10**9),
                                    row.get("sharing_policy") == "FATPIPE")
            if split:
                self.split.add(row["id"])
        self.parent = {row["id"]: row.get("parent") for row in platform["zone"]}
        self.routing = {row["id"]: row["routing"] for row in platform["zone"]}
        self.zone = {row["id"]: row["zone"] for table in ("host", "router") for row in platform.get(table, [])}
        self.ways, self.edges, self.spokes, self.found = {}, {}, {}, {}
        for table in ("route", "zone_route"):
            for row in platform.get(table, []):
                self.declare(row)
        for row in platform.get("spoke", []):
            self.spokes[row["child"]] = (row["up"], row.get("down") or self.back(row["up"]), row.get("gateway", row["child"]))

    def declare(self, row):
        source, target, links = row["src"], row["dst"], row["links"]
        gateways = row.get("gw_src", source), row.get("gw_dst", target)
        self.ways[source, target] = links, *gateways
        self.edges.setdefault(source, []).append(target)
        if row.get("symmetrical", True) and source != target:
            self.ways[target, source] = self.back(links), *gateways[::-1]
            self.edges.setdefault(target, []).append(source)

    def back(self, links):
        return [name[:-3] + "_DOWN" if name.endswith("_UP") and name[:-3] in self.split else
                name[:-5] + "_UP" if name.endswith("_DOWN") and name[:-5] in self.split else name for name in reversed(links)]

    def upward(self, point):
        zones = [self.zone[point]]
        while self.parent[zones[-1]]:
            zones.append(self.parent[zones[-1]])
        return [point, *zones]

    def local(self, zone, x, y):
        if self.routing[zone] == "Star":
            if x in self.spokes and y in self.spokes and x != y:
                return self.spokes[x][0] + self.spokes[y][1], self.spokes[x][2], self.spokes[y][2]
            return None
        if self.routing[zone] == "Dijkstra":
            if x not in self.found:
                self.found[x] = self.least(x)
            return (self.found[x][y], x, y) if x != y and y in self.found[x] else None
        return self.ways.get((x, y))

    def least(self, source):
        """The shortest path to each point; of several the least by the order of links."""
        best, queue = {}, [(0, [], source, [])]
        while queue:
            _, _, here, links = heapq.heappop(queue)
            if here in best:
                continue
            best[here] = links
            for there in self.edges.get(here, ()):
                if there not in best:
                    longer = links + self.ways[here, there][0]
                    heapq.heappush(queue, (len(longer), [self.order[name] for name in longer], there, longer))
        return best

    def route(self, a: str, b: str) -> list[str] | None:
        """The links from one host to another, each once, or None if a route is missing."""
        ups, downs = self.upward(a), self.upward(b)
        while len(ups) > 2 and len(downs) > 2 and ups[-2] == downs[-2] and (ups[-2] in self.routing):
            ups.pop()
            downs.pop()
        way = self.local(ups[-1], ups[-2], downs[-2])
        if way is None:
            return None
        links, first, last = way
        before = [] if first == a else self.route(a, first)
        behind = [] if last == b else self.route(last, b)
        if before is None or behind is None:
            return None
        return list(dict.fromkeys([*before, *links, *behind]))
