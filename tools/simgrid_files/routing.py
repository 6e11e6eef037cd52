"""Zones with SimGrid's routes, for zones whose rows differ from SimGrid's."""

import heapq
from typing import NamedTuple

from .notes import Refused

MOST_CHILDREN = 512


class Way(NamedTuple):
    """A local route: links, and the gateway of each end that is a zone."""
    links: tuple
    gw_src: str = None
    gw_dst: str = None
    place: object = None


class Zone:
    """A zone: its children in order, and its local routes by ordered pairs of them."""

    def __init__(self, element, id, routing, parent):
        self.element, self.id, self.routing, self.parent = element, id, routing, parent
        self.children, self.points, self.zones, self.hosts = [], [], [], []
        self.rows, self.ways, self.bypass, self.spokes = [], {}, {}, {}
        self.topology = self.found = None
        if parent:
            parent.zones.append(self)
            parent.children.append(id)

    def add_point(self, name, host):
        self.children.append(name)
        self.points.append(name)
        if host:
            self.hosts.append(name)

    def upward(self):
        zone = self
        while zone:
            yield zone
            zone = zone.parent


class Routes:
    """SimGrid's routes over zones. `of_point` gives the zone of a point."""

    def __init__(self, of_point):
        self.of_point = of_point

    def local(self, zone, source, target):
        """The local route between two children of a zone, or None."""
        if zone.topology:
            return zone.topology.way(source, target)
        if zone.routing == "Star":
            if source in zone.points and target in zone.points:
                # A router without links of its own has none in between.
                up, down = zone.spokes.get(source, ((), ()))[0], zone.spokes.get(target, ((), ()))[1]
                return Way(tuple(dict.fromkeys((*up, *down))))
            return None
        if zone.routing in ("Floyd", "Dijkstra"):
            return self.least(zone, source, target)
        return zone.ways.get((source, target))

    def least(self, zone, source, target):
        """The shortest path that SimGrid's search finds."""
        if zone.found is None:
            zone.found = floyd(zone) if zone.routing == "Floyd" else {}
        if zone.routing == "Dijkstra" and source not in zone.found:
            zone.found[source] = dijkstra(zone, source)
        before, steps, here = zone.found.get(source, {}), [], target
        while here != source or not steps:
            if here not in before:
                return None
            steps.append(zone.ways[before[here], here])
            here = before[here]
        return self.joined(steps[::-1])

    def joined(self, steps):
        """Joins steps, with the routes between the gateways in a zone."""
        links = []
        for place, step in enumerate(steps):
            if place and steps[place - 1].gw_dst != step.gw_src:
                between = self.between(steps[place - 1].gw_dst, step.gw_src)
                if between is None:
                    return None
                links += between
            links += step.links
        return Way(tuple(links), steps[0].gw_src, steps[-1].gw_dst)

    def between(self, source, target):
        """The links from a point to another, or None if a route is missing."""
        ups, downs = [list(self.of_point[point].upward()) for point in (source, target)]
        while len(ups) > 1 and len(downs) > 1 and ups[-2:-1] == downs[-2:-1]:
            ups.pop()
            downs.pop()
        zone = ups[-1]
        x, y = (source if len(ups) == 1 else ups[-2].id), (target if len(downs) == 1 else downs[-2].id)
        way = self.bypassed(zone, source, target, ups[:-1], downs[:-1]) or self.local(zone, x, y)
        if way is None:
            return None
        first = self.between(source, way.gw_src) if way.gw_src not in (None, source) else ()
        last = self.between(way.gw_dst, target) if way.gw_dst not in (None, target) else ()
        return None if first is None or last is None else (*first, *way.links, *last)

    @staticmethod
    def bypassed(zone, source, target, ups, downs):
        """The bypass of a zone for two points: the one of the innermost zones, as SimGrid looks for it."""
        if not zone.bypass:
            return None
        if not ups and not downs:
            return zone.bypass.get((source, target))
        ups, downs = [other.id for other in ups], [other.id for other in downs]
        for most in range(max(len(ups), len(downs))):
            for pair in [*((i, most) for i in range(most)), *((most, i) for i in range(most)), (most, most)]:
                if pair[0] < len(ups) and pair[1] < len(downs) and (ups[pair[0]], downs[pair[1]]) in zone.bypass:
                    return zone.bypass[ups[pair[0]], downs[pair[1]]]
        return None


def floyd(zone):
    """By source and target the child before the target, as SimGrid's FloydZone finds them."""
    if len(zone.children) > MOST_CHILDREN:
        raise Refused(zone.element, f"{zone.element}: more than {MOST_CHILDREN} children in a zone that needs a row for each route")
    names = zone.children
    cost = {a: {} for a in names}
    before = {a: {} for a in names}
    for (a, b), way in zone.ways.items():
        cost[a][b], before[a][b] = len(way.links), a
    if not zone.zones:
        for a in names:
            cost[a].setdefault(a, 1)
            before[a].setdefault(a, a)
    for c in names:
        for a in names:
            if c in cost[a]:
                to_c, row, last = cost[a][c], cost[a], before[a]
                for b, further in list(cost[c].items()):
                    if b not in row or to_c + further < row[b]:
                        row[b], last[b] = to_c + further, before[c][b]
    return before


def dijkstra(zone, source):
    """By target the child before it, as SimGrid's DijkstraZone finds them."""
    numbers, edges = {}, {}
    for a, b in zone.ways:
        for name in (a, b):
            numbers.setdefault(name, len(numbers))
        edges.setdefault(a, []).append(b)
    cost, before, names = {source: 0}, {}, list(numbers)
    queue = [(0, numbers[source])] if source in numbers else []
    while queue:
        here = names[heapq.heappop(queue)[1]]
        for there in edges.get(here, ()):
            further = cost[here] + len(zone.ways[here, there].links)
            if there not in cost or further < cost[there]:
                cost[there], before[there] = further, here
                heapq.heappush(queue, (further, numbers[there]))
    return before
