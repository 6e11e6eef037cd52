"""The links and routes of SimGrid's tori, fat trees and dragonflies, by the rules of its TorusZone, FatTreeZone and
DragonflyZone. A topology has `size`, the number of its hosts; `links`, by name how many times the bandwidth each has; and
`route(i, j)`, the links from a host to another by their numbers. Where a cluster's links are SPLITDUPLEX, the names in
routes end with _UP or _DOWN. `limiters` are the numbers by which links that limit are named, in order."""

import re

from .notes import Refused, quoted

MOST_HOSTS = 512


def whole_numbers(element, text, most=MOST_HOSTS):
    numbers = text.split(",")
    if not all(re.fullmatch(r"\s*[0-9]{1,6}\s*", number) and 1 <= int(number) <= most for number in numbers):
        raise Refused(element, f"{element}: topo_parameters has {quoted(text)}, not whole numbers from 1 to {most}")
    return [int(number) for number in numbers]


def product(numbers):
    result = 1
    for number in numbers:
        result *= number
    return result


def at_most(element, size):
    if size > MOST_HOSTS:
        raise Refused(element, f"{element}: {size} hosts; a topology has at most {MOST_HOSTS} here, since each pair has a row")
    return size


class Torus:
    """One dimension after the other, each in the shorter direction."""

    def __init__(self, element, cluster, count):
        self.cluster, self.split, self.limited = cluster.id, cluster.split, cluster.limiter
        self.dimensions = whole_numbers(element, cluster.parameters)
        self.size = at_most(element, product(self.dimensions))
        self.limiters = range(self.size)
        self.links = {self.link(node, axis): 1 for node in range(self.size) for axis in range(len(self.dimensions))}

    def strides(self):
        stride = 1
        for axis, length in enumerate(self.dimensions):
            yield axis, length, stride
            stride *= length

    def link(self, node, axis):
        """The link from a node to the next one in a dimension."""
        return f"{self.cluster}_link_from_{node}_to_{self.next(node, axis, 1)}"

    def next(self, node, axis, step):
        length, stride = next((length, stride) for at, length, stride in self.strides() if at == axis)
        place = node // stride % length
        return node + ((place + step) % length - place) * stride

    def route(self, source, target):
        links, node = [], source
        for axis, length, stride in self.strides():
            mine, wanted = source // stride % length, target // stride % length
            half = length // 2
            ahead = mine < wanted <= mine + half or mine > half and (mine + half) % length >= wanted
            while node // stride % length != wanted:
                if self.limited:
                    links.append(limiter(self.cluster, node))
                following = self.next(node, axis, 1 if ahead else -1)
                links.append(self.link(node if ahead else following, axis) + way(self.split, ahead))
                node = following
        if self.limited and links:
            links.append(limiter(self.cluster, target))
        return links


def limiter(cluster, number):
    return f"{cluster}_link_{number}_limiter"


def way(split, up):
    return ("_UP" if up else "_DOWN") if split else ""


class Node:
    """A host or switch of a fat tree."""

    def __init__(self, number, level, place):
        self.number, self.level, self.place = number, level, place
        self.label, self.parents, self.children = [], [], []


class FatTree:
    """Up by the number of the host that is wanted, down by the one from which the message comes (d-mod-k)."""

    def __init__(self, element, cluster, count):
        parts = cluster.parameters.split(";")
        if len(parts) != 4:
            raise Refused(element, f"{element}: topo_parameters of a fat tree has four parts")
        self.cluster, self.split, self.limited = cluster.id, cluster.split, cluster.limiter
        self.levels = whole_numbers(element, parts[0], 16)[0]
        self.down, self.up, self.ports = (whole_numbers(element, part) for part in parts[1:])
        if {len(self.down), len(self.up), len(self.ports)} != {self.levels}:
            raise Refused(element, f"{element}: topo_parameters has not {self.levels} numbers for {self.levels} levels")
        self.size, self.links = at_most(element, product(self.down)), {}
        self.count = count
        self.make_nodes(element)
        self.make_labels()
        self.connect(element)

    def make_nodes(self, element):
        # SimGrid numbers hosts and links across all fat trees of a platform.
        first = self.count.get("places", 0)
        self.count["places"] = first + self.size
        self.by_level = [[Node(i, 0, first + i) for i in range(self.size)]]
        number = 2 * self.size
        for level in range(1, self.levels + 1):
            size = product(self.up[:level]) * product(self.down[level:])
            if size > 4096:
                raise Refused(element, f"{element}: {size} switches at a level, but at most 4096 are supported")
            self.by_level.append([Node(number - 1 - i, level, i) for i in range(size)])
            number -= size
        self.limiters = [node.number for nodes in self.by_level for node in nodes]

    def make_labels(self):
        for level, nodes in enumerate(self.by_level):
            most = [self.up[i] if i < level else self.down[i] for i in range(self.levels)]
            for place, node in enumerate(nodes):
                for length in most:
                    node.label.append(place % length)
                    place //= length

    def connect(self, element):
        for level in range(self.levels):
            ports, down, up = self.ports[level], self.down[level], self.up[level]
            if len(self.by_level[level]) * up * ports > 65536:
                raise Refused(element, f"{element}: over 65536 links")
            by_label = {}
            for parent in self.by_level[level + 1]:
                parent.children = [None] * (down * ports)
                by_label.setdefault(tuple(parent.label[:level] + parent.label[level + 1:]), []).append(parent)
            for child in self.by_level[level]:
                child.parents = [None] * (up * ports)
                for parent in by_label[tuple(child.label[:level] + child.label[level + 1:])]:
                    self.join(parent, child, level)

    def join(self, parent, child, level):
        for port in range(self.ports[level]):
            number = self.count["links"] = self.count.get("links", -1) + 1
            name = f"link_from_{child.number}_{parent.number}_{number}"
            self.links[name] = 1
            parent.children[child.label[level] + port * self.down[level]] = name, child
            child.parents[parent.label[level] + port * self.up[level]] = name, parent

    def holds(self, root, node):
        """Whether a node is below another."""
        return root.level > node.level and all(root.label[i] == node.label[i] for i in range(self.levels)
                                               if i < node.level or i >= root.level)

    def route(self, source, target):
        links, node, target = [], self.by_level[0][source], self.by_level[0][target]
        source = node
        while not self.holds(node, target):
            if node.level == self.levels:
                return links
            place = target.place
            for level in range(node.level):
                place //= self.up[level]
            if self.limited:
                links.append(limiter(self.cluster, node.number))
            name, node = node.parents[place % (self.up[node.level] * self.ports[node.level])]
            links.append(name + way(self.split, True))
        links += self.way_down(source, node, target)
        return links + ([limiter(self.cluster, target.number)] if self.limited else [])

    def way_down(self, source, node, target):
        """SimGrid continues its search from the last port that it took, even at the next switch."""
        links = []
        while node is not target:
            port, before = source.place % self.ports[node.level - 1] * self.down[node.level - 1], node
            while port < len(node.children):
                if port % self.down[node.level - 1] == target.label[node.level - 1]:
                    name, below = node.children[port]
                    links.append(name + way(self.split, False))
                    if self.limited:
                        links.append(limiter(self.cluster, node.number))
                    node = below
                port += 1
            if node is before:
                return links
        return links


class Dragonfly:
    """Green links in a chassis, black ones between the chassis of a group, blue ones between groups."""

    def __init__(self, element, cluster, count):
        parts = cluster.parameters.split(";")
        if len(parts) != 4:
            raise Refused(element, f"{element}: topo_parameters of a dragonfly has four parts")
        numbers = [whole_numbers(element, part, 4096) for part in parts]
        if [len(part) for part in numbers] != [2, 2, 2, 1]:
            raise Refused(element, f"{element}: topo_parameters of a dragonfly are GROUPS,BLUE;CHASSIS,BLACK;ROUTERS,GREEN;NODES")
        (self.groups, self.blues), (self.chassis, self.blacks), (self.blades, self.greens), (self.nodes,) = numbers
        if self.groups > self.blades and self.groups > 1:
            raise Refused(element, f"{element}: more groups than routers of a chassis: SimGrid has no routes there")
        self.cluster, self.split, self.limited = cluster.id, cluster.split, cluster.limiter
        self.size = at_most(element, self.groups * self.chassis * self.blades * self.nodes)
        routers = self.groups * self.chassis * self.blades
        self.limiters = [*range(self.size), *range(2 * self.size - 1, 2 * self.size - 1 - routers, -1)]
        self.count, self.links, self.ports = count, {}, {}
        self.make_links()

    def router(self, group, chassis, blade):
        return (group * self.chassis + chassis) * self.blades + blade

    def name(self, text, factor):
        number = self.count["dragonfly"] = self.count.get("dragonfly", -1) + 1
        name = f"{text}_{number}"
        if len(name) > 59:
            name = name.replace("between_", "")
        self.links[name] = factor
        return name

    def join(self, kind, one, other, text, factor):
        """A link between two routers: up from the first, down from the second."""
        name = self.name(text, factor)
        self.ports[kind, one, other] = name + way(self.split, True)
        self.ports[kind, other, one] = name + way(self.split, False)

    def make_links(self):
        routers = self.groups * self.chassis * self.blades
        self.local = {(router, node): self.name(f"local_link_from_router_{router}_to_node_{node}", 1)
                      for router in range(routers) for node in range(self.nodes)}
        for row in range(self.groups * self.chassis):
            for j, k in pairs(self.blades):
                self.join("green", row * self.blades + j, row * self.blades + k,
                          f"green_link_in_chassis_{row % self.chassis}_between_routers_{j}_and_{k}", self.greens)
        for group in range(self.groups):
            for j, k in pairs(self.chassis):
                for blade in range(self.blades):
                    self.join("black", self.router(group, j, blade), self.router(group, k, blade),
                              f"black_link_in_group_{group}_between_chassis_{j}_and_{k}_blade_{blade}", self.blacks)
        for i, j in pairs(self.groups):
            one, other = self.router(i, 0, 0) + j, self.router(j, 0, 0) + i
            self.join("blue", one, other, f"blue_link_between_group_{i}_and_{j}_routers_{one}_and_{other}", self.blues)

    def hops(self, source, target):
        """The steps from a router to another: kind, and the two routers of the link."""
        (group, chassis, blade), (to_group, to_chassis, to_blade) = source, target
        if source == target:
            return
        if to_group != group:
            if blade != to_group:
                yield "green", (group, chassis, blade), (group, chassis, to_group)
            if chassis != 0:
                yield "black", (group, chassis, to_group), (group, 0, to_group)
            yield "blue", (group, 0, to_group), (to_group, 0, group)
            group, chassis, blade = to_group, 0, group
        if blade != to_blade:
            yield "green", (group, chassis, blade), (group, chassis, to_blade)
            # From here SimGrid continues as from the first chassis, whatever the chassis was.
            chassis = 0
        if chassis != to_chassis:
            yield "black", (group, chassis, to_blade), (group, to_chassis, to_blade)

    def coordinates(self, host):
        router, node = divmod(host, self.nodes)
        return (router // self.blades // self.chassis, router // self.blades % self.chassis, router % self.blades), router, node

    def route(self, source, target):
        (start, router, node), (end, last, to_node) = self.coordinates(source), self.coordinates(target)
        links = [limiter(self.cluster, source)] if self.limited else []
        links.append(self.local[router, node] + way(self.split, True))
        for kind, one, other in self.hops(start, end):
            here = self.router(*one)
            step = [self.ports[kind, here, self.router(*other)]]
            if self.limited:
                # The blue link comes before its router's limiter.
                step.insert(kind == "blue", limiter(self.cluster, 2 * self.size - 1 - here))
            links += step
        if self.limited:
            links.append(limiter(self.cluster, 2 * self.size - 1 - last))
        links.append(self.local[last, to_node] + way(self.split, False))
        return links + ([limiter(self.cluster, target)] if self.limited else [])


def pairs(count):
    return ((j, k) for j in range(count) for k in range(j + 1, count))


KINDS = {"TORUS": Torus, "FAT_TREE": FatTree, "DRAGONFLY": Dragonfly}
