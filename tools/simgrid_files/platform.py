"""Converts a platform of SimGrid to the rows of a platform."""

import os
import re

from . import values, xmlfile
from .profiles import Profile
from .routing import MOST_CHILDREN, Routes, Way, Zone
from .rows import Rows
from .notes import Refused, quoted
from .topologies import KINDS, limiter

TABLES = ("zone", "host", "router", "link", "route", "zone_route", "spoke", "network", "profile", "state_profile")
ROUTINGS = {"full": "Full", "none": "Empty", "empty": "Empty", "dijkstra": "Dijkstra", "dijkstracache": "Dijkstra",
            "floyd": "Floyd", "cluster": "Star", "star": "Star"}
POLICIES = {"SHARED": "SHARED", "FATPIPE": "FATPIPE", "SPLITDUPLEX": "SPLITDUPLEX", "FULLDUPLEX": "SPLITDUPLEX"}
NO_ROUTING = {"vivaldi": "its latencies come from coordinates, so it would need a link for each pair",
              "wifi": "its stations share the medium by their rates, which no link does"}
NOT_HERE = {"peer": "it is of a Vivaldi zone, whose latencies come from coordinates", "storage": "disks aren't supported",
            "storage_type": "disks aren't supported", "mount": "disks aren't supported", "random": "random values aren't supported",
            "actor": "a deployment is a separate file", "process": "a deployment is a separate file"}
# The supported kinds of traces, each with what it is connected to and its table.
CONNECTED = {"SPEED": ("host", "profile"), "BANDWIDTH": ("link", "profile"), "HOST_AVAIL": ("host", "state_profile"),
             "LINK_AVAIL": ("link", "state_profile")}
ALIASES = {"AS": "zone", "ASroute": "zoneRoute", "bypassASroute": "bypassZoneRoute"}
LOOPBACK, MOST_ZONES = "__loopback__", 1024
GREATEST_DEPTH = 16


class Use:
    """A link in a list: its name, and its name on the reverse route."""

    def __init__(self, name, back, half=False):
        self.name, self.back, self.half = name, back, half


class Row:
    """A route as it was declared."""

    def __init__(self, element, ends, gateways, uses, symmetrical):
        self.element, self.ends, self.gateways, self.uses, self.symmetrical = element, ends, gateways, uses, symmetrical

    def way(self):
        return Way(tuple(use.name for use in self.uses), *self.gateways, self.element)

    def way_back(self):
        return Way(tuple(use.back for use in reversed(self.uses)), *reversed(self.gateways), self.element)

    def plain(self):
        """Whether the reverse route is that of a symmetrical row."""
        return not any(use.half for use in self.uses)


class Names:
    """Converted names: characters that aren't allowed become `_`."""

    def __init__(self, notes):
        self.notes, self.of, self.taken, self.long = notes, {}, {}, 0

    def new(self, element, text, sort, most=64):
        """The name of something new."""
        if text in self.of:
            raise Refused(element, f"{element}: the name {quoted(text)} is taken in line {self.taken[self.of[text]][1]}")
        name = re.sub(r"[^A-Za-z0-9_.-]", "_", text)
        if not name:
            raise Refused(element, f"{element}: an empty name")
        if len(name) > most:
            self.long += 1
            name = f"{name[:most - 8]}_{self.long}"
        if name in self.taken:
            raise Refused(element, f"{element}: {quoted(text)} would be {quoted(name)} here, as {quoted(self.taken[name][0])} is")
        if name != text:
            self.notes.add(element, f"{sort} {quoted(text)} is {name} here")
        self.of[text], self.taken[name] = name, (text, element.line)
        return name

    def known(self, element, text, sort):
        if text not in self.of:
            raise Refused(element, f"{element}: there is no {sort} {quoted(text)}")
        return self.of[text]


class Cluster:
    """The attributes of <cluster>, checked."""

    def __init__(self, platform, element):
        element.only(("id", "prefix", "suffix", "radical", "speed", "core", "bw", "lat", "sharing_policy", "topology",
                      "topo_parameters", "bb_bw", "bb_lat", "bb_sharing_policy", "router_id", "limiter_link", "loopback_bw",
                      "loopback_lat"))
        self.element, self.id = element, platform.names.known(element, element.need("id"), "zone")
        self.prefix, self.suffix = element.get("prefix"), element.get("suffix")
        self.radicals = values.radicals(element, element.need("radical"))
        policy = element.get("sharing_policy", "SPLITDUPLEX")
        if policy not in POLICIES:
            raise Refused(element, f"{element}: sharing_policy {quoted(policy)} isn't supported")
        self.split = POLICIES[policy] == "SPLITDUPLEX"
        if policy == "FATPIPE":
            platform.notes.add(element, f"{element}: its links are SHARED, as SimGrid makes them, not FATPIPE")
        self.bandwidth, self.latency = element.need("bw"), values.latency(element, element.need("lat"), platform.notes)
        values.bandwidth(element, self.bandwidth)
        self.limiter = element.get("limiter_link") and values.bandwidth(element, element.get("limiter_link"), "limiter_link")
        self.loopback = self.of_loopback(platform.notes)
        self.parameters = element.get("topo_parameters")

    def of_loopback(self, notes):
        bandwidth = self.element.get("loopback_bw")
        if not bandwidth:
            if self.element.get("loopback_lat"):
                raise Refused(self.element, f"{self.element}: loopback_lat without loopback_bw")
            return None
        return (values.bandwidth(self.element, bandwidth, "loopback_bw"),
                values.latency(self.element, self.element.get("loopback_lat", "0"), notes, "loopback_lat"))

    def host(self, radical):
        return f"{self.prefix}{radical}{self.suffix}"


class Written:
    """The ways of a torus, fat tree or dragonfly between its hosts."""

    def __init__(self, topology, hosts):
        self.topology, self.number = topology, {host: i for i, host in enumerate(hosts)}

    def way(self, source, target):
        if source not in self.number or target not in self.number:
            return None
        links = self.topology.route(self.number[source], self.number[target])
        if source == target and len(set(links)) < len(links):
            # Up and down one link: its latency would count once here, and does twice there.
            return None
        return Way(tuple(dict.fromkeys(links)))


class Platform:
    """The rows, and the notes about them."""

    def __init__(self, folder, notes):
        self.folder, self.notes, self.rows = folder, notes, Rows("platform", TABLES)
        self.names, self.link_names, self.split, self.of_point, self.of_zone = Names(notes), Names(notes), set(), {}, {}
        self.root, self.point_rows, self.gateways, self.speeds, self.settings = None, {}, set(), {}, {}
        self.later, self.traces, self.connections, self.count, self.including = [], {}, [], {}, []
        self.loopback, self.more_zones = None, 0
        self.routes = Routes(self.of_point)

    # Elements ------------------------------------------------------------------------------------------------------

    def read(self, root):
        if root.tag != "platform":
            raise Refused(root, f"{root} instead of <platform>")
        if not root.get("version", "4").startswith("4"):
            raise Refused(root, f"a platform of version {root.get('version')}: simgrid_update_xml updates it to 4")
        self.including = [os.path.abspath(root.file)]
        self.inside(root, None)
        if self.root is None:
            raise Refused(root, "<platform> without a zone or cluster")
        for later in self.later:
            later()
        for zone in list(self.of_zone.values()):
            self.flatten_where_bypassed(zone)
        return self

    def inside(self, element, zone):
        """Reads the contents of an element; unused properties are left out with a note."""
        for child in element.children:
            self.one(child, zone)

    def one(self, element, zone):
        tag = ALIASES.get(element.tag, element.tag)
        known = getattr(self, "in_" + tag, None) if re.fullmatch("[A-Za-z_]+", tag) else None
        top = tag in ("zone", "cluster", "trace", "trace_connect", "include", "config", "prop")
        if known is None or zone is None and not top or zone is not None and tag == "config":
            reason = NOT_HERE.get(tag) or ("at the top level" if zone is None else f"in zone {zone.id}")
            raise Refused(element, f"{element} isn't supported: {reason}")
        known(element, zone)

    def in_include(self, element, zone):
        path = os.path.join(os.path.dirname(element.file), element.need("file"))
        if os.path.abspath(path) in self.including or len(self.including) >= GREATEST_DEPTH:
            raise Refused(element, f"{element}: the file includes itself, or {GREATEST_DEPTH} others are open")
        self.including.append(os.path.abspath(path))
        self.inside(xmlfile.read(path), zone)
        self.including.pop()

    def in_prop(self, element, zone):
        """Of a zone."""
        self.notes.add(element, "properties of <zone> are left out")

    def props(self, element, used=()):
        """The properties by name; notes those that aren't used."""
        found = {}
        for child in element.children:
            if child.tag != "prop":
                raise Refused(child, f"{child} in {element} isn't supported")
            if child.get("id") in used:
                found[child.get("id")] = child
            else:
                energy = ": there is no energy of links" if child.get("id").startswith("wattage") and element.tag == "link" else ""
                self.notes.add(child, f"properties of <{element.tag}> are left out{energy}")
        return found

    def in_config(self, element, zone):
        for child in element.children:
            if child.tag != "prop":
                raise Refused(child, f"{child} in <config> isn't supported")
            self.settings[child.get("id").replace("_", "-")] = child

    # Zones ---------------------------------------------------------------------------------------------------------

    def new_zone(self, element, routing, parent):
        if parent is None and self.root is not None:
            raise Refused(element, f"{element}: a second zone at the top level")
        if parent is not None and parent.routing == "Star":
            raise Refused(element, f"{element} isn't supported: it is in a zone of hosts with their own links")
        name = self.names.new(element, element.need("id"), "zone")
        zone = Zone(element, name, routing, parent)
        if sum(1 for _ in zone.upward()) > GREATEST_DEPTH:
            raise Refused(element, f"{element}: zones deeper than {GREATEST_DEPTH}")
        self.root, self.of_zone[name] = self.root or zone, zone
        zone.row = self.rows.add("zone", element, id=name, **({"parent": parent.id} if parent else {}), routing="Full")
        zone.backbone, zone.links_of = None, {}
        return zone

    def in_zone(self, element, parent):
        element.only(("id", "routing"))
        routing = element.get("routing", "Full")
        if routing.lower() not in ROUTINGS:
            reason = NO_ROUTING.get(routing.lower(), "SimGrid doesn't have it either")
            raise Refused(element, f"{element}: routing {quoted(routing)} isn't supported: {reason}")
        self.inside(element, self.new_zone(element, ROUTINGS[routing.lower()], parent))

    def in_router(self, element, zone):
        element.only(("id", "coordinates"))
        self.router(element, element.need("id"), zone)

    def router(self, element, id, zone):
        name = self.names.new(element, id, "router")
        zone.add_point(name, False)
        self.of_point[name] = zone
        self.point_rows[name] = self.rows.add("router", element, id=name, zone=zone.id)
        return name

    def in_host(self, element, zone):
        element.only(("id", "speed", "core", "pstate", "coordinates", "speed_file", "availability_file", "state_file"))
        props = {}
        for child in [child for child in element.children if child.tag == "disk"]:
            self.notes.add(child, "disks are left out: no action reads or writes one")
        element.children = [child for child in element.children if child.tag != "disk"]
        props = self.props(element, ("wattage_per_state", "wattage_off"))
        name = self.host(element, element.need("id"), zone, element.get("pstate", "0"), props)
        self.profile_by("host", "profile", name, element, element.get("speed_file") or element.get("availability_file"))
        self.profile_by("host", "state_profile", name, element, element.get("state_file"))

    def host(self, element, id, zone, pstate="0", props=None):
        """A host by the attributes of its element, or of its cluster or cabinet."""
        name = self.names.new(element, id, "host")
        speeds = element.need("speed").split(",")
        if not re.fullmatch(r"[0-9]{1,6}(\.0*)?", pstate) or int(float(pstate)) >= len(speeds):
            raise Refused(element, f"{element}: there is no pstate {quoted(pstate)}: it has {len(speeds)} speeds, from 0 on")
        state = int(float(pstate))
        if len(speeds) > 1:
            self.notes.add(element, f"{element}: of its speeds the one of pstate {state} is taken, and stays: there are no pstates here")
        speed, self.speeds[name] = values.speed(element, speeds[state])
        core = values.cores(element, element.get("core", "1"))
        zone.add_point(name, True)
        self.of_point[name] = zone
        self.point_rows[name] = self.rows.add("host", element, id=name, zone=zone.id, speed=speed,
                                              **({"core": core} if core != 1 else {}),
                                              **self.power(element, props or {}, len(speeds), state))
        return name

    def power(self, element, props, states, state):
        """What a host draws, in milliwatts, by its pstate: idle, epsilon, all; of two numbers epsilon is idle."""
        keys = {}
        if "wattage_per_state" in props:
            prop = props["wattage_per_state"]
            given = [text.split(":") for text in prop.get("value").split(",")]
            if len(given) != states or any(len(numbers) not in (2, 3) for numbers in given):
                self.notes.add(prop, f"{element}: wattage_per_state is left out: not two or three numbers for each of {states} "
                               "speeds")
                return {}
            watts = [values.milliwatts(prop, number, "wattage_per_state", self.notes) for number in given[state]]
            keys["power"] = [watts[0], *watts] if len(watts) == 2 else watts
            if keys["power"][1] > keys["power"][2]:
                raise Refused(prop, f"{element}: wattage_per_state has more for a small load than for all cores")
        if "wattage_off" in props:
            prop = props["wattage_off"]
            keys["power_off"] = values.milliwatts(prop, prop.get("value"), "wattage_off", self.notes)
        return keys

    # Links ---------------------------------------------------------------------------------------------------------

    def in_link(self, element, zone):
        if element.get("latency_file"):
            raise Refused(element, f"{element}: latency_file isn't supported: a link keeps its latency")
        element.only(("id", "bandwidth", "latency", "sharing_policy", "bandwidth_file", "state_file"))
        policy = element.get("sharing_policy", "SHARED")
        if policy not in POLICIES:
            raise Refused(element, f"{element}: sharing_policy {quoted(policy)} isn't supported")
        name = self.link(element, element.need("id"), values.bandwidth(element, element.need("bandwidth")),
                         values.latency(element, element.get("latency", "0"), self.notes), POLICIES[policy])
        self.props(element)
        self.profile_by("link", "profile", name, element, element.get("bandwidth_file"))
        self.profile_by("link", "state_profile", name, element, element.get("state_file"))

    def link(self, element, id, bandwidth, latency, policy="SHARED"):
        name = self.link_names.new(element, id, "link", 59 if policy == "SPLITDUPLEX" else 64)
        if policy == "SPLITDUPLEX":
            self.split.add(name)
        self.rows.add("link", element, id=name, bandwidth=bandwidth, latency=latency,
                      **({"sharing_policy": policy} if policy != "SHARED" else {}))
        return name

    def use(self, element, id, direction="NONE"):
        """A link in a list, as its element names it."""
        if direction in ("UP", "DOWN"):
            name = self.link_names.known(element, id, "link")
            if name not in self.split:
                raise Refused(element, f"{element}: link {quoted(id)} isn't SPLITDUPLEX, and has no direction")
            return Use(f"{name}_{direction}", f"{name}_{'DOWN' if direction == 'UP' else 'UP'}")
        for end in ("_UP", "_DOWN"):
            # One direction of a link by its name: SimGrid takes it on the reverse route too.
            if id.endswith(end) and id not in self.link_names.of and self.link_names.of.get(id[:-len(end)]) in self.split:
                name = self.link_names.of[id[:-len(end)]] + end
                return Use(name, name, True)
        name = self.link_names.known(element, id, "link")
        if name in self.split:
            raise Refused(element, f"{element}: link {quoted(id)} is SPLITDUPLEX: the direction must be UP or DOWN")
        return Use(name, name)

    # Routes --------------------------------------------------------------------------------------------------------

    def uses(self, element):
        if not element.children:
            raise Refused(element, f"{element} without links")
        for child in element.children:
            if child.tag not in ("link_ctn", "prop"):
                raise Refused(child, f"{child} in {element} isn't supported")
        return [self.use(child, child.need("id"), child.get("direction", "NONE")) for child in element.children
                if child.tag == "link_ctn"]

    def ends(self, element, zone, keys=("src", "dst")):
        return tuple(self.names.known(element, element.need(key), "host, router or zone") for key in keys)

    def in_route(self, element, zone):
        element.only(("src", "dst", "symmetrical"))
        self.later.append(lambda: self.route(element, zone, (None, None)))

    def in_zoneRoute(self, element, zone):
        element.only(("src", "dst", "gw_src", "gw_dst", "symmetrical"))
        self.later.append(lambda: self.route(element, zone, self.ends(element, zone, ("gw_src", "gw_dst"))))

    def route(self, element, zone, gateways):
        ends, symmetrical = self.ends(element, zone), element.get("symmetrical", "YES").upper() in ("YES", "TRUE", "1")
        if zone.routing == "Star":
            raise Refused(element, f"{element} in a zone of hosts with their own links isn't supported")
        row = Row(element, ends, gateways, self.uses(element), symmetrical and ends[0] != ends[1])
        for pair, way in ((ends, row.way()), (ends[::-1], row.way_back()))[:1 + row.symmetrical]:
            if pair in zone.ways:
                raise Refused(element, f"{element}: line {zone.ways[pair].place.line} already has the route from {pair[0]} to "
                              f"{pair[1]}")
            zone.ways[pair] = way
        zone.rows.append(row)
        self.gateways.update(name for name in gateways if name)
        self.note_links(element, row)

    def note_links(self, element, row):
        names = [use.name for use in row.uses]
        if len(set(names)) < len(names):
            self.notes.add(element, f"{element}: a link that is on a route twice counts once here; SimGrid adds its latency each time")

    def in_bypassRoute(self, element, zone):
        element.only(("src", "dst"))
        self.later.append(lambda: self.bypass(element, zone, (None, None), zone.points))

    def in_bypassZoneRoute(self, element, zone):
        element.only(("src", "dst", "gw_src", "gw_dst"))
        self.later.append(lambda: self.bypass(element, zone, self.ends(element, zone, ("gw_src", "gw_dst")), None))

    def bypass(self, element, zone, gateways, children):
        ends = self.ends(element, zone)
        if ends in zone.bypass:
            raise Refused(element, f"{element}: line {zone.bypass[ends].place.line} already has a bypass of that pair")
        below = children is not None and set(ends) <= set(children) or children is None and all(
            end in self.of_zone and zone in self.of_zone[end].upward() for end in ends)
        if not below:
            self.notes.add(element, f"{element} has no effect: its ends aren't in zone {zone.id}")
            return
        zone.bypass[ends] = Row(element, ends, gateways, self.uses(element), False).way()
        self.gateways.update(name for name in gateways if name)

    def flatten_where_bypassed(self, zone):
        """A zone with a bypass between ends deeper down becomes one Full zone, with a row for each pair of points."""
        if all(set(pair) <= set(zone.children) for pair in zone.bypass) or zone.id not in self.of_zone:
            return
        below = [other for other in self.of_zone.values() if other is not zone and zone in other.upward()]
        points = [name for other in (zone, *below) for name in other.points
                  if name in other.hosts or name in self.gateways]
        if len(points) > MOST_CHILDREN:
            raise Refused(zone.element, f"{zone.element}: a bypass between zones deeper down, with more than {MOST_CHILDREN} points")
        ways = {(a, b): self.routes.between(a, b) if a != b else self.to_itself(a) for a in points for b in points}
        self.notes.add(zone.element, f"{zone.element}: its zones are merged, since a bypass leads between ends deeper down")
        gone = {other.id for other in below}
        for table in ("zone", "router"):
            self.rows.tables[table] = [row for row in self.rows.tables[table] if row[0]["id"] not in gone and (
                table == "zone" or row[0]["id"] in points or self.of_point[row[0]["id"]] not in below)]
        for name in points:
            self.point_rows[name]["zone"], self.of_point[name] = zone.id, zone
        for other in below:
            del self.of_zone[other.id]
        zone.hosts = [name for other in (zone, *below) for name in other.hosts]
        zone.points = zone.children = points
        zone.zones, zone.rows, zone.bypass, zone.routing = [], [], {}, "Full"
        zone.ways = {pair: Way(tuple(links), place=zone.element) for pair, links in ways.items() if links}

    def to_itself(self, point):
        """The links from a point to itself, if they are declared or a cluster has them."""
        zone = self.of_point[point]
        way = zone.ways.get((point, point)) or (zone.topology or zone.routing == "Star") and self.routes.local(zone, point, point)
        return way.links if way else None

    # Clusters ------------------------------------------------------------------------------------------------------

    def in_cluster(self, element, parent):
        topology = element.get("topology", "FLAT")
        if topology not in ("FLAT", *KINDS):
            raise Refused(element, f"{element}: topology {quoted(topology)} isn't supported")
        zone = self.new_zone(element, "Star" if topology == "FLAT" else "Full", parent)
        cluster = Cluster(self, element)
        props = self.props(element, ("wattage_per_state", "wattage_off"))
        if topology == "FLAT":
            self.flat(cluster, zone, props)
        else:
            self.topology(cluster, zone, KINDS[topology], props)

    def flat(self, cluster, zone, props):
        element = cluster.element
        if len(cluster.radicals) > 16384:
            raise Refused(element, f"{element}: {len(cluster.radicals)} hosts; a platform has at most 16384")
        if element.get("bb_bw"):
            policy = element.get("bb_sharing_policy", "SHARED")
            if policy not in ("SHARED", "FATPIPE"):
                raise Refused(element, f"{element}: bb_sharing_policy {quoted(policy)} isn't supported")
            zone.backbone = self.link(element, f"{cluster.id}_backbone", values.bandwidth(element, element.get("bb_bw"), "bb_bw"),
                                      values.latency(element, element.get("bb_lat", "0"), self.notes, "bb_lat"), policy)
        elif values.value_of(element, element.get("bb_lat", "0"), values.TIMES, "bb_lat", values.GREATEST_LATENCY, 0):
            raise Refused(element, f"{element}: bb_lat without bb_bw")
        for radical in cluster.radicals:
            host = self.host(element, cluster.host(radical), zone, props=props)
            up = [self.link(element, f"{cluster.id}_link_{radical}_limiter", cluster.limiter, "0")] if cluster.limiter else []
            link = self.link(element, f"{cluster.id}_link_{radical}", values.bandwidth(element, cluster.bandwidth),
                             cluster.latency, "SPLITDUPLEX" if cluster.split else "SHARED")
            back = [zone.backbone] if zone.backbone else []
            zone.spokes[host] = (*up, link + ("_UP" if cluster.split else ""), *back), (
                *back, link + ("_DOWN" if cluster.split else ""), *up)
            if cluster.loopback:
                zone.ways[host, host] = Way((self.link(element, f"{cluster.id}_link_{radical}_loopback", *cluster.loopback,
                                                       "FATPIPE"),), place=element)
        self.router(element, element.get("router_id") or f"{cluster.prefix}{element.get('id')}_router{cluster.suffix}", zone)

    def topology(self, cluster, zone, kind, props):
        element, topology = cluster.element, kind(cluster.element, cluster, self.count)
        if len(cluster.radicals) < topology.size:
            raise Refused(element, f"{element}: {topology.size} hosts by topo_parameters, and {len(cluster.radicals)} by radical")
        if kind.__name__ == "FatTree" and len(cluster.radicals) > topology.size:
            self.notes.add(element, f"{element}: {topology.size} hosts by topo_parameters, and {len(cluster.radicals)} by radical")
        for radical in cluster.radicals[:topology.size]:
            host = self.host(element, cluster.host(radical), zone, props=props)
            if cluster.loopback:
                zone.ways[host, host] = Way((self.link(element, f"{cluster.id}_link_{radical}_loopback", *cluster.loopback,
                                                       "FATPIPE"),), place=element)
        for number in topology.limiters if cluster.limiter else ():
            self.link(element, limiter(cluster.id, number), cluster.limiter, "0")
        for name, factor in topology.links.items():
            self.link(element, name, values.times(element, cluster.bandwidth, factor), cluster.latency,
                      "SPLITDUPLEX" if cluster.split else "SHARED")
        zone.topology = Written(topology, zone.hosts)

    # Zones with routing="Cluster" ----------------------------------------------------------------------------------

    def of_star(self, element, zone):
        if zone.routing != "Star":
            raise Refused(element, f"{element} in a zone whose routing isn't Cluster")

    def in_backbone(self, element, zone):
        element.only(("id", "bandwidth", "latency"))
        self.of_star(element, zone)
        if zone.backbone:
            raise Refused(element, f"{element}: a second backbone")
        zone.backbone = self.link(element, element.need("id"), values.bandwidth(element, element.need("bandwidth")),
                                  values.latency(element, element.need("latency"), self.notes))

    def in_host_link(self, element, zone):
        element.only(("id", "up", "down"))
        self.of_star(element, zone)

        def spoke():
            host = self.names.known(element, element.need("id"), "host")
            if host not in zone.hosts:
                raise Refused(element, f"{element}: the host isn't in zone {zone.id}")
            up, down = (self.use(element, element.need(key)).name for key in ("up", "down"))
            self.spoke(zone, host, up, down)
        self.later.append(spoke)

    def in_cabinet(self, element, zone):
        element.only(("id", "prefix", "suffix", "radical", "speed", "bw", "lat"))
        self.of_star(element, zone)
        latency = values.latency(element, element.need("lat"), self.notes)
        bandwidth = values.bandwidth(element, element.need("bw"))
        for radical in values.radicals(element, element.need("radical")):
            host = f"{element.get('prefix')}{radical}{element.get('suffix')}"
            up, down = (self.link(element, f"link_{host}_{way}", bandwidth, latency) for way in ("UP", "DOWN"))
            name = self.host(element, host, zone)
            self.later.append(lambda name=name, up=up, down=down: self.spoke(zone, name, up, down))

    def spoke(self, zone, host, up, down):
        back = (zone.backbone,) if zone.backbone else ()
        zone.spokes[host] = (up, *back), (*back, down)

    # Profiles ------------------------------------------------------------------------------------------------------

    def in_trace(self, element, zone):
        """A trace in the element or in a file, which itself says whether it repeats."""
        element.only(("id", "file", "periodicity"))
        if element.get("file"):
            self.traces[element.get("id")] = self.file_profile(element.get("file"))
        else:
            self.traces[element.get("id")] = Profile(element.file, element.line, element.text, element.get("periodicity", "-1"))

    def in_trace_connect(self, element, zone):
        element.only(("trace", "element", "kind"))
        kind = element.get("kind", "HOST_AVAIL")
        if kind not in CONNECTED:
            raise Refused(element, f"{element}: kind {quoted(kind)} isn't supported" + (
                ": a link keeps its latency" if kind == "LATENCY" else ""))
        if any(other.get("trace") == element.get("trace") and other.get("kind", "HOST_AVAIL") == kind
               for other in self.connections):
            self.notes.add(element, f"<trace_connect> of trace {quoted(element.get('trace'))} is left out, as SimGrid does: "
                           "it connects a trace once a kind")
            return
        self.connections.append(element)
        self.later.append(lambda: self.connect(element, *CONNECTED[kind]))

    def connect(self, element, of, table):
        space, trace = self.names if of == "host" else self.link_names, self.traces.get(element.get("trace"))
        name = space.of.get(element.get("element"))
        if trace is None or name not in (self.speeds if of == "host" else space.taken):
            raise Refused(element, f"<trace_connect> of a {of} {element.get('element')} that doesn't exist, or to no trace")
        self.profile(of, table, name, element, trace)

    def file_profile(self, name):
        path = xmlfile.find(name, self.folder)
        return Profile(path, 1, "\n".join(xmlfile.read_lines(path)))

    def profile_by(self, of, table, name, element, file):
        if file:
            self.profile(of, table, name, element, self.file_profile(file))

    def profile(self, of, table, name, element, trace):
        """The profile of a host, or of each link of a row, if the trace isn't empty."""
        things = [name + "_UP", name + "_DOWN"] if of == "link" and name in self.split else [name]
        if any(keys.get(of) == things[0] for keys, _ in self.rows.tables[table]):
            raise Refused(element, f"{of} {name} has two traces")
        if not trace.values:
            return
        given = trace.states() if table == "state_profile" else trace.rates(self.speeds[name] if of == "host" else 1)
        if table == "state_profile" and of == "host":
            self.notes.add(element, "the actors of a host that fails continue, and its activities fail; SimGrid kills them")
        for thing in things:
            self.rows.add(table, element, **{of: thing}, **trace.keys(given))
