"""The rows of routes, by zone: those that are declared, or all routes if SimGrid finds them by a search."""

from .platform import LOOPBACK, MOST_ZONES
from .routing import MOST_CHILDREN, Way
from .notes import Refused


def write(platform):
    """Adds routes, spokes and loopbacks of all zones."""
    for zone in list(platform.of_zone.values()):
        if zone.topology:
            pairs(platform, zone)
            if zone.hosts and not any((host, host) in zone.ways or zone.topology.way(host, host) for host in zone.hosts[:1]):
                platform.notes.add(zone.element, f"{zone.element}: a host reaches itself over a loopback of 498 MBps and 15 us, in "
                                   "SimGrid up and down its own link")
        elif zone.routing == "Star":
            star(platform, zone)
        elif zone.routing in ("Dijkstra", "Floyd"):
            searched(platform, zone)
        else:
            declared(platform, zone)
            if zone.routing == "Full":
                loopbacks(platform, zone)


def add(platform, zone, source, target, way, symmetrical):
    """A row of a route, or of a zone's route."""
    if not way.links:
        return
    ends = {"src": source, "dst": target}
    if way.gw_src:
        ends.update(gw_src=way.gw_src, gw_dst=way.gw_dst)
    elif source in platform.of_zone or target in platform.of_zone:
        raise Refused(way.place or zone.element, f"{zone.element}: the route from {source} to {target} has no gateways")
    platform.rows.add("zone_route" if way.gw_src else "route", way.place or zone.element, **ends, links=list(way.links),
                      **({} if symmetrical else {"symmetrical": False}))


def declared(platform, zone):
    """The routes of a Full zone, with bypasses instead of the routes that they replace."""
    given = set()
    for row in zone.rows:
        there, back = row.ends, row.ends[::-1]
        given.update((there, back) if row.symmetrical else (there,))
        if not row.symmetrical or row.plain() and not {there, back} & set(zone.bypass):
            add(platform, zone, *there, zone.bypass.get(there, row.way()), row.symmetrical or there == back)
            continue
        for pair in (there, back):
            add(platform, zone, *pair, zone.bypass.get(pair, zone.ways[pair]), False)
    for pair in [*zone.bypass, *zone.ways]:
        # Bypasses without a route, and routes without a row.
        if pair not in given:
            given.add(pair)
            add(platform, zone, *pair, zone.bypass.get(pair) or zone.ways[pair], pair[0] == pair[1])


def loopbacks(platform, zone):
    """Adds a route from each host to itself, if SimGrid has one: in a zone without zones."""
    if zone.zones:
        return
    for host in zone.hosts:
        if (host, host) not in zone.ways and (host, host) not in zone.bypass:
            platform.rows.add("route", zone.element, src=host, dst=host, links=[loopback(platform)])


def loopback(platform):
    if LOOPBACK not in platform.link_names.taken:
        platform.link(platform.root.element, LOOPBACK, *platform.loopback, "FATPIPE")
    return platform.link_names.of[LOOPBACK]


def searched(platform, zone):
    """A zone with shortest paths: a Dijkstra zone, or a row for each of its routes."""
    if zone.zones or zone.bypass:
        pairs(platform, zone)
        loopbacks(platform, zone)
        return
    zone.row["routing"] = "Dijkstra"
    note = f"zone {zone.id}: {zone.element.get('routing')} is Dijkstra here; "
    platform.notes.add(zone.element, note + "of equally short paths it takes the one whose links are declared first, and "
                       "SimGrid the one that its search finds first")
    if zone.hosts:
        platform.notes.add(zone.element, note + "a host reaches itself over a loopback of 498 MBps and 15 us, in SimGrid of "
                           f"{platform.loopback[0]} and {platform.loopback[1]} s")
    declared(platform, zone)


def pairs(platform, zone):
    """A row for each ordered pair, or one for both directions if the reverse route is the same."""
    if len(zone.children) > MOST_CHILDREN:
        raise Refused(zone.element, f"{zone.element}: {len(zone.children)} children, but at most {MOST_CHILDREN} are supported in a zone "
                      "with a row for each route")
    ways = {}
    for source in zone.children:
        for target in zone.children:
            pair = source, target
            way = zone.bypass.get(pair) or zone.ways.get(pair) if source == target else (
                zone.bypass.get(pair) or platform.routes.local(zone, source, target))
            if way is None and source == target and zone.topology:
                way = zone.topology.way(source, target)
            if way and way.links:
                ways[pair] = way
    for (source, target), way in ways.items():
        other = ways.get((target, source))
        if source == target or other is None or other[:3] != reverse(platform, way):
            add(platform, zone, source, target, way, source == target)
        elif zone.children.index(source) < zone.children.index(target):
            add(platform, zone, source, target, way, True)


def reverse(platform, way):
    links = tuple(back(name, platform.split) for name in reversed(way.links))
    return links, way.gw_dst, way.gw_src


def back(name, split):
    if name.endswith("_UP") and name[:-3] in split:
        return name[:-3] + "_DOWN"
    if name.endswith("_DOWN") and name[:-5] in split:
        return name[:-5] + "_UP"
    return name


def star(platform, zone):
    """A spoke for each host, and for each router that others use."""
    zone.row["routing"] = "Star"
    own = own_loops(platform, zone)
    for name in zone.points:
        up, down = zone.spokes.setdefault(name, ((), ()))
        if not up:
            if not zone.backbone and name not in zone.hosts and name not in platform.gateways:
                continue
            # A spoke has at least one link. The backbone counts once on a route; a link of the greatest bandwidth has no effect.
            up = down = (zone.backbone or ideal(platform, zone, name),)
        keys = {"zone": zone.id, "child": name, "up": list(up)}
        if name in own:
            keys.update(child=own[name], gateway=name)
        platform.rows.add("spoke", zone.element, **{key: keys[key] for key in ("zone", "child", "gateway", "up") if key in keys},
                          **({} if reverse(platform, Way(up))[0] == down else {"down": list(down)}))


def ideal(platform, zone, name):
    return platform.link(zone.element, f"{name}_link", "1000000000000000", "0", "FATPIPE")


def own_loops(platform, zone):
    """Adds a Full zone for each host that has its own loopback, since a Star zone has no routes."""
    loops = [name for name in zone.hosts if (name, name) in zone.ways]
    if len(platform.of_zone) + platform.more_zones + len(loops) > MOST_ZONES:
        platform.notes.add(zone.element, f"{zone.element}: its loopbacks are left out: a zone for each of {len(loops)} hosts would "
                           f"be needed, and a platform has at most {MOST_ZONES}")
        loops = []
    elif zone.hosts and not loops:
        platform.notes.add(zone.element, f"{zone.element}: a host reaches itself over a loopback of 498 MBps and 15 us, in SimGrid "
                           "up and down its own link")
    platform.more_zones += len(loops)
    own = {}
    for name in loops:
        own[name] = platform.names.new(zone.element, f"{name}_zone", "zone")
        platform.rows.add("zone", zone.element, id=own[name], parent=zone.id, routing="Full")
        platform.point_rows[name]["zone"] = own[name]
        add(platform, zone, name, name, zone.ways[name, name], True)
    return own
