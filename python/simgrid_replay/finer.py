"""Platforms with SimGrid's cross traffic, and in finer units of bytes. A platform is the tables of its TOML.

**Cross traffic.** In SimGrid a flow also takes 5 % of its rate on each link of the reverse route. If a link is on both routes of a
flow, the flow takes 1.05 of its rate there, which equals a link of bandwidth / 1.05. This is exact for SHARED links if all routes
use the same links in both directions. FATPIPE links are unchanged, as in SimGrid. On a SPLITDUPLEX link the two routes use
different directions; there the 5 % are left out.

**Finer units.** Rates are whole numbers. With small bandwidths the rounding shows in the sixth digit of dates. So bytes are counted
in smaller units: all bandwidths, sizes and rates are multiplied by a power of ten.
"""

from fractions import Fraction

from .routes import number

CROSS = Fraction(105, 100)
# Bandwidths become at least ENOUGH if none gets above MOST; GREATEST is the greatest allowed.
ENOUGH, MOST, GREATEST = 10**9, 10**13, 10**15


def policy(row: dict) -> str:
    return row.get("sharing_policy", "SHARED")


def is_symmetrical(platform: dict) -> bool:
    """Whether each route has a reverse route that uses the same SHARED links."""
    shared = {row["id"] for row in platform.get("link", []) if policy(row) == "SHARED"}
    ways = {}
    for table in ("route", "zone_route"):
        for row in platform.get(table, []):
            ends, links = (row["src"], row["dst"]), shared.intersection(row["links"])
            ways[table, *ends] = links
            if row.get("symmetrical", True):
                ways[table, *ends[::-1]] = links
    return all(ways.get((table, target, source), set()) == links for (table, source, target), links in ways.items()) and all(
        shared.intersection(row["up"]) == shared.intersection(row.get("down", row["up"])) for row in platform.get("spoke", []))


def unit_of(platform: dict) -> int:
    """The factor by which bytes are multiplied."""
    widths = [number(str(row["bandwidth"])) for row in platform.get("link", []) if policy(row) != "FATPIPE"]
    unit = 1
    while widths and min(widths) * unit < ENOUGH and max(widths) * unit < MOST:
        unit *= 10
    return unit


def finer(platform: dict, unit: int, cross: bool) -> dict:
    """The platform with bandwidths multiplied by a unit, and with cross traffic."""
    crossed = {row["id"] for row in platform.get("link", []) if cross and policy(row) == "SHARED"}

    def rate(text, link=None) -> str:
        if unit == 1 and link not in crossed:
            return str(text)
        value = number(str(text)) * unit / (CROSS if link in crossed else 1)
        return str(min(GREATEST, round(value)))
    made = dict(platform)
    made["link"] = [{**row, "bandwidth": rate(row["bandwidth"], row["id"])} for row in platform.get("link", [])]
    made["network"] = [{**row, **({"window": rate(row["window"])} if "window" in row else {})} for row in platform.get("network", [])]
    if "profile" in platform:
        made["profile"] = [{**row, "values": [rate(value, row["link"]) for value in row["values"]]} if "link" in row else row
                           for row in platform["profile"]]
    return {table: rows for table, rows in made.items() if rows}
