"""tools/explain: each kind of fault leads to its place and its rule, and its own judgement is the program's."""

import os
import random
import re
import unittest
from concurrent.futures import ThreadPoolExecutor

import inputs
from common import ACTOR, HOST, ZONE, Folder, module, tool

import simgrid_replay

EXPLAIN = module("explain")

LINK = '[[link]]\nid = "l"\nbandwidth = "1MBps"\n'
SPLIT = LINK + 'sharing_policy = "SPLITDUPLEX"\n'
TWO = HOST + HOST.replace("h1", "h2")
STAR = ZONE.replace("Full", "Star")
ROUTE = '[[route]]\nsrc = "h1"\ndst = "h2"\nlinks = ["l"]\n'
NEST = ZONE + '[[zone]]\nid = "in"\nparent = "z"\nrouting = "Full"\n'
ZROUTE = '[[zone_route]]\nsrc = "in"\ndst = "h2"\ngw_src = "h1"\nlinks = ["l"]\n'
SPOKE = '[[spoke]]\nzone = "z"\nchild = "h1"\nup = ["l"]\n'
NETWORK = "[[network]]\n"
PROFILE = '[[profile]]\nhost = "h1"\ndates = ["1", "2"]\nvalues = ["5Mf", "0"]\n'
STATES = '[[state_profile]]\nhost = "h1"\ndates = ["1", "2"]\nstates = ["off", "on"]\n'
MASTER = '[[actor]]\nname = "m"\nhost = "h1"\nfunction = "master"\nargument = ["1", "1", "1", "w"]\n'
WORKER = '[[actor]]\nname = "w"\nhost = "h1"\nfunction = "worker"\n'
MUTEX = '[[mutex]]\nid = "m"\n[[semaphore]]\nid = "s"\ncapacity = 1\n'
GOOD = ZONE + HOST

# Three hosts in a row: a slow link joins the first two, and the last host is slow.
THREE = ZONE + TWO + HOST.replace("h1", "h3").replace("1Gf", "1f") + LINK.replace("1MBps", "1Bps") + LINK.replace('"l"', '"k"') + "".join(
    f'[[route]]\nsrc = "{a}"\ndst = "{b}"\nlinks = {links}\n' for a, b, links in (
        ("h1", "h2", '["l"]'), ("h2", "h3", '["l", "k"]'), ("h1", "h3", '["k"]')))
# A Full zone over a Star and a Dijkstra zone, in which each link has a latency of its own.
ENDS = ("h1", "h2", "d1", "d2", "d3", "x1")
NESTED = ('zone = [{id = "z", routing = "Full"}, {id = "s", parent = "z", routing = "Star"}, {id = "d", parent = "z", routing = "Dijkstra"}]\n'
          "host = [" + ", ".join(f'{{id = "{h}", zone = "{ {"h": "s", "d": "d", "x": "z"}[h[0]] }", speed = "1Gf"}}' for h in ENDS) + "]\n"
          'router = [{id = "gw", zone = "s"}]\nlink = ['
          + ", ".join(f'{{id = "{name}", bandwidth = "1MBps", latency = "{10**at}ns"' + (', sharing_policy = "SPLITDUPLEX"' if name in "kl" else "")
                      + "}" for at, name in enumerate("klmnop")) + ']\n'
          'spoke = [{zone = "s", child = "h1", up = ["k_UP", "m"]}, {zone = "s", child = "h2", up = ["l_UP", "m"], down = ["m", "k_DOWN"]}, '
          '{zone = "s", child = "gw", up = ["m"]}]\n'
          'route = [{src = "d1", dst = "d2", links = ["n"]}, {src = "d2", dst = "d3", links = ["o"]}, {src = "d1", dst = "d3", links = ["n", "p", "o"]}]\n'
          'zone_route = [{src = "s", dst = "d", gw_src = "gw", gw_dst = "d2", links = ["p"]}, {src = "x1", dst = "s", gw_dst = "gw", links = ["o"]}, '
          '{src = "x1", dst = "d", gw_dst = "d1", links = ["l_UP"]}]\n')

# The platform's text, the program's line, the line and column, what stands over the carets, and a part of the explanation.
PLATFORMS = [
    ("", "no root zone (table 1, row 0, key 0)", "1:1", "", "there is no zone"),
    (GOOD + "x = \n", "not TOML", "8:5", "", "a value was expected"),
    ("[[host]\n", "not TOML", "1:7", "]", "`]]` was expected"),
    (GOOD + 'speed = "2Gf"\n', "not TOML", "8:1", "speed", "twice, first in line 7"),
    (GOOD.replace('"1Gf"', "1Gf"), "not TOML", "7:9", "1Gf", 'a text needs quotes: "1Gf"'),
    (GOOD.replace('"1Gf"', "\u201c1Gf\u201d"), "not TOML", "7:9", "\u201c", "typographic quotation mark"),
    ('<?xml version="1.0"?>\n<platform>\n', "not TOML", "1:1", "<", "this looks like XML"),
    (GOOD + "x = 9223372036854775808\n", "not TOML", "8:5", "9223372036854775808", "64 bits"),
    (ZONE.encode() + b"# caf\xe9\n", "not TOML", "4:6", "\ufffd", "0xe9 is not UTF-8"),
    (GOOD.encode("utf-16"), "not TOML", "1:1", "\ufffd", "UTF-16"),
    (b"\x7fELF\x02\x01\x01" + b"\0" * 9, "not TOML", "1:1", "\x7f", "not a text file"),
    (GOOD + 'x = "abc\n', "not TOML", "8:5", '"abc', "never closed"),
    (GOOD + "x = [1,\n", "not TOML", "8:5", "[", "never closed"),
    (ZONE + "[host]\nid = 1\n[[host]]\n", "not TOML", "6:1", "[[host]]", "was defined before, in line 4"),
    ("#" * 16777217, "over a limit (table 0, row 0, key 0)", "1:16777217", "#", "at most 16,777,216 bytes"),
    (GOOD + "[[hosts]]\n", "unknown name (table 0, row 0, key 0)", "8:1", "[[hosts]]", "did you mean `host`?"),
    ("hosts = 3\n", "unknown name (table 0, row 0, key 0)", "1:1", "hosts", "the table `hosts`"),
    (ACTOR, "unknown name (table 0, row 0, key 0)", "1:1", "[[actor]]", "PLATFORM DEPLOYMENT SCRIPT"),
    ("[host]\n", "wrong type (table 2, row 0, key 0)", "1:1", "[host]", "write `[[host]]` in double brackets"),
    ("zone = [" + '{id="z",routing="Full"},' * 1025 + "]\n", "over a limit (table 1, row 0, key 0)", "1:24585", '{id="z",routing="Full"}',
     "at most 1,024 rows"),
    ("host = [\n  7]\n", "wrong type (table 2, row 1, key 0)", "2:3", "7", "a whole number, `7`"),
    (GOOD + "cores = 4\n", "unknown name (table 2, row 1, key 0)", "8:1", "cores", "did you mean `core`?"),
    (ZONE + '[[host]]\nid = "h1"\nzone = "z"\n', "missing key (table 2, row 1, key 3)", "4:1", "[[host]]", "no key `speed`"),
    (NEST + HOST.replace('"z"', '"in"') + HOST.replace("h1", "h2") + LINK + ZROUTE.replace('gw_src = "h1"\n', ""),
     "missing key (table 6, row 1, key 3)", "19:1", "[[zone_route]]", 'as `gw_src = "h1"`'),
    (GOOD.replace('"1Gf"', "1000"), "wrong type (table 2, row 1, key 3)", "7:9", "1000", 'as `speed = "1000"`'),
    (GOOD + 'core = "4"\n', "wrong type (table 2, row 1, key 4)", "8:8", '"4"', "without quotes, as `core = 4`"),
    (GOOD + "core = 4.0\n", "wrong type (table 2, row 1, key 4)", "8:8", "4.0", "a float, `4.0`"),
    (ZONE + LINK + "latency = 0\n", "wrong type (table 4, row 1, key 3)", "7:11", "0", 'as `latency = "0"`'),
    (ZONE + TWO + LINK + ROUTE + 'symmetrical = "NO"\n', "wrong type (table 5, row 1, key 4)", "19:15", '"NO"', "symmetrical = false"),
    (ZONE + TWO + LINK + ROUTE.replace('["l"]', '"l"'), "wrong type (table 5, row 1, key 3)", "18:9", '"l"', 'as `links = ["l"]`'),
    (GOOD.replace("1Gf", "1 Gf"), "bad value (table 2, row 1, key 3)", "7:9", '"1 Gf"', "before the unit: `1Gf`"),
    (GOOD.replace("1Gf", "1GHz"), "bad value (table 2, row 1, key 3)", "7:9", '"1GHz"', "did you mean `1Gf`?"),
    (GOOD.replace("1Gf", "1gf"), "bad value (table 2, row 1, key 3)", "7:9", '"1gf"', "did you mean `1Gf`?"),
    (GOOD.replace("1Gf", "1e20f"), "bad value (table 2, row 1, key 3)", "7:9", '"1e20f"', "above 10^15"),
    (GOOD.replace("1Gf", "0"), "bad value (table 2, row 1, key 3)", "7:9", '"0"', "it is zero"),
    (GOOD.replace("1Gf", ".5Gf"), "bad value (table 2, row 1, key 3)", "7:9", '".5Gf"', "a leading zero: `0.5Gf`"),
    (GOOD.replace("1Gf", "1,5Gf"), "bad value (table 2, row 1, key 3)", "7:9", '"1,5Gf"', "is a point: `1.5Gf`"),
    (ZONE + LINK.replace("1MBps", "500kB/s"), "bad value (table 4, row 1, key 2)", "6:13", '"500kB/s"', "did you mean `500kBps`?"),
    (ZONE + LINK.replace("1MBps", "500 kBps"), "bad value (table 4, row 1, key 2)", "6:13", '"500 kBps"', "unit: `500kBps`"),
    (ZONE + LINK + 'latency = "1000001s"\n', "bad value (table 4, row 1, key 3)", "7:11", '"1000001s"', "10^15 ns (1,000,000 s)"),
    (GOOD + NETWORK + 'latency_factor = 13.01\n', "wrong type (table 8, row 1, key 1)", "9:18", "13.01", 'as `latency_factor = "13.01"`'),
    (GOOD + NETWORK + 'latency_factor = "1000.5"\n', "bad value (table 8, row 1, key 1)", "9:18", '"1000.5"', "above 1,000"),
    (GOOD + NETWORK + 'bandwidth_factor = "0"\n', "bad value (table 8, row 1, key 2)", "9:20", '"0"', "it is zero"),
    (GOOD + NETWORK + 'window = "4MiB"\n', "bad value (table 8, row 1, key 3)", "9:10", '"4MiB"', "without a unit: `4194304`"),
    (GOOD + NETWORK + 'window = "4 ms"\n', "bad value (table 8, row 1, key 3)", "9:10", '"4 ms"', "write the number without a unit\n"),
    (GOOD.replace('"1Gf"', "2e9"), "wrong type (table 2, row 1, key 3)", "7:9", "2e9", 'a float, `2e9`'),
    (GOOD.replace('"1Gf"', "+2_000"), "wrong type (table 2, row 1, key 3)", "7:9", "+2_000", 'as `speed = "2000"`'),
    (GOOD.replace('"1Gf"', "2e9"), "wrong type (table 2, row 1, key 3)", "7:9", "2e9", 'as `speed = "2e9"`'),
    (GOOD.replace("1Gf", "2 GHz"), "bad value (table 2, row 1, key 3)", "7:9", '"2 GHz"', "did you mean `2Gf`?"),
    (GOOD.replace("1Gf", "3.5 TFLOPS"), "bad value (table 2, row 1, key 3)", "7:9", '"3.5 TFLOPS"', "did you mean `3.5Tf`?"),
    (ZONE + LINK.replace("1MBps", "10 Gbit/s"), "bad value (table 4, row 1, key 2)", "6:13", '"10 Gbit/s"', "did you mean `10Gbps`?"),
    (ZONE + LINK.replace("1MBps", "10MiB/s"), "bad value (table 4, row 1, key 2)", "6:13", '"10MiB/s"', "did you mean `10MiBps`?"),
    (ZONE + LINK + 'latency = "1min"\n', "bad value (table 4, row 1, key 3)", "7:11", '"1min"', "did you mean `1m`?"),
    (ZONE + LINK + 'latency = "5 usec"\n', "bad value (table 4, row 1, key 3)", "7:11", '"5 usec"', "did you mean `5us`?"),
    (ZONE + LINK + 'policy = "SHARED"\n', "unknown name (table 4, row 1, key 0)", "7:1", "policy", "did you mean `sharing_policy`?"),
    (ZONE + TWO + LINK + ROUTE.replace("src", "from"), "unknown name (table 5, row 1, key 0)", "16:1", "from", "did you mean `src`?"),
    (ZONE + TWO + LINK + ROUTE.replace("dst", "to"), "unknown name (table 5, row 1, key 0)", "17:1", "to", "did you mean `dst`?"),
    (ZONE + HOST.replace("id =", "name ="), "unknown name (table 2, row 1, key 0)", "5:1", "name", "did you mean `id`?"),
    (GOOD + NETWORK + 'weight_s = "20537"\n', "unknown name (table 8, row 1, key 0)", "9:1", "weight_s", "`window`"),
    (GOOD + NETWORK * 2, "over a limit (table 8, row 0, key 0)", "9:1", "[[network]]", "at most 1 row"),
    (GOOD + PROFILE.replace('host = "h1"\n', ""), "missing key (table 9, row 1, key 1)", "8:1", "[[profile]]", 'or `link = "l1"`'),
    (GOOD + PROFILE.replace("h1", "z"), "unknown name (table 9, row 1, key 1)", "9:8", '"z"', "`z` is a zone"),
    (GOOD + PROFILE * 2, "duplicate (table 9, row 2, key 1)", "13:8", '"h1"', "row 1, in line 8, gives a profile already"),
    (GOOD + LINK + PROFILE + 'link = "l"\n', "bad value (table 9, row 1, key 2)", "15:8", '"l"', "the row has `host` too"),
    (GOOD + SPLIT + PROFILE.replace('host = "h1"', 'link = "l"'), "unknown name (table 9, row 1, key 2)", "13:8", '"l"', "write `l_UP` or `l_DOWN`"),
    (GOOD + PROFILE.replace('"2"', '"1s"'), "bad value (table 9, row 1, key 3)", "10:15", '"1s"', "isn't later than the date before"),
    (GOOD + PROFILE.replace('"2"', '"2 s"'), "bad value (table 9, row 1, key 3)", "10:15", '"2 s"', "before the unit: `2s`"),
    (GOOD + PROFILE.replace('["1", "2"]', "[]"), "bad value (table 9, row 1, key 3)", "10:9", "[]", "at least one date"),
    (GOOD + PROFILE.replace('["1", "2"]', "[" + ",".join(f'"{i}"' for i in range(1025)) + "]"), "over a limit (table 9, row 1, key 3)",
     "10:6068", '"1024"', "at most 1,024 dates"),
    (GOOD + PROFILE.replace(', "0"', ""), "bad value (table 9, row 1, key 4)", "11:10", '["5Mf"]', "1 values for 2 dates"),
    (GOOD + PROFILE.replace("5Mf", "5MBps"), "bad value (table 9, row 1, key 4)", "11:11", '"5MBps"', "is not a unit of a speed"),
    (GOOD + PROFILE + "loop = 5\n", "wrong type (table 9, row 1, key 5)", "12:8", "5", 'as `loop = "5"`'),
    (GOOD + PROFILE + 'loop = "0"\n', "bad value (table 9, row 1, key 5)", "12:8", '"0"', "it is zero"),
    (GOOD + PROFILE + STATES * 2, "duplicate (table 10, row 2, key 1)", "17:8", '"h1"', "row 1, in line 12, gives a profile already"),
    (GOOD + STATES.replace('host = "h1"', ""), "missing key (table 10, row 1, key 1)", "8:1", "[[state_profile]]", 'or `link = "l1"`'),
    (GOOD + STATES.replace('"2"', '"1"'), "bad value (table 10, row 1, key 3)", "10:15", '"1"', "isn't later than the date before"),
    (GOOD + STATES.replace(', "on"', ""), "bad value (table 10, row 1, key 4)", "11:10", '["off"]', "1 states for 2 dates"),
    (GOOD + STATES.replace('"on"', '"up"'), "bad value (table 10, row 1, key 4)", "11:18", '"up"', "write `on` or `off`"),
    (GOOD + STATES.replace('"on"', "true"), "wrong type (table 10, row 1, key 4)", "11:18", "true", 'as `states = ["off", "on"]`'),
    (GOOD + "core = 2000\n", "bad value (table 2, row 1, key 4)", "8:8", "2000", "from 1 to 1024"),
    (GOOD + "power = 100\n", "wrong type (table 2, row 1, key 5)", "8:9", "100", "as `power = [95000, 120000, 200000]`"),
    (GOOD + 'power = [1, "2", 3]\n', "wrong type (table 2, row 1, key 5)", "8:13", '"2"', "a text, `2`"),
    (GOOD + "power = [1, 2]\n", "bad value (table 2, row 1, key 5)", "8:9", "[1, 2]", "2 numbers"),
    (GOOD + "power = [1, 2, 1000000001]\n", "bad value (table 2, row 1, key 5)", "8:16", "1000000001", "power is in milliwatts"),
    (GOOD + "power = [9, 5, 4]\n", "bad value (table 2, row 1, key 5)", "8:16", "4", "4 with all cores in use, 5 with next to none"),
    (GOOD + "power_off = -1\n", "bad value (table 2, row 1, key 6)", "8:13", "-1", "milliwatts from 0 to 10^9"),
    (ZONE.replace("Full", "full"), "bad value (table 1, row 1, key 3)", "3:11", '"full"', "did you mean `Full`?"),
    (ZONE.replace("Full", "Floyd"), "bad value (table 1, row 1, key 3)", "3:11", '"Floyd"', "the same shortest paths"),
    (ZONE.replace("Full", "Cluster"), "bad value (table 1, row 1, key 3)", "3:11", '"Cluster"', "tools/cluster"),
    (ZONE + LINK + 'sharing_policy = "shared"\n', "bad value (table 4, row 1, key 4)", "7:18", '"shared"', "did you mean `SHARED`?"),
    (ZONE + TWO + LINK + ROUTE.replace('["l"]', "[]"), "bad value (table 5, row 1, key 3)", "18:9", "[]", "at least one link"),
    (GOOD.replace("h1", "h 1"), "bad name (table 2, row 1, key 1)", "5:6", '"h 1"', "has a blank in it"),
    (GOOD.replace("h1", "h" * 65), "bad name (table 2, row 1, key 1)", "5:6", f'"{"h" * 65}"', "has 65 characters"),
    (ZONE + SPLIT.replace('"l"', f'"{"l" * 60}"'), "bad name (table 4, row 1, key 1)", "5:6", f'"{"l" * 60}"', "at most 59 bytes"),
    (GOOD + HOST, "duplicate (table 2, row 2, key 1)", "9:6", '"h1"', "`h1` is taken by row 1 of table `host`, in line 4"),
    (ZONE + LINK.replace('"l"', '"l_UP"') + SPLIT, "duplicate (table 4, row 2, key 1)", "8:6", '"l"', "`l_UP` is taken by row 1"),
    (ZONE + TWO + LINK + ROUTE + ROUTE.replace("h1", "x").replace("h2", "h1").replace("x", "h2"),
     "duplicate (table 5, row 2, key 2)", "21:7", '"h1"', "gives the reverse route too"),
    (STAR + HOST + LINK + SPOKE * 2, "duplicate (table 7, row 2, key 2)", "17:9", '"h1"', "a child has one spoke"),
    (GOOD.replace('zone = "z"', 'zone = "zz"'), "unknown name (table 2, row 1, key 2)", "6:8", '"zz"', "did you mean `z`?"),
    (GOOD.replace('zone = "z"', 'zone = "h1"'), "unknown name (table 2, row 1, key 2)", "6:8", '"h1"', "`h1` is a host"),
    (ZONE + TWO + LINK + ROUTE.replace('"h2"', '"z"'), "unknown name (table 5, row 1, key 2)", "17:7", '"z"', "`zone_route`"),
    (ZONE + TWO + SPLIT + ROUTE, "unknown name (table 5, row 1, key 3)", "19:10", '"l"', "write `l_UP` or `l_DOWN`"),
    (ZONE + TWO + LINK + ROUTE.replace('["l"]', '["l", "k"]'), "unknown name (table 5, row 1, key 3)", "18:15", '"k"', "`k`"),
    (ZONE + TWO + LINK + ROUTE.replace('["l"]', "[" + '"l",' * 65 + "]"), "over a limit (table 5, row 1, key 3)", "18:266", '"l"',
     "at most 64 links"),
    (ZONE + 'parent = "z"\n', "no root zone (table 1, row 0, key 0)", "1:1", "[[zone]]", "each zone has a `parent`"),
    (ZONE + ZONE.replace('"z"', '"y"'), "two root zones (table 1, row 2, key 2)", "4:1", "[[zone]]", "`z` has no `parent` either"),
    (ZONE + '[[zone]]\nid = "a"\nparent = "b"\nrouting = "Full"\n[[zone]]\nid = "b"\nparent = "a"\nrouting = "Full"\n',
     "zone cycle (table 1, row 2, key 2)", "6:10", '"b"', "`a` is among the zones above itself"),
    ("".join(f'[[zone]]\nid = "z{i}"\nrouting = "Full"\n' + (f'parent = "z{i - 1}"\n' if i else "") for i in range(17)),
     "zones too deep (table 1, row 17, key 2)", "67:10", '"z15"', "a depth of 17"),
    (NEST + HOST.replace('"z"', '"in"') + HOST.replace("h1", "h2") + LINK + ZROUTE.replace('gw_src = "h1"', 'gw_src = "h2"'),
     "gateway outside (table 6, row 1, key 3)", "22:10", '"h2"', "is in the zone `z`, which isn't inside `in`"),
    (STAR + TWO + LINK + SPOKE + 'gateway = "h2"\n', "gateway outside (table 7, row 1, key 3)", "19:11", '"h2"', "whose gateway is itself"),
    (STAR + TWO + LINK + ROUTE, "wrong routing (table 5, row 1, key 1)", "16:7", '"h1"', "`z` is a Star zone"),
    (GOOD + LINK + SPOKE, "wrong routing (table 7, row 1, key 1)", "12:8", '"z"', "`z` is a Full zone"),
    (ZONE + TWO + LINK + ROUTE.replace("[[route]]", "[[zone_route]]"), "wrong routing (table 6, row 1, key 1)", "16:7", '"h1"',
     "both ends are points"),
]

DEPLOYMENTS = [
    (ACTOR + "x = \n", "not TOML", "5:5", "", "a value was expected"),
    (ZONE, "unknown name (table 0, row 0, key 0)", "1:1", "[[zone]]", "a table of the platform"),
    (ACTOR + "stop = 1\n", "unknown name (table 1, row 1, key 0)", "5:1", "stop", "`name`, `host`, `function`, `argument` and `start`"),
    (ACTOR.replace("name =", "id ="), "unknown name (table 1, row 1, key 0)", "2:1", "id", "did you mean `name`?"),
    (ACTOR.replace('name = "p0"\n', ""), "missing key (table 1, row 1, key 1)", "1:1", "[[actor]]", 'as `name = "p0"`'),
    (ACTOR + "start = 0\n", "wrong type (table 1, row 1, key 5)", "5:9", "0", "as `start = false`"),
    (ACTOR + 'start = "no"\n', "wrong type (table 1, row 1, key 5)", "5:9", '"no"', "write `start = false`, without quotes"),
    (ACTOR.replace("h1", "h9"), "unknown name (table 1, row 1, key 2)", "3:8", '"h9"', "a host of the platform: `h1`"),
    (ACTOR * 2, "duplicate (table 1, row 2, key 1)", "6:8", '"p0"', "taken by row 1 of table `actor`, in line 1"),
    (ACTOR.replace('"replay"', '"replays"'), "unknown function (table 1, row 1, key 3)", "4:12", '"replays"', "did you mean `replay`?"),
    (ACTOR + 'argument = ["1"]\n', "bad arguments (table 1, row 1, key 4)", "5:12", '["1"]', "`replay` takes none"),
    (MASTER + ACTOR, "bad arguments (table 1, row 1, key 4)", "5:28", '"w"', "`w` is no actor"),
    (MASTER.replace('"1", "w"', '"1", "p0"') + ACTOR, "bad arguments (table 1, row 1, key 4)", "5:28", '"p0"', "of function `replay`"),
    (MASTER.replace(', "w"]', "]") + WORKER, "bad arguments (table 1, row 1, key 4)", "5:12", '["1", "1", "1"]', "3 arguments"),
    (MASTER.replace('["1"', '["2e9"') + WORKER, "bad arguments (table 1, row 1, key 4)", "5:13", '"2e9"', "above 10^9"),
    (MASTER.replace('"w"]', '"w", "w"]') + WORKER, "bad arguments (table 1, row 1, key 4)", "5:33", '"w"', "twice"),
    (MUTEX.replace("capacity = 1", "capacity = -1"), "bad value (table 3, row 1, key 2)", "5:12", "-1", "from 0 to 10^9"),
    (MUTEX.replace("capacity = 1\n", ""), "missing key (table 3, row 1, key 2)", "3:1", "[[semaphore]]", "as `capacity = 2`"),
]

SCRIPTS = [
    (b"p0 compute 1\x00\n", "not ASCII", "1:13", "U+0000"),
    (b"\xef\xbb\xbfp0 compute 1\n", "not ASCII", "1:1", "byte order mark"),
    ("p0\xa0compute 1\n", "not ASCII", "1:3", "a no-break space"),
    (b"\x7fELF\n", "not ASCII", "1:1", "U+007F"),
    (b"p0 wait\r\r\n", "not ASCII", "1:8", "a carriage return"),
    ("p0 compute 1" + " " * 4085 + "\n", "line too long", "1:4097", "4,097 bytes"),
    ("\n# note\np1 compute 1\n", "unknown actor", "3:1", "allowed: `p0`"),
    ("h1 compute 1\n", "unknown actor", "1:1", "on the host `h1` is `p0`"),
    ("w recv p0\n", "unknown actor", "1:1", "`w` is an actor of function `worker`"),
    ("p0 send nobody 1\n", "unknown actor", "1:9", "no actor has the name `nobody`"),
    ("p0\n", "unknown action", "1:3", "no action after the actor"),
    ("p0 sned p0 1\n", "unknown action", "1:4", "did you mean `send`?"),
    ("p0 Compute 1\n", "unknown action", "1:4", "did you mean `compute`?"),
    ("p0 Isend p0 1\n", "unknown action", "1:4", "did you mean `isend`?"),
    ("p0 waitall\n", "unknown action", "1:4", "one `wait` for each request"),
    ("p0 init\n", "unknown action", "1:4", "remove the line"),
    ("p0 compute 1e9 # note\n", "wrong number of arguments", "1:16", "a comment needs its own line"),
    ("p0 sleep 1 s\n", "wrong number of arguments", "1:12", "before the unit: `1s`"),
    ("p0 wait 0 1 0\n", "wrong number of arguments", "1:9", "`wait` takes none"),
    ("p0 send p0\n", "wrong number of arguments", "1:11", "`send` takes an actor and an amount and perhaps a rate"),
    ("p0 reduce 1e6\n", "wrong number of arguments", "1:14", "`reduce` takes an amount and an amount"),
    ("p0 gather 1e6\n", "unknown action", "1:4", "`bcast`, `reduce`, `allreduce` and `alltoall`"),
    ("p0 allReduce 1e6 1e6\n", "unknown action", "1:4", "did you mean `allreduce`?"),
    ("p0 bcast 1Gf\n", "bad amount", "1:10", "without a unit: `1e9`"),
    ("p0 bcast 10MB\n", "bad amount", "1:10", "without a unit: `10e6`"),
    ("p0 bcast 1.5e3kB\n", "bad amount", "1:10", "without a unit: `1.5e6`"),
    ("p0 bcast 2KiB\n", "bad amount", "1:10", "without a unit: `2048`"),
    ("p0 bcast 5B\n", "bad amount", "1:10", "without a unit: `5`"),
    ("p0 bcast 5Mb\n", "bad amount", "1:10", "write the number without a unit\n"),
    ("p0 bcast 5x\n", "bad amount", "1:10", "write the number without a unit\n"),
    ("p0 compute 1 #note\n", "bad amount", "1:14", "a comment needs its own line"),
    ("p0 compute 1 0\n", "bad amount", "1:14", "a priority: a number above 0 up to 10^3"),
    ("p0 compute 1 1001\n", "bad amount", "1:14", "above 10^3"),
    ("p0 send p0 1 1Gf\n", "bad amount", "1:14", "`Gf` is not a unit of a bandwidth"),
    ("p0 isend p0 1 7bps\n", "bad amount", "1:15", "zero when rounded down"),
    ("p0 compute 1e16\n", "bad amount", "1:12", "above 10^15"),
    ("p0 compute 1Gf\n", "bad amount", "1:12", "without a unit: `1e9`"),
    ("p0 compute 3Tflops\n", "bad amount", "1:12", "without a unit: `3e12`"),
    ("p0 compute -5\n", "bad amount", "1:12", "numbers are never below 0"),
    ("p0 compute 1.5.5\n", "bad amount", "1:12", "`.5` is not a unit"),
    ("p0 compute 123456789012345678901234\n", "bad amount", "1:12", "more than 20 digits"),
    ("p0 compute 1e9999\n", "bad amount", "1:12", "more than 3 digits"),
    ("p0 sleep 1.5x\n", "bad amount", "1:10", "`x` is not a unit"),
    ("p0 kill nobody\n", "unknown actor", "1:9", "allowed: `p0` and `w`"),
    ("p0 create\n", "wrong number of arguments", "1:10", "`create` takes any actor"),
    ("p0 suspended w\n", "unknown action", "1:4", "did you mean `suspend`?"),
    ("p0 lock n\n", "unknown object", "1:9", "`n` is no mutex"),
    ("p0 lock s\n", "unknown object", "1:9", "`s` is a semaphore"),
]

ENDINGS = [
    ("Simulation time 0.000000000", "All actors that started have ended"),
    ("deadlock at 1.000000000\nsuspended [h1:a:(1)]\nblocked [h2:b:(2)] join a", "`a` is suspended, and waits for a `resume`"),
    ("deadlock at 1.000000000\nblocked [h2:b:(2)] join a", "`b` on `h2` waits until `a` has ended"),
    ("energy h1 200.000000000000", "in joules"),
    ("[h1:p0:(1) 0.000000000] create p1 refused", "has already started"),
    ("deadlock at 1.000000000\nblocked [h1:a:(1)] recv b\nblocked [h2:b:(2)] recv a", "a cycle: `a` waits for `b` waits for `a`"),
    ("deadlock at 1.000000000\nblocked [h1:a:(1)] recv b", "`b`, for which `a` waits, isn't blocked: it has ended"),
    ("deadlock at 1.000000000\nblocked [h1:a:(1)] lock m\nblocked [h1:b:(2)] barrier", "`a` on `h1` waits for the mutex `m`"),
    ("starved at 2.000000000\nblocked [h1:a:(1)] compute 5", "more users than units a second"),
    ("budget of 100 events used at 2.000000000", "--budget"),
    ("route from a to b: more than 64 links", "more than 64 different links"),
    ("2 actors, 3 events", "The number of actors and events"),
    ("[h1:p0:(1) 0.000000000] wait refused", "no request left"),
    ("[h1:p0:(1) 0.000000000] unlock m refused", "only the actor that holds"),
    ("[h1:p0:(1) 0.500000000] compute 1000000000 failed", "its host is off"),
    ("[h1:p0:(1) 0.500000000] send p1 1000000 failed", "actor of the message was killed"),
    ("error: unrecognized subcommand 'x'", "--help"),
    ("error: 'simgrid_replay' requires a subcommand but one was not provided", "a file's name must be UTF-8"),
    ("script line 100000001: too many lines", "at most 100,000,000 lines"),
]


def under_carets(told):
    """What stands over the carets of the first snippet, and the carets' number."""
    lines = told.split("\n")
    carets = next(i for i, line in enumerate(lines) if set(line) <= set(" |^") and "^" in line)
    start, end = lines[carets].index("^"), lines[carets].rindex("^") + 1
    return lines[carets - 1][start:end]


class Kinds(unittest.TestCase):
    """One example of each kind of fault: the program reports it, and `explain` leads to its place."""

    def told(self, folder, line, *names):
        """The explanation of a line whose files match it."""
        paths = {part: str(folder.path / name) for part, name in zip(("platform", "deployment", "script"), names)}
        text, fits = EXPLAIN.recognise(line, EXPLAIN.Files(paths))
        self.assertTrue(fits, text)
        return text

    def check(self, folder, line, names, place, over, part):
        self.assertEqual(folder.replayed().stderr.decode(), line + "\n")
        told = self.told(folder, line, *names)
        self.assertIn(f"/{names[-1]}:{place}", told)
        self.assertIn(part, told)
        self.assertIn("rule: ", told)
        if over is not None:
            shown = over if len(over) <= 120 else over[:60]
            self.assertTrue(under_carets(told).startswith(EXPLAIN.shown(shown)[:60]), told)

    def test_platforms(self):
        for text, fault, place, over, part in PLATFORMS:
            line = "platform: " + fault
            with self.subTest(line, text=text[-200:]):
                self.check(Folder(p=text, d=ACTOR, s=""), line, ["p"], place, over, part)

    def test_deployments(self):
        for text, fault, place, over, part in DEPLOYMENTS:
            line = "deployment: " + fault
            with self.subTest(line, text=text):
                self.check(Folder(p=GOOD, d=text, s=""), line, ["p", "d"], place, over, part)

    def test_scripts(self):
        for text, kind, place, part in SCRIPTS:
            line = f"script line {place.split(':')[0]}: {kind}"
            with self.subTest(line, text=text[:60]):
                folder = Folder(p=GOOD, d=ACTOR + WORKER + MUTEX, s=text)
                self.check(folder, line, ["p", "d", "s"], place, None, part)

    def test_run(self):
        folder = Folder(p=GOOD, d=ACTOR)
        self.check(folder, "deployment: replay actor under run (row 1)", ["p", "d"], "4:12", '"replay"', "use the command `replay`")
        many = "".join(WORKER.replace('"w"', f'"w{i}"') for i in range(4097))
        self.check(Folder(p=GOOD, d=many), "deployment: 4097 actors, 4096 contexts", ["p", "d"], "16385:1", "[[actor]]", "at most 4,096")

    def test_routes(self):
        spokes = STAR + TWO + LINK + SPOKE
        send = {"d": ACTOR + ACTOR.replace("p0", "p1").replace("h1", "h2"), "s": "p0 send p1 1\np1 recv p0\n"}
        for text, help in ((spokes, '      [[spoke]]\n      zone = "z"\n      child = "h2"'),
                           (ZONE + TWO + LINK, '      [[route]]\n      src = "h1"\n      dst = "h2"'),
                           (ZONE + TWO + LINK + ROUTE.replace('"h1"\ndst = "h2"', '"h2"\ndst = "h1"') + "symmetrical = false\n",
                            "only the reverse route exists, in line 15")):
            folder = Folder(p=text, **send)
            with self.subTest(text):
                self.check(folder, "no route from h1 to h2: zone z, h1 to h2", ["p"], "3:11", None, help)

    def test_files_that_cannot_be_read(self):
        folder = Folder(platform=GOOD, d=ACTOR, s="")
        (folder.path / "folder").mkdir()
        os.symlink("nowhere", folder.path / "link")
        os.mkfifo(folder.path / "fifo")
        for part, names, cause in (
                ("platform", ["plattform"], "did you mean `platform`?"), ("platform", ["folder"], "`folder` is a directory"),
                ("platform", ["link"], "a symbolic link to `nowhere`"), ("platform", ["no/p"], "there is no folder `no`"),
                ("platform", ["-"], "only for the script"), ("platform", ["--platform", ""], "the name is empty"),
                ("platform", ["fifo"], "not a regular file"), ("deployment", ["platform", "folder"], "is a directory"),
                ("script", ["platform", "d", "nowhere"], "there is no file `nowhere`"),
                ("script", ["platform", "d", "-"], "standard input, which can't be read again")):
            with self.subTest(names):
                done = tool("explain", *names, given=f"cannot read the {part}\n".encode(), folder=folder.name)
                self.assertEqual(done.returncode, 0)
                self.assertIn(cause, done.stdout.decode())
        self.assertEqual(tool("explain", "--all", "folder", "d", "s", folder=folder.name).returncode, 1)

    def test_piped_output(self):
        """The fault is found behind the lines of the trace."""
        folder = Folder(p=GOOD, d=ACTOR, s="p0 yield\np0 jump\n")
        done = folder.replayed()
        done = tool("explain", "p", "d", "s", given=done.stdout + done.stderr, folder=folder.name)
        self.assertEqual(done.returncode, 0)
        self.assertIn("script line 2: unknown action\n  --> s:2:4\n", done.stdout.decode())

    def ended(self, script, *options, deployment=None, platform=None):
        """The explanation of the end of a run of three actors, with the files of the run."""
        folder = Folder(p=platform or THREE, d=deployment or "".join(
            ACTOR.replace("p0", name).replace("h1", host) for name, host in (("a", "h1"), ("b", "h2"), ("c", "h3"))), s=script)
        done = tool("explain", "p", "d", "s", given=folder.replayed(*options).stdout, folder=folder.name)
        self.assertEqual(done.returncode, 0)
        return done.stdout.decode()

    def test_who_is_missing_at_the_barrier(self):
        for script, part in (
                ("a barrier\nb barrier\n", "2 of 3 members are at the barrier; `c` has no such line: it ended at 0\n"),
                ("a barrier\nb compute 5e8\n", "1 of 3 members are at the barrier; `b` has no such line: it ended at 0.5; `c` has no such line: "
                 "it ended at 0\n"),
                ("a barrier\nb barrier\nc barrier\na barrier\nb barrier\n", "; `c` has only 1 such line: it ended at 0\n"),
                ("a barrier\nb barrier\nc recv a\n", "2 of 3 members are at the barrier; `c` waits for a message from `a`\n"),
                ("a barrier\nb kill c\nb barrier\nc sleep 9\nc barrier\n", "`c` has only 1 such line: `b` killed it at 0\n"),
                ("a barrier\nb suspend c\nb barrier\nc sleep 9\nc barrier\n", "members are at the barrier; `c` is suspended\n")):
            with self.subTest(script):
                self.assertIn(part, self.ended(script))
        never = "".join(ACTOR.replace("p0", name) for name in "ab") + "start = false\n"
        self.assertIn("1 of 2 members are at the barrier; `b` has no such line: it never began\n", self.ended("a yield\na barrier\n", deployment=never))
        self.assertIn("`c` has no such line: it ended at 0\n", self.ended("a barrier\nb barrier\n", "--quiet"))

    def test_what_a_wait_waits_for(self):
        script = "a isend b 1000\na irecv b\nb recv a\na wait\na wait\n"
        self.assertIn("waits for its oldest request, in line 5 of the script: `irecv b` of 0; `b` has sent 0 of 1 messages for which `a` asked\n", self.ended(script))
        self.assertIn("the trace lines (a run without `--quiet`)", self.ended(script, "--quiet"))
        self.assertIn("waits for its oldest request, in line 3 of the script: `isend b 7` of 1; `b` has received 0 of 1 messages from `a`\n",
                      self.ended("a compute 1e9\na isend b 7\na wait\n"))
        self.assertIn("waits for its oldest request, in line 2 of the script: `isend b 7`\n", self.ended("a isend b 7\na wait\n", "--quiet"))
        self.assertIn("a cycle: `a` waits for `b` waits for `a`\n", self.ended("a irecv b\nb irecv a\na wait\nb wait\n"))

    def test_what_has_no_share_left(self):
        """A host of 1 flop a second and a link of 1 byte a second are each used twice."""
        twice = "".join(ACTOR.replace("p0", name).replace("h1", host) for name, host in (("a", "h1"), ("b", "h2"), ("c", "h3"), ("d", "h3")))
        told = self.ended("c compute 9\nd compute 9\n", deployment=twice)
        self.assertIn("the host `h3` has no capacity left: 1 flop a second (in line 12 of p) for 2 users, `c`, `d`\n", told)
        told = self.ended("a send b 9\na send c 9\nb irecv a\nb irecv c\nb wait\nc send b 9\n")
        self.assertIn("the link `l` has no capacity left: 1 byte a second (in line 16 of p) for 2 users, `a` to `b`, `c` to `b`\n", told)
        self.assertNotIn("the link `k`", told)
        self.assertNotIn("cycle", told)
        told = self.ended("a compute 5e8\na compute 1e9\n", platform=THREE + PROFILE.replace('"2"', '"1.5"'))
        self.assertIn("the host `h1` has no capacity left: 0 flops a second (in line 34 of p) for 1 user, `a`\n", told)
        told = self.ended("c compute 9 2\n")
        self.assertIn("the host `h3` has no capacity left: 1 flop a second (in line 12 of p) for 1 user, `c`; their priorities add up to more\n", told)

    def test_the_route_of_a_message(self):
        """The routes over stars, zones and shortest paths are those that the trace of a run must have taken: each link has a latency of its own."""
        explained = module("explain")
        platform = explained.Platform("p", NESTED.encode())
        self.assertEqual(platform.first(), [])
        folder = Folder(p=NESTED, d="".join(ACTOR.replace("p0", "a" + host).replace("h1", host) for host in ENDS))
        routes, pairs = explained.Routes(platform), [(a, b) for a in ENDS for b in ENDS if a != b]
        for a, b in pairs:
            links = routes.between(a, b)
            folder.write("s", f"a{a} send a{b} 0\na{b} recv a{a}\n")
            wanted = sum(10 ** "klmnop".index(link[0]) for link in links)
            self.assertIn(f"Simulation time {wanted // 10**9}.{wanted % 10**9:09d}\n", folder.replayed().stdout.decode(), (a, b, links))

    def test_endings(self):
        for given, part in ENDINGS:
            with self.subTest(given):
                lines, files = given.split("\n"), EXPLAIN.Files({})
                told = [EXPLAIN.recognise(lines[0], files)[0], *EXPLAIN.explain_blocked(lines)]
                self.assertIn(part, "\n".join(told))
        done = tool("explain", given=ENDINGS[1][0].encode())
        self.assertEqual(done.returncode, 0)
        self.assertIn(ENDINGS[1][1], done.stdout.decode())

    def test_lines_without_files(self):
        done = tool("explain", "platform: wrong type (table 2, row 1, key 3)")
        self.assertEqual(done.returncode, 0)
        self.assertIn("table `host`, row 1, key `speed`", done.stdout.decode())

    def test_files_that_were_changed_since(self):
        folder = Folder(p=GOOD)
        done = tool("explain", "platform: bad value (table 2, row 1, key 3)", "p", folder=folder.name)
        self.assertEqual(done.returncode, 3)
        self.assertIn("has it changed since?", done.stdout.decode())

    def test_other_lines_are_refused(self):
        for line in ("", "hello", "platform: bad value (table 11, row 1, key 1)", "platform: nonsense (table 1, row 1, key 1)",
                     "script line 1: nonsense"):
            with self.subTest(line):
                self.assertEqual(tool("explain", given=line.encode()).returncode, 2)
        self.assertEqual(tool("explain", "--all").returncode, 2)
        self.assertEqual(tool("explain", "--all", "a", "b", "c", "d").returncode, 2)


# The same tables as arrays and as blocks, of two hosts under a Full zone, and of two under a Star zone beside a third.
ROWS = {"full": {"zone": [{"id": "z", "routing": "Full"}], "host": [{"id": h, "zone": "z", "speed": "1Gf"} for h in ("h1", "h2")],
                 "link": [{"id": "l", "bandwidth": "1MBps"}], "route": [{"src": "h1", "dst": "h1", "links": ["l"]}]},
        "star": {"zone": [{"id": "z", "routing": "Full"}, {"id": "in", "parent": "z", "routing": "Star"}, {"id": "far", "parent": "z", "routing": "Full"}],
                 "host": [{"id": h, "zone": zone, "speed": "1Gf"} for h, zone in (("h1", "in"), ("h2", "in"), ("h3", "z"), ("h4", "far"))],
                 "link": [{"id": "l", "bandwidth": "1MBps"}], "spoke": [{"zone": "in", "child": "h1", "up": ["l"]}],
                 "zone_route": [{"src": "h3", "dst": "far", "gw_dst": "h4", "links": ["l"]}]}}


def as_text(tables, blocks):
    """The tables, each row a block, or each table an array."""
    if not blocks:
        return simgrid_replay.toml(tables)
    return "".join(f"[[{name}]]\n" + simgrid_replay.toml(row) for name, rows in tables.items() for row in rows)


def followed(text, told):
    """The text after the advice was followed as it stands."""
    lines = text.split("\n")
    help = told.split("   = help: ")[1].split("\n   = ")[0]
    at = int(re.search("^  --> [^:]+:([0-9]+)", told, re.M)[1]) - 1
    array, pasted = re.search(r"after the `\[` of line ([0-9]+)\n\n([^\0]+)", help), re.search(r"\n\n( +\[\[[^\0]*)", help)
    if array:
        row = int(array[1]) - 1
        lines[row] = lines[row].replace("[", "[" + array[2], 1)
    elif pasted:
        lines += pasted[1].split("\n")
    elif "add a line, as `" in help:
        lines.insert(at + 1, re.search("as `(.+?)`", help)[1])
    elif "keys in its braces, as `" in help:
        lines[at] = lines[at].replace("{", "{" + re.search("as `(.+?)`", help)[1] + ", ", 1)
    else:
        found, other = re.search("found: .*?`(.+?)`", told)[1], re.search("`(.+?)`", help)[1]
        lines[at] = lines[at].replace(found, other, 1)
    return "\n".join(lines).replace('"..."', '"h1"', 1 if "gateway" in help or "gw_" in help else 0).replace('"..."', '"l"')


class Advice(unittest.TestCase):
    """Advice that is pasted as it stands mends the fault, in each form that a file may have."""

    def mended(self, tables, script, deployment=None, blocks=False):
        deployment = deployment or "".join(ACTOR.replace("p0", f"p{at}").replace("h1", host["id"]) for at, host in enumerate(tables.get("host", ())))
        text = as_text(tables, blocks)
        for _ in range(3):
            folder = Folder(p=text, d=deployment, s=script)
            done = folder.replayed()
            if done.returncode == 0:
                return
            told = tool("explain", "p", "d", "s", given=done.stdout + done.stderr, folder=folder.name).stdout.decode()
            text = followed(text, told)
        self.fail(told + "\n" + text)

    def test_routes_and_spokes(self):
        message = "p0 send p1 5\np1 recv p0\n"
        outside = "p0 send p2 5\np2 recv p0\n"
        for blocks in (False, True):
            for name, script in (("full", message), ("star", message), ("star", outside)):
                for without in ((), ("route", "spoke", "zone_route")):
                    tables = {table: rows for table, rows in ROWS[name].items() if table not in without}
                    with self.subTest((blocks, name, script, without)):
                        self.mended(tables, script, blocks=blocks)

    def test_keys_and_names(self):
        for blocks in (False, True):
            for key in ("id", "zone", "speed"):
                tables = {**ROWS["full"], "host": [{name: value for name, value in row.items() if name != key or row["id"] != "h1"}
                                                   for row in ROWS["full"]["host"]]}
                with self.subTest((blocks, key)):
                    self.mended(tables, "p0 yield\n", ACTOR, blocks)
            self.mended({**ROWS["full"], "link": [{"id": "l", "bandwidth": "1MB/s"}]}, "p0 yield\n", blocks=blocks)
            self.mended({**ROWS["full"], "route": [{"src": "h1", "dst": "H2", "links": ["l"]}]}, "p0 yield\n", blocks=blocks)
        self.mended({"zone": []}, "", "# nobody\n")
        self.mended({}, "", "# nobody\n")

    def test_rows_in_two_forms(self):
        """The help for a block after an array says where its row belongs."""
        folder = Folder(p=as_text(ROWS["star"], False) + "[[spoke]]\nzone = 'in'\n")
        told = tool("explain", "--all", "p", folder=folder.name).stdout.decode()
        line = as_text(ROWS["star"], False).split("\n").index("spoke = [") + 1
        self.assertIn(f"write it as a row in braces, as `{{...}},`, after the `[` of line {line}\n", told)

    def test_amounts(self):
        """A number whose unit makes it too great is meant without it; what is advised is taken."""
        for line, advised in (("p0 compute 1e9Gf", "p0 compute 1e9"), ("p0 compute 10M", "p0 compute 10e6"), ("p0 sleep 1 s", "p0 sleep 1s")):
            folder = Folder(p=ZONE + HOST, d=ACTOR, s=line + "\n")
            told = tool("explain", "p", "d", "s", given=folder.replayed().stderr, folder=folder.name).stdout.decode()
            self.assertIn(f": `{advised.split()[2]}`\n", told)
            folder.write("s", advised + "\n")
            self.assertEqual(folder.replayed().returncode, 0)
        for line, rule in (("p0 compute 1e9 0", "a priority is a whole number"), ("p0 send p0 1 0", "a rate is a bandwidth")):
            folder = Folder(p=ZONE + HOST, d=ACTOR, s=line + "\n")
            self.assertIn(rule, tool("explain", "--all", "p", "d", "s", folder=folder.name).stdout.decode())

    def test_words(self):
        for line, part in (("error: invalid value '1e6' for '--budget <N>': invalid digit found in string", "`--budget 1000000`;"),
                           ("error: invalid value '2.5e3' for '--budget <N>': invalid digit found in string", "`--budget 2500`;"),
                           ("error: invalid value '1e-3' for '--budget <N>': invalid digit found in string", "from 1 to 1000000000, in digits"),
                           ("error: unexpected argument '--quiet' found", "`churn` prints no trace lines"), ("error: what", "simgrid_replay --help")):
            self.assertIn(part, EXPLAIN.recognise(line, EXPLAIN.Files({}))[0])

    def test_standard_error_that_was_not_piped(self):
        for given in (b"", b"[h1:p0:(1) 1.000000000] compute 5 1.000000000\n"):
            done = tool("explain", given=given)
            self.assertEqual(done.returncode, 2)
            self.assertIn(b"`2>&1 |`", done.stderr)


class Sums(unittest.TestCase):
    """What the lines of a script add up to."""

    def folder(self, script, hosts=("h1", "h2", "h3")):
        return Folder(p=THREE, s=script, d="".join(ACTOR.replace("p0", name).replace("h1", host) for name, host in zip("abc", hosts)))

    def told(self, script, *options):
        folder = self.folder(script)
        run = folder.replayed(*options)
        explained = tool("explain", "p", "d", "s", given=run.stdout, folder=folder.name).stdout.decode()
        listed = tool("explain", "--all", "p", "d", "s", folder=folder.name)
        self.assertEqual(listed.returncode, 0)
        return explained, listed.stdout.decode()

    def test_what_does_not_add_up(self):
        for script, part in (
                ("a isend b 1e6\nb irecv a\nb compute 1e9\n", "`a` makes 1 request (line 1) that no `wait` waits for\n"),
                ("a isend b 5\na isend b 6\nb recv a\nb recv a\na wait\n", "`a` makes 1 request (line 2) that no `wait` waits for\n"),
                ("a wait\na wait\n", "`a` has 2 `wait` (lines 1, 2) without an earlier request, which are refused\n"),
                ("a isend b 5\na isend b 5\na isend b 5\nb recv a\nb recv a\na wait\na wait\n", "`a` sends 3 messages to `b`, which receives 2\n"),
                ("a recv b\n", "`b` sends 0 messages to `a`, which receives 1\n"),
                ("a bcast 5\nb bcast 5\n", "the `bcast` of line 1 needs all 3 members, and 1 of them has no line for it: `c`\n"),
                ("a barrier\nb barrier\nc barrier\na barrier\n", "the `barrier` of line 4 needs all 3 members, and 2 of them have no line"),
                ("a bcast 5\nb barrier\nc bcast 5\n", "`b` has `barrier` (line 2), but `a` has `bcast` (line 1)")):
            with self.subTest(script):
                for told in self.told(script):
                    self.assertIn(part, told)

    def test_what_adds_up(self):
        for script in ("a isend b 5\nb recv a\na wait\n", "".join(f"{actor} alltoall 5\n{actor} barrier\n" for actor in "abc"),
                       "a isend b 5\n" + "".join(f"{actor} alltoall 5\n" for actor in "abc") + "b recv a\na wait\n",
                       # Who is killed doesn't do all of its lines.
                       "a isend b 5\nb sleep 1\nb kill a\n"):
            with self.subTest(script):
                for told in self.told(script):
                    self.assertNotIn("remark", told)

    def test_the_line_of_a_blocked_actor(self):
        for script, part in (
                ("a compute 5\n# nothing\na send b 5\nb recv a\nb recv c\n", "waits for a message from `c`, in line 5 of the script\n"),
                ("a bcast 5\na yield\na bcast 5\nb bcast 5\nc bcast 5\n", "`a` on `h1` waits until `c` has received, in the `bcast` of line 3\n"),
                ("a bcast 5\nb bcast 5\n", "`a` on `h1` waits until `c` has received, in the `bcast` of line 1\n"),
                ("".join(f"{actor} allreduce 5 6\n" for actor in "abc") + "b yield\nb recv a\n", "from `a`, in line 5 of the script\n")):
            with self.subTest(script):
                self.assertIn(part, self.told(script)[0])
        self.assertIn("`c` on `h3` waits for a message from `b`, in line 2 of the script\n", self.told("c compute 1\nc recv b\n", "--quiet")[0])

    def test_starved_and_quiet(self):
        told, _ = self.told("a isend b 9\na isend b 9\na isend c 9\na wait\na wait\na wait\nb irecv a\nb irecv a\nb wait\nb wait\nc recv a\n", "--quiet")
        self.assertIn("   = of all links `l` has the least: 1 byte a second (in line 16 of p)\n", told)
        self.assertEqual(told.count("a run without `--quiet`"), 1)

    def test_events(self):
        """A budget of so many events suffices, and none that is less: of lines, computes, messages and collectives."""
        for script in ("a compute 1e6\na sleep 1\na send b 5\nb recv a\nc yield\n", "".join(f"{actor} allreduce 5 6\n{actor} barrier\n" for actor in "abc"),
                       "".join(f"{actor} {action}\n" for actor in "abc" for action in ("bcast 5", "reduce 5 1e3", "alltoall 7"))):
            folder = self.folder(script, ("h1", "h1", "h1"))
            told = tool("explain", "p", "d", "s", given=folder.replayed("--budget", "5").stdout, folder=folder.name).stdout.decode()
            events = int(re.search("`--budget ([0-9]+)`", told)[1])
            self.assertIn(f"The script alone makes {events} events", told)
            self.assertEqual([folder.replayed("--budget", str(events - less)).returncode for less in (0, 1)], [0, 8])


class All(unittest.TestCase):
    """`explain --all`, and the agreement of its first fault with the program's."""

    def test_every_fault_in_order(self):
        folder = Folder(p=ZONE.replace("Full", "full") + HOST.replace("1Gf", "0") + "cores = 1\n", d=ACTOR.replace("h1", "h2"),
                        s="p0 jump\np0 compute x\n")
        done = tool("explain", "--all", "p", "d", "s", folder=folder.name)
        lines = [line for line in done.stdout.decode().split("\n") if line.startswith(("platform: ", "deployment: ", "script line "))]
        self.assertEqual(lines, ["platform: bad value (table 1, row 1, key 3)", "platform: unknown name (table 2, row 1, key 0)",
                                 "platform: bad value (table 2, row 1, key 3)", "deployment: unknown name (table 1, row 1, key 2)",
                                 "script line 1: unknown action", "script line 2: bad amount"])
        self.assertEqual(done.returncode, 1)
        self.assertTrue(done.stdout.endswith(b"6 faults\n"))

    def test_an_empty_deployment(self):
        folder = Folder(p=GOOD, d="", s="")
        done = tool("explain", "p", "d", "s", given=folder.replayed().stdout, folder=folder.name)
        self.assertIn("remark: the deployment has no actor", done.stdout.decode())

    def test_no_fault(self):
        folder = Folder(p=GOOD, d="", s="what\n")
        done = tool("explain", "--all", "p", "d", "s", folder=folder.name)
        self.assertEqual(done.returncode, 0)
        self.assertIn("the script isn't read", done.stdout.decode())

    def test_bytes_of_any_kind(self):
        """Whatever the files and the line have, there is an explanation."""
        rng = random.Random("bytes")
        seeds = [GOOD.encode(), ACTOR.encode(), b"p0 compute 1\n", b"\xff\xfe", b"[[[[", b"{" * 200, b"[" * 200, b"a." * 200, b"\0" * 50,
                 b'"""', b"= = =", b"'\r\n'", "\u202e\ud7ff\U0010ffff".encode()]
        lines = ["platform: not TOML", "script line 1: not ASCII", "platform: duplicate (table 7, row 999999999, key 5)",
                 "cannot read the script", "no route from a to b: zone c, d to e", "deployment: 5 actors, 4 contexts"]
        folder = Folder()
        for _ in range(150):
            paths = {}
            for part in ("platform", "deployment", "script"):
                data = b"".join(rng.choice(seeds) for _ in range(rng.randint(0, 3)))
                folder.write(part, data[rng.choice([0, 0, 0, 1, 7]):])
                paths[part] = str(folder.path / part)
            files = EXPLAIN.Files(paths)
            self.assertTrue(all(finding.text() for finding in files.findings()))
            for line in lines:
                self.assertTrue(EXPLAIN.recognise(line, files)[0])

    def test_generated_files(self):
        """The first fault of generated files is the one that the program reports, and there is none if a run completes."""
        statuses = {}
        cases = [inputs.make(number) for number in range(300)]
        folders = [Folder(**files) for files in cases]
        with ThreadPoolExecutor(8) as pool:
            runs = list(pool.map(lambda folder: folder.replayed("--budget", "2000"), folders))
        for number, (files, folder, done) in enumerate(zip(cases, folders, runs)):
            with self.subTest(number):
                paths = {part: str(folder.path / part[0]) for part in ("platform", "deployment", "script") if part[0] in files}
                all_files = EXPLAIN.Files(paths)
                found = [finding.line for finding in all_files.findings()]
                status = done.returncode
                statuses[status] = statuses.get(status, 0) + 1
                if status in (3, 4, 5):
                    line = done.stderr.decode().rstrip("\n")
                    self.assertEqual(found[:1], [line])
                    self.assertTrue(EXPLAIN.recognise(line, all_files)[1])
                elif status == 0:
                    self.assertEqual(found, [])
                else:
                    self.assertTrue(all(line.startswith("script line") for line in found), found)
        for status in (0, 3, 4, 5):
            self.assertGreater(statuses.get(status, 0), 20, statuses)


if __name__ == "__main__":
    unittest.main()
