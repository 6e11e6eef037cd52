"""Platforms, deployments and scripts by number, most of them with faults: the same number makes the same files."""

import json
import random

NUMBERS = ["1Gf", "5", "2.5kf", "0", "1 Gf", "x", "-1", "1e16", "1e999", "0.9", "1MBps", "7bps", "8bps", "10ms", "1000001s", "",
           "1e", "1.", "100000000000000000000", "000000000000000000001", "1e0001", "1GiBps", "1e3us", "12d", "\u0663"]
NAMES = ["h1", "h2", "h3", "r1", "z", "in", "l1", "l2", "l2_UP", "l2_DOWN", "p0", "p1", "w", "m", "s", "nobody", "a b", "", "n" * 65,
         "n" * 60, "\u00e9"]
WORDS = ["Full", "Star", "full", "Dijkstra", "SHARED", "FATPIPE", "SPLITDUPLEX", "shared", "replay", "master", "worker", "Replay"]
VALUES = [1, 0, -1, 1024, 1025, 10**9, 10**9 + 1, True, False, 1.5, [], {}, ["l1"], ["l2_UP", "l1"], ["l1"] * 65, ["nobody"], [1],
          [["l1"]], ["1"], ["0", "1h"], ["1", "0.5"], ["1Mf", "2kf"], ["5MBps"], ["1"] * 1025, ["on"], ["off", "on"], ["off", "no"], ["on"] * 1025, [1, 2, 3], [3, 2, 1], [1, 2], [0, 0, 10**9 + 1], [1, "2", 3], ["1", "1", "1", "w"], ["1", "x", "1", "w"], ["1", "1", "1", "p0"], {"id": "x"}]
KEYS = ["id", "zone", "speed", "core", "cores", "parent", "routing", "latency", "links", "symmetrical", "gateway", "gw_src", "down",
        "name", "host", "function", "argument", "capacity", "Id", "latency_factor", "bandwidth_factor", "window",
        "link", "dates", "values", "loop", "states", "power", "power_off", "start"]
TABLES = ["zone", "host", "router", "link", "route", "zone_route", "spoke", "network", "actor", "mutex", "semaphore", "hosts", "profile", "profiles", "state_profile"]


def platform(rng):
    """A platform of a Full zone, a Full or Star zone within it, and links."""
    inner = rng.choice(["Full", "Star"])
    links = [["l1"], ["l2_UP", "l1"], ["l2_DOWN"]]
    tables = {
        "zone": [{"id": "z", "routing": "Full"}, {"id": "in", "parent": "z", "routing": inner}],
        "host": [{"id": f"h{i}", "zone": rng.choice(["z", "in"]) if i > 2 else ("z", "in")[i - 1], "speed": "1Gf"} for i in (1, 2, 3)],
        "router": [{"id": "r1", "zone": "in"}],
        "link": [{"id": "l1", "bandwidth": "1MBps", "latency": "10ms"},
                 {"id": "l2", "bandwidth": "8Mbps", "sharing_policy": "SPLITDUPLEX"}],
        "zone_route": [{"src": "h1", "dst": "in", "gw_dst": "r1", "links": rng.choice(links)}]}
    inside = ["r1"] + [host["id"] for host in tables["host"] if host["zone"] == "in"]
    if inner == "Star":
        tables["spoke"] = [{"zone": "in", "child": child, "up": rng.choice(links)} for child in inside]
    else:
        tables["route"] = [{"src": a, "dst": b, "links": rng.choice(links)} for i, a in enumerate(inside) for b in inside[i + 1:]]
    if rng.random() < 0.3:
        tables["network"] = [{"latency_factor": "13.01", "bandwidth_factor": "0.97", "window": "4194304"}]
    if rng.random() < 0.4:
        tables["profile"] = [{"host": "h1", "dates": ["0", "10ms"], "values": ["5Mf", "2Gf"]},
                             {"link": "l2_UP", "dates": ["1us", "2us", "1"], "values": ["0", "5kBps", "1MBps"]}]
    if rng.random() < 0.3:
        tables["state_profile"] = [{"host": "h2", "dates": ["0", "1"], "states": ["on", "off"]},
                                   {"link": "l1", "dates": ["1us", "2us"], "states": ["off", "on"], "loop": "1ms"}]
    if rng.random() < 0.3:
        tables["host"][0].update(power=[100, 120, 200], power_off=5)
    if tables["host"][2]["zone"] == "z":
        tables["route"] = tables.get("route", []) + [{"src": "h1", "dst": "h3", "links": ["l1"], "symmetrical": True}]
        tables["zone_route"].append({"src": "h3", "dst": "in", "gw_dst": "r1", "links": ["l1"]})
    return tables


def deployment(rng, replay):
    if replay:
        return {"actor": [{"name": f"p{i}", "host": f"h{i + 1}", "function": "replay"} for i in range(3)],
                "mutex": [{"id": "m"}], "semaphore": [{"id": "s", "capacity": 1}]}
    return {"actor": [{"name": "m", "host": "h1", "function": "master", "argument": ["3", "1e6", "10", "w"]},
                      {"name": "w", "host": rng.choice(["h2", "h3"]), "function": "worker"}]}


COLLECTIVES = ["bcast 10", "reduce 10 1e3", "allreduce 5 1", "alltoall 7"]


def script(rng):
    """Exchanges that complete, and now and then a bad line."""
    lines = ["# a script", ""]
    for _ in range(rng.randint(0, 4)):
        lines += rng.choice([
            ["p0 compute 1e6", "p1 sleep 1ms"], ["p0 send p1 10", "p1 recv p0"], ["p2 isend p0 5", "p0 irecv p2 5", "p0 wait", "p2 wait"],
            ["p1 lock m", "p1 yield", "p1 unlock m"], ["p2 acquire s", "p2 release s"], ["p0 barrier", "p1 barrier", "p2\tbarrier\r"],
            ["p2 compute 1e6 3", "p0 isend p1 10 1kBps", "p1 recv p0"],
            ["p0 suspend p1", "p1 compute 10", "p0 resume p1"], ["p0 create p1", "p2 join p2", "p1 kill p2"],
            [f"p{rank} {collective}" for collective in [rng.choice(COLLECTIVES)] for rank in range(3)]])
    if rng.random() < 0.5:
        lines.insert(rng.randint(0, len(lines)), rng.choice([
            "p0 jump", "nobody wait", "p0", "p0 compute", "p0 compute 1 1", "p0 compute 1 0", "p0 compute 1 1 1", "p0 compute " + rng.choice(NUMBERS), "p0 sleep " + rng.choice(
                NUMBERS), "p1 send " + rng.choice(NAMES) + " 1", "p1 lock " + rng.choice(NAMES), "p1 acquire " + rng.choice(NAMES),
            "p0 compute 1 # x", "p0 kill " + rng.choice(NAMES), "p0 create", "p0 join p1 p2", "p1 reduce 1", "p0 alltoall x", "p0 recv p1 x", "p0 wait\x00", "p0 w\u00e4it", "#" * 4097, "p0 wait" + " " * 4089 + "\r", "\ufeff", "\r\r",
            "p0 wait " + rng.choice(NAMES)]))
    return "\n".join(lines) + rng.choice(["", "\n"])


def spoil(rng, tables):
    """One change of the tables, which may be a fault."""
    rows = [(name, row) for name, list_ in tables.items() if isinstance(list_, list) for row in list_ if isinstance(row, dict)]
    name, row = rng.choice(rows) if rows else (None, {})
    change = rng.choice(["key", "value", "name", "name", "lost", "copy", "table", "row", "parent", "array", "many", "zones"])
    if change == "key":
        row[rng.choice(KEYS)] = rng.choice(VALUES + NAMES)
    elif change in ("value", "name") and row:
        row[rng.choice(list(row))] = rng.choice(VALUES + NUMBERS + WORDS if change == "value" else NAMES + WORDS[:2])
    elif change == "lost" and row:
        del row[rng.choice(list(row))]
    elif change == "copy" and row:
        copy = {**row, **({"src": row.get("dst"), "dst": row.get("src")} if row.get("dst") and row.get("src") else {})}
        tables[name].insert(rng.randint(0, len(tables[name])), copy)
    elif change == "table":
        tables[rng.choice(TABLES)] = rng.choice([[], [{"id": "x"}], 1, "x", {"id": "x"}, [1]])
    elif change == "row" and name:
        tables[name].insert(rng.randint(0, len(tables[name])), rng.choice([{}, 1, "x", [], True]))
    elif change == "parent" and isinstance(tables.get("zone"), list):
        for zone in tables["zone"]:
            if isinstance(zone, dict):
                zone["parent"] = rng.choice(["z", "in", "new"])
    elif change == "array" and name:
        tables[name] = rng.choice([1, True, "x", {"id": "x"}])
    elif change == "many" and isinstance(tables.get("zone"), list):
        tables["zone"] = tables["zone"] + [{"id": f"deep{i}", "routing": "Full", "parent": f"deep{i - 1}" if i else "z"}
                                           for i in range(rng.choice([1, 14, 15, 16]))]
    elif change == "zones" and isinstance(tables.get("zone"), list):
        tables["zone"] = tables["zone"] + [{"id": "new", "routing": "Star"}]


def value(rng, thing):
    """A value as TOML, in one of the ways in which it may be written."""
    if isinstance(thing, bool):
        return "true" if thing else "false"
    if isinstance(thing, str):
        if "'" not in thing and rng.random() < 0.3:
            return f"'{thing}'"
        return f'"""\n{thing}"""' if rng.random() < 0.05 else json.dumps(thing, ensure_ascii=rng.random() < 0.5)
    if isinstance(thing, list):
        blank = rng.choice(["", " ", "\n  ", " # note ]\n"]) if thing else ""
        return "[" + ",".join(blank + value(rng, item) for item in thing) + rng.choice(["", ",", "\n"]) * bool(thing) + "]"
    if isinstance(thing, dict):
        return "{" + ", ".join(f"{key} = {value(rng, item)}" for key, item in thing.items()) + "}"
    return str(thing)


def toml(rng, tables):
    """The tables as a text: some as arrays of tables in braces, most with headers; now and then it is no TOML."""
    head, tail = [], []
    for name, list_ in tables.items():
        plain = isinstance(list_, list) and list_ and all(isinstance(row, dict) for row in list_)
        if plain and rng.random() < 0.9:
            for row in list_:
                tail.append(f"[[{name}]]" + rng.choice(["", "  # a row"]))
                tail += [f"{rng.choice(['', '  '])}{key} ={rng.choice(['', ' '])}{value(rng, item)}" for key, item in row.items()]
        else:
            head.append(f"{name} = {value(rng, list_)}")
    text = "\n".join(head + tail) + "\n"
    if rng.random() < 0.06:
        at = rng.randint(0, len(text))
        text = text[:at] + rng.choice(["\"", "[", "]", "{", "=", "\0", "x\n", "\\", "'''", "\ufeff", "\r", "1_", ","]) + text[at + rng.choice(
            [0, 1]):]
    return text


def make(number):
    """The files `p`, `d` and perhaps `s`."""
    rng = random.Random(f"inputs {number}")
    replay = rng.random() < 0.8
    parts = {"p": platform(rng), "d": deployment(rng, replay)}
    spoiled = rng.choice(["", "", "p", "p", "p", "d", "d", "pd"])
    for name in spoiled:
        for _ in range(rng.choice([1, 1, 2, 3])):
            spoil(rng, parts[name])
    files = {name: toml(rng, tables) for name, tables in parts.items()}
    if replay or rng.random() < 0.1:
        files["s"] = script(rng)
    return files
