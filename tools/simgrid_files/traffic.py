"""SimGrid's cross traffic, and finer units of bytes, in the rows of a platform."""

from simgrid_replay import finer

from . import values

OFF = ("0", "no", "off", "false")
TAKEN = ("cross traffic: a flow takes 1.05 of its rate on the SHARED links of its route, so these have bandwidth / 1.05; on a SPLITDUPLEX "
         "link, where in SimGrid it takes 5 % in the other direction, that is left out")
LEFT_OUT = ("no cross traffic{}: in SimGrid a flow also takes 5 % on the links of its reverse route, so one over SHARED "
            "links ends up to 5 % later there; SimGrid has the same dates with --cfg=network/crosstraffic:0")


def settle(platform, given):
    """Changes the bandwidths of the rows for cross traffic and units, and notes it."""
    tables = {table: [keys for keys, _ in rows] for table, rows in platform.rows.tables.items()}
    setting = platform.settings.get("network/crosstraffic")
    wanted = given.crosstraffic == "yes" and (setting is None or setting.get("value").lower() not in OFF)
    exact = wanted and finer.is_symmetrical(tables)
    unit = finer.unit_of(tables) if given.unit == "auto" else int(given.unit)
    if exact or unit != 1:
        made = finer.finer(tables, unit, exact)
        for table in ("link", "network", "profile"):
            for (keys, _), row in zip(platform.rows.tables[table], made.get(table, [])):
                keys.update(row)
    note(platform.notes, wanted, exact, setting is not None, unit)
    return unit


def note(notes, wanted, exact, is_set, unit):
    if exact:
        notes.of_model(TAKEN)
    elif wanted:
        notes.of_model(LEFT_OUT.format(", since not all routes use the same SHARED links in both directions"))
    elif not is_set:
        notes.of_model(LEFT_OUT.format(""))
    if unit != 1:
        notes.of_model(f"bytes are counted in units of 1/{unit}: bandwidths, sizes and rates are {unit} times those of SimGrid's files")


# The positions of bytes in the lines of a script, by their actions.
SIZES = {"send": (3, 4), "isend": (3, 4), "recv": (3,), "bcast": (2,), "reduce": (2,), "allreduce": (2,), "alltoall": (2,)}


def rescale(actors, script, unit):
    """Converts the bytes of masters and of lines to a unit."""
    for keys, _ in actors.tables["actor"]:
        if "argument" in keys:
            keys["argument"][2] = times(keys["argument"][2], unit)
    for number, line in enumerate(script.lines if script else ()):
        words = line.split()
        for place in SIZES.get(words[1], ()) if len(words) > 1 and words[0][0] != "#" else ():
            if place < len(words):
                words[place] = times(words[place], unit)
                script.lines[number] = " ".join(words)


def times(text, unit):
    value = values.fraction(text)[0]
    return text if value is None else str(int(value * unit))
