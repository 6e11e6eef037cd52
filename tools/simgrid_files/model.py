"""The model of the network: its row, and the notes about it."""

import re

from . import values
from .notes import Refused, quoted

# The keys of SimGrid's models.
MODELS = {"LV08": {"latency_factor": "13.01", "bandwidth_factor": "0.97", "window": "4194304"}, "CM02": {},
          "SMPI": {"window": "4194304"}}
# SMPI's factors by the size of a message: those of the greatest of these sizes below it.
BY_SIZE = {"smpi/lat-factor": "65472:11.6436;15424:3.48845;9376:2.59299;5776:2.18796;3484:1.88101;1426:1.61075;732:1.9503;257:1.95341;"
           "0:2.01467",
           "smpi/bw-factor": "65472:0.940694;15424:0.697866;9376:0.58729;5776:1.08739;3484:0.77493;1426:0.608902;732:0.341987;"
           "257:0.338112;0:0.812084"}
# The size that is used without messages: that of long ones.
NO_MESSAGE = 10**6
KEYS = {"network/latency-factor": "latency_factor", "network/bandwidth-factor": "bandwidth_factor", "network/TCP-gamma": "window"}
LOOPBACK = "10GBps", "0"
# Settings that change at most the last digits of dates.
WITHOUT_EFFECT = ("tracing", "contexts/", "path", "maxmin/", "precision/", "surf/", "cpu/optim", "network/optim", "host/model",
                  "debug/", "cpu/maxmin", "network/maxmin", "exception/")


def settle(platform, model, sizes):
    """Adds the row of the network, from the model, the sizes of messages, and the settings of <config>."""
    settings, notes = dict(platform.settings), platform.notes
    model = chosen(settings.pop("network/model", None), model, notes)
    row = dict(MODELS[model])
    if model == "SMPI":
        row = {**of_sizes(settings, sizes, notes), **row}
    for setting, key in KEYS.items():
        prop = settings.pop(setting, None)
        if prop is not None:
            row.update(factor(prop, setting, key, notes))
    if "window" in row:
        # SimGrid multiplies what the window allows by the factor of bandwidths, simgrid_replay doesn't.
        row["window"] = str(int(int(row["window"]) * values.Fraction(row.get("bandwidth_factor", "1"))))
    if row.get("window") == "0":
        del row["window"]
    settings.pop("network/crosstraffic", None)
    weighed = settings.pop("network/weight-S", None)
    platform.loopback = loopback(settings, notes)
    for setting, prop in settings.items():
        if not setting.startswith(WITHOUT_EFFECT):
            notes.add(prop, f"<config> {setting}={quoted(prop.get('value'))} isn't supported")
    if row:
        platform.rows.add("network", platform.root.element, **row)
    note(notes, model, row, weighed, "network/TCP-gamma" in platform.settings)


def chosen(prop, model, notes):
    """The model of <config> if it is supported, else the one of the command line."""
    if prop is None:
        return model
    if prop.get("value") in MODELS:
        return prop.get("value")
    notes.add(prop, f"<config> network/model={quoted(prop.get('value'))} isn't supported: using {model}")
    return model


def of_sizes(settings, sizes, notes):
    """The factors of the class of sizes that most messages have."""
    tables = [table(settings.pop(name, None), name, notes) for name in BY_SIZE]
    bounds = sorted({bound for found in tables for bound, _ in found})

    def class_of(size):
        return max((bound for bound in bounds if bound < size), default=bounds[0])

    classes = {}
    for size, count in (sizes or {NO_MESSAGE: 1}).items():
        classes[class_of(size)] = classes.get(class_of(size), 0) + count
    most = max(classes, key=lambda bound: (classes[bound], bound))
    above = next((bound for bound in bounds if bound > most), None)
    # A flow is bounded by the factor of its size, and all flows of a link by its bandwidth.
    latency, bandwidth = (next((value for bound, value in reversed(found) if bound <= most), "1") for found in tables)
    bandwidth = min(bandwidth, "1", key=values.Fraction)
    if sizes:
        other = sum(sizes.values()) - classes[most]
        notes.of_model(f"SMPI has factors by the size of a message, and here all have those of sizes above {most}"
                       + (f" up to {above}" if above is not None else "") + f" bytes: {classes[most]} of {sum(sizes.values())} messages"
                       + (f"; the {other} others have other dates than in SMPI: --model or a row `network` by hand" if other else ""))
    return {"latency_factor": latency, "bandwidth_factor": bandwidth}


def table(prop, name, notes):
    """The factors of a setting by size, rising."""
    text = prop.get("value").strip() if prop is not None else BY_SIZE[name]
    if not re.fullmatch(r"[0-9]{1,15}:[0-9]{1,3}(\.[0-9]{1,9})?(;[0-9]{1,15}:[0-9]{1,3}(\.[0-9]{1,9})?)*", text):
        notes.add(prop, f"<config> {name}={quoted(text)} isn't SIZE:FACTOR;SIZE:FACTOR.., and SMPI's own are taken")
        text = BY_SIZE[name]
    return sorted((int(bound), value) for bound, value in (pair.split(":") for pair in text.split(";")))


def factor(prop, setting, key, notes):
    """A key of the row, if the setting is a plain number."""
    text = prop.get("value").strip()
    value, end = values.fraction(text)
    if value is None or text[end:]:
        notes.add(prop, f"<config> {setting}={quoted(text)} isn't a plain number, and is left out")
        return {}
    least, most = {"latency_factor": (0, 1000), "bandwidth_factor": (values.Fraction(1, 10**6), 1000),
                   "window": (0, values.GREATEST_RATE)}[key]
    if not least <= value <= most:
        raise Refused(prop, f"<config> {setting}={quoted(text)} isn't from {float(least):g} to {most}")
    if values.OURS.fullmatch(text) and key != "window":
        return {key: text}
    return {key: str(int(value)) if key == "window" else values.seconds(int(value * 10**9))}


def loopback(settings, notes):
    bandwidth, latency = LOOPBACK
    prop = settings.pop("network/loopback-bw", None)
    if prop is not None:
        bandwidth = values.bandwidth(prop, prop.get("value"), "network/loopback-bw")
    prop = settings.pop("network/loopback-lat", None)
    if prop is not None:
        latency = values.latency(prop, prop.get("value"), notes, "network/loopback-lat")
    return bandwidth, latency


def note(notes, model, row, weighed, windowed):
    """Notes the features of the model that aren't supported, and their effect."""
    has = ", ".join(f"{key} {value}" for key, value in row.items()) or "no factors, no window"
    by_default = {"LV08": ", as SimGrid by default", "SMPI": ", as smpirun by default"}
    notes.of_model(f"model {model}{by_default.get(model, '')}: {has}")
    if model == "CM02" and not windowed:
        notes.of_model("no window: SimGrid's CM02 bounds a flow by network/TCP-gamma 4194304 over twice its latency, unless "
                       "<config> sets it to 0")
    if model != "CM02" if weighed is None else values.fraction(weighed.get("value"))[0] != 0:
        notes.of_model("no network/weight-S: flows that meet on a link share it equally here, and in SimGrid by their latencies "
                       "and the bandwidths of their links; a flow that meets no other has the same dates")
