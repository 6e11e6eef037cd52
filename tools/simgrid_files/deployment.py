"""Converts a deployment of SimGrid, or a host file of SMPI, to actors with the script that they replay."""

import os
import re

from . import smpi, traces, values, xmlfile
from .rows import Rows
from .notes import Refused, Unread, quoted

# Functions that look like ranks or replayed actors, if there is no trace.
LIKE_REPLAY = re.compile(r"(p|rank[-_]?)?[0-9]+")
MOST_TASKS = 10**9


class Actor:
    """An actor of the file."""

    def __init__(self, element, host):
        self.element, self.host, self.function = element, host, element.need("function")
        self.arguments = [child.need("value") for child in element.children if child.tag == "argument"]
        self.name = self.kind = self.trace = None
        self.start, self.kill = (date(element, key) for key in ("start_time", "kill_time"))


def date(element, key):
    """A date in nanoseconds; 0 without one."""
    text = element.get(key, "-1")
    if re.fullmatch(r"\s*-[0-9.]+([eE][+-]?[0-9]{1,3})?", text):
        return 0
    found = int(values.number_of(element, text, key) * 10**9)
    if found > values.GREATEST_TIME:
        raise Refused(element, f"{element}: {key} {quoted(text)} is above {values.GREATEST_TIME // 10**9} s")
    return found


def read(given, platform, notes):
    """The rows, and the script or None."""
    data = xmlfile.read_bytes(given.deployment)
    if not data.lstrip(b"\xef\xbb\xbf \t\r\n").startswith(b"<"):
        return of_ranks(given, platform, notes, hosts_of(given.deployment, data, platform), None)
    root = xmlfile.read(given.deployment, data)
    if root.tag != "platform":
        raise Refused(root, f"{root} instead of <platform>")
    actors = [actor(element, platform, notes) for element in root.children]
    read_traces = traces.read(given.trace)
    if smpi.is_smpi(read_traces, [actor.function for actor in actors]):
        return of_ranks(given, platform, notes, [actor.host for actor in actors], actors)
    return Deployment(given, platform, notes, actors, read_traces).written()


def actor(element, platform, notes):
    if element.tag not in ("actor", "process"):
        raise Refused(element, f"{element} in a deployment isn't supported")
    element.only(("host", "function", "start_time", "kill_time", "on_failure"))
    for child in element.children:
        if child.tag == "prop":
            notes.add(child, f"properties of <{element.tag}> are left out")
        elif child.tag != "argument":
            raise Refused(child, f"{child} in {element} isn't supported")
    if element.get("on_failure", "DIE") != "DIE":
        raise Refused(element, f"{element}: on_failure {quoted(element.get('on_failure'))} isn't supported: the actors of a host that "
                      "fails continue, and are never restarted")
    host = platform.names.of.get(element.need("host"))
    if host not in platform.speeds:
        raise Refused(element, f"{element}: there is no host {quoted(element.get('host'))}")
    return Actor(element, host)


def hosts_of(name, data, platform):
    """The hosts of a host file, each as often as it has slots."""
    try:
        lines = data.decode("ascii").splitlines()
    except UnicodeDecodeError as fault:
        raise Unread(f"{name}: neither XML nor a host file: {fault}") from None
    found = []
    for number, line in enumerate(lines, 1):
        words = re.fullmatch(r"\s*([^#:\s][^#:]*?)?\s*(?::\s*([0-9]{1,5})\s*)?(#.*)?", line)
        if words is None or words[2] and not words[1]:
            raise Refused((name, number), f"{quoted(line.strip())} isn't a host of a host file")
        if words[1]:
            host = platform.names.of.get(words[1])
            if host not in platform.speeds:
                raise Refused((name, number), f"there is no host {quoted(words[1])}")
            found += [host] * int(words[2] or 1)
    return found


def of_ranks(given, platform, notes, hosts, actors):
    """Ranks of SMPI: rank i is the actor `pI`, on the host of its place."""
    for actor in actors or ():
        if actor.start or actor.kill:
            raise Refused(actor.element, f"{actor.element}: a rank of SMPI with a start_time or kill_time isn't supported")
    script = smpi.convert(traces.read(given.trace), given, notes, len(hosts))
    rows = Rows("deployment", ("actor",))
    for rank in range(script.ranks):
        place = actors[rank % len(actors)].element if actors else (given.deployment, 0)
        if not hosts:
            raise Refused(place, "the file has no host")
        rows.add("actor", place, name=f"p{rank}", host=hosts[rank % len(hosts)], function="replay")
    return rows, script


class Deployment:
    """Actors that replay, masters and workers."""

    def __init__(self, given, platform, notes, actors, read_traces):
        self.given, self.platform, self.notes, self.actors, self.traces = given, platform, notes, actors, read_traces
        self.folder, self.taken = os.path.dirname(given.deployment), {}
        self.traced = {line.words[0] for lines in read_traces for line in lines if line.words}

    def written(self):
        masters = [actor for actor in self.actors if actor.function == "master" and actor.function not in self.traced]
        workers = [actor for actor in self.actors if actor.function == "worker" and actor.function not in self.traced]
        for actor in self.actors:
            if actor in workers:
                actor.kind = "worker"
                number = len(actor.arguments) == 1 and re.fullmatch("[0-9]{1,5}", actor.arguments[0])
                self.call(actor, f"worker-{actor.arguments[0]}" if number else actor.host,
                          f"a second worker {'of that number' if number else 'of host ' + actor.host}: they share a mailbox in SimGrid")
            elif actor not in masters:
                self.replayed(actor)
        for actor in masters:
            actor.kind = "master"
            self.call(actor, self.free("master"))
            actor.arguments = self.of_master(actor, workers)
        rows = Rows("deployment", ("actor",))
        for actor in self.actors:
            rows.add("actor", actor.element, name=actor.name, host=actor.host, function=actor.kind,
                     **({"argument": actor.arguments} if actor.kind == "master" else {}), **({"start": False} if actor.start else {}))
        script = traces.Script(self.notes)
        for lines in self.traces:
            script.add(lines)
        for actor in self.actors:
            if actor.trace:
                script.add(actor.trace, actor.name)
        self.timed(rows, script)
        replays = any(keys["function"] == "replay" for keys, _ in rows.tables["actor"])
        if script.lines and not replays:
            raise Refused((self.given.trace[0], 0), "no actor of the deployment replays it")
        return rows, script if replays else None

    def free(self, name):
        """A free name: `name`, `name_2`, .."""
        number, found = 1, name
        while found in self.taken:
            number += 1
            found = f"{name}_{number}"
        return found

    def call(self, actor, name, twice=None):
        if name in self.taken:
            raise Refused(actor.element, f"{actor.element}: " + (twice or f"a second actor {name}"))
        actor.name, self.taken[name] = name, actor

    def replayed(self, actor):
        """An actor whose name is in a trace, or whose argument is one; otherwise its function is code."""
        name = re.sub(r"[^A-Za-z0-9_.-]", "_", actor.function)
        path = xmlfile.find(actor.arguments[0], self.folder) if len(actor.arguments) == 1 else None
        if path and os.path.isfile(path):
            actor.trace = traces.lines_of(path)
        elif actor.arguments or actor.function not in self.traced and (self.traces or not LIKE_REPLAY.fullmatch(actor.function)):
            raise Refused(actor.element, f"{actor.element}: the function {quoted(actor.function)} is code, which isn't supported: actors "
                          "replay a trace, or are masters or workers")
        elif not self.traces:
            self.notes.add(actor.element, f"{actor.element}: no trace is given for {quoted(actor.function)}: it has no lines")
        actor.kind = "replay"
        self.call(actor, name)

    def of_master(self, master, workers):
        """TASKS, FLOPS, BYTES, and then the hosts of workers, or the number of workers."""
        numbers, rest = master.arguments[:3], master.arguments[3:]
        if len(numbers) < 3 or not rest:
            raise Refused(master.element, f"{master.element}: a master here has tasks, flops, bytes and workers")
        texts = []
        for text, most in zip(numbers, (MOST_TASKS, values.GREATEST_RATE, values.GREATEST_RATE)):
            value = values.number_of(master.element, text, "an argument")
            if value > most:
                raise Refused(master.element, f"{master.element}: the argument {quoted(text)} is above {most}")
            texts.append(text if values.OURS.fullmatch(text) else str(int(value)))
        if len(rest) == 1 and rest[0] not in self.platform.names.of and re.fullmatch("[0-9]{1,5}", rest[0]):
            by_number = {worker.arguments[0]: worker.name for worker in workers if len(worker.arguments) == 1}
            wanted = [by_number.get(str(number)) for number in range(int(rest[0]))]
        else:
            wanted = [self.platform.names.of.get(host) for host in rest]
        known = {worker.name for worker in workers}
        for text, name in zip(rest if len(rest) == len(wanted) else range(len(wanted)), wanted):
            if name not in known:
                raise Refused(master.element, f"{master.element}: there is no worker for the argument {quoted(str(text))}")
        return [*texts, *wanted]

    def timed(self, rows, script):
        """Adds an actor that creates and kills others at their dates, and sleeps in between."""
        dates = sorted([(actor.start, place, "create", actor) for place, actor in enumerate(self.actors) if actor.start]
                       + [(actor.kill, place, "kill", actor) for place, actor in enumerate(self.actors)
                          if actor.kill > actor.start], key=lambda event: event[:2])
        if not dates:
            return
        if script.gathers:
            raise Refused(script.gathers, "a collective together with start_time or kill_time isn't supported: these need one more actor")
        name, now = self.free("timer"), 0
        rows.add("actor", dates[0][3].element, name=name, host=self.actors[0].host, function="replay")
        for at, _, action, actor in dates:
            if at > now:
                script.line(f"{name} sleep {values.seconds(at - now)}", actor.element)
            script.line(f"{name} {action} {actor.name}", actor.element)
            now = at
        self.notes.add(dates[0][3].element, f"start_time and kill_time: one more actor, {name}, creates and kills; the run doesn't end "
                       f"before {values.seconds(now)} s")
