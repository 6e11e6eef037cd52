"""Runs simgrid_replay from Python, and reads its traces. It needs only Python's standard library.

    from simgrid_replay import run
    result = run("platform.toml", "deployment.toml", "script.txt")
    print(result.word, result.seconds)

The program is that of the environment variable SIMGRID_REPLAY, else that of the same checkout or prefix, else the one on PATH.
"""

import functools
import gzip
import io
import json
import os
import re
import shutil
import subprocess
import sys
import tempfile
from array import array
from collections import deque
from collections.abc import Sequence
from decimal import Decimal
from itertools import chain, islice
from pathlib import Path
from typing import NamedTuple

__all__ = ["run", "toml", "Result", "Row", "Rows", "Fault", "Reader", "BadTrace", "COLUMNS", "STATUSES"]

# A word for each exit status of the program.
STATUSES = {0: "completed", 2: "invalid arguments", 3: "platform refused", 4: "deployment refused", 5: "bad script line", 6: "deadlock",
            7: "starved", 8: "budget used up", 9: "no route", 10: "unreadable", 11: "unwritable", 12: "out of memory", 101: "not built"}
# The endings that aren't faults of the inputs.
ENDED = (0, 6, 7, 8)


# Runs --------------------------------------------------------------------------------------------------------------------

class Row(NamedTuple):
    """An action of the trace. `seconds` is its duration, None if it was refused or failed."""
    host: str
    actor: str
    number: int
    date: Decimal
    action: str
    words: tuple
    seconds: Decimal
    outcome: str


class Fault(Exception):
    """A fault ended the run: its status with its word, the line that the program wrote, and the explanation of `explain`.

    `result` has the actions before the fault.
    """

    def __init__(self, result, line, explanation):
        super().__init__(explanation or line or result.word)
        self.status, self.word, self.result = result.status, result.word, result
        self.line, self.explanation = line, explanation


class Result:
    """How a run ended, and what it wrote. The trace is kept compressed, and read when it is first used."""

    def __init__(self, status, packed):
        self.status, self.word, self._packed = status, STATUSES.get(status, f"status {status}"), packed

    def __repr__(self):
        return f"<Result: {self.word}, {self.seconds} s>"

    def lines(self):
        """The output of the program, as a text file."""
        file = gzip.GzipFile(fileobj=io.BytesIO(self._packed))
        return io.TextIOWrapper(file, "ascii", "backslashreplace", newline="\n")

    @property
    def text(self):
        """The output of the program."""
        return self.lines().read()

    @functools.cached_property
    def _read(self):
        reader = Reader(self.lines(), late=True)
        return Rows(reader), reader

    @property
    def rows(self):
        """The actions of the trace in order: a sequence whose items are each a Row."""
        return self._read[0]

    @property
    def seconds(self):
        """The exact date at which the run ended; after a fault that of the last action."""
        return decimal(self._read[1].end)

    @property
    def blocked(self):
        """The calls in which actors were blocked at the end, each a Row without a duration."""
        return [row_of(action) for action in self._read[1].blocked if action.call.word != "suspended"]

    @property
    def suspended(self):
        """The names of the actors that were suspended at the end."""
        return [action.actor.name for action in self._read[1].blocked if action.call.word == "suspended"]

    @property
    def joules(self):
        """The energy of each host that has `power`, by its name."""
        return {host: Decimal(joules) for host, joules in self._read[1].energies}

    @property
    def events(self):
        """The number of events if the budget was used up, else None."""
        match = re.match("budget of ([0-9]+) events", self._read[1].ending)
        return int(match[1]) if match else None

    def to_pandas(self):
        """The rows as a DataFrame of pandas with the columns of `totable`: names are categories, dates and durations floats."""
        return self.rows.to_pandas()


def run(platform, deployment, script=None, *, budget=None, quiet=False, threads=None, timeout=None, program=None):
    """Runs a script, or without one masters and workers, and returns the Result. Raises `Fault` for a fault.

    A platform and a deployment are the name of a file, a text (with more than one line), or a dictionary of tables. A script is
    the name of a file, a text, or lines. If the program takes longer than `timeout` seconds, `subprocess.TimeoutExpired` is
    raised.
    """
    with tempfile.TemporaryDirectory(prefix="simgrid_replay-") as folder:
        names = [file_of(platform, folder, "platform.toml"), file_of(deployment, folder, "deployment.toml")]
        names += [file_of(script, folder, "script.txt")] if script is not None else []
        options = ["--quiet"] if quiet else []
        for name, value in (("--budget", budget), ("--nthreads", threads)):
            options += [name, str(whole(value))] if value is not None else []
        command = [program or find_program(), "replay" if script is not None else "run", *options, "--", *names]
        with tempfile.TemporaryFile() as file:
            done = subprocess.run(command, stdin=subprocess.DEVNULL, stdout=file, stderr=subprocess.PIPE, timeout=timeout)
            result = Result(done.returncode, packed(file))
        if result.status not in ENDED:
            line = done.stderr.decode("utf-8", "replace").rstrip("\n")
            raise Fault(result, line, explanation(line, names) if line and result.status != 101 else "")
        return result


def packed(file):
    """The contents of a file, compressed to about a tenth."""
    file.seek(0)
    found = io.BytesIO()
    with gzip.GzipFile(fileobj=found, mode="wb", compresslevel=1) as pack:
        shutil.copyfileobj(file, pack)
    return found.getvalue()


def whole(value):
    """The value as an int, also for a whole float such as 1e6."""
    if int(value) != value:
        raise ValueError(f"{value!r} is not a whole number")
    return int(value)


def file_of(part, folder, name):
    """The name of the file of a part; a part that isn't a file is written into the folder."""
    if isinstance(part, os.PathLike) or (isinstance(part, str) and part and "\n" not in part):
        if re.search("[ =]", os.fspath(part)) and not os.path.exists(part):
            raise ValueError(f"there is no file {part!r}; a text has more than one line, and a script of one line is a list of one")
        return os.fspath(part)
    if isinstance(part, dict):
        part = toml(part)
    elif not isinstance(part, (str, bytes)):
        part = "".join(f"{line}\n" for line in part)
    path = os.path.join(folder, name)
    with open(path, "wb") as file:
        file.write(part.encode() if isinstance(part, str) else part)
    return path


def toml(tables):
    """A dictionary of tables, each a list of rows, as TOML."""
    lines = []
    for name, rows in tables.items():
        if isinstance(rows, (list, tuple)) and rows and all(isinstance(row, dict) for row in rows):
            lines += [f"{key_text(name)} = [", *(f"  {value_text(row)}," for row in rows), "]"]
        else:
            lines.append(f"{key_text(name)} = {value_text(rows)}")
    return "\n".join(lines) + "\n"


def key_text(name):
    return name if re.fullmatch("[A-Za-z0-9_-]+", name) else value_text(name)


def value_text(value):
    if isinstance(value, bool):
        return "true" if value else "false"
    if isinstance(value, str):
        # TOML requires an escape for this character, JSON doesn't.
        return json.dumps(value, ensure_ascii=False).replace("\x7f", "\\u007f")
    if isinstance(value, dict):
        return "{" + ", ".join(f"{key_text(key)} = {value_text(item)}" for key, item in value.items()) + "}"
    if isinstance(value, (list, tuple)):
        return "[" + ", ".join(map(value_text, value)) + "]"
    if isinstance(value, (int, float)):
        return str(value)
    raise TypeError(f"{value!r} can't be written as TOML")


# The program and the tools are in a checkout, under the prefix of `make install`, or in a package.
HERE = Path(__file__).resolve().parent


def find_program():
    """The program's file, or FileNotFoundError."""
    named = os.environ.get("SIMGRID_REPLAY")
    if named:
        return named
    for folder in (HERE, HERE.parent.parent, *prefixes("bin")):
        path = folder / "simgrid_replay"
        if path.is_file() and os.access(path, os.X_OK):
            return str(path)
    found = shutil.which("simgrid_replay")
    if found is None:
        raise FileNotFoundError("there is no program simgrid_replay: set SIMGRID_REPLAY to its file, or put it on PATH")
    return found


def prefixes(name):
    """This folder of each prefix under which the module may be installed."""
    return [parent.parent / name for parent in HERE.parents if parent.name == "lib"]


def tool_folder():
    """The folder of the tools, or None."""
    folders = (HERE / "tools", HERE.parent, HERE.parent.parent / "tools", *(folder / "simgrid_replay" for folder in prefixes("libexec")))
    return next((folder for folder in folders if (folder / "explain").is_file()), None)


def explanation(line, names):
    """The explanation of a line of the program by `explain`, or "" without that tool."""
    folder = tool_folder()
    command = [sys.executable, "-B", str(folder / "explain")] if folder else [shutil.which("simgrid_replay-explain")]
    if command[-1] is None:
        return ""
    done = subprocess.run([*command, *names], input=line, capture_output=True, text=True, encoding="utf-8")
    return done.stdout.rstrip("\n")


# Traces ------------------------------------------------------------------------------------------------------------------

NAME, DATE, AMOUNT = "[A-Za-z0-9_.-]{1,64}", r"[0-9]{1,24}\.[0-9]{9}", "[0-9]{1,20}"
CALL = re.compile(rf"(?:compute ({AMOUNT})|(?:sleep|wait|barrier|yield)|i?send ({NAME}) ({AMOUNT})|recv ({NAME})(?: ({AMOUNT}))?|"
                  rf"(?:irecv|lock|unlock|acquire|release|create|join|kill|suspend|resume) ({NAME}))")
WHO = re.compile(rf"\[({NAME}):({NAME}):\(([1-9][0-9]{{0,8}})\)")
# The parts of an action's line: the line, who, when, what and the duration. Who and what are checked once for each text.
LINE = re.compile(r"^((\[[^ \n]+) ([0-9]{1,24}\.[0-9]{9})\] ([a-z]+(?: [^ \r\n]+){0,2}?) ([0-9]{1,24}\.[0-9]{9}|refused|failed))\r?$", re.M)
# The number of characters of a trace that are read at a time.
BLOCK = 1 << 16
BLOCKED = re.compile(r"(?:blocked (\[[^ ]+)\] (.+)|suspended (\[[^ ]+)\])")
ENERGY = re.compile(rf"energy ({NAME}) ([0-9]{{1,40}}\.[0-9]{{12}})")
DATED_END = re.compile(rf"(?:Simulation time|deadlock at|starved at|budget of [0-9]+ events used at) ({DATE})")
FAULT_END = re.compile(r"script line [0-9]+: .+|cannot read the script|no route from .+|route from .+: more than 64 links")
# How a run ended, by the beginning of its ending line.
ENDING_WORDS = (("Simulation time", 0), ("deadlock", 6), ("starved", 7), ("budget", 8), ("script line", 5), ("cannot read", 10), ("", 9))
ORDERS = {"suspend", "resume", "kill"}
SIDES = {"send": 1, "isend": 1, "recv": 2, "irecv": 2}
# The number of texts of calls that are kept.
MOST_CALLS = 20_000


class BadTrace(ValueError):
    """A line, given by its number, isn't a trace line."""


class Actor:
    """An actor of a trace. `free` is the end of its last action, `requests` are the calls for which it hasn't waited yet."""

    __slots__ = ("host", "name", "id", "free", "requests", "sends_itself", "more")

    def __init__(self, host, name, id):
        self.host, self.name, self.id, self.free = host, name, id, 0
        self.requests, self.sends_itself, self.more = deque(), False, None


class Call:
    """What an actor does: its words, its role in a message (1 the sender's, 2 the receiver's, else 0), and whether it suspends,
    resumes or kills another actor."""

    __slots__ = ("word", "other", "amount", "text", "side", "orders", "more")

    def __init__(self, text, word, other, amount):
        self.text = text
        self.word = word
        self.other = other
        self.amount = amount
        self.side = SIDES.get(word, 0)
        self.orders = word in ORDERS
        self.more = None


class Action:
    """A line of a trace, with dates in whole nanoseconds, or a call that is blocked or suspended at the end of the run.

    `met` is the date at which sender and receiver had both made their calls, None if it isn't known; `partner` of the later of
    the two calls is the earlier one. `held` are the spans since the actor was free in which it was suspended. `request` is the
    call for which a `wait` waited.
    """

    __slots__ = ("number", "line", "actor", "begin", "end", "call", "how", "met", "open", "held", "request", "partner")

    def __init__(self, number, line, actor, begin, end, call, how):
        self.number = number
        self.line = line
        self.actor = actor
        self.begin = begin
        self.end = end
        self.call = call
        self.how = how
        self.met = self.request = self.partner = None
        self.open = False
        self.held = ()

    @property
    def other(self):
        """The other actor of a message, or the name in the call. A worker's call names the worker itself; the other is its master."""
        if self.partner is not None and self.call.other == self.actor.name:
            return self.partner.actor.name
        return self.call.other


class Reader:
    """Reads the lines of a trace. Iterating over it yields the actions in order, and raises `BadTrace` at any other line.

    After the last action `ending` is the text of the ending ("" without one), `end` its date, `blocked` the calls that are
    blocked or suspended then, `energies` the hosts with their joules, and `count` the number of actions. An action is yielded
    once `met` of its message is known; `isend` and `irecv`, which may be matched late or never, are delayed only with `all_met`.
    With `late` each action is yielded at once, and its `met` is set later.
    """

    def __init__(self, lines, all_met=False, late=False):
        self.lines, self.all_met, self.late = lines, all_met, late
        self.actors, self.calls, self.ids = {}, {}, {}
        self.waiting = ({}, {})     # unmatched sends, and receives, by the two actors
        self.holds, self.kills = {}, {}
        self.ending, self.end, self.blocked, self.energies, self.count = "", 0, [], [], 0

    def __iter__(self):
        number, end, before, held = 0, 0, None, deque()
        actors, calls, holds, all_met, late, meet = self.actors, self.calls, self.holds, self.all_met, self.late, self.meet
        blocks = blocks_of(self.lines)
        for block in blocks:
            found = LINE.findall(block)
            others = [] if len(found) == block.count("\n") else unlike(found, block)
            for line, who, when, words, took in found:
                number += 1
                actor = actors.get(who) or self.actor(who, number, line)
                call = calls.get(words) or self.call(words, number, line)
                date, free, how = int(when.replace(".", "")), actor.free, "done"
                if took == "0.000000000":
                    begin = date
                elif took == "refused":
                    begin, how = date, took
                elif took == "failed":
                    # The line of a failed call has no duration: the call began when its actor was free.
                    begin, how = free, took
                else:
                    begin = date - int(took.replace(".", ""))
                if date < end or begin < free:
                    raise BadTrace(f"line {number}: {'the date falls' if date < end else 'it began before the actor was free'}")
                end = actor.free = date
                action = Action(number, line, actor, begin, date, call, how)
                if holds and actor.name in holds:
                    self.held(action, free)
                if call.side:
                    meet(action, before)
                elif call.word == "wait":
                    if actor.requests and how != "refused":
                        action.request = actor.requests.popleft()
                elif call.orders:
                    self.order(action)
                before = action
                if held or (action.open and not late and (all_met or call.word == "send")):
                    held.append(action)
                    # The send and the receive of a completed message have the same date.
                    while held and (not held[0].open or (not all_met and (held[0].call.word != "send" or held[0].end < date))):
                        yield held.popleft()
                else:
                    yield action
            self.end, self.count = end, number
            if others:
                self.close(number + 1, others[0], chain(others[1:], (line for block in blocks for line in lines_of(block))))
        for action in self.blocked:
            if action.call.side:
                self.meet(action, None)
        yield from held

    def actor(self, who, number, line):
        """The actor of a line, which has no earlier line."""
        match = WHO.fullmatch(who)
        if match is None:
            raise no_line(number, line)
        host, name, id = match[1], match[2], int(match[3])
        actor = self.ids.setdefault(id, Actor(host, name, id))
        if (actor.host, actor.name) != (host, name):
            raise BadTrace(f"line {number}: actor {id} was {actor.name} on {actor.host} before")
        self.actors[who] = actor
        return actor

    def call(self, words, number, line):
        if len(self.calls) == MOST_CALLS:
            self.calls.clear()
        word, _, rest = words.partition(" ")
        if word == "compute" and rest.isdecimal() and rest.isascii() and len(rest) <= 20:
            # These texts rarely repeat, so they take a shorter way.
            call = Call(words, word, None, rest)
        else:
            match = CALL.fullmatch(words)
            if match is None:
                raise no_line(number, line)
            flops, receiver, sent, sender, taken, other = match.groups()
            call = Call(words, word, receiver or sender or other, flops or sent or taken)
        self.calls[words] = call
        return call

    def meet(self, action, before):
        """Finds the other call of a message.

        The sends of one actor to another match its receives in order. A worker, which sends nothing, receives from all of its
        masters; its line comes directly after that of the master.
        """
        actor, call = action.actor, action.call
        name, other, side = actor.name, call.other, call.side
        if name == other:
            if side == 1:
                actor.sends_itself = True
            elif call.word == "recv" and not actor.sends_itself:
                sent = before and before.call
                if sent and sent.word == "send" and sent.other == name and sent.amount == call.amount:
                    action.met = before.met = max(action.begin, before.begin)
                    action.partner, before.open = before, False
                    self.waiting[0][before.actor.name, name].pop()
                return
        if call.word[0] == "i":
            actor.requests.append(call)
        sends, recvs = self.waiting
        mine, theirs, pair = (sends, recvs, (name, other)) if side == 1 else (recvs, sends, (other, name))
        others = theirs.get(pair)
        if others:
            there = others.popleft()
            met = there.begin if there.begin > action.begin else action.begin
            action.met = there.met = met
            action.partner, there.open = there, False
        else:
            action.open = True
            queue = mine.get(pair)
            if queue is None:
                queue = mine[pair] = deque()
            # The later call needs only the begin of this one, if it isn't yielded again.
            queue.append(action)

    def order(self, action):
        """Notes what one actor does to another."""
        word, other = action.call.word, action.call.other
        if word == "suspend":
            spans = self.holds.setdefault(other, [])
            if not spans or spans[-1][1] is not None:
                spans.append([action.end, None])
        elif word == "resume" and other in self.holds:
            spans = self.holds[other]
            spans[-1][1] = action.end if spans[-1][1] is None else spans[-1][1]
        elif word == "kill" and action.how == "done":
            self.kills[other] = action.actor.name, action.end
            self.holds.pop(other, None)

    def held(self, action, free):
        """The spans in which the actor of an action was suspended since it was free."""
        name, date = action.actor.name, action.end
        spans = [(max(begin, free), date if end is None else min(end, date)) for begin, end in self.holds[name]]
        action.held = tuple((begin, end) for begin, end in spans if begin < end)
        left = [[date, None] for _, end in self.holds[name] if end is None]
        if left:
            self.holds[name] = left
        else:
            del self.holds[name]

    def cause(self, action):
        """The cause of an action's failure."""
        if action.call.word == "compute":
            return f"the host {action.actor.host} was off"
        other = (action.request or action.call).other
        killer, date = self.kills.get(other, (None, None))
        if date == action.end:
            return f"{other} was killed by {killer}"
        if other is None or other == action.actor.name:
            return "a host or a link on the route of the message was off"
        return f"a link between {action.actor.name} and {other}, or the host of one of them, was off"

    def close(self, number, line, lines):
        """Reads the ending, which is the first line that isn't an action, and the lines after it."""
        match = DATED_END.fullmatch(line)
        if match is None and not FAULT_END.fullmatch(line):
            raise no_line(number, line)
        if match:
            date = int(match[1].replace(".", ""))
            if date < self.end:
                raise BadTrace(f"line {number}: the run ends before its last action")
            self.end = date
        self.ending = line
        for line in lines:
            number += 1
            match = ENERGY.fullmatch(line)
            if match:
                self.energies.append((match[1], match[2]))
                continue
            match = BLOCKED.fullmatch(line)
            if match is None:
                raise no_line(number, line, "not allowed after the ending line")
            actor = self.actors.get(match[1] or match[3]) or self.actor(match[1] or match[3], number, line)
            call = self.call(match[2], number, line) if match[2] else Call("suspended", "suspended", None, None)
            action = Action(number, line, actor, actor.free, self.end, call, "blocked" if match[2] else "suspended")
            if actor.name in self.holds:
                self.held(action, actor.free)
            if call.word == "wait" and actor.requests:
                action.request = actor.requests[0]
            self.blocked.append(action)

    @property
    def status(self):
        """The exit status of the ending; None without an ending."""
        return next(status for start, status in ENDING_WORDS if self.ending.startswith(start)) if self.ending else None


def blocks_of(lines):
    """A file of text, or lines, in blocks of whole lines, each with its end."""
    if hasattr(lines, "read"):
        while block := lines.read(BLOCK):
            if block[-1] != "\n":
                block += lines.readline()
            yield block if block[-1] == "\n" else block + "\n"
    else:
        lines = iter(lines)
        while some := list(islice(lines, 1_000)):
            yield "".join(line if line.endswith("\n") else line + "\n" for line in some)


def lines_of(block):
    return [line.removesuffix("\r") for line in block[:-1].split("\n")]


def unlike(found, block):
    """The lines of a block from the first one that isn't an action; removes later ones from `found`."""
    lines = lines_of(block)
    count = next((index for index, (line, action) in enumerate(zip(lines, found)) if line != action[0]), len(found))
    del found[count:]
    return lines[count:]


def no_line(number, line, why="not a trace line"):
    return BadTrace(f"line {number}: {why}: {line[:80]!r}")


def decimal(time):
    """A date in nanoseconds as seconds, exactly."""
    return Decimal(in_seconds(time))


def in_seconds(time):
    text = str(time)
    return f"{text[:-9]}.{text[-9:]}" if len(text) > 9 else f"0.{text:0>9}"


def row_of(action):
    call, done = action.call, action.how == "done"
    return Row(action.actor.host, action.actor.name, action.actor.id, decimal(action.end), call.word, tuple(call.text.split()[1:]),
               decimal(action.end - action.begin) if done else None, action.how)


# Tables of traces --------------------------------------------------------------------------------------------------------

# The columns of a table of actions, with units in their names (s: seconds). `totable --help` describes them.
COLUMNS = ("line", "host", "actor", "id", "action", "other", "flops", "bytes", "begin_s", "met_s", "end_s", "duration_s", "outcome")
OUTCOMES = ("done", "refused", "failed")
WORDS = ("compute", "sleep", "send", "recv", "isend", "irecv", "wait", "lock", "unlock", "acquire", "release", "barrier", "yield",
         "create", "join", "kill", "suspend", "resume")
# Greater numbers don't fit into an array of 64 bits.
MOST_PACKED = 2**63 - 1


class Rows(Sequence):
    """The actions of a trace in columns, in some 50 bytes each; an item is a Row. Dates are nanoseconds, -1 for none."""

    def __init__(self, reader):
        self.actors, self.places, self.names, self.codes = [], {}, [], {None: -1}
        self.who, self.named, self.other = array("i"), array("i"), array("i")
        self.word, self.how = array("b"), array("b")
        self.amount, self.begin, self.met, self.end = (array("q") for _ in range(4))
        words, outcomes = {word: code for code, word in enumerate(WORDS)}, {how: code for code, how in enumerate(OUTCOMES)}
        for action in reader:
            actor, call, met, partner = action.actor, action.call, action.met, action.partner
            who = self.places.get(actor)
            if who is None:
                who = self.places[actor] = len(self.actors)
                self.actors.append(actor)
            amount = -1 if call.amount is None else int(call.amount)
            if action.end > MOST_PACKED or amount > MOST_PACKED:
                self.unpack()
            named = other = self.code(call.other)
            if partner is not None:
                other = self.code(action.other)
                self.met[partner.number - 1] = met
            self.who.append(who)
            self.word.append(words[call.word])
            self.named.append(named)
            self.other.append(other)
            self.amount.append(amount)
            self.begin.append(action.begin)
            self.met.append(-1 if met is None else met)
            self.end.append(action.end)
            self.how.append(outcomes[action.how])
        for action in reader.blocked:
            if action.partner is not None and action.partner.how in outcomes:
                self.met[action.partner.number - 1] = action.met

    def code(self, name):
        """The number of a name."""
        code = self.codes.get(name)
        if code is None:
            code = self.codes[name] = len(self.names)
            self.names.append(name)
        return code

    def unpack(self):
        """Replaces arrays by lists, which take numbers of any length."""
        if isinstance(self.end, array):
            self.amount, self.begin, self.met, self.end = map(list, (self.amount, self.begin, self.met, self.end))

    def __len__(self):
        return len(self.who)

    def __getitem__(self, index):
        if isinstance(index, slice):
            return [self[at] for at in range(*index.indices(len(self)))]
        actor, named, amount, end = self.actors[self.who[index]], self.named[index], self.amount[index], self.end[index]
        words = (*(() if named < 0 else (self.names[named],)), *(() if amount < 0 else (str(amount),)))
        how = OUTCOMES[self.how[index]]
        return Row(actor.host, actor.name, actor.id, decimal(end), WORDS[self.word[index]], words,
                   decimal(end - self.begin[index]) if how == "done" else None, how)

    def to_pandas(self):
        """The rows as a DataFrame with the columns of `totable`."""
        import numpy
        import pandas

        def chosen(codes, names):
            """A column of names, from their numbers; below zero means none."""
            places = {name: place for place, name in enumerate(dict.fromkeys(names))}
            place = numpy.array([places[name] for name in names] + [-1], "int32")
            return pandas.Categorical.from_codes(place[codes], list(places))

        def numbers(there):
            """The amounts of the rows for which `there` is true."""
            if isinstance(self.amount, list):
                return pandas.Series([amount if is_there else None for amount, is_there in zip(self.amount, there)], dtype=object)
            return pandas.arrays.IntegerArray(numpy.array(self.amount), ~there)

        def seconds(dates):
            found = numpy.array(dates, float)
            found[found < 0] = numpy.nan
            found /= 1e9
            return found

        who, word = numpy.frombuffer(self.who, "int32"), numpy.frombuffer(self.word, "int8")
        has_amount, computes = numpy.array(self.amount) >= 0, word == WORDS.index("compute")
        columns = (
            numpy.arange(1, len(self) + 1, dtype="int32"), chosen(who, [actor.host for actor in self.actors]),
            chosen(who, [actor.name for actor in self.actors]), numpy.array([actor.id for actor in self.actors], "int32")[who],
            chosen(word, WORDS), chosen(numpy.frombuffer(self.other, "int32"), self.names), numbers(has_amount & computes),
            numbers(has_amount & ~computes), seconds(self.begin), seconds(self.met), seconds(self.end),
            seconds([end - begin for begin, end in zip(self.begin, self.end)] if isinstance(self.end, list)
                    else numpy.array(self.end) - numpy.array(self.begin)), chosen(numpy.frombuffer(self.how, "int8"), OUTCOMES))
        return pandas.DataFrame(dict(zip(COLUMNS, columns)), copy=False)


# Shared by the tools -----------------------------------------------------------------------------------------------------

def open_trace(name):
    """The lines of the file, or of standard input; bytes that aren't ASCII become escapes, which no trace line has."""
    if name == "-":
        if sys.stdin is None:
            raise OSError("standard input is closed")
        return io.TextIOWrapper(sys.stdin.buffer, "ascii", "backslashreplace", newline="\n")
    return open(name, encoding="ascii", errors="backslashreplace", newline="\n")


def warn_of_no_ending(tool, reader):
    """Warns that a trace may be incomplete."""
    if not reader.ending:
        print(f"{tool}: warning: the trace has no ending line: it is incomplete, or a fault on standard error ended the run",
              file=sys.stderr)


def give_up(tool, error):
    """Reports why the output couldn't be written, and returns the status; the rest of the output is dropped."""
    os.dup2(os.open(os.devnull, os.O_WRONLY), 1)
    if isinstance(error, BrokenPipeError):
        return 0
    print(f"{tool}: {error}", file=sys.stderr)
    return 2
