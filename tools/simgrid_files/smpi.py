"""SMPI's time-independent traces as lines of a script: rank i is the actor `pI`."""

import re
from collections import Counter

from . import values
from .collectives import COLLECTIVE, Collectives
from .notes import Notes, Refused
from .traces import Script

# The sizes of SMPI's types by their codes.
SIZES = [8, 4, 1, 2, 8, 4, 1, 8, 1, 1, 2, 4, 8, 8, 16, 4, 1, 1, 2, 4, 8, 1, 2, 4, 8, 8, 16, 32, 8, 8,
         8, 16, 16, 8, 8, 8, 16, 16, 4, 4, 8, 16, 8, 16, 16, 4, 2, 4, 8, 16, 32, 1, 8, 16, 32]
DOUBLE, BYTE = 0, 6
ANY_SOURCE, ANY_TAG, NO_RANK = "-555", -444, "-333"
MOST_RANKS = 4096
DROPPED = {"finalize": None, "location": None, "comm_split": "communicators are all ranks", "comm_dup": "communicators are all ranks"}
# A request that no line of the trace waits for: SMPI sends it at once, alone or in a collective.
EAGER = "eager"


def is_smpi(read_traces, functions):
    """Whether the first words are ranks, and no actor has one of them for its name."""
    first = {line.words[0] for lines in read_traces for line in lines if line.words}
    return bool(first) and all(re.fullmatch("[0-9]{1,9}", word) for word in first) and not first & set(functions)


class Rank:
    """The state of a rank: its requests, oldest first; consecutive waits; and requests that were waited for too early."""

    def __init__(self, number):
        self.number, self.requests, self.type = number, [], BYTE
        self.waits, self.early = [], []
        self.sent, self.received = {}, {}


def convert(read_traces, given, notes, hosts):
    lines = [line for lines in read_traces for line in lines if line.words]
    for line in lines:
        if not re.fullmatch("[0-9]{1,9}", line.words[0]) or len(line.words) < 2:
            raise Refused(line, f"{line.words[0]}: a line of a trace of SMPI begins with a rank and an action")
    ranks = max((int(line.words[0]) for line in lines), default=-1) + 1
    if not ranks:
        raise Refused((given.deployment, 0), "a host file without a trace of ranks")
    if ranks > MOST_RANKS:
        raise Refused(lines[0], f"{ranks} ranks, but a run has at most {MOST_RANKS} actors")
    if hosts < ranks and hosts:
        notes.add((given.deployment, 1), f"{ranks} ranks on {hosts} places: the places are used in turn")
    found = converted(lines, ranks, given.eager)
    if isinstance(found.other_order(), Refused) and found.barriers:
        # The messages of barriers would match receives of other messages; a barrier line matches none.
        found = converted(lines, ranks, given.eager, False)
        found.notes.add(found.barriers_at, "barriers take no time: their messages would match receives that are pending")
    if isinstance(found.other_order(), Refused):
        raise found.other_order()
    notes.found.update(found.notes.found)
    notes.of_model("traces of SMPI: one latency and bandwidth factor for all messages, no overheads, and collectives by the algorithms "
                   "that SMPI uses by default")
    found.script.notes, found.script.sizes = notes, found.sizes
    return found.script


def converted(lines, ranks, eager, barriers=True):
    """The lines of all ranks, with barriers as messages or as lines."""
    found = Converted(ranks, eager, barriers)
    for line in lines:
        found.one(line)
    for rank in found.ranks:
        found.wait(rank)
    return found


class Converted(Collectives):
    """The lines so far, and the sizes of the messages in them."""

    def __init__(self, count, eager, as_messages):
        self.count, self.eager, self.notes = count, eager, Notes()
        self.script, self.sizes = Script(self.notes, count), Counter()
        self.ranks, self.as_messages, self.barriers, self.barriers_at = [Rank(number) for number in range(count)], as_messages, 0, None

    def one(self, line):
        rank, action, words = self.ranks[int(line.words[0])], line.words[1], line.words[2:]
        known = getattr(self, "do_" + action.lower(), None) if re.fullmatch("[A-Za-z_]+", action) else None
        if action in DROPPED:
            if DROPPED[action]:
                self.notes.add(line, f"{action} is left out: {DROPPED[action]}")
            return
        if known is None:
            raise Refused(line, f"the action {action} isn't supported")
        if action != "wait":
            self.wait(rank)
        known(line, rank, words)

    # Words ---------------------------------------------------------------------------------------------------------

    def said(self, line, rank, text):
        self.script.line(f"p{rank.number} {text}", line)

    def need(self, line, words, least):
        if len(words) < least:
            raise Refused(line, f"{line.words[1]} takes at least {least} arguments")

    def amount(self, line, text, factor=1):
        value, end = values.fraction(text)
        if value is None or text[end:] or value < 0 or value * factor > values.GREATEST_RATE:
            raise Refused(line, f"{text} isn't a number from 0 to {values.GREATEST_RATE}")
        return text if factor == 1 and values.OURS.fullmatch(text) else str(int(int(value) * factor if factor != 1 else value))

    def size(self, line, rank, words, place):
        """The bytes of an element by a code of a type, or by the one that `init` has set."""
        if place >= len(words):
            return SIZES[rank.type]
        if not re.fullmatch("[0-9]{1,2}", words[place]) or int(words[place]) >= len(SIZES):
            raise Refused(line, f"{words[place]} isn't a type of SMPI")
        return SIZES[int(words[place])]

    def rank_of(self, line, text):
        if text == ANY_SOURCE:
            raise Refused(line, "a message from any rank isn't supported: a receive names the sender")
        if text == NO_RANK:
            raise Refused(line, f"{NO_RANK} stands for MPI_ANY_SOURCE or MPI_PROC_NULL, which a trace doesn't distinguish: a receive "
                          "must name the sender; if it is MPI_PROC_NULL, remove the line and its wait")
        if not re.fullmatch("[0-9]{1,9}", text) or int(text) >= self.count:
            raise Refused(line, f"there is no rank {text}: {self.count} ranks have lines")
        return int(text)

    def tag(self, line, text):
        if not re.fullmatch("-?[0-9]{1,9}", text):
            raise Refused(line, f"the tag {text} isn't a whole number")
        return int(text)

    def root(self, line, words, place):
        return self.rank_of(line, words[place]) if place < len(words) else 0

    # Ranks by themselves -------------------------------------------------------------------------------------------

    def do_init(self, line, rank, words):
        rank.type = DOUBLE if words else BYTE

    def do_comm_size(self, line, rank, words):
        self.need(line, words, 1)
        if words[0] != str(self.count):
            raise Refused(line, f"comm_size {words[0]}, but {self.count} ranks have lines")

    def do_compute(self, line, rank, words):
        self.need(line, words, 1)
        self.said(line, rank, f"compute {self.amount(line, words[0])}")

    def do_sleep(self, line, rank, words):
        self.need(line, words, 1)
        self.said(line, rank, f"sleep {self.amount(line, words[0])}")

    # Messages ------------------------------------------------------------------------------------------------------

    def message(self, line, rank, words):
        """The other rank, the tag and the bytes."""
        self.need(line, words, 3)
        other, tag = self.rank_of(line, words[0]), self.tag(line, words[1])
        size = "0" if words[2].startswith("-") else self.amount(line, words[2], self.size(line, rank, words, 3))
        return other, tag, size

    def is_eager(self, size):
        """Whether SMPI's send of this size ends at once."""
        return values.fraction(size)[0] < self.eager

    def send(self, line, rank, other, size, of=EAGER):
        """A send, which waits if SMPI's does."""
        self.sizes[int(values.fraction(size)[0])] += 1
        if of == COLLECTIVE:
            rank.sent.setdefault(other, []).append((COLLECTIVE, line))
        if self.is_eager(size):
            rank.requests.append(of)
            self.said(line, rank, f"isend p{other} {size}")
        else:
            self.said(line, rank, f"send p{other} {size}")

    def to_nobody(self, line, words):
        """Whether it is a send to MPI_PROC_NULL, which has no effect."""
        if words and words[0] == NO_RANK:
            self.notes.add(line, "a send to MPI_PROC_NULL is left out")
            return True
        return False

    def do_send(self, line, rank, words):
        if self.to_nobody(line, words):
            return
        other, tag, size = self.message(line, rank, words)
        rank.sent.setdefault(other, []).append((tag, line))
        if self.is_eager(size):
            self.notes.add(line, f"sends below {self.eager} bytes are isend: they don't wait for the receiver")
        elif values.fraction(size)[0] < 65536:
            self.notes.add(line, "send waits until the message has arrived; SMPI's doesn't, below smpi/send-is-detached-thresh, "
                           "65536 bytes: --eager 65536")
        self.send(line, rank, other, size)

    def do_recv(self, line, rank, words):
        other, tag, _ = self.message(line, rank, words)
        rank.received.setdefault(other, []).append((tag, line))
        self.said(line, rank, f"recv p{other}")

    def do_isend(self, line, rank, words):
        if self.to_nobody(line, words):
            return
        other, tag, size = self.message(line, rank, words)
        rank.sent.setdefault(other, []).append((tag, line))
        rank.requests.append((rank.number, other, tag, self.is_eager(size)))
        self.sizes[int(values.fraction(size)[0])] += 1
        self.said(line, rank, f"isend p{other} {size}")

    def do_irecv(self, line, rank, words):
        other, tag, _ = self.message(line, rank, words)
        rank.received.setdefault(other, []).append((tag, line))
        rank.requests.append((other, rank.number, tag, False))
        self.said(line, rank, f"irecv p{other}")

    def do_wait(self, line, rank, words):
        """Collects consecutive waits: they end when all requests have completed, in any order."""
        self.need(line, words, 3)
        if words[1] == NO_RANK and words[0] == str(rank.number):
            return
        wanted = self.rank_of(line, words[0]), self.rank_of(line, words[1]), self.tag(line, words[2])
        early = next((request for request in rank.early if request[:3] == wanted), None)
        if early:
            rank.early.remove(early)
            return
        place = next((place for place, request in enumerate(rank.requests) if request[:3] == wanted
                      and all(place != other for _, other in rank.waits)), None)
        if place is None:
            raise Refused(line, "wait for a request that isn't pending")
        rank.waits.append((line, place))

    def do_waitall(self, line, rank, words):
        self.wait_for(rank, [(line, place) for place, request in enumerate(rank.requests) if request not in (EAGER, COLLECTIVE)])

    def wait(self, rank):
        """Writes the consecutive waits."""
        self.wait_for(rank, rank.waits)
        rank.waits = []

    def wait_for(self, rank, waits):
        """Waits for the requests at these places. A `wait` is for the oldest request, so older ones are waited for too. Requests that
        SMPI sends at once are waited for only if a later request is."""
        places = {place for _, place in waits}
        waits = [(line, place) for line, place in waits if not rank.requests[place][3:] == (True,)]
        for place in places - {place for _, place in waits}:
            rank.requests[place] = EAGER
        if not waits:
            return
        line, last = waits[0][0], max(place for _, place in waits)
        for place, request in enumerate(rank.requests[:last + 1]):
            if request in (EAGER, COLLECTIVE) or request[3]:
                self.notes.add(line, "a wait also waits for the sends before it that SMPI sends at once")
            elif place not in places:
                self.notes.add(line, "a wait for another request than the oldest also waits for the older ones")
            if place not in places and request not in (EAGER, COLLECTIVE):
                rank.early.append(request)
            self.said(line, rank, "wait")
        del rank.requests[:last + 1]

    def do_test(self, line, rank, words):
        self.notes.add(line, "test is left out: a later wait waits for its request")

    def do_sendrecv(self, line, rank, words):
        self.need(line, words, 4)
        other, source = self.rank_of(line, words[1]), self.rank_of(line, words[3])
        size = self.amount(line, words[0], self.size(line, rank, words, 4))
        rank.sent.setdefault(other, []).append((0, line))
        rank.received.setdefault(source, []).append((0, line))
        self.exchange(line, rank, [(other, size)], [source])

    def other_order(self):
        """The error for a receive that would match another message than in SMPI: here messages of two ranks match in order, in SMPI by tags."""
        for rank in self.ranks:
            for other, sent in rank.sent.items():
                received = self.ranks[other].received.get(rank.number, [])
                for (tag, _), (wanted, line) in zip(sent, received):
                    if tag != wanted and (wanted != ANY_TAG or tag == COLLECTIVE):
                        return Refused(line, f"a receive of {tagged(wanted)} from rank {rank.number}, whose message is one of {tagged(tag)}: "
                                       "messages of two ranks match in order here")
        return None


def tagged(tag):
    return "a collective" if tag == COLLECTIVE else f"tag {tag}"
