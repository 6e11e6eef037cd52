"""Mailboxes, and the messages that sends and receives make there."""

from collections import deque
from typing import Any

from .bridge import Job
from .errors import AssertionError, CancelException, NetworkFailureException, NotHere, TimeoutException
from .rounds import SECOND, Wait, WaitAny, Waitable, answer, block, block_next, maestro, simcall

WAITING, STARTED, DONE, FAILED, CANCELED = range(5)


class Message(Waitable):
    """A message of one send and one receive, or between two hosts: it starts once both actors have made their calls."""

    __slots__ = ("box", "is_send", "state", "source", "target", "sender", "receiver", "data", "size", "rate", "job", "detached",
                 "blocking", "began", "ended")

    def __init__(self, box: "Mailbox | None", is_send: bool):
        super().__init__()
        self.box, self.is_send, self.state = box, is_send, WAITING
        self.source = self.target = self.sender = self.receiver = None
        self.data, self.size, self.rate, self.job, self.detached = None, 0, None, None, False
        self.blocking = 0    # how many of its actors have called put or get
        self.began = self.ended = -1

    @property
    def rank(self) -> tuple:
        return 2, self.began, self.job.number

    def describe(self) -> str:
        return f"a message at mailbox {self.box.name}" if self.box is not None else "a message between hosts"

    def begin(self) -> None:
        self.state, self.began = STARTED, maestro.now
        if self.box is not None:
            self.source, self.target = self.sender._host, self.receiver._host
        if not self.source.on or not self.target.on:
            self.fail(NetworkFailureException("Can't use this route: a host is off"))
            return
        network = self.source.network
        if network.any_off and any(not link.on for link in network.links_between(self.source, self.target)):
            self.fail(NetworkFailureException("Can't use this route: a link is off"))
            return
        if network.limited and network.queue(self):
            return
        self.put()

    def put(self) -> None:
        """Sends it."""
        network = self.source.network
        unit = 1 if self.source is self.target and not network.declares_loopback(self.source) else network.unit
        text = str(round(self.size * unit))
        if self.rate:
            text += " " + str(max(1, round(self.rate * unit)))
        self.job = maestro.bridge.start(Job(self, self.source.index, text, self.target.index), next(maestro.numbers))
        network.messages[self] = None

    def over(self) -> None:
        """Removes it from the network and from its actors."""
        network = self.source.network
        network.messages.pop(self, None)
        if network.limited:
            network.unqueue(self)
        if self.sender is not None:
            self.sender.activities.pop(self, None)
        if self.receiver is not None:
            self.receiver.activities.pop(self, None)

    def completed(self) -> None:
        self.state, self.ended = DONE, maestro.now
        self.over()
        self.fire()

    def fail(self, failure: Exception, state: int = FAILED) -> None:
        if self.job is not None and self.state == STARTED:
            maestro.bridge.cancel(self.job)
        self.state, self.failure = state, failure
        if self.source is not None and self.target is not None:
            self.over()
        if self.box is not None and self in self.box.queue:
            self.box.queue.remove(self)
        self.fire()

    def drop_of(self, actor) -> None:
        if not (self.detached and actor is self.sender):
            self.cancel()

    def abandon(self, actor) -> None:
        if self.state in (WAITING, STARTED):
            self.fail(NetworkFailureException("Link failure"))

    def cancel(self) -> None:
        """Ends it: at once if it is unmatched, else after the calls of this scheduling round."""
        if self.state == WAITING:
            self.fail(CancelException("Communication canceled"), CANCELED)
        elif self.state == STARTED:
            maestro.after[1].append(self.break_off)

    def break_off(self, text: str = "Link failure") -> None:
        if self.state == STARTED:
            self.fail(NetworkFailureException(text))

    def await_by(self, actor, timeout: float, value: Any = None) -> None:
        if self.failure is not None:
            answer(actor, None, self.failure)
        elif self.state == DONE:
            answer(actor, value)
        else:
            Wait(actor, self, timeout if timeout >= 0 else None, None, value)

    def expire(self) -> None:
        self.fail(TimeoutException("Communication timeouted"))


class Mailbox:
    """Where sends and receives meet, in the order in which they come."""

    __slots__ = ("name", "queue", "owner", "held")

    boxes: dict[str, "Mailbox"] = {}

    def __init__(self, name: str):
        self.name = name
        self.queue: deque[Message] = deque()
        self.owner = None
        self.held: deque[Message] = deque()    # messages that were sent at once to the owner

    def __str__(self) -> str:
        return f"Mailbox({self.name})"

    @staticmethod
    def by_name(name: str) -> "Mailbox":
        """The mailbox of this name, which is created if necessary."""
        return simcall(box_of, name)

    @property
    def ready(self) -> bool:
        """Whether the next receive has a message that has arrived."""
        first = self.queue[0] if self.queue else self.held[0] if self.owner and self.held else None
        return first is not None and first.state == DONE

    def set_receiver(self, actor) -> None:
        """Makes the actor the only receiver of the mailbox: messages to it start before it calls get."""
        simcall(setattr, self, "owner", actor)

    # What the maestro does -------------------------------------------------------------------------------------------

    def send(self, actor, data: Any, size: float, rate: float | None = None, detached: bool = False) -> Message:
        queue = self.queue
        if queue and not queue[0].is_send:
            message = queue.popleft()
        else:
            message = Message(self, True)
            if self.owner is not None:
                message.receiver, message.target = self.owner, self.owner._host
                self.held.append(message)
            else:
                queue.append(message)
        message.sender, message.source = actor, actor._host
        message.data, message.size, message.rate, message.detached = data, size, rate, detached
        if not detached:
            actor.activities[message] = None
        if message.target is not None:
            message.begin()
        return message

    def receive(self, actor) -> Message:
        queue = self.queue
        if self.owner is not None and self.held:
            message = self.held.popleft()
        elif queue and queue[0].is_send:
            message = queue.popleft()
        else:
            message = Message(self, False)
            queue.append(message)
        started = message.target is not None
        message.receiver, message.target = actor, actor._host
        actor.activities[message] = None
        if message.source is not None and not started:
            message.begin()
        return message

    def send_and_wait(self, actor, data: Any, size: float, timeout: float) -> None:
        message = self.send(actor, data, size)
        message.blocking += 1
        block_next(actor, message.await_by, timeout, message)

    def receive_and_wait(self, actor, timeout: float) -> None:
        message = self.receive(actor)
        message.blocking += 1
        block_next(actor, message.await_by, timeout, message)

    # What programs call ----------------------------------------------------------------------------------------------

    def put_init(self, data: Any = None, size: float = 0) -> "Comm":
        """A send that isn't started yet."""
        comm = Comm(self, True)
        comm._data, comm._size = data, size
        return comm

    def put_async(self, data: Any, size: float) -> "Comm":
        """Starts a send of `size` bytes, and returns at once."""
        return self.put_init(data, size).start()

    def put(self, data: Any, size: float, timeout: float = -1) -> None:
        """Sends, and blocks until the message has arrived."""
        begin = maestro.now
        message = block(self.send_and_wait, data, size, timeout)
        if maestro.trace:
            maestro.trace.sent(message, begin)

    def get_init(self) -> "Comm":
        """A receive that isn't started yet."""
        return Comm(self, False)

    def get_async(self) -> tuple["Comm", "PyGetAsync"]:
        """Starts a receive, and returns it with an object whose `get` has what has arrived."""
        comm = Comm(self, False)
        comm.start()
        return comm, PyGetAsync(comm)

    def get(self, timeout: float = -1) -> Any:
        """Receives: blocks until a message has arrived, and returns what was sent."""
        begin = maestro.now
        message = block(self.receive_and_wait, timeout)
        if maestro.trace:
            maestro.trace.received(message, begin)
        return message.data


def box_of(name: str) -> Mailbox:
    box = Mailbox.boxes.get(name)
    if box is None:
        box = Mailbox.boxes[name] = Mailbox(name)
    return box


class PyGetAsync:
    """The data of a receive."""

    __slots__ = ("_comm",)

    def __init__(self, comm: "Comm | None" = None):
        self._comm = comm

    def get(self) -> Any:
        """The data that has arrived."""
        return self._comm._message.data


class Comm:
    """A send or a receive, or a message between two hosts without a mailbox."""

    __slots__ = ("_box", "_is_send", "_actor", "_state", "_data", "_size", "_rate", "_message", "_detached", "_source", "_target")

    def __init__(self, box: Mailbox | None, is_send: bool, source=None, target=None):
        self._box, self._is_send, self._actor, self._state = box, is_send, maestro.current, "INITED"
        self._data, self._size, self._rate, self._message, self._detached = None, 0, None, None, False
        self._source, self._target = source, target

    # What the maestro does -------------------------------------------------------------------------------------------

    def _begin(self) -> None:
        if self._state != "INITED":
            return
        self._state = "STARTED"
        actor = self._actor
        if self._box is None:
            message = self._message = Message(None, True)
            message.source, message.target, message.sender = self._source, self._target, actor
            message.size, message.rate, message.detached = self._size, self._rate, self._detached
            if not self._detached:
                actor.activities[message] = None
            message.begin()
        elif self._is_send:
            self._message = self._box.send(actor, self._data, self._size, self._rate, self._detached)
        else:
            self._message = self._box.receive(actor)

    def _await(self, actor, timeout: float) -> None:
        self._begin()
        self._message.await_by(actor, timeout)

    def _test(self) -> bool:
        if self._message.state in (WAITING, STARTED):
            return False
        self._state = "FINISHED"
        return True

    def _cancel(self) -> None:
        if self._message is not None:
            self._message.cancel()
        self._state = "CANCELED"

    def _record(self, begin: int) -> None:
        if maestro.trace and self._message.state == DONE and self._box is not None:
            (maestro.trace.sent if self._is_send else maestro.trace.received)(self._message, begin)

    # What programs call ----------------------------------------------------------------------------------------------

    def start(self) -> "Comm":
        """Starts the message, and returns at once."""
        simcall(self._begin)
        return self

    def detach(self) -> "Comm":
        """Starts a send for which nobody waits."""
        if self._state != "INITED":
            raise AssertionError("You cannot use detach() once your communication is started")
        self._detached = True
        return self.start()

    def set_payload_size(self, bytes: float) -> "Comm":
        """Sets the number of bytes."""
        self._size = bytes
        return self

    def set_rate(self, rate: float) -> "Comm":
        """Limits the message to a rate in bytes a second."""
        self._rate = rate
        return self

    def wait(self) -> "Comm":
        """Blocks until the message has arrived."""
        return self.wait_for(-1)

    def wait_for(self, timeout: float) -> "Comm":
        """Blocks until the message has arrived; after `timeout` seconds it fails, and TimeoutException is raised."""
        if self._state == "FINISHED":
            return self
        if self._state == "FAILED":
            raise NetworkFailureException("Cannot wait for a failed communication")
        if self._state == "CANCELED":
            raise CancelException("Communication canceled")
        if self._state == "INITED" and self._box is None:
            self.start()
        begin = maestro.now
        try:
            block(self._await, timeout)
        except NetworkFailureException:
            self._state = "FAILED"
            raise
        self._state = "FINISHED"
        self._record(begin)
        return self

    def wait_until(self, time_limit: float) -> "Comm":
        """Blocks until the message has arrived, as `wait_for`, up to a date."""
        return self.wait_for(max(0.0, time_limit - maestro.now / SECOND))

    def test(self) -> bool:
        """Whether the message has arrived or failed."""
        if self._state in ("FINISHED", "CANCELED"):
            return True
        if self._state == "INITED":
            self.start()
        done = simcall(self._test)
        if done:
            self._record(maestro.now)
        return done

    def cancel(self) -> "Comm":
        """Ends the message."""
        simcall(self._cancel)
        return self

    def suspend(self) -> "Comm":
        """Delays the start of a message, as SimGrid does; a running message can't be suspended."""
        if self._state == "INITED" or self._state == "FINISHED" or self._message.state == DONE:
            return self
        raise NotHere("Comm.suspend of a message that has started")

    def resume(self) -> "Comm":
        return self

    @staticmethod
    def sendto_init(source, to) -> "Comm":
        """A message between two hosts, which isn't started yet."""
        return Comm(None, True, source, to)

    @staticmethod
    def sendto_async(source, to, simulated_size_in_bytes: float) -> "Comm":
        """Starts a message between two hosts."""
        return Comm(None, True, source, to).set_payload_size(simulated_size_in_bytes).start()

    @staticmethod
    def sendto(source, to, simulated_size_in_bytes: float) -> None:
        """Blocks for a message between two hosts."""
        Comm.sendto_async(source, to, simulated_size_in_bytes).wait()

    @staticmethod
    def test_any(comms: list["Comm"]) -> int:
        """The place of the first message of the list that has arrived, or -1."""
        def test() -> int:
            for place, comm in enumerate(comms):
                if comm._message is not None and comm._test():
                    return place
            return -1
        place = simcall(test)
        if place >= 0:
            comms[place]._record(maestro.now)
        return place

    @staticmethod
    def wait_all(comms: list["Comm"]) -> None:
        """Blocks until all have arrived."""
        for comm in comms:
            comm.wait()

    @staticmethod
    def wait_any(comms: list["Comm"]) -> int:
        """Blocks until one has arrived, and returns its place in the list."""
        return Comm.wait_any_for(comms, -1)

    @staticmethod
    def wait_any_for(comms: list["Comm"], timeout: float) -> int:
        """As `wait_any`; -1 if the time limit in seconds is reached before."""
        begin = maestro.now
        try:
            place = block(await_any, comms, timeout)
        except NetworkFailureException:
            for comm in comms:
                if comm._message is not None and comm._message.failure is not None:
                    comm._state = "FAILED"
            raise
        if place >= 0:
            comms[place]._state = "FINISHED"
            comms[place]._record(begin)
        return place

    @staticmethod
    def wait_all_for(comms: list["Comm"], timeout: float) -> int:
        """Blocks until all have arrived or the time limit in seconds is reached, and returns how many of the first have arrived."""
        if timeout < 0:
            Comm.wait_all(comms)
            return len(comms)
        limit = maestro.now / SECOND + timeout
        for place, comm in enumerate(comms):
            if Comm.wait_any_for([comm], max(0.0, limit - maestro.now / SECOND)) == -1:
                return place
        return len(comms)

    @property
    def mailbox(self) -> Mailbox | None:
        return self._box

    @property
    def sender(self):
        """The actor that sends."""
        return self._message.sender if self._message else self._actor

    @property
    def dst_data_size(self) -> float:
        """How many bytes the receiver got."""
        return self._message.size

    @property
    def state_str(self) -> str:
        return "STARTING" if self._box is None and self._state == "INITED" else self._state

    @property
    def remaining(self) -> float:
        """The remaining bytes, if known: before the start, at the start, and at the end."""
        message = self._message
        if message is None:
            return float(self._size)
        if message.state == DONE:
            return 0.0
        if message.state == WAITING or message.began == maestro.now:
            return float(message.size)
        raise NotHere("Comm.remaining of a message that is running")

    @property
    def start_time(self) -> float:
        return self._message.began / SECOND

    @property
    def finish_time(self) -> float:
        return self._message.ended / SECOND


def await_any(actor, comms: list[Comm], timeout: float) -> None:
    """Waits for any of the messages."""
    for comm in comms:
        comm._begin()
    messages = [comm._message for comm in comms]
    for place, message in enumerate(messages):
        if message.state not in (WAITING, STARTED):
            answer(actor, place, message.failure)
            return
    WaitAny(actor, messages, timeout if timeout >= 0 else None, lambda actor: answer(actor, -1))
