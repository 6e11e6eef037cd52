"""Runs actors in scheduling rounds, as SimGrid's maestro does.

In a scheduling round each ready actor runs up to its next call to the maestro. Then these calls are answered, in the order in
which their actors ran; an actor whose call is answered is ready in the next scheduling round. When nobody is ready, time advances.
"""

from collections.abc import Callable
from heapq import heappop, heappush
from itertools import count
from typing import Any

from greenlet import getcurrent

from .bridge import Job
from .errors import ActorKilled

SECOND = 10**9


class Maestro:
    """The state of the run; a process has one, as in SimGrid."""

    # puts what completes at one date in order: `order.in_order`
    in_order: Callable[[list], list] = staticmethod(list)

    def __init__(self) -> None:
        self.bridge = None
        self.current = None     # the actor that runs now
        self.main = getcurrent()
        self.ready: list = []   # the actors of the next scheduling round
        self.turn: list = []    # the actors of this scheduling round that are still to run, last first
        self.calls: list = []   # the calls of this scheduling round: actor, function, arguments, and whether it answers later
        self.after: tuple[list, list] = ([], [])    # what follows once these calls are answered: on hosts, and on messages
        self.actors: dict = {}
        self.last_pid = 0
        self.stay = 0           # how many actors are no daemons
        self.numbers = count(1)  # activities and timers by when they started, by which those that complete at one date are ordered
        self.fault: BaseException | None = None
        self.alarms = Alarms(self)
        self.trace = None

    @property
    def now(self) -> int:
        """The date in nanoseconds."""
        return self.bridge.now if self.bridge else 0

    def next(self):
        """The next actor of this scheduling round that runs, or None."""
        turn = self.turn
        while turn:
            actor = turn.pop()
            if actor.dead:
                continue
            if actor.suspended and not actor.doomed:
                actor.delayed = True
                continue
            if actor.then is not None:
                if not actor.doomed:
                    self.calls.append((actor, *actor.then, True))
                    actor.then = None
                    continue
                actor.then = None
            return actor
        return None

    def run_ready(self) -> None:
        """Runs scheduling rounds until nobody is ready."""
        while self.ready:
            self.turn, self.ready = self.ready[::-1], []
            self.main = getcurrent()
            while (actor := self.next()) is not None:
                self.current = actor
                actor.greenlet.switch()
                if self.fault is not None:
                    fault, self.fault, self.current = self.fault, None, None
                    raise fault
            self.current = None
            calls, self.calls = self.calls, []
            for actor, function, words, later in calls:
                if actor.dead or (actor.doomed and not actor.dying):
                    continue
                self.answer_call(actor, function, words, later)
            if self.after[0] or self.after[1]:
                self.settle()
            if self.stay <= 0:
                for actor in list(self.actors.values()):
                    actor.end()

    def answer_call(self, actor, function, words, later: bool) -> None:
        try:
            if later:
                function(actor, *words)
                return
            actor.value, actor.error = function(*words), None
        except Exception as error:
            actor.value, actor.error = None, error
        self.ready.append(actor)

    def settle(self) -> None:
        """Does what had to wait until the calls were answered."""
        for after in self.after:
            while after:
                some = after[:]
                after.clear()
                for function in some:
                    function()

    def advance(self) -> None:
        """Advances to the next date at which something completes, and completes it."""
        self.alarms.arm()
        ended = self.bridge.advance()
        if len(ended) > 1 or ended[0].owner is self.alarms:
            owners = [job.owner for job in ended if job.owner is not self.alarms] + self.alarms.due()
            for owner in self.in_order(owners) if len(owners) > 1 else owners:
                owner.completed()
        else:
            ended[0].owner.completed()
        if self.after[0] or self.after[1]:
            self.settle()

    def is_stuck(self) -> bool:
        """Whether nothing runs that could wake an actor."""
        return self.bridge.running - len(self.alarms.sleeping) + self.alarms.wanted <= 0

    # What actors call ------------------------------------------------------------------------------------------------

    def leave(self, actor) -> Any:
        """Runs the next actor of this scheduling round, and returns the answer of the call once there is one."""
        following = self.next()
        self.current = following
        (following.greenlet if following is not None else self.main).switch()
        if actor.doomed and not actor.dying:
            actor.dying = True
            raise ActorKilled()
        error = actor.error
        if error is not None:
            actor.error = None
            raise error
        return actor.value


class Timer:
    """A function that is called at a date."""

    __slots__ = ("number", "function", "alarms", "wanted", "off", "rank")

    def __init__(self, number: int, function: Callable[[], None], alarms: "Alarms", wanted: bool, is_sleep: bool):
        self.number, self.function, self.alarms, self.wanted, self.off = number, function, alarms, wanted, False
        # Sleeps are activities of a host in SimGrid; of those that began at one date the last one comes first.
        self.rank = (1, alarms.maestro.now, 0, -number) if is_sleep else (0, number)

    def stop(self) -> None:
        if not self.off:
            self.off = True
            self.alarms.wanted -= self.wanted

    def completed(self) -> None:
        if not self.off:
            self.stop()
            self.function()


class Alarms:
    """All sleeps and time limits. The program sleeps only for the earliest, so that a cancelled one delays nothing.

    `wanted` counts the timers that may wake an actor, `sleeping` has the dates for which the program sleeps.
    """

    def __init__(self, maestro: Maestro):
        self.maestro, self.heap, self.wanted, self.sleeping = maestro, [], 0, []

    def add(self, date: int, function: Callable[[], None], wanted: bool = True, is_sleep: bool = False) -> Timer:
        timer = Timer(next(self.maestro.numbers), function, self, wanted, is_sleep)
        self.wanted += wanted
        heappush(self.heap, (date, timer.number, timer))
        return timer

    def after(self, seconds: float, function: Callable[[], None], wanted: bool = True) -> Timer:
        return self.add(self.maestro.now + max(0, nanoseconds(seconds)), function, wanted)

    def sleep(self, host, seconds: float, function: Callable[[], None]) -> Timer:
        """A timer that is a sleep on a host."""
        host.mirror.touch()
        return self.add(self.maestro.now + max(0, nanoseconds(seconds)), function, True, True)

    def arm(self) -> None:
        """Has the program sleep up to the earliest timer. It is called before time advances."""
        heap, sleeping = self.heap, self.sleeping
        while heap and heap[0][2].off:
            heappop(heap)
        if heap and (not sleeping or heap[0][0] < sleeping[0]):
            date = heap[0][0]
            heappush(sleeping, date)
            bridge = self.maestro.bridge
            bridge.start(Job(self, 0, f"sleep {date - bridge.now}ns"), next(self.maestro.numbers))

    def due(self) -> list[Timer]:
        """The timers of this date, if the program slept up to it."""
        heap, now = self.heap, self.maestro.bridge.now
        while self.sleeping and self.sleeping[0] <= now:
            heappop(self.sleeping)
        found = []
        while heap and heap[0][0] <= now:
            timer = heappop(heap)[2]
            if not timer.off:
                found.append(timer)
        return found


def nanoseconds(seconds: float) -> int:
    return round(seconds * SECOND)


maestro = Maestro()


def simcall(function: Callable, *words) -> Any:
    """Lets the maestro call a function, and returns its result. Outside of actors it is called at once."""
    actor = maestro.current
    if actor is None:
        return function(*words)
    maestro.calls.append((actor, function, words, False))
    return maestro.leave(actor)


def block(function: Callable, *words) -> Any:
    """Lets the maestro call a function of the actor, which `answer` answers later, and returns the answer."""
    actor = maestro.current
    if actor is None:
        raise RuntimeError("only actors can block")
    maestro.calls.append((actor, function, words, True))
    return maestro.leave(actor)


def block_next(actor, function: Callable, *words) -> None:
    """Makes this blocking call in the next scheduling round, if the actor has nothing else to do in between."""
    actor.then = function, words
    maestro.ready.append(actor)


def answer(actor, value: Any = None, error: BaseException | None = None) -> None:
    """Answers the call in which an actor is blocked: it is ready in the next scheduling round."""
    actor.wait = None
    actor.value, actor.error = value, error
    maestro.ready.append(actor)


class Wait:
    """An actor's wait for an activity, which answers with `value`. After the time limit `late` is called, or the activity's own
    function."""

    __slots__ = ("actor", "activity", "timer", "late", "value")

    def __init__(self, actor, activity, timeout: float | None = None, late: Callable | None = None, value: Any = None):
        self.actor, self.activity, self.late, self.value = actor, activity, late, value
        actor.wait = self
        activity.waits.append(self)
        self.timer = None if timeout is None else maestro.alarms.sleep(actor._host, timeout, self.expire)

    @property
    def activities(self) -> list:
        return [self.activity]

    def drop(self) -> None:
        """Ends the wait without an answer."""
        if self in self.activity.waits:
            self.activity.waits.remove(self)
        self.stop()

    def stop(self) -> None:
        if self.timer is not None:
            self.timer.stop()
            self.timer = None

    def fire(self, activity) -> None:
        """The activity has completed or failed."""
        activity.waits.remove(self)
        if self.timer is not None:
            self.stop()
        answer(self.actor, self.value, activity.failure)

    def expire(self) -> None:
        """The time limit is reached."""
        self.timer = None
        if self.late is None:
            self.activity.expire()
        else:
            self.drop()
            self.late(self.actor)

    def abandon(self) -> None:
        """The actor was killed: what it waits for ends with it."""
        self.drop()
        self.activity.abandon(self.actor)


class WaitAny(Wait):
    """An actor's wait for any of several activities, which answers with the number of the first that completed or failed."""

    __slots__ = ("activities",)

    def __init__(self, actor, activities: list, timeout: float | None, late: Callable):
        self.actor, self.activities, self.late = actor, activities, late
        actor.wait = self
        for activity in activities:
            activity.waits.append(self)
        self.timer = None if timeout is None else maestro.alarms.after(timeout, self.expire)

    def drop(self) -> None:
        for activity in self.activities:
            while self in activity.waits:
                activity.waits.remove(self)
        self.stop()

    def fire(self, activity) -> None:
        self.drop()
        answer(self.actor, self.activities.index(activity), activity.failure)

    def expire(self) -> None:
        self.timer = None
        self.drop()
        self.late(self.actor)

    def abandon(self) -> None:
        self.drop()


class Waitable:
    """What actors wait for. `failure` is what a wait raises, `waits` are the waits for it."""

    __slots__ = ("waits", "failure")

    def __init__(self) -> None:
        self.waits: list[Wait] = []
        self.failure: BaseException | None = None

    def fire(self) -> None:
        """Answers all waits, in the order in which they began."""
        while self.waits:
            self.waits[0].fire(self)

    def expire(self) -> None:
        """The time limit of a wait without its own function is reached."""

    def describe(self) -> str:
        """What an actor waits for, in words."""
        return "something"

    def abandon(self, actor) -> None:
        """An actor that waited was killed."""

    def drop_of(self, actor) -> None:
        """An actor ended whose activity this is."""
