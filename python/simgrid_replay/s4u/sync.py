"""Mutexes, semaphores and barriers."""

from collections import deque
from collections.abc import Callable

from .errors import AssertionError
from .rounds import Wait, Waitable, answer, block, maestro, simcall


class Place(Waitable):
    """The place of an actor in a queue."""

    __slots__ = ("actor", "queue", "name")

    def __init__(self, actor, queue, name: str, timeout: float | None = None, late: Callable | None = None):
        super().__init__()
        self.actor, self.queue, self.name = actor, queue, name
        queue.append(self)

        def expired(actor) -> None:
            self.leave()
            late(actor)
        Wait(actor, self, timeout, expired, False)

    def describe(self) -> str:
        return self.name

    def leave(self) -> None:
        if self in self.queue:
            self.queue.remove(self)


class SemaphorePlace(Place):
    """The place of an actor that waits for a token. A killed actor loses it; at a mutex or a barrier it keeps it, as in SimGrid."""

    __slots__ = ()

    def abandon(self, actor) -> None:
        self.leave()


def recorded(function: Callable, words: tuple, text: str):
    """Blocks, and adds what the actor waited for to the trace."""
    begin = maestro.now
    value = block(function, *words)
    if maestro.trace:
        maestro.trace.add(maestro.current, begin, text)
    return value


class Mutex:
    """A lock that one actor holds at a time; waiting actors get it in the order of their calls."""

    made = 0

    def __init__(self) -> None:
        Mutex.made += 1
        self._name, self._owner = f"m{Mutex.made}", None
        self._queue: deque[Place] = deque()

    def lock(self) -> None:
        """Blocks until the mutex is the actor's."""
        recorded(self._lock, (), f"lock {self._name}")

    def _lock(self, actor) -> None:
        if self._owner is None:
            self._owner = actor
            answer(actor)
        else:
            Place(actor, self._queue, f"mutex {self._name}")

    def try_lock(self) -> bool:
        """Takes the mutex if it is free, and returns whether it was."""
        return simcall(self._try_lock, maestro.current)

    def _try_lock(self, actor) -> bool:
        if self._owner is not None:
            return False
        self._owner = actor
        return True

    def unlock(self) -> None:
        """Gives the mutex to the one that has waited longest."""
        simcall(self._unlock, maestro.current)

    def _unlock(self, actor) -> None:
        if self._owner is not actor:
            raise AssertionError("Cannot release that mutex: you don't own it.")
        self._owner = None
        if self._queue:
            first = self._queue.popleft()
            self._owner = first.actor
            first.fire()

    def __enter__(self) -> None:
        self.lock()

    def __exit__(self, *fault) -> None:
        self.unlock()


class Semaphore:
    """A count of tokens; an actor that takes one waits until there is one."""

    made = 0

    def __init__(self, capacity: int):
        Semaphore.made += 1
        self._name, self._count = f"s{Semaphore.made}", capacity
        self._queue: deque[Place] = deque()

    def acquire(self) -> None:
        """Takes a token, and blocks until there is one."""
        self.acquire_timeout(-1)

    def acquire_timeout(self, timeout: float) -> bool:
        """Takes a token, and returns whether the time limit was reached before there was one."""
        return recorded(self._acquire, (timeout,), f"acquire {self._name}")

    def _acquire(self, actor, timeout: float) -> None:
        if self._count > 0:
            self._count -= 1
            answer(actor, False)
        else:
            SemaphorePlace(actor, self._queue, f"semaphore {self._name}", timeout if timeout >= 0 else None, lambda actor: answer(actor, True))

    def release(self) -> None:
        """Gives a token back."""
        simcall(self._release)

    def _release(self) -> None:
        if self._queue:
            self._queue.popleft().fire()
        else:
            self._count += 1

    @property
    def capacity(self) -> int:
        """The current number of tokens."""
        return self._count

    @property
    def would_block(self) -> bool:
        return self._count == 0

    def __enter__(self) -> None:
        self.acquire()

    def __exit__(self, *fault) -> None:
        self.release()


class Barrier:
    """Blocks actors until a given number of them wait."""

    def __init__(self, expected_actors: int):
        self._expected = expected_actors
        self._queue: list[Place] = []

    def wait(self) -> None:
        """Blocks until all are there."""
        recorded(self._wait, (), "barrier")

    def _wait(self, actor) -> None:
        if len(self._queue) + 1 < self._expected:
            Place(actor, self._queue, "a barrier")
            return
        queue, self._queue = self._queue, []
        for place in queue:
            place.fire()
        answer(actor)
