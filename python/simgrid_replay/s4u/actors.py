"""Actors, and what an actor does to itself (`this_actor`)."""

import sys
from collections.abc import Callable
from typing import Any

from greenlet import greenlet

from . import executions, logs
from .errors import ActorKilled, HostFailureException, NotHere
from .rounds import SECOND, Wait, Waitable, answer, block, maestro, nanoseconds, simcall


class Actor(Waitable):
    """An actor: a function that runs on a host, and stops at each call that takes simulated time."""

    __slots__ = ("pid", "ppid", "name", "_host", "_function", "_words", "greenlet", "value", "error", "wait", "then", "dead", "doomed",
                 "dying", "suspended", "delayed", "daemon", "exits", "activities", "_data", "__weakref__")

    def __init__(self, name: str, host, function: Callable, words: tuple, parent: "Actor | None"):
        super().__init__()
        maestro.last_pid += 1
        self.pid, self.ppid = maestro.last_pid, parent.pid if parent else 0
        self.name, self._host, self._function, self._words = name, host, function, words
        self.greenlet = greenlet(self._main, maestro.main)
        self.value = self.error = self.wait = self.then = None
        self.dead = self.doomed = self.dying = self.suspended = self.delayed = self.daemon = False
        self.exits: list[Callable[[bool], Any]] = []
        self.activities: dict = {}    # in the order in which they began
        maestro.stay += 1
        maestro.actors[self.pid] = self
        # The frames of greenlets that wait count towards Python's limit of recursion.
        if sys.getrecursionlimit() < 32 * len(maestro.actors):
            sys.setrecursionlimit(64 * len(maestro.actors))
        host.actors[self.pid] = self
        maestro.ready.append(self)

    def __repr__(self) -> str:
        return f"<Actor {self.name}({self._host.name}), pid {self.pid}>"

    def describe(self) -> str:
        return f"the end of actor {self.name}"

    def _main(self) -> None:
        """Runs the actor's function, and then the functions of `on_exit`."""
        failed = False
        try:
            if self.doomed:
                raise ActorKilled()
            self._function(*self._words)
        except ActorKilled:
            failed = True
        except BaseException as fault:
            maestro.fault = fault
        self.dying = True
        failed = failed or self.doomed
        try:
            if maestro.fault is None:
                for function in reversed(self.exits):
                    function(failed)
        except ActorKilled:
            pass
        except BaseException as fault:
            maestro.fault = fault
        self.dead = True
        maestro.stay -= not self.daemon
        maestro.actors.pop(self.pid, None)
        self._host.actors.pop(self.pid, None)
        for activity in list(self.activities):
            activity.drop_of(self)
        if self.waits:
            maestro.after[0].append(self.fire)

    def end(self) -> None:
        """Kills the actor: it runs once more, to raise ActorKilled where it is blocked."""
        if self.doomed or self.dead:
            return
        self.doomed, wait = True, self.wait
        if wait is not None:
            self.wait = None
            wait.abandon()
        for activity in list(self.activities):
            activity.drop_of(self)
        if self not in maestro.ready:
            maestro.ready.append(self)

    def _hold(self) -> None:
        self.suspended = True
        for execution in self._executions():
            execution.hold()

    def _go_on(self) -> None:
        if not self.suspended:
            return
        self.suspended = False
        for execution in self._executions():
            execution.go_on()
        if self.delayed:
            self.delayed = False
            maestro.ready.append(self)

    def _executions(self) -> list:
        return [activity for activity in self.activities if isinstance(activity, executions.Exec)]

    def _move(self, host) -> None:
        self._host.actors.pop(self.pid, None)
        self._host = host
        host.actors[self.pid] = self
        for execution in self._executions():
            execution.move(host)

    # What programs call ----------------------------------------------------------------------------------------------

    @staticmethod
    def create(name: str, host, function: Callable, *words) -> "Actor":
        """Starts an actor on a host, which calls the function with these arguments."""
        made = simcall(new_actor, name, host, function, words, maestro.current)
        record(made, "create")
        return made

    @staticmethod
    def self() -> "Actor | None":
        """The actor that calls."""
        return maestro.current

    @staticmethod
    def by_pid(pid: int) -> "Actor | None":
        """The living actor of this number, or None."""
        return maestro.actors.get(pid)

    @property
    def host(self):
        """The host on which the actor is. Setting it moves the actor, and its executions."""
        return self._host

    @host.setter
    def host(self, host) -> None:
        simcall(self._move, host)

    def set_auto_restart(self, restart: bool = True) -> None:
        """Restarts the actor whenever its host is turned on again."""
        if restart:
            self._host.boot.append((self.name, self._function, self._words))

    def daemonize(self) -> "Actor":
        """Makes the actor a daemon, which ends as soon as all other actors have ended."""
        def become() -> None:
            maestro.stay -= not (self.daemon or self.dead)
            self.daemon = True
        simcall(become)
        return self

    def is_daemon(self) -> bool:
        return self.daemon

    def is_suspended(self) -> bool:
        return self.suspended

    def suspend(self) -> None:
        """Blocks the actor until another one calls `resume`. Its executions are suspended; its messages continue."""
        if self is maestro.current:
            this_actor.suspend()
        else:
            simcall(self._hold)
            record(self, "suspend")

    def resume(self) -> None:
        """Lets a suspended actor run again."""
        simcall(self._go_on)
        record(self, "resume")

    def join(self, timeout: float = -1) -> None:
        """Blocks until the actor has ended, or the time limit in seconds is reached."""
        begin = maestro.now
        block(self._join, timeout)
        if maestro.trace:
            maestro.trace.add(maestro.current, begin, f"join {maestro.trace.name_of(self)}")

    def _join(self, actor: "Actor", timeout: float) -> None:
        if self.dead:
            answer(actor)
        else:
            Wait(actor, self, timeout if timeout >= 0 else None, answer)

    def kill(self) -> None:
        """Kills the actor: ActorKilled is raised where it is blocked."""
        simcall(self.end)
        record(self, "kill")

    @staticmethod
    def kill_all() -> None:
        """Kills all actors except the caller."""
        me = maestro.current

        def kill() -> None:
            for actor in list(maestro.actors.values()):
                if actor is not me:
                    actor.end()
        simcall(kill)


def record(actor: Actor, what: str) -> None:
    """Adds what the running actor did to another one to the trace."""
    if maestro.trace and maestro.current is not None:
        maestro.trace.add(maestro.current, maestro.now, f"{what} {maestro.trace.name_of(actor)}")


def new_actor(name: str, host, function: Callable, words: tuple, parent: Actor | None) -> Actor:
    if not host.on:
        logs.write("WARNING", f"Cannot launch actor '{name}' on failed host '{host.name}'")
        raise HostFailureException("Cannot start actor on failed host.")
    return Actor(name, host, function, words, parent)


class Sleep(Waitable):
    """A sleep of an actor."""

    __slots__ = ("actor", "timer")

    def __init__(self, actor: Actor, seconds: float):
        super().__init__()
        self.actor = actor
        Wait(actor, self)
        self.timer = maestro.alarms.sleep(actor._host, seconds, self.over)
        actor.activities[self] = None

    def describe(self) -> str:
        return "a sleep"

    def over(self) -> None:
        self.actor.activities.pop(self, None)
        self.fire()

    def drop_of(self, actor: Actor) -> None:
        self.timer.stop()
        actor.activities.pop(self, None)
        self.waits.clear()


class ThisActor:
    """The functions of the module `this_actor`: what the running actor does."""

    ActorKilled = ActorKilled

    @staticmethod
    def debug(text: str) -> None:
        logs.write("DEBUG", text)

    @staticmethod
    def info(text: str) -> None:
        """Writes a line with the date, the host and the actor."""
        logs.write("INFO", text)

    @staticmethod
    def warning(text: str) -> None:
        logs.write("WARNING", text)

    @staticmethod
    def error(text: str) -> None:
        logs.write("ERROR", text)

    @staticmethod
    def execute(flops: float, priority: float = 1) -> None:
        """Blocks for an execution of `flops` flops on the actor's host."""
        execution = executions.Exec(flops, priority)
        execution.start()
        execution.wait()

    @staticmethod
    def exec_init(flops: float, *more) -> "executions.Exec":
        """An execution that isn't started yet."""
        if more:
            raise NotHere("parallel tasks")
        return executions.Exec(flops)

    @staticmethod
    def exec_async(flops: float) -> "executions.Exec":
        """Starts an execution, and returns at once."""
        return executions.Exec(flops).start()

    @staticmethod
    def parallel_execute(*words) -> None:
        raise NotHere("parallel tasks")

    @staticmethod
    def get_host():
        return maestro.current._host

    @staticmethod
    def set_host(dest) -> None:
        maestro.current.host = dest

    @staticmethod
    def sleep_for(duration: float) -> None:
        """Blocks for a number of seconds."""
        if nanoseconds(duration) > 0:
            begin = maestro.now
            block(Sleep, duration)
            if maestro.trace:
                maestro.trace.add(maestro.current, begin, "sleep")

    @staticmethod
    def sleep_until(duration: float) -> None:
        """Blocks up to a date."""
        ThisActor.sleep_for(duration - maestro.now / SECOND)

    @staticmethod
    def suspend() -> None:
        """Blocks the actor until another one resumes it."""
        def hold(actor: Actor) -> None:
            actor.suspended = actor.delayed = True
            actor.value = actor.error = None
        record(maestro.current, "suspend")
        block(hold)

    @staticmethod
    def yield_() -> None:
        """Lets the other actors of this date run first."""
        simcall(int)

    @staticmethod
    def exit() -> None:
        """Ends the actor."""
        maestro.current.doomed = maestro.current.dying = True
        raise ActorKilled()

    @staticmethod
    def on_exit(function: Callable[[bool], Any]) -> None:
        """Calls the function when the actor ends, with whether it was killed."""
        simcall(maestro.current.exits.append, function)

    @staticmethod
    def get_pid() -> int:
        return maestro.current.pid

    @staticmethod
    def get_ppid() -> int:
        return maestro.current.ppid


this_actor = ThisActor()
