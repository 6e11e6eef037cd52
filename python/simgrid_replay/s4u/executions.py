"""Executions. The trace doesn't show their remaining work, so each host computes how its executions share it."""

from .bridge import Job
from .errors import CancelException, HostFailureException, NotHere, TimeoutException
from .rounds import SECOND, Wait, Waitable, answer, block, maestro, simcall

MOST_FLOPS = 10**15


class Exec(Waitable):
    """An execution on a host."""

    __slots__ = ("flops", "left", "priority", "actor", "_host", "state", "job", "held", "rate")

    def __init__(self, flops: float, priority: float = 1):
        super().__init__()
        self.flops = self.left = float(flops)
        self.priority, self.actor, self._host = priority, maestro.current, maestro.current._host
        self.state, self.job, self.held, self.rate = "INITED", None, False, 0.0

    @property
    def rank(self) -> tuple:
        mirror = self._host.mirror
        date, number = mirror.touched
        return 1, date, 1, number, -mirror.executions.get(self, 0)

    def describe(self) -> str:
        return f"an execution on {self._host.name}"

    # What the maestro does -------------------------------------------------------------------------------------------

    def begin(self) -> None:
        if not self._host.on:
            self.state, self.failure = "FAILED", HostFailureException("Host is off")
            return
        self.state = "STARTED"
        self.put()
        self.actor.activities[self] = None

    def put(self) -> None:
        """Starts the remaining work on the host."""
        priority = self.priority
        if priority != int(priority) or not 1 <= priority <= 1000:
            raise NotHere(f"priority {priority}: they are whole numbers from 1 to 1,000")
        amount = round(self.left * self._host.scale)
        if amount > MOST_FLOPS:
            raise NotHere(f"an execution of {self.left:g} flops: at most 10^15")
        text = f"compute {amount}" if priority == 1 else f"compute {amount} {int(priority)}"
        self.job = maestro.bridge.start(Job(self, self._host.index, text), next(maestro.numbers))
        self._host.mirror.enter(self)

    def completed(self) -> None:
        self._host.mirror.leave(self)
        self.left, self.state = 0.0, "FINISHED"
        self.actor.activities.pop(self, None)
        self.fire()

    def stop(self, state: str, failure: Exception) -> bool:
        """Ends a running execution before its time."""
        if self.state != "STARTED":
            return False
        maestro.bridge.cancel(self.job)
        self._host.mirror.leave(self)
        self.actor.activities.pop(self, None)
        self.state, self.failure = state, failure
        return True

    def drop_of(self, actor) -> None:
        if self.stop("CANCELED", CancelException("Execution Canceled")):
            maestro.after[0].append(self.fire)

    abandon = drop_of

    def fail(self) -> None:
        """Its host was turned off."""
        if self.stop("FAILED", HostFailureException("Host failed")):
            self.fire()

    def move(self, host) -> None:
        if self.state == "STARTED":
            self._host.mirror.leave(self)
            maestro.bridge.cancel(self.job)
            self._host = host
            self.put()
        else:
            self._host = host

    def restart(self) -> None:
        """Restarts the remaining work, since its host's speed has changed."""
        maestro.bridge.cancel(self.job)
        self._host.mirror.leave(self)
        self.put()

    def hold(self) -> None:
        if self.state == "STARTED" and not self.held:
            self.held = True
            self._host.mirror.leave(self)
            maestro.bridge.suspend(self.job)

    def go_on(self) -> None:
        if self.held:
            self.held = False
            self._host.mirror.enter(self)
            maestro.bridge.resume(self.job)

    def await_by(self, actor, timeout: float | None) -> None:
        if self.state in ("FINISHED", "FAILED", "CANCELED"):
            answer(actor, None, self.failure)
        else:
            Wait(actor, self, timeout, self.late)

    def late(self, actor) -> None:
        answer(actor, None, TimeoutException("Timeouted"))

    def test_now(self) -> bool:
        return self.state in ("FINISHED", "FAILED", "CANCELED")

    def left_now(self) -> float:
        if self.state == "STARTED":
            self._host.mirror.update()
        return self.left

    # What programs call ----------------------------------------------------------------------------------------------

    def start(self) -> "Exec":
        """Starts the execution, and returns at once."""
        simcall(self.begin)
        return self

    def wait(self) -> "Exec":
        """Blocks until the execution has completed or failed."""
        return self.wait_for(-1)

    def wait_for(self, timeout: float) -> "Exec":
        """Blocks until the execution has completed or failed. After `timeout` seconds TimeoutException is raised, and the
        execution continues."""
        if self.state == "INITED":
            self.start()
        begin = maestro.now
        block(self.await_by, timeout if timeout >= 0 else None)
        if maestro.trace:
            flops = round(self.flops)
            maestro.trace.add(maestro.current, begin, f"compute {flops}")
        return self

    def test(self) -> bool:
        """Whether the execution has completed or failed."""
        if self.state == "INITED":
            self.start()
        return simcall(self.test_now)

    def cancel(self) -> "Exec":
        """Ends the execution."""
        simcall(self.drop_of, None)
        return self

    def suspend(self) -> "Exec":
        """Suspends the execution."""
        simcall(self.hold)
        return self

    def resume(self) -> "Exec":
        """Resumes a suspended execution."""
        simcall(self.go_on)
        return self

    @property
    def remaining(self) -> float:
        """The remaining flops."""
        return simcall(self.left_now)

    @property
    def remaining_ratio(self) -> float:
        """The remaining part, from 1 at the start to 0."""
        return self.remaining / self.flops if self.flops else 0.0

    @property
    def host(self):
        """The host. Setting it moves the execution."""
        return self._host

    @host.setter
    def host(self, host) -> None:
        simcall(self.move, host)


class Mirror:
    """How the executions of a host share it: by their priorities, each at most as fast as a core."""

    __slots__ = ("host", "executions", "last", "ratio", "touched")

    def __init__(self, host):
        self.host, self.executions, self.last, self.ratio = host, {}, 0, 1.0
        self.touched = (-1, 0)    # the date of the last change, and the number of the first one at that date

    def touch(self) -> None:
        """Notes that an execution begins or ends on the host."""
        if self.touched[0] != maestro.now:
            self.touched = maestro.now, next(maestro.numbers)

    def update(self) -> None:
        """Updates the remaining work of each execution."""
        now = maestro.now
        if now != self.last:
            past, self.last = (now - self.last) / SECOND, now
            if self.executions:
                self.share()
                for execution in self.executions:
                    execution.left = max(0.0, execution.left - execution.rate * past)

    def share(self) -> None:
        core = self.host.speed * self.ratio
        left, rest = core * self.host.core_count, list(self.executions)
        if len(rest) == 1:
            rest[0].rate = core
            return
        while rest:
            level = left / sum(execution.priority for execution in rest)
            full = [execution for execution in rest if core <= level * execution.priority] or rest
            for execution in full:
                execution.rate = min(core, level * execution.priority)
                left -= execution.rate
            rest = [] if full is rest else [execution for execution in rest if execution not in full]

    def load(self) -> float:
        self.share()
        return float(sum(execution.rate for execution in self.executions))

    def set_ratio(self, ratio: float) -> None:
        self.update()
        self.ratio = ratio

    def enter(self, execution: Exec) -> None:
        self.update()
        self.touch()
        self.executions[execution] = next(maestro.numbers)

    def leave(self, execution: Exec) -> None:
        self.update()
        self.touch()
        self.executions.pop(execution, None)
