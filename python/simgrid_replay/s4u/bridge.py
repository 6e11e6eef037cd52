"""Runs activities on the program simgrid_replay: starts each with a line of the script, and reads its end from the trace.

An activity is an execution, a sleep or a message. It is done by actors of the program that have no other task, called
*workers*: one for an execution or a sleep, two for a message. An idle worker has suspended itself.

Python has control while the program waits for its next script line. It then waits for a worker whose activity has just
completed; such a worker is *in hand*. All that Python decides at a date is one text, a *wave*: a worker in hand kills, suspends,
resumes and creates others, and then each worker gets the line of its next activity. The answer is the trace up to the next
date at which activities complete.
"""

import os
import re
import select
import socket
import subprocess
from collections.abc import Iterable, Sequence
from typing import Protocol

from .errors import Stopped

# The trace comes by a socket that keeps the program's writes apart. One write has at most WRITE bytes; a longer trace of one
# date takes several, of which all but the last have more than WRITE less one line.
WRITE, LINE = 1 << 16, 512
COMPLETED = re.compile(rb"\(([0-9]+)\) ([0-9.]+)\] (?:compute|send|sleep) ")
YIELDED = re.compile(rb"\] yield ")
# A run can start so many workers, since the program has a context for each actor that starts and takes none back.
CONTEXTS = 4096
BUDGET = 10**9
NEW, RUNNING, SUSPENDED, OVER = range(4)


class Owner(Protocol):
    """The owner of an activity, which learns that it completed."""

    def completed(self) -> None: ...


class Worker:
    """An actor of the program that runs activities. Hosts are numbers here."""

    __slots__ = ("name", "host", "job")

    def __init__(self, name: str, host: int):
        self.name, self.host, self.job = name, host, None


class Job:
    """An activity on the program: `compute AMOUNT` or `sleep TIME` on a host, or an amount that is sent to the host `to`."""

    __slots__ = ("owner", "host", "text", "to", "number", "state", "started", "workers")

    def __init__(self, owner: Owner, host: int, text: str, to: int | None = None):
        self.owner, self.host, self.text, self.to = owner, host, text, to
        self.number, self.state, self.started, self.workers = 0, NEW, False, ()


def rows_of(workers: Sequence[Worker], hosts: Sequence[str]) -> str:
    """The deployment: only the first worker starts with the run."""
    lines = []
    for number, worker in enumerate(workers):
        start = "start = false\n" if number else ""
        lines.append(f'[[actor]]\nname = "{worker.name}"\nhost = "{hosts[worker.host]}"\nfunction = "replay"\n{start}')
    return "".join(lines)


class Bridge:
    """A run of the program. `now` is its date in nanoseconds, `running` the number of activities that may complete."""

    def __init__(self, program: str, platform: str, hosts: Sequence[str], counts: Sequence[int]):
        """Starts the program. `counts` are the numbers of workers by host; the first host has one more, which begins."""
        self.hosts = hosts
        self.workers: list[Worker] = []
        self.fresh: list[list[Worker]] = []
        self.idle: list[list[Worker]] = [[] for _ in hosts]
        for host, count in enumerate(counts):
            own = [Worker(f"w{len(self.workers) + number}", host) for number in range(1, count + (1 if host else 2))]
            self.workers += own
            self.fresh.append(own[::-1])
        first = self.fresh[0].pop()
        self.hand, self.new, self.orders = [first], [], []
        self.started, self.running, self.now = 1, 0, 0
        self.early: list[bytes] = []
        self.said = b""
        self.start_program(program, platform, rows_of(self.workers, hosts))

    def start_program(self, program: str, platform: str, deployment: str) -> None:
        files = [memory_file(name, text) for name, text in (("platform", platform), ("deployment", deployment))]
        self.socket, theirs = socket.socketpair(socket.AF_UNIX, socket.SOCK_SEQPACKET)
        command = [program, "replay", *(f"/proc/self/fd/{file}" for file in files), "-", "--budget", str(BUDGET)]
        try:
            self.process = subprocess.Popen(command, stdin=subprocess.PIPE, stdout=theirs.fileno(), stderr=subprocess.PIPE,
                                            pass_fds=files, bufsize=0)
        except OSError as fault:
            self.socket.close()
            raise Stopped(f"{program} can't be started: {fault.strerror}") from None
        finally:
            theirs.close()
            for file in files:
                os.close(file)
        self.pipe, self.receive = self.process.stdin.fileno(), self.socket.recv
        os.set_blocking(self.pipe, False)

    # What is decided at a date ---------------------------------------------------------------------------------------

    def start(self, job: Job, number: int) -> Job:
        """Starts an activity with the next wave. Those that complete at one date are ordered by their numbers."""
        job.number = number
        self.new.append(job)
        self.running += 1
        return job

    def cancel(self, job: Job) -> None:
        """Ends an activity. If the program has started it, its worker is lost for the rest of the run."""
        if job.state == OVER:
            return
        self.running -= job.state != SUSPENDED
        job.state = OVER
        if job.started:
            first, *others = job.workers
            self.orders.append(f"kill {first.name}")
            first.job = None
            # The receiver learns of the failure at this date, and fetches its next line.
            for other in others:
                other.job = None
                self.hand.append(other)

    def suspend(self, job: Job) -> None:
        if job.state == RUNNING or job.state == NEW:
            if job.started:
                self.orders.append(f"suspend {job.workers[0].name}")
            job.state = SUSPENDED
            self.running -= 1

    def resume(self, job: Job) -> None:
        if job.state == SUSPENDED:
            if job.started:
                job.state = RUNNING
                self.orders.append(f"resume {job.workers[0].name}")
            else:
                job.state = NEW
                if job not in self.new:
                    self.new.append(job)
            self.running += 1

    # Waves -----------------------------------------------------------------------------------------------------------

    def pick(self, host: int, lines: list[str], issuer: str) -> Worker:
        """A worker of a host that isn't in hand: an idle one, else a new one."""
        if self.idle[host]:
            worker = self.idle[host].pop()
            lines.append(f"{issuer} resume {worker.name}\n")
            return worker
        if not self.fresh[host] or self.started == CONTEXTS:
            raise Stopped(self.out_of_workers(host))
        worker = self.fresh[host].pop()
        self.started += 1
        lines.append(f"{issuer} create {worker.name}\n")
        return worker

    def out_of_workers(self, host: int) -> str:
        if self.started == CONTEXTS:
            return (f"all {CONTEXTS:,} contexts of a run are in use: each simultaneous activity needs one, and each kill, "
                    "cancellation or timeout of an activity uses one up")
        return f"no worker is free for activities on host {self.hosts[host]}: use --workers for more"

    def wave(self) -> str:
        """The lines of all decisions at this date."""
        hand, new = self.hand, self.new
        self.hand, self.new = [], []
        issuer = hand[0].name
        lines = [f"{issuer} {order}\n" for order in self.orders]
        if lines:
            self.orders.clear()
        free: dict[int, list[Worker]] = {}
        for worker in reversed(hand):
            own = free.get(worker.host)
            if own is None:
                free[worker.host] = [worker]
            else:
                own.append(worker)
        last = []
        for job in new:
            if job.state != NEW:
                continue
            job.state, job.started = RUNNING, True
            own = free.get(job.host)
            worker = own.pop() if own else self.pick(job.host, lines, issuer)
            worker.job = job
            if job.to is None:
                job.workers = (worker,)
                last.append(f"{worker.name} {job.text}\n")
            else:
                own = free.get(job.to)
                other = own.pop() if own else self.pick(job.to, lines, issuer)
                other.job = job
                job.workers = (worker, other)
                last.append(f"{worker.name} send {other.name} {job.text}\n{other.name} recv {worker.name}\n")
        for own in free.values():
            for worker in own:
                last.append(f"{worker.name} suspend {worker.name}\n")
                self.idle[worker.host].append(worker)
        lines += last
        return "".join(lines)

    def write(self, text: str) -> None:
        """Writes script lines, and reads the trace meanwhile, since the program may wait for room in the pipe."""
        data = text.encode()
        try:
            done = os.write(self.pipe, data)
        except (BlockingIOError, BrokenPipeError):
            done = 0
        rest = memoryview(data)[done:] if done < len(data) else b""
        while rest:
            try:
                rest = rest[os.write(self.pipe, rest):]
            except BlockingIOError:
                if select.select([self.socket], [self.pipe], [])[0]:
                    piece = self.socket.recv(2 * WRITE)
                    if not piece:
                        return
                    self.early.append(piece)
            except BrokenPipeError:
                return

    def read(self) -> bytes:
        """The next output of the program."""
        piece = self.early.pop(0) if self.early else self.receive(2 * WRITE)
        if not piece:
            raise Stopped(self.ending())
        self.said = piece
        return piece

    def advance(self) -> list[Job]:
        """Advances to the next date at which activities complete, and returns these."""
        self.write(self.wave())
        ended: list[Job] = []
        while True:
            piece = self.read()
            found = COMPLETED.findall(piece)
            if found:
                self.take(found, ended)
            if ended:
                if len(piece) <= WRITE - LINE:
                    break
                self.take_rest(ended)
                break
        self.running -= len(ended)
        return ended

    def take(self, found: Iterable[tuple[bytes, bytes]], ended: list[Job]) -> None:
        """Takes completed activities, and their workers in hand. The line of the receiver of a message isn't needed."""
        date = b""
        for number, date in found:
            job = self.workers[int(number) - 1].job
            job.state = OVER
            for worker in job.workers:
                worker.job = None
                self.hand.append(worker)
            ended.append(job)
        self.now = int(date.replace(b".", b""))

    def take_rest(self, ended: list[Job]) -> None:
        """Reads further if the trace of this date may have another write.

        Each worker in hand yields: the program executes these lines only after all workers with completed activities have
        fetched a line.
        """
        asked = 0
        while True:
            self.write("".join(f"{worker.name} yield\n" for worker in self.hand[asked:]))
            asked = len(self.hand)
            piece = self.read()
            self.take(found, ended) if (found := COMPLETED.findall(piece)) else None
            if YIELDED.search(piece):
                return

    # The end ---------------------------------------------------------------------------------------------------------

    def finish(self) -> list[str]:
        """Ends all workers at this date, and returns the last lines of the program: the end of the run, and energies."""
        me, *others = self.hand
        fresh = {worker for some in self.fresh for worker in some}
        # Each worker in hand fetches a line before any of these lines is executed.
        lines = [f"{worker.name} suspend {worker.name}\n" for worker in others]
        lines += [f"{me.name} kill {worker.name}\n" for worker in self.workers if worker is not me and worker not in fresh]
        self.write("".join(lines) + f"{me.name} kill {me.name}\n")
        text = b"".join(self.early)
        while piece := self.socket.recv(2 * WRITE):
            text = text[-WRITE:] + piece
        status = self.process.wait()
        self.close()
        last = [line for line in text.decode().splitlines() if line and not line.startswith("[")]
        if status:
            raise Stopped(f"simgrid_replay ended with status {status}: {' '.join(last[:1])}")
        return last

    def ending(self) -> str:
        """How the program ended unexpectedly."""
        status = self.process.wait()
        faults = self.process.stderr.read().decode("ascii", "replace").strip()
        lines = [line for line in self.said.decode("ascii", "replace").splitlines() if line and not line.startswith("[")]
        cause = faults.splitlines()[-1] if faults else lines[0] if lines else "it wrote nothing more"
        how = f"was ended by signal {-status}" if status < 0 else f"ended with status {status}"
        return f"simgrid_replay {how} while actors were running: {cause}"

    def close(self) -> None:
        """Ends the program if it is still running."""
        if self.process.poll() is None:
            self.process.kill()
            self.process.wait()
        for stream in (self.process.stdin, self.process.stderr, self.socket):
            stream.close()


def memory_file(name: str, text: str) -> int:
    """A file that is only in memory."""
    file = os.memfd_create(name)
    with os.fdopen(os.dup(file), "wb") as out:
        out.write(text.encode())
    os.lseek(file, 0, os.SEEK_SET)
    return file
