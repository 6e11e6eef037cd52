"""Random programs, for SimGrid's Python and for ours: random_program.py FOLDER PLATFORM SEED,SEED,.. [--cfg=..]

For each seed the process forks, and the child runs the program of that seed; FOLDER/SEED.txt gets its log.
What an actor does is drawn from a generator of its own, so it depends on the seed and on what the calls return alone.
"""

import os
import random
import sys

import simgrid
from simgrid import Actor, Barrier, Comm, Engine, Host, Mailbox, Mutex, Semaphore, this_actor

HOSTS, ACTORS, STEPS, BOXES, END = 6, 5, 12, 3, 60.0
SPEED = 1e9
FAULTS = (simgrid.NetworkFailureException, simgrid.TimeoutException, simgrid.CancelException, simgrid.HostFailureException)


class World:
    """What the actors of a program share."""

    def __init__(self, seed):
        self.seed = seed
        draw = random.Random(f"world {seed}")
        self.hosts = [f"node-{number}.simgrid.org" for number in range(HOSTS)]
        self.boxes = [f"box{number}" for number in range(BOXES)]
        self.mutexes, self.semaphores = [Mutex(), Mutex()], [Semaphore(1), Semaphore(2)]
        self.barrier = Barrier(2)
        self.actors, self.kept, self.names, self.ended, self.talking = [], [], 0, set(), set()
        # What the programs of a seed are made of: some have no kills, some no objects, ..
        self.weights = [draw.choice((0, 1, 2, 4)) for _ in Player.STEPS]
        self.weights[0] += 1

    def name(self):
        self.names += 1
        return f"actor{self.names}"


class Player:
    """An actor, which draws what it does."""

    def __init__(self, world, name, steps):
        self.world, self.name, self.steps = world, name, steps
        self.draw = random.Random(f"{world.seed} {name}")
        self.comms, self.children = [], []

    def __call__(self):
        this_actor.on_exit(self.end)
        for step in range(self.steps):
            kind = self.draw.choices(Player.STEPS, self.world.weights)[0]
            this_actor.info(f"{step} {kind.__name__}")
            if kind in Player.TALK:
                self.world.talking.add(self.name)
            try:
                told = kind(self)
            except FAULTS as fault:
                told = type(fault).__name__
            if told is not None:
                this_actor.info(f"{step} {told}")

    def end(self, failed):
        self.world.ended.add(self.name)
        this_actor.info(f"exit {failed}")

    def child(self):
        """A child that is alive, or None: SimGrid breaks off where an actor moves that has ended."""
        self.children = [child for child in self.children if child.name not in self.world.ended]
        return self.draw.choice(self.children) if self.children else None

    # The steps

    def seconds(self, most=2.0):
        return round(self.draw.uniform(0.01, most), 6)

    def flops(self):
        return self.draw.randrange(10**7, 3 * 10**9)

    def bytes(self):
        return self.draw.choice((0, 1, 1000, self.draw.randrange(10**6, 10**8)))

    def box(self):
        return Mailbox.by_name(self.draw.choice(self.world.boxes))

    def host(self):
        return Host.by_name(self.draw.choice(self.world.hosts))

    def keep(self, comm, what):
        self.comms.append((comm, what))
        self.world.kept.append(comm)

    def execute(self):
        this_actor.execute(self.flops(), self.draw.choice((1, 1, 1, 2, 3)))

    def sleep(self):
        this_actor.sleep_for(self.seconds())

    def put(self):
        self.box().put(self.name, self.bytes(), self.seconds(3))
        return "sent"

    def put_async(self):
        self.keep(self.box().put_async(self.name, self.bytes()), None)

    def get_async(self):
        self.keep(*self.box().get_async())

    def get(self):
        comm, what = self.box().get_async()
        self.world.kept.append(comm)
        comm.wait_for(self.seconds(3))
        return f"got {what.get()}"

    def wait(self):
        if self.comms:
            comm, what = self.comms.pop(self.draw.randrange(len(self.comms)))
            comm.wait_for(self.seconds(3))
            return f"got {what.get()}" if what else "sent"

    def wait_any(self):
        if self.comms:
            comms, self.comms = self.comms, []
            place = Comm.wait_any_for([comm for comm, _ in comms], self.seconds(3))
            if place >= 0:
                del comms[place]
            self.comms = comms
            return f"any {place}"

    def test(self):
        if self.comms:
            place = self.draw.randrange(len(self.comms))
            done = self.comms[place][0].test()
            if done:
                del self.comms[place]
            return f"test {done}"

    def cancel(self):
        if self.comms:
            comm, _ = self.comms.pop()
            comm.cancel()

    def exec_async(self):
        execution = this_actor.exec_async(self.flops())
        this_actor.sleep_for(self.seconds())
        left = round(execution.remaining / 1e6)
        how = self.draw.randrange(4)
        if how == 0:
            execution.cancel()
            return f"cancelled at {left}"
        if how == 1:
            return f"test {execution.test()} at {left}"
        if how == 2:
            execution.wait_for(self.seconds())
        else:
            execution.wait()
        return f"done, {left} before"

    def lock(self):
        mutex = self.draw.choice(self.world.mutexes)
        mutex.lock()
        this_actor.info("locked")
        this_actor.sleep_for(self.seconds())
        mutex.unlock()

    def try_lock(self):
        mutex = self.draw.choice(self.world.mutexes)
        if not mutex.try_lock():
            return "not locked"
        this_actor.execute(self.flops())
        mutex.unlock()

    def acquire(self):
        semaphore = self.draw.choice(self.world.semaphores)
        if semaphore.acquire_timeout(self.seconds()):
            return "no token"
        this_actor.info(f"token, {semaphore.capacity} left")
        this_actor.sleep_for(self.seconds())
        semaphore.release()

    def meet(self):
        self.world.barrier.wait()

    def create(self):
        if self.steps > 3:
            name = self.world.name()
            child = Actor.create(name, self.host(), Player(self.world, name, self.steps // 2))
            self.world.actors.append(child)
            self.children.append(child)
            return f"created {name}"

    def join(self):
        other = self.draw.choice(self.world.actors)
        if other.pid != this_actor.get_pid():
            other.join(self.seconds(4))
            return f"joined {other.name}"

    def kill(self):
        child = self.child()
        if child:
            child.kill()
            return f"killed {child.name}"

    def suspend(self):
        child = self.child()
        # In SimGrid the messages of an actor that is suspended stand still, and here they go on.
        if child and child.name not in self.world.talking:
            child.suspend()
            this_actor.sleep_for(self.seconds())
            child.resume()
            return f"resumed {child.name}"

    def migrate(self):
        this_actor.set_host(self.host())
        return f"now on {this_actor.get_host().name}"

    def migrate_child(self):
        child = self.child()
        if child:
            child.host = self.host()

    def give_way(self):
        this_actor.yield_()

    STEPS = [execute, sleep, put, put_async, get_async, get, wait, wait_any, test, cancel, exec_async, lock, try_lock, acquire, meet, create,
             join, kill, suspend, migrate, migrate_child, give_way]
    TALK = [put, put_async, get_async, get]


def last():
    """Ends what is blocked for good."""
    this_actor.sleep_for(END)
    this_actor.info("the end")
    Actor.kill_all()


def play(seed, platform, options):
    engine = Engine([sys.argv[0], *options])
    engine.load_platform(platform)
    world = World(seed)
    for _ in range(ACTORS):
        name = world.name()
        host = Host.by_name(random.Random(f"{seed} {name} host").choice(world.hosts))
        world.actors.append(Actor.create(name, host, Player(world, name, STEPS)))
    Actor.create("last", Host.by_name(world.hosts[0]), last).daemonize()
    engine.run()


def main():
    folder, platform, seeds, *options = sys.argv[1:]
    for seed in map(int, seeds.split(",")):
        child = os.fork()
        if child == 0:
            log = os.open(os.path.join(folder, f"{seed}.txt"), os.O_WRONLY | os.O_CREAT | os.O_TRUNC, 0o644)
            os.dup2(log, 2)
            try:
                play(seed, platform, options)
            except BaseException as fault:
                sys.stderr.write(f"FAULT {type(fault).__name__} {fault}\n")
            sys.stderr.flush()
            os._exit(0)
        os.waitpid(child, 0)


if __name__ == "__main__":
    main()
