"""A pipeline of three stages that adapts: if the host of a stage fails, the stage starts again on a spare one.

A stage acknowledges a part only once the next stage has it; so what was lost with a host is sent again.
"""
import sys

from simgrid_replay.s4u import Actor, Engine, Host, Mailbox, NetworkFailureException, TimeoutException, this_actor

PARTS, STAGES = 8, 3
SPARES = ["node4", "node5"]


def deliver(box, part):
    """Sends a part until it is taken."""
    while True:
        try:
            return Mailbox.by_name(box).put(part, 10**6, 5)
        except (NetworkFailureException, TimeoutException):
            this_actor.info(f"sends part {part} again")


def source():
    for part in range(PARTS):
        deliver("stage1", part)


def stage(number, last):
    while last["taken"] < PARTS:
        if last["part"] is None:
            last["part"] = Mailbox.by_name(f"stage{number}").get()
        this_actor.execute(1e9)
        deliver(f"stage{number + 1}", last["part"])
        last["part"], last["taken"] = None, last["taken"] + 1


def guard(number):
    """Starts a stage, and starts it again on a spare host whenever it dies. What it has taken is kept here."""
    last, host = {"part": None, "taken": 0}, f"node{number}"
    while last["taken"] < PARTS:
        worker = Actor.create(f"stage{number}", Host.by_name(host), stage, number, last)
        worker.join()
        if last["taken"] < PARTS:
            host = SPARES.pop(0)
            this_actor.info(f"stage {number} died, and continues on {host}")


def sink():
    parts = [Mailbox.by_name(f"stage{STAGES + 1}").get() for _ in range(PARTS)]
    print(f"parts {parts} arrived by {Engine.clock:.6f} s")


engine = Engine(sys.argv)
engine.load_platform("cluster.xml")
Host.by_name("node2").set_state_profile("4.5 0", -1)
for name, function, *words in (("source", source), ("sink", sink), *((f"guard{n}", guard, n) for n in range(1, STAGES + 1))):
    Actor.create(name, Host.by_name("node0"), function, *words)
engine.run()
