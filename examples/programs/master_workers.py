"""A master and workers that ask for work: a slow worker gets fewer tasks, although nobody knows that it is slow."""
import random
import sys

from simgrid_replay.s4u import Actor, Engine, Host, Mailbox, this_actor

TASKS, WORKERS = 30, 5


def master():
    draw, box = random.Random(7), Mailbox.by_name("master")
    for number in range(TASKS):
        worker = box.get()
        Mailbox.by_name(worker).put((number, draw.uniform(0.5e9, 2e9)), 10**6)
    for _ in range(WORKERS):
        Mailbox.by_name(box.get()).put(None, 0)
    this_actor.info(f"{TASKS} tasks are handed out")


def worker(name, slowness):
    done, box = [], Mailbox.by_name(name)
    while True:
        Mailbox.by_name("master").put(name, 100)
        task = box.get()
        if task is None:
            break
        number, flops = task
        this_actor.execute(flops * slowness)
        done.append(number)
    this_actor.info(f"did {len(done)} tasks: {done}")


engine = Engine(sys.argv)
engine.load_platform("cluster.xml")
Actor.create("master", Host.by_name("node0"), master)
for place in range(1, WORKERS + 1):
    Actor.create(f"worker{place}", Host.by_name(f"node{place}"), worker, f"worker{place}", 4 if place == 2 else 1)
engine.run()
print(f"{TASKS} tasks took {Engine.clock:.6f} s")
