"""A master gives N tasks to 100 workers in turn; a task is a message and an execution."""
import sys
import time

from simgrid import Actor, Engine, Host, Mailbox, this_actor

COUNT, WORKERS = int(sys.argv[2]), 100


def master():
    boxes = [Mailbox.by_name(f"worker{place}") for place in range(WORKERS)]
    for number in range(COUNT):
        boxes[number % WORKERS].put(1e8, 100000)
    for box in boxes:
        box.put(-1, 0)


def worker(place):
    box = Mailbox.by_name(f"worker{place}")
    while (flops := box.get()) > 0:
        this_actor.execute(flops)


engine = Engine(sys.argv)
engine.load_platform(sys.argv[1])
Actor.create("master", Host.by_name("node0"), master)
for place in range(WORKERS):
    Actor.create(f"worker{place}", Host.by_name(f"node{place + 1}"), worker, place)
wall, own = time.perf_counter(), time.process_time()
engine.run()
print(f"{COUNT} tasks, {engine.clock:.6f} s simulated, {time.perf_counter() - wall:.6f} s, {time.process_time() - own:.6f} s of processor")
