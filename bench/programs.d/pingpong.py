"""Two actors send each other N messages."""
import sys
import time

from simgrid import Actor, Engine, Host, Mailbox

COUNT = int(sys.argv[2])


def ping():
    there, back = Mailbox.by_name("there"), Mailbox.by_name("back")
    for number in range(COUNT // 2):
        there.put(number, 1000)
        back.get()


def pong():
    there, back = Mailbox.by_name("there"), Mailbox.by_name("back")
    for number in range(COUNT // 2):
        there.get()
        back.put(number, 1000)


engine = Engine(sys.argv)
engine.load_platform(sys.argv[1])
Actor.create("ping", Host.by_name("node0"), ping)
Actor.create("pong", Host.by_name("node1"), pong)
wall, own = time.perf_counter(), time.process_time()
engine.run()
print(f"{COUNT} messages, {engine.clock:.6f} s simulated, {time.perf_counter() - wall:.6f} s, {time.process_time() - own:.6f} s of processor")
