"""Ping-pong: two actors send each other a message of growing size, and one measures how long a round trip takes."""
import sys

from simgrid_replay.s4u import Actor, Engine, Mailbox, this_actor

SIZES = (1, 10**3, 10**6, 10**8)


def ping():
    there, back = Mailbox.by_name("there"), Mailbox.by_name("back")
    for size in SIZES:
        begin = Engine.clock
        there.put("ping", size)
        back.get()
        print(f"{size:>10} bytes: {Engine.clock - begin:.6f} s a round")


def pong():
    there, back = Mailbox.by_name("there"), Mailbox.by_name("back")
    for size in SIZES:
        there.get()
        back.put("pong", size)


engine = Engine(sys.argv)
engine.load_platform("cluster.xml")
Actor.create("ping", engine.host_by_name("node0"), ping)
Actor.create("pong", engine.host_by_name("node1"), pong)
engine.run()
this_actor.info("all is done")
