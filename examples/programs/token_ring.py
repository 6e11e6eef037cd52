"""A token ring: the token passes the ring three times, and each actor adds its number to it."""
import sys

from simgrid_replay.s4u import Actor, Engine, Mailbox, this_actor

SIZE, ROUNDS, BYTES = 6, 3, 10**6


def member(number):
    mine, following = Mailbox.by_name(f"ring{number}"), Mailbox.by_name(f"ring{(number + 1) % SIZE}")
    if number == 0:
        following.put(0, BYTES)
    for turn in range(ROUNDS):
        token = mine.get() + number
        if number == 0:
            this_actor.info(f"round {turn + 1}: the token is {token}")
            if turn + 1 == ROUNDS:
                break
        following.put(token, BYTES)


engine = Engine(sys.argv)
engine.load_platform("cluster.xml")
for number in range(SIZE):
    Actor.create(f"member{number}", engine.host_by_name(f"node{number}"), member, number)
engine.run()
print(f"{ROUNDS * SIZE} messages took {Engine.clock:.6f} s")
