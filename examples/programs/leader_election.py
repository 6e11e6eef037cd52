"""Leader election in a ring, after Chang and Roberts: each sends its number along the ring, and drops those that are
smaller than its own. An actor whose number comes back has the greatest, and informs the others.
"""
import sys

from simgrid_replay.s4u import Actor, Engine, Mailbox, this_actor

NUMBERS = (31, 7, 58, 12, 93, 24)
sent = 0


def member(place, number):
    mine = Mailbox.by_name(f"ring{place}")
    following = Mailbox.by_name(f"ring{(place + 1) % len(NUMBERS)}")

    def tell(kind, other):
        global sent
        sent += 1
        following.put_init((kind, other), 100).detach()

    # They wake up one after another.
    this_actor.sleep_for(0.001 * place)
    tell("candidate", number)
    while True:
        kind, other = mine.get()
        if kind == "candidate" and other > number:
            tell("candidate", other)
        elif kind == "candidate" and other == number:
            this_actor.info(f"{number} is the leader")
            tell("leader", number)
        elif kind == "leader":
            if other != number:
                this_actor.info(f"follows {other}")
                tell("leader", other)
            return


engine = Engine(sys.argv)
engine.load_platform("cluster.xml")
for place, number in enumerate(NUMBERS):
    Actor.create(f"member{place}", engine.host_by_name(f"node{place}"), member, place, number)
engine.run()
print(f"{sent} messages, {Engine.clock:.6f} s")
