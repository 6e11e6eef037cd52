"""N messages, and by how many KiB the memory of this process grew from the first tenth on."""
import resource
import sys

from simgrid import Actor, Engine, Host, Mailbox

COUNT, seen = int(sys.argv[2]), []


def sender():
    box = Mailbox.by_name("box")
    for number in range(COUNT):
        box.put(number, 1000)


def receiver():
    box = Mailbox.by_name("box")
    for number in range(COUNT):
        box.get()
        if number in (COUNT // 10, COUNT - 1):
            seen.append(resource.getrusage(resource.RUSAGE_SELF).ru_maxrss)


engine = Engine(sys.argv)
engine.load_platform(sys.argv[1])
Actor.create("sender", Host.by_name("node0"), sender)
Actor.create("receiver", Host.by_name("node1"), receiver)
engine.run()
print(f"{COUNT} messages, {seen[1] - seen[0]} KiB more than after a tenth of them")
