"""Traces for the tests: bad ones with the number of the bad line, and runs of which it is known when messages meet."""

import random

GOOD = "[h1:a:(1) 1.000000000] compute 5 1.000000000\n"

# A trace, and the message about its bad line.
BAD = [
    ("x\n", "line 1"), (GOOD + "\n", "line 2"), (GOOD + GOOD.replace("compute 5", "jump"), "line 2"), (GOOD[:30], "line 1"),
    (GOOD.replace("(1)", "(0)"), "line 1"), (GOOD.replace("1.000000000]", "1.0]"), "line 1"), (GOOD.replace("compute 5", "compute"), "line 1"),
    (GOOD + GOOD.replace("] compute 5 1.", "] sleep 2."), "line 2: it began before the actor was free"),
    (GOOD + GOOD.replace("(1) 1.", "(2) 0."), "line 2: the date falls"),
    (GOOD + GOOD.replace("h1", "h2"), "line 2: actor 1 was a on h1 before"), ("blocked [h1:a:(1)] wait\n", "line 1"),
    (GOOD + "Simulation time 1.000000000\n" + GOOD, "line 3: not allowed after the ending line"),
    (GOOD + "Simulation time 0.500000000\n", "line 2: the run ends before its last action"),
    (GOOD + "deadlock at 1.000000000\nblocked [h1:a:(1)] jump\n", "line 3"), (GOOD + "energy h1 1.000000000000\n", "line 2"),
    (GOOD + "Simulation time 1.000000000\nenergy h1 1.0\n", "line 3"), ("suspended [h1:a:(1)]\n", "line 1"), (GOOD.replace("h1", "h\u00e9"), "line 1"),
    ("\0\xff\n", "line 1"), ("2 actors, 30 events\n", "line 1"), (GOOD * 2, "line 2: it began before")]

LATENCY, BYTE = 1_000, 1_000     # nanoseconds, and nanoseconds a byte: 1 MBps


def fatpipe(number, actors=4):
    """A platform on which a message of n bytes takes LATENCY + n * BYTE whatever else is running, and a script with messages."""
    rng = random.Random(f"meetings {number}")
    hosts = [f"h{i}" for i in range(actors)]
    platform = ('zone = [{id = "z", routing = "Star"}]\nhost = [' + ", ".join(f'{{id = "{h}", zone = "z", speed = "1Gf"}}' for h in hosts)
                + ']\nlink = [{id = "l", bandwidth = "1MBps", latency = "1us", sharing_policy = "FATPIPE"}]\nspoke = ['
                + ", ".join(f'{{zone = "z", child = "{h}", up = ["l"]}}' for h in hosts) + "]\n")
    deployment = "".join(f'[[actor]]\nname = "a{i}"\nhost = "h{i}"\nfunction = "replay"\n' for i in range(actors))
    lines = []
    for _ in range(rng.randint(3, 40)):
        a, b = rng.sample(range(actors), 2)
        lines.append(f"a{rng.choice([a, b])} compute {rng.randint(1, 10**5)}")
        send, receive = rng.choice(["send", "send", "isend"]), rng.choice(["recv", "recv", "irecv"])
        lines += [f"a{a} {send} a{b} {rng.randint(0, 50)}", f"a{b} {receive} a{a}"]
        lines += [f"a{a} wait"] * (send == "isend" and rng.random() < 0.5) + [f"a{b} wait"] * (receive == "irecv" and rng.random() < 0.7)
    return {"p": platform, "d": deployment, "s": "\n".join(lines) + "\n"}


def ring(actors, steps):
    """The files of a ring on a star."""
    hosts = range(1, actors + 1)
    platform = ('zone = [{id = "z", routing = "Star"}]\nhost = [\n' + "".join(
        f'{{id = "h{h}", zone = "z", speed = "1Gf"}},\n' for h in hosts) + "]\nlink = [\n" + "".join(
        f'{{id = "l{h}", bandwidth = "{1 + h * 7 % 9}MBps", latency = "10us", sharing_policy = "SPLITDUPLEX"}},\n' for h in hosts)
        + "]\nspoke = [\n" + "".join(f'{{zone = "z", child = "h{h}", up = ["l{h}_UP"]}},\n' for h in hosts) + "]\n")
    deployment = "".join(f'[[actor]]\nname = "p{h}"\nhost = "h{h}"\nfunction = "replay"\n' for h in hosts)
    script = "".join(f"p{h} compute {10**6 * (1 + h * s % 7)}\np{h} isend p{h % actors + 1} 1000\np{h} recv p{(h - 2) % actors + 1}\np{h} wait\n"
                     for s in range(steps) for h in hosts)
    return {"p": platform, "d": deployment, "s": script}
