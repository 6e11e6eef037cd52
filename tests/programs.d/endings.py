"""How runs of programs end, and their traces: endings.py PYTHON PROGRAM. The last line is `N passed, M failed`."""

import os
import signal
import subprocess
import sys
import tempfile
import time
import unittest
import uuid
from pathlib import Path

TOP = Path(__file__).resolve().parents[2]
sys.path.insert(0, str(TOP / "python"))
PYTHON, PROGRAM = sys.argv[1:3]
MARK = "SIMGRID_REPLAY_TEST"

PLATFORM = """
from simgrid_replay.s4u import *
from simgrid_replay.s4u import this_actor
import os, sys
e = Engine(sys.argv)
zone = NetZone.create_full_zone("z")
hosts = [zone.create_host(f"h{i}", 1e9) for i in range(3)]
link = LinkInRoute(zone.create_link("l", 1e8).set_latency(1e-3))
for a in range(3):
    for b in range(a):
        zone.add_route(hosts[a].netpoint, hosts[b].netpoint, None, None, [link], True)
"""


class Done:
    """A program that has ended, and what processes it left."""

    def __init__(self, text, *options, program=PROGRAM, interrupt=False, seconds=100, workers="40", script=None):
        with tempfile.TemporaryDirectory(prefix="endings-") as folder:
            path = Path(folder) / "program.py"
            path.write_text(PLATFORM + text)
            mark = uuid.uuid4().hex
            environment = {**os.environ, "PYTHONPATH": f"{TOP}/python:{os.environ.get('PYTHONPATH', '')}", "SIMGRID_REPLAY": program, MARK: mark,
                           "SIMGRID_REPLAY_WORKERS": workers, "PYTHONDONTWRITEBYTECODE": "1"}
            words = [PYTHON, "-u", "-m", "simgrid_replay.s4u", *options, str(path)] if script is None else [PYTHON, "-u", str(path)]
            # (a shell starts what it runs in the background with interrupts ignored)
            process = subprocess.Popen(words, env=environment, stdout=subprocess.PIPE, stderr=subprocess.PIPE, text=True,
                                       start_new_session=True, preexec_fn=lambda: signal.signal(signal.SIGINT, signal.SIG_DFL))
            if interrupt:
                assert process.stdout.readline() == "ready\n"
                time.sleep(0.2)
                os.killpg(process.pid, signal.SIGINT)
            self.out, self.err = process.communicate(timeout=seconds)
            self.status = process.returncode
            self.left = [pid for pid in os.listdir("/proc") if pid.isdecimal() and f"{MARK}={mark}".encode() in environ(pid)]


def environ(pid):
    try:
        return Path(f"/proc/{pid}/environ").read_bytes()
    except OSError:
        return b""


class Endings(unittest.TestCase):
    def check(self, done, status, *parts):
        self.assertEqual((done.status, done.left), (status, []), done.err)
        for part in parts:
            self.assertIn(part, done.err)

    def test_deadlock(self):
        done = Done("""
def waits():
    this_actor.execute(1e9)
    Mailbox.by_name("nobody").get()
def sleeps():
    this_actor.suspend()
Actor.create("a", hosts[0], waits)
Actor.create("b", hosts[1], sleeps)
e.run()
""")
        self.check(done, 6, "Deadlock detected", "Actor 1 (a@h0): waiting for a message at mailbox nobody",
                   "Actor 2 (b@h1): waiting for being resumed", "simgrid_replay.s4u: deadlock at 1.000000")
        self.assertNotIn("Traceback", done.err)

    def test_exception(self):
        done = Done("""
def fails():
    this_actor.sleep_for(1)
    raise LookupError("not found")
Actor.create("a", hosts[0], fails)
Actor.create("b", hosts[1], this_actor.sleep_for, 5)
e.run()
""")
        self.check(done, 1, "in fails", "LookupError: not found")

    def test_exception_in_on_exit(self):
        self.check(Done("""
def a():
    this_actor.on_exit(lambda failed: 1 / 0)
Actor.create("a", hosts[0], a)
e.run()
"""), 1, "ZeroDivisionError")

    def test_missing(self):
        text = 'Actor.create("a", hosts[0], this_actor.execute, 1e9)\ne.run()\n'
        self.check(Done(text, program="/nowhere/simgrid_replay"), 3, "/nowhere/simgrid_replay can't be started: No such file")
        self.check(Done(text, program="/bin/false"), 3, "ended with status 1 while actors were running")

    def test_killed(self):
        self.check(Done("""
def kills():
    this_actor.sleep_for(1)
    from simgrid_replay.s4u.rounds import maestro
    os.kill(maestro.bridge.process.pid, 9)
    this_actor.sleep_for(1)
Actor.create("a", hosts[0], kills)
e.run()
"""), 3, "was ended by signal 9")

    def test_interrupt(self):
        self.check(Done("""
def goes_on():
    this_actor.execute(1e6)
    print("ready")
    while True:
        this_actor.execute(1e6)
Actor.create("a", hosts[0], goes_on)
e.run()
""", interrupt=True), -signal.SIGINT, "KeyboardInterrupt")

    def test_not_here(self):
        self.check(Done('Actor.create("a", hosts[0], this_actor.execute, 1e9, 0.5)\ne.run()\n'), 3, "NotHere: priority 0.5")
        self.check(Done('hosts[0].create_disk("d", 1, 1)\n'), 3, "NotHere: disks")

    def test_no_worker(self):
        self.check(Done("""
def many():
    for each in [this_actor.exec_async(1e9) for _ in range(9)]:
        each.wait()
Actor.create("a", hosts[0], many)
e.run()
""", workers="4"), 3, "no worker is free for activities on host h0: use --workers for more")

    def test_no_route(self):
        self.check(Done("""
alone = zone.create_host("alone", 1e9)
Actor.create("a", hosts[0], lambda: Mailbox.by_name("m").put(1, 10))
Actor.create("b", alone, lambda: Mailbox.by_name("m").get())
e.run()
"""), 3, "no route from")


class Runs(unittest.TestCase):
    def test_several_in_a_process(self):
        done = Done("""
def run():
    Actor.create("a", Host.by_name("h0"), this_actor.execute, 1e9)
    Engine.instance.run()
    print(Engine.clock)
run()
e = Engine([])
zone = NetZone.create_full_zone("z")
zone.create_host("h0", 2e9)
run()
""", script=True)
        self.assertEqual((done.out, done.err, done.left), ("1.0\n0.5\n", "", []))

    def test_run_until(self):
        done = Done("""
Actor.create("a", hosts[0], this_actor.execute, 3e9)
for date in (1, 2.5, -1):
    e.run_until(date)
    print(e.clock)
""", script=True)
        self.assertEqual((done.out, done.err), ("1.0\n2.5\n3.0\n", ""))

    def test_many_at_one_date(self):
        """1,200 executions and messages start and complete together, in the order of SimGrid: the trace of a date takes several writes."""
        done = Done("""
order = []
def one(i):
    this_actor.execute(1e6)
    order.append(i)
def sends(i):
    Mailbox.by_name(f"m{i}").put(i, 1000)
def gets(i):
    order.append(Mailbox.by_name(f"m{i}").get())
for i in range(1000):
    Actor.create(f"one{i}", hosts[0], one, i)
for i in range(200):
    Actor.create(f"s{i}", hosts[1], sends, i)
    Actor.create(f"g{i}", hosts[2], gets, i)
e.run()
print(order == [*reversed(range(200)), *reversed(range(1000))])
print(f"{e.clock:.6f}")
""", workers="8000", script=True, seconds=300)
        self.assertEqual((done.out, done.err), ("True\n1.000000\n", ""))


class Traces(unittest.TestCase):
    def test_tools_read_it(self):
        """A trace names the actors, and each tool takes it."""
        with tempfile.TemporaryDirectory(prefix="endings-") as folder:
            trace = f"{folder}/trace.txt"
            done = Done("""
m = Mutex()
def worker(i):
    box = Mailbox.by_name(str(i))
    this_actor.execute(box.get())
    with m:
        this_actor.sleep_for(0.5)
    if i:
        this_actor.set_host(hosts[0])
        this_actor.execute(1e9)
def boss():
    for i in range(2):
        Mailbox.by_name(str(i)).put(2e9, 1e8)
    other = Actor.create("worker", hosts[2], worker, 2)
    Mailbox.by_name("2").put_async(1e9, 1e6).wait()
    other.join()
Actor.create("boss", hosts[0], boss)
for i in range(2):
    Actor.create("worker", hosts[1], worker, i)
e.run()
""", "--trace", trace)
            self.assertEqual((done.status, done.err, done.left), (0, "", []))
            text = Path(trace).read_text()
            # The latency times 13.01, and the bytes at 0.97 of the bandwidth over 1.05.
            self.assertIn("[h0:boss:(1) 1.095484228] send worker 100000000 1.095484228\n", text)
            self.assertRegex(text, r"\[h1:worker:\(2\) [0-9.]+\] recv boss ")
            self.assertRegex(text, r"\[h0:boss:\(1\) [0-9.]+\] join worker-4.h0 ")
            self.assertRegex(text, r"Simulation time [0-9.]+\n\Z")
            for tool, *options in (("gantt", "-o", f"{folder}/chart.svg"), ("usage",), ("totable",), ("report", "-o", f"{folder}/r.html")):
                told = subprocess.run([sys.executable, "-B", TOP / "tools" / tool, trace, *options], capture_output=True, text=True)
                self.assertEqual((told.returncode, told.stderr), (0, ""), tool)
            from simgrid_replay import Reader
            actors = {action.actor.name for action in Reader(text.splitlines())}
            self.assertEqual(actors, {"boss", "worker", "worker-3", "worker-4", "worker-3.h0", "worker-4.h0"})


class Counted(unittest.TextTestResult):
    passed = 0

    def addSuccess(self, test):
        super().addSuccess(test)
        self.passed += 1


def main():
    names = sys.argv[3:]
    loader = unittest.TestLoader()
    suite = loader.loadTestsFromNames(names, sys.modules[__name__]) if names else loader.loadTestsFromModule(sys.modules[__name__])
    result = unittest.TextTestRunner(sys.stdout, resultclass=Counted).run(suite)
    print(f"{result.passed} passed, {len(result.failures) + len(result.errors)} failed")
    return 0 if result.wasSuccessful() else 1


if __name__ == "__main__":
    sys.exit(main())
