"""tools/usage: the times of actors and hosts, worked out by hand for an example, and their sums for rings."""

import csv
import io
import re
import unittest

import traces
from common import ROOT, Folder, example, module, program, tool

USAGE = module("usage")


def rows(text, *words):
    done = tool("usage", "--csv", *words, given=text.encode())
    assert done.returncode == 0, done.stderr
    return list(csv.DictReader(io.StringIO(done.stdout.decode())))


class Tables(unittest.TestCase):
    def test_master_and_workers(self):
        """Five tasks of 1 MB: three over a link of 10 MB/s, two over one of 1 MB/s; and a last message of no bytes to each."""
        master, fast, slow = rows(example("master_worker"), "--by", "actor")
        self.assertEqual([master[key] for key in ("name", "host", "sending_s", "waiting_s", "idle_s")],
                         ["master", "desk", "2.364000000", "3.797000000", "0.000000000"])
        self.assertEqual([fast[key] for key in ("computing_s", "receiving_s", "idle_s")], ["1.500000000", "0.304000000", "1.418000000"])
        self.assertEqual([slow[key] for key in ("computing_s", "receiving_s", "waiting_s")], ["4.000000000", "2.060000000", "0.101000000"])

    def test_times_add_up(self):
        for number in range(5):
            usage = USAGE.usage_of(Folder(**traces.fatpipe(number)).replayed().stdout.decode().splitlines())
            for used in usage.by_actor():
                self.assertEqual(sum(used.times), usage.reader.end)
                self.assertGreaterEqual(min(used.times), 0)
            for used in usage.by_host():
                self.assertGreaterEqual(min(used.times), 0)
                self.assertLessEqual(max(used.times), usage.reader.end)

    def test_held_time_is_no_computing(self):
        """a computes for 1 s and is suspended from 0.5 s to 1.5 s, so it takes 2 s; c suspends itself from 1 s until 3 s, and is at rest."""
        text = ("[g:b:(2) 0.500000000] sleep 0.500000000\n[g:b:(2) 0.500000000] suspend a 0.000000000\n"
                "[f:c:(3) 1.000000000] compute 5 1.000000000\n[f:c:(3) 1.000000000] suspend c 0.000000000\n"
                "[g:b:(2) 1.500000000] sleep 1.000000000\n[g:b:(2) 1.500000000] resume a 0.000000000\n"
                "[h:a:(1) 2.000000000] compute 1 2.000000000\n[g:b:(2) 3.000000000] sleep 1.500000000\n"
                "[g:b:(2) 3.000000000] resume c 0.000000000\n[f:c:(3) 3.500000000] compute 5 0.500000000\nSimulation time 3.500000000\n")
        found = {(row["of"], row["name"]): row for row in rows(text)}
        for key, computing, held, idle in ((("actor", "a"), "1.000000000", "1.000000000", "1.500000000"),
                                           (("actor", "c"), "1.500000000", "2.000000000", "0.000000000"),
                                           (("host", "h"), "1.000000000", "1.000000000", "1.500000000"),
                                           (("host", "f"), "1.500000000", "2.000000000", "0.000000000")):
            self.assertEqual([found[key][column] for column in ("computing_s", "held_s", "idle_s")], [computing, held, idle], key)
        self.assertIn("held", tool("usage", given=text.encode()).stdout.decode())
        self.assertNotIn("held", tool("usage", given=example("ring").encode()).stdout.decode())

    def test_who_is_suspended_at_the_end(self):
        """b is suspended at 1 s and never resumed: of the 3 s until the deadlock, two are held."""
        text = ("[h:b:(2) 1.000000000] compute 1 1.000000000\n[h:a:(1) 1.000000000] sleep 1.000000000\n[h:a:(1) 1.000000000] suspend b 0.000000000\n"
                "deadlock at 3.000000000\nblocked [h:a:(1)] join b\nsuspended [h:b:(2)]\n")
        _, b, _ = rows(text)
        self.assertEqual([b[key] for key in ("computing_s", "waiting_s", "held_s")], ["1.000000000", "0.000000000", "2.000000000"])

    def test_joules_of_hosts(self):
        text = traces.GOOD + "Simulation time 1.000000000\nenergy h1 1.500000000000\nenergy h2 0.250000000000\n"
        actor, first, second = rows(text)
        self.assertEqual([row["joules"] for row in (actor, first, second)], ["", "1.500000000000", "0.250000000000"])
        self.assertEqual([second[key] for key in ("name", "actors", "idle_s")], ["h2", "0", "1.000000000"])
        self.assertIn("joules", tool("usage", given=text.encode()).stdout.decode())
        self.assertNotIn("joules", tool("usage", given=example("ring").encode()).stdout.decode())

    def test_a_trace_without_an_end(self):
        self.assertIn(b"warning: the trace has no ending line", tool("usage", given=traces.GOOD.encode()).stderr)

    def test_two_actors_of_one_host(self):
        """Both compute from 0 to 2 s and from 0 to 4 s; one then waits for what never comes."""
        text = ("[h:a:(1) 2.000000000] compute 1 2.000000000\n[h:b:(2) 4.000000000] compute 3 4.000000000\n"
                "deadlock at 5.000000000\nblocked [h:a:(1)] recv b\n")
        a, b, host = rows(text)
        self.assertEqual([a["computing_s"], a["waiting_s"], b["computing_s"], b["idle_s"]], ["2.000000000", "3.000000000", "4.000000000",
                                                                                     "1.000000000"])
        self.assertEqual([host[key] for key in ("of", "name", "actors", "computing_s", "waiting_s", "idle_s")],
                         ["host", "h", "2", "4.000000000", "1.000000000", "0.000000000"])

    def test_what_took_longest(self):
        text = tool("usage", "--longest", "2", given=example("master_worker").encode()).stdout.decode()
        first, second = text.splitlines()[-2:]
        self.assertEqual(first.split(), ["master:", "send", "w2", "1000000", "2.919000000", "1.222000000", "4.141000000", "10"])
        self.assertEqual(second.split()[:4], ["w1:", "recv", "w1", "1000000"])
        self.assertNotIn("longest", tool("usage", "--longest", "0", given=example("ring").encode()).stdout.decode())

    def test_events(self):
        """A budget of as many events as are printed suffices, and one less doesn't."""
        for name in ("first", "ring", "star_cluster", "master_worker"):
            folder = ROOT / "examples" / name
            told = re.search("^([0-9,]+) events: the least budget", tool("usage", given=example(name).encode()).stdout.decode(), re.M)
            events, script = int(told[1].replace(",", "")), folder / "script.txt"
            words = ["replay" if script.exists() else "run", "--quiet", folder / "platform.toml", folder / "deployment.toml", *[script] * script.exists()]
            with self.subTest(name):
                self.assertEqual([program(*words, "--budget", str(events - less)).returncode for less in (0, 1)], [0, 8])
        folder = Folder(**traces.fatpipe(3))
        events = USAGE.usage_of(folder.replayed().stdout.decode().splitlines()).events
        self.assertEqual(folder.replayed("--budget", str(events)).returncode, 0)

    def test_a_run_without_time(self):
        self.assertIn("0.0", tool("usage", given=b"[h:a:(1) 0.000000000] yield 0.000000000\n").stdout.decode())


if __name__ == "__main__":
    unittest.main()
