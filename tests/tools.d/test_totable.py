"""tools/totable: every line of a trace as a row, from which the line can be written again."""

import csv
import io
import json
import unittest
from pathlib import Path

import traces
from common import ROOT, Folder, example, tool


def again(row):
    """The line of the trace that a row came from."""
    # The line of a worker names its own mailbox, and the table its master.
    other = row["actor"] if (row["action"], row["other"]) == ("recv", "master") else row["other"]
    words = [row["action"], other, row["flops"] or row["bytes"]]
    took = row["duration_s"] if row["outcome"] == "done" else row["outcome"]
    text = " ".join(str(word) for word in words if word not in (None, ""))
    return f"[{row['host']}:{row['actor']}:({row['id']}) {row['end_s']}] {text} {took}"


class Tables(unittest.TestCase):
    def lines(self):
        for name in ("first", "ring", "star_cluster", "master_worker"):
            yield example(name)
        yield (ROOT / "examples/failures/dies.trace").read_text()
        for number in range(4):
            yield Folder(**traces.fatpipe(number)).replayed().stdout.decode()

    def test_rows_hold_all_of_the_lines(self):
        for text in self.lines():
            wanted = [line for line in text.splitlines() if line.startswith("[")]
            with self.subTest(wanted[0]):
                values = tool("totable", given=text.encode())
                self.assertEqual([again(row) for row in csv.DictReader(io.StringIO(values.stdout.decode()))], wanted)
                objects = tool("totable", "--json", given=text.encode()).stdout.decode().splitlines()
                self.assertEqual([again(json.loads(line)) for line in objects], wanted)

    def test_endings(self):
        text = traces.GOOD + "[h1:a:(1) 1.000000000] wait refused\ndeadlock at 3.000000000\nblocked [h1:a:(1)] recv b\n"
        *_, refused, blocked, end = [json.loads(line) for line in tool("totable", "--json", "--endings", given=text.encode()).stdout.splitlines()]
        self.assertEqual(refused["outcome"], "refused")
        self.assertEqual([blocked[key] for key in ("action", "other", "begin_s", "duration_s", "outcome")],
                         ["recv", "b", "1.000000000", "2.000000000", "blocked"])
        self.assertEqual([end[key] for key in ("line", "end_s", "outcome", "ending", "ending_line")],
                         [None, "3.000000000", None, "deadlock", "deadlock at 3.000000000"])

    def test_suspended(self):
        text = "[h1:a:(1) 1.000000000] suspend b 0.000000000\ndeadlock at 3.000000000\nsuspended [h2:b:(2)]\nenergy h1 1.000000000000\n"
        suspend, last, energy, end = [json.loads(line) for line in tool("totable", "--json", "--endings", given=text.encode()).stdout.splitlines()]
        self.assertEqual([suspend[key] for key in ("action", "other", "outcome")], ["suspend", "b", "done"])
        self.assertEqual([last[key] for key in ("action", "actor", "end_s", "outcome")], [None, "b", "3.000000000", "suspended"])
        self.assertEqual({key: value for key, value in energy.items() if value is not None}, {"host": "h1", "joules": "1.000000000000"})
        self.assertEqual(end["ending"], "deadlock")

    def test_every_ending(self):
        for line, word in (("Simulation time 1.000000000", "completed"), ("starved at 1.000000000", "starved"),
                           ("budget of 7 events used at 1.000000000", "budget used up"), ("script line 2: bad amount", "bad script line"),
                           ("no route from a to b: zone z, a to b", "no route"), ("cannot read the script", "unreadable"),
                           ("route from a to b: more than 64 links", "no route")):
            with self.subTest(line):
                done = tool("totable", "--endings", given=(traces.GOOD + line + "\n").encode())
                *_, end = csv.DictReader(io.StringIO(done.stdout.decode()))
                self.assertEqual([end[key] for key in ("end_s", "ending", "ending_line")], ["1.000000000", word, line])
                self.assertEqual(done.stderr, b"")

    def test_the_other_actor_of_a_worker_is_its_master(self):
        for form in ([], ["--json"]):
            text = tool("totable", *form, given=example("master_worker").encode()).stdout.decode()
            rows = map(json.loads, text.splitlines()) if form else csv.DictReader(io.StringIO(text))
            received = {(row["action"], row["other"]) for row in rows if row["actor"].startswith("w") and row["bytes"]}
            self.assertEqual(received, {("recv", "master")})

    def test_into_a_file(self):
        with Folder() as folder:
            done = tool("totable", "-o", "t.csv", given=example("first").encode(), folder=folder)
            self.assertEqual((done.returncode, done.stdout), (0, b""))
            self.assertEqual((Path(folder) / "t.csv").read_bytes(), tool("totable", given=example("first").encode()).stdout)
            self.assertEqual(tool("totable", "-o", "no/t.csv", given=b"", folder=folder).returncode, 2)

    def test_a_trace_without_an_end(self):
        for words in ([], ["--endings"], ["--json"]):
            done = tool("totable", *words, given=traces.GOOD.encode())
            self.assertEqual(done.returncode, 0)
            self.assertIn(b"warning: the trace has no ending line", done.stderr)

    def test_names_of_columns_tell_units(self):
        head = tool("totable", "--endings", given=traces.GOOD.encode()).stdout.decode().split("\n")[0]
        self.assertEqual(head, "line,host,actor,id,action,other,flops,bytes,begin_s,met_s,end_s,duration_s,outcome,joules,ending,ending_line")

    def test_rows_that_wait_for_the_other_side(self):
        """The receive of a message that was sent at 0 comes at 1 s, behind other rows; of the second message it never comes."""
        text = ("[h:a:(1) 0.000000000] isend b 5 0.000000000\n[h:a:(1) 0.000000000] isend b 6 0.000000000\n"
                "[h:b:(2) 1.000000000] compute 5 1.000000000\n[h:b:(2) 3.000000000] recv a 5 2.000000000\nSimulation time 3.000000000\n")
        rows = list(csv.DictReader(io.StringIO(tool("totable", given=text.encode()).stdout.decode())))
        self.assertEqual([(row["line"], row["met_s"]) for row in rows], [("1", "1.000000000"), ("2", ""), ("3", ""), ("4", "1.000000000")])

    def test_when_both_sides_were_there(self):
        rows = list(csv.DictReader(io.StringIO(tool("totable", given=example("ring").encode()).stdout.decode())))
        self.assertEqual([row["met_s"] for row in rows if row["action"] == "recv"], ["1.000000000", "1.000000000", "1.000000000"])
        self.assertEqual([row["met_s"] for row in rows if row["action"] == "compute"], [""] * 3)


if __name__ == "__main__":
    unittest.main()
