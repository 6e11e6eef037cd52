"""python/simgrid_replay: runs from Python, their results, and their faults; a platform may be a file, a text or a dictionary."""

import io
import json
import os
import subprocess
import sys
import unittest
from decimal import Decimal
from pathlib import Path
from unittest import mock

import common
from common import ACTOR, HOST, ROOT, ZONE, example, tool

import simgrid_replay

FIRST = [ROOT / "examples/first" / name for name in ("platform.toml", "deployment.toml", "script.txt")]
POWERED = {"zone": [{"id": "z", "routing": "Full"}], "host": [{"id": "h1", "zone": "z", "speed": "1Gf", "power": [100000, 120000, 200000]}]}
ALONE = {"actor": [{"name": "p0", "host": "h1", "function": "replay"}]}


@mock.patch.dict(os.environ, {"SIMGRID_REPLAY": str(common.PROGRAM)})
class Runs(unittest.TestCase):
    def test_files_texts_and_dictionaries(self):
        """One second of computing on each, and 200 W of it."""
        for platform, deployment, script in (FIRST, [str(path) for path in FIRST], (ZONE + HOST, ACTOR, "p0 compute 1e9\n"),
                                             (POWERED, ALONE, ["p0 compute 1e9"])):
            result = simgrid_replay.run(platform, deployment, script)
            self.assertEqual((result.status, result.word, result.seconds), (0, "completed", Decimal(1)))
            row, = result.rows
            self.assertEqual(row, ("h1", "p0", 1, Decimal(1), "compute", ("1000000000",), Decimal(1), "done"))
        self.assertEqual(result.joules, {"h1": Decimal(200)})

    def test_endings(self):
        result = simgrid_replay.run(POWERED, ALONE, ["p0 compute 5e8", "p0 recv p0"])
        self.assertEqual((result.status, result.word, result.seconds), (6, "deadlock", Decimal("0.5")))
        self.assertEqual([(row.actor, row.action, row.outcome) for row in result.blocked], [("p0", "recv", "blocked")])
        result = simgrid_replay.run(POWERED, ALONE, ["p0 suspend p0"])
        self.assertEqual((result.word, result.suspended, result.blocked), ("deadlock", ["p0"], []))
        result = simgrid_replay.run(POWERED, ALONE, ["p0 sleep 1"] * 9, budget=1e1, quiet=True)
        self.assertEqual((result.status, result.events, list(result.rows)), (8, 10, []))

    def test_faults_are_explained(self):
        for arguments, status, line, part in (
                ((POWERED, ALONE, ["p0 yield", "p0 jump"]), 5, "script line 2: unknown action", "script.txt:2:4"),
                (({"zone": []}, ALONE, []), 3, "platform: no root zone (table 1, row 0, key 0)", "there is no zone"),
                (("nowhere.toml", ALONE, []), 10, "cannot read the platform", "no file `nowhere.toml`"),
                ((POWERED, ALONE), 4, "deployment: replay actor under run (row 1)", "use the command `replay`")):
            with self.assertRaises(simgrid_replay.Fault) as caught:
                simgrid_replay.run(*arguments)
            fault = caught.exception
            self.assertEqual((fault.status, fault.line), (status, line))
            self.assertIn(part, fault.explanation)
        with self.assertRaises(simgrid_replay.Fault) as caught:
            simgrid_replay.run(POWERED, ALONE, ["p0 yield", "p0 jump"])
        self.assertEqual([row.action for row in caught.exception.result.rows], ["yield"])

    def test_one_line_is_no_text(self):
        for script in ("p0 compute 1e9", "p0 send p1 1e6"):
            with self.assertRaisesRegex(ValueError, "a script of one line is a list of one"):
                simgrid_replay.run(POWERED, ALONE, script)
        with self.assertRaisesRegex(ValueError, "a text has more than one line"):
            simgrid_replay.run('zone = [{id = "z"}]', ALONE, ["p0 yield"])

    def test_where_the_program_is(self):
        with mock.patch.dict(os.environ, {"SIMGRID_REPLAY": ""}):
            self.assertEqual(simgrid_replay.find_program(), str(ROOT / "simgrid_replay"))


class Tables(unittest.TestCase):
    """One table of a trace: `rows` and `to_pandas()` have what `totable` has."""

    def texts(self):
        for name in ("ring", "star_cluster", "master_worker"):
            yield example(name)
        yield (ROOT / "examples/failures/dies.trace").read_text()
        yield "".join(f"[h1:a:(1) {date}.000000001] isend b 7 0.000000000\n" for date in (1, 2)) + (
            "[h2:b:(2) 3.000000000] recv a 7 1.000000000\ndeadlock at 10000000000.000000000\nblocked [h2:b:(2)] recv a\n")
        # Dates and amounts that have no place in 64 bits.
        yield f"[h1:a:(1) 1.000000000] compute {10**19} 1.000000000\n[h1:a:(1) 10000000001.000000000] sleep 10000000000.000000000\n"

    def test_rows(self):
        """A row is what stands in its line."""
        for text in self.texts():
            lines = [line for line in text.splitlines() if line.startswith("[")]
            rows = simgrid_replay.Rows(simgrid_replay.Reader(io.StringIO(text), late=True))
            with self.subTest(lines[0]):
                self.assertEqual([f"[{row.host}:{row.actor}:({row.number}) {row.date:f}] {' '.join((row.action, *row.words))} "
                                  f"{row.outcome if row.seconds is None else format(row.seconds, 'f')}" for row in rows], lines)
                self.assertEqual(rows[-1:], [rows[len(rows) - 1]])

    def test_pandas(self):
        """The DataFrame is the table that `totable` writes."""
        python = next((python for python in (sys.executable, "/usr/bin/python3") if not subprocess.run(
            [python, "-c", "import pandas"], capture_output=True).returncode), None)
        self.assertIsNotNone(python, "pandas isn't here: tests/setup installs it")
        for text in self.texts():
            table = tool("totable", given=text.encode()).stdout.decode()
            done = subprocess.run([python, "-B", "-c", FRAMES, str(ROOT / "python")], input=json.dumps([text, table]), text=True, capture_output=True)
            self.assertEqual((done.returncode, done.stdout), (0, "the same\n"), done.stderr)

    def test_memory(self):
        """So many rows take so much memory: 50 bytes each, and no object."""
        line = "[h1:a:(1) 1.000000000] compute 5 0.000000000\n"
        code = ("import io, resource, sys; sys.path.insert(0, sys.argv[1]); import simgrid_replay\n"
                "before = resource.getrusage(resource.RUSAGE_SELF).ru_maxrss\n"
                f"rows = simgrid_replay.Rows(simgrid_replay.Reader(({line!r} for _ in range(200_000)), late=True))\n"
                "print(len(rows), resource.getrusage(resource.RUSAGE_SELF).ru_maxrss - before)")
        done = subprocess.run([sys.executable, "-B", "-c", code, str(ROOT / "python")], text=True, capture_output=True)
        count, kilobytes = map(int, done.stdout.split())
        self.assertEqual(count, 200_000)
        self.assertLess(kilobytes, 200_000 * 100 // 1024)


FRAMES = """
import io, json, sys
sys.path.insert(0, sys.argv[1])
import pandas, simgrid_replay
text, table = json.load(sys.stdin)
frame = simgrid_replay.Rows(simgrid_replay.Reader(io.StringIO(text), late=True)).to_pandas()
wanted = pandas.read_csv(io.StringIO(table))
assert list(frame.columns) == list(wanted.columns), frame.columns
for name in wanted:
    if pandas.api.types.is_numeric_dtype(wanted[name]):
        pandas.testing.assert_series_equal(frame[name].astype(float), wanted[name].astype(float))
    else:
        assert [*map(str, frame[name].astype(object).fillna(""))] == [*map(str, wanted[name].fillna(""))], name
print("the same")
"""


if __name__ == "__main__":
    unittest.main()
