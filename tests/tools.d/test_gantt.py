"""tools/gantt: lanes, colours, axis and tool tips of the chart; and the reading of traces, which gantt, usage and totable share."""

import io
import random
import re
import subprocess
import sys
import unittest
import xml.etree.ElementTree as ElementTree

import traces
from common import ROOT, Folder, example, module, tool

GANTT = module("gantt")
SVG = "{http://www.w3.org/2000/svg}"


def chart(text, *words):
    done = tool("gantt", *words, given=text.encode())
    assert done.returncode == 0, done.stderr
    return ElementTree.fromstring(done.stdout)


def lanes(svg):
    return [group for group in svg.iter(SVG + "g") if group.get("class") == "lane"]


def tips(element):
    return [line for title in element.iter(SVG + "title") for line in (title.text or "").split("\n")]


class Charts(unittest.TestCase):
    def test_lanes_stand_in_the_order_of_the_numbers(self):
        svg = chart(example("master_worker"))
        self.assertEqual([lane.get("id") for lane in lanes(svg)], ["actor-1", "actor-2", "actor-3"])
        self.assertEqual([[text.text for text in lane.iter(SVG + "text")] for lane in lanes(svg)],
                         [["master", "desk"], ["w1", "fast"], ["w2", "slow"]])

    def test_every_line_has_a_tool_tip(self):
        for name in ("first", "ring", "star_cluster", "master_worker"):
            with self.subTest(name):
                text = example(name)
                svg = chart(text)
                told = tips(svg)
                for line in text.splitlines():
                    self.assertIn(line, told)

    def test_places_and_colours(self):
        """w1 receives for 0.101 s, computes for 0.5 s, waits for the master until 1.121 s, and so on, on an axis up to 6.161 s."""
        lane = lanes(chart(example("master_worker")))[1]
        ground, *bars = [rect for rect in lane.iter(SVG + "rect") if rect.get("class") != "mark"]
        left, plot = float(ground.get("x")), float(ground.get("width"))
        found = [(bar.get("class"), round((float(bar.get("x")) - left) / plot * 6.161, 2)) for bar in bars[:5]]
        self.assertEqual(found, [("kind-recv", 0.0), ("kind-compute", 0.1), ("kind-recv-waiting", 0.6), ("kind-recv", 1.12),
                                 ("kind-compute", 1.22)])
        self.assertEqual([bar.get("fill") for bar in bars[:3]], ["#8a5fbf", "#2f6fb5", "url(#kind-recv-waiting)"])

    def test_legend_and_axis(self):
        svg = chart(example("master_worker"))
        texts = [text.text for text in svg.iter(SVG + "text")]
        for name in ("computing", "sending", "receiving", "send waits for the receiver", "recv waits for the sender"):
            self.assertEqual(texts.count(name), 1)
        self.assertNotIn("wait for a mutex", texts)
        self.assertEqual(texts.count("time [s]"), 2)
        self.assertIn("end 6.161 s", texts)
        short = example("first").replace("1.000000000", "0.000001500")
        self.assertIn("time [µs]", [text.text for text in chart(short).iter(SVG + "text")])

    def test_many_actors_are_legible(self):
        for actors in (4, 16, 200, 1000):
            with self.subTest(actors):
                text = "".join(f"[h{i}:p{i}:({i}) 1.000000000] compute 5 1.000000000\n" for i in range(1, actors + 1))
                svg = chart(text)
                self.assertEqual(len(lanes(svg)), actors)
                tops = [float(lane.find(SVG + "rect").get("y")) for lane in lanes(svg)]
                labels = [lane.find(SVG + "text") for lane in lanes(svg)]
                height = tops[1] - tops[0]
                self.assertTrue(all(10 <= float(label.get("font-size")) <= height - 4 for label in labels))
                self.assertGreater(float(svg.get("height")), tops[-1] + height)

    def test_small_pieces_are_put_together(self):
        text = "".join(f"[h:a:(1) {i // 1000}.{i % 1000:03d}000000] compute 5 0.001000000\n" for i in range(1, 20001))
        svg = chart(text)
        bars = [rect for rect in svg.iter(SVG + "rect") if rect.get("class") == "kind-compute"]
        self.assertLess(len(bars), 2000)
        self.assertGreater(len(bars), 500)

    def test_blocked_and_refused(self):
        text = traces.GOOD + "[h1:a:(1) 1.000000000] wait refused\ndeadlock at 3.000000000\nblocked [h1:a:(1)] recv b\n"
        svg = chart(text)
        blocked, = [rect for rect in svg.iter(SVG + "rect") if rect.get("class") == "kind-blocked"]
        self.assertIn("blocked [h1:a:(1)] recv b", tips(blocked))
        self.assertIn("refused", [text.text for text in svg.iter(SVG + "text")])

    def test_blocked_at_the_end(self):
        """Who blocks at the very end has a mark."""
        svg = chart(traces.GOOD + "deadlock at 1.000000000\nblocked [h1:a:(1)] recv b\n")
        mark, = [rect for rect in svg.iter(SVG + "rect") if rect.get("class") == "mark"]
        self.assertEqual((mark.get("fill"), tips(mark)), ("#e00000", ["blocked [h1:a:(1)] recv b"]))

    def test_failed(self):
        """A call that failed has no duration: its bar begins where its actor was free, and one in its call is a mark."""
        text = traces.GOOD + "[h1:a:(1) 2.500000000] compute 5 failed\n[h1:a:(1) 2.500000000] compute 5 failed\nSimulation time 2.500000000\n"
        svg = chart(text)
        bar, = [rect for rect in svg.iter(SVG + "rect") if rect.get("class") == "kind-failed-compute"]
        self.assertIn("[h1:a:(1) 2.500000000] compute 5 failed: the host h1 was off", tips(bar))
        whole, = [rect for rect in svg.iter(SVG + "rect") if rect.get("class") == "kind-compute"]
        self.assertAlmostEqual(float(bar.get("width")) / float(whole.get("width")), 1.5, 2)
        self.assertEqual(len([rect for rect in svg.iter(SVG + "rect") if rect.get("class") == "mark"]), 1)

    def test_whose_failure_it_was(self):
        """a's request fails since b is killed, c's message for another reason, and c's computation with its host."""
        text = ("[h1:a:(1) 0.000000000] isend b 5 0.000000000\n[h3:c:(3) 1.000000000] sleep 1.000000000\n[h3:c:(3) 1.000000000] kill b 0.000000000\n"
                "[h1:a:(1) 1.000000000] wait failed\n[h3:c:(3) 2.000000000] send a 7 failed\n[h1:a:(1) 2.000000000] recv c 7 failed\n"
                "[h3:c:(3) 3.000000000] compute 9 failed\nSimulation time 3.000000000\n")
        told = tips(chart(text))
        for line in ("[h1:a:(1) 1.000000000] wait failed: b was killed by c",
                     "[h3:c:(3) 2.000000000] send a 7 failed: a link between c and a, or the host of one of them, was off",
                     "[h3:c:(3) 3.000000000] compute 9 failed: the host h3 was off"):
            self.assertIn(line, told)
        texts = [text.text for text in chart(text).iter(SVG + "text")]
        self.assertEqual([texts.count(name) for name in ("computed until its host failed", "message failed in transfer, or while waited for")], [1, 1])

    def test_suspended(self):
        """Of the 2 s of a compute, 1 s in the middle is held; the stretch behind is computing again."""
        text = ("[g:b:(2) 0.500000000] sleep 0.500000000\n[g:b:(2) 0.500000000] suspend a 0.000000000\n[g:b:(2) 1.500000000] sleep 1.000000000\n"
                "[g:b:(2) 1.500000000] resume a 0.000000000\n[h:a:(1) 2.000000000] compute 1 2.000000000\nSimulation time 2.000000000\n")
        bars = [rect for rect in lanes(chart(text))[0].iter(SVG + "rect")][1:]
        self.assertEqual([bar.get("class") for bar in bars], ["kind-compute", "kind-held", "kind-compute"])
        self.assertAlmostEqual(float(bars[1].get("width")), 2 * float(bars[0].get("width")), 1)

    def test_very_many_pieces(self):
        """More pieces than a chart holds, on few lanes: the picture is as wide, and the long one among them is seen."""
        text = "".join(f"[h:a:(1) {i // 10**5}.{i % 10**5:05d}0000] compute 5 0.000010000\n" for i in range(1, 200001))
        text += "[h:a:(1) 4.000000000] sleep 2.000000000\nSimulation time 4.000000000\n"
        svg = chart(text)
        classes = [rect.get("class") for rect in svg.iter(SVG + "rect") if rect.get("class", "").startswith("kind")]
        self.assertGreater(classes.count("kind-compute"), 400)
        self.assertLess(len(classes), 2000)
        longest, = [rect for rect in svg.iter(SVG + "rect") if rect.get("class") == "kind-sleep"]
        self.assertGreater(float(longest.get("width")), 400)
        shared = [re.fullmatch("([0-9,]+) actions?, ([0-9.]+) to ([0-9.]+) s: computing 100 %", line) for line in tips(svg) if " actions, " in line]
        self.assertEqual(sum(int(match[1].replace(",", "")) for match in shared), 200000)
        self.assertIn("Small actions share bars", " ".join(text.text for text in svg.iter(SVG + "text")))

    def test_shared_bars_have_the_shares_of_their_kinds(self):
        """Of each 10 us an actor computes 2 and sleeps 5, and waits for 3; the picture and the tips have these shares everywhere."""
        text, now = "", 0
        for _ in range(20000):
            for action, took in (("compute 5", 2000), ("sleep", 5000), ("barrier", 3000)):
                now += took
                text += f"[h:a:(1) {now // 10**9}.{now % 10**9:09d}] {action} 0.{took:09d}\n"
        svg = chart(text)
        heights = {}
        for group in lanes(svg)[0].iter(SVG + "g"):
            if group.get("class") is None:
                for rect in group.iter(SVG + "rect"):
                    heights.setdefault(rect.get("class"), []).append(float(rect.get("height")) * float(rect.get("width")))
        whole = sum(map(sum, heights.values()))
        for kind, share in (("kind-compute", 0.2), ("kind-sleep", 0.5), ("kind-barrier", 0.3)):
            self.assertAlmostEqual(sum(heights[kind]) / whole, share, 1)
        told = [line for line in tips(svg) if " actions, " in line]
        self.assertTrue(all("computing" in line and "sleeping" in line and "waiting" in line for line in told[:-1]))

    def test_marks_that_are_dense_are_left_out(self):
        """Of 20,000 requests none is drawn; one that was refused among them is, and so is one that stands alone."""
        text = "".join(f"[h:a:(1) {i // 10**4}.{i % 10**4:04d}00000] isend b 5 0.000000000\n" for i in range(20000))
        text += "[h:a:(1) 1.999900000] wait refused\n[h:a:(1) 4.000000000] compute 5 2.000100000\n[h:a:(1) 4.000000000] isend b 5 0.000000000\n"
        marks = [rect for rect in chart(text).iter(SVG + "rect") if rect.get("class") == "mark"]
        self.assertEqual([rect.get("fill") for rect in marks], ["#e00000", "#2a9d6f"])

    def test_size(self):
        """However many actions there are, a chart has at most 10 MB."""
        text = "".join(f"[h{a}:p{a}:({a}) {i}.{a:09d}] {('compute 5', 'sleep', 'barrier')[(i + a) % 3]} 1.000000000\n"
                       for i in range(1, 1201) for a in range(1, 65))
        self.assertLess(len(tool("gantt", given=text.encode()).stdout), 10**7)

    def test_other_actors(self):
        """A join that takes time is waiting, a create is a mark; who is suspended at the end is drawn as blocked; energy isn't drawn."""
        text = ("[h1:a:(1) 0.000000000] create b 0.000000000\n[h2:b:(2) 1.000000000] compute 5 1.000000000\n"
                "[h1:a:(1) 1.000000000] join b 1.000000000\n[h1:a:(1) 1.000000000] suspend c 0.000000000\n"
                "deadlock at 3.000000000\nsuspended [h2:c:(3)]\nenergy h1 20.000000000000\n")
        svg = chart(text)
        join, = [rect for rect in svg.iter(SVG + "rect") if rect.get("class") == "kind-join"]
        self.assertIn("[h1:a:(1) 1.000000000] join b 1.000000000", tips(join))
        end, = [rect for rect in svg.iter(SVG + "rect") if rect.get("class") == "kind-blocked"]
        self.assertIn("suspended [h2:c:(3)]", tips(end))

    def test_a_part_of_the_time(self):
        svg = chart(example("master_worker"), "--from", "1", "--to", "2.5", "--width", "800", "--title", "<part>")
        self.assertEqual(svg.get("width"), "800")
        self.assertEqual(svg.find(SVG + "title").text, "<part>")
        for lane in lanes(svg):
            ground, *bars = list(lane.iter(SVG + "rect"))
            for bar in bars:
                self.assertGreaterEqual(float(bar.get("x")) + 1, float(ground.get("x")))
                self.assertLessEqual(float(bar.get("x")) + float(bar.get("width")), float(ground.get("x")) + float(ground.get("width")) + 1)


class Shared(unittest.TestCase):
    """What gantt, usage and totable have in common."""

    TOOLS = ("gantt", "usage", "totable")

    def test_a_bad_line_is_told_and_nothing_is_drawn(self):
        for index, (text, told) in enumerate(traces.BAD):
            for name in self.TOOLS if index % 5 == 0 else ("gantt",):
                with self.subTest(text, tool=name):
                    folder = Folder(trace=text)
                    out = folder.path / "out"
                    done = tool(name, "trace", *(["-o", "out"] if name == "gantt" else []), folder=folder.name)
                    self.assertEqual(done.returncode, 1)
                    # A table has the rows in front of the bad line.
                    self.assertLess(done.stdout.count(b"\n"), text.count("\n") + 1 if name == "totable" else 1)
                    self.assertIn(told, done.stderr.decode())
                    self.assertFalse(out.exists())

    def test_an_empty_trace(self):
        for name in ("gantt", "usage"):
            done = tool(name, given=b"Simulation time 1.000000000\n")
            self.assertEqual(done.returncode, 1)
            self.assertIn(b"--quiet", done.stderr)

    def test_words_and_files(self):
        folder = Folder(trace=traces.GOOD)
        for words in (["nowhere"], [folder.name], ["--unknown"], ["a", "b"]):
            for name in self.TOOLS:
                with self.subTest(words, tool=name):
                    done = tool(name, *words, folder=folder.name)
                    self.assertEqual(done.returncode, 2)
                    self.assertEqual(done.stdout, b"")
        for words in (["--width", "x"], ["--from", "-1"], ["--from", "2", "--to", "1"], ["-o", "no/where"]):
            self.assertEqual(tool("gantt", "trace", *words, folder=folder.name).returncode, 2)
        for path in (ROOT / "tools").iterdir():
            if path.suffix == ".py" or path.is_dir():
                continue
            self.assertIn(b"exit status:", tool(path.name, "--help").stdout)

    def test_spoiled_traces(self):
        """What isn't a trace is reported by its line, and what is one is drawn and counted, whatever its numbers."""
        usage, totable, rng, bad = module("usage"), module("totable"), random.Random("spoiled"), 0
        texts = [example(name) for name in ("ring", "star_cluster", "master_worker")]
        for _ in range(400):
            text = rng.choice(texts)
            at = rng.randrange(len(text))
            text = text[:at] + rng.choice(["", "0", "9", ".", "(", "\n", " ", "refused", "p1", "\x00", "wait", "99999999999999"]) + text[
                at + rng.choice([0, 1, 2, 30]):]
            try:
                lines = text.splitlines(keepends=True)
                drawn, used = GANTT.lanes_of(lines), usage.usage_of(lines, 5)
            except GANTT.BadTrace as told:
                self.assertRegex(str(told), "^line [0-9]+: ")
                bad += 1
                continue
            ElementTree.fromstring(GANTT.Chart(drawn).svg())
            usage.table(used, "both", 5)
            totable.write_table(GANTT.Reader(lines, all_met=True), totable.Csv(True), True, io.StringIO())
        self.assertGreater(bad, 100)

    def test_output_that_cannot_be_written(self):
        for name in self.TOOLS:
            with open("/dev/full", "wb") as full, self.subTest(name):
                done = subprocess.run([sys.executable, "-B", ROOT / "tools" / name], input=example("ring").encode(), stdout=full,
                                      stderr=subprocess.PIPE)
                self.assertEqual(done.returncode, 2)
                self.assertEqual(done.stderr.count(b"\n"), 1, done.stderr)

    def test_when_messages_meet(self):
        """On links where nothing is shared, what follows the meeting of a message is its latency and its bytes, to the nanosecond."""
        messages = 0
        for number in range(30):
            folder = Folder(**traces.fatpipe(number))
            for action in GANTT.Reader(folder.replayed().stdout.decode().splitlines()):
                if action.call.word in ("send", "recv"):
                    messages += 1
                    self.assertEqual(action.end - action.met, traces.LATENCY + int(action.call.amount) * traces.BYTE, action.line)
        self.assertGreater(messages, 200)


if __name__ == "__main__":
    unittest.main()
