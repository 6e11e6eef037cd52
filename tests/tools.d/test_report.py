"""tools/report: the page holds what it should, stands alone, and is looked at in a real browser."""

import os
import re
import shutil
import struct
import subprocess
import tempfile
import unittest
import zlib
from html.parser import HTMLParser

import traces
from common import Folder, example, tool

BROWSER = next(filter(None, map(shutil.which, ("chromium", "chromium-browser"))), None)
COMPUTING = (0x2F, 0x6F, 0xB5)


def page(text, *words):
    done = tool("report", *words, given=text.encode())
    assert done.returncode == 0, done.stderr
    return done.stdout.decode()


class Tags(HTMLParser):
    """The tags of a page, with their attributes; all that are opened must be closed in order."""

    def __init__(self, text):
        super().__init__()
        self.tags, self.open = [], []
        self.feed(text)
        assert not self.open, self.open

    def handle_starttag(self, tag, attributes):
        self.tags.append((tag, dict(attributes)))
        if tag not in ("meta", "br"):
            self.open.append(tag)

    def handle_startendtag(self, tag, attributes):
        self.tags.append((tag, dict(attributes)))

    def handle_endtag(self, tag):
        assert self.open.pop() == tag, tag


def browse(folder, *words):
    """Runs the browser without a window on the page of a folder."""
    with tempfile.TemporaryDirectory(prefix="tools-browser-") as home:
        return subprocess.run([BROWSER, "--headless", "--no-sandbox", "--disable-gpu", "--hide-scrollbars", "--force-device-scale-factor=1",
                               f"--user-data-dir={home}", "--window-size=1280,1100", *words, f"file://{folder.path}/page.html"],
                              capture_output=True, timeout=180, env={**os.environ, "HOME": home})


def pixels(data):
    """The width of a PNG picture of 8 bits a colour, and its rows of (red, green, blue)."""
    assert data[:8] == b"\x89PNG\r\n\x1a\n"
    at, packed = 8, b""
    while at < len(data):
        length, kind = struct.unpack(">I4s", data[at:at + 8])
        body = data[at + 8:at + 8 + length]
        if kind == b"IHDR":
            width, height, depth, colours = struct.unpack(">IIBB", body[:10])
            assert depth == 8 and colours in (2, 6)
        packed += body if kind == b"IDAT" else b""
        at += 12 + length
    size, plain = 3 if colours == 2 else 4, zlib.decompress(packed)
    line, above, rows = width * size + 1, bytearray(width * size), []
    for y in range(height):
        kind, row = plain[y * line], bytearray(plain[y * line + 1:(y + 1) * line])
        unfilter(kind, row, above, size)
        rows.append([tuple(row[x:x + 3]) for x in range(0, len(row), size)])
        above = row
    return width, rows


def unfilter(kind, row, above, size):
    """Takes back the filter of a row of a PNG picture."""
    for x in range(len(row) if kind else 0):
        left = row[x - size] if x >= size else 0
        corner = above[x - size] if x >= size else 0
        if kind == 4:
            guess = left + above[x] - corner
            nearest = min((abs(guess - value), order, value) for order, value in enumerate((left, above[x], corner)))[2]
        else:
            nearest = {1: left, 2: above[x], 3: (left + above[x]) // 2}[kind]
        row[x] = (row[x] + nearest) & 255


def bars(rows, x):
    """The heights of the bars in the colour of computing that stand in this column of the picture."""
    heights, height = [], 0
    for row in rows + [[(0, 0, 0)] * len(rows[0])]:
        if all(abs(a - b) <= 4 for a, b in zip(row[x], COMPUTING)):
            height += 1
        elif height:
            heights.append(height)
            height = 0
    return heights


class Pages(unittest.TestCase):
    def test_the_page_stands_alone(self):
        text = page(example("star_cluster"), "--title", "<Cluster>")
        tags = Tags(text).tags
        names = {tag for tag, _ in tags}
        self.assertFalse(names & {"script", "link", "img", "iframe", "object", "embed"}, names)
        self.assertNotRegex(re.sub(r'xmlns="http://www.w3.org/2000/svg"', "", text), r"https?:|@import|src=")
        self.assertIn("<title>&lt;Cluster&gt;</title>", text)

    def test_what_it_tells(self):
        text = page(example("master_worker"))
        for part in ("The run completed", "Simulation time 6.161000000", "6.161000000 s", "2.919000000", "send w2 1000000", "3.797000000",
                     "5 MB", "5 Gf"):
            self.assertIn(part, text)
        self.assertEqual(text.count('class="lane"'), 3)

    def test_energies_and_failures(self):
        text = page("[h1:a:(1) 1.000000000] compute 5 failed\nSimulation time 1.000000000\nenergy h1 20.000000000000\nenergy h2 1.500000000000\n")
        for part in ("the host h1 was off", "What failed", "21.500000000000 J", "20.000000000000</td>", "1.500000000000</td>", ">h2<"):
            self.assertIn(part, text)
        plain = page(example("ring"))
        self.assertNotIn("What failed", plain)
        self.assertNotIn("joules", plain)

    def test_endings(self):
        for ending, part in (("deadlock at 3.000000000\nblocked [h1:a:(1)] recv b", "Deadlock"), ("starved at 3.000000000", "Starvation"),
                             ("budget of 5 events used at 3.000000000", "The budget of events was used up"), ("", "The trace has no ending"),
                             ("script line 2: bad amount", "A fault ended the run"), ("Simulation time 1.000000000", "The run completed")):
            with self.subTest(ending):
                text = page(traces.GOOD + ending + "\n" * bool(ending))
                self.assertIn(f"<b>{part}" if "fault" not in part else part, text)
                self.assertIn(ending.split("\n")[-1], text)

    def test_a_page_that_cannot_be_written(self):
        done = tool("report", "-o", "/dev/full", given=traces.GOOD.encode())
        self.assertEqual(done.returncode, 2)
        self.assertEqual(done.stderr.count(b"\n"), 1)

    def test_bad_lines(self):
        for text, told in traces.BAD[::4]:
            folder = Folder(trace=text)
            done = tool("report", "trace", "-o", "out", folder=folder.name)
            self.assertEqual(done.returncode, 1)
            self.assertIn(told, done.stderr.decode())
            self.assertFalse((folder.path / "out").exists())
        self.assertEqual(tool("report", "nowhere").returncode, 2)
        self.assertEqual(tool("report", given=b"Simulation time 1.000000000\n").returncode, 1)


class Browser(unittest.TestCase):
    """The page in Chromium: its document has the lanes, and so has the picture of it."""

    def setUp(self):
        if BROWSER is None:
            self.fail("Chromium isn't installed: apt-get install chromium")

    def test_lanes_are_seen(self):
        folder = Folder(**traces.ring(16, 3))
        trace = folder.replayed().stdout.decode()
        folder.write("page.html", page(trace))
        document = browse(folder, "--dump-dom").stdout.decode()
        self.assertEqual(document.count('class="lane"'), 16)
        done = browse(folder, f"--screenshot={folder.path}/page.png")
        self.assertTrue((folder.path / "page.png").exists(), done.stderr.decode())
        width, rows = pixels((folder.path / "page.png").read_bytes())
        self.assertEqual(width, 1280)
        # All compute at first: some column of the picture meets a bar in each of the 16 lanes, which are 28 high.
        most = max(sum(18 <= height <= 21 for height in bars(rows, x)) for x in range(60, 400, 4))
        self.assertEqual(most, 16)


if __name__ == "__main__":
    unittest.main()
