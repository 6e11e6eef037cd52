"""tools/cluster: each kind is accepted by the program, and messages between far hosts take what their routes say."""

import itertools
import tomllib
import unittest

from common import Folder, module, program, tool

EXPLAIN = module("explain")

# Latencies in nanoseconds of the defaults, and what 1 MB takes over the slowest link, a host's of 125 MB/s.
HOST, UP, BACKBONE, LAN, WAN = 50_000, 20_000, 20_000, 10_000, 10_000_000
MEGABYTE = 8_000_000

# The words, the ends of messages, and the latency of each.
KINDS = [
    (["star"], {(0, 15): 2 * HOST, (15, 0): 2 * HOST, (7, 8): 2 * HOST}),
    (["star", "--hosts", "1"], {}),
    (["backbone"], {(0, 15): 2 * HOST + BACKBONE, (15, 0): 2 * HOST + BACKBONE}),
    (["backbone", "--hosts", "100", "--backbone-policy", "FATPIPE"], {(0, 99): 2 * HOST + BACKBONE}),
    (["fat-tree"], {(0, 15): 2 * HOST + 2 * UP, (15, 0): 2 * HOST + 2 * UP, (4, 11): 2 * HOST + 2 * UP, (4, 7): 2 * HOST}),
    (["fat-tree", "--leaves", "9", "--hosts", "11", "--spines", "5"], {(0, 98): 2 * HOST + 2 * UP, (97, 12): 2 * HOST + 2 * UP}),
    (["fat-tree", "--leaves", "1", "--hosts", "2", "--spines", "1", "--policy", "SHARED"], {(1, 0): 2 * HOST}),
    (["sites"], {(0, 11): 2 * HOST + 2 * LAN + WAN, (11, 0): 2 * HOST + 2 * LAN + WAN, (4, 7): 2 * HOST + LAN}),
    (["sites", "--sites", "12", "--hosts", "3", "--wan-policy", "SHARED"], {(0, 35): 2 * HOST + 2 * LAN + WAN, (34, 3): 2 * HOST + 2 * LAN + WAN}),
    (["torus"], {(0, 10): 4 * HOST, (10, 0): 4 * HOST, (0, 3): HOST, (0, 12): HOST}),
    (["torus", "--dimensions", "1"], {}),
    (["torus", "--dimensions", "5x2x3", "--policy", "SHARED"], {(0, 29): 3 * HOST, (29, 0): 3 * HOST, (0, 17): 4 * HOST}),
    (["torus", "--dimensions", "2x2x2x2"], {(0, 15): 4 * HOST, (15, 0): 4 * HOST}),
]


def made(words):
    """A folder with the files of a cluster."""
    folder = Folder()
    done = tool("cluster", *words, "-o", ".", folder=folder.name)
    assert done.returncode == 0, done.stderr
    return folder


def durations(folder, ends):
    """How long 1 MB takes from one host to another, one message after the other."""
    script = "".join(f"p{a} send p{b} 1e6\np{b} recv p{a}\n" + "".join(f"p{at} barrier\n" for at in members)
                     for members in [sorted({end for pair in ends for end in pair})] for a, b in ends)
    # The barrier has all actors as its members, so only those that take part are kept.
    actors = sorted({end for pair in ends for end in pair})
    rows = tomllib.loads((folder.path / "deployment.toml").read_text())["actor"]
    folder.write("few.toml", "".join(f'[[actor]]\nname = "{rows[at]["name"]}"\nhost = "{rows[at]["host"]}"\nfunction = "replay"\n' for at in actors))
    folder.write("script.txt", script)
    done = program("replay", "platform.toml", "few.toml", "script.txt", folder=folder.name)
    assert done.returncode == 0, done
    return [int(line.split()[-1].replace(".", "")) for line in done.stdout.decode().splitlines() if " send " in line]


class Clusters(unittest.TestCase):
    def test_messages_between_far_hosts(self):
        for words, ends in KINDS:
            with self.subTest(words):
                folder = made(words)
                done = program("replay", "platform.toml", "deployment.toml", "/dev/null", folder=folder.name)
                self.assertEqual((done.returncode, done.stdout), (0, b"Simulation time 0.000000000\n"))
                if ends:
                    self.assertEqual(durations(folder, list(ends)), [latency + MEGABYTE for latency in ends.values()])

    def test_all_pairs_of_a_torus(self):
        """A message takes the latency of as many links as its ends are apart, in the shorter direction of each dimension."""
        folder = made(["torus", "--dimensions", "4x3"])
        pairs = list(itertools.permutations(range(12), 2))
        apart = [sum(min((p - q) % side, (q - p) % side) for p, q, side in ((a % 4, b % 4, 4), (a // 4, b // 4, 3))) for a, b in pairs]
        self.assertEqual(durations(folder, pairs), [hops * HOST + MEGABYTE for hops in apart])

    def test_what_is_shared(self):
        """Two messages share a backbone of 100 MB/s; on a fat pipe, and over two spines, each has its own."""
        for words, ends, seconds in ((["backbone", "--backbone-bandwidth", "100MBps"], (0, 1, 2, 3), 0.02),
                                     (["backbone", "--backbone-bandwidth", "100MBps", "--backbone-policy", "FATPIPE"], (0, 1, 2, 3), 0.01),
                                     (["fat-tree", "--up-bandwidth", "125MBps"], (0, 4, 1, 8), 0.008),
                                     (["fat-tree", "--up-bandwidth", "125MBps"], (0, 4, 1, 5), 0.016)):
            with self.subTest(words, ends=ends):
                folder = made(words)
                a, b, c, d = ends
                folder.write("script.txt", f"p{a} send p{b} 1e6\np{b} recv p{a}\np{c} send p{d} 1e6\np{d} recv p{c}\n")
                done = program("replay", "platform.toml", "deployment.toml", "script.txt", "--quiet", folder=folder.name)
                self.assertAlmostEqual(float(done.stdout.split()[-1]), seconds, delta=0.0002)

    def test_masters(self):
        folder = made(["sites", "--masters", "--tasks", "7", "--flops", "1e6", "--bytes", "10", "--cores", "4", "--speed", "2.5Gf"])
        done = program("run", "platform.toml", "deployment.toml", folder=folder.name)
        self.assertEqual(done.returncode, 0)
        self.assertEqual(done.stdout.decode().count("compute 1000000 0.000400000"), 7)

    def test_the_files_are_to_be_edited(self):
        folder = made(["fat-tree"])
        for name in ("platform.toml", "deployment.toml"):
            text = (folder.path / name).read_text()
            self.assertTrue(text.startswith("# "))
            self.assertTrue(all(len(line) <= 130 for line in text.splitlines()))
        platform = (folder.path / "platform.toml").read_text()
        self.assertIn("\n# Made by: cluster fat-tree\n", platform)
        self.assertGreater(sum(line.startswith("#") for line in platform.splitlines()), 10)
        self.assertEqual(EXPLAIN.Platform("platform.toml", platform.encode()).found, [])

    def test_what_is_too_large(self):
        for words in (["torus", "--dimensions", "100x100"], ["torus", "--dimensions", "520x1"], ["star", "--hosts", "5000"],
                      ["star", "--hosts", "1", "--masters"], ["sites", "--sites", "900", "--hosts", "1"], ["torus", "--dimensions", "200x1"]):
            with self.subTest(words):
                folder = Folder()
                done = tool("cluster", *words, "-o", folder.name)
                self.assertEqual(done.returncode, 1, done.stderr)
                self.assertEqual(list(folder.path.iterdir()), [])

    def test_words_and_files(self):
        folder = made(["star"])
        for words in ([], ["ring"], ["star", "--hosts", "0"], ["star", "--hosts", "x"], ["star", "--speed", "1 Gf"], ["star", "--speed", "0"],
                      ["star", "--bandwidth", "1e16"], ["star", "--latency", "1MBps"], ["torus", "--dimensions", "4x"], ["star", "--polic", "SHARED"],
                      ["torus", "--dimensions", "2x2x2x2x2"], ["torus", "--dimensions", "0x2"], ["backbone", "--backbone-policy", "SPLITDUPLEX"],
                      ["star"], ["star", "-o", "/dev/null/x"]):
            with self.subTest(words):
                self.assertEqual(tool("cluster", *words, folder=folder.name).returncode, 2)
        self.assertEqual(tool("cluster", "star", "--hosts", "2", "--force", folder=folder.name).returncode, 0)


if __name__ == "__main__":
    unittest.main()
