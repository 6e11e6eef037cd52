"""tools/from_simgrid: platforms of SimGrid become platforms here, on which messages take what SimGrid's routes say."""

import itertools
import os
import random
import subprocess
import tomllib
import unittest

from common import PROGRAM, Folder, program, tool

HEAD = '<?xml version="1.0"?>\n<!DOCTYPE platform SYSTEM "https://simgrid.org/simgrid.dtd">\n<platform version="4.1">\n'

# Three zones of which the routes are shortest paths, in a Full one: ways of several links, one-way routes, and a link of two
# directions. The shortest path of two points is alone in having so few links.
MESH = HEAD + """  <zone id="world" routing="Full">
    <zone id="mesh" routing="Dijkstra">
      <host id="h1" speed="1Gf"/>
      <host id="h2" speed="1Gf" core="2"/>
      <host id="h3" speed="1Gf"/>
      <host id="h4" speed="1Gf"/>
      <router id="r1"/>
      <router id="r2"/>
      <link id="a" bandwidth="10MBps" latency="1ms"/>
      <link id="b" bandwidth="10MBps" latency="2ms"/>
      <link id="c" bandwidth="10MBps" latency="4ms"/>
      <link id="d" bandwidth="10MBps" latency="8ms"/>
      <link id="e" bandwidth="10MBps" latency="16ms"/>
      <link id="f" bandwidth="10MBps" latency="32ms"/>
      <link id="g" bandwidth="10MBps" latency="4ms"/>
      <link id="s" bandwidth="10MBps" latency="64ms" sharing_policy="SPLITDUPLEX"/>
      <route src="h1" dst="r1"><link_ctn id="a"/></route>
      <route src="h2" dst="r1"><link_ctn id="b"/><link_ctn id="c"/></route>
      <route src="r1" dst="r2"><link_ctn id="s" direction="UP"/></route>
      <route src="h3" dst="r2"><link_ctn id="d"/></route>
      <route src="h1" dst="h3"><link_ctn id="e"/><link_ctn id="f"/><link_ctn id="f"/><link_ctn id="e"/></route>
      <route src="h4" dst="h3" symmetrical="NO"><link_ctn id="e"/></route>
      <route src="r2" dst="h4" symmetrical="NO"><link_ctn id="f"/><link_ctn id="g"/></route>
    </zone>
    <zone id="quick" routing="DijkstraCache">
      <host id="k1" speed="2Gf"/>
      <host id="k2" speed="2Gf"/>
      <router id="rk"/>
      <link id="l1" bandwidth="20MBps" latency="100us"/>
      <link id="l2" bandwidth="20MBps" latency="200us"/>
      <route src="k1" dst="rk"><link_ctn id="l1"/></route>
      <route src="k2" dst="rk"><link_ctn id="l2"/></route>
    </zone>
    <zone id="old" routing="Floyd">
      <host id="f1" speed="1Gf"/>
      <host id="f2" speed="1Gf"/>
      <router id="rf"/>
      <link id="m1" bandwidth="20MBps" latency="10us"/>
      <link id="m2" bandwidth="20MBps" latency="20us"/>
      <route src="f1" dst="f2"><link_ctn id="m1"/></route>
      <route src="f2" dst="rf"><link_ctn id="m2"/></route>
    </zone>
    <link id="w1" bandwidth="100MBps" latency="128ms" sharing_policy="FATPIPE"/>
    <link id="w2" bandwidth="100MBps" latency="256ms"/>
    <link id="w3" bandwidth="100MBps" latency="512ms"/>
    <zoneRoute src="mesh" dst="quick" gw_src="r2" gw_dst="rk"><link_ctn id="w1"/></zoneRoute>
    <zoneRoute src="quick" dst="old" gw_src="rk" gw_dst="rf"><link_ctn id="w2"/></zoneRoute>
    <zoneRoute src="mesh" dst="old" gw_src="r1" gw_dst="rf"><link_ctn id="w3"/></zoneRoute>
  </zone>
</platform>
"""

# The latencies of SimGrid 3.32's routes on it, in microseconds: from the host in front to the one above.
LATENCIES = """
     h1      h2      h3      h4      k1      k2      f1      f2
h1   -       7000    73000   101000  193100  193200  513030  513020
h2   7000    -       78000   106000  198100  198200  518030  518020
h3   73000   78000   -       44000   136100  136200  584030  584020
h4   89000   94000   16000   -       152100  152200  600030  600020
k1   193100  198100  136100  164100  -       300     256130  256120
k2   193200  198200  136200  164200  300     -       256230  256220
f1   513030  518030  584030  612030  256130  256230  -       10
f2   513020  518020  584020  612020  256120  256220  10      -
"""


def latencies():
    """Of each two hosts the latency in microseconds."""
    lines = [line.split() for line in LATENCIES.split("\n") if line]
    return {(row[0], to): int(value) for row in lines[1:] for to, value in zip(lines[0], row[1:]) if value != "-"}


def converted(text, *options):
    return tool("from_simgrid", *options, "-", given=text.encode())


def platform_of(inner, *options):
    """The platform of elements in a Full zone, without the factors of a model."""
    done = converted(HEAD + f'<zone id="z" routing="Full">{inner}</zone></platform>', "--model", "CM02", "--crosstraffic", "no", *options)
    assert done.returncode == 0, done
    return tomllib.loads(done.stdout.decode())


class Study(Folder):
    """A folder with SimGrid's files, of which one study is made."""

    def made(self, *words):
        return tool("from_simgrid", "-o", "study", *words, folder=self.path)

    def read(self, name):
        return (self.path / "study" / name).read_text()

    def lines(self, actor):
        """The lines of an actor, without its name."""
        return [line.split(" ", 1)[1] for line in self.read("script.txt").splitlines() if line.startswith(actor + " ")]

    def actors(self):
        return tomllib.loads(self.read("deployment.toml"))["actor"]

    def run_by_name(self, *options):
        """Runs run.sh with the program that the environment names."""
        environment = {**os.environ, "SIMGRID_REPLAY": str(PROGRAM)}
        return subprocess.run([self.path / "study/run.sh", *options], capture_output=True, text=True, env=environment, timeout=60)


class FromSimgrid(unittest.TestCase):
    def test_messages_take_what_routes_say(self):
        """A message without bytes takes the latency of its route."""
        done = converted(MESH, "--model", "CM02")
        self.assertEqual(done.returncode, 0)
        expected = latencies()
        hosts = sorted({host for pair in expected for host in pair})
        self.assertEqual(set(expected), set(itertools.permutations(hosts, 2)))
        all_wait = "".join(f"{host} barrier\n" for host in hosts)
        folder = Folder(p=done.stdout,
                        d="".join(f'[[actor]]\nname = "{host}"\nhost = "{host}"\nfunction = "replay"\n' for host in hosts),
                        s="".join(f"{a} send {b} 0\n{b} recv {a}\n{all_wait}" for a, b in expected))
        run = folder.replayed()
        self.assertEqual(run.returncode, 0, run)
        took = {}
        for line in run.stdout.decode().splitlines():
            if " send " in line:
                words = line.split()
                took[line[1:].split(":")[0], words[-3]] = int(words[-1].replace(".", ""))
        self.assertEqual(took, {pair: latency * 1000 for pair, latency in expected.items()})

    def test_rows(self):
        platform = tomllib.loads(converted(MESH, "--model", "CM02", "--crosstraffic", "no").stdout.decode())
        self.assertEqual([(zone["id"], zone.get("parent"), zone["routing"]) for zone in platform["zone"]],
                         [("world", None, "Full"), ("mesh", "world", "Dijkstra"), ("quick", "world", "Dijkstra"), ("old", "world", "Dijkstra")])
        self.assertIn({"id": "h2", "zone": "mesh", "speed": "1Gf", "core": 2}, platform["host"])
        self.assertIn({"src": "r1", "dst": "r2", "links": ["s_UP"]}, platform["route"])
        self.assertIn({"src": "h4", "dst": "h3", "links": ["e"], "symmetrical": False}, platform["route"])
        self.assertIn({"id": "w1", "bandwidth": "100MBps", "latency": "128ms", "sharing_policy": "FATPIPE"}, platform["link"])

    def test_what_is_refused(self):
        """By line, and with the reason."""
        for inner, told in (('<zone id="z" routing="Vivaldi"/>', '-:4: <zone id="z">: routing "Vivaldi" isn\'t supported: its latencies'),
                            ('<zone id="z" routing="Wifi"/>', "share the medium"),
                            ('<zone id="z" routing="Full">\n<peer id="p"/></zone>', "-:5: <peer id=\"p\"> isn't supported: it is of a Vivaldi zone"),
                            ('<zone id="z" routing="Full"><host id="h" speed="1Gf" pstate="1"/></zone>', "there is no pstate"),
                            ('<zone id="z" routing="Full"><link id="l" bandwidth="1" sharing_policy="WIFI"/></zone>', "WIFI"),
                            ('<zone id="z" routing="Full"><link id="l" bandwidth="1" latency_file="f"/></zone>', "keeps its latency"),
                            ('<zone id="z" routing="Full"><storage id="s"/></zone>', "disks aren't supported"),
                            ('<zone id="z" routing="Full"/><zone id="y" routing="Full"/>', "second zone at the top"),
                            ('<zone id="z" routing="Full"><host_link id="h" up="l" down="l"/></zone>', "routing isn't Cluster"),
                            ('<zone id="z" routing="Full"><route src="a" dst="b"/></zone>', 'no host, router or zone "a"'),
                            ('<zone id="z" routing="Full"><cluster id="c" topology="RING"/></zone>', "topology"),
                            ("<new/>", "at the top level")):
            with self.subTest(inner):
                done = converted(HEAD + inner + "</platform>")
                self.assertEqual((done.returncode, done.stdout), (1, b""))
                self.assertIn(told, done.stderr.decode())

    def test_values(self):
        """Units that simgrid_replay lacks become plain numbers, as SimGrid reads them; what it takes stays as it is."""
        for attribute, text, value in (("speed", "98.095Mf", "98.095Mf"), ("speed", "0.001Ef", "1000000000000000"), ("speed", " 2Gf ", "2Gf"),
                                       ("speed", ".5Gf", "500000000"), ("speed", "0.001Pf", "0.001Pf"),
                                       ("bandwidth", "1PBps", "1000000000000000"), ("bandwidth", "1Tibps", "137438953472"),
                                       ("bandwidth", "10Gbps", "10Gbps"), ("bandwidth", "+5.kBps", "5000"),
                                       ("latency", "5ps", "0"), ("latency", "1500ps", "0.000000001"), ("latency", "1w", "1w")):
            with self.subTest(text):
                given = {"speed": "1", "bandwidth": "1", "latency": "0", attribute: text}
                platform = platform_of(f'<host id="h" speed="{given["speed"]}"/><link id="l" bandwidth="{given["bandwidth"]}" '
                                       f'latency="{given["latency"]}"/>')
                self.assertEqual(platform["host" if attribute == "speed" else "link"][0][attribute], value)

    def test_values_that_are_refused(self):
        """By the line of the file, before the program would."""
        for host, told in (('speed="1Ef"', "too large"), ('speed="1Kif"', "unit that SimGrid doesn't have"), ('speed="1.5 Gf"', "unit that SimGrid doesn't have"), ('speed=""', "isn't a number"),
                           ('speed="0f"', "zero when rounded down"), ('speed="-1Gf"', "below zero"), ('speed="1e999999999f"', "too large"),
                           ('speed="1" core="x"', "core"), ('speed="1" core="0"', "core"), ('speed="1" core="2000"', "core"),
                           ('speed="1"/><link id="l" bandwidth="1PBps1"', "unit"), ('speed="1"/><link id="l" bandwidth="0"', "zero when rounded down"),
                           ('speed="1"/><link id="l" bandwidth="1" latency="-1"', "below zero"),
                           ('speed="1"/><link id="l" bandwidth="1" latency="2097152s"', "too large")):
            with self.subTest(host):
                done = converted(HEAD + f'<zone id="z" routing="Full">\n\n<host id="h" {host}/></zone></platform>')
                self.assertEqual((done.returncode, done.stdout), (1, b""))
                self.assertIn("-:6: ", done.stderr.decode())
                self.assertIn(told, done.stderr.decode())

    def test_what_the_program_would_refuse(self):
        """Routes that stand twice, and links that aren't there, by line."""
        two = '<host id="a" speed="1"/><host id="b" speed="1"/><link id="l" bandwidth="1"/><link id="s" bandwidth="1" sharing_policy="SPLITDUPLEX"/>'
        for routes, told in (('<route src="a" dst="b"><link_ctn id="l"/></route>\n<route src="b" dst="a"><link_ctn id="l"/></route>',
                              ":5: <route src=\"b\">: line 4 already has the route from b to a"),
                             ('<route src="a" dst="b"><link_ctn id="m"/></route>', 'no link "m"'),
                             ('<route src="a" dst="b"><link_ctn id="s"/></route>', "SPLITDUPLEX"),
                             ('<route src="a" dst="b"><link_ctn id="l" direction="UP"/></route>', "isn't SPLITDUPLEX"),
                             ('<route src="a" dst="b"></route>', "without links"),
                             ('<route src="a" dst="c"><link_ctn id="l"/></route>', 'zone "c"'),
                             ('<route src="a" dst="b">' + '<link_ctn id="l"/>' * 65 + '</route>', "over a limit"),
                             ('<zone id="y" routing="Full"><host id="c" speed="1"/></zone>\n<route src="a" dst="c"><link_ctn id="l"/></route>',
                              ":5: platform: wrong routing")):
            with self.subTest(routes[:60]):
                done = converted(HEAD + f'<zone id="z" routing="Full">{two}{routes}</zone></platform>')
                self.assertEqual((done.returncode, done.stdout), (1, b""))
                self.assertIn(told, done.stderr.decode())

    def test_names(self):
        """Blanks become `_`, with a note; refused where two would have one name."""
        text = HEAD + '<zone id="z" routing="Full"><host id="Cpu A" speed="1"/>\n<host id="{}" speed="1"/></zone></platform>'
        done = converted(text.format("Cpu B"))
        self.assertEqual([host["id"] for host in tomllib.loads(done.stdout.decode())["host"]], ["Cpu_A", "Cpu_B"])
        self.assertIn(b'-:4: host "Cpu A" is Cpu_A here', done.stderr)
        self.assertIn(b'# -:4: host "Cpu A" is Cpu_A here', done.stdout)
        done = converted(text.format("Cpu_A"))
        self.assertEqual((done.returncode, done.stdout), (1, b""))
        self.assertIn(b'-:5: <host id="Cpu_A">: "Cpu_A" would be "Cpu_A" here, as "Cpu A" is', done.stderr)
        long = "n" * 70
        self.assertEqual(len(platform_of(f'<host id="{long}" speed="1"/>')["host"][0]["id"]), 58)

    def test_models(self):
        """SimGrid's default is said, with what isn't here; <config> wins."""
        zone = '<zone id="z" routing="Full"/></platform>'
        lv08 = {"latency_factor": "13.01", "bandwidth_factor": "0.97", "window": "4068474"}
        for options, config, row in (((), "", lv08), (("--model", "LV08"), "", lv08), (("--model", "CM02"), "", None),
                                     ((), '<prop id="network/model" value="CM02"/>', None),
                                     (("--model", "CM02"), '<prop id="network/model" value="LV08"/>', lv08),
                                     ((), '<prop id="network/latency-factor" value="2"/>', {**lv08, "latency_factor": "2"}),
                                     ((), '<prop id="network/TCP-gamma" value="0"/>',
                                      {"latency_factor": "13.01", "bandwidth_factor": "0.97"})):
            with self.subTest(options=options, config=config):
                done = converted(HEAD + (f"<config>{config}</config>" if config else "") + zone, *options)
                self.assertEqual(tomllib.loads(done.stdout.decode()).get("network"), [row] if row else None)
                self.assertIn(b"from_simgrid: model " + (b"LV08" if row else b"CM02"), done.stderr)
                self.assertIn(b"cross traffic", done.stderr)
                self.assertIn(b"# cross traffic: a flow takes 1.05", done.stdout)
        done = converted(HEAD + '<config><prop id="network/crosstraffic" value="0"/><prop id="network/weight-S" value="0"/></config>' + zone)
        self.assertNotIn(b"traffic", done.stderr)
        self.assertNotIn(b"weight", done.stderr)

    def test_cross_traffic(self):
        """On both ways of a flow a SHARED link has bandwidth / 1.05; FATPIPE and SPLITDUPLEX links stay; elsewhere a note says."""
        def platform(back):
            return HEAD + (
                '<zone id="z" routing="Full"><host id="a" speed="1Gf"/><host id="b" speed="1Gf"/>'
                '<link id="l" bandwidth="105MBps" latency="1us"/><link id="f" bandwidth="105MBps" latency="1us" sharing_policy="FATPIPE"/>'
                '<link id="s" bandwidth="105MBps" latency="1us" sharing_policy="SPLITDUPLEX"/><link id="m" bandwidth="105MBps" latency="1us"/>'
                '<route src="a" dst="b" symmetrical="NO"><link_ctn id="l"/><link_ctn id="f"/><link_ctn id="s" direction="UP"/></route>'
                f'<route src="b" dst="a" symmetrical="NO"><link_ctn id="s" direction="DOWN"/><link_ctn id="{back}"/></route></zone></platform>')

        def widths(back, *options):
            done = converted(platform(back), *options)
            return {row["id"]: row["bandwidth"] for row in tomllib.loads(done.stdout.decode())["link"]}, done.stderr
        found, told = widths("l")
        self.assertEqual((found["l"], found["m"], found["f"], found["s"]), ("100000000", "100000000", "105MBps", "105MBps"))
        self.assertIn(b"cross traffic: a flow takes 1.05", told)
        found, told = widths("m")
        self.assertEqual((found["l"], found["s"]), ("105MBps", "105MBps"))
        self.assertIn(b"no cross traffic, since not all routes use the same SHARED links in both directions", told)
        found, told = widths("l", "--crosstraffic", "no")
        self.assertEqual(found["l"], "105MBps")
        self.assertIn(b"no cross traffic: in SimGrid", told)

    def test_units(self):
        """Bandwidths, the window, and sizes in parts of a byte."""
        xml = HEAD + ('<zone id="z" routing="Full"><host id="a" speed="1Gf"/><host id="b" speed="1Gf"/>'
                      '<link id="l" bandwidth="1.05MBps" latency="1us"/><route src="a" dst="b"><link_ctn id="l"/></route></zone></platform>')
        done = converted(xml, "--unit", "auto")
        found = tomllib.loads(done.stdout.decode())
        self.assertEqual((found["link"][0]["bandwidth"], found["network"][0]["window"]), ("1000000000", "4068474000"))
        self.assertIn(b"bytes are counted in units of 1/1000", done.stderr)
        self.assertEqual(converted(xml, "--unit", "7").returncode, 2)

    def test_strict(self):
        """What is only noted is refused; the note of the model alone isn't."""
        plain, noted = '<host id="h" speed="1"/>', '<host id="h" speed="1"><disk id="d" read_bw="1" write_bw="1"/></host>'
        for inner, status in ((plain, 0), (noted, 1)):
            done = converted(HEAD + f'<zone id="z" routing="Full">{inner}</zone></platform>', "--strict")
            self.assertEqual((done.returncode, bool(done.stdout)), (status, status == 0))
        self.assertIn(b"-:4: disks are left out", done.stderr)

    def test_power(self):
        """Of the pstate, in milliwatts: two numbers are idle and all; parts of a milliwatt are rounded, with a note."""
        for states, pstate, watts, power in (("1Gf", "0", "95:120:200", [95000, 120000, 200000]), ("1Gf", "0", "95:200", [95000, 95000, 200000]),
                                             ("2Gf,1Gf", "1", "95:120:200, 93.3333:110:170", [93333, 110000, 170000])):
            with self.subTest(watts):
                host = (f'<host id="h" speed="{states}" pstate="{pstate}"><prop id="wattage_per_state" value="{watts}"/>'
                        '<prop id="wattage_off" value="10.5"/></host>')
                row = platform_of(host)["host"][0]
                self.assertEqual((row["power"], row["power_off"], row["speed"]), (power, 10500, states.split(",")[int(pstate)]))
        done = converted(HEAD + f'<zone id="z" routing="Full">{host}</zone></platform>')
        self.assertIn(b"rounded to milliwatts", done.stderr)
        for watts in ("200:300:100", "95:120", "-1:2:3", "x:2:3"):
            host = f'<host id="h" speed="1"><prop id="wattage_per_state" value="{watts}"/></host>'
            done = converted(HEAD + f'<zone id="z" routing="Full">{host}</zone></platform>')
            self.assertEqual(done.returncode, 0 if watts == "95:120" else 1)

    def test_loopbacks(self):
        """A host of a Full zone has SimGrid's loopback; of a Dijkstra zone and a cluster the built-in one, with a note."""
        platform = platform_of('<host id="h" speed="1"/><router id="r"/>')
        self.assertIn({"id": "__loopback__", "bandwidth": "10GBps", "latency": "0", "sharing_policy": "FATPIPE"}, platform["link"])
        self.assertEqual(platform["route"], [{"src": "h", "dst": "h", "links": ["__loopback__"]}])
        done = converted(HEAD + '<zone id="z" routing="Floyd"><host id="h" speed="1"/></zone></platform>')
        self.assertIn(b"498 MBps and 15 us", done.stderr)
        done = converted(HEAD + '<config><prop id="network/loopback-bw" value="1GBps"/><prop id="network/loopback-lat" value="1us"/>'
                         '</config><zone id="z" routing="Full"><host id="h" speed="1"/></zone></platform>')
        self.assertEqual([(link["bandwidth"], link["latency"]) for link in tomllib.loads(done.stdout.decode())["link"]], [("1GBps", "1us")])

    def test_include(self):
        folder = Folder(inner='<platform version="4.1"><host id="b" speed="1"/></platform>',
                        p=HEAD + '<zone id="z" routing="Full"><host id="a" speed="1"/><include file="inner"/></zone></platform>',
                        q=HEAD + '<zone id="z" routing="Full"><include file="q"/></zone></platform>')
        done = tool("from_simgrid", "p", folder=folder.path)
        self.assertEqual([host["id"] for host in tomllib.loads(done.stdout.decode())["host"]], ["a", "b"])
        done = tool("from_simgrid", "q", folder=folder.path)
        self.assertEqual(done.returncode, 1)
        self.assertIn(b"includes itself", done.stderr)

    def test_clusters(self):
        """A Star zone; the router of one without a backbone gets a link as wide as can be where it is a gateway."""
        cluster = '<cluster id="c" prefix="n" suffix="" radical="0-1,4" speed="1Gf" bw="125MBps" lat="50us"'
        platform = platform_of(cluster + ' bb_bw="2GBps" bb_lat="1ms" limiter_link="3MBps" core="4"/>')
        self.assertEqual([(host["id"], host["zone"], host["core"]) for host in platform["host"]], [("n0", "c", 4), ("n1", "c", 4), ("n4", "c", 4)])
        self.assertIn({"zone": "c", "child": "n4", "up": ["c_link_4_limiter", "c_link_4_UP", "c_backbone"]}, platform["spoke"])
        self.assertIn({"zone": "c", "child": "nc_router", "up": ["c_backbone"]}, platform["spoke"])
        platform = platform_of(cluster + ' sharing_policy="SHARED" router_id="r"/><zone id="y" routing="Full"><host id="h" speed="1"/></zone>'
                               '<link id="l" bandwidth="1"/><zoneRoute src="c" dst="y" gw_src="r" gw_dst="h"><link_ctn id="l"/></zoneRoute>')
        self.assertIn({"zone": "c", "child": "n0", "up": ["c_link_0"]}, platform["spoke"])
        self.assertIn({"zone": "c", "child": "r", "up": ["r_link"]}, platform["spoke"])
        self.assertIn({"id": "r_link", "bandwidth": "1000000000000000", "latency": "0", "sharing_policy": "FATPIPE"}, platform["link"])
        platform = platform_of(cluster + ' loopback_bw="1GBps" loopback_lat="1us"/>')
        self.assertIn({"src": "n1", "dst": "n1", "links": ["c_link_1_loopback"]}, platform["route"])
        self.assertEqual(platform["spoke"][1], {"zone": "c", "child": "n1_zone", "gateway": "n1", "up": ["c_link_1_UP"]})

    def test_bypasses(self):
        """A bypass takes the place of the pair's row, in its direction alone."""
        hosts = '<host id="a" speed="1"/><host id="b" speed="1"/><link id="l" bandwidth="1"/><link id="m" bandwidth="2"/>'
        routes = '<route src="a" dst="b"><link_ctn id="l"/></route><bypassRoute src="a" dst="b"><link_ctn id="m"/></bypassRoute>'
        ways = {(row["src"], row["dst"]): (row["links"], row.get("symmetrical", True)) for row in platform_of(hosts + routes)["route"]}
        self.assertEqual({pair: ways[pair] for pair in (("a", "b"), ("b", "a"))},
                         {("a", "b"): (["m"], False), ("b", "a"): (["l"], False)})

    def test_topology_limits(self):
        cluster = '<cluster id="c" prefix="n" suffix="" radical="0-{}" speed="1Gf" bw="1" lat="0" topology="{}" topo_parameters="{}"/>'
        for most, topology, parameters, told in ((7, "TORUS", "3,3", "9 hosts by topo_parameters, and 8 by radical"), (9, "TORUS", "3,x", "whole numbers"),
                                                 (999, "TORUS", "10,10,10", "1000 hosts"), (3, "FAT_TREE", "2;2;1;1", "2 levels"),
                                                 (3, "DRAGONFLY", "3,1;1,1;2,1;1", "more groups"), (3, "DRAGONFLY", "1;1;1;1", "GROUPS,BLUE")):
            with self.subTest(parameters):
                done = converted(HEAD + cluster.format(most, topology, parameters) + "</platform>")
                self.assertEqual(done.returncode, 1)
                self.assertIn(told, done.stderr.decode())

    def test_settings_of_the_network(self):
        """Plain numbers make the one row of the network, and a run goes by them."""
        for props, row in (('<prop id="network/latency-factor" value="13.01"/><prop id="network/bandwidth-factor" value="0.97"/>'
                            '<prop id="network/TCP-gamma" value="4194304"/>',
                            {"latency_factor": "13.01", "bandwidth_factor": "0.97", "window": "4068474"}),
                           ('<prop id="network/TCP_gamma" value="20000000"/>', {"window": "20000000"}),
                           ('<prop id="network/latency-factor" value="0:13.01;65472:11.6"/>', None),
                           ('<prop id="smpi/os" value="1"/>', None)):
            with self.subTest(props):
                done = converted(HEAD + f'<config>{props}</config><zone id="z" routing="Full"/></platform>', "--model", "CM02")
                self.assertEqual(done.returncode, 0)
                self.assertEqual(tomllib.loads(done.stdout.decode()).get("network"), [row] if row else None)
                self.assertEqual(b"# -:4: <config>" in done.stdout, row is None)

    def test_traces_become_profiles(self):
        """A host's trace has parts of its speed, a link's has bandwidths; what begins anew does so as long after the last date."""
        folder = Folder(**{"host.trace": "# comment\n\nPERIODICITY 2.5\n0 1.0\n 11.0\t0.5\n20 .1\n20 0.8\n",
                           "up.trace": "% comment\n1e-3 1e6\n2.0000000009 0\nLOOPAFTER 0\n", "none.trace": "# nothing\nLOOPAFTER 1\n"})
        folder.write("p.xml", HEAD + '<zone id="z" routing="Full"><host id="h" speed="98.095Mf" speed_file="host.trace"/>'
                     '<host id="g" speed="2Gf" availability_file="none.trace"/><host id="k" speed="3"/>'
                     '<link id="l" bandwidth="1MBps" latency="1ms" bandwidth_file="up.trace"/>'
                     '<link id="s" bandwidth="1MBps" latency="1ms" sharing_policy="SPLITDUPLEX"/></zone>'
                     '<trace id="t" periodicity="1.0">\n5 0.5\n6 1.4\n</trace><trace id="f" file="up.trace" periodicity="9"/>'
                     '<trace_connect trace="t" element="k" kind="SPEED"/><trace_connect trace="f" element="s" kind="BANDWIDTH"/></platform>')
        bandwidths = {"dates": ["0.001", "2"], "values": ["1000000", "0"]}
        expected = [{"host": "h", "dates": ["0", "11", "20"], "values": ["98095000", "49047500", "78476000"], "loop": "2.5"},
                    {"link": "l", **bandwidths}, {"host": "k", "dates": ["5", "6"], "values": ["1", "4"], "loop": "1"},
                    {"link": "s_UP", **bandwidths}, {"link": "s_DOWN", **bandwidths}]
        for words, place in ((("p.xml",), folder.path), ((folder.path / "p.xml",), None)):
            done = tool("from_simgrid", "--crosstraffic", "no", *words, folder=place)
            self.assertEqual(done.returncode, 0)
            self.assertEqual(tomllib.loads(done.stdout.decode())["profile"], expected)

    def test_traces_become_profiles_of_states(self):
        """A host or a link is on where the value is above zero; it may have a trace of its speed or bandwidth too."""
        folder = Folder(state="PERIODICITY 1\n0 1\n2 0\n3 0.5\n", off="1 0\n", speed="1 0.5\n", none="# nothing\n")
        folder.write("p.xml", HEAD + '<zone id="z" routing="Full"><host id="h" speed="2Gf" state_file="state" speed_file="speed"/>'
                     '<host id="g" speed="1" state_file="none"/><host id="k" speed="1"/><link id="l" bandwidth="1" state_file="off"/>'
                     '<link id="s" bandwidth="1" sharing_policy="SPLITDUPLEX"/></zone><trace id="t" file="off"/>'
                     '<trace_connect trace="t" element="k"/><trace_connect trace="t" element="s" kind="LINK_AVAIL"/></platform>')
        done = tool("from_simgrid", "p.xml", folder=folder.path)
        self.assertEqual(done.returncode, 0)
        platform = tomllib.loads(done.stdout.decode())
        off = {"dates": ["1"], "states": ["off"]}
        self.assertEqual(platform["profile"], [{"host": "h", "dates": ["1"], "values": ["1000000000"]}])
        self.assertEqual(platform["state_profile"], [
            {"host": "h", "dates": ["0", "2", "3"], "states": ["on", "off", "on"], "loop": "1"}, {"link": "l", **off},
            {"host": "k", **off}, {"link": "s_UP", **off}, {"link": "s_DOWN", **off}])
        self.assertIn("the actors of a host that fails continue", done.stdout.decode())

    def test_what_of_a_trace_is_refused(self):
        for text, told in (("1 0.5\n0 1\n", "t:2: the date is before"), ("STOCHASTIC\n", "drawn"), ("0 -1\n", "t:1: this isn't a date"),
                           ("0 1 2\n", "t:1: this isn't a date"), ("1e9 1\n1000000001 1\n", "a time above"), ("0 2e9\n", "a value above"),
                           ("PERIODICITY 1e-10\n0 1\n", "less than a nanosecond"), ("PERIODICITY day\n0 1\n", '"day"'),
                           ("".join(f"{i} 1\n" for i in range(1025)), "1025 dates")):
            with self.subTest(text[:20]):
                folder = Folder(t=text, p=HEAD + '<zone id="z" routing="Full"><host id="h" speed="1Mf" speed_file="t"/></zone></platform>')
                done = tool("from_simgrid", "p", folder=folder.path)
                self.assertEqual((done.returncode, done.stdout, done.stderr.count(b"\n")), (1, b"", 1))
                self.assertIn(told, done.stderr.decode())
        for inner, told in (('<link id="l" bandwidth="1" latency_file="t"/>', "latency_file"),
                            ('<trace id="t"/><trace_connect trace="t" element="l" kind="LATENCY"/>', "LATENCY"),
                            ('<trace id="t"/><trace_connect trace="t" element="h" kind="LINK_AVAIL"/>', "link h that doesn't exist"),
                            ('<host id="h" speed="1" state_file="t"/><trace id="t" file="t"/><trace_connect trace="t" element="h"/>',
                             "host h has two traces"),
                            ('<trace id="t"/><trace_connect trace="t" element="h" kind="SPEED"/>', "host h that doesn't exist"),
                            ('<host id="h" speed="1" speed_file="t"/><trace id="t" file="t"/><trace_connect trace="t" element="h" kind="SPEED"/>',
                             "host h has two traces")):
            with self.subTest(inner):
                folder = Folder(t="0 1\n", p=HEAD + f'<zone id="z" routing="Full">{inner}</zone></platform>')
                done = tool("from_simgrid", "p", folder=folder.path)
                self.assertEqual((done.returncode, done.stdout), (1, b""))
                self.assertIn(told, done.stderr.decode())

    def test_no_trace(self):
        done = converted(HEAD + '<zone id="z" routing="Full"><host id="h" speed="1" speed_file="nowhere.trace"/></zone></platform>')
        self.assertEqual((done.returncode, done.stdout), (2, b""))
        self.assertIn("nowhere.trace", done.stderr.decode())

    def test_a_run_goes_by_its_traces(self):
        """The first second is at full speed, the next two at half; then nothing runs for a second, and all begins anew."""
        folder = Folder(d='[[actor]]\nname = "p0"\nhost = "h"\nfunction = "replay"\n', s="p0 compute 5e9\n")
        folder.write("p.xml", HEAD + '<zone id="z" routing="Full"><host id="h" speed="1Gf" speed_file="t"/></zone></platform>')
        folder.write("t", "PERIODICITY 1\n0 1\n1 0.5\n3 0\n")
        folder.write("p", tool("from_simgrid", "p.xml", folder=folder.path).stdout)
        run = folder.replayed()
        self.assertEqual((run.returncode, run.stdout.decode().splitlines()[-1]), (0, "Simulation time 9.000000000"))

    def test_no_xml(self):
        self.assertEqual(converted("platform").returncode, 2)
        self.assertEqual(tool("from_simgrid", "/nowhere/platform.xml").returncode, 2)

    def test_notes(self):
        """Each once, with its first line and how often, on standard error and in the file."""
        done = converted(HEAD + '<config id="c"><prop id="a" value="b"/></config><zone id="z" routing="Full"><prop id="a" value="b"/>\n'
                         '<host id="h" speed="2Gf,1Gf"/>\n<host id="g" speed="1"><prop id="a" value="b"/><prop id="c" value="d"/></host>'
                         '</zone></platform>')
        self.assertEqual(done.returncode, 0)
        self.assertEqual(tomllib.loads(done.stdout.decode())["host"][0], {"id": "h", "zone": "z", "speed": "2Gf"})
        for line in ('-:4: <config> a="b" isn\'t supported', "-:4: properties of <zone> are left out",
                     '-:5: <host id="h">: of its speeds the one of pstate 0 is taken', "-:6: properties of <host> are left out (2 times)"):
            self.assertIn("from_simgrid: " + line, done.stderr.decode())
            self.assertIn("# " + line, done.stdout.decode())


PLATFORM = HEAD + """<zone id="z" routing="Full"><host id="A 1" speed="1Gf"/><host id="B" speed="2Gf"/>
<link id="l" bandwidth="1MBps" latency="1ms"/><route src="A 1" dst="B"><link_ctn id="l"/></route></zone></platform>"""


class Studies(unittest.TestCase):
    """A platform, a deployment and traces make one folder."""

    def refused(self, told, *words, **files):
        study = Study(p=PLATFORM, **files)
        done = study.made("p", *words)
        self.assertEqual((done.returncode, (study.path / "study").exists()), (1, False), done)
        self.assertIn(told, done.stderr.decode())

    def test_replay(self):
        """Each of two files, or one for both; the message takes 13.01 ms and then 970 kB a second."""
        actors = '<actor host="A 1" function="p0">{}</actor><process host="B" function="p1">{}</process></platform>'
        one, two = "# first\np0 send p1 970000\np0 compute 1e9", "p1 recv p0\n"
        for files, words in (({"d": HEAD + actors.format("", ""), "t": one + "\n" + two}, ("d", "t")),
                             ({"d": HEAD + actors.format("", ""), "t": one, "u": two}, ("d", "t", "u")),
                             ({"d": HEAD + actors.format('<argument value="t"/>', '<argument value="u"/>'), "t": one, "u": two}, ("d",))):
            study = Study(p=PLATFORM, **files)
            self.assertEqual(study.made("p", *words, "--crosstraffic", "no").returncode, 0)
            self.assertEqual(study.actors(), [{"name": "p0", "host": "A_1", "function": "replay"}, {"name": "p1", "host": "B", "function": "replay"}])
            run = study.run_by_name()
            self.assertEqual(run.stdout, "[A_1:p0:(1) 1.013010000] send p1 970000 1.013010000\n"
                             "[B:p1:(2) 1.013010000] recv p0 970000 1.013010000\n"
                             "[A_1:p0:(1) 2.013010000] compute 1000000000 1.000000000\nSimulation time 2.013010000\n")
            self.assertEqual(study.run_by_name("--quiet").stdout, "Simulation time 2.013010000\n")

    def test_master_and_workers(self):
        """Workers have the names of their hosts; those with numbers are called by them."""
        numbers = '<argument value="4"/><argument value="1e9"/><argument value="0"/>'
        study = Study(p=PLATFORM, d=HEAD + f'<actor host="B" function="master">{numbers}<argument value="A 1"/><argument value="B"/></actor>'
                      '<actor host="A 1" function="worker"/><actor host="B" function="worker"/></platform>')
        self.assertEqual(study.made("--model", "CM02", "p", "d").returncode, 0)
        self.assertEqual(study.actors(), [{"name": "master", "host": "B", "function": "master", "argument": ["4", "1e9", "0", "A_1", "B"]},
                                          {"name": "A_1", "host": "A_1", "function": "worker"}, {"name": "B", "host": "B", "function": "worker"}])
        self.assertFalse((study.path / "study/script.txt").exists())
        self.assertIn("Simulation time 2.00", study.run_by_name("--quiet").stdout)
        study = Study(p=PLATFORM, d=HEAD + f'<actor host="B" function="master">{numbers}<argument value="2"/></actor><actor host="B" function="worker">'
                      '<argument value="1"/></actor><actor host="B" function="worker"><argument value="0"/></actor></platform>')
        self.assertEqual(study.made("p", "d").returncode, 0)
        self.assertEqual(study.actors()[0]["argument"], ["4", "1e9", "0", "worker-0", "worker-1"])

    def test_start_and_kill(self):
        study = Study(p=PLATFORM, t="p0 compute 9e9\np1 sleep 9\n", d=HEAD + '<actor host="A 1" function="p0" start_time="2" kill_time="5"/>'
                      '<actor host="B" function="p1" kill_time="3"/></platform>')
        done = study.made("p", "d", "t")
        self.assertEqual(done.returncode, 0)
        self.assertIn(b"one more actor, timer", done.stderr)
        self.assertEqual(study.actors()[0], {"name": "p0", "host": "A_1", "function": "replay", "start": False})
        self.assertEqual(study.read("script.txt").splitlines()[2:], ["timer sleep 2", "timer create p0", "timer sleep 1", "timer kill p1",
                                                                     "timer sleep 2", "timer kill p0"])
        self.assertIn("Simulation time 5.000000000", study.run_by_name("--quiet").stdout)

    def test_what_of_a_deployment_is_refused(self):
        for actor, told in (('<actor host="B" function="node"/>', 'd:4: <actor host="B">: the function "node" is code'),
                            ('<actor host="C" function="p0"/>', 'there is no host "C"'), ('<actor host="z" function="p0"/>', "no host"),
                            ('<actor host="B" function="p0" on_failure="RESTART"/>', "on_failure"),
                            ('<actor host="B" function="p0" start_time="soon"/>', "isn't a number"),
                            ('<actor host="B" function="p0"/><actor host="B" function="p0"/>', "a second actor p0"),
                            ('<actor host="B" function="worker"/><actor host="B" function="worker"/>', "share a mailbox"),
                            ('<actor host="B" function="master"><argument value="1"/></actor>', "tasks, flops, bytes"),
                            ('<actor host="B" function="master">' + '<argument value="1"/>' * 3 + '<argument value="A 1"/></actor>', "no worker"),
                            ('<zone id="y" routing="Full"/>', "in a deployment")):
            with self.subTest(actor):
                self.refused(told, "d", d=HEAD + actor + "</platform>")
        self.refused("a collective together with", "d", "t", t="p0 barrier\n", d=HEAD + '<actor host="B" function="p0" start_time="1"/></platform>')
        self.refused("t:2: unknown action", "d", "t", t="\np0 read 1\n", d=HEAD + '<actor host="B" function="p0"/></platform>')
        self.refused("t:2: unknown actor", "d", "t", t="p0 sleep 1\np9 sleep 1\n", d=HEAD + '<actor host="B" function="p0"/></platform>')

    def ranks(self, text, *options):
        study = Study(p=PLATFORM, hosts="A 1:2\nB # the other\n", t=text)
        done = study.made(*options, "p", "hosts", "t")
        self.assertEqual(done.returncode, 0, done)
        return study, done.stderr.decode()

    def test_ranks(self):
        """Numbers of elements times the sizes of types, by codes or by what `init` sets; waits for the oldest request."""
        study, told = self.ranks("0 init 1\n1 init\n2 init 1\n0 comm_size 3\n0 send 1 5 10\n1 recv 0 5 80\n1 isend 2 0 10 1\n2 irecv 1 0 10\n"
                                 "2 irecv 0 0 10\n0 isend 2 0 3 2\n1 wait 1 2 0\n2 waitall\n0 waitall\n2 test 0 1 2\n0 compute 1e9\n"
                                 "1 sleep 0.5\n0 location f 3\n0 finalize\n", "--eager", "0")
        self.assertEqual([actor["host"] for actor in study.actors()], ["A_1", "A_1", "B"])
        self.assertEqual([study.lines(f"p{rank}") for rank in range(3)], [
            ["send p1 80", "isend p2 3", "wait", "compute 1e9"], ["recv p0", "isend p2 40", "wait", "sleep 0.5"],
            ["irecv p1", "irecv p0", "wait", "wait"]])
        self.assertIn("t:5: send waits until the message has arrived", told)
        self.assertIn("t:14: test is left out", told)
        self.assertEqual(study.run_by_name("--quiet").returncode, 0)

    def test_eager(self):
        """What SMPI sends at once isn't waited for, unless a later request is."""
        study, told = self.ranks("0 send 1 0 10\n1 sleep 1\n1 recv 0 0 10\n0 send 1 0 70000\n1 recv 0 0 1\n")
        self.assertEqual(study.read("script.txt").splitlines(), ["p0 isend p1 10", "p1 sleep 1", "p1 recv p0", "p0 send p1 70000", "p1 recv p0"])
        self.assertIn("sends below 65536 bytes are isend", told)
        study, told = self.ranks("0 isend 1 0 9\n1 recv 0 0 9\n0 wait 0 1 0\n0 sleep 1\n0 irecv 1 0 9\n1 send 0 0 9\n0 wait 1 0 0\n")
        self.assertEqual(study.lines("p0"), ["isend p1 9", "sleep 1", "irecv p1", "wait", "wait"])
        self.assertIn("t:7: a wait also waits for the sends before it", told)
        study, told = self.ranks("0 send 1 0 10\n1 recv 0 0 10\n", "--eager", "0")
        self.assertEqual(study.lines("p0"), ["send p1 10"])
        self.assertIn("t:1: send waits until", told)
        # Of a long message there is no note: SMPI waits too.
        self.assertNotIn("send waits until", self.ranks("0 send 1 0 65536\n1 recv 0 0 65536\n", "--eager", "0")[1])

    def test_waits_in_any_order(self):
        """Waits that stand together end when all are done; another one waits for the older requests too, which a note says."""
        posted = "0 isend 1 0 70000\n0 irecv 1 0 70000\n1 isend 0 0 70000\n1 irecv 0 0 70000\n"
        study, told = self.ranks(posted + "0 wait 1 0 0\n1 wait 0 1 0\n0 wait 0 1 0\n1 wait 1 0 0\n")
        for rank in ("p0", "p1"):
            self.assertEqual(study.lines(rank)[2:], ["wait", "wait"])
        self.assertNotIn("wait", told)
        text = posted + "0 wait 1 0 0\n0 compute 5\n0 wait 0 1 0\n1 waitall\n"
        study, told = self.ranks(text)
        self.assertEqual(study.lines("p0")[2:], ["wait", "wait", "compute 5"])
        self.assertIn("t:5: a wait for another request than the oldest also waits for the older ones", told)
        self.refused("--strict: these warnings are errors", "hosts", "t", "--strict", hosts="A 1:2\n", t=text)

    def test_an_index(self):
        """`smpirun -trace-ti` writes a file that names those of the ranks, beside it or from the working folder."""
        parts = {"ti_rank-0.txt": "0 compute 5\n", "ti_rank-1.txt": "1 compute 6\n"}
        study = Study(p=PLATFORM, hosts="A 1:2\n", ring="parts/ti_rank-0.txt\nti_rank-1.txt\n", **parts)
        (study.path / "parts").mkdir()
        (study.path / "ti_rank-0.txt").rename(study.path / "parts/ti_rank-0.txt")
        self.assertEqual(study.made("p", "hosts", "ring").returncode, 0)
        self.assertEqual(study.read("script.txt"), "p0 compute 5\np1 compute 6\n")
        self.refused("ring:2: nowhere: there is no such file in the folder of the index", "hosts", "ring", hosts="B\n", ring="hosts\nnowhere\n")

    def test_notes_of_many_files(self):
        parts = {f"t{rank}": f"{rank} send {1 - rank} 0 5\n{rank} recv {1 - rank} 0 5\n" for rank in range(2)}
        study = Study(p=PLATFORM, hosts="A 1:2\n", **parts)
        self.assertIn("t0:1: sends below 65536 bytes are isend: they don't wait for the receiver (2 times, in 2 files)",
                      study.made("p", "hosts", "t0", "t1").stderr.decode())

    def test_no_rank(self):
        """A send to -333 is one to MPI_PROC_NULL; of a receive that isn't known."""
        study, told = self.ranks("0 send -333 0 5\n0 isend -333 0 5\n0 wait 0 -333 0\n0 sleep 1\n")
        self.assertEqual(study.lines("p0"), ["sleep 1"])
        self.assertIn("t:1: a send to MPI_PROC_NULL is left out", told)
        self.refused("-333 stands for MPI_ANY_SOURCE or MPI_PROC_NULL", "hosts", "t", hosts="B\n", t="0 recv -333 0 5\n")

    def test_factors_by_size(self):
        """SMPI's factors of the sizes that most messages have; those of <config>; and none of these where a model is named."""
        small, long = "0 send 1 0 3000\n1 recv 0 0 3000\n", "0 send 1 0 100000\n1 recv 0 0 100000\n"
        config = '<config><prop id="smpi/lat-factor" value="1000:3.5;0:2"/><prop id="smpi/bw-factor" value="0:0.5"/></config>'
        for options, text, platform, row, told in (
                ((), small * 2 + long, PLATFORM, ("1.61075", "0.608902"), "above 1426 up to 3484 bytes: 2 of 3 messages; the 1 others"),
                ((), small + long * 2, PLATFORM, ("11.6436", "0.940694"), "above 65472 bytes: 2 of 3 messages"),
                ((), "0 send 1 0 6000\n1 recv 0 0 6000\n", PLATFORM, ("2.18796", "1"), "above 5776 up to 9376 bytes: 1 of 1 messages"),
                ((), small, PLATFORM.replace(HEAD, HEAD + config), ("3.5", "0.5"), "above 1000 bytes"),
                (("--model", "LV08"), small, PLATFORM, ("13.01", "0.97"), "model LV08")):
            with self.subTest((options, text)):
                study = Study(p=platform, hosts="A 1:2\n", t=text)
                done = study.made(*options, "p", "hosts", "t")
                network, = tomllib.loads(study.read("platform.toml"))["network"]
                self.assertEqual((network["latency_factor"], network["bandwidth_factor"]), row)
                self.assertIn(told, done.stderr.decode())

    def test_collectives_of_ranks(self):
        """By SMPI's algorithms; what isn't sent at once are lines of a collective, where there is such a line."""
        every, many = "".join(f"{rank} {{}}\n" for rank in range(3)), ["irecv p1", "irecv p2", "wait", "wait"]
        for action, lines in (("barrier", [[*many, "isend p1 0", "isend p2 0"], *[["isend p0 0", "recv p0"]] * 2]),
                              ("bcast 20000 0 1", [["bcast 80000"]] * 3), ("bcast 10 0 1", [["isend p2 40", "isend p1 40"], ["recv p0"], ["recv p0"]]),
                              ("bcast 10 1", [["recv p1"], ["isend p0 10", "isend p2 10"], ["recv p1"]]),
                              ("reduce 10 5", [[*many, "compute 5"], *[["isend p0 10", "compute 5"]] * 2]),
                              ("reduce 70000 5", [[*many, "compute 5"], *[["send p0 70000", "compute 5"]] * 2]),
                              ("allreduce 10 5 2", [[*many, "isend p2 10", "isend p1 10", "compute 5"],
                                                    *[["isend p0 10", "recv p0", "compute 5"]] * 2]),
                              ("alltoall 70000 7 2 2", [["alltoall 70000"]] * 3), ("allgather 70000 7 2 2", [["alltoall 70000"]] * 3),
                              ("alltoall 7 7 1 1", [["irecv p1", "irecv p2", "isend p1 28", "isend p2 28", "wait", "wait"],
                                                    ["irecv p2", "irecv p0", "isend p2 28", "isend p0 28", "wait", "wait"],
                                                    ["irecv p0", "irecv p1", "isend p0 28", "isend p1 28", "wait", "wait"]]),
                              ("gather 8 8", [many, ["isend p0 8"], ["isend p0 8"]]),
                              ("scatter 8 8 2", [["recv p2"], ["recv p2"], ["isend p0 8", "isend p1 8"]]),
                              ("scatter 70000 8", [["isend p1 70000", "isend p2 70000", "wait", "wait"], ["recv p0"], ["recv p0"]]),
                              ("scan 8 5", [["isend p1 8", "isend p2 8", "compute 5"], ["irecv p0", "isend p2 8", "wait", "compute 5"],
                                            ["irecv p0", "irecv p1", "wait", "wait", "compute 5"]]),
                              ("allgatherv 4 4 5 6", [["irecv p1", "irecv p2", "isend p1 4", "isend p2 4", "wait", "wait"],
                                                      ["irecv p2", "irecv p0", "isend p2 4", "isend p0 4", "wait", "wait"],
                                                      ["irecv p0", "irecv p1", "isend p0 4", "isend p1 4", "wait", "wait"]])):
            with self.subTest(action):
                study, _ = self.ranks(every.format(*[action] * 3))
                self.assertEqual([study.lines(f"p{rank}") for rank in range(3)], lines)
                self.assertEqual(study.run_by_name("--quiet").returncode, 0)

    def test_collectives_beside_requests(self):
        """Where a request is pending, which a wait would be for, receives of a collective wait one by one."""
        study, _ = self.ranks("0 isend 1 0 70000\n1 recv 0 0 70000\n0 allreduce 8 0\n1 allreduce 8 0\n2 allreduce 8 0\n0 wait 0 1 0\n"
                              "0 barrier\n1 barrier\n2 barrier\n")
        self.assertEqual(study.lines("p0"), ["isend p1 70000", "recv p1", "recv p2", "isend p2 8", "isend p1 8", "wait",
                                             "wait", "wait", "irecv p1", "irecv p2", "wait", "wait", "isend p1 0", "isend p2 0"])
        self.assertEqual(study.run_by_name("--quiet").returncode, 0)
        # A receive that is pending would meet the messages of a barrier. As a line it has none.
        posted, rest = "0 irecv 1 0 70000\n", "1 send 0 0 70000\n0 wait 1 0 0\n2 sleep 1\n"
        study, told = self.ranks(posted + "0 barrier\n1 barrier\n2 barrier\n" + rest)
        self.assertEqual(study.lines("p0"), ["irecv p1", "barrier", "wait"])
        self.assertIn("t:2: barriers take no time", told)
        self.assertEqual(study.run_by_name("--quiet").returncode, 0)
        self.refused("t:1: a receive of tag 0 from rank 1, whose message is one of a collective", "hosts", "t", hosts="A 1:3\n",
                     t=posted + "0 allreduce 8 0\n1 allreduce 8 0\n2 allreduce 8 0\n" + rest)

    def test_what_of_ranks_is_refused(self):
        for text, told in (("0 send 1 1 5\n0 send 1 2 5\n1 recv 0 2 5\n1 recv 0 1 5\n", "t:3: a receive of tag 2 from rank 0, whose message is one of tag 1"),
                           ("0 recv -555 0 5\n", "from any rank"), ("0 comm_size 4\n", "comm_size 4"), ("0 send 9 0 1\n", "no rank 9"),
                           ("0 send 0 0 1 99\n", "isn't a type"), ("0 frob\n", "the action frob"), ("0 wait 0 0 0\n", "isn't pending"),
                           ("0 compute x\n", "isn't a number"), ("0 send 0\n", "at least 3"), ("0\n", "a rank and an action")):
            with self.subTest(text):
                self.refused(told, "hosts", "t", hosts="B\n", t=text)
        self.refused('hosts:1: there is no host "C"', "hosts", "t", hosts="C\n", t="0 init\n")

    def test_words(self):
        for words in (("p", "d"), ("--model", "IB", "p"), ("--eager", "-1", "p"), ("-o", "study", "p", "nowhere"), ("-o", "study", "p", "d", "nowhere")):
            study = Study(p=PLATFORM, d=HEAD + '<actor host="B" function="p0"/></platform>')
            self.assertEqual(tool("from_simgrid", *words, folder=study.path).returncode, 2)

    def test_bent_files(self):
        """Whatever the files hold, there is a status, and no traceback."""
        draw = random.Random(41)
        texts = {"p": MESH.encode(), "d": (HEAD + '<actor host="h1" function="p0" start_time="1"/><actor host="h2" function="p1">'
                                           '<argument value="t"/></actor></platform>').encode(), "t": b"p0 send p1 1e6\np1 recv p0\n"}
        for _ in range(40):
            name = draw.choice("ppdt")
            bent = bytearray(texts[name])
            for _ in range(draw.randint(1, 4)):
                place = draw.randrange(len(bent))
                bent[place:place + draw.randint(0, 3)] = bytes(draw.choice(b'<>/"= 0129.-eEabz\n\x00\xff') for _ in range(draw.randint(0, 2)))
            study = Study(**{**texts, name: bytes(bent)})
            self.assertIn(study.made("p", "d", "t").returncode, (0, 1, 2))


if __name__ == "__main__":
    unittest.main()
