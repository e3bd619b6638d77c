"""The drawing of a topology, of each way that a packet can end, and what is said of wrong files."""

import re
import shutil
import subprocess
import sys
import tempfile
import unittest
from cmath import phase
from pathlib import Path

from provider import Provider

ROOT = Path(__file__).resolve().parents[2]
DRAW = ROOT / "tools/mplsnet-draw"
LINKS = ROOT / "examples/two-links/topology.toml"
REPORT = """\
line 4 refused Unchanged
packet 1 line 5 site a record 1 delivered b ttl 61 copy 1 path pe1 p pe2
packet 2 line 6 site a record 1 flying p pe2 path pe1 p
packet 3 line 7 site a record 1 dropped TtlExpired at p path pe1 p pe1 p
packet 4 line 8 site a record 1 delivered b ttl 61 copy 2 path pe1 pe2
packet 5 line 9 site a record 1 lost
packet 6 line 9 site c record 1 dropped SiteDown at pe1 path pe1
total packets 6 delivered 2 dropped 2 flying 1 steps 42 refused 1 tick 4
"""


class Draw(unittest.TestCase):
    def setUp(self):
        self.folder = Path(tempfile.mkdtemp())
        self.addCleanup(shutil.rmtree, self.folder)
        self.report = self.folder / "report.txt"
        self.report.write_text(REPORT)

    def run_draw(self, *words, **more):
        return subprocess.run([sys.executable, DRAW, *map(str, words)], capture_output=True, text=True, **more)

    def drawn(self, *words):
        ran = self.run_draw(*words)
        self.assertEqual((0, ""), (ran.returncode, ran.stderr))
        return ran.stdout

    def refused(self, status, said, *words, **more):
        ran = self.run_draw(*words, **more)
        self.assertEqual((status, ""), (ran.returncode, ran.stdout))
        self.assertIn(said, ran.stderr)
        self.assertNotIn("Traceback", ran.stderr)

    def file(self, text):
        path = self.folder / "net.toml"
        path.write_text(text)
        return path

    def line(self, drawing, *words):
        found = [line for line in drawing.splitlines() if all(word in line for word in words)]
        self.assertEqual(1, len(found), drawing)
        return found[0]

    def test_a_topology(self):
        drawing = self.drawn(LINKS)
        self.assertIn("shape=\"box\"", self.line(drawing, '"node pe1" [', "192.0.2.1"))
        self.assertIn("shape=\"ellipse\"", self.line(drawing, '"node p" [', "192.0.2.2"))
        self.assertIn("cost 10 delay 2", self.line(drawing, '"node pe1" -- "node p"'))
        self.assertIn("import 65000:100", self.line(drawing, '"vrf red1" [', "rd 65000:1"))
        self.line(drawing, '"site b" [', "10.2.0.0/16")
        self.line(drawing, '"vrf red2" -- "site b"')
        self.assertNotIn("penwidth", drawing)

    def test_every_topology_of_the_examples(self):
        for file in sorted(ROOT.glob("examples/**/*.toml")):
            self.assertTrue(self.drawn(file).startswith("graph"))

    def test_a_delivered_packet(self):
        drawing = self.drawn("--report", self.report, "--packet", 1, LINKS)
        for words, label in ((('"node pe1" -- "node p"',), "hop 1"), (('"node p" -- "node pe2"',), "hop 2")):
            line = self.line(drawing, *words)
            self.assertIn(label, line)
            self.assertIn('penwidth="3"', line)
            self.assertIn('dir="forward"', line)
        self.assertIn("penwidth", self.line(drawing, '"vrf red2" -- "site b"'))
        self.line(drawing, "delivered to site b with TTL 61, copy 1; path pe1 p pe2")

    def test_a_packet_in_flight(self):
        drawing = self.drawn("--report", self.report, "--packet", 2, LINKS)
        self.assertIn('style="dashed"', self.line(drawing, '"node p" -- "node pe2"', "in flight"))
        self.assertNotIn("penwidth", self.line(drawing, '"vrf red2" -- "site b"'))

    def test_a_dropped_packet_that_went_to_and_fro(self):
        drawing = self.drawn("--report", self.report, "--packet", 3, LINKS)
        self.assertIn('dir="both"', self.line(drawing, '"node pe1" -- "node p"', "hop 1, 2, 3"))
        self.line(drawing, '"node p" -- drop')

    def test_the_report_of_the_first_example(self):
        first = ROOT / "examples/first"
        drawing = self.drawn("--report", first / "expected/report.txt", "--packet", 1, first / "topology.toml")
        self.line(drawing, "delivered to site b with TTL 63")

    def test_wrong_words(self):
        self.refused(2, "usage:")
        self.refused(2, "go together", "--report", self.report, LINKS)
        self.refused(2, "isn't a number from 1", "--report", self.report, "--packet", "0", LINKS)

    def test_wrong_topologies(self):
        node = '[[node]]\nname = "x"\nloopback = "10.0.0.1"\n'
        self.refused(1, "nothing.toml: No such file", self.folder / "nothing.toml")
        for text, said in (
            ("as = = 1", "1:6: T1 NotToml at top: '=' stands where a value has to stand"),
            ("[node]", "1:1: T4 WrongKind at top: node = {..}: it is an array of tables, and this is a table; write [[node]]"),
            ("node = [1]", "1:9: T4 WrongKind at top: node: its element 0 is an integer, and it is an array of tables"),
            (node + '[[link]]\na = "x"\nb = "y"\n', '6:5: T7 NoSuchName at link 0: b = "y"'),
            (node + '[[link]]\na = "x"\n', "4:1: T3 MissingKey at link 0: the key 'b' is missing"),
            (node + '[[link]]\na = "x"\nb = "x"\n', "6:5: T8 SelfLink at link 0: both ends are 'x'"),
            (node + node, "5:8: T6 TwiceNamed at node 1 'x'"),
            ('[[node]]\nname = "a b"\nloopback = "10.0.0.1"\n', "2:8: T5 BadName at node 0 'a b'"),
            ('[[node]]\nname = 7\nloopback = "10.0.0.1"\n', "2:8: T4 WrongKind at node 0"),
            ('[[site]]\nname = "a"\nvrf = "red"\n', '3:7: T7 NoSuchName at site 0 \'a\': vrf = "red"'),
        ):
            with self.subTest(text):
                self.refused(1, f"net.toml:{said}", self.file(text))

    def test_a_table_over_several_lines(self):
        """TOML 1.1, which the program reads too."""
        ran = self.run_draw(self.file('node = [{\n  name = "core",\n  loopback = "10.0.0.1",\n}]\n'))
        self.assertEqual((0, ""), (ran.returncode, ran.stderr))
        self.assertIn("core", ran.stdout)

    def test_wrong_reports(self):
        self.refused(1, "no line of packet 7: it has packets 1 to 6", "--report", self.report, "--packet", 7, LINKS)
        self.refused(1, "no link from 'pe1' to 'pe2'", "--report", self.report, "--packet", 4, LINKS)
        self.refused(1, "report.txt: line 6: not a packet's line", "--report", self.report, "--packet", 5, LINKS)
        self.refused(1, "no site 'c'", "--report", self.report, "--packet", 6, LINKS)
        self.refused(1, "T1 NotToml", DRAW)

    def test_many_prefixes_are_told_in_few_words(self):
        prefixes = [f"10.{n}.0.0/16" for n in range(9)]
        vrf = '[[node]]\nname = "x"\nloopback = "10.0.0.1"\n[[vrf]]\nname = "v"\nnode = "x"\nrd = "1:1"\n'
        drawing = self.drawn(self.file(f'{vrf}[[site]]\nname = "s"\nvrf = "v"\nprefixes = {prefixes}\n'))
        self.assertIn("10.3.0.0/16\\nand 5 more", self.line(drawing, '"site s" [', "house"))

    def test_a_large_network_has_its_sites_in_the_nodes_labels_and_words_at_unlike_links(self):
        topology = self.file(Provider(8, 30).topology())
        drawing = self.drawn(topology)
        self.assertIn("c9s1, c9s4", self.line(drawing, '"node pe09" ['))
        self.assertNotIn('"site c9s1"', drawing)
        self.assertIn('label=""', self.line(drawing, '"node p02" -- "node p03"'))
        self.assertIn("cost 50 delay 3", self.line(drawing, '"node pe01" -- "node p01"'))
        self.line(drawing, "links without words: cost 10 delay 1")
        self.report.write_text("packet 1 line 5 site c1s1 record 1 delivered c1s2 ttl 61 copy 1 path pe01 p05 pe11\n")
        drawing = self.drawn("--report", self.report, "--packet", 1, topology)
        self.assertIn("penwidth", self.line(drawing, '"vrf vpn1-c1s2" -- "site c1s2"'))
        self.assertEqual(2, drawing.count("shape=\"house\""), "the packet's sites alone")

    def test_one_vpn_no_sites_and_links_that_are_down(self):
        topology = self.file(Provider(4, 8).topology())
        self.assertEqual(2, self.drawn("--vpn", "vpn3", topology).count("shape=\"house\""))
        self.assertEqual(2, self.drawn("--vpn", "65000:102", topology).count("shape=\"house\""))
        self.refused(1, "no VPN 'blue': it has vpn1, ", "--vpn", "blue", topology)
        self.assertNotIn("house", self.drawn("--no-sites", topology))
        drawing = self.drawn("--down", "p01+p02,p01+pe05", topology)
        self.assertEqual(2, drawing.count("down"))
        self.assertIn("dashed", self.line(drawing, '"node pe05" -- "node p01"', "down"))
        self.refused(1, "there is no link 'p01+p04'", "--down", "p01+p02,p01+p04", topology)

    def test_a_circle_has_the_nodes_in_their_order(self):
        drawing = self.drawn("--layout", "circle", ROOT / "examples/ring/topology.toml")
        places = [complex(*map(float, place)) for place in re.findall(r'pos="([-.\d]+),([-.\d]+)!"', drawing)]
        self.assertEqual(12, len(places))
        turns = [phase(other / one) for one, other in zip(places, places[1:])]
        self.assertTrue(all(turn < 0 for turn in turns), "clockwise")
        middles = [abs((places[at] + places[at + 6]) / 2) for at in range(6)]
        self.assertGreater(min(middles), 0.1, "lines between opposite nodes don't meet in the middle")

    def test_without_dot_the_message_says_what_to_do(self):
        self.refused(3, "dot isn't installed: install Graphviz", "--svg", self.folder / "x.svg", LINKS, env={"PATH": str(self.folder)})
        self.assertFalse((self.folder / "x.svg").exists())

    @unittest.skipUnless(shutil.which("dot"), "dot isn't installed")
    def test_pictures(self):
        svg, png = self.folder / "x.svg", self.folder / "x.png"
        self.assertEqual("", self.drawn("--svg", svg, "--png", png, "--report", self.report, "--packet", 1, LINKS))
        self.assertIn("delivered to site b", svg.read_text())
        self.assertTrue(png.read_bytes().startswith(b"\x89PNG"))
        self.refused(1, "No such file", "--svg", self.folder / "none/x.svg", LINKS)


if __name__ == "__main__":
    unittest.main()
