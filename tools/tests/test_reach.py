"""What failures cut, by examples/reference_reach.py: each kind, each rule and each line, worked out by hand."""

import os
import subprocess
import sys
import tempfile
import unittest
from pathlib import Path
from unittest import mock

sys.path.insert(0, str(Path(__file__).resolve().parent))
from runs import ROOT, reference, reference_inputs, stand_in  # noqa: E402

import random_reach  # noqa: E402
import reach_by_runs  # noqa: E402
import reference_reach  # noqa: E402

LINKS = ROOT / "examples/two-links/topology.toml"
STORED = sorted(path.parent for path in ROOT.glob("crates/mn_stored_runs/data/runs/*/command.txt") if path.read_text().strip() == "reach")
TWO = LINKS.read_bytes()
STAY = "profile equal least edges one order least interior no resolve topology sync no control ordered bare avoid labels site sessions stay"
END = STAY.removesuffix("stay") + "end"
A, B = "pair a 10.2.0.0/16 delivered b ttl 61 path pe1 p pe2", "pair b 10.1.0.0/16 delivered a ttl 61 path pe2 p pe1"
NOTHING = "total pairs 2 failures 0 verdicts 0 lost 0 part 0 moved 0"


def report(topology, *lines):
    return reference.reach_of(topology, "\n".join(lines).encode())[0].decode().splitlines()


def square(*more):
    """Nodes n0 to n3 in a square, all links of cost 10 but n3-n0, with the sites a at n0 and b at n2."""
    nodes = [f'[[node]]\nname = "n{no}"\nloopback = "192.0.2.{no + 1}"' for no in range(4)]
    links = [f'[[link]]\na = "n{a}"\nb = "n{b}"\ncost = {cost}' for a, b, cost in ((0, 1, 10), (1, 2, 10), (2, 3, 10), (3, 0, 11))]
    both = enumerate((("r0", "n0"), ("r2", "n2")))
    vrfs = [f'[[vrf]]\nname = "{vrf}"\nnode = "{node}"\nrd = "65000:{no}"\nimport = ["1:1"]\nexport = ["1:1"]' for no, (vrf, node) in both]
    sites = [f'[[site]]\nname = "{site}"\nvrf = "{vrf}"\nprefixes = ["{of}"]' for site, vrf, of in (("a", "r0", "10.1.0.0/16"), ("b", "r2", "10.2.0.0/16"))]
    return "\n".join([*nodes, *links, *vrfs, *sites, *more, ""]).encode()


def at_node(no, rd, name, prefixes, imports="1:1", exports="1:1"):
    """A VRF at a node and a site in it."""
    vrf = f'[[vrf]]\nname = "v-{name}"\nnode = "n{no}"\nrd = "65000:{rd}"\nimport = ["{imports}"]\nexport = ["{exports}"]\n'
    return f'{vrf}[[site]]\nname = "{name}"\nvrf = "v-{name}"\nprefixes = [{", ".join(f"{chr(34)}{of}{chr(34)}" for of in prefixes)}]'


class Failures(unittest.TestCase):
    def test_without_failures(self):
        self.assertEqual([STAY, A, B, NOTHING], report(TWO))
        self.assertEqual([STAY, A, B, NOTHING], reference.reach_of(TWO)[0].decode().splitlines())
        self.assertEqual([STAY, A, B, NOTHING], report(TWO, "# none", "", " \t"))

    def test_each_kind(self):
        """The routes stay where sessions stay; where no label leads to their edge the packet is dropped as it enters, never further on."""
        for line, one, other in (
            ("link down p pe1", "NoLsp", "NoLsp"), ("link down p pe2", "NoLsp", "NoLsp"), ("ldp off pe1 p", "NoLsp", "NoLsp"),
            ("ldp off p pe2", "NoLsp", "NoLsp"), ("bgp down pe2 pe1", "NoRoute", "NoRoute"), ("node down p", "NoLsp", "NoLsp"),
            ("node down pe1", "NoLsp", "NoLsp"), ("ldp off p pe2, bgp down pe1 pe2", "NoRoute", "NoRoute"),
        ):  # fmt: skip
            lost = [f"lost 1 a 10.2.0.0/16 {one} at pe1", f"lost 1 b 10.1.0.0/16 {other} at pe2"]
            total = "total pairs 2 failures 1 verdicts 2 lost 2 part 0 moved 0"
            self.assertEqual([STAY, A, B, f"failure 1 line 2 {line}", *lost, total], report(TWO, "", line))

    def test_sessions_end_where_no_links_lead(self):
        told = report(TWO, "sessions end", "node down p", "sessions stay", "node down p", "sessions end", "ldp off pe1 p")
        ended = ["lost 1 a 10.2.0.0/16 NoRoute at pe1", "lost 1 b 10.1.0.0/16 NoRoute at pe2"]
        stayed = ["lost 2 a 10.2.0.0/16 NoLsp at pe1", "lost 2 b 10.1.0.0/16 NoLsp at pe2"]
        without = ["lost 3 a 10.2.0.0/16 NoLsp at pe1", "lost 3 b 10.1.0.0/16 NoLsp at pe2"]
        first = [END, A, B, "failure 1 line 2 node down p", *ended, STAY, A, B, "failure 2 line 4 node down p", *stayed]
        self.assertEqual([*first, END, A, B, "failure 3 line 6 ldp off pe1 p", *without, "total pairs 2 failures 3 verdicts 6 lost 6 part 0 moved 0"], told)

    def test_next_hops_are_resolved_by_a_line(self):
        """10.2.0.0/16 is at n2 and at n3, and the way to n2 has no label: the route of n3 is taken, if that of n2 stands aside."""
        top = square(at_node(3, 3, "c", ["10.2.0.0/16"]))
        lost, moved = "lost 1 a 10.2.0.0/16 NoLsp at n0", "moved 1 a 10.2.0.0/16 delivered c ttl 62 path n0 n3"
        for key, line, word, told in (
            ("", "", "topology", lost), ("", "resolve label", "label", moved), ("", "resolve no", "no", lost), ("resolve = true", "", "topology", moved),
            ("resolve = true", "resolve no", "no", lost), ("resolve = true", "resolve topology", "topology", moved),
        ):  # fmt: skip
            of = report(f"{key}\n".encode() + top, line, "ldp off n1 n2")
            self.assertEqual((STAY.replace("topology", word), told), (of[0], next(one for one in of if one.split()[1:4] == ["1", "a", "10.2.0.0/16"])))

    def test_a_packet_that_moves(self):
        """Of two ways of one cost the neighbour of less number is next; a way through more nodes leaves less TTL."""
        told = report(square(), "link down n1 n0", "ldp off n1 n2", "each ldp")
        self.assertEqual(["pair a 10.2.0.0/16 delivered b ttl 61 path n0 n1 n2", "pair b 10.1.0.0/16 delivered a ttl 61 path n2 n1 n0"], told[1:3])
        self.assertEqual(["moved 1 a 10.2.0.0/16 delivered b ttl 61 path n0 n3 n2", "moved 1 b 10.1.0.0/16 delivered a ttl 61 path n2 n3 n0"], told[4:6])
        self.assertEqual(["lost 2 a 10.2.0.0/16 NoLsp at n0", "lost 2 b 10.1.0.0/16 NoLsp at n2"], told[7:9])
        self.assertEqual("total pairs 2 failures 6 verdicts 12 lost 6 part 0 moved 2", told[-1])

    def test_another_site(self):
        """A longer prefix leads while its edge's session lives; then the shorter one, at another site."""
        told = report(square(at_node(1, 9, "c", ["10.0.0.0/8"])), "bgp down n0 n2")
        self.assertIn("moved 1 a 10.2.0.0/16 delivered c ttl 62 path n0 n1", told)
        self.assertIn("lost 1 b 10.1.0.0/16 NoRoute at n2", report(square(), "bgp down n0 n2"))

    def test_two_edges_of_one_prefix(self):
        """The far edge of less loopback goes before; where the topology says `resolve` it stands aside where no label leads to it."""
        two = square(at_node(3, 9, "b-too", ["10.2.0.0/16"]))
        self.assertEqual("lost 1 a 10.2.0.0/16 NoLsp at n0", report(two, "node down n2")[5])
        self.assertEqual("moved 1 a 10.2.0.0/16 delivered b-too ttl 62 path n0 n3", report(b"resolve = true\n" + two, "node down n2")[5])
        self.assertEqual("lost 1 a 10.2.0.0/16 NoLsp at n0", report(b"resolve = true\n" + two, "node down n0")[5])

    def test_what_was_dropped_and_is_delivered_has_moved(self):
        """What is dropped in either case isn't told, also where the rules differ."""
        apart = square('[[node]]\nname = "n4"\nloopback = "192.0.2.0"', at_node(4, 9, "b-too", ["10.2.0.0/16"]))
        told = report(apart, "bgp down n0 n4", "bgp down n0 n4, bgp down n0 n2")
        self.assertEqual("pair a 10.2.0.0/16 dropped NoLsp at n0", told[1])
        self.assertEqual(["moved 1 a 10.2.0.0/16 delivered b ttl 61 path n0 n1 n2"], [line for line in told if line.startswith("moved")])
        self.assertEqual([], [line for line in told if line.startswith("lost") and line.split()[2:4] == ["a", "10.2.0.0/16"]])

    def test_vrfs_of_one_edge(self):
        """Its own routes go before those of another VRF there, which need no session; TTL is less by one."""
        told = report(square(at_node(0, 9, "c", ["10.2.0.0/16", "10.3.0.0/16"])), "node down n0", "bgp down n0 n2")
        self.assertIn("pair a 10.2.0.0/16 delivered c ttl 63 path n0", told)
        self.assertIn("pair a 10.3.0.0/16 delivered c ttl 63 path n0", told)
        self.assertEqual(["lost 1 b 10.1.0.0/16 NoLsp at n2", "lost 1 b 10.3.0.0/16 NoLsp at n2"], [line for line in told if line.startswith("lost 1")])

    def test_ttl(self):
        """It expires at the node of that place, also where that is the one behind which the site is."""
        ends = {2: ("dropped TtlExpired at p",) * 2, 3: ("dropped TtlExpired at pe2", "dropped TtlExpired at pe1")}
        for ttl in (2, 3, 4, 255):
            one, other = ends.get(ttl, (f"delivered b ttl {ttl - 3} path pe1 p pe2", f"delivered a ttl {ttl - 3} path pe2 p pe1"))
            told = [STAY, f"pair a 10.2.0.0/16 {one}", f"pair b 10.1.0.0/16 {other}"]
            self.assertEqual([*told, NOTHING], report(TWO, f"ttl {ttl}"))
        self.assertEqual([STAY, A, B, "failure 1 line 1 node down pe1"], report(TWO, "node down pe1", "ttl 3")[:4])


class Each(unittest.TestCase):
    def failures(self, topology, *lines):
        return [line.split(" ", 4)[4] for line in report(topology, *lines) if line.startswith("failure")]

    def test_in_the_topologys_order(self):
        links = ["n0 n1", "n1 n2", "n2 n3", "n3 n0"]
        self.assertEqual([f"link down {link}" for link in links], self.failures(square(), "each link"))
        self.assertEqual([f"ldp off {link}" for link in links], self.failures(square(), "each ldp"))
        self.assertEqual([f"node down n{no}" for no in range(4)], self.failures(square(), "each node"))
        self.assertEqual(["bgp down n0 n2"], self.failures(square(), "each bgp"))

    def test_sessions_of_edges_that_exchange_routes(self):
        """In one direction is enough; an edge whose targets nobody shares has no session that counts."""
        three = square(at_node(1, 8, "c", [], "2:2", "1:1"), at_node(3, 9, "d", [], "3:3", "4:4"))
        self.assertEqual(["bgp down n0 n1", "bgp down n0 n2", "bgp down n1 n2"], self.failures(three, "each bgp"))

    def test_many_links(self):
        two = ["0 1", "0 2", "0 3", "1 2", "1 3", "2 3"]
        links = ["n0 n1", "n1 n2", "n2 n3", "n3 n0"]
        told = [", ".join(f"link down {links[int(no)]}" for no in some.split()) for some in two]
        self.assertEqual(told, self.failures(square(), "each 2 links"))
        self.assertEqual(told[3:], self.failures(square(), "each 2 links from 1 to 1023"))
        self.assertEqual(told[3:5], self.failures(square(), "each 2 links from 1 to 1"))
        self.assertEqual([], self.failures(square(), "each 2 links from 2 to 1", "each 3 links from 9 to 9"))
        self.assertEqual([told[0] + ", link down n2 n3", told[0] + ", link down n3 n0"], self.failures(square(), "each 3 links")[:2])
        self.assertEqual(told, self.failures(square(), *(f"each 2 links from {no} to {no}" for no in range(4))))

    def test_counts(self):
        told = report(square(), "counts", "each link", "losses", "ldp off n0 n1")
        counted = [f"link down {link} lost 0 part 0 moved {moved}" for link, moved in (("n0 n1", 2), ("n1 n2", 2), ("n2 n3", 0), ("n3 n0", 0))]
        self.assertEqual([f"failure {no} line 2 {said}" for no, said in enumerate(counted, 1)], told[3:7])
        self.assertEqual([*told[:3], "failure 5 line 4 ldp off n0 n1", "lost 5 a 10.2.0.0/16 NoLsp at n0", "lost 5 b 10.1.0.0/16 NoLsp at n2"], told[7:13])
        self.assertEqual(["total pairs 2 failures 5 verdicts 10 lost 2 part 0 moved 4"], told[13:])

    def test_pairs_are_told_anew_before_what_follows(self):
        """Once for several lines, and at the end."""
        told = report(TWO, "counts", "ttl 9", "ttl 64", "each 2 links from 5 to 9", "losses")
        self.assertEqual([STAY, A, B, STAY, A, B, NOTHING], told)


class Pairs(unittest.TestCase):
    def pairs(self, topology):
        found = reference_reach.pairs_of(reference_inputs.read_topology(topology))
        return [(site, reference_inputs.prefix_text(of), reference_inputs.address_text(at)) for site, of, at in found]

    def test_a_site_and_anothers_prefix(self):
        """Of its own VRF, or of one that exports what its VRF imports; each prefix once, and none that the site has."""
        more = square(at_node(1, 8, "c", ["10.1.0.0/16", "10.3.0.0/16"], "2:2", "1:1"), '[[site]]\nname = "d"\nvrf = "r0"\nprefixes = ["10.3.0.0/16"]')
        a = [(0, "10.2.0.0/16", "10.2.0.1"), (0, "10.3.0.0/16", "10.3.0.1")]
        b = [(1, "10.1.0.0/16", "10.1.0.1"), (1, "10.3.0.0/16", "10.3.0.1")]
        d = [(3, "10.1.0.0/16", "10.1.0.1"), (3, "10.2.0.0/16", "10.2.0.1")]
        self.assertEqual(a + b + d, self.pairs(more))

    def test_the_address_of_a_prefix(self):
        for of, due in (
            ("10.0.0.0/8", "10.0.0.1"), ("10.0.0.4/30", "10.0.0.5"), ("10.0.0.2/31", "10.0.0.2"), ("10.0.0.3/32", "10.0.0.3"), ("0.0.0.0/0", "1.0.0.1"),
            ("0.0.0.0/7", "1.0.0.1"), ("0.0.0.0/8", None), ("0.0.0.0/32", None), ("1.0.0.0/8", "1.0.0.1"), ("126.0.0.0/7", "126.0.0.1"), ("127.0.0.0/8", None),
            ("128.0.0.0/1", "128.0.0.1"), ("224.0.0.0/3", None), ("255.255.255.255/32", None), ("223.255.255.255/32", "223.255.255.255"),
        ):  # fmt: skip
            found = self.pairs(square(at_node(1, 9, "c", [of])))[1:2]
            self.assertEqual([(0, of, due)] if due else [(1, "10.1.0.0/16", "10.1.0.1")], found, of)

    def test_too_many(self):
        with mock.patch.object(reference_reach, "PAIRS", 1):
            self.assertEqual(["too large pairs"], report(TWO, "each link"))
            self.assertEqual(["script refused S2 WrongCount at line 1"], report(TWO, "each"))
        with mock.patch.object(reference_reach, "PAIRS", 2):
            self.assertEqual([STAY, A, B, NOTHING], report(TWO))


class Lines(unittest.TestCase):
    def test_what_is_no_line_is_refused(self):
        for line, rule in (
            ("down pe1 p", "S1 UnknownWord"), ("link up pe1 p", "S1 UnknownWord"), ("node up p", "S1 UnknownWord"), ("each site", "S1 UnknownWord"),
            ("each 2", "S1 UnknownWord"), ("each 2 nodes", "S1 UnknownWord"), ("each 2 links to 5", "S1 UnknownWord"),
            ("each 2 links from 5 until 9", "S1 UnknownWord"), ("sessions ended", "S1 UnknownWord"), ("profile frr", "S1 UnknownWord"),
            ("resolve labels", "S1 UnknownWord"), ("resolve yes no", "S1 UnknownWord"), ("resolve", "S2 WrongCount"), ("resolve no 1", "S2 WrongCount"),
            ("node down p, each link", "S1 UnknownWord"), ("counts, node down p", "S1 UnknownWord"), ("node down p,# and p", "S1 UnknownWord"),
            ("node down p, pe1", "S1 UnknownWord"), ("each 2 links until", "S1 UnknownWord"), ("node p\x0b", "S1 UnknownWord"), ("link", "S2 WrongCount"),
            ("link down pe1", "S2 WrongCount"), ("link down pe1 p pe2", "S2 WrongCount"), ("each", "S2 WrongCount"), ("each link links", "S2 WrongCount"),
            ("each 2 links from", "S2 WrongCount"), ("each 2 links from 5", "S2 WrongCount"), ("each x links from 5 to", "S2 WrongCount"),
            ("each 2 links from 5 to 9 9", "S2 WrongCount"), ("sessions", "S2 WrongCount"), ("sessions end now", "S2 WrongCount"),
            ("losses 1", "S2 WrongCount"), ("ttl", "S2 WrongCount"), ("ttl 64 65", "S2 WrongCount"), (",", "S2 WrongCount"), ("node down p,", "S2 WrongCount"),
            ("node down p,,node down pe1", "S2 WrongCount"), ("node down p, # pe1", "S2 WrongCount"),
            ("link down pe1 p, node down p, link down p pe1", "S2 WrongCount"), ("bgp down pe1 pe2, bgp down pe2 pe1", "S2 WrongCount"),
            ("node down p, node down p", "S2 WrongCount"), ("ttl 1", "S3 BadNumber"), ("ttl 256", "S3 BadNumber"), ("ttl 064", "S3 BadNumber"),
            ("each 1 links", "S3 BadNumber"), ("each 4 links", "S3 BadNumber"), ("each 2 links from 0 to 1024", "S3 BadNumber"),
            ("each 2 links from -1 to 3", "S3 BadNumber"), ("link down pe1 q", "S4 NoSuchName"), ("ldp off q q", "S4 NoSuchName"),
            ("bgp down p q", "S4 NoSuchName"), ("node down red1", "S4 NoSuchName"), ("node down p\xa0", "S4 NoSuchName"), ("link down pe1 pe2", "S5 NotLinked"),
            ("link down p p", "S5 NotLinked"), ("bgp down pe1 p", "S6 NotEdge"), ("bgp down pe1 pe1", "S6 NotEdge"),
            ("node down q, link down pe1", "S4 NoSuchName"), ("link down pe1 pe2, node down q", "S5 NotLinked"),
            ("node down p, node down p, link sideways", "S1 UnknownWord"),
        ):  # fmt: skip
            self.assertEqual([f"script refused {rule} at line 3"], report(TWO, "each link # all of them", "", line, "nonsense"), line)

    def test_parts_stand_between_commas(self):
        for line in ("node down p,ldp off pe1 p", "node down p ,ldp off pe1 p", "\tnode\tdown p \t,  ldp off pe1\tp # why, or not"):
            self.assertEqual("failure 1 line 1 node down p, ldp off pe1 p", report(TWO, line)[3])

    def test_parts_of_a_line(self):
        """At most 1,024: of links down, LDP off and nodes down of 512 links and nodes in a ring."""
        nodes = [f'[[node]]\nname = "r{no}"\nloopback = "10.0.0.{no}"' for no in range(256)]
        ends = [(a, b) for a in range(256) for b in (a + 1, a + 2, a + 3) if b < 256][:600]
        ring = "\n".join([*nodes, *(f'[[link]]\na = "r{a}"\nb = "r{b}"' for a, b in ends), ""]).encode()
        parts = [f"{what} r{a} r{b}" for what in ("link down", "ldp off") for a, b in ends]
        self.assertEqual("total pairs 0 failures 1 verdicts 0 lost 0 part 0 moved 0", report(ring, ", ".join(parts[:1024]))[-1])
        self.assertEqual(["script refused S2 WrongCount at line 1"], report(ring, ", ".join(parts[:1025])))

    def test_inputs_are_refused_in_their_order(self):
        self.assertEqual(["topology refused T2 UnknownKey at top"], report(b"x = 1", "nonsense"))
        self.assertEqual(["script refused S1 UnknownWord at line 1"], report(TWO, "nonsense", "each"))
        with mock.patch.object(reference_inputs, "lines_of", lambda bytes_: [""] * 3_000_001):
            self.assertEqual(["too large script lines"], report(TWO, "nonsense"))


class Told(unittest.TestCase):
    def test_the_page_shows_what_is_put(self):
        blocks = (ROOT / "docs/REACH.md").read_text().split("```")[1::2]
        self.assertEqual("\n".join(["console", "$ mplsnet reach examples/two-links/topology.toml", STAY, A, B, NOTHING, ""]), blocks[0])
        found = (ROOT / "examples/reach/expected/report.txt").read_text().splitlines()
        shown = blocks[1].splitlines()[1:]
        self.assertEqual(4, sum(line.startswith("failure ") for line in shown))
        for at, line in enumerate(shown):
            self.assertIn(line, found)
            if not line.startswith("failure "):
                self.assertEqual(shown[at - 1], found[found.index(line) - 1])

    def test_the_man_page_shows_what_is_put(self):
        page = (ROOT / "man/mplsnet.1").read_text()
        for line in report(TWO, "each link"):
            self.assertEqual(line.startswith(("lost", "total")), f"\n{line}\n" in page, line)


class Reference(unittest.TestCase):
    def run_it(self, *words):
        ran = subprocess.run([sys.executable, "-B", ROOT / "examples/reference.py", *map(str, words)], capture_output=True, text=True)
        return ran.returncode, ran.stdout, ran.stderr

    def test_leaves_a_report_alone(self):
        with tempfile.TemporaryDirectory() as room:
            out, failures = Path(room) / "out", Path(room) / "failures.txt"
            failures.write_text("each link\n")
            for words, last in (([LINKS], "failures 0 verdicts 0 lost 0"), ([LINKS, failures], "failures 2 verdicts 4 lost 4")):
                self.assertEqual((0, "", ""), self.run_it("reach", *words, out))
                self.assertEqual(["report.txt"], [path.name for path in out.iterdir()])
                self.assertTrue((out / "report.txt").read_text().endswith(f"total pairs 2 {last} part 0 moved 0\n"))
                self.assertEqual((0, "1 files are as worked out here\n", ""), self.run_it("--compare", "reach", *words, out))

    def test_other_words(self):
        self.assertEqual(2, self.run_it("reach", LINKS)[0])
        self.assertEqual(2, self.run_it("reach", LINKS, LINKS, LINKS, LINKS)[0])
        self.assertIn("reference.py [--compare] reach TOPOLOGY [FAILURES] FOLDER", self.run_it("--help")[1])


def by_run(*inputs):
    return reference.run_of(*inputs)[0]


class ByRuns(unittest.TestCase):
    """What the network at rest is told to do is what its steps come to, in any order."""

    def test_random_failures(self):
        compared = 0
        for seed in range(int(os.environ.get("MPLSNET_RANDOM", "40")) // 6):
            inputs = random_reach.random_reach(seed)
            with self.subTest(seed=seed):
                differs, verdicts = reach_by_runs.difference(inputs, reference.reach_of(*inputs)[0], by_run, seed)
                self.assertIsNone(differs)
                compared += verdicts
        self.assertLess(300, compared)

    def test_what_differs_is_told(self):
        failures = "ldp off n0 n1, link down n3 n0\ncounts\nlink down n0 n1\nsessions end\nttl 5\nbgp down n0 n2, node down n2"
        inputs = square(at_node(3, 9, "b-too", ["10.2.0.0/16"])), failures.encode()
        said = reference.reach_of(*inputs)[0]
        self.assertEqual((None, 18), reach_by_runs.difference(inputs, said, by_run))
        for was, now, due in (
            (b"lost 1 a 10.2.0.0/16 NoLsp at n0\n", b"", "says delivered b ttl 61 path n0 n1 n2, a run comes to dropped NoLsp at n0"),
            (b"lost 1 a 10.2.0.0/16 NoLsp at n0", b"lost 1 a 10.2.0.0/16 NoRoute at n0", "reach says dropped NoRoute at n0"),
            (b"lost 1 a 10.2.0.0/16 NoLsp at n0", b"lost 2 a 10.2.0.0/16 NoLsp at n0", "no pair of failure 1: lost 2 a 10.2.0.0/16 NoLsp at n0"),
            (b"lost 1 a 10.2.0.0/16 NoLsp at n0", b"lost 1 a 10.3.0.0/16 NoLsp at n0", "no pair of failure 1: lost 1 a 10.3.0.0/16"),
            (b"ttl 61 path n0 n1 n2", b"ttl 61 path n0 n3 n2", "no failure: a 10.2.0.0/16: reach says delivered b ttl 61 path n0 n3 n2, a run comes to "),
            (b"lost 0 part 0 moved 2\nprofile", b"lost 1 part 0 moved 2\nprofile", "n0 n1 lost 1 part 0 moved 2: a run comes to lost 0 moved 2"),
            (b"total pairs 3", b"total pairs 4", "the total due is total pairs 3"),
            (b"total pairs", b"lost 9\ntotal pairs", "no pair of failure 3: lost 9"),
            (b"profile", b"pair", "a line profile is due"),
            (b"pair b 10.1.0.0/16", b"pair b 10.1.0.0/17", "no failure: b 10.1.0.0/16: reach says pair b 10.1.0.0/17"),
        ):  # fmt: skip
            self.assertIn(was, said)
            differs, _ = reach_by_runs.difference(inputs, said.replace(was, now, 1), by_run)
            self.assertIn(due, differs or "nothing")

    def test_what_a_run_refuses_is_told(self):
        differs, _ = reach_by_runs.difference((TWO,), reference.reach_of(TWO)[0], lambda *inputs: b"line 3 refused Unchanged\n")
        self.assertEqual("the run says: line 3 refused Unchanged", differs)
        differs, _ = reach_by_runs.difference((TWO,), reference.reach_of(TWO)[0], lambda *inputs: b"total packets 0\n")
        self.assertEqual("1 states of 2 pairs, and 0 packets", differs)

    def test_what_is_refused_is_not_run(self):
        self.assertEqual((None, 0), reach_by_runs.difference((b"x = 1",), b"", by_run))
        self.assertEqual((None, 0), reach_by_runs.difference((TWO, b"each"), b"", by_run))


class Compare(unittest.TestCase):
    """The script that compares program and reference, by a program that is the reference, whole or with a fault in it."""

    def setUp(self):
        room = tempfile.TemporaryDirectory()
        self.addCleanup(room.cleanup)
        self.room = Path(room.name)
        self.program = stand_in(self.room)

    def compare(self, *words):
        ran = subprocess.run([ROOT / "scripts/compare", "--program", self.program, *map(str, words)], capture_output=True, text=True)
        return ran.returncode, ran.stdout, ran.stderr

    def test_the_stored_failures(self):
        self.assertEqual(20, len(STORED))
        self.assertEqual((0, "20 runs: program and reference leave what is expected\n", ""), self.compare(*STORED))

    def test_random_failures(self):
        status, said, err = self.compare("--random", "5", "--command", "reach", "--simulate")
        self.assertEqual((0, "5 random runs of reach, 0 differences", ""), (status, said.splitlines()[0], err))
        for what in ("failure of bgp down", "lost NoLsp", "moved delivered", "pair delivered", "table profile", "verdicts that a run comes to"):
            self.assertIn(f" {what}\n", said)

    def test_failures_that_differ_are_told_and_kept(self):
        fault = "import reference, reference_reach\nreference_reach.is_dropped = lambda verdict: False\n"
        self.program.write_text(self.program.read_text().replace("import reference\n", fault))
        status, said, err = self.compare("--random", "4", "--command", "reach", "--keep", self.room / "kept")
        self.assertEqual((1, ""), (status, err))
        self.assertRegex(said, r"seed \d+: report.txt at line \d+: due is\n  lost 1 \S+ \S+ No\w+ at .*\nfound\n  moved 1 ")
        kept = next((self.room / "kept").iterdir())
        self.assertEqual(["due", "failures.txt", "found", "topology.toml"], sorted(path.name for path in kept.iterdir()))

    def test_other_words(self):
        for words in (["--simulate"], ["--random", "1", "--simulate"], ["--command", "reach", "--simulate"]):
            status, said, err = self.compare(*words)
            self.assertEqual((2, ""), (status, said))
            self.assertIn("--simulate goes with --random and --command reach", err)


if __name__ == "__main__":
    unittest.main()
