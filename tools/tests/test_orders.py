"""What is lost while a network converges: loops by all sets of learned nodes, windows by hand and of all pairs, and the tool as its user meets it."""

import csv
import io
import json
import os
import random
import re
import shutil
import subprocess
import sys
import tempfile
import unittest
from dataclasses import replace
from itertools import combinations
from pathlib import Path

from runs import ROOT, random_runs, reference, stand_in
from test_whatif import CLUSTER, dask_python

import mplsnet.loops as loops
import mplsnet.orders as orders
import mplsnet.whatif as whatif
from mplsnet.files import read_topology
from mplsnet.knowledge import Net, tree

TOOL = ROOT / "tools/mplsnet-orders"
MICRO = ROOT / "examples/micro-loop"
SEEDS = range(int(os.environ.get("MPLSNET_RANDOM", "40")) // 4)


def network(rng, nodes, links, edges):
    """A connected network with like and unlike costs, and a VRF with a site at each edge."""
    names = [f"n{at}" for at in range(nodes)]
    joined = {(rng.randrange(at), at) for at in range(1, nodes)}
    others = [pair for pair in combinations(range(nodes), 2) if pair not in joined]
    joined |= set(rng.sample(others, min(links, len(others))))
    most = rng.choice((1, 3, 60))
    tables = {
        "node": [{"name": name, "loopback": f"192.0.2.{at}"} for at, name in enumerate(rng.sample(names, nodes), 1)],
        "link": [{"a": names[a], "b": names[b], "cost": rng.randint(1, most)} for a, b in sorted(joined)],
        "vrf": [], "site": [],
    }  # fmt: skip
    for at, edge in enumerate(rng.sample(names, edges), 1):
        tables["vrf"].append({"name": f"v{at}", "node": edge, "rd": f"65000:{at}", "import": ["65000:1"], "export": ["65000:1"]})
        tables["site"].append({"name": f"s{at}", "vrf": f"v{at}", "prefixes": [f"10.{at}.0.0/16"]})
    return tables


def changed(folder, cost):
    """The topology of the example micro-loop with another cost of the detour."""
    path = Path(folder) / f"cost-{cost}.toml"
    path.write_text((MICRO / "topology.toml").read_text().replace("cost = 50", f"cost = {cost}"))
    return path


class ByReference(whatif.Reading):
    """Reads what examples/reference.py leaves in place of the program."""

    def run(self):
        report, files = reference.run_of(self.job.topology, self.job.script().encode(), self.job.capture())
        self.out.mkdir()
        (self.folder / "report").write_bytes(report)
        for name, content in files.items():
            (self.out / name).write_bytes(content)


class Found(ByReference, orders.Reading):
    pass


def by_reference(ask, tables, probes, work, **more):
    """The answer of a job, worked out without the program."""
    job = orders.Job(ask, "", "net", tables, probes, work, **more)
    kept, orders.Reading = orders.Reading, Found
    try:
        with tempfile.TemporaryDirectory() as folder:
            return orders.ASKED[ask](job, Path(folder))
    finally:
        orders.Reading = kept


class Loops(unittest.TestCase):
    def found(self, path):
        net = Net(path, read_topology(path))
        hops = loops.Hops(net)
        return net, {net.link_name(link): loops.loops_of(hops, link)[0] for link in range(len(net.links))}

    def test_the_loop_of_the_example(self):
        net, found = self.found(MICRO / "topology.toml")
        (loop,) = found.pop("x-pe2")
        names = lambda nodes: [net.nodes[node] for node in nodes]
        self.assertEqual(("pe2", ["x", "y"]), (net.nodes[loop.edge], names(loop.nodes)))
        sides = loop.learned("down"), loop.unlearned("down"), loop.learned("up"), loop.unlearned("up")
        self.assertEqual([["x"], ["y"], ["y"], ["x"]], list(map(names, sides)))
        self.assertEqual({"pe1-x": [], "x-y": [], "y-pe2": []}, found)

    def test_none_with_a_cheap_detour(self):
        with tempfile.TemporaryDirectory() as folder:
            self.assertEqual([[]] * 4, list(self.found(changed(folder, 15))[1].values()))

    def test_loops_are_those_of_all_sets_of_learned_nodes(self):
        """And the nodes that meet them, by the trees of nodes that know the link and of nodes that don't."""
        count = 0
        for seed in SEEDS:
            rng = random.Random(seed)
            nodes = rng.randint(3, 8)
            tables = network(rng, nodes, rng.randint(2, 6), 3)
            net = Net("net", tables)
            hops = loops.Hops(net)
            for link in range(len(net.links)):
                found, met = set(), set()
                loops_found, are_all = loops.loops_of(hops, link)
                for loop in loops_found:
                    key = loop.edge, frozenset(loops.steps_of(loop.nodes))
                    found.add(key)
                    met |= {(*key, node) for node in loops.ways_into(hops.choices(loop.edge, link), loop.nodes)}
                with self.subTest(seed=seed, link=link):
                    self.assertTrue(are_all)
                    due = due_loops(net, link)
                    self.assertEqual({key[:2] for key in due}, found)
                    self.assertEqual(due, met)
                    count += len(found)
        self.assertGreater(count, len(SEEDS) // 2)


def due_loops(net, link):
    """Each loop of any set of learned nodes, as its edge, its hops, and a node from which a packet comes to it."""
    whole = (1 << len(net.links)) - 1
    due = set()
    for edge in net.edges:
        both = [[tree(net, node, view)[1].get(edge) for view in (whole, whole ^ 1 << link)] for node in range(len(net.nodes))]
        for learned in range(1 << len(net.nodes)):
            hops = [both[node][learned >> node & 1] for node in range(len(net.nodes))]
            for first in range(len(net.nodes)):
                way = [first]
                while way[-1] != edge and hops[way[-1]] is not None and net.link_of[way[-1], hops[way[-1]]] != link:
                    way.append(hops[way[-1]])
                    if way[-1] in way[:-1]:
                        cycle = way[way.index(way[-1]) :]
                        due.add((edge, frozenset(zip(cycle, cycle[1:])), first))
                        break
    return due


class Runs(unittest.TestCase):
    def micro(self, ask, change, work=None, **more):
        tables = read_topology(MICRO / "topology.toml")
        net = Net("net", tables)
        probes = whatif.probes_of(net)
        (found,) = [one for one in orders.changes_of(net, whatif.KINDS) if str(one.failure) == change]
        found = replace(found, pairs=tuple(range(len(probes))))
        return probes, by_reference(ask, tables, probes, [found] if work is None else [work(found)], **more)

    def test_a_window_by_hand(self):
        """The link goes down at tick 0, where b's packets find no session at pe2. At tick 1 all have learned of it, and pe1 has
        x's Withdraw; at tick 2 it has x's Mapping, and x pe1's Withdraw; at tick 3 pe1 has the Release."""
        probes, (down, _) = self.micro("window", "link x-pe2")
        self.assertEqual(["a -> b", "b -> a"], list(map(str, probes)))
        self.assertEqual(("down", 3, 1, 8), (down.way, down.settled, down.every, down.sent))
        self.assertEqual([(1, 0, orders.Fall("NoLsp", "pe2")), (0, 1, orders.Fall("NoLsp", "pe1"))], down.lost)

    def test_a_packet_may_go_astray(self):
        """As above, and x has a default route: pe1 has no label for pe2 at tick 1 and sends there; x has none at tick 0 and keeps h's packet."""
        tables = read_topology(MICRO / "topology.toml") | {"resolve": True}
        tables["vrf"].append({"name": "hub", "node": "x", "rd": "65000:3", "import": ["65000:100"], "export": ["65000:100"]})
        tables["site"].append({"name": "h", "vrf": "hub", "prefixes": ["0.0.0.0/0"]})
        net = Net("net", tables)
        probes = whatif.probes_of(net)
        (change,) = [one for one in orders.changes_of(net, ["links"]) if one.failure.name == "x-pe2"]
        down, _ = by_reference("window", tables, probes, [replace(change, pairs=tuple(range(len(probes))))])
        lost = {(str(probes[probe]), tick, fall.words()) for probe, tick, fall in down.lost}
        at_pe2 = {("b -> a", 0, "NoLsp at pe2"), ("b -> h", 0, "NoLsp at pe2")}
        self.assertEqual({("a -> b", 1, "astray to h"), ("h -> b", 0, "astray to h")} | at_pe2, lost)

    def test_ticks_apart(self):
        _, (down, _) = self.micro("window", "link x-pe2", every=2)
        self.assertEqual([(1, 0, orders.Fall("NoLsp", "pe2"))], down.lost)

    def test_drawn_delays_are_each_nodes_own(self):
        """Packets come to x before it has learned, as none do where all learn at tick 1."""
        rules = set()
        for draw in range(1, 4):
            (down, _) = self.micro("window", "link x-pe2", delays=(1, 9), draw=draw)[1]
            self.assertLessEqual(down.settled, 9 * 6)
            rules |= {(fall.rule, fall.node) for _, _, fall in down.lost}
        self.assertIn(("NoEntry", "x"), rules)

    def test_orders_lose_what_can_be_lost(self):
        net = Net("net", read_topology(MICRO / "topology.toml"))
        acts = lambda change: orders.acts_of(loops.Hops(net), change, (1, 2, 3, 4))
        _, found = self.micro("orders", "link x-pe2", acts)
        self.assertEqual([("down", 1), ("up", 1), ("down", 2), ("up", 2)], [(one.way, one.number) for one in found[:4]])
        rules = {(one.way, fall.rule, fall.node) for one in found for _, _, fall in one.lost}
        self.assertLessEqual({("down", "NoEntry", "x"), ("down", "NoLsp", "pe2"), ("up", "NoEntry", "x")}, rules)
        self.assertEqual(found, self.micro("orders", "link x-pe2", acts)[1])

    def test_pairs_that_no_change_concerns_lose_nothing(self):
        """A window of all pairs loses what one of those concerned does."""
        lost = 0
        for seed in SEEDS[:3]:
            tables = network(random.Random(seed), 5, 2, 3) | {"resolve": True}
            net = Net("net", tables)
            hops, edges, probes = loops.Hops(net), orders.Edges(net), whatif.probes_of(net)
            changes = orders.changes_of(net, whatif.KINDS)
            asked = [replace(change, pairs=orders.concerned(hops, [edges.of(probe) for probe in probes], change)) for change in changes]
            every = [replace(change, pairs=tuple(range(len(probes)))) for change in changes]
            with self.subTest(seed=seed):
                found, due = ([one.lost for one in by_reference("window", tables, probes, work)] for work in (asked, every))
                self.assertEqual(due, found)
                lost += sum(map(len, due))
                self.assertLess(sum(len(change.pairs) for change in asked), sum(len(change.pairs) for change in every))
        self.assertGreater(lost, 0)

    def test_the_edges_of_a_probe_are_those_of_its_best_routes(self):
        """As the reference chooses among all sites of random networks: the packet arrives at the first of them."""
        for seed in SEEDS:
            rng = random.Random(seed)
            tables = random_runs.random_topology(rng)
            net = Net("net", tables)
            edges, probes = orders.Edges(net), whatif.probes_of(net)
            if not probes:
                continue
            ((ends, _),) = by_reference("rest", tables, probes, [])
            for end in ends:
                source, found = edges.of(probes[end.probe])
                with self.subTest(seed=seed, probe=end.probe):
                    self.assertEqual(net.nodes[source], end.path.split()[0])
                    if end.fall is None:
                        self.assertEqual(net.nodes[found[0]], end.path.split()[-1])

    def test_a_case_is_shrunk_to_what_it_takes(self):
        needed = {"b", "d", orders.SENT, "g"}
        case = orders.Case(None, "down", (*"abcde", orders.SENT, *"fghi"), 5, 0, 64, orders.Fall("NoEntry", "x"))
        asked = []
        trial = lambda cases: asked.append(cases) or [needed <= set(one.lines) and one.lines[one.sent] == orders.SENT for one in cases]
        self.assertEqual(("b", "d", orders.SENT, "g"), orders.shrunk(case, trial).lines)


class Tool(unittest.TestCase):
    def setUp(self):
        self.folder = Path(tempfile.mkdtemp())
        self.addCleanup(shutil.rmtree, self.folder)
        self.program = stand_in(self.folder)

    def run_tool(self, *words):
        words = [sys.executable, TOOL, "--program", self.program, "--jobs", "1", *map(str, words)]
        return subprocess.run(words, capture_output=True, text=True)

    def answer(self, status, *words):
        ran = self.run_tool("--quiet", *words)
        self.assertEqual((status, ""), (ran.returncode, ran.stderr))
        return ran.stdout

    def refused(self, status, said, *words):
        ran = self.run_tool("--quiet", *words)
        self.assertEqual((status, ""), (ran.returncode, ran.stdout))
        self.assertIn(said, ran.stderr)
        self.assertNotIn("Traceback", ran.stderr)

    def test_the_loop_of_the_example_and_its_script(self):
        """The script's packet ends as packet 4 of the example does; and the pages say what is lost."""
        worst, page = self.folder / "worst", self.folder / "page.html"
        said = self.answer(1, "--of", "links", "--ask", "loops", "--script", worst, "--html", page, MICRO / "topology.toml")
        for line in (
            "link x-pe2 down:",
            "  loop of x and y towards pe2, once x has learned of it and y hasn't",
            "    1 pair: a -> b",
            "link x-pe2 up:",
            "  loop of x and y towards pe2, once y has learned of it and x hasn't",
            "4 changes, down and up, of 2 pairs",
            "loops: 2 by 1 of 4 links; 2 of them met by 1 pair, each shown by the program",
        ):
            self.assertIn(line + "\n", said)
        self.assertEqual(["loops"], [path.name for path in worst.iterdir()])
        inputs = [(worst / "loops" / name).read_bytes() for name in ("topology.toml", "script.txt", "capture.pcap")]
        self.assertEqual(["link down x pe2", "learn x x pe2", "inject a 1", "flush", ""], inputs[1].decode().split("\n")[-5:])
        report = reference.run_of(*inputs)[0].decode().splitlines()
        fourth = next(line for line in (MICRO / "expected/report.txt").read_text().splitlines() if line.startswith("packet 4 "))
        self.assertEqual(fourth.split(" dropped ")[1], report[-2].split(" dropped ")[1])
        text = page.read_text()
        self.assertNotRegex(text.split("const PAGES")[0], r"<link|<img|\ssrc=|\shref=|url\(")
        self.assertIn("loop of x and y towards pe2", text)
        self.assertIn("const PAGES = {", text)

    def test_none_with_a_cheap_detour(self):
        said = self.answer(0, "--of", "links", "--ask", "loops", changed(self.folder, 15))
        self.assertEqual("4 changes, down and up, of 2 pairs\nloops: none by 4 links\n", said)

    def test_forms_say_the_same(self):
        words = ["--only", "link x-pe2", "--orders", "1", MICRO / "topology.toml"]
        answer = json.loads(self.answer(1, "--json", *words))
        rows = list(csv.DictReader(io.StringIO(self.answer(1, "--csv", *words))))
        self.assertEqual(["down", "up"], [one["way"] for one in answer["changes"]])
        for one in answer["changes"]:
            of = [row for row in rows if row["way"] == one["way"]]
            looped = [(loop["nodes"], answer["pairs"][pair]["from"]) for loop in one["loops"] for pair in loop["pairs"]]
            self.assertEqual(looped, [(row["node"].split(), row["from"]) for row in of if row["ask"] == "loops"])
            for ask in ("window", "orders"):
                lost = sum(len(run["lost"]) for run in one[ask])
                self.assertEqual(lost, sum(int(row["lost"]) for row in of if row["ask"] == ask))

    def test_the_worst_cases_are_so_by_scripts_of_their_own(self):
        worst = self.folder / "worst"
        said = self.answer(1, "--only", "link x-pe2", "--orders", "1", "--script", worst, MICRO / "topology.toml")
        self.assertEqual({"loops", "window", "orders"}, {path.name for path in worst.iterdir()})
        for place in worst.iterdir():
            inputs = [(place / name).read_bytes() for name in ("topology.toml", "script.txt", "capture.pcap")]
            rule, node = re.search(r"ends: (\w+) at (\w+)", inputs[1].decode()).groups()
            report = reference.run_of(*inputs)[0].decode()
            self.assertIn(f" dropped {rule} at {node} ", report)
            self.assertIn(f"{rule} at {node}" if place.name != "loops" else "loop of x and y", said)
        self.answer(0, "--of", "links", "--ask", "loops", "--script", worst, changed(self.folder, 15))
        self.assertEqual([], list(worst.iterdir()))

    def test_what_is_there_is_left(self):
        theirs = self.folder / "theirs"
        (theirs / "loops").mkdir(parents=True)
        (theirs / "loops/script.txt").write_text("drain\n")
        self.refused(3, "loops: is there already", "--script", theirs, MICRO / "topology.toml")
        self.assertEqual("drain\n", (theirs / "loops/script.txt").read_text())

    def test_a_loop_that_the_program_does_not_show(self):
        """Is a fault of one of the two, and told as one."""
        text = self.program.read_text()
        self.program.write_text(text.replace("sys.stdout.buffer.write(report)", 'sys.stdout.buffer.write(report.replace(b"TtlExpired", b"NoEntry"))'))
        self.refused(3, "was found, and the program doesn't show it: NoEntry, path pe1 x y x y", "--of", "links", "--ask", "loops", MICRO / "topology.toml")
        self.answer(1, "--of", "links", "--ask", "loops", "--no-witness", MICRO / "topology.toml")

    def test_wrong_words(self):
        self.refused(2, "'x' is none of links, nodes, ldp, bgp", "--of", "links,x", MICRO / "topology.toml")
        self.refused(2, "'x' is none of loops, window, orders", "--ask", "x", MICRO / "topology.toml")
        self.refused(2, "isn't A..B with ticks from 1 to 999", "--delays", "9..1", MICRO / "topology.toml")
        self.refused(2, "which isn't asked for", "--delays", "1..9", "--ask", "loops", MICRO / "topology.toml")
        self.refused(2, "not allowed with", "--up", "--down", MICRO / "topology.toml")
        self.refused(3, "did you mean 'link x-pe2'?", "--only", "link x-pe", MICRO / "topology.toml")
        self.refused(3, "there is no site 'c'", "--site", "c", MICRO / "topology.toml")

    def test_wrong_files(self):
        self.refused(3, "nothing.toml: No such file", self.folder / "nothing.toml")
        self.refused(3, "no/page.html: No such file", "--html", self.folder / "no/page.html", MICRO / "topology.toml")
        self.program.write_text("#!/bin/sh\necho out of luck >&2\nexit 8\n")
        self.refused(3, "out of luck", MICRO / "topology.toml")


class ByDask(unittest.TestCase):
    @unittest.skipUnless(dask_python(), "dask.distributed isn't installed")
    def test_two_workers_say_the_same(self):
        with tempfile.TemporaryDirectory() as folder:
            program, cluster = stand_in(folder), Path(folder) / "cluster.py"
            cluster.write_text(CLUSTER)
            words = ["--quiet", "--program", str(program), "--only", "link x-pe2", "--ask", "loops,window", str(MICRO / "topology.toml")]
            here = subprocess.run([sys.executable, TOOL, *words], capture_output=True, text=True)
            there = subprocess.run([dask_python(), cluster, TOOL, *words], capture_output=True, text=True, cwd=folder, env={**os.environ, "PYTHONPATH": ""})
            self.assertEqual((1, here.stdout), (there.returncode, there.stdout), there.stderr)


if __name__ == "__main__":
    unittest.main()
