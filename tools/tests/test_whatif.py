"""What is lost by which failure: one run of all equals a run for each, and the tool as its user meets it."""

import csv
import io
import ipaddress
import json
import os
import random
import shutil
import signal
import subprocess
import sys
import tempfile
import time
import tomllib
import unittest
from collections import Counter
from pathlib import Path
from unittest import mock

from runs import ROOT, random_runs, reference, stand_in

import random_reach

import mplsnet.reach as reach
import mplsnet.whatif as whatif
from mplsnet.files import Fault, read_topology
from mplsnet.knowledge import Net
from mplsnet.topology import topology_text

TOOL = ROOT / "tools/mplsnet-whatif"
LINKS = ROOT / "examples/two-links/topology.toml"
SEEDS = range(int(os.environ.get("MPLSNET_RANDOM", "40")) // 4)
DUAL = """
[[node]]
name = "pe1"
loopback = "192.0.2.1"
[[node]]
name = "p"
loopback = "192.0.2.2"
[[node]]
name = "pe2"
loopback = "192.0.2.3"
[[node]]
name = "pe3"
loopback = "192.0.2.4"
[[link]]
a = "pe1"
b = "p"
loss = 2
[[link]]
a = "p"
b = "pe2"
[[link]]
a = "p"
b = "pe3"
[[vrf]]
name = "red1"
node = "pe1"
rd = "65000:1"
import = ["65000:1"]
export = ["65000:1"]
[[vrf]]
name = "red2"
node = "pe2"
rd = "65000:2"
import = ["65000:1"]
export = ["65000:1"]
[[vrf]]
name = "red3"
node = "pe3"
rd = "65000:3"
import = ["65000:1"]
export = ["65000:1"]
[[site]]
name = "a"
vrf = "red1"
prefixes = ["10.1.0.0/16"]
[[site]]
name = "b"
vrf = "red2"
prefixes = ["10.2.0.0/16"]
[[site]]
name = "b-too"
vrf = "red3"
prefixes = ["10.2.0.0/16"]
"""
# Two edges that import of pe2 and export nothing, whose own sites have one half each of its prefix.
VIEWS = DUAL.replace('export = ["65000:1"]', "export = []").replace('rd = "65000:2"\nimport = ["65000:1"]\nexport = []', 'rd = "65000:2"\nexport = ["65000:1"]')
VIEWS = VIEWS.replace("loss = 2\n", "").replace("10.1.0.0/16", "10.2.0.0/17").replace('"red3"\nprefixes = ["10.2.0.0/16"]', '"red3"\nprefixes = ["10.2.128.0/17"]')
# The first address of a prefix is that of another site, and the others are sent to elsewhere.
CROWDED = VIEWS.replace("10.2.0.0/16", "10.2.0.0/30").replace("10.2.0.0/17", "10.2.0.1/32").replace('"10.2.128.0/17"', '"10.2.0.2/32", "10.2.0.3/32"')


class ByReference(whatif.Reading):
    """Reads what examples/reference.py leaves in place of the program."""

    def run(self):
        report, files = reference.run_of(self.job.topology, self.job.script().encode(), self.job.capture())
        self.out.mkdir()
        (self.folder / "report").write_bytes(report)
        for name, content in files.items():
            (self.out / name).write_bytes(content)


class ByDefinitions(reach.Asking):
    """Reads what examples/reference.py puts of reach in place of the program."""

    def answered(self):
        report, _ = reference.reach_of(self.part.topology, self.part.text())
        return self.read(iter(report.decode("latin-1").splitlines()))


def by_reach(net, tables, probes, failures, keep_bgp=False, start=0, lines=None, everything=True):
    pairs, lines = reach.Pairs(net, tables, probes), list(map(reach.line_of, failures)) if lines is None else lines
    about = "", "net", pairs.topology(), tables, whatif.bring_up(net, keep_bgp), keep_bgp, probes, pairs.of_pair
    return ByDefinitions(reach.Part(*about, start, lines, tuple(failures), everything, paths=True), None).answered()


def outcomes(net, tables, probes, failures, keep_bgp=False):
    job = whatif.Job("", "net", topology_text(tables).encode(), tables, whatif.bring_up(net, keep_bgp), probes, failures, paths=True)
    with tempfile.TemporaryDirectory() as folder:
        return ByReference(job, Path(folder)).outcomes()


def told(outcome):
    return outcome.failure, outcome.lost, outcome.moved, outcome.paths


# A second telling, by plain sets: which sites' prefixes are left to a packet where these links are down, or this session ended.


def random_with_defaults(rng):
    """A network with default routes, short prefixes, and prefixes behind several edges and in several VPNs; each VRF has a prefix once."""
    names = [f"n{at}" for at in range(rng.randint(4, 7))]
    links = [{"a": names[at], "b": names[rng.randrange(at)], "cost": rng.randint(1, 4)} for at in range(1, len(names))]
    for a, b in rng.sample([(a, b) for a in names for b in names if a < b], rng.randint(0, 4)):
        if not any({a, b} == {link["a"], link["b"]} for link in links):
            links.append({"a": a, "b": b, "cost": rng.randint(1, 4)})
    vrfs, sites = [], []
    for node in rng.sample(names, rng.randint(2, min(4, len(names)))):
        for vpn in rng.sample((1, 2), rng.randint(1, 2)):
            imports = [f"65000:{vpn}"] + ["65000:3"] * (rng.random() < 0.3)
            exports = [f"65000:{vpn}"] + ["65000:3"] * (rng.random() < 0.3)
            vrfs.append({"name": f"{node}-{vpn}", "node": node, "rd": f"65000:{len(vrfs) + 1}", "import": imports, "export": exports})
    for vrf in vrfs:
        prefixes = ["0.0.0.0/0", "10.0.0.0/8", "10.0.0.0/24", f"10.{len(sites)}.0.0/16", f"10.{len(sites)}.1.0/24"]
        for prefix in rng.sample(prefixes, rng.randint(1, 2)):
            sites.append({"name": f"s{len(sites)}", "vrf": vrf["name"], "prefixes": [prefix]})
    nodes = [{"name": name, "loopback": f"192.0.2.{at + 1}"} for at, name in enumerate(names)]
    return {"as": 65000, "resolve": rng.random() < 0.5, "node": nodes, "link": links, "vrf": vrfs, "site": sites}


def distances(tables, source, without):
    """The least costs from a node by the links that aren't among these, by adding links until nothing changes."""
    found, before = {source: 0}, None
    while before != found:
        before = dict(found)
        for link in tables["link"]:
            for near, far in ((link["a"], link["b"]), (link["b"], link["a"])):
                if near in before and {near, far} not in without:
                    found[far] = min(found.get(far, 1 << 30), found[near] + link["cost"])
    return found


def by_sets(tables, probe, down, ended, off):
    """The verdict of a probe: 'reached', 'lost' or the sites to which it goes astray; none where this telling doesn't know it.

    down: links that are down, off: those without LDP, each a set of its two ends; ended: the two edges of a session that ended.
    """
    vrf_of = {vrf["name"]: vrf for vrf in tables["vrf"]}
    site_of = {site["name"]: site for site in tables["site"]}
    mine, address = vrf_of[site_of[probe.site]["vrf"]], ipaddress.IPv4Address(probe.address)
    costs, without_it, left, unsure = distances(tables, mine["node"], down), distances(tables, mine["node"], down + off), {}, {}
    for site in tables["site"]:
        other = vrf_of[site["vrf"]]
        if other is not mine and not {*mine["import"]} & {*other["export"]} or {mine["node"], other["node"]} == ended:
            continue
        there, is_sure = other["node"], True
        if there not in costs:
            continue
        if there != mine["node"] and off:
            (a, b), cost = sorted(off[0]), next(link["cost"] for link in tables["link"] if {link["a"], link["b"]} == off[0])
            to_there = distances(tables, there, down)
            if without_it.get(there) != costs[there]:
                continue  # each shortest path has the link without LDP
            is_sure = costs[there] not in (costs[a] + cost + to_there[b], costs[b] + cost + to_there[a])
        for prefix in map(ipaddress.IPv4Network, site["prefixes"]):
            if address in prefix:
                (left if is_sure else unsure).setdefault(prefix.prefixlen, set()).add(site["name"])
    best = max(left, default=-1)
    if max(unsure, default=-1) >= best and unsure:
        return None
    if not left:
        return "lost"
    return "reached" if left[best] <= {*probe.to} else left[best] if not left[best] & {*probe.to} else None


class Runs(unittest.TestCase):
    def test_one_run_of_all_equals_a_run_for_each(self):
        compared = lost = 0
        for seed in SEEDS:
            rng = random.Random(seed)
            tables = random_runs.random_topology(rng)
            for link in tables["link"]:
                link.pop("loss", None)
            net = Net("net", tables)
            probes = whatif.probes_of(net)
            keep_bgp = rng.random() < 0.3
            failures = whatif.failures_of(net, whatif.KINDS, keep_bgp) + whatif.double_of(net, keep_bgp)[:6]
            if not probes or not failures:
                continue
            with self.subTest(seed=seed):
                base, *together = outcomes(net, tables, probes, failures, keep_bgp)
                for failure, one in zip(failures, together):
                    alone = outcomes(net, tables, probes, [failure], keep_bgp)
                    self.assertEqual(told(base), told(alone[0]))
                    self.assertEqual(told(alone[1]), told(one))
                    compared += 1
                    lost += len(one.lost)
        self.assertGreater(compared, len(SEEDS))
        self.assertGreater(lost, 0)

    def test_reach_says_what_a_run_says(self):
        """What is lost and why, how many move, each way: of networks with defaults, and others; sessions end and stay, routes stand aside or don't."""
        seen = Counter()
        for seed in SEEDS:
            rng = random.Random(f"reach {seed}")
            tables = rng.choice([random_with_defaults, random_reach.reach_topology])(rng) | {"resolve": rng.random() < 0.5}
            for link in tables["link"]:
                link.pop("loss", None)
            net, keep_bgp = Net("net", tables), tables["resolve"] or rng.random() < 0.3
            probes = whatif.probes_of(net)
            failures = whatif.failures_of(net, whatif.KINDS, keep_bgp)
            failures = rng.sample(failures, min(len(failures), 12)) + whatif.double_of(net, keep_bgp)[:4] + [*reach.Many(net, 3, keep_bgp)][:2]
            try:
                answered = by_reach(net, tables, probes, failures, keep_bgp) if probes else None
            except reach.CantAsk:
                seen["can't be asked"] += 1
                continue
            base, *rest = outcomes(net, tables, probes, failures, keep_bgp) if probes else [None]
            with self.subTest(seed=seed):
                self.assertEqual(probes and (base.lost, base.paths), probes and (answered.base.lost, answered.base.paths))
                for one, (number, other) in zip(rest, answered.outcomes if probes else ()):
                    self.assertEqual((one.failure, one.lost, one.moved), (other.failure, other.lost, other.moved))
                    self.assertEqual(one.paths, other.paths)
                    seen.update([loss.rule for loss in one.lost] + ["moved"] * one.moved)
        for what in ("NoLsp", "NoRoute", "NodeDown", "Astray", "moved"):
            self.assertGreater(seen[what], 0, seen)
        self.assertLess(seen["can't be asked"], 2)

    def test_an_address_of_a_prefix_whose_first_is_of_a_longer_one(self):
        """It is asked for by a prefix of its own, at each site that has the one that is meant."""
        tables = tomllib.loads(DUAL.replace("loss = 2\n", "").replace('["10.2.0.0/16"]', '["10.0.0.0/8"]').replace("10.1.0.0/16", "10.0.0.0/16"))
        net = Net("net", tables)
        probes = whatif.probes_of(net)
        pairs = reach.Pairs(net, tables, probes)
        self.assertEqual({"a 10.1.0.1/32": [0], "b 10.0.0.0/16": [1], "b-too 10.0.0.0/16": [2]}, pairs.of_pair)
        prefixes = [site["prefixes"] for site in tomllib.loads(pairs.topology().decode())["site"]]
        self.assertEqual([["10.0.0.0/16"], ["10.0.0.0/8", "10.1.0.1/32"], ["10.0.0.0/8", "10.1.0.1/32"]], prefixes)
        failures = whatif.failures_of(net, whatif.KINDS, False)
        for (_, one), other in zip(by_reach(net, tables, probes, failures).outcomes, outcomes(net, tables, probes, failures)[1:], strict=True):
            self.assertEqual(told(other), told(one))

    def test_addresses_of_one_prefix_for_two_views(self):
        """Each sender's address is in none of the longer ones that its VRF knows; the other's is asked for beside it."""
        tables = tomllib.loads(VIEWS)
        net = Net("net", tables)
        probes = whatif.probes_of(net)
        pairs = reach.Pairs(net, tables, probes)
        self.assertEqual({"a 10.2.128.0/32": [0], "b-too 10.2.0.0/16": [1]}, pairs.of_pair)
        failures = whatif.failures_of(net, whatif.KINDS, False)
        for (_, one), other in zip(by_reach(net, tables, probes, failures).outcomes, outcomes(net, tables, probes, failures)[1:], strict=True):
            self.assertEqual(told(other), told(one))
        tables = tomllib.loads(CROWDED)
        with self.assertRaisesRegex(reach.CantAsk, "no address of 10.2.0.0/30 is left"):
            reach.Pairs(Net("net", tables), tables, whatif.probes_of(Net("net", tables)))

    def test_more_than_reach_answers(self):
        net = Net("net", tomllib.loads(DUAL))
        for name, most, said in (("MOST_PAIRS", 2, "more than 2 pairs"), ("MOST_PREFIXES", 2, "more than 2 prefixes")):
            with mock.patch.object(reach, name, most), self.assertRaisesRegex(reach.CantAsk, said):
                reach.Pairs(net, tomllib.loads(DUAL), whatif.probes_of(net))
            with mock.patch.object(reach, name, most + 1):
                reach.Pairs(net, tomllib.loads(DUAL), whatif.probes_of(net))

    def test_many_links(self):
        """Their numbers, names and parts are those of all of them in order."""
        net = Net("net", random_reach.reach_topology(random.Random(16)))
        for many in (2, 3):
            of = reach.Many(net, many, True)
            everything = [*of]
            self.assertEqual(whatif.double_of(net, True) if many == 2 else len(everything), everything if many == 2 else len(of))
            self.assertGreater(len(of), 20)
            self.assertEqual(everything, [of.at(number) for number in range(len(of))])
            self.assertEqual([*range(len(of))], [of.number(str(failure)) for failure in everything])
            for failure in everything[::7]:
                names = failure.name.split(" and ")
                self.assertEqual(failure, of.named(" and ".join(names[::-1])))
            for name in ("", "links ", names[0], " and ".join([names[0]] * many), " and ".join([*names, names[0]]), f"{names[0]} and x-y"):
                self.assertIsNone(of.named(name))
                self.assertIsNone(of.number(name))
            for workers in (1, 3, 100):
                parts = [*of.cut(set(), workers)]
                self.assertEqual([0, *(end for _, end, _, _ in parts)], [*(start for start, _, _, _ in parts), len(of)])
                for start, end, lines, (_, first, last) in parts:
                    self.assertEqual([f"each {many} links from {first} to {last - 1}"], lines)
                    ends = (tuple(map(net.number.get, failure.down[0].split()[2:])) for failure in everything[start:end])
                    self.assertTrue(all(first <= net.link_of[pair] < last for pair in ends))
            self.assertEqual([], [*of.cut({*range(len(of))}, 3)])

    def test_parts_leave_out_what_is_known(self):
        failures = whatif.links_of(Net("net", random_reach.reach_topology(random.Random(3))), True)
        listed, all_ = reach.Listed(failures), range(len(failures))
        for known in (set(), {0}, {2, 3}, {*all_} - {4}, {*all_}):
            parts = [*listed.cut(known, 1)]
            self.assertEqual(sorted({*all_} - known), [number for start, end, _, _ in parts for number in range(start, end)])
            self.assertEqual([failures[number] for number in sorted({*all_} - known)], [failure for _, _, _, some in parts for failure in some])

    def test_a_part_of_many_links(self):
        """The same as one by one, by the numbers that all have; what cuts nothing comes back where it is asked for."""
        tables = tomllib.loads(DUAL)
        net = Net("net", tables)
        probes, of = whatif.probes_of(net), reach.Many(net, 2, False)
        alone = by_reach(net, tables, probes, [*of])
        for everything in (True, False):
            found = [(end - start, by_reach(net, tables, probes, some, False, start, lines, everything)) for start, end, lines, some in of.cut(set(), 1)]
            self.assertEqual([count for count, _ in found], [answered.count for _, answered in found])
            due = [(number, outcome) for number, outcome in alone.outcomes if everything or outcome.lost]
            self.assertEqual(due, [one for _, answered in found for one in answered.outcomes])

    def test_what_reach_puts_otherwise_is_a_fault(self):
        tables = tomllib.loads(DUAL)
        net = Net("net", tables)
        probes, failures = whatif.probes_of(net), whatif.links_of(net, False)
        pairs = reach.Pairs(net, tables, probes)
        about = "", "net", pairs.topology(), tables, whatif.bring_up(net, False), False, probes, pairs.of_pair
        asking = reach.Asking(reach.Part(*about, 0, list(map(reach.line_of, failures)), tuple(failures)), None)
        lines = reference.reach_of(asking.part.topology, asking.part.text())[0].decode().splitlines()
        self.assertEqual(3, asking.read(iter(lines)).count)
        self.assertIsNone(asking.read(iter(lines[:-1])))
        self.assertIsNone(asking.read(iter([line for line in lines if not line.startswith("failure 3")])))
        for was, now, said in (
            ("pair a", "pair x", "tells of no pair a 10.2.0.0/16"), ("failure 2", "failure 3", "tells of failure 3 behind 1"),
            ("line 2 link down pe1 p", "line 2 link down p pe1", "tells of link down p pe1"),
            ("total pairs 3", "failure 4 line 5 each\ntotal pairs 3", "tells of failure 4 behind 3"),
        ):  # fmt: skip
            with self.assertRaisesRegex(Fault, said):
                asking.read(iter("\n".join(lines).replace(was, now).split("\n")))

    def test_a_second_telling_by_sets(self):
        """Reached, dropped or astray: in networks with default routes, of each failure and of none; with `resolve` and without."""
        seen = Counter()
        for seed in SEEDS:
            tables = random_with_defaults(random.Random(seed))
            net, keep_bgp = Net("net", tables), tables["resolve"]
            probes, pairs = whatif.probes_of(net), [{link["a"], link["b"]} for link in tables["link"]]
            failures = whatif.failures_of(net, whatif.KINDS if keep_bgp else ("links", "nodes", "bgp"), keep_bgp)
            if not probes:
                continue
            base, *outcomes_ = outcomes(net, tables, probes, failures, keep_bgp)
            kept = {at for at in range(len(probes))} - {loss.probe for loss in base.lost}
            for outcome in [base, *outcomes_]:
                failure, lost = outcome.failure, {loss.probe: loss for loss in outcome.lost}
                ends = [{*line.split()[-2:]} for line in failure.down] if failure else []
                kind = failure.kind if failure else "none"
                down, off = ([] if kind in ("ldp", "bgp") else [one for one in ends if one in pairs]), ends if kind == "ldp" else []
                for at, probe in enumerate(probes):
                    if failure and at not in kept:
                        continue
                    due = by_sets(tables, probe, down, ends[0] if kind == "bgp" else None, off)
                    if kind == "node" and net.nodes[net.edge_of(net.site_number[probe.site])] == failure.node:
                        due = "lost"
                    if due is None:
                        seen["not known"] += 1
                        continue
                    loss = lost.get(at)
                    said = "reached" if loss is None else {loss.astray_to} if loss.astray_to else "lost"
                    with self.subTest(seed=seed, failure=str(failure), probe=str(probe)):
                        self.assertTrue(said <= due if isinstance(due, set) and isinstance(said, set) else said == due, (said, due, loss))
                    seen[kind if failure is None else loss.rule if loss else "reached"] += 1
                    self.assertTrue(loss is None or loss.reason, loss)
        self.assertLess(seen["not known"], sum(seen.values()) // 5)
        for rule in ("reached", "Astray", "NoRoute", "NoLsp", "NodeDown", "none"):
            self.assertGreater(seen[rule], 0, seen)

    def test_sites_behind_several_edges(self):
        """One probe is meant for sites of one prefix whose VRFs have the same targets; another VPN's has its own, and is hidden."""
        tables = tomllib.loads(DUAL)
        self.assertEqual([("a", ("b", "b-too")), ("b", ("a",)), ("b-too", ("a",))], [(probe.site, probe.to) for probe in whatif.probes_of(Net("net", tables))])
        tables["vrf"][2]["export"] = ["65000:1", "65000:9"]
        del tables["link"][0]["loss"]
        net = Net("net", tables)
        probes = whatif.probes_of(net)
        self.assertEqual([("a", ("b",)), ("a", ("b-too",))], [(probe.site, probe.to) for probe in probes[:2]])
        base, *rest = outcomes(net, tables, probes, whatif.failures_of(net, ("links",), False))
        self.assertEqual([(1, "astray to b", "its 10.2.0.0/16 goes before 10.2.0.0/16 of b-too")], [(loss.probe, loss.words(), loss.reason) for loss in base.lost])
        cut = {str(outcome.failure): [(loss.probe, loss.words()) for loss in outcome.lost] for outcome in rest}
        self.assertIn((0, "astray to b-too"), cut["link p-pe2"])

    def test_shares_fit_the_budget(self):
        costs = [random.Random(7).randrange(10, 400) for _ in range(300)]
        work = whatif.shares(list(range(300)), costs, 500, 3_000, 4)
        self.assertEqual(list(range(300)), [one for share in work for one in share])
        self.assertTrue(all(500 + sum(costs[one] for one in share) <= 3_000 for share in work))
        self.assertEqual([[0], [1]], whatif.shares([0, 1], [9_000, 9_000], 500, 3_000, 1))
        self.assertEqual([], whatif.shares([], [], 500, 3_000, 4))

    def test_addresses(self):
        for prefix, due in (
            ((0x0A010000, 16), 0x0A010001), ((0x0A010000, 32), 0x0A010000), ((0x0A010002, 31), 0x0A010002), ((0, 0), 0x01000001), ((0x7F000000, 8), None),
            ((0xE0000000, 4), None),
        ):  # fmt: skip
            self.assertEqual(due, whatif.first_address(prefix))
        for longer, due in (
            ([(0x0A000000, 16)], 0x0A010001), ([(0x0A000000, 9)], 0x0A800001), ([(0x0A000001, 32)], 0x0A000002), ([(0x0A000000, 9), (0x0A800000, 9)], None),
            ([(0x0A000000, 31), (0x0A000002, 32), (0x0A000004, 30)], 0x0A000003),
        ):  # fmt: skip
            self.assertEqual(due, whatif.first_address((0x0A000000, 8), longer))


class Tool(unittest.TestCase):
    def setUp(self):
        self.folder = Path(tempfile.mkdtemp())
        self.addCleanup(shutil.rmtree, self.folder)
        self.program = stand_in(self.folder)
        self.dual = self.folder / "dual.toml"
        self.dual.write_text(DUAL)

    def run_tool(self, *words, **more):
        words = [sys.executable, TOOL, "--program", self.program, *map(str, words)]
        return subprocess.run(words, capture_output=True, text=True, **more)

    def answer(self, status, *words):
        ran = self.run_tool("--quiet", *words)
        self.assertEqual((status, ""), (ran.returncode, ran.stderr))
        return ran.stdout

    def refused(self, status, said, *words):
        ran = self.run_tool(*words)
        self.assertEqual((status, ""), (ran.returncode, ran.stdout))
        self.assertIn(said, ran.stderr)
        self.assertNotIn("Traceback", ran.stderr)

    def test_two_links(self):
        said = self.answer(1, LINKS)
        for line in (
            "link pe1-p: 2 pairs lost",
            "  1 NoLsp at pe1: link pe1-p is down: a -> b",
            "ldp p-pe2: 2 pairs lost at worst",
            "  1 NoLsp at pe1: LDP is off on p-pe2, 2 hops from pe1: a -> b",
            "  1 NodeDown at pe1: node pe1 is down: a -> b",
            "  1 NoRoute at pe1: there is no BGP session between pe1 and pe2: a -> b",
            f"at worst: {whatif.WORST}",
            "8 failures of 2 pairs: 16 verdicts",
            "8 failures cut 2 pairs; 0 cut none",
        ):
            self.assertIn(line + "\n", said)

    def test_two_links_whose_routes_stay_best(self):
        """Where the topology says so in so many words, or by an option."""
        plain = self.folder / "plain.toml"
        plain.write_text("resolve = false\n" + LINKS.read_text())
        said = self.answer(1, plain)
        self.assertEqual(said, self.answer(1, "--no-resolve", LINKS))
        self.assertNotEqual(said, self.answer(1, "--resolve", plain))
        for said_, options, due in ((None, (), True), (True, (), True), (False, (), False), (False, ("resolve",), True), (True, ("no_resolve",), False), (True, ("keep_bgp",), False), (True, ("resolve", "keep_bgp"), True)):
            self.assertIs(due, whatif.resolves(said_, **dict.fromkeys(options, True)), (said_, options))
        for line in (
            "link pe1-p: 2 pairs lost",
            "  1 NoRoute at pe1: no links lead from pe1 to pe2, and their BGP session ended: a -> b",
            "ldp p-pe2: 2 pairs lost at worst",
            "  1 NoLsp at pe1: LDP is off on p-pe2, 2 hops from pe1: a -> b",
            "  1 NoLsp at pe2: LDP is off on p-pe2: b -> a",
            "  1 NodeDown at pe1: node pe1 is down: a -> b",
            "  1 NoRoute at pe1: there is no BGP session between pe1 and pe2: a -> b",
            "8 failures of 2 pairs: 16 verdicts",
            "8 failures cut 2 pairs; 0 cut none",
        ):
            self.assertIn(line + "\n", said)

    def test_a_site_behind_two_edges(self):
        """Its other edge serves it where the session of the first one ends, and doesn't where it stays."""
        said = self.answer(1, "--no-resolve", "--only", "link p-pe2", self.dual)
        self.assertIn("link p-pe2: 1 pair lost, 1 by another way\n  1 NoRoute at pe2: no links lead from pe2 to pe1, and their BGP session ended: b -> a\n", said)
        said = self.answer(1, "--keep-bgp", "--only", "pe2-p", "--of", "links", self.dual)
        self.assertIn("link p-pe2: 2 pairs lost\n  1 NoLsp at pe1: link p-pe2 is down: a -> b|b-too\n", said)

    def test_a_route_that_is_not_resolved(self):
        """It stands aside for that of the other edge, where a link fails and where LDP alone does."""
        said = self.answer(1, "--only", "p-pe2", "--of", "links,ldp", self.dual)
        self.assertIn("link p-pe2: 1 pair lost, 1 by another way\n  1 NoLsp at pe2: link p-pe2 is down: b -> a\n", said)
        self.assertIn("ldp p-pe2: 1 pair lost at worst, 1 by another way\n  1 NoLsp at pe2: LDP is off on p-pe2: b -> a\n", said)

    def test_a_default_route_that_takes_what_is_lost(self):
        """Three nodes, a hub with a default route and a branch: cut off, the hub's packets to the branch stay at the hub, and that is told in every form."""
        net = self.folder / "default.toml"
        net.write_text(DUAL.replace("loss = 2", "").replace("10.1.0.0/16", "0.0.0.0/0").replace("[[site]]\nname = \"b-too\"\nvrf = \"red3\"\nprefixes = [\"10.2.0.0/16\"]\n", ""))
        words = ("--of", "links", "--only", "p-pe2")
        for options, why in (((), "link p-pe2 is down"), (("--no-resolve",), "no links lead from pe1 to pe2, and their BGP session ended")):
            said = self.answer(1, *words, *options, net)
            self.assertIn(f"link p-pe2: 2 pairs lost\n  1 astray to a: {why}: a -> b\n", said)
        lost = json.loads(self.answer(1, "--json", *words, net))["failures"][0]["lost"]
        self.assertEqual({"from": "a", "to": ["b"], "prefix": "10.2.0.0/16", "rule": "Astray", "node": "pe1", "astray_to": "a", "why": "link p-pe2 is down"}, lost[0])
        rows = list(csv.DictReader(io.StringIO(self.answer(1, "--csv", *words, net))))
        self.assertEqual([("a", "Astray", "a"), ("b", "NoLsp", "")], [(row["from"], row["rule"], row["astray_to"]) for row in rows])
        matrix = list(csv.reader(io.StringIO(self.answer(1, "--matrix", *words, net))))
        self.assertEqual(["a", "pe1 p pe2 => astray to a", ""], matrix[1])
        page = self.folder / "page.html"
        self.answer(1, "--html", page, *words, net)
        self.assertIn("<td>astray to a<td>link p-pe2 is down<td>a -&gt; b", page.read_text())

    def test_losses_of_links_are_left_out(self):
        self.assertEqual([], json.loads(self.answer(0, "--json", "--only", "bgp pe2-pe3", self.dual))["unreached"])

    def test_forms_say_the_same(self):
        answer = json.loads(self.answer(1, "--json", self.dual))
        lost = [(one["kind"], one["name"], pair["from"], pair["rule"]) for one in answer["failures"] for pair in one["lost"]]
        rows = list(csv.DictReader(io.StringIO(self.answer(1, "--csv", self.dual))))
        self.assertEqual(lost, [(row["kind"], row["name"], row["from"], row["rule"]) for row in rows])
        matrix = list(csv.reader(io.StringIO(self.answer(1, "--matrix", "--only", "pe1-p", "--of", "links", self.dual))))
        self.assertEqual(["from \\ to", "b|b-too", "a"], matrix[0])
        self.assertEqual("pe1 p pe2 => NoLsp at pe1", matrix[1][1])
        page = self.folder / "page.html"
        self.answer(1, "--html", page, self.dual)
        text = page.read_text()
        self.assertNotRegex(text, r"<link|<img|<script|\ssrc=|\shref=|url\(")
        self.assertIn("link pe1-p: ", text)

    def test_budget_and_jobs_change_nothing(self):
        whole = self.answer(1, self.dual)
        self.assertEqual(whole, self.answer(1, "--budget", "300", "--jobs", "3", self.dual))

    def test_runs_say_the_same(self):
        """In each form; only runs have steps."""
        for words in ((), ("--csv",), ("--matrix",), ("--all",), ("--double",), ("--no-resolve",), ("--keep-bgp", "--of", "links,bgp")):
            self.assertEqual(self.answer(1, *words, self.dual), self.answer(1, "--simulate", *words, self.dual), words)
        answered, ran = (json.loads(self.answer(1, "--json", *words, self.dual)) for words in ((), ("--simulate",)))
        self.assertEqual({None}, {failure.pop("steps") for failure in answered["failures"]})
        self.assertTrue(all(failure.pop("steps") > 0 for failure in ran["failures"]))
        self.assertEqual(ran, answered)

    def test_check(self):
        """Some failures are run too; where that comes to something else both answers are told."""
        words = ("--check", "3", "--seed", "5", "--of", "links,nodes")
        ran = self.run_tool(*words, self.dual)
        self.assertEqual((1, self.answer(1, "--of", "links,nodes", self.dual)), (ran.returncode, ran.stdout))
        self.assertEqual("--check: 3 of 7 failures: runs of the network come to the same", ran.stderr.splitlines()[-1])
        self.assertIn("--check: 1 of 1 failures: runs of the network come to the same", self.run_tool("--check", "9", "--double", LINKS).stderr)
        fault = "import reference, reference_reach\nreference_reach.AtRest.lives = lambda *_: True\n"
        self.program.write_text(self.program.read_text().replace("import reference\n", fault))
        ran = self.run_tool("--quiet", "--check", "9", "--of", "bgp", self.dual)
        self.assertEqual(3, ran.returncode)
        for line in (
            "bgp pe1-pe2: 'mplsnet reach' and a run of the network differ", "reach: 0 lost, 0 by another way",
            "a run: bgp pe1-pe2: 1 pair lost, 1 by another way",
            "a run:   1 NoRoute at pe2: there is no BGP session between pe2 and pe1: b -> a",
        ):  # fmt: skip
            self.assertIn(f"mplsnet-whatif: {line}\n", ran.stderr)
        self.assertEqual(3, self.run_tool("--quiet", "--check", "1", "--of", "bgp", "--json", self.dual).returncode)

    def test_what_reach_cannot_answer_is_run(self):
        net = self.folder / "covered.toml"
        net.write_text(CROWDED)
        ran = self.run_tool("--only", "bgp pe1-pe2", net)
        due = "bgp pe1-pe2: 1 pair lost\n  1 NoRoute at pe1: there is no BGP session between pe1 and pe2: a -> b\n"
        self.assertEqual((1, due), (ran.returncode, "".join(ran.stdout.splitlines(keepends=True)[:2])))
        self.assertEqual(ran.stdout, self.answer(1, "--simulate", "--only", "bgp pe1-pe2", net))
        said = "no address of 10.2.0.0/30 is left beside those of longer prefixes: 'mplsnet reach' can't answer, and the network is run\n"
        self.assertIn(f"mplsnet-whatif: {said}", ran.stderr)
        self.refused(3, "there is nothing to --check", "--check", "1", net)

    def test_a_program_that_knows_no_reach(self):
        self.program.write_text(self.program.read_text().replace('["reach", 3]', '["reach", 9]'))
        self.refused(3, "doesn't know 'reach': --simulate asks by runs", "--quiet", LINKS)
        self.assertIn("8 failures of 2 pairs", self.answer(1, "--simulate", LINKS))

    def test_nothing_that_may_fail(self):
        """What isn't reached without a failure is told all the same."""
        net = self.folder / "alone.toml"
        nodes = '[[node]]\nname = "{0}"\nloopback = "192.0.2.{1}"\n[[vrf]]\nname = "v{1}"\nnode = "{0}"\nrd = "1:{1}"\nimport = ["1:1"]\nexport = ["1:1"]\n'
        sites = '[[site]]\nname = "s{0}"\nvrf = "v{0}"\nprefixes = ["10.{0}.0.0/16"]\n'
        net.write_text("".join(nodes.format(name, at) for at, name in enumerate("ab", 1)) + "".join(sites.format(at) for at in (1, 2)))
        said = "without a failure: 2 pairs of 2 not reached\n  1 NoLsp at a: a sees no walk to b: s1 -> s2\n  1 NoLsp at b: b sees no walk to a: s2 -> s1\n"
        for words in (("--of", "links"), ("--double",), ("--triple",)):
            self.assertEqual(said + "0 failures of 2 pairs: 0 verdicts\n0 failures cut 0 pairs; 0 cut none\n", self.answer(0, *words, net))

    def test_triple(self):
        said = self.answer(1, "--triple", self.dual)
        self.assertIn("links pe1-p and p-pe2 and p-pe3: 3 pairs lost\n", said)
        self.assertIn("1 failure of 3 pairs: 3 verdicts\n", said)
        one = self.answer(1, "--triple", "--only", "p-pe3 and pe2-p and pe1-p", self.dual)
        self.assertEqual(said, one)
        self.refused(3, "no failure is named 'p-pe3 and pe2-p'", "--triple", "--only", "p-pe3 and pe2-p", self.dual)
        self.refused(2, "not allowed with argument", "--triple", "--double", self.dual)

    def test_parts_of_many_links_are_kept(self):
        """A part of which something is known is asked of again, and told once."""
        whole, kept = self.answer(1, "--double", self.dual), self.folder / "known.jsonl"
        self.assertEqual(whole, self.answer(1, "--double", "--resume", kept, "--jobs", "1", self.dual))
        lines = kept.read_text().splitlines(keepends=True)
        for left in ([lines[0], lines[2]], lines[:1], lines, [lines[0], *lines[:0:-1]]):
            kept.write_text("".join(left))
            self.assertEqual(whole, self.answer(1, "--double", "--resume", kept, "--jobs", "1", self.dual))
            self.assertEqual(sorted(lines), sorted(kept.read_text().splitlines(keepends=True)))

    def test_double(self):
        said = self.answer(1, "--double", self.dual)
        self.assertIn("links p-pe2 and p-pe3: 3 pairs lost\n", said)
        self.assertIn("3 failures of 3 pairs: 9 verdicts\n", said)

    def test_wrong_words(self):
        self.refused(2, "'x' is none of links, nodes, ldp, bgp", "--of", "links,x", LINKS)
        self.refused(2, "'0' isn't a number of steps", "--budget", "0", LINKS)
        self.refused(2, "they don't go with --of", "--double", "--of", "ldp", LINKS)
        self.refused(2, "they don't go with --of", "--triple", "--of", "ldp", LINKS)
        self.refused(2, "it doesn't go with --simulate", "--check", "1", "--simulate", LINKS)
        self.refused(2, "'0' isn't a number of failures", "--check", "0", LINKS)
        self.refused(3, "did you mean 'ldp pe1-p'?", "--only", "ldp pe1-pp", LINKS)
        self.refused(3, "there is no site 'c'", "--site", "c", LINKS)

    def test_wrong_files(self):
        self.refused(3, "nothing.toml: No such file", self.folder / "nothing.toml")
        wrong = self.folder / "wrong.toml"
        wrong.write_text("as = = 1")
        self.refused(3, "T1 NotToml at top", wrong)
        wrong.write_text(DUAL.replace('name = "pe3"\nloopback = "192.0.2.4"', 'name = "pe3"\nloopback = "192.0.2.3"'))
        self.refused(3, "T10 TwiceLoopback at node 3", wrong)
        wrong.write_text(DUAL.replace("65000:1", "65000:9", 1).replace('["65000:1"]', "[]"))
        self.refused(3, "no site's VRF imports a target of another's", wrong)
        self.refused(3, "page.html: No such file", "--quiet", "--html", self.folder / "no/page.html", LINKS)
        ran = subprocess.run([sys.executable, TOOL, "--program", self.folder / "nothing", LINKS], capture_output=True, text=True)
        self.assertEqual((3, f"mplsnet-whatif: {self.folder}/nothing: isn't a program that can be run\n"), (ran.returncode, ran.stderr))

    def test_a_program_that_fails(self):
        self.program.write_text("#!/bin/sh\necho out of luck >&2\nexit 8\n")
        self.refused(3, "out of luck", LINKS)

    # Ends.

    def begun(self, *words, ignored=True, **more):
        """The tool at work as a shell begins it in the background, where an interrupt is ignored: its run waits, and says its number."""
        self.waiting = self.folder / "pid"
        before = (lambda: signal.signal(signal.SIGINT, signal.SIG_IGN)) if ignored else None
        words = [sys.executable, TOOL, "--program", self.program, *map(str, words)]
        tool = subprocess.Popen(words, stdout=subprocess.PIPE, stderr=subprocess.PIPE, text=True, start_new_session=True, preexec_fn=before, **more)
        self.until(lambda: self.waiting.exists() and self.waiting.read_text().strip())
        return tool

    def until(self, holds):
        for _ in range(1200):
            if holds():
                return
            time.sleep(0.1)
        self.fail("it didn't come about in two minutes")

    def nothing_is_left(self, said):
        """Neither the program that ran, by its number, nor the folder around that of its topology."""
        number, topology = said.split()
        self.assertIn("mplsnet-whatif-", Path(topology).parents[1].name)
        self.until(lambda: not Path(f"/proc/{number}").exists() and not Path(topology).parents[1].exists())

    def test_signals_end_it_and_nothing_is_left(self):
        """Whatever began it; where it is killed, its processes hear of that and end too."""
        self.program.write_text(f'#!/bin/sh\necho $$ "$2" >{self.folder}/pid\nexec sleep 600\n')
        for number, ignored, status, said in (
            (signal.SIGINT, False, 130, "interrupted after 0 of 8 failures"), (signal.SIGINT, True, 130, "interrupted after 0 of 8 failures"),
            (signal.SIGTERM, True, 143, "ended by SIGTERM after 0 of 8 failures"), (signal.SIGKILL, True, -9, ""),
        ):  # fmt: skip
            with self.subTest(signal=number, ignored=ignored):
                tool = self.begun("--jobs", "1", LINKS, ignored=ignored)
                (os.killpg if not ignored else os.kill)(tool.pid, number)
                out, err = tool.communicate(timeout=120)
                self.assertEqual((status, ""), (tool.returncode, out))
                self.assertIn(said, err)
                self.assertNotIn("Traceback", err)
                self.nothing_is_left(self.waiting.read_text())
                self.waiting.unlink()

    def test_what_is_known_is_told_and_is_gone_on_from(self):
        whole, kept = self.answer(1, LINKS), self.folder / "known.jsonl"
        real = self.program
        self.program = self.folder / "slow"
        self.program.write_text(f'#!/bin/sh\necho x >>{self.folder}/runs\n[ $(wc -l <{self.folder}/runs) -le 2 ] || {{ echo $$ >{self.folder}/pid; exec sleep 600; }}\nexec {real} "$@"\n')
        self.program.chmod(0o755)
        page = self.folder / "page.html"
        tool = self.begun("--quiet", "--jobs", "1", "--resume", kept, "--html", page, LINKS)
        tool.terminate()
        out, err = tool.communicate(timeout=120)
        self.assertEqual((143, "mplsnet-whatif: ended by SIGTERM after 4 of 8 failures\n"), (tool.returncode, err))
        lost = [f"{one}: 2 pairs lost" for one in ("link pe1-p", "link p-pe2", "node pe1", "node p")]
        totals = ["ended early: 4 of 8 failures aren't known", "4 failures of 2 pairs: 8 verdicts", "4 failures cut 2 pairs; 0 cut none"]
        self.assertEqual([*lost, *totals], [line for line in out.splitlines() if not line.startswith(" ")])
        self.assertIn("ended early", page.read_text())
        with open(kept, "a") as file:
            file.write('{"failure": "link p')  # as where it is cut off while it writes
        self.program = real
        self.assertEqual(whole, self.answer(1, "--resume", kept, LINKS))
        self.assertEqual(9, len(kept.read_text().splitlines()))
        self.program = Path(shutil.which("false"))
        self.assertEqual(whole, self.answer(1, "--resume", kept, LINKS), "nothing is run where all is known")
        self.assertIn("2 failures of 2 pairs", self.answer(1, "--resume", kept, "--of", "links", LINKS))

    def test_a_file_of_another_question_is_left_alone(self):
        kept = self.folder / "known.jsonl"
        self.answer(1, "--resume", kept, "--of", "links", LINKS)
        for text, words, said in (
            (kept.read_text(), ("--no-resolve", LINKS), "its results are of another question"),
            ("dear\n", (LINKS,), "line 1: no result that mplsnet-whatif --resume left"), ("dear", (LINKS,), "line 1: no result"),
            (kept.read_text() + '{"failure": 1}\n', (LINKS,), "line 4: no result"),
        ):  # fmt: skip
            kept.write_text(text)
            self.refused(3, said, "--quiet", "--resume", kept, *words)
            self.assertEqual(text, kept.read_text())
        self.refused(3, "known.jsonl: Not a directory" if kept.is_dir() else "No such file", "--quiet", "--resume", self.folder / "no/known.jsonl", LINKS)

    def test_results_come_in_order(self):
        """Each line stands as soon as those before it are known, whichever run is done first."""
        said = self.answer(1, "--jobs", "3", "--budget", "300", LINKS)
        rows = [line.split(":")[0] for line in said.splitlines() if not line.startswith(" ") and ": " in line and "lost" in line]
        net = Net("net", read_topology(LINKS))
        self.assertEqual([str(failure) for failure in whatif.failures_of(net, whatif.KINDS, True)], rows)


def dask_python():
    """A Python that has dask.distributed."""
    for python in (sys.executable, "/usr/bin/python3"):
        if os.path.exists(python) and subprocess.run([python, "-c", "import distributed, tomllib"], capture_output=True).returncode == 0:
            return python
    return None


CLUSTER = """
import subprocess, sys
from distributed import LocalCluster
if __name__ == "__main__":
    with LocalCluster(n_workers=2, threads_per_worker=1, dashboard_address=None) as cluster:
        sys.exit(subprocess.run([sys.executable, *sys.argv[1:], "--dask", cluster.scheduler_address]).returncode)
"""


class ByDask(unittest.TestCase):
    @unittest.skipUnless(dask_python(), "dask.distributed isn't installed")
    def test_two_workers_say_the_same(self):
        with tempfile.TemporaryDirectory() as folder:
            program, cluster = stand_in(folder), Path(folder) / "cluster.py"
            cluster.write_text(CLUSTER)
            words = ["--quiet", "--program", str(program), "--budget", "200", str(LINKS)]
            here = subprocess.run([sys.executable, TOOL, *words], capture_output=True, text=True)
            there = subprocess.run([dask_python(), cluster, TOOL, *words], capture_output=True, text=True, cwd=folder, env={**os.environ, "PYTHONPATH": ""})
            self.assertEqual((1, here.stdout), (there.returncode, there.stdout), there.stderr)


if __name__ == "__main__":
    unittest.main()
