"""Labels told once more, from a run's topology and journal alone: its labels.txt, and what is said by LDP, of kept and of random runs.

docs/LEDGER.md, "Views and LDP" and "Labels used again", as a machine that goes along with the journal; of the reference its runs alone are used.
"""

import os
import random
import tempfile
import tomllib
import unittest
from collections import Counter, defaultdict
from itertools import combinations
from pathlib import Path
from unittest import mock

from runs import ROOT, left, random_runs, reference

import reference_labels

from mplsnet.files import done_by, lives_of, read_report, read_run, read_topology
from mplsnet.pcap import capture_of, udp_packet
from mplsnet.replay import Frames
from mplsnet.wire import READERS, pieces

AGAIN = ROOT / "examples/labels-again"
SEEDS = range(int(os.environ.get("MPLSNET_RANDOM", "40")))
KEPT = [*ROOT.glob("examples/*/expected/labels.txt"), *ROOT.glob("crates/mn_stored_runs/data/runs/*/expected/labels.txt")]


class Told:
    """Nodes, sessions and labels as the steps have left them."""

    def __init__(self, net):
        self.nodes = {node["name"]: node["loopback"] for node in net.get("node", [])}
        self.links = {frozenset((link["a"], link["b"])): link for link in net.get("link", [])}
        self.near = {node: [other for other in self.nodes if frozenset((node, other)) in self.links] for node in self.nodes}
        self.home = {site["name"]: vrf["node"] for site in net.get("site", []) for vrf in net["vrf"] if vrf["name"] == site["vrf"]}
        self.up, self.off, self.learned = set(), set(), Counter()
        self.living, self.flying, self.heard = set(), {}, Counter()
        self.mapped = defaultdict(set)  # by hearer and speaker
        self.owed = Counter()  # the Releases of what was withdrawn, by who withdrew, from whom and what
        self.said = defaultdict(list)  # by speaker and hearer, over all lives
        self.given, self.label, self.rested, self.attached = defaultdict(list), defaultdict(dict), {}, Counter()
        for site in self.home:
            self.attach(site)

    # Labels.

    def attach(self, site):
        given, self.attached[site] = self.given[self.home[site]], self.attached[site] + 1
        given.append((1 + max([15, *(label for label, _ in given)]), f"site {site} {self.attached[site]}"))

    def free(self, node, tick):
        """The FECs whose labels are free before a step of this tick."""
        life = max((self.links[frozenset((node, other))].get("life", 2000) for other in self.near[node]), default=0)
        is_owed = {fec for fec in self.nodes for other in self.near[node] if self.owed[node, other, fec]}
        return {fec for fec in self.label[node].keys() - self.offers(node) - is_owed if tick > self.rested[node, fec] + life}

    def give(self, node, fec):
        label, had = 16, {label for label, what in self.given[node] if what.startswith("site")} | {*self.label[node].values()}
        while label in had:
            label += 1
        self.label[node][fec] = label
        self.given[node].append((label, f"fec {self.nodes[fec]}/32"))

    def lines(self):
        return [f"{node} {label} {what}" for node in self.nodes for label, what in self.given[node]]

    # LDP.

    def hop(self, node, to):
        """The next hop by a shortest path over the links that the node takes for up."""
        costs = {(end, *pair - {end}): link.get("cost", 10) for pair, link in self.links.items() if self.learned[node, pair] % 2 for end in pair}
        far, waiting = {}, {to: 0}
        while waiting:
            at = min(waiting, key=waiting.get)
            far[at] = waiting.pop(at)
            for (end, other), cost in costs.items():
                if end == at and other not in far:
                    waiting[other] = min(waiting.get(other, far[at] + cost), far[at] + cost)
        ways = [other for other in self.near[node] if (node, other) in costs and other in far]
        return next((other for other in ways if far[other] + costs[node, other] == far[node]), None)

    def ready(self, node):
        """The neighbours with which it is OPERATIONAL."""
        return [other for other in self.near[node] if frozenset((node, other)) in self.living and self.heard[node, other] >= 2]

    def offers(self, node):
        hops = {to: self.hop(node, to) for to in self.nodes if to != node}
        return {node} | {to for to, hop in hops.items() if hop in self.ready(node) and to in self.mapped[node, hop]}

    def say(self, speaker, hearer, kind, fec=None, label=None):
        self.flying[speaker, hearer].append((kind, fec, label))
        self.said[speaker, hearer].append((kind, fec and f"{self.nodes[fec]}/32", label))
        if kind == "Withdraw":
            self.owed[speaker, hearer, fec] += 1

    def by_address(self, *ends):
        return sorted(ends, key=lambda node: tuple(map(int, self.nodes[node].split("."))))

    def switch(self, pair, tick):
        """The link's session begins or ends, where what it needs has come or gone."""
        lives, (passive, active) = pair in self.up and pair not in self.off, self.by_address(*pair)
        if lives == (pair in self.living):
            return
        for end, other in ((passive, active), (active, passive)):
            if other in self.ready(end):
                self.rested |= {(end, fec): tick for fec in self.nodes}
        for end, other in ((passive, active), (active, passive)):
            self.flying[end, other], self.heard[end, other], self.mapped[end, other] = [], 0, set()
            for fec in self.nodes:
                self.owed[end, other, fec] = 0
        self.living ^= {pair}
        if lives:
            self.say(active, passive, "Initialization")

    def hear(self, speaker, hearer, tick):
        kind, fec, label = self.flying[speaker, hearer].pop(0)
        self.heard[hearer, speaker] += 1
        if kind == "Initialization":
            if self.by_address(hearer, speaker)[0] == hearer:
                self.say(hearer, speaker, "Initialization")
            self.say(hearer, speaker, "KeepAlive")
        elif kind == "KeepAlive":
            self.say(hearer, speaker, "Address")
        elif kind == "Mapping":
            self.mapped[hearer, speaker].add(fec)
        elif kind == "Withdraw":
            self.mapped[hearer, speaker].discard(fec)
            self.say(hearer, speaker, "Release", fec, label)
        elif kind == "Release":
            self.owed[hearer, speaker, fec] -= 1
            self.rested[hearer, fec] = tick

    # Steps.

    def step(self, tick, words):
        """Does a step. Those who may know something new by it then say what came and went of their offers."""
        kind, *rest = done_by(words)
        pair = frozenset(rest[-2:])
        ends = [self.links[pair]["a"], self.links[pair]["b"]] if kind in ("link", "ldp") else []
        nodes = ends or {"learn": rest[:1], "hear": rest[2:]}.get(kind, []) * (rest[:1] != ["bgp"])
        before = [(node, self.offers(node), self.ready(node), self.free(node, tick)) for node in nodes]
        if kind == "link":
            self.up ^= {pair}
        elif kind == "ldp":
            self.off ^= {pair}
        elif kind == "learn":
            self.learned[rest[0], pair] += 1
        elif nodes:
            self.hear(*rest[1:], tick)
        elif words[:2] == ("site", "up"):
            self.attach(rest[1])
        if ends:
            self.switch(pair, tick)
        for known in before:
            self.say_news(tick, *known)

    def say_news(self, tick, node, offered, was_ready, free):
        offers = self.offers(node)
        self.rested |= {(node, fec): tick for fec in offered - offers}
        for fec in free if offers - offered else ():
            del self.label[node][fec]
        for fec in self.nodes:
            if fec in offers - offered - self.label[node].keys():
                self.give(node, fec)
            for other in self.ready(node):
                if (fec in offers) != (fec in offered and other in was_ready):
                    self.say(node, other, "Mapping" if fec in offers else "Withdraw", fec, 3 if fec == node else self.label[node][fec])


def told(folder, topology):
    """The world at the end of a run."""
    world = Told(tomllib.loads(topology.read_text()))
    for line in (folder / "journal.txt").read_text().splitlines():
        tick, *words = line.split()
        world.step(int(tick), tuple(words))
    return world


def said_in(path):
    """What the PDUs of a file say: of each its kind, and of a FEC its prefix and label."""
    said = [message for _, piece in pieces("ldp", path.read_bytes()) for message in READERS["ldp"](piece)[0]["messages"]]
    return [(message["message"], message.get("prefix"), message.get("label")) for message in said]


def flapping_run(rng):
    """A network whose sessions come and go, with times between that are shorter and longer than the lives of its links, and with packets."""
    top = random_runs.random_topology(rng)
    links = [(link["a"], link["b"]) for link in top["link"]]
    sites = [(site["name"],) for site in top["site"]]
    addresses = [of.split("/")[0] for site in top["site"] for of in site.get("prefixes", [])]
    packets = [udp_packet(b"\x0a\0\0\1", bytes(map(int, address.split("."))), 64) for address in [*addresses, "10.0.0.2"]]
    lines = [f"link up {a} {b}" for a, b in links] + [f"bgp up {a} {b}" for a, b in combinations(sorted({vrf["node"] for vrf in top["vrf"]}), 2)]
    kinds = [("ldp {} {} {}", ("on", "off"), links)] * 3 + [("link {} {} {}", ("up", "down"), links), ("site {} {}", ("up", "down"), sites)]
    kinds = [kind for kind in kinds if kind[2]]
    for _ in range(rng.choice([10, 20, 30]) if kinds else 0):
        lines.append(rng.choice(["drain", "drain", "drain 3", "run 5", "run 2"]))
        lines += [f"inject {rng.choice(sites)[0]} {rng.randrange(len(packets)) + 1}" for _ in range(rng.choice([0, 2, 3]) if sites else 0)]
        lines += rng.choice([[], [], ["tick 1"], ["tick 2000"], ["tick 2001"], ["tick 7"], ["flush"]])
        for form, verbs, things in rng.choices(kinds, k=rng.choice([1, 2, 3])):
            lines.append(form.format(rng.choice(verbs), *rng.choice(things)))
    return random_runs.toml_text(top).encode(), "\n".join([*lines, "drain"]).encode(), capture_of(packets)


class Labels(unittest.TestCase):
    def check(self, folder, topology):
        world = told(folder, topology)
        self.assertEqual(world.lines(), (folder / "labels.txt").read_text().splitlines(), folder)
        for path in folder.glob("*.ldp"):
            self.assertEqual(world.said[tuple(path.stem.split("+"))], said_in(path), path)
        return world

    def test_kept_runs(self):
        self.assertGreater(len(KEPT), 40)
        for path in KEPT:
            self.check(path.parent, path.parents[1] / "topology.toml")

    def test_a_label_that_comes_free_with_its_last_release(self):
        """What examples/labels-again says of it: the label of the slow packet then leads to a site of the other customer."""
        topology, script, capture = ((AGAIN / name).read_bytes() for name in ("topology.toml", "script.txt", "capture.pcap"))
        begun = b"".join(script.splitlines(keepends=True)[:13]) + b"show frame p 7\nshow frame pe1 8\n"
        with mock.patch.object(reference_labels.Labels, "is_past", lambda *_: True):
            shown = reference.run_of(topology, begun, capture)[0].decode().splitlines()[:2]
        self.assertTrue(shown[0].startswith("frame p 7 next pe1 bytes 0001013E4500"), shown)
        self.assertTrue(shown[1].startswith("frame pe1 8 site blue-west bytes 4500001C000200003D11"), shown)
        shown = reference.run_of(topology, begun, capture)[0].decode().splitlines()[:2]
        self.assertEqual("frame p 7 drop NoEntry", shown[0])

    def test_random_runs(self):
        again, kept = 0, 0
        for seed in SEEDS:
            with self.subTest(seed), tempfile.TemporaryDirectory() as room:
                sent = self.left(Path(room), seed)
                world = self.check(Path(room) / "out", Path(room) / "topology.toml")
                self.check_frames(Path(room), sent)
                for node, given in world.given.items():
                    again += len(given) - len({label for label, _ in given})
                    kept += len(world.label[node])
        self.assertGreater(again, len(SEEDS))
        self.assertGreater(kept, len(SEEDS))

    def left(self, room, seed):
        """Leaves a run there, and tells of each frame that was sent to which node it went, and to which edge."""
        sent, frame = [], reference.frame
        with mock.patch.object(reference, "frame", lambda network, token, to: sent.append((to, token.edge)) or frame(network, token, to)):
            self.assertTrue(left(room, flapping_run(random.Random(seed))))
        return sent

    def check_frames(self, room, sent):
        """The tools tell from the files to which edge each frame went, also where a label was given more than once."""
        run, net = read_run(room / "out"), read_topology(room / "topology.toml")
        names = [node["name"] for node in net["node"]]
        moves = Frames(run, read_report(room / "out/report.txt")[1], lives_of(net)).found()
        self.assertEqual([(names[to], names[edge]) for to, edge in sent], [(move.sent.receiver, move.sent.edge) for move in moves if move.sent])


if __name__ == "__main__":
    unittest.main()
