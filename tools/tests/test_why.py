"""What is told of a drop holds in the network of examples/reference.py, from the step that is told and not before it."""

import json
import os
import random
import shutil
import subprocess
import sys
import tempfile
import unittest
from collections import Counter
from itertools import combinations
from pathlib import Path

from runs import ROOT, left, random_runs, reference, reference_inputs

from mplsnet.files import read_report, read_run, read_topology
from mplsnet.knowledge import Net
from mplsnet.pcap import capture_of, udp_packet
from mplsnet.script import script_lines
from mplsnet.why import WORDS, drops_of

TOOL = ROOT / "tools/mplsnet-why"
SEEDS = range(int(os.environ.get("MPLSNET_RANDOM", "40")))
ENDS = {"hop", "route", "no mapping", "withdrawn", "unlearned"}  # that need something behind them


class Predicates:
    """Whether a fact holds in a network, from the reference's own words."""

    def __init__(self, network, drop):
        self.network, self.drop = network, drop
        self.topology = network.topology

    def node(self, name):
        return self.topology.named("node", name)

    def link(self, name):
        ends = [(self.topology.nodes[link.a].name, self.topology.nodes[link.b].name) for link in self.topology.links]
        return next(at for at, (a, b) in enumerate(ends) if name in (f"{a}-{b}", f"{b}-{a}"))

    def between(self, a, b):
        return self.topology.link_between(self.node(a), self.node(b))

    def holds(self, fact):
        return getattr(self, fact.kind.replace(" ", "_"))(*fact.names)

    def mentions(self, node, to, near):
        link = self.between(node, near)
        heard = self.network.said[link, self.node(near)][: self.network.heard[link, self.node(node)]]
        return [kind for kind, fec, _ in heard if fec == self.node(to) and kind != "release"]

    def is_operational(self, end, other):
        return self.network.ldp_state(self.between(end, other), self.node(end)) == "operational"

    def detached(self, site):
        return self.network.attachment[self.topology.named("site", site)] is None

    def route(self, prefix, site, edge):
        vrf = self.topology.sites[self.topology.named("site", self.drop.site)].vrf
        return any(
            (reference.prefix_text(route.prefix), self.topology.sites[route.site].name, self.topology.nodes[route.edge].name) == (prefix, site, edge)
            for route in self.network.held(vrf)
        )

    def is_best(self, prefix, site, edge):
        vrf = self.topology.sites[self.topology.named("site", self.drop.site)].vrf
        route = self.network.best(vrf, reference_inputs.address(self.drop.to))
        return (reference.prefix_text(route.prefix), self.topology.sites[route.site].name, self.topology.nodes[route.edge].name) == (prefix, site, edge)

    def hop(self, node, to, near):
        hop = self.network.next_hop(self.node(node), self.node(to))
        return hop is not None and hop[0] == self.node(near)

    def no_walk(self, node, to):
        return self.network.next_hop(self.node(node), self.node(to)) is None

    def unlearned(self, node, link):
        return self.network.learned[self.node(node)][self.link(link)] != self.network.changes[self.link(link)]

    def link_down(self, link):
        return self.network.changes[self.link(link)] % 2 == 0

    def links_down(self, links):
        return len(links) > 1 and all(map(self.link_down, links))

    def down_unlearned(self, link, _):
        return self.link_down(link)

    def ldp_off(self, link):
        return not self.network.ldp_on[self.link(link)]

    def ldp_state(self, end, other, state):
        return self.network.ldp_state(self.between(end, other), self.node(end)) == state

    def no_mapping(self, node, to, near):
        return self.is_operational(node, near) and not self.mentions(node, to, near)

    def withdrawn(self, node, to, near):
        return self.is_operational(node, near) and self.mentions(node, to, near)[-1:] == ["withdraw"]

    def on_its_way(self, near, node, to):
        return self.is_operational(near, node) and self.node(to) in self.network.offers(self.node(near))

    def is_in_flight(self, near, node, to):
        link = self.between(near, node)
        waiting = self.network.said[link, self.node(near)][self.network.heard[link, self.node(node)] :]
        return any(one[:2] == ("mapping", self.node(to)) for one in waiting)

    def each_waits(self, nodes, to):
        return all(self.hop(node, to, near) for node, near in zip(nodes, (*nodes[1:], nodes[0]))) and not any(
            self.node(to) in self.network.offers(self.node(node)) for node in nodes
        )

    def no_common_target(self, vrf, others):
        imports = self.network.imports[self.topology.named("vrf", vrf)]
        return not any(imports & self.network.exports[self.topology.named("vrf", other)] for other in others)

    def no_session(self, edge, peer):
        return self.network.bgp_state(self.node(edge), self.node(peer)) == "idle"

    def bgp_state(self, edge, peer, state):
        return self.network.bgp_state(self.node(edge), self.node(peer)) == state

    def untold(self, peer, edge, prefix):
        peer, edge = self.node(peer), self.node(edge)
        about = [about for about in self.network.exports_of(peer) if reference.prefix_text(about[1]) == prefix]
        return self.network.bgp_state(peer, edge) == "established" and bool(about)

    def is_told(self, peer, edge, prefix):
        peer, edge = self.node(peer), self.node(edge)
        waiting = self.network.told[peer, edge][self.network.listened[edge, peer] :]
        return any(kind == "announce" and reference.prefix_text(about[1]) == prefix for kind, about, _ in waiting)

    def no_prefix(self, to):
        return not any(reference.contains(of, reference_inputs.address(to)) for _, of in self.network.statics)

    def prefix_removed(self, prefix, site):
        vrf = self.topology.sites[self.topology.named("site", site)].vrf
        return (vrf, reference_inputs.prefix(prefix)) not in self.network.statics

    def attachment_ended(self, site, number):
        at = self.topology.named("site", site)
        return self.network.attachment[at] != number and self.network.attachments[at] >= number


AT_THE_DROP = {"on its way": "is_in_flight", "untold": "is_told", "route": "is_best"}
BY_RULE = {"form", "ttl at entry", "ttl spent", "went round", "pushed unheard", "ended in flight", "lost by link", "lost by line", "cut", "sent", "overdue"}
UNBROKEN = set(WORDS) - BY_RULE - {"route", "untold", "address unknown"}


class Watched(reference.Network):
    """A network that is looked at before its first step and after each."""

    def watch(self, look):
        self.look, self.line, self.lines = look, None, []
        look(0)
        return self

    def do(self, step, line=0, bytes_=b""):
        refusal = super().do(step, line, bytes_)
        if not refusal:
            self.lines.append(self.line)
            self.look(len(self.journal))
        return refusal


NETWORK = {"route", "hop", "no walk", "link down", "ldp off", "ldp state", "no mapping", "withdrawn", "on its way", "detached"}
NETWORK |= {"links down", "no common target", "no session", "bgp state", "untold", "down unlearned", "unlearned", "prefix removed"}


def disturbed_run(seed):
    """A network that came up, in which one thing after another changes, and packets are sent as the news is on its way."""
    rng = random.Random(seed)
    top = random_runs.random_topology(rng)
    links = [(link["a"], link["b"]) for link in top["link"]]
    edges = sorted({vrf["node"] for vrf in top["vrf"]})
    sessions = list(combinations(edges, 2))
    prefixes = [(site["name"], of) for site in top["site"] for of in site.get("prefixes", [])]
    targets = sorted({one for vrf in top["vrf"] for key in ("import", "export") for one in vrf.get(key, [])})
    packets = [udp_packet(b"\x0a\0\0\1", (int.from_bytes(bytes(map(int, of.split("/")[0].split("."))), "big")).to_bytes(4, "big"), rng.choice([64, 64, 3])) for _, of in prefixes]
    lines = [f"link up {a} {b}" for a, b in links] + [f"bgp up {a} {b}" for a, b in sessions] + ["drain"]
    changes = [("link {} {} {}", ("up", "up", "down"), links), ("ldp {} {} {}", ("on", "on", "off"), links), ("bgp {} {} {}", ("up", "up", "down"), sessions)] * 3
    changes += [("site {} {}", ("up", "up", "down"), [(site["name"],) for site in top["site"]]), ("route {} {} {}", ("add", "add", "del"), prefixes)]
    changes += [("{2} {0} {1} {3}", ("add", "add", "del"), [(vrf["name"], key, one) for vrf in top["vrf"] for key in ("import", "export") for one in targets])]
    changes = [change for change in changes if change[2]]
    for _ in range(rng.choice([4, 10, 20]) if changes and packets else 0):
        for _ in range(rng.choice([1, 2, 3, 4])):
            form, verbs, things = rng.choice(changes)
            lines.append(form.format(rng.choice(verbs), *rng.choice(things)))
        lines.append(rng.choice(["drain", "drain 1", "drain 2", "drain 4", "drain 9", "run 1", "run 2"]))
        lines += [f"inject {rng.choice(top['site'])['name']} {rng.randrange(len(packets)) + 1}" for _ in range(rng.choice([2, 5]))]
        lines.append(rng.choice(["flush", "run 1", "drain 3"]))
    return random_runs.toml_text(top).encode(), "\n".join(lines).encode(), capture_of(packets)


class Why(unittest.TestCase):
    def setUp(self):
        self.folder = Path(tempfile.mkdtemp())
        self.addCleanup(shutil.rmtree, self.folder)

    def drops(self, folder, net, inputs, with_lines=True):
        run = read_run(folder)
        report = read_report(folder / "report.txt")
        lines = script_lines(folder.parent / "script.txt", run, report[0], net.get("notice_delay", 1)) if with_lines else None
        records = [packet for packet in reference_inputs.read_capture(inputs[2])]
        return drops_of(run, report, Net("topology", net), records, lines), lines, report

    def check(self, inputs, drops, lines):
        """Replays the script and looks at each fact of each drop after every step up to it."""
        topology = reference_inputs.read_topology(inputs[0])
        commands = reference_inputs.read_script(topology, inputs[1])
        packets = reference_inputs.read_capture(inputs[2])
        network = Watched(topology)
        facts = [(drop, fact) for drop in drops.values() for fact in drop.facts if fact.kind not in BY_RULE]
        wrong = []

        def look(done):
            for drop, fact in facts:
                if done >= drop.step:
                    continue
                is_so, is_due = Predicates(network, drop).holds(fact), fact.is_dated and done >= (fact.since or 0)
                if is_due or done == drop.step - 1:
                    if not is_so:
                        wrong.append((drop.packet, fact, "doesn't hold after", done))
                    elif done == drop.step - 1 and fact.kind in AT_THE_DROP and not getattr(Predicates(network, drop), AT_THE_DROP[fact.kind])(*fact.names):
                        wrong.append((drop.packet, fact, "isn't so at the drop"))
                elif fact.is_dated and fact.kind in UNBROKEN and done == fact.since - 1 and is_so:
                    wrong.append((drop.packet, fact, "holds already after", done))

        network.watch(look)
        for command in commands:
            network.line = command[0]
            reference.play(network, [command], packets, [])
        self.assertEqual([], wrong)
        if lines is not None:
            return [line and line[0] for line in lines], network.lines
        return None

    def check_whole(self, drop):
        """The chain comes to an end, and its words can be said."""
        self.assertTrue(drop.facts, drop)
        self.assertNotIn(drop.cause.kind, ENDS - {"unlearned"}, drop)
        self.assertTrue(drop.sentence)
        self.assertTrue(all(fact.since is None or 0 < fact.since <= drop.step for fact in drop.facts), drop)

    def test_random_runs(self):
        kinds = self.check_all(random_runs.random_run)
        if len(SEEDS) >= 1000:
            self.assertLessEqual(set(WORDS) - kinds, {"address unknown", "each waits", "withdrawn", "links down", "went round"})

    def test_disturbed_networks(self):
        kinds = self.check_all(disturbed_run)
        if len(SEEDS) >= 100:
            self.assertEqual(set(), NETWORK - kinds)

    def check_all(self, made):
        """All drops of a run for each seed; the kinds of facts that came."""
        kinds, count = Counter(), 0
        for seed in SEEDS:
            with self.subTest(seed=seed):
                inputs = made(seed)
                folder = self.folder / str(seed)
                if not left(folder, inputs) or b" dropped " not in (folder / "out/report.txt").read_bytes():
                    continue
                net = read_topology(folder / "topology.toml")
                drops, lines, report = self.drops(folder / "out", net, inputs)
                self.assertEqual([n for n, way in enumerate(report[1], 1) if way.end == "dropped"], list(drops))
                for drop in drops.values():
                    self.check_whole(drop)
                    kinds.update(fact.kind for fact in drop.facts)
                told, due = self.check(inputs, drops, lines)
                self.assertEqual([], [(a, b) for a, b in zip(told, due) if a is not None and a != b])
                count += len(drops)
                shutil.rmtree(folder)
        self.assertGreater(count, len(SEEDS) // 4)
        self.told = (count, kinds)
        return set(kinds)


NAMES = ("ordered-control", "late", "loss", "ring", "hub-and-spoke", "two-links", "damaged")
CONTROL, LATE, LOSS, RING, HUB, LINKS, DAMAGED = (ROOT / "examples" / name for name in NAMES)
SIXTH = """\
packet 6 (line 52, site a, to 10.2.0.1) dropped NoLsp at pe1, path pe1; step 50, tick 4
  route: 10.2.0.0/16 of site b at pe2, since step 15 (line 15: hear bgp pe2 pe1)
  because pe1's next hop to pe2 is p, since step 7 (line 7: learn pe1 p pe2)
  and pe1 has heard p's Withdraw of pe2, since step 49 (line 51: hear ldp p pe1)
  and p's next hop to pe2 is pe2, since step 8 (line 8: learn p p pe2)
  and LDP is off on p-pe2, since step 46 (line 48: ldp off p pe2)
"""


FOURTH = """\
packet 4 (line 16, site a, to 10.2.0.1) dropped Overdue at p, path pe1 p; step 51, tick 112
  because the frame flies on p-pe2, where it was sent at tick 112, since step 50 (line 17: carry pe1 p 0)
  and at tick 116 a frame that was sent at tick 112 is past p-pe2's life of 3, since step 51 (line 18: tick 4)
"""


class Tool(unittest.TestCase):
    def setUp(self):
        self.folder = Path(tempfile.mkdtemp())
        self.addCleanup(shutil.rmtree, self.folder)

    def run_tool(self, *words):
        return subprocess.run([sys.executable, TOOL, *map(str, words)], capture_output=True, text=True)

    def said(self, *words):
        ran = self.run_tool(*words)
        self.assertEqual((0, ""), (ran.returncode, ran.stderr))
        return ran.stdout

    def of(self, example, *words):
        return self.said(example / "expected", example / "topology.toml", *words)

    def refused(self, status, said, *words):
        ran = self.run_tool(*words)
        self.assertEqual((status, ""), (ran.returncode, ran.stdout))
        self.assertIn(said, ran.stderr)
        self.assertNotIn("Traceback", ran.stderr)

    def test_a_chain_with_its_steps_and_lines(self):
        self.assertEqual(SIXTH, self.of(CONTROL, 6))

    def test_one_that_is_overdue(self):
        self.assertEqual(FOURTH, self.of(LATE, 4))
        self.assertIn("1 Overdue at pe1: at tick 11 a frame that was sent at tick 0 is past pe1-p's life of 10, since step 44 (line 9: tick 1)\n", self.of(LATE))

    def test_ones_after_a_damaged_message(self):
        self.assertTrue(self.of(DAMAGED, 4).endswith("\n  and LDP is off on pe1-p, since step 72 (line 12: damage ldp p pe1 4)\n"), self.of(DAMAGED, 4))
        self.assertTrue(self.of(DAMAGED, 8).endswith("\n  because there is no BGP session between pe1 and pe2, since step 111 (line 31: damage bgp pe2 pe1 6)\n"), self.of(DAMAGED, 8))

    def test_one_that_arrived(self):
        self.assertRegex(self.of(CONTROL, 4), r"^packet 4 line 44 .* delivered b .*\n  it isn't dropped: it arrived\n$")

    def test_all_by_reason(self):
        self.assertEqual(
            "1 NoRoute at pe1: VRF spoke1 imports no target of spoke2, from the start\n  packet 2\n1 of 5 packets dropped\n", self.of(HUB, "--all")
        )
        self.assertIn("1 Lost at pe1: link pe1-p loses each frame in a direction whose number is a multiple of 2, and this is number 2\n", self.of(LOSS))
        self.assertIn("1 Lost at pe1: a line of the script loses the frame, since step 51 (line 16: lose pe1 p 0)\n", self.of(LOSS))

    def test_json(self):
        drops = json.loads(self.of(RING, "--json", "--each"))
        self.assertEqual([(201, "NoEntry", "n3"), (202, "NoEntry", "n2")], [(drop["packet"], drop["rule"], drop["node"]) for drop in drops])
        self.assertEqual("down unlearned", drops[0]["facts"][-1]["kind"])

    def test_without_the_capture_and_the_script(self):
        capture = (LINKS / "capture.pcap").read_bytes()
        left(self.folder, ((LINKS / "topology.toml").read_bytes(), b"link up p pe2\ninject a 1\n", capture))
        for name in ("capture.pcap", "script.txt"):
            (self.folder / name).unlink()
        topology = self.folder / "topology.toml"
        self.assertIn("1 NoRoute at pe1: the packet's address isn't known here: its capture is needed\n", self.said(self.folder / "out", topology))
        said = self.said("--capture", LINKS / "capture.pcap", self.folder / "out", topology)
        self.assertIn("1 NoRoute at pe1: there is no BGP session between pe1 and pe2, from the start\n", said)
        (self.folder / "script.txt").write_text("link up pe1 p\n")
        ran = self.run_tool(self.folder / "out", topology)
        self.assertEqual(0, ran.returncode)
        self.assertIn("(lines of the script aren't told)", ran.stderr)

    def test_wrong_words(self):
        self.refused(2, "'0' isn't a number from 1", LOSS / "expected", LOSS / "topology.toml", "0")
        self.refused(2, "I goes with neither", "--all", LOSS / "expected", LOSS / "topology.toml", "1")
        self.refused(2, "usage:")

    def test_wrong_files(self):
        self.refused(1, "no line of packet 9: it has packets 1 to 5", LOSS / "expected", LOSS / "topology.toml", 9)
        self.refused(1, "nothing: not a folder", self.folder / "nothing", LOSS / "topology.toml")
        self.refused(1, "nothing.toml: No such file", LOSS / "expected", self.folder / "nothing.toml")
        self.refused(1, "another run's topology?", LOSS / "expected", RING / "topology.toml")
        self.refused(1, "another run's script?", "--script", RING / "script.txt", LOSS / "expected", LOSS / "topology.toml")
        self.refused(1, "doesn't begin as a pcap capture", "--capture", LOSS / "script.txt", LOSS / "expected", LOSS / "topology.toml")


if __name__ == "__main__":
    unittest.main()
