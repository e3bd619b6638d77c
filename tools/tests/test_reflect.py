"""Reflected routes by examples/reference_reflect.py: what is promised of them holds after each step, and what is told of them is so."""

import random
import shutil
import struct
import subprocess
import sys
import tempfile
import unittest
from pathlib import Path
from unittest import mock

sys.path.insert(0, str(Path(__file__).resolve().parent))
from runs import ROOT, random_runs, reference, reference_inputs, stand_in  # noqa: E402

import reference_reflect  # noqa: E402
from reference_reflect import Reflection  # noqa: E402
from reference_routes import vrf_table  # noqa: E402

EXAMPLE = ROOT / "examples/reflectors"
RUNS = ROOT / "crates/mn_stored_runs/data/runs"
STORED = sorted(path.parent for path in RUNS.glob("*/command.txt") if path.read_text().strip() == "reflect")
FOUR = (EXAMPLE / "topology.toml").read_bytes()
TWO = (RUNS / "a-reflector-between-two-edges/topology.toml").read_bytes()
SEEDS = 80


def report(topology, *lines):
    return reference.reflect_of(topology, "\n".join(lines).encode())[0].decode().splitlines()


def worlds():
    """Random networks, each with its reflectors."""
    for seed in range(SEEDS):
        rng = random.Random(seed)
        top = random_runs.reflect_topology(rng)
        topology = reference_inputs.read_topology(random_runs.toml_text(top).encode())
        others = [no for no in range(len(topology.nodes)) if no not in topology.edges()]
        yield rng, top, Reflection(topology, others)


def says_what_it_offers(world):
    """Each end that is Established has said, of each name, last of all just what it offers now; and no other end has said any."""
    for (node, peer), words in world.said.items():
        said = {}
        for kind, *about in words:
            if kind in ("announce", "withdraw"):
                said[about[0]] = about[1] if kind == "announce" else None
        said = {about: route for about, route in said.items() if route is not None}
        if said != (world.offers(node, peer) if world.state(node, peer) == 2 else {}):
            return False
    return True


def is_joined(world):
    edges = all(any(world.lives[edge, reflector] for reflector in world.reflectors) for edge in world.edges)
    return edges and all(world.lives[one, other] for one in world.reflectors for other in world.reflectors if one != other)


def of_the_mesh(world, vrf):
    """The best route of each prefix, by the exports of all edges as they are now: rank, edge, site and attachment."""
    mesh = Reflection(world.topology, world.reflectors)
    for part in ("imports", "exports", "statics", "attachment", "attachments", "given"):
        setattr(mesh, part, getattr(world, part))
    mesh.from_reflectors = lambda node: {about: route for edge in world.edges for about, route in world.exports_of(edge).items()}
    return vrf_table(mesh, vrf)


def drained_example():
    """The example as its first `drain` leaves it."""
    world = Reflection(reference_inputs.read_topology(FOUR), [4, 5])
    for words in (EXAMPLE / "script.txt").read_text().splitlines()[2:9]:
        verb, *ends = reference_inputs.read_line(world.topology, reference_inputs.words_of(words), 1, reference_inputs.REFLECT_FORMS, lambda a, b: True)
        world.drain(*ends) if verb == "drain" else world.do(verb, *ends)
    return world


def route_of_pe1_to_pe3(world):
    return next(word for word in world.said[5, 2] if word[0] == "announce" and word[1] == (0, (0x0A010000, 16)))


def capture_of(world):
    """A capture of IPv4 packets: of each node to each peer one segment of TCP with all messages."""
    content = struct.pack("<IHHiIII", 0xA1B2C3D4, 2, 4, 0, 0, 0x40000, 228)
    for (speaker, hearer), words in world.said.items():
        data = b"".join(reference_reflect.message(world, speaker, word) for word in words)
        tcp = struct.pack(">HHIIBBHHH", 49152, 179, 1, 1, 0x50, 0x18, 0xFFFF, 0, 0) + data
        ends = b"".join(world.topology.nodes[node].loopback.to_bytes(4, "big") for node in (speaker, hearer))
        packet = struct.pack(">BBHHHBBH", 0x45, 0, 20 + len(tcp), 0, 0, 64, 6, 0) + ends + tcp
        content += (struct.pack("<4I", 0, 0, len(packet), len(packet)) + packet) * bool(words)
    return content


class Laws(unittest.TestCase):
    def test_after_each_step_each_end_has_said_what_it_offers(self):
        done = 0
        for rng, top, world in worlds():
            for words in random_runs.reflect_lines(rng, top, world):
                done += 1
                self.assertTrue(says_what_it_offers(world), words)
        self.assertLess(1000, done)

    def test_where_none_flies_each_vrf_holds_what_a_full_mesh_gives(self):
        joined, apart, differed = 0, 0, 0
        for rng, top, world in worlds():
            for _ in random_runs.reflect_lines(rng, top, world):
                pass
            vrfs = range(len(world.topology.vrfs))
            differed += any(vrf_table(world, vrf) != of_the_mesh(world, vrf) for vrf in vrfs)
            world.drain(None)
            if not is_joined(world):
                apart += any(vrf_table(world, vrf) != of_the_mesh(world, vrf) for vrf in vrfs)
                for one in world.reflectors:
                    for other in world.reflectors + world.edges:
                        if one != other and not world.lives[one, other]:
                            world.do("bgp up", *sorted((one, other)))
                world.drain(None)
            if is_joined(world):
                joined += 1
                for vrf in vrfs:
                    self.assertEqual(of_the_mesh(world, vrf), vrf_table(world, vrf))
        self.assertLess(50, joined)
        self.assertLess(2, differed)  # while messages fly
        self.assertLess(2, apart)  # where sessions are missing

    def test_a_route_comes_through_one_reflector_or_two(self):
        for rng, top, world in worlds():
            for _ in random_runs.reflect_lines(rng, top, world):
                pass
            for (node, peer), words in world.said.items():
                for kind, *about in words:
                    clusters = about[1][3] if kind == "announce" else ()
                    self.assertEqual(len(clusters), len({*clusters}))
                    self.assertLessEqual(len(clusters), 2)
                    if kind == "announce" and node in world.reflectors:
                        self.assertNotEqual(peer, world.owner(about[0]))
                        self.assertEqual(world.topology.nodes[node].loopback, clusters[0])

    def test_a_reflector_that_keeps_what_an_ended_session_told_breaks_them(self):
        world = Reflection(reference_inputs.read_topology(TWO), [1])
        for step in (("bgp up", 0, 1), ("bgp up", 1, 2)):
            world.do(*step)
        world.drain(None)
        heard = world.announced(1, 0)
        with mock.patch.object(Reflection, "announced", lambda world, node, peer, told=Reflection.announced: heard if (node, peer) == (1, 0) else told(world, node, peer)):
            world.do("bgp down", 0, 1)
            world.drain(None)
        self.assertFalse(says_what_it_offers(world))
        self.assertIn("route red2 10.1.0.0/16 edge pe1 label 16", vrf_table(world, 1))


class Lines(unittest.TestCase):
    def test_what_is_no_line_is_refused(self):
        for line, rule in (
            ("link up pe1 p", "S1 UnknownWord"),
            ("hear ldp pe1 p", "S1 UnknownWord"),
            ("bgp sideways pe1 p", "S1 UnknownWord"),
            ("show bgp", "S1 UnknownWord"),
            ("run 5", "S1 UnknownWord"),
            ("inject a 1", "S1 UnknownWord"),
            ("reflector", "S2 WrongCount"),
            ("reflector pe1 p", "S2 WrongCount"),
            ("hear", "S2 WrongCount"),
            ("show", "S2 WrongCount"),
            ("show vrf", "S2 WrongCount"),
            ("drain 1 2", "S2 WrongCount"),
            ("drain 4000001", "S3 BadNumber"),
            ("route add a 10.1.0.0", "S3 BadNumber"),
            ("import add red1 65000", "S3 BadNumber"),
            ("reflector nobody", "S4 NoSuchName"),
            ("bgp up p nobody", "S4 NoSuchName"),
            ("show vrf red9", "S4 NoSuchName"),
            ("reflector pe1", "S6 NotEdge"),
            ("reflector p", "S6 NotEdge"),
            ("bgp up p p", "S6 NotEdge"),
            ("bgp down pe1 pe2", "S6 NotEdge"),
            ("hear bgp pe2 pe2", "S6 NotEdge"),
        ):
            self.assertEqual([f"script refused {rule} at line 3"], report(TWO, "reflector p # a remark", "", line, "nonsense"), line)

    def test_a_node_that_is_no_reflector_has_no_session(self):
        self.assertEqual(["script refused S6 NotEdge at line 1"], report(TWO, "bgp up pe1 p"))
        self.assertEqual(["script refused S6 NotEdge at line 2"], report(FOUR, "reflector rr1", "bgp up rr1 rr2"))

    def test_reflectors_come_first(self):
        self.assertEqual(["script refused S6 NotEdge at line 2"], report(FOUR, "drain 0", "reflector rr1"))
        self.assertEqual(["total steps 0 refused 0 flying 0"], report(FOUR, "", "# so", "reflector rr2", " ", "reflector rr1"))
        self.assertEqual(["script refused S4 NoSuchName at line 2"], report(FOUR, "drain", "reflector rr9"))

    def test_a_topology_is_refused_first(self):
        self.assertEqual(["topology refused T2 UnknownKey at top"], report(b"x = 1", "nonsense"))

    def test_nothing_happens(self):
        self.assertEqual(["total steps 0 refused 0 flying 0"], report(b"", ""))

    def test_other_nodes_count_for_labels(self):
        """pe1 has one site and two other nodes: of four labels, the third attachment finds none."""
        lines = ["site down a", "site up a"] * 2
        with mock.patch.object(reference_reflect, "LABELS", 4):
            self.assertEqual(["line 4 refused LabelsSpent", "total steps 3 refused 1 flying 0"], report(TWO, *lines))
        with mock.patch.object(reference_reflect, "LABELS", 5):
            self.assertEqual(["total steps 4 refused 0 flying 0"], report(TWO, *lines))

    def test_a_step_past_the_last_ends_all(self):
        lines = ["reflector p", "bgp up pe1 p", "bgp up pe1 p", "bgp up p pe2", "drain", "show vrf red2", "bgp down pe1 p"]
        told = ["line 3 refused Unchanged", "route red2 10.1.0.0/16 edge pe1 label 16", "route red2 10.2.0.0/16 site b"]
        with mock.patch.object(reference_reflect, "STEPS", 14):
            self.assertEqual([*told, "too large steps"], report(TWO, *lines))
            self.assertEqual([*told, "total steps 14 refused 2 flying 0"], [line for line in report(TWO, *lines[:6], "bgp up p pe1") if line[:6] != "line 7"])
        with mock.patch.object(reference_reflect, "STEPS", 13):
            self.assertEqual(["line 3 refused Unchanged", "too large steps"], report(TWO, *lines))

    def test_the_order_of_ends_does_not_matter(self):
        lines = ["reflector p", "bgp up pe1 p", "bgp up p pe2", "drain 7", "show vrf red1", "show vrf red2"]
        self.assertEqual(report(TWO, *lines), report(TWO, lines[0], "bgp up p pe1", "bgp up pe2 p", *lines[3:]))

    def test_links_and_delays_change_nothing(self):
        script = (EXAMPLE / "script.txt").read_text().splitlines()
        linked = b'bgp_delay = 7\n' + FOUR + b'[[link]]\na = "pe1"\nb = "rr1"\nloss = 1\n'
        self.assertEqual(report(FOUR, *script), report(linked, *script))


class Told(unittest.TestCase):
    def test_the_page_shows_the_first_example(self):
        page = (ROOT / "docs/REFLECT.md").read_text()
        folder = RUNS / "a-reflector-between-two-edges"
        self.assertIn((folder / "expected/report.txt").read_text(), page)
        self.assertIn((folder / "script.txt").read_text(), page)
        plain = [line for line in (ROOT / "examples/two-links/topology.toml").read_bytes().splitlines() if line and line[:1] != b"#"]
        self.assertEqual(report(b"\n".join(plain), *(folder / "script.txt").read_text().splitlines())[1:2], ["route red1 10.2.0.0/16 edge pe2 label 16"])

    def test_the_example_compares_with_the_full_mesh(self):
        """By `run` of the reference, with a session for each two edges."""
        topology = reference_inputs.read_topology(FOUR)
        edges = topology.edges()
        network = reference.Network(topology)
        for a in edges:
            for b in edges:
                if a < b:
                    network.do(("bgp up", a, b))
        for _ in reference.drain(network, None):
            pass
        mesh = vrf_table(network, 2)
        reflected = (EXAMPLE / "expected/report.txt").read_text().splitlines()[:4]
        page = (EXAMPLE / "README.md").read_text()
        for one, other in zip(reflected, mesh, strict=True):
            self.assertIn(f"| `{one}` | `{other}` |\n", page)
            self.assertEqual(one, other)

    def test_the_bytes_of_the_page_are_what_is_said(self):
        rows = [line.split("`") for line in (EXAMPLE / "README.md").read_text().splitlines() if line.startswith("| `00") or line.startswith(("| `40", "| `80", "| `C0"))]
        page = bytes.fromhex("".join(row[1] for row in rows).replace(" ", ""))
        world = drained_example()
        self.assertEqual(b"\xff" * 16 + page, reference_reflect.message(world, 5, route_of_pe1_to_pe3(world)))

    def test_bytes_worked_by_hand(self):
        """What p tells pe2 of the route of pe1."""
        world = Reflection(reference_inputs.read_topology(TWO), [1])
        world.do("bgp up", 0, 1), world.do("bgp up", 1, 2), world.drain(None)
        rows = (ROOT / "crates/mn_wire_rows/data/reflected.rows").read_text().splitlines()
        due = next(line.split("-> ")[1] for line in rows if line.startswith("reflected write 192.0.2.1 65000:1 10.1.0.0/16 16 65000:100 192.0.2.1 192.0.2.2 "))
        self.assertEqual(bytes.fromhex(due), reference_reflect.message(world, 1, world.said[1, 2][-1]))


@unittest.skipUnless(shutil.which("tshark"), "tshark isn't installed")
class Tshark(unittest.TestCase):
    def setUp(self):
        room = tempfile.TemporaryDirectory()
        self.addCleanup(room.cleanup)
        self.capture = Path(room.name) / "sessions.pcap"
        self.world = drained_example()
        self.capture.write_bytes(capture_of(self.world))

    def decoded(self, *words):
        return subprocess.run(["tshark", "-n", "-r", self.capture, *words], stdout=subprocess.PIPE, stderr=subprocess.DEVNULL, text=True, check=True).stdout

    def test_decodes_each_message_and_finds_nothing_malformed(self):
        fields = ["bgp.type", "bgp.update.path_attribute.originator_id", "bgp.path_attribute.cluster_id", "_ws.malformed"]
        rows = self.decoded("-T", "fields", "-E", "occurrence=a", "-E", "aggregator=;", *(word for field in fields for word in ("-e", field)))
        columns = list(zip(*(row.split("\t") for row in rows.splitlines())))
        types, originators, clusters = ([one for row in column for one in row.split(";") if one] for column in columns[:3])
        self.assertEqual({"1": 12, "4": 12, "2": 25}, {kind: types.count(kind) for kind in types})
        self.assertEqual(20, len(originators))  # all but the five of the edges
        self.assertEqual(20 + 3 + 4, len(clusters))  # pe3's route comes to three by way of both, and to two those of pe1 and pe2
        self.assertEqual({""}, {*columns[3]})

    def test_has_what_the_page_shows(self):
        shown = (EXAMPLE / "README.md").read_text().split("has of this one:\n\n```text\n")[1].split("```")[0].splitlines()
        whole = [line.strip() for line in self.decoded("-Y", "ip.src == 192.0.2.12 && ip.dst == 192.0.2.3", "-V").splitlines()]
        at = whole.index(shown[0])
        self.assertEqual(shown, [line for line in whole[at : whole.index("MP Reach NLRI IPv4 prefix: 10.1.0.0") + 1] if line in shown])


class Reference(unittest.TestCase):
    def test_leaves_a_report_alone(self):
        with tempfile.TemporaryDirectory() as room:
            words = ["reflect", EXAMPLE / "topology.toml", EXAMPLE / "script.txt", Path(room) / "out"]
            for more, said in (([], ""), (["--compare"], "1 files are as worked out here\n")):
                ran = subprocess.run([sys.executable, "-B", ROOT / "examples/reference.py", *more, *words], capture_output=True, text=True)
                self.assertEqual((0, said, ""), (ran.returncode, ran.stdout, ran.stderr))


class Compare(unittest.TestCase):
    """The script that compares program and reference, by a program that is the reference, whole or with a fault in it."""

    def setUp(self):
        room = tempfile.TemporaryDirectory()
        self.addCleanup(room.cleanup)
        self.room = Path(room.name)
        self.program = stand_in(self.room)

    def compare(self, *words):
        ran = subprocess.run([ROOT / "scripts/compare", "--program", self.program, *words], capture_output=True, text=True)
        self.assertEqual("", ran.stderr)
        return ran.returncode, ran.stdout

    def test_the_stored_runs(self):
        self.assertEqual(8, len(STORED))
        self.assertEqual((0, "8 runs: program and reference leave what is expected\n"), self.compare(*STORED))

    def test_random_reflectors(self):
        status, said = self.compare("--random", "12", "--command", "reflect")
        self.assertEqual((0, "12 random runs of reflect, 0 differences"), (status, said.splitlines()[0]))
        self.assertIn(" table route\n", said)

    def test_a_difference_is_told(self):
        fault = "import reference, reference_reflect\nreference_reflect.Reflection.from_edges = lambda world, node: {}\n"
        self.program.write_text(self.program.read_text().replace("import reference\n", fault))
        status, said = self.compare("--random", "12", "--command", "reflect", "--keep", self.room / "kept")
        self.assertEqual(1, status)
        self.assertRegex(said, r"seed \d+: report.txt at line \d+: due is\n")


if __name__ == "__main__":
    unittest.main()
