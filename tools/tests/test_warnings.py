"""mplsnet-lint warns of slips that are planted in a sound network, at their places, and of nothing in the examples."""

import re
import struct
import subprocess
import sys
import tempfile
import unittest
from pathlib import Path

ROOT = Path(__file__).resolve().parents[2]
sys.path[:0] = [str(ROOT / "tools"), str(ROOT / "examples"), str(ROOT / "scripts")]
import mplsnet.design  # noqa: E402
import mplsnet.rules  # noqa: E402
import mplsnet.warnings  # noqa: E402
import reference  # noqa: E402
import reference_inputs  # noqa: E402
from mplsnet.pcap import capture_of, udp_packet  # noqa: E402
from mplsnet.topology import topology_text  # noqa: E402

LINT = ROOT / "tools/mplsnet-lint"
# Two customers and a hub with two branches, over two inner nodes.
NET = """\
as = 65000

[[node]]
name = "p1"
loopback = "192.0.2.1"
[[node]]
name = "p2"
loopback = "192.0.2.2"
[[node]]
name = "pe1"
loopback = "192.0.2.11"
[[node]]
name = "pe2"
loopback = "192.0.2.12"
[[node]]
name = "pe3"
loopback = "192.0.2.13"

[[link]]
a = "p1"
b = "p2"
loss = 100
[[link]]
a = "pe1"
b = "p1"
[[link]]
a = "pe2"
b = "p2"
[[link]]
a = "pe3"
b = "p1"
[[link]]
a = "pe3"
b = "p2"

[[vrf]]
name = "red1"
node = "pe1"
rd = "65000:11"
import = ["65000:100"]
export = ["65000:100"]
[[vrf]]
name = "red2"
node = "pe2"
rd = "65000:12"
import = ["65000:100"]
export = ["65000:100"]
[[vrf]]
name = "red3"
node = "pe3"
rd = "65000:13"
import = ["65000:100"]
export = ["65000:100"]
[[vrf]]
name = "branch1"
node = "pe1"
rd = "65000:21"
import = ["65000:201"]
export = ["65000:202"]
[[vrf]]
name = "branch2"
node = "pe2"
rd = "65000:22"
import = ["65000:201"]
export = ["65000:202"]
[[vrf]]
name = "centre"
node = "pe3"
rd = "65000:23"
import = ["65000:202"]
export = ["65000:201"]

[[site]]
name = "a"
vrf = "red1"
prefixes = ["10.1.0.0/16"]
[[site]]
name = "b"
vrf = "red2"
prefixes = ["10.2.0.0/16"]
[[site]]
name = "c"
vrf = "red3"
prefixes = ["10.3.0.0/16"]
[[site]]
name = "west"
vrf = "branch1"
prefixes = ["10.1.0.0/16"]
[[site]]
name = "east"
vrf = "branch2"
prefixes = ["10.2.0.0/16"]
[[site]]
name = "head"
vrf = "centre"
prefixes = ["0.0.0.0/0"]
"""


def of(name, *pairs):
    """The text with changes in the entry of this name."""
    before, start, behind = NET.partition(f'name = "{name}"\n')
    entry, mark, rest = behind.partition("[[")
    for old, new in pairs:
        assert old in entry, (name, old)
        entry = entry.replace(old, new, 1)
    return before + start + entry + mark + rest


IMPORT, EXPORT = 'import = ["65000:100"]', 'export = ["65000:100"]'
SLIPS = [
    ("an import is mistyped", of("red2", (IMPORT, 'import = ["65000:10"]')),
     "vrf 1 'red2': import: \"65000:10\" is exported by no VRF; did you mean '65000:100'?"),
    ("an export is mistyped", of("red2", (EXPORT, 'export = ["65000:1000"]')),
     "vrf 1 'red2': export: \"65000:1000\" is imported by no VRF; did you mean '65000:100'?"),
    ("the AS of a target is mistyped", of("red3", (EXPORT, 'export = ["6500:100"]')),
     "vrf 2 'red3': export: \"6500:100\" is imported by no VRF; did you mean '65000:100'?"),
    ("digits of a target change places", of("branch1", ("65000:201", "65000:210")),
     "vrf 3 'branch1': import: \"65000:210\" is exported by no VRF; did you mean '65000:201'?"),
    ("import and export are mistyped alike", of("red2", (IMPORT, 'import = ["65000:101"]'), (EXPORT, 'export = ["65000:101"]')),
     "vrf 1 'red2': it shares no target with any other VRF; red1 and red3 export 65000:100"),
    ("a target more that nobody exports", of("red1", (IMPORT, 'import = ["65000:100", "65000:900"]')),
     "vrf 0 'red1': import: \"65000:900\" is exported by no VRF"),
    ("a target more that nobody imports", of("red1", (EXPORT, 'export = ["65000:100", "65000:900"]')),
     "vrf 0 'red1': export: \"65000:900\" is imported by no VRF"),
    ("a hub's targets are those of a branch", of("centre", ("65000:202", "65000:201"), ('export = ["65000:201"]', 'export = ["65000:202"]')),
     "vrf 3 'branch1': import: \"65000:201\" is exported by no VRF"),
    ("a branch's targets are those of the hub", of("branch2", ("65000:201", "65000:203"), ("65000:202", "65000:204")),
     "vrf 4 'branch2': import: \"65000:203\" is exported by no VRF"),
    ("no import", of("red2", (IMPORT + "\n", "")), "vrf 1 'red2': it imports no target: its sites reach those of no other VRF"),
    ("an empty import", of("red2", (IMPORT, "import = []")), "vrf 1 'red2': it imports no target"),
    ("no export", of("red2", (EXPORT + "\n", "")), "vrf 1 'red2': it exports no target: no other VRF has routes to its sites"),
    ("no targets at all", of("branch1", ('import = ["65000:201"]\n', ""), ('export = ["65000:202"]\n', "")), "vrf 3 'branch1': it imports no target"),
    ("a site in another VRF", of("b", ("red2", "red1")), "vrf 1 'red2': no site is in it"),
    ("a site in another customer's VRF", of("east", ("branch2", "red2"), ("10.2.", "10.9.")), "vrf 4 'branch2': no site is in it"),
    ("a VRF that was left over", NET + '[[vrf]]\nname = "old"\nnode = "pe1"\nrd = "65000:99"\nimport = ["65000:100"]\nexport = ["65000:100"]\n',
     "vrf 6 'old': no site is in it"),
    ("a leak one way", of("red1", (IMPORT, 'import = ["65000:100", "65000:201"]')),
     "vrf 0 'red1': it has routes to the sites of centre, by 65000:201, and centre has none back: it imports none of 65000:100"),
    ("a customer's routes at another one", of("branch2", ("65000:201", "65000:100")),
     "vrf 4 'branch2': it has routes to the sites of red1, by 65000:100, and red1 has none back"),
    ("a node without a link", NET.replace('a = "pe1"\nb = "p1"', 'a = "p1"\nb = "pe2"'), "node 2 'pe1': no link leads to it"),
    ("a link to another node than was meant", NET.replace('a = "pe2"\nb = "p2"', 'a = "p2"\nb = "pe1"'), "node 3 'pe2': no link leads to it"),
    ("a node more without a link", NET.replace("[[link]]", '[[node]]\nname = "p3"\nloopback = "192.0.2.3"\n[[link]]', 1), "node 5 'p3': no link leads to it"),
    ("parts that nothing joins", NET.replace('[[link]]\na = "p1"\nb = "p2"\nloss = 100\n', "").replace('[[link]]\na = "pe3"\nb = "p2"\n', ""),
     "node 1 'p2': no link joins p2 and pe2 with the other nodes"),
    ("a loss of every frame", NET.replace("loss = 100", "loss = 1"), "link 0: loss = 1: every frame on it is lost"),
    ("another site's prefix", of("c", ("10.3.", "10.2.")),
     "site 2 'c': prefixes: \"10.2.0.0/16\" is a prefix of site 1 'b' too, and packets go to one of the two alone"),
    ("another site's prefix on one edge", of("b", ("red2", "red4"), ("10.2.", "10.1.")).replace('"red2"\nnode = "pe2"', '"red4"\nnode = "pe1"'),
     "site 1 'b': prefixes: \"10.1.0.0/16\" is a prefix of site 0 'a' too"),
    ("a mask that is too short", of("a", ("10.1.0.0/16", "10.0.0.0/8")),
     "site 0 'a': prefixes: \"10.0.0.0/8\": 10.2.0.0/16 of site 1 'b' lies in it (and 1 more)"),
    ("a part of another site's prefix", of("b", ("10.2.0.0/16", "10.1.64.0/18")),
     "site 0 'a': prefixes: \"10.1.0.0/16\": 10.1.64.0/18 of site 1 'b' lies in it: packets to that go there"),
    ("a part of a site's prefix in one VRF", of("b", ("red2", "red1"), ("10.2.0.0/16", "10.1.2.0/24")),
     "site 0 'a': prefixes: \"10.1.0.0/16\": 10.1.2.0/24 of site 1 'b' lies in it"),
    ("no prefixes", of("b", ('prefixes = ["10.2.0.0/16"]\n', "")), "site 1 'b': it has no prefix: nothing is sent to it"),
    ("an empty list of prefixes", of("b", ('["10.2.0.0/16"]', "[]")), "site 1 'b': it has no prefix: nothing is sent to it"),
    ("a prefix of groups", of("b", ("10.2.0.0/16", "224.2.0.0/16")), "site 1 'b': prefixes: \"224.2.0.0/16\": no packet may go there"),
    ("a prefix of the loopback's net", of("b", ("10.2.0.0/16", "127.0.0.0/8")), "site 1 'b': prefixes: \"127.0.0.0/8\": no packet may go there"),
    ("an edge of the hub that is apart", NET.replace('[[link]]\na = "pe3"\nb = "p1"\n[[link]]\na = "pe3"\nb = "p2"\n', ""),
     "node 4 'pe3': no link leads to it"),
]  # fmt: skip


class Slips(unittest.TestCase):
    def warned(self, text, script=b""):
        rules = mplsnet.rules.TopologyRules(text.encode())
        self.assertEqual([], rules.broken)
        return mplsnet.warnings.TopologyWarnings(text.encode(), script).found

    def test_the_sound_network_has_none(self):
        self.assertEqual([], self.warned(NET))

    def test_each_slip_is_warned_of_at_its_place(self):
        self.assertLessEqual(30, len(SLIPS))
        for what, text, why in SLIPS:
            with self.subTest(what):
                told = [one for one in self.warned(text) if one.words("x").partition(" at ")[2].startswith(why)]
                self.assertEqual(1, len(told), [one.words("x") for one in self.warned(text)])
                kind, number = told[0].place.split()[:2]
                lines = text.splitlines()
                entries = [at for at, line in enumerate(lines, 1) if line == f"[[{kind}]]"] + [len(lines) + 1]
                self.assertTrue(entries[int(number)] <= told[0].line, "the line is one of the entry")
                self.assertRegex(lines[told[0].line - 1][told[0].column - 1 :], r'^("|\d|\[|[a-z]+ = )')

    def test_one_site_behind_two_edges(self):
        """It isn't warned of where the topology says so, or where names do."""
        two = of("c", ("10.3.", "10.2."))
        self.assertEqual(1, len(self.warned(two)))
        self.assertEqual([], self.warned("resolve = true\n" + two))
        self.assertEqual([], self.warned(two.replace('name = "c"', 'name = "b-too"')))

    def test_what_is_meant_can_be_said(self):
        self.assertEqual([], self.warned(of("a", ('["10.1.0.0/16"]', '["10.0.0.0/8"]  # the rest of it; lint: ok'))))

    def test_what_the_script_adds_counts(self):
        text = of("red2", (IMPORT, 'import = ["65000:7"]'))
        self.assertEqual(1, len(self.warned(text)))
        self.assertEqual([], self.warned(text, b"export add red1 65000:7\nimport add red2 65000:100 # x\n"))
        self.assertEqual([], self.warned(of("b", ('["10.2.0.0/16"]', "[]")), b"route add b 10.2.0.0/16\r\n"))

    def test_made_topologies_have_none(self):
        for family in mplsnet.design.FAMILIES:
            text = mplsnet.design.family_text(family, 3, 4, 8, 4)
            self.assertEqual([], self.warned(topology_text(mplsnet.design.Short("x").read(text).tables())), family)
        text = "nodes: p[1-4] pe[01-05]\nlinks: ring p[1-4]; pe -> 2 of p\nvpn c1: pe01 pe02\nvpn c2: pe01 pe04; hub pe05\nvpn svc: pe03\nshare: svc with c1 c2\n"
        self.assertEqual([], self.warned(topology_text(mplsnet.design.Short("x").read(text).tables())))


def record(packet, size=None):
    return struct.pack("<4I", 0, 0, len(packet) if size is None else size, len(packet)) + packet


class Captures(unittest.TestCase):
    def test_a_refusal_is_the_references(self):
        good = capture_of([udp_packet(bytes((10, 1, 0, 1)), bytes((10, 2, 0, 1)))])
        link = lambda kind: good[:20] + struct.pack("<I", kind) + good[24:]  # noqa: E731
        for content in (
            b"", b"\x0a\x0d\x0d\x0a..", b"pcap", good[:9], good[:4] + b"\3\0\4\0" + good[8:], link(113), link(0xF0000001),
            good + b"\0" * 3, good + record(b"x", 262_145), good + record(b"x", 2), good,
            struct.pack(">IHHiIII", 0xA1B23C4D, 2, 4, 0, 0, 0, 101) + struct.pack(">4I", 0, 0, 1, 1) + b"\x45", good[:24],
        ):  # fmt: skip
            found = mplsnet.warnings.Capture(content)
            said = [re.sub("^", "capture refused ", one.words("").removeprefix(": ").partition(":")[0]) for one in found.broken]
            try:
                due = reference_inputs.read_capture(content)
                self.assertEqual(([], due), (said, found.packets))
            except reference_inputs.Refused as error:
                self.assertEqual([str(error)], said)

    def test_what_any_edge_drops_is_the_references(self):
        good = udp_packet(bytes((10, 1, 0, 1)), bytes((10, 2, 0, 1)))
        wrong_sum, short = good[:10] + b"\0\0" + good[12:], good[:2] + b"\0\x13" + good[4:]
        for packet in (b"", b"\x65" + good[1:], b"\x44" + good[1:], good[:19], good[:27], wrong_sum, good, short, b"\x4f" + good[1:]):
            self.assertEqual(reference.fault_of(packet), mplsnet.warnings.drop_of(packet))
        self.assertEqual("TtlExpired", mplsnet.warnings.drop_of(udp_packet(bytes((10, 1, 0, 1)), bytes((10, 2, 0, 1)), 1)))
        self.assertEqual("NotUnicast", mplsnet.warnings.drop_of(udp_packet(bytes((10, 1, 0, 1)), bytes((224, 0, 0, 1)))))


class Tool(unittest.TestCase):
    def setUp(self):
        room = tempfile.TemporaryDirectory()
        self.addCleanup(room.cleanup)
        self.room = Path(room.name)

    def run_tool(self, *words):
        ran = subprocess.run([LINT, *words], cwd=self.room, capture_output=True, text=True)
        return ran.returncode, ran.stdout.splitlines(), ran.stderr

    def test_the_capture(self):
        good, late, lost = (udp_packet(bytes((10, 1, 0, 1)), bytes(to), ttl) for to, ttl in (((10, 2, 0, 1), 64), ((10, 2, 0, 1), 1), ((11, 0, 0, 1), 64)))
        (self.room / "t").write_text(of("head", ("0.0.0.0/0", "10.4.0.0/16")))
        (self.room / "c").write_bytes(capture_of([good, late, lost, b""]))
        (self.room / "s").write_text("inject a 1\ninject a 9\ninject a 2\ninject a 3\nshow frame pe1 4\ndamage ldp pe1 p1 7\ninject a 9 # lint: ok\n")
        wanted = [
            "t: topology ok nodes 5 links 5 vrfs 6 sites 6 prefixes 6", "s: script ok commands 7",
            "s:2:10: warning at line 2: there is no record 9: the capture has 4 records",
            "s:6:19: warning at line 6: there is no record 7: the capture has 4 records", "c: capture ok records 4",
            "c: warning at record 2: any edge drops it as TtlExpired: its TTL is 0 or 1 (line 3 of the script sends it)",
            "c: warning at record 3: any edge drops it as NoRoute: no site has a prefix that contains 11.0.0.1 (line 4 of the script sends it)",
        ]  # fmt: skip
        self.assertEqual((0, wanted, "mplsnet-lint: 4 warnings\n"), self.run_tool("t", "s", "c"))
        self.assertEqual(1, self.run_tool("--strict", "t", "s", "c")[0])
        (self.room / "c").write_bytes(b"\x0a\x0d\x0d\x0a")
        status, said, _ = self.run_tool("t", "s", "c")
        self.assertEqual((1, "c: IsPcapng at byte 0: it is a pcapng: 'editcap -F pcap' makes a pcap of it"), (status, said[-1]))

    def test_strict(self):
        (self.room / "t").write_text(SLIPS[0][1])
        status, said, end = self.run_tool("t")
        self.assertEqual((0, "mplsnet-lint: 1 warning\n"), (status, end))
        self.assertEqual(f"t:46:11: warning at {SLIPS[0][2]}", said[1])
        self.assertEqual(1, self.run_tool("--strict", "t")[0])

    def test_a_wrong_topology_is_warned_of_nothing(self):
        (self.room / "t").write_text(SLIPS[0][1].replace("65000:11", "x"))
        status, said, end = self.run_tool("t")
        self.assertEqual((1, 1, "mplsnet-lint: 1 fault\n"), (status, len(said), end))

    def test_the_examples_have_none(self):
        for path in sorted(ROOT.glob("examples/*/topology*.toml")):
            topology, folder = path.read_bytes(), path.parent
            self.assertEqual([], mplsnet.warnings.TopologyWarnings(topology).found, path)
            if (folder / "capture.pcap").exists() and not (folder / "command.txt").exists():
                script, capture = (folder / "script.txt").read_bytes(), mplsnet.warnings.Capture((folder / "capture.pcap").read_bytes())
                found = mplsnet.warnings.TopologyWarnings(topology, script)
                records = mplsnet.warnings.CaptureWarnings(script, capture.packets, {of for site in found.sites for of in site.prefixes})
                self.assertEqual(([], [], [], []), (found.found, capture.broken, records.of_script, records.of_capture), folder)


if __name__ == "__main__":
    unittest.main()
