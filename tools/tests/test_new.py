"""What mplsnet-new makes runs, and every probe of it arrives."""

import shutil
import subprocess
import sys
import tempfile
import tomllib
import unittest
from pathlib import Path

from runs import ROOT, reference

import mplsnet.whatif as whatif
from mplsnet.knowledge import Net
from mplsnet.rules import TopologyRules

TOOL = ROOT / "tools/mplsnet-new"
SHORT = """\
as: 65010
nodes: p[1-4] pe[01-05]           # four inner nodes and five edges
links: ring p[1-4]; pe -> 2 of p; p1 - p3 cost 20 delay 3
vpn c1: pe01 pe02+pe03 pe02
vpn c2: pe01 pe04; hub pe05
vpn svc: pe03
share: svc with c1 c2
"""
NETLAB = """\
provider: clab
defaults.device: frr
module: [ ospf, bgp, mpls, vrf ]
mpls.ldp: True
bgp.as: 65001
vrfs:
  red:
    rd: 65001:7
    import: [ red, shared ]
    export: red
  blue:
    links: [ h2-pe2 ]
  shared:
    import: [ shared, red, '65001:99' ]
nodes:
  pe1:
  p-1:
    module: [ ospf, mpls ]
  pe2:
  h1: { device: linux }
  h2: { device: linux }
  ce3:
    module: [ bgp ]
  srv: { role: host }
links:
- pe1-p-1
- pe2:
    ospf.cost: 30
  p-1:
- h1:
  pe1:
    vrf: red
  prefix: 192.168.1.0/24
- ce3:
  pe2:
  vrf: red
- interfaces: [ srv, { node: pe1, vrf: shared } ]
- h1-h2
tools: { graphite: }
"""
CLAB = """\
name: mpls
topology:
  kinds:
    vr-xrv9k: { image: xrv }
  nodes:
    pe1: { kind: vr-xrv9k }
    p1: { kind: vr-xrv9k }
    pe2: { kind: linux, image: frrouting/frr:latest }
    host1: { kind: linux, image: alpine }
  links:
    - endpoints: ["pe1:eth1", "p1:eth1"]
    - endpoints: ["p1:eth2", "pe2:eth1"]
    - endpoints: ["p1:eth3", "pe2:eth2"]
    - endpoints: ["pe1:eth2", "host1:eth1"]
"""
FRR = {
    "pe1": """\
frr version 8.4
hostname pe1
!
vrf RED
 ip route 10.1.5.0/24 192.168.1.2
exit-vrf
!
interface eth0
 ip address 10.0.1.1/30
 ip ospf cost 15
!
interface eth1 vrf RED
 ip address 192.168.1.1/24
!
interface lo
 ip address 10.255.0.1/32
!
router ospf
 network 10.0.0.0/8 area 0
!
router bgp 65002
 neighbor 10.255.0.3 remote-as 65002
 address-family ipv4 vpn
  neighbor 10.255.0.3 activate
 exit-address-family
!
router bgp 65002 vrf RED
 address-family ipv4 unicast
  redistribute connected
  redistribute static
  rd vpn export 65002:1
  rt vpn both 65002:10
  label vpn export auto
  export vpn
  import vpn
 exit-address-family
!
mpls ldp
 router-id 10.255.0.1
 address-family ipv4
  interface eth0
 exit-address-family
""",
    "p": """\
hostname p
interface eth0
 ip address 10.0.1.2/30
 ip ospf cost 15
interface eth1
 ip address 10.0.2.1/30
interface lo
 ip address 10.255.0.2/32
mpls ldp
 address-family ipv4
  interface eth0
  interface eth1
""",
    "pe2": """\
hostname pe2
interface eth0
 ip address 10.0.2.2/30
interface lo
 ip address 10.255.0.3/32
interface eth1
 vrf RED
 ip address 192.168.2.1/24
router bgp 65002 vrf RED
 address-family ipv4 unicast
  network 10.2.0.0/16
  rd vpn export 65002:2
  rt vpn import 65002:10
  rt vpn export 65002:10
mpls ldp
 address-family ipv4
  interface eth0
""",
    "ce1": "hostname ce1\ninterface eth0\n ip address 192.168.1.2/24\nrouter bgp 65100\n neighbor 192.168.1.1 remote-as 65002\n",
}


class New(unittest.TestCase):
    def setUp(self):
        self.folder = Path(tempfile.mkdtemp())
        self.addCleanup(shutil.rmtree, self.folder)
        self.out = [self.folder / name for name in ("topology.toml", "up.txt", "probes.pcap")]

    def run_tool(self, *words):
        return subprocess.run([sys.executable, TOOL, *map(str, words)], capture_output=True, text=True)

    def made(self, *words):
        """What the run of the three files reports, the topology's tables, and what was left out."""
        ran = self.run_tool(*words, "--topology", self.out[0], "--script", self.out[1], "--capture", self.out[2])
        self.assertEqual((0, ""), (ran.returncode, ran.stdout), ran.stderr)
        report, _ = reference.run_of(*(path.read_bytes() for path in self.out))
        self.assertEqual([], TopologyRules(self.out[0].read_bytes()).broken)
        lines = ran.stderr.splitlines()
        self.assertTrue(not lines or lines[0].startswith("mplsnet-new: what isn't as in "), lines)
        self.assertLessEqual(len(lines), 24)
        return report.decode().splitlines(), tomllib.loads(self.out[0].read_text()), [line.strip() for line in lines]

    def all_arrive(self, report):
        *packets, total = report
        words = total.split()
        self.assertEqual("total", words[0])
        self.assertEqual((str(len(packets)), "0", "0"), (words[4], words[6], words[8]), report)
        self.assertGreater(len(packets), 0)

    def file(self, name, text):
        path = self.folder / name
        path.parent.mkdir(exist_ok=True)
        path.write_text(text)
        return path

    def refused(self, status, said, *words):
        ran = self.run_tool(*words)
        self.assertEqual((status, ""), (ran.returncode, ran.stdout))
        self.assertIn(said, ran.stderr)
        self.assertNotIn("Traceback", ran.stderr)

    def test_the_short_form(self):
        report, net, left = self.made("--from", self.file("net.txt", SHORT))
        self.all_arrive(report)
        self.assertEqual([], left)
        self.assertEqual((65010, 9, 15), (net["as"], len(net["node"]), len(net["link"])))
        self.assertEqual({"a": "p1", "b": "p3", "cost": 20, "delay": 3}, net["link"][-1])
        targets = {vrf["name"]: (vrf["import"], vrf["export"]) for vrf in net["vrf"]}
        self.assertEqual((["65010:1", "65010:20001"], ["65010:1", "65010:30001"]), targets["c1-pe01"])
        self.assertEqual((["65010:10002", "65010:20001"], ["65010:2", "65010:30001"]), targets["c2-pe01"])
        self.assertEqual((["65010:2", "65010:20001"], ["65010:10002", "65010:30001"]), targets["c2-pe05-hub"])
        self.assertEqual((["65010:3", "65010:30001"], ["65010:3", "65010:20001"]), targets["svc-pe03"])
        sites = {site["name"]: (site["vrf"], site["prefixes"]) for site in net["site"]}
        self.assertEqual(sites["c1-pe02"][1], sites["c1-pe03"][1], "a site behind two edges has one prefix")
        self.assertEqual(("c1-pe02", ["10.1.3.0/24"]), sites["c1-pe02-2"])
        self.assertTrue(net["resolve"])
        self.assertIn("# resolve: a route to whose edge no label path leads stands aside", self.out[0].read_text())
        self.assertIs(False, self.made("--from", self.file("net.txt", SHORT + "resolve: false\n"))[1]["resolve"])
        self.assertNotIn("#  resolve", self.out[0].read_text())

    def test_families(self):
        for family in ("ring", "mesh", "waxman", "fat-tree"):
            with self.subTest(family):
                words = ("--random", 5, "--family", family, "--size", 4, "--edges", 4, "--vpns", 2)
                report, net, _ = self.made(*words)
                self.all_arrive(report)
                self.assertTrue(net["resolve"])
                self.assertEqual(self.run_tool(*words).stdout, self.out[0].read_text(), "the same seed gives the same")
                self.assertNotEqual(self.run_tool("--random", 6, *words[2:]).stdout, self.out[0].read_text())

    def test_generated(self):
        report, _, _ = self.made("--generated", 0)
        # The total is that of 'generate 0' (docs/MEASUREMENTS.md has its steps).
        self.assertRegex(report[-1], r"^total packets 1000 delivered 1000 dropped 0 flying 0 steps 2381 refused 0 tick \d+$")

    def test_netlab(self):
        report, net, left = self.made("--from", self.file("lab.yml", NETLAB))
        self.all_arrive(report)
        self.assertEqual(["pe1", "p-1", "pe2"], [node["name"] for node in net["node"]])
        self.assertEqual([{"a": "pe1", "b": "p-1"}, {"a": "pe2", "b": "p-1", "cost": 30}], net["link"])
        self.assertEqual({"red-pe1": (["65001:7", "65001:3"], ["65001:7"]), "red-pe2": (["65001:7", "65001:3"], ["65001:7"]),
                          "shared-pe1": (["65001:3", "65001:7", "65001:99"], ["65001:3"]), "blue-pe2": (["65001:2"], ["65001:2"])},
                         {vrf["name"]: (vrf["import"], vrf["export"]) for vrf in net["vrf"]})  # fmt: skip
        self.assertEqual({"h1": "red-pe1", "ce3": "red-pe2", "srv": "shared-pe1", "h2": "blue-pe2"}, {site["name"]: site["vrf"] for site in net["site"]})
        self.assertIn(["192.168.1.0/24"], [site["prefixes"] for site in net["site"]])
        self.assertIn("key 'mpls': LDP is on on all links, and labels are those of loopbacks", left)
        self.assertIn("pe1, pe2: VRF red: rd 65001:7 is that of all its edges: each has one of its own here", left)
        self.assertIn("key 'tools'", left)

    def test_netlab_of_static_routes(self):
        """Loopbacks, a distinguisher that one node alone has, and static routes in VRFs in place of the links' nets."""
        text = NETLAB.replace("  pe1:\n  p-1", "  pe1:\n    loopback.ipv4: 192.0.2.9/32\n    routing.static:\n    - { ipv4: 10.9.0.0/16, nexthop.ipv4: 198.18.0.2, vrf: shared }\n  p-1")
        text = text.replace("  shared:\n", "  shared:\n    rd: 65001:77\n    bgp.import: [ static ]\n")
        text = text.replace("srv, { node: pe1, vrf: shared }", "{ node: srv, ipv4: 198.18.0.2/30 }, { node: pe1, vrf: shared, ipv4: 198.18.0.1/30 }")
        _, net, _ = self.made("--from", self.file("lab.yml", text))
        self.assertEqual(("pe1", "192.0.2.9"), (net["node"][0]["name"], net["node"][0]["loopback"]))
        self.assertEqual({"shared-pe1": "65001:77"}, {vrf["name"]: vrf["rd"] for vrf in net["vrf"] if vrf["name"].startswith("shared")})
        self.assertEqual(["10.9.0.0/16"], next(site["prefixes"] for site in net["site"] if site["name"] == "srv"))
        self.assertNotIn("65001:7", [vrf["rd"] for vrf in net["vrf"]], "two nodes have red's")

    def test_frr_of_a_router_without_links(self):
        """One with LDP is the provider's, and a VRF's name stays within 32 characters."""
        long = "a-router-of-a-rather-long-name"
        self.file("lab/rr.conf", "hostname rr\ninterface lo\n ip address 10.255.0.9/32\nmpls ldp\n router-id 10.255.0.9\n")
        self.file("lab/pe1.conf", FRR["pe1"].replace("hostname pe1", f"hostname {long}"))
        tables = tomllib.loads(self.run_tool("--from", self.folder / "lab").stdout)
        self.assertEqual([long, "rr"], [node["name"] for node in tables["node"]])
        self.assertEqual(["RED-a-router-of-a-rather-long-na"], [vrf["name"] for vrf in tables["vrf"]])

    def test_containerlab(self):
        report, net, left = self.made("--from", self.file("lab.clab.yml", CLAB), "--vpn", "red: pe1 pe2")
        self.all_arrive(report)
        self.assertEqual(["pe1", "p1", "pe2"], [node["name"] for node in net["node"]])
        self.assertEqual(2, len(net["link"]))
        self.assertEqual(["mplsnet-new: what isn't as in " + str(self.folder / "lab.clab.yml") + ", most important first:", "nodes and links differ:",
                          "nodes that are no routers, left out with their links: host1",
                          "p1-pe2: links side by side are one link of the least cost, which fails only whole: link 2",
                          "link 3 of pe1, host1: not between two routers: left out"], left)  # fmt: skip
        self.assertIn("no VPN is there", self.run_tool("--from", self.folder / "lab.clab.yml").stderr)

    def test_frr(self):
        for name, text in FRR.items():
            self.file(f"lab/{name}/frr.conf".replace(f"/{name}/", f"-{name}/"), text)
        lab = self.folder / "lab"
        lab.mkdir()
        for name in FRR:
            (self.folder / f"lab-{name}").rename(lab / name)
        report, net, left = self.made("--from", lab)
        self.all_arrive(report)
        self.assertEqual({"pe1": "10.255.0.1", "p": "10.255.0.2", "pe2": "10.255.0.3"}, {node["name"]: node["loopback"] for node in net["node"]})
        self.assertEqual([("p", "pe1", 15), ("p", "pe2", 1)], [(*sorted((link["a"], link["b"])), link.get("cost")) for link in net["link"]])  # FRR's cost at 10 Gbit/s and a reference of 100 Mbit/s is 1
        self.assertEqual({"RED-pe1": ("65002:1", ["65002:10"], ["65002:10"]), "RED-pe2": ("65002:2", ["65002:10"], ["65002:10"])},
                         {vrf["name"]: (vrf["rd"], vrf["import"], vrf["export"]) for vrf in net["vrf"]})  # fmt: skip
        self.assertEqual({"RED-pe1": ["192.168.1.0/24", "10.1.5.0/24"], "RED-pe2": ["10.2.0.0/16"]}, {site["name"]: site["prefixes"] for site in net["site"]})
        self.assertIn("ce1: a router without LDP and VRFs, left out", left)
        self.assertIn("p-pe2: no 'ip ospf cost' or 'bandwidth' at p and pe2: the cost is FRR's for a speed that it doesn't know", left)

    def test_a_topology_of_ones_own(self):
        """Links, LDP and BGP come up one behind the other; every probe arrives."""
        topology = ROOT / "examples/ring/topology.toml"
        ran = self.run_tool("--from", topology, "--script", self.out[1], "--capture", self.out[2])
        self.assertEqual((0, "", ""), (ran.returncode, ran.stdout, ran.stderr))
        report, files = reference.run_of(topology.read_bytes(), *(path.read_bytes() for path in self.out[1:]))
        self.all_arrive(report.decode().splitlines())
        steps = [line.split()[1:3] for line in files["journal.txt"].decode().splitlines()]
        last = [max(at for at, step in enumerate(steps) if step == words) for words in (["link", "up"], ["ldp", "on"], ["bgp", "up"])]
        first = [steps.index(words) for words in (["hear", "ldp"], ["hear", "bgp"])]
        self.assertTrue(last[0] < last[1] < first[0] < last[2] < first[1], (last, first))

    def test_a_link_that_is_taken_out(self):
        """By hand: the ring goes on the other way; what comes before anyone has learned of it is dropped at the link."""
        topology = self.file("net.toml", self.run_tool("--from", self.file("net.txt", "nodes: pe1 pe2 p\nlinks: ring pe1 pe2 p\nvpn red: pe1 pe2\n")).stdout)
        ran = self.run_tool("--from", topology, "--maintain", "pe2-pe1", "--script", self.out[1], "--capture", self.out[2])
        self.assertEqual((0, "", ""), (ran.returncode, ran.stdout, ran.stderr))
        report = reference.run_of(topology.read_bytes(), *(path.read_bytes() for path in self.out[1:]))[0].decode().splitlines()
        ends = [line.split(" record ")[1].split(" ", 1)[1] for line in report[:-1]]
        there, back, by_p = "delivered red-pe2 ttl 62 copy {} path pe1 pe2", "delivered red-pe1 ttl 62 copy {} path pe2 pe1", "delivered red-pe2 ttl 61 copy {} path pe1 p pe2"
        self.assertEqual([there.format(1), back.format(2), "dropped NoLsp at pe1 path pe1", "dropped NoLsp at pe2 path pe2", by_p.format(3)], ends[:5])
        self.assertEqual([there.format(7), back.format(8)], ends[8:], "it is back, and all have learned of it")
        self.assertIn("# The link pe1-pe2 goes out. At once, while no node has learned of it: packets 3 to 4.\n", self.out[1].read_text())

    def test_first_expectations(self):
        net = self.file("net.txt", SHORT)
        ran = self.run_tool("--from", net, "--topology", self.out[0], "--expect", self.folder / "expect.txt")
        self.assertEqual((0, ""), (ran.returncode, ran.stderr))
        text = (self.folder / "expect.txt").read_text()
        for line in ("all of vpn c1 reach each other after any failure", "c2-pe05-hub reaches all of vpn c2 after any failure", "all of vpn c2 reach none but c2-pe05-hub, svc-pe03"):
            self.assertIn(f"\n{line}\n", text)
        again = self.run_tool("--from", self.out[0], "--expect", self.folder / "again.txt")
        self.assertEqual((0, "", ""), (again.returncode, again.stdout, again.stderr))
        self.assertEqual(text.splitlines()[1:], (self.folder / "again.txt").read_text().splitlines()[1:])

    def test_the_network_of_the_document(self):
        """docs/WHATIF.md tells of its network what it has."""
        page = (ROOT / "docs/WHATIF.md").read_text()
        made = self.run_tool("--from", self.file("provider.txt", page.split("```text\n")[1].split("```")[0]))
        tables = tomllib.loads(made.stdout)
        self.assertEqual((0, ""), (made.returncode, made.stderr))
        prefixes = sum(len(site["prefixes"]) for site in tables["site"])
        counts = " ".join(f"{kind}s {len(tables[kind])}" for kind in ("node", "link", "vrf", "site"))
        self.assertIn(f"topology ok {counts} prefixes {prefixes}\n", page)
        net = Net("net", tables)
        failures = whatif.failures_of(net, whatif.KINDS, False)
        self.assertIn(f"{len(whatif.probes_of(net))} of them", page)
        self.assertIn(f"{len(whatif.double_of(net, False)):,} pairs here", page)
        self.assertIn(f"{len(failures)} failures of {len(whatif.probes_of(net))} pairs: {len(failures) * len(whatif.probes_of(net))} verdicts", page)

    def test_wrong_words(self):
        self.refused(2, "one of the arguments --from --random --generated is required")
        self.refused(2, "'100' isn't a number from 0 to 99", "--generated", 100)
        self.refused(2, "a fat tree has an even number of pods", "--random", 1, "--family", "fat-tree", "--size", 5)
        self.refused(2, "--form is of --from", "--random", 1, "--form", "frr")
        self.refused(2, "neither --vpn nor --topology goes with it", "--from", "net.toml", "--topology", self.out[0])
        self.refused(2, "name one", "--from", "net.toml")
        self.refused(2, "--maintain doesn't go with --generated", "--generated", 1, "--maintain", "n0-n1")

    def test_wrong_files(self):
        self.refused(1, "nothing.txt: No such file", "--from", self.folder / "nothing.txt")
        for line, said in (
            ("links: ring q", "there is no node 'q'"),
            ("nodes: p[1-", "'p[1-' isn't a name or a pattern"),
            ("nodes: p[3-1]", "'3-1' isn't a number or a range"),
            ("nodes: p1", "node 'p1' stands twice"),
            ("nodes: p/1", "'p/1' is no name"),
            ("links: p -> x of p", "isn't of the form 'pe -> 2 of p'"),
            ("links: p1 - p1", "a link from 'p1' to itself"),
            ("links: p1 - p2 cost 0", "cost '0' isn't a number from 1 to 65535"),
            ("links: p1 - p2 delay 1001", "delay '1001' isn't a number from 1 to 1000"),
            ("links: web p", "is none of 'ring ..'"),
            ("vpn a: p1 p9", "there is no node 'p9'"),
            ("share: a with b", "there is no VPN 'a' above"),
            ("color: red", "'color' is none of 'nodes'"),
            ("red", "isn't of the form 'nodes: ..'"),
            ("resolve: yes", "'resolve' with true or false"),
        ):
            with self.subTest(line):
                net = self.file("net.txt", f"nodes: p[1-2]\n{line}\n")
                self.refused(1, "net.txt: line 2: ", "--from", net)
                self.refused(1, said, "--from", net)
        wrong = self.file("net.toml", '[[node]]\nname = "a"\n')
        self.refused(1, "net.toml:1:1: T3 MissingKey at node 0 'a': the key 'loopback' is missing", "--from", wrong, "--script", self.out[1])
        self.refused(1, "there is no link 'pe1-p9'", "--from", ROOT / "examples/two-links/topology.toml", "--script", self.out[1], "--maintain", "pe1-p9")
        self.refused(1, "has at most 256", "--from", self.file("net.txt", "nodes: p[1-300]\n"))
        self.refused(1, "lab.yml: line 3: not YAML", "--from", self.file("lab.yml", "nodes:\n a: [\n"))
        self.refused(1, "has no nodes: isn't netlab's", "--from", self.file("lab.yml", "links: []\n"))
        self.refused(1, "link 0: 'a-b' doesn't name nodes", "--from", self.file("lab.yml", "nodes: [a]\nlinks: [a-b]\n"))
        self.refused(1, "isn't an address of IPv4", "--from", self.file("r.conf", "interface e\n ip address 1.2.3\n"))
        (self.folder / "empty").mkdir()
        self.refused(1, "has neither *.conf nor */frr.conf", "--from", self.folder / "empty")
        self.refused(1, "out.toml: No such file", "--random", 1, "--topology", self.folder / "no/out.toml")


if __name__ == "__main__":
    unittest.main()
