"""What mplsnet-new takes from other tools' files: what changes reachability is taken or told, and nothing is made that the program refuses."""

import json
import os
import random
import shutil
import subprocess
import sys
import tempfile
import tomllib
import unittest
from pathlib import Path

from runs import ROOT, reference

import mplsnet.design as design_module
import mplsnet.frr as frr
import mplsnet.imports as imports
import mplsnet.left as left
from mplsnet.files import Fault
from mplsnet.rules import TopologyRules
from mplsnet.topology import topology_text

TOOL = ROOT / "tools/mplsnet-new"
SEEDS = range(int(os.environ.get("MPLSNET_RANDOM", "40")))

# Networks of FRR routers in a ring of P, edges at two of them, two VPNs with one distinguisher each, and two reflectors.


def interface(name, address, *lines, vrf=None):
    return [f"interface {name}{f' vrf {vrf}' if vrf else ''}", f" ip address {address}", *(f" {line}" for line in lines), "exit", "!"]


def provider(inner, edges, asn=65000, shut=("p1", "p2"), without_ldp=()):
    """The texts of the routers' frr.conf, and the sites' prefixes by VRF and edge. `shut` is the link that is shut down at its first end."""
    names = [f"p{at}" for at in range(1, inner + 1)] + [f"pe{at}" for at in range(1, edges + 1)]
    links = [(f"p{at}", f"p{at % inner + 1}") for at in range(1, inner + 1)]
    links += [(f"pe{at}", f"p{(at + turn) % inner + 1}") for at in range(1, edges + 1) for turn in (0, 1)] + [("rr1", "p1"), ("rr2", f"p{inner}")]
    loopbacks = {name: f"10.255.0.{at}" for at, name in enumerate([*names, "rr1", "rr2"], 1)}
    texts = {name: [f"hostname {name}", "frr defaults traditional", *interface("lo", f"{loopbacks[name]}/32", f"ipv6 address 2001:db8::{at}/128", "ip ospf area 0")] for at, name in enumerate(loopbacks)}
    ports = {name: [] for name in loopbacks}
    for number, (a, b) in enumerate(links):
        for name, host in ((a, 0), (b, 1)):
            port = f"eth{len(ports[name])}"
            down = ["shutdown"] if (a, b) == shut and name == a else []
            texts[name] += interface(port, f"10.0.{number}.{host}/31", "ip ospf area 0", f"ip ospf cost {10 if a.startswith('p') and a[1].isdecimal() else 30}", "ip ospf network point-to-point", *down)
            ports[name].append(port if (a, b) not in without_ldp else None)
    sites = {}
    for at in range(1, edges + 1):
        name = f"pe{at}"
        bgp = [f"router bgp {asn}", f" bgp router-id {loopbacks[name]}"]
        bgp += [line for rr in ("rr1", "rr2") for line in (f" neighbor {loopbacks[rr]} remote-as {asn}", f" neighbor {loopbacks[rr]} update-source lo")]
        bgp += [" address-family ipv4 vpn", *(f"  neighbor {loopbacks[rr]} activate" for rr in ("rr1", "rr2")), " exit-address-family", "exit", "!"]
        for number, vrf in enumerate(("RED", "BLUE"), 1):
            if vrf == "BLUE" and at % 2:
                continue
            prefix = f"192.168.{10 * number + at}"
            texts[name] += interface(f"cust{number}", f"{prefix}.1/24", vrf=vrf)
            bgp += [f"router bgp {asn} vrf {vrf}", " address-family ipv4 unicast", "  redistribute connected", "  label vpn export auto", f"  rd vpn export {asn}:{number}00"]
            bgp += [f"  rt vpn both {asn}:{number}00", "  export vpn", "  import vpn", " exit-address-family", " address-family ipv6 unicast", f"  rd vpn export {asn}:{number}00"]
            bgp += [f"  rt vpn both {asn}:300", "  export vpn", "  import vpn", " exit-address-family", "exit", "!"]
            sites[vrf, name] = f"{prefix}.0/24"
        texts[name] += bgp
    for rr in ("rr1", "rr2"):
        clients = [loopbacks[f"pe{at}"] for at in range(1, edges + 1)]
        texts[rr] += [f"router bgp {asn}", *(f" neighbor {one} remote-as {asn}" for one in clients), " address-family ipv4 vpn"]
        texts[rr] += [f"  neighbor {one} route-reflector-client" for one in clients] + [" exit-address-family", "exit"]
    for name in names:
        texts[name] += ["mpls ldp", f" router-id {loopbacks[name]}", " address-family ipv4", *(f"  interface {port}" for port in ports[name] if port), " exit-address-family", "exit"]
    return {name: "\n".join([*lines, ""]) for name, lines in texts.items()}, sites


class Imports(unittest.TestCase):
    def setUp(self):
        self.folder = Path(tempfile.mkdtemp())
        self.addCleanup(shutil.rmtree, self.folder)

    def routers(self, texts, name="lab"):
        for router, text in texts.items():
            (self.folder / name / router).mkdir(parents=True)
            (self.folder / name / router / "frr.conf").write_text(text)
        return self.folder / name

    def file(self, name, content):
        path = self.folder / name
        path.write_text(content if isinstance(content, str) else json.dumps(content))
        return path

    def checked(self, design):
        """The tables of a design, which keep all rules."""
        tables = design.tables()
        self.assertEqual([], TopologyRules(topology_text(tables).encode()).broken)
        return tables

    def said(self, design, whole=False):
        return [line.strip() for line in design.left.lines("it", whole)]

    def test_providers_of_frr(self):
        """Of 8 to 20 routers: the edges' VRFs reach each other by the targets of IPv4, by distinguishers of their own, without the link that is shut down."""
        for inner, edges in ((3, 3), (4, 6), (6, 8), (6, 12)):
            with self.subTest(inner=inner, edges=edges):
                texts, sites = provider(inner, edges)
                self.assertIn(len(texts), range(8, 21))
                design = frr.frr(self.routers(texts, f"lab{edges}"))
                tables = self.checked(design)
                self.assertEqual({*texts} - {"rr1", "rr2"}, {node["name"] for node in tables["node"]})
                joined = {frozenset((link["a"], link["b"])): link["cost"] for link in tables["link"]}
                self.assertNotIn(frozenset(("p1", "p2")), joined)
                self.assertEqual(inner - 1 + 2 * edges, len(joined))
                self.assertEqual({10, 30}, {*joined.values()})
                self.assertEqual(len(tables["vrf"]), len({vrf["rd"] for vrf in tables["vrf"]}))
                self.assertEqual({("65000:100",), ("65000:200",)}, {tuple(vrf["import"]) for vrf in tables["vrf"]} | {tuple(vrf["export"]) for vrf in tables["vrf"]})
                self.assertEqual({f"{vrf}-{edge}": [prefix] for (vrf, edge), prefix in sites.items()}, {site["name"]: site["prefixes"] for site in tables["site"]})
                said = self.said(design)
                self.assertLessEqual(len(said), left.SCREEN)
                self.assertIn("p1-p2: link 10.0.0.0/31: shutdown at p1's eth0: left out", said)
                self.assertTrue(any(line.startswith("rr1, rr2: a route reflector, left out: here each edge has a session with each other") for line in said), said)
                self.assertTrue(any("rd 65000:100 stands on" in line for line in said), said)
                self.assertLess(len(said), len(self.said(design, whole=True)))

    def test_ldp_that_is_off(self):
        """On a link of which an end lacks it, and on all of a router whose 'mpls ldp' is gone: lines of the script."""
        texts, _ = provider(3, 3, without_ldp=[("p2", "p3")], shut=None)
        texts["p1"] += "no mpls ldp\n"
        design = frr.frr(self.routers(texts))
        self.assertEqual({frozenset(ends) for ends in design.off}, {frozenset(ends) for ends in [("p2", "p3"), ("p1", "p2"), ("p1", "p3")] + [(f"pe{at}", "p1") for at in (2, 3)]})
        out = [self.folder / name for name in ("t.toml", "s.txt", "c.pcap")]
        ran = subprocess.run([sys.executable, TOOL, "--from", self.folder / "lab", "--topology", out[0], "--script", out[1], "--capture", out[2]], capture_output=True, text=True)
        self.assertEqual(0, ran.returncode, ran.stderr)
        off = [frozenset(line.split()[2:]) for line in out[1].read_text().splitlines() if line.startswith("ldp off")]
        self.assertEqual({frozenset(ends) for ends in design.off}, {*off})
        report = reference.run_of(*(path.read_bytes() for path in out))[0].decode()
        self.assertNotIn(" refused 1", report)
        self.assertIn("NoLsp", report)

    def test_a_vpn_more_of_a_name_that_is_there(self):
        texts, _ = provider(3, 3)
        out = self.folder / "t.toml"
        words = [sys.executable, TOOL, "--from", self.routers(texts), "--vpn", "RED: pe1 pe3", "--topology", out]
        ran = subprocess.run(words, capture_output=True, text=True)
        self.assertEqual(0, ran.returncode, ran.stderr)
        self.assertEqual([], TopologyRules(out.read_bytes()).broken)
        self.assertIn("    vrf 'RED-pe1' is 'RED-pe1-2' here\n", ran.stderr)
        tables = tomllib.loads(out.read_text())
        self.assertEqual(["RED-pe1-2", "RED-pe3-2"], [site["vrf"] for site in tables["site"][-2:]])

    def test_numbers_of_four_bytes(self):
        """AS and targets: each has one of two bytes in its place that nothing else has, and is told."""
        texts, _ = provider(3, 3, asn=4200000001)
        texts["pe1"] = texts["pe1"].replace("rt vpn both 4200000001:100", "rt vpn import 4200000001:100 64086.59905:7 64512:9\n  rt vpn export 4200000001:100")
        design = frr.frr(self.routers(texts))
        tables = self.checked(design)
        vrf = next(vrf for vrf in tables["vrf"] if vrf["name"] == "RED-pe1")
        self.assertEqual((64513, ["64513:100", "64513:7", "64512:9"], ["64513:100"]), (tables["as"], vrf["import"], vrf["export"]))
        self.assertIn("AS 4200000001 has four bytes: it is AS 64513 here, in targets and distinguishers too", self.said(design))

    def test_costs_of_bandwidths(self):
        texts = {name: f"hostname {name}\ninterface eth0\n ip address 10.0.0.{at}/30\n bandwidth {speed}\ninterface lo\n ip address 10.255.0.{at}/32\nrouter ospf\n network 10.0.0.0/8 area 0\n auto-cost reference-bandwidth 100000\n" for at, (name, speed) in enumerate((("a", 1000), ("b", 10000)), 1)}  # fmt: skip
        design = frr.frr(self.routers(texts))
        self.assertEqual([{"a": "a", "b": "b", "cost": 100}], self.checked(design)["link"])
        self.assertIn("a-b: link 10.0.0.0/30: cost 10 at b; a link has one cost here, 100", self.said(design))

    def test_what_changes_reachability_is_told_first(self):
        texts, _ = provider(3, 3)
        texts["pe1"] = texts["pe1"].replace("  redistribute connected\n", "  redistribute connected\n  redistribute ospf\n  maximum-paths 4\n  neighbor 192.168.11.2 route-map IN in\n  label vpn export 500\n", 1)
        texts["pe1"] = texts["pe1"].replace(" vrf RED\n address", " vrf RED\n neighbor 192.168.11.2 remote-as 65101\n address", 1).replace("mpls ldp\n", "mpls ldp\n ordered-control\n label local advertise explicit-null\n")
        texts["p1"] = texts["p1"].replace(" ip ospf area 0\n", " ip ospf area 0\n ip ospf mpls ldp-sync\n frobnicate\n")
        lines = [line.strip() for line in frr.frr(self.routers(texts)).left.lines("it", whole=True)]
        at = [next(number for number, line in enumerate(lines) if part in line) for part in (
            "eBGP with the CE 192.168.11.2 of AS 65101", "'redistribute ospf'", "'neighbor 192.168.11.2 route-map IN in'", "shutdown at", "'maximum-paths'", "LDP-IGP synchronization",
            "a route reflector", "'label vpn export 500'", "'ordered-control': so it is here", "'label local advertise explicit-null'", "rd 65000:100 stands on", "'frobnicate'", "address-family ipv6",
        )]  # fmt: skip
        groups = [next(number for number, line in enumerate(lines) if line == f"{text}:") for text in left.GROUPS.values()]
        self.assertEqual([0] * 3 + [1] + [2] * 3 + [3] * 3 + [4, 5, 6], [sum(start < one for start in groups) - 1 for one in at])

    def test_a_screen(self):
        found = left.Left()
        for group in left.GROUPS:
            for number in range(30):
                found.tell(group, f"thing {number}", f"r{number % 5}")
        lines = found.lines("it")
        self.assertEqual(left.SCREEN, len(lines))
        self.assertEqual("what isn't as in it, most important first (--all: each line):", lines[0])
        self.assertEqual(7, sum(line.endswith(":") and line.startswith("  ") and not line.startswith("   ") for line in lines))
        self.assertEqual(1 + 7 + 7 * 30, len(found.lines("it", whole=True)))
        self.assertEqual([], left.Left().lines("it"))

    def test_netlab(self):
        """Groups of links and nodes, lists as links, loopbacks, reflectors and the keys of nodes."""
        lab = {
            "bgp.as": 65001, "module": ["ospf", "bgp", "mpls", "vrf"], "groups": {"hosts": {"members": ["h1", "h2"], "device": "linux"}},
            "nodes": {"pe1": {"loopback.ipv4": "10.9.9.1/32", "mtu": 9000}, "p1": {}, "pe2": {"bgp.rr": True}, "h1": {}, "h2": {}},
            "vrfs": {"red": {"rd": "4200000001:7"}},
            "links": [{"group": "core", "pool": "core", "members": ["pe1-p1", ["pe2", "p1"], {"pe1": {"ospf.cost": 7}, "pe2": {}}]}, {"pe1": {"vrf": "red"}, "h1": {}}, {"pe2": {}, "h2": {}, "vrf": "red"}],
        }  # fmt: skip
        design = imports.netlab(self.file("lab.yml", lab))
        tables = self.checked(design)
        self.assertEqual([("pe1", "p1"), ("pe2", "p1"), ("pe1", "pe2")], [(link["a"], link["b"]) for link in tables["link"]])
        self.assertEqual(("10.9.9.1", 7), (tables["node"][0]["loopback"], tables["link"][2]["cost"]))
        self.assertEqual([["64512:7"]] * 2, [vrf["import"] for vrf in tables["vrf"]])
        said = self.said(design)
        for line in ("pe2: a route reflector: here each edge has a session with each other, so no route is hidden by another (docs/REFLECT.md)", "pe1: key 'mtu'"):
            self.assertIn(line, said)

    def test_netlab_of_routes_and_distinguishers(self):
        """Static routes in a VRF to what is attached are the site's prefixes; a distinguisher stays where one VRF of one node has it. The rest is told."""
        to = lambda prefix, gateway: {"ipv4": prefix, "vrf": "red", "nexthop": {"ipv4": gateway}}
        static = [to("10.8.0.0/16", "198.18.0.2"), to("10.9.0.0/16", "198.18.0.9")]
        lab = {
            "nodes": {"pe1": {"routing": {"static": static, "policy": {}}}, "pe2": {}, **{f"h{at}": {"device": "linux"} for at in range(1, 5)}},
            "vrfs": {"red": {"rd": "65000:7"}, "blue": {"rd": "65000:7"}, "green": {"rd": "65000:8"}},
            "links": ["pe1-pe2", {"pe1": {"vrf": "red", "ipv4": "198.18.0.1/30"}, "h1": {"ipv4": "198.18.0.2/30"}}, {"pe2": {"vrf": "blue"}, "h2": {}}],
        }
        lab["links"] += [{node: {"vrf": "green"}, host: {}} for node, host in (("pe1", "h3"), ("pe2", "h4"))]
        design = imports.netlab(self.file("lab.yml", lab))
        tables = self.checked(design)
        self.assertEqual(["10.8.0.0/16"], tables["site"][0]["prefixes"])
        self.assertEqual(["65000:7", "65000:1002", "65000:1003", "65000:1004"], [vrf["rd"] for vrf in tables["vrf"]])
        said = self.said(design)
        for line in (
            "pe1: static route 10.9.0.0/16: not in a VRF to what is attached there: left out", "pe1: key 'routing': policies aren't taken",
            "pe2: VRF blue: rd 65000:7 is another VRF's: one is given", "pe1, pe2: VRF green: rd 65000:8 is that of all its edges: each has one of its own here",
        ):  # fmt: skip
            self.assertIn(line, said)
        self.assertFalse([line for line in said if "10.8.0.0" in line])

    def test_containerlab(self):
        """Ends that are no nodes, bridges, and links side by side."""
        ends = [["a:1", "b:1"], ["a:2", "b:2"], ["a:3", "sw:1"], ["c:1", "sw:2"], ["b:3", "sw2:1"], ["c:2", "sw2:2"], ["a:4", "sw2:3"], ["a:5", "host:x"], ["b:5", "macvlan:eth0"], ["c:5", "mgmt-net:y"]]
        lab = {"topology": {"nodes": {**{name: {"kind": "srl"} for name in "abc"}, "sw": {"kind": "bridge"}, "sw2": {"kind": "ovs-bridge"}}, "links": [{"endpoints": one} for one in ends]}}
        lab["topology"]["links"].append({"type": "host", "endpoint": {"node": "a", "interface": "e9"}, "host-interface": "z"})
        design = imports.containerlab(self.file("lab.clab.yml", lab))
        self.assertEqual([("a", "b"), ("a", "c")], [(link["a"], link["b"]) for link in self.checked(design)["link"]])
        said = self.said(design)
        for line in (
            "a-b: links side by side are one link of the least cost, which fails only whole: link 1", "a-c: bridge sw, where two routers meet: it is their link",
            "bridge sw2 of b, c, a: left out, since a link joins two routers", "link 7 of a, host: leads out by host: left out", "link 8 of b, macvlan: leads out by macvlan: left out",
            "link 9 of c, mgmt-net: leads out by mgmt-net: left out", "link 10 of a, host: leads out by host: left out",
        ):  # fmt: skip
            self.assertIn(line, said)


# Random inputs.

NAMES = ["a", "b", "c", "pe1", "pe-1", "p.2", "x" * 40, "y" * 40, "node name", "ü", "P_1", "pe1.lab.example"]
PAIRS = ["65000:1", "65000:2", "65000:1", "4200000001:5", "64086.59905:5", "192.0.2.1:9", "192.0.2.1:70000", "70000:1", "x:1", "1:2:3", "65000:4294967296", "0:0", ":", 7, None, True, 65000.5]
PREFIXES = ["10.1.0.0/16", "10.1.0.0/16", "10.2.0.0/24", "0.0.0.0/0", "192.0.2.7/32", "10.3.0.1/30", "224.0.0.0/4", "300.1.1.1/8", "2001:db8::/64", "10.0.0.0", ""]
NUMBERS = [0, 1, 10, 65_535, 65_536, -1, "7", None, True, 10**10]


def random_frr(rng):
    """The text of each of some routers."""
    texts = {}
    for at, name in enumerate(rng.sample(NAMES, rng.randint(1, 5))):
        lines = [f"hostname {name if rng.random() < 0.9 else 'same'}", "interface lo", f" ip address {rng.choice(['10.255.0.1/32', f'10.255.0.{at + 2}/32', '127.0.0.1/8', '240.0.0.1/32'])}"]
        for port in range(rng.randint(0, 4)):
            lines += [f"interface eth{port}" + rng.choice(["", "", " vrf RED", " vrf " + "v" * 33]), f" ip address 10.0.{rng.randint(0, 3)}.{rng.randint(1, 6)}/29"]
            lines += rng.sample([" shutdown", " no shutdown", f" ip ospf cost {rng.choice(NUMBERS)}", f" bandwidth {rng.choice(NUMBERS)}", " ip ospf area 0", " ipv6 address ::1/128", " isis metric 0", " ip ospf passive", " what ever"], rng.randint(0, 4))
        for vrf in rng.sample(["RED", "BLUE", "w" * 33, "vrf/x"], rng.randint(0, 3)):
            lines += [f"router bgp {rng.choice([65000, 4200000001, '1.5', 0, 'x', 65001])} vrf {vrf}", " neighbor 1.2.3.4 remote-as 65009", f" address-family {rng.choice(['ipv4 unicast', 'ipv4 unicast', 'ipv6 unicast'])}"]
            lines += rng.sample([f"  rd vpn export {rng.choice(PAIRS)}", f"  rt vpn both {rng.choice(PAIRS)} {rng.choice(PAIRS)}", f"  rt vpn import {rng.choice(PAIRS)}", f"  network {rng.choice(PREFIXES[:7])}", "  redistribute connected", "  redistribute static", "  label vpn export 7", "  import vpn", "  export vpn", "  maximum-paths"], rng.randint(0, 9))  # fmt: skip
            lines += [f"vrf {vrf}", f" ip route {rng.choice(PREFIXES[:6])} 1.1.1.1"]
        lines += rng.choice([[], ["mpls ldp", " ordered-control", " address-family ipv4", "  interface eth0", "  interface eth1"], ["no mpls ldp"], ["router isis X", " net 49"], ["router ospf", " network 10.0.0.0/8 area 0", " auto-cost reference-bandwidth 0"]])
        texts[f"r{at}"] = "\n".join(lines) + "\n"
    return texts


def random_netlab(rng):
    names = rng.sample(NAMES, rng.randint(1, 6))
    static = [{"ipv4": rng.choice([*PREFIXES, 7, None]), "vrf": "red", "nexthop.ipv4": "192.0.2.2"} for _ in range(3)]
    nodes = {name: rng.choice([None, {}, {"routing.static": static}, {"routing": {"static": rng.choice([static, 7, [7]])}}, {"device": "linux"}, {"loopback.ipv4": rng.choice(["10.9.0.1/32", "127.0.0.1", "x", 5])}, {"bgp": {"rr": True, "as": 65009}}, {"module": ["mpls"]}, {"role": "host"}, {"vrfs": {"red": {"import": rng.choice(PAIRS)}}}, {"mtu": 1500}]) for name in names}

    def link():
        a, b, c = (rng.choice(names) for _ in range(3))
        keys = {**({"vrf": rng.choice(["red", "blue", "z" * 33])} if rng.random() < 0.4 else {}), **({"prefix": rng.choice([*PREFIXES[:7], True, {"ipv4": "10.7.0.0/24"}, {"ipv6": "::/64"}])} if rng.random() < 0.4 else {}), **({"ospf.cost": rng.choice(NUMBERS)} if rng.random() < 0.4 else {})}
        return rng.choice([f"{a}-{b}", [a, b], {a: {"vrf": "red", "ipv4": "192.0.2.1/30"}, b: {"ipv4": "192.0.2.2/30"}}, [a, b, c], {a: {}, b: {"vrf": "red"}, **keys}, {a: None, b: None, **keys}, {"interfaces": [a, {"node": b, "ospf": {"cost": rng.choice(NUMBERS)}}], **keys}, {"group": "g", "members": [[a, b], f"{b}-{c}"], **keys}, {"bandwidth": 5, a: {}, c: {}}])

    lab = {"nodes": nodes if rng.random() < 0.8 else names, "links": [link() for _ in range(rng.randint(0, 8))], "bgp.as": rng.choice([65000, 4200000001, 0, "x", "1.1", None])}
    lab["vrfs"] = rng.choice([None, {}, {"red": {"bgp.import": rng.choice([["static"], [], 7]), "rd": rng.choice(PAIRS)}}, {"red": None, "blue": {"rd": rng.choice(PAIRS)}}, {"red": {"rd": rng.choice(PAIRS), "import": [rng.choice(PAIRS), "blue"], "export": rng.choice(PAIRS)}, "blue": {"links": [link()]}}])
    lab["groups"] = rng.choice([None, {"x": {"members": names[:2], "device": "linux"}}, {"x": names[:1]}, {"x": {"members": "all", "node_data": {"role": "host"}}}])
    return lab


def random_containerlab(rng):
    names = rng.sample(NAMES, rng.randint(1, 6))
    nodes = {name: rng.choice([None, {"kind": "srl"}, {"kind": "linux"}, {"kind": "linux", "image": "frr"}, {"kind": "bridge"}, {"kind": "srl", "startup-config": "x.cfg", "group": "g"}]) for name in names}
    ends = [*names, "host", "macvlan", "mgmt-net"]
    links = [rng.choice([{"endpoints": [f"{rng.choice(ends)}:e{at}", f"{rng.choice(ends)}:f{at}"]}, {"endpoints": [{"node": rng.choice(names), "interface": "e"}, {"node": rng.choice(names)}]}, {"type": "host", "endpoint": {"node": rng.choice(names)}}, {"endpoint": "a:b", "type": "dummy"}]) for at in range(rng.randint(0, 9))]
    return {"topology": {"nodes": nodes, "links": links, "groups": rng.choice([None, {"g": {"kind": "bridge"}}]), "defaults": rng.choice([None, {"kind": "srl"}])}, "name": "x"}


def random_short(rng):
    lines = ["nodes: p[1-4] pe[1-3]" if rng.random() < 0.8 else f"nodes: {rng.choice(NAMES)} p1 p2 pe1 pe2"]
    lines += rng.choices(["links: ring p", "links: pe -> 2 of p", "links: p1 - p2 cost 7", "links: p1 - p2 cost 70000", "links: p1 - pe1 delay 2000", "links: mesh p", "vpn a: pe", "vpn " + "v" * 30 + ": pe", "vpn b: pe1+pe2 pe1", "vpn c: pe1 pe2; hub pe3", "share: a with c", "as: 7", "as: 70000", "resolve: false", "vpn d: pe1 pe1 pe1-hub", "nodes: c-pe1"], k=rng.randint(1, 7))  # fmt: skip
    return "\n".join(lines) + "\n"


class Random(unittest.TestCase):
    """Nothing that is made is refused; what can't be made is told with the file's name."""

    def tried(self, make):
        made = 0
        for seed in SEEDS:
            with self.subTest(seed=seed), tempfile.TemporaryDirectory() as folder:
                path, reader = make(random.Random(seed), Path(folder))
                try:
                    design = reader(path)
                    tables = design.tables()
                except Fault as fault:
                    self.assertIn(str(path), str(fault))
                    continue
                text = topology_text(tables).encode()
                self.assertEqual([], TopologyRules(text).broken, text.decode())
                self.assertLessEqual(len(design.left.lines("it")), left.SCREEN)
                made += 1
        self.assertGreater(made, len(SEEDS) // 8)

    def test_frr(self):
        def make(rng, folder):
            for name, text in random_frr(rng).items():
                (folder / f"{name}.conf").write_text(text)
            return folder, frr.frr

        self.tried(make)

    def test_netlab(self):
        self.tried(lambda rng, folder: (written(folder / "lab.yml", json.dumps(random_netlab(rng))), imports.netlab))

    def test_containerlab(self):
        self.tried(lambda rng, folder: (written(folder / "lab.clab.yml", json.dumps(random_containerlab(rng))), imports.containerlab))

    def test_short(self):
        self.tried(lambda rng, folder: (written(folder / "net.txt", random_short(rng)), lambda path: design_module.Short(str(path)).read(path.read_text())))


def written(path, text):
    path.write_text(text)
    return path


if __name__ == "__main__":
    unittest.main()
