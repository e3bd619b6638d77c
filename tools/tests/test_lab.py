"""A topology as a lab of FRR's routers: what is made, what is collected, and that each difference is told by its kind.

The tables in labs/ were collected from FRR 8.4.4 in network namespaces; labs/README.md says how.
"""

import copy
import importlib.machinery
import importlib.util
import json
import os
import shutil
import subprocess
import sys
import tempfile
import time
import tomllib
import unittest
from functools import cache
from pathlib import Path

from runs import ROOT, reference, stand_in

import mplsnet.compare as compare
import mplsnet.frr
import mplsnet.imports as imports
import mplsnet.lab as lab
import mplsnet.tables as tables
import mplsnet.whatif as whatif
from mplsnet.files import Fault
from mplsnet.knowledge import Net
from mplsnet.rules import TopologyRules
from mplsnet.run import Run
from mplsnet.topology import topology_text

TOOL, LABS = ROOT / "tools/mplsnet-lab", Path(__file__).resolve().parent / "labs"
TOPOLOGIES = [*sorted((ROOT / "examples").glob("*/topology*.toml")), *sorted(LABS.glob("*.toml"))]
FRR = Path(os.environ.get("FRR", "/usr/lib/frr"))
# Each stored lab: its topology, what failed, and its reflectors.
STORED = {
    "two-links": ("examples/two-links/topology.toml", (), ()),
    "dual-homing": ("examples/dual-homing/topology.toml", (), ()),
    "extranet": ("examples/extranet/topology.toml", (), ()),
    "hub-and-spoke": ("examples/hub-and-spoke/topology.toml", (), ()),
    "square": ("tools/tests/labs/square.toml", (), ()),
    "square-down": ("tools/tests/labs/square.toml", ("pe1-p1",), ()),
    "reflected": ("examples/two-links/topology.toml", (), ("p",)),
}


def script():
    """The tool as a module."""
    loader = importlib.machinery.SourceFileLoader("mplsnet_lab_tool", str(TOOL))
    module = importlib.util.module_from_spec(importlib.util.spec_from_loader(loader.name, loader))
    loader.exec_module(module)
    return module


TOOL_MODULE = script()


def run_tool(*words, **how):
    return subprocess.run([sys.executable, TOOL, *map(str, words)], capture_output=True, text=True, **how)


@cache
def network(path):
    found = {"node": [], "link": [], "vrf": [], "site": []} | tomllib.loads(Path(path).read_text())
    return Net(path, found), found


def plan_of(path, reflectors=()):
    net, found = network(path)
    return lab.planned(path, net, found, "lab", lab.reflectors_of(path, net, reflectors))


def written(folder, plan, form):
    for place, text in lab.files_of(plan, form, "topology.toml", "lab", f"{lab.IMAGE}:{lab.TAG}", "host").items():
        (folder / place).parent.mkdir(parents=True, exist_ok=True)
        (folder / place).write_text(text)


def essence(found):
    """Nodes, links, costs, RDs, targets and prefixes of a topology's tables."""
    prefixes = {}
    for site in found["site"]:
        prefixes.setdefault(site["vrf"], set()).update(site.get("prefixes", []))
    targets = lambda vrf: (frozenset(vrf.get("import", [])), frozenset(vrf.get("export", [])))
    return {
        "as": found.get("as", 65_000),
        "nodes": {(node["name"], node["loopback"]) for node in found["node"]},
        "links": {(frozenset((link["a"], link["b"])), link.get("cost", 10)) for link in found["link"]},
        "vrfs": {(vrf["node"], vrf["rd"], *targets(vrf), frozenset(prefixes.get(vrf["name"], ()))) for vrf in found["vrf"]},
    }


class Folder(unittest.TestCase):
    def setUp(self):
        self.folder = Path(tempfile.mkdtemp())
        self.addCleanup(shutil.rmtree, self.folder)


class Export(Folder):
    def test_all_examples_come_back(self):
        """From FRR's files, which containerlab's form has too, and from netlab's topology."""
        for path in TOPOLOGIES:
            for form in ("frr", "netlab"):
                if form == "netlab" and not importlib.util.find_spec("yaml"):
                    continue
                with self.subTest(f"{path} {form}"):
                    folder = self.folder / f"{form}-{path.parent.name}-{path.stem}"
                    written(folder, plan_of(path), form)
                    came = (imports.netlab(folder / "topology.yml") if form == "netlab" else mplsnet.frr.frr(folder)).tables()
                    self.assertEqual([], TopologyRules(topology_text(came).encode()).broken)
                    self.assertEqual(essence(network(path)[1]), essence(came))

    @unittest.skipUnless(shutil.which("vtysh"), "FRR isn't installed")
    def test_frr_takes_every_file(self):
        for path in TOPOLOGIES:
            folder = self.folder / f"{path.parent.name}-{path.stem}"
            written(folder, plan_of(path), "frr")
            for file in sorted(folder.glob("*/frr.conf")):
                with self.subTest(str(file)):
                    ran = subprocess.run(["vtysh", "-C", "-f", file], capture_output=True, text=True)
                    self.assertEqual((0, ""), (ran.returncode, ran.stdout), ran.stderr)

    def test_a_router(self):
        """pe1 of two-links, by hand."""
        text = lab.router_text(plan_of(ROOT / "examples/two-links/topology.toml"), 0)
        for block in (
            "vrf red1\n ip route 10.1.0.0/16 100.64.1.2\nexit-vrf\n",
            "interface lo\n ip address 192.0.2.1/32\n ip ospf area 0\nexit\n",
            "interface eth1\n description p\n ip address 100.64.0.1/30\n ip ospf area 0\n",
            " ip ospf network point-to-point\n ip ospf cost 10\n mpls enable\nexit\n",
            "interface eth2 vrf red1\n description site a\n ip address 100.64.1.1/30\nexit\n",
            "router bgp 65000\n bgp router-id 192.0.2.1\n no bgp default ipv4-unicast\n neighbor 192.0.2.3 remote-as 65000\n",
            " address-family ipv4 vpn\n  neighbor 192.0.2.3 activate\n exit-address-family\n",
            "  redistribute static\n  label vpn export auto\n  rd vpn export 65000:1\n",
            "  rt vpn import 65000:100\n  rt vpn export 65000:100\n  export vpn\n  import vpn\n",
            "mpls ldp\n router-id 192.0.2.1\n ordered-control\n address-family ipv4\n  discovery transport-address 192.0.2.1\n",
            "  label local allocate host-routes\n  interface eth1\n",
        ):
            self.assertIn(block, text)

    def test_reflectors(self):
        plan = plan_of(ROOT / "examples/two-links/topology.toml", ["p"])
        pe1, p, _ = (lab.router_text(plan, node) for node in range(3))
        self.assertIn("neighbor 192.0.2.2 activate", pe1)
        self.assertNotIn("neighbor 192.0.2.3", pe1)
        self.assertIn("  neighbor 192.0.2.1 route-reflector-client\n  neighbor 192.0.2.3 activate\n  neighbor 192.0.2.3 route-reflector-client\n", p)
        of_two = plan_of(ROOT / "examples/reflectors/topology.toml", ["rr1=pe1,pe2,pe4", "rr2=pe3,pe4"])
        self.assertEqual([(0, 4), (1, 4), (2, 5), (3, 4), (3, 5), (4, 5)], of_two.sessions())

    def test_names_that_linux_does_not_take(self):
        net, found = network(LABS / "square.toml")
        self.assertEqual(["red1", "red2", "red3", "blue1", "vrf5"], lab.devices(net))
        self.assertIn("! VRF blue-of-a-long-name\nvrf vrf5\n", lab.router_text(plan_of(LABS / "square.toml"), 4))

    def test_addresses_stand_apart(self):
        """No net of a link or a site meets a loopback, a prefix or another."""
        net, found = network(ROOT / "examples/two-links/topology.toml")
        found = copy.deepcopy(found)
        found["node"][0]["loopback"], found["node"][1]["loopback"] = "100.64.0.9", "100.64.1.1"
        found["site"][0]["prefixes"] = ["100.64.2.0/23", "0.0.0.0/0"]
        plan = lab.planned("net", Net("net", found), found, "lab", {})
        self.assertEqual({"100.64.4.1/30", "100.64.4.2/30", "100.64.4.5/30", "100.64.4.6/30", "100.64.5.1/30", "100.64.5.5/30"},
                         {port.address for ports in plan.ports for port in ports})  # fmt: skip

    def test_the_scripts_are_of_sh(self):
        written(self.folder, plan_of(LABS / "square.toml"), "frr")
        files = sorted(self.folder.rglob("*.sh"))
        self.assertEqual(7, len(files))
        for file in files:
            self.assertEqual(0, subprocess.run(["sh", "-n", file]).returncode, file)
        ping = (self.folder / "ping.sh").read_text()
        self.assertIn("from host-a a 'b' 10.1.0.1 10.2.0.1\n", ping)
        self.assertIn("from host-d d 'e' 10.1.0.1 10.3.0.1\n", ping)
        self.assertIn('docker exec "clab-lab-host-a" ip addr add 10.1.0.1/32 dev lo 2>/dev/null\n', lab.ping_text(plan_of(LABS / "square.toml"), "netlab"))

    @unittest.skipUnless(importlib.util.find_spec("yaml"), "python3-yaml isn't installed")
    def test_containerlab(self):
        written(self.folder, plan_of(ROOT / "examples/two-links/topology.toml"), "containerlab")
        found = imports.yaml_of(self.folder / "lab.clab.yml")
        nodes = found["topology"]["nodes"]
        self.assertEqual(["pe1", "p", "pe2", "host-a", "host-b"], list(nodes))
        self.assertIn("pe1/frr.conf:/etc/frr/frr.conf", nodes["pe1"]["binds"])
        self.assertEqual(["pe1:eth1", "p:eth1"], found["topology"]["links"][0]["endpoints"])
        self.assertEqual(["pe2:eth2", "host-b:eth1"], found["topology"]["links"][3]["endpoints"])
        self.assertEqual("ip addr add 10.2.0.1/32 dev lo", nodes["host-b"]["exec"][3])
        design = imports.containerlab(self.folder / "lab.clab.yml")
        self.assertEqual((["pe1", "p", "pe2"], 2), (list(design.nodes), len(design.links)))

    def test_as_a_user_makes_one(self):
        out, path = self.folder / "lab", ROOT / "examples/two-links/topology.toml"
        ran = run_tool("export", path, out, "--form", "frr")
        self.assertEqual((0, ""), (ran.returncode, ran.stderr))
        self.assertTrue(os.access(out / "lab.sh", os.X_OK))
        (out / "tables").mkdir()
        (out / "tables/pe1.json").write_text("{}")
        self.assertEqual(0, run_tool("export", path, out, "--form", "netlab").returncode)
        self.assertEqual(["README.md", "lab.json", "ping.sh", "tables", "topology.yml"], sorted(file.name for file in out.iterdir()))

    def test_refusals(self):
        (self.folder / "mine").mkdir()
        (self.folder / "mine/letter").write_text("dear")
        path = ROOT / "examples/two-links/topology.toml"
        for said, words in (
            ("isn't a lab that mplsnet-lab made", ("export", path, self.folder / "mine")),
            ("no.toml: No such file", ("export", self.folder / "no.toml", self.folder / "out")),
        ):
            ran = run_tool(*words)
            self.assertEqual((3, ""), (ran.returncode, ran.stdout))
            self.assertIn(said, ran.stderr)
        self.assertEqual("dear", (self.folder / "mine/letter").read_text())
        self.assertEqual(2, run_tool("export", path, self.folder / "out", "--name", "A b").returncode)
        text = path.read_text()
        for old, new, said in (('"p"', '"-p"', "no name of a router that begins with '-'"), ('"p"', '"ping.sh"', "the name of a file of the lab")):
            found = {"node": [], "link": [], "vrf": [], "site": []} | tomllib.loads(text.replace(old, new))
            with self.assertRaisesRegex(Fault, said):
                lab.planned("net", Net("net", found), found, "lab", {})
        (self.folder / "bad.toml").write_text(text.replace("delay = 2", "cost = 0"))
        with self.assertRaisesRegex(Fault, r"T11 BadCost at link 0.*1 more: mplsnet-lint"):
            TOOL_MODULE.network(self.folder / "bad.toml")
        for word, said in (("x", "there is no node 'x'"), ("pe1", "pe1 has a VRF"), ("p=p", "p has no VRF")):
            with self.assertRaisesRegex(Fault, said):
                plan_of(path, [word])


# Collected.

SHELL = """\
#!/bin/sh
# A router's vtysh: $1 is the router, $3 the command.
case $3 in
"show ip route vrf all json") printf '{ "10.0.0.0/8": [] }\\n{ "10.1.0.0/16": [] }\\n' ;;
"show bgp"*summary*) echo "bgpd is not running"; exit 1 ;;
"show bgp"*) echo "% No such table" ;;
*json) echo "{ \\"of\\": \\"$1\\" }" ;;
*) echo "FRRouting 8.4.4 ($1)." ;;
esac
"""


class Collect(Folder):
    def test_what_routers_answer(self):
        shell = self.folder / "shell"
        shell.write_text(SHELL)
        shell.chmod(0o755)
        (self.folder / "lab.json").write_text(json.dumps({"routers": {"pe1": [str(shell), "pe1"], "p": [str(shell), "p"]}}))
        ran = run_tool("collect", self.folder)
        self.assertEqual((0, f"{self.folder / 'tables'}: tables of 2 routers\n", ""), (ran.returncode, ran.stdout, ran.stderr))
        found = json.loads((self.folder / "tables/pe1.json").read_text())
        self.assertEqual("pe1", found["router"])
        self.assertEqual(list(tables.COMMANDS), list(found["tables"]))
        self.assertEqual({"of": "pe1"}, found["tables"]["show ip route json"])
        self.assertEqual([{"10.0.0.0/8": []}, {"10.1.0.0/16": []}], found["tables"]["show ip route vrf all json"])
        self.assertIsNone(found["tables"]["show bgp ipv4 vpn summary json"])
        self.assertIsNone(found["tables"]["show bgp ipv4 vpn json"])
        self.assertEqual((8, 4, 4), tables.Router("pe1", found["tables"]).version())
        ran = run_tool("collect", self.folder, self.folder / "mine", "--shell", f"{shell} {{}}", "--router", "pe9")
        self.assertEqual(0, ran.returncode, ran.stderr)
        self.assertEqual({"of": "pe9"}, json.loads((self.folder / "mine/pe9.json").read_text())["tables"]["show mpls table json"])

    def test_refusals(self):
        self.assertEqual(2, run_tool("collect", self.folder, "--router", "pe1").returncode)
        for said, words in (
            ("isn't a lab that mplsnet-lab made", ("collect", self.folder)),
            ("false -c 'show version'", ("collect", self.folder, "--shell", "false", "--router", "pe1")),
            ("nowhere/vtysh: No such file", ("collect", self.folder, "--shell", "nowhere/vtysh", "--router", "pe1")),
        ):
            ran = run_tool(*words)
            self.assertEqual((3, ""), (ran.returncode, ran.stdout))
            self.assertIn(said, ran.stderr)


# Compared.


@cache
def at_rest(name):
    """The network of a stored lab."""
    path, down, _ = STORED[name]
    return rest_of(*network(ROOT / path), down)


def rest_of(net, found, down):
    """The network at rest, by examples/reference.py."""
    probes = whatif.probes_of(net)
    report, files = reference.run_of(*compare.inputs_of(found, net, compare.down_lines("net", net, down), probes).values())
    with tempfile.TemporaryDirectory() as folder:
        for file, content in {**files, "report.txt": report}.items():
            (Path(folder) / file).write_bytes(content)
        return compare.Rest(net, Run(Path(folder)), probes)


def stored(name):
    return json.loads((LABS / f"{name}.json").read_text())


def compared(name, found, only=()):
    path, _, reflectors = STORED[name]
    net, topology = network(ROOT / path)
    of_lab = compare.Lab(net, topology, {node: tables.Router(node, found[node]) for node in net.nodes})
    return compare.Comparison(at_rest(name), of_lab, lab.reflectors_of(path, net, reflectors), only)


def unexplained(result):
    return [(one.table, one.at) for one in result.found if one.kind == compare.UNEXPLAINED]


def hops(found, node, prefix):
    return found[node][tables.ROUTES][prefix][0]["nexthops"]


def of_vrf(found, node, vrf):
    return next(one for one in found[node][tables.VRF_ROUTES] if any(entry["vrfName"] == vrf for entries in one.values() for entry in entries))


# Planted differences: what each does to a stored lab's tables, and the one place that is then unexplained.


def wrong_next_hop(found):
    hops(found, "p1", "192.0.2.3/32")[0]["ip"] = "100.64.0.1"  # pe1's address on its link with p1, in place of pe2's


def wrong_cost(found):
    found["pe1"][tables.ROUTES]["192.0.2.4/32"][0]["metric"] = 25


def missing_route(found):
    del found["p"][tables.ROUTES]["192.0.2.4/32"]


def missing_binding(found):
    bindings = found["p"][tables.BINDINGS]["bindings"]
    bindings[:] = [one for one in bindings if (one["prefix"], one["neighborId"]) != ("192.0.2.3/32", "192.0.2.3")]


def label_in_place_of_null(found):
    for one in found["p"][tables.BINDINGS]["bindings"]:
        if (one["prefix"], one["neighborId"]) == ("192.0.2.3/32", "192.0.2.3"):
            one["remoteLabel"] = "77"


def wrong_label_out(found):
    label = next(one["localLabel"] for one in found["p"][tables.BINDINGS]["bindings"] if one["prefix"] == "192.0.2.3/32")
    for one in found["p"][tables.LFIB][label]["nexthops"]:
        one["outLabel"] = 99


def no_ldp_session(found):
    found["pe1"][tables.LDP]["neighbors"][0]["state"] = "DISCOVERED"


def no_adjacency(found):
    for all_of in found["pe1"][tables.ADJACENCIES]["neighbors"].values():
        all_of[0]["nbrState"] = "Init/-"


def no_bgp_session(found):
    found["pe1"][tables.SESSIONS]["peers"]["192.0.2.3"]["state"] = "Active"


def route_of_a_wrong_edge(found):
    for one in of_vrf(found, "pe1", "red1")["10.3.0.0/16"][0]["nexthops"]:
        if one.get("recursive"):
            one["ip"] = "192.0.2.3"


def target_forgotten(found):
    del found["pe2"][tables.VRF_PATHS]["shared"]["routes"]["10.2.0.0/16"]
    del of_vrf(found, "pe2", "shared")["10.2.0.0/16"]


def target_too_much(found):
    """blue's site in red's VRF of the same edge."""
    leaked = copy.deepcopy(of_vrf(found, "pe1", "blue1")["10.2.0.0/16"][0])
    of_vrf(found, "pe1", "red1")["10.2.0.0/16"] = [{**leaked, "protocol": "bgp", "vrfName": "red1", "nexthops": [{**leaked["nexthops"][0], "vrf": "blue1"}]}]


def vpn_route_not_told(found):
    routes = found["pe1"][tables.VPN]["routes"]["routeDistinguishers"]
    del routes["65000:2"]["10.2.0.0/16"]


def vpn_label_missing(found):
    found["pe2"][tables.LFIB_TEXT] = [line for line in found["pe2"][tables.LFIB_TEXT] if " BGP " not in line]
    for label in [label for label, one in found["pe2"][tables.LFIB].items() if one["nexthops"][0]["type"] == "BGP"]:
        del found["pe2"][tables.LFIB][label]


PLANTED = [
    ("square", wrong_next_hop, ("trees", "p1 to pe3")),
    ("dual-homing", wrong_cost, ("trees", "pe1 to pe3")),
    ("dual-homing", missing_route, ("trees", "p to pe3")),
    ("dual-homing", missing_binding, ("bindings", "p of pe2 for pe2")),
    ("two-links", label_in_place_of_null, ("bindings", "p of pe2 for pe2")),
    ("two-links", wrong_label_out, ("labels", "p's label for pe2")),
    ("two-links", no_ldp_session, ("ldp", "pe1 with p")),
    ("two-links", no_adjacency, ("adjacencies", "pe1 with p")),
    ("two-links", no_bgp_session, ("sessions", "pe1 with pe2")),
    ("dual-homing", route_of_a_wrong_edge, ("routes", "VRF red1 10.3.0.0/16")),
    ("extranet", target_forgotten, ("paths", "VRF shared 10.2.0.0/16")),
    ("extranet", target_too_much, ("routes", "VRF red1 10.2.0.0/16")),
    ("two-links", vpn_route_not_told, ("vpn", "pe1, 65000:2 10.2.0.0/16")),
    ("two-links", vpn_label_missing, ("vpn labels", "pe2, VRF red2")),
]


class Compare(Folder):
    def test_the_stored_labs_have_nothing_unexplained(self):
        for name in STORED:
            with self.subTest(name):
                result = compared(name, stored(name))
                self.assertEqual([], [(one.table, one.at, one.ours, one.theirs) for one in result.found if one.kind in (compare.UNEXPLAINED, compare.FOLLOWS)])
                self.assertTrue(all(result.compared.values()), result.compared)

    def test_each_planted_difference_is_told_and_no_other(self):
        for name, plant, place in PLANTED:
            with self.subTest(plant.__name__):
                found = stored(name)
                before = [(one.table, one.at, one.kind) for one in compared(name, found).found]
                plant(found)
                result = compared(name, found)
                self.assertEqual([place], unexplained(result), [(one.table, one.at, one.ours, one.theirs, one.kind) for one in result.found])
                rest = [one for one in result.found if (one.table, one.at, one.kind) not in before and one.kind != compare.UNEXPLAINED]
                self.assertEqual({compare.FOLLOWS} if rest else set(), {one.kind for one in rest}, [(one.table, one.at, one.kind) for one in rest])
                self.assertTrue(all(one.of.kind == compare.UNEXPLAINED for one in rest))

    def test_what_planted_differences_do_to_packets(self):
        """Without a label of the last router's nothing comes through it, and the difference says of which it comes."""
        found = stored("two-links")
        vpn_label_missing(found)
        followers = [one for one in compared("two-links", found).found if one.kind == compare.FOLLOWS]
        wanted = ("pairs", "a to b 10.2.0.0/16", "delivered at b by pe1-p-pe2", "NoEntry at pe2 by pe1-p-pe2")
        self.assertEqual([wanted], [(one.table, one.at, one.ours, one.theirs) for one in followers])

    def test_kinds(self):
        """What is known of each lab by hand: ties, two edges of a prefix, a VRF's one label, and the reflector."""
        told = {name: {(one.table, one.at): one for one in compared(name, stored(name)).found} for name in STORED}
        square, dual = told["square"], told["dual-homing"]
        one = square["trees", "pe1 to pe2"]
        self.assertEqual(("cost 20 next p1", "cost 20 next p1 and p2", "equal cost"), (one.ours, one.theirs, one.kind))
        one = square["pairs", "a to b 10.2.0.0/16"]
        self.assertEqual(("delivered at b by pe1-p1-pe2", "delivered at b by pe1-p1-pe2 or pe1-p2-pe2", "equal cost"), (one.ours, one.theirs, one.kind))
        one = square["vpn labels", "pe2, VRF red2"]
        self.assertEqual(("2 labels", "1 label", "label per VRF"), (one.ours, one.theirs, one.kind))
        one = dual["routes", "VRF red1 10.2.0.0/16"]
        self.assertEqual(("edge pe2", "edge pe2 and edge pe3", "multipath"), (one.ours, one.theirs, one.kind))
        self.assertEqual("multipath", dual["pairs", "a to b|c 10.2.0.0/16"].kind)
        self.assertNotIn(("trees", "pe1 to pe2"), told["square-down"])
        self.assertEqual(set(), {one.kind for one in told["two-links"].values()} - {"upstream alone"})
        self.assertEqual(set(), {one.kind for one in told["reflected"].values()} - {"upstream alone"})

    def kinds(self, name, found, table, down, topology=None):
        """The kinds of the differences of one table, by their place, beside the network of another topology or with failures."""
        topology = topology or network(ROOT / STORED[name][0])[1]
        net = Net("net", topology)
        of_lab = compare.Lab(net, topology, {node: tables.Router(node, found[node]) for node in net.nodes})
        return {(one.table, one.at): one.kind for one in compare.Comparison(rest_of(net, topology, down), of_lab, {}, (table,)).found}

    def test_choices_that_routers_make(self):
        """Tables as routers with other choices would have them, each told by its kind."""
        one_way = stored("square")  # maximum-paths 1, and the other way than mplsnet's
        one_way["pe1"][tables.ROUTES]["192.0.2.2/32"][0]["nexthops"] = [one for one in hops(one_way, "pe1", "192.0.2.2/32") if one["interfaceName"] == "eth2"]
        told = {(one.table, one.at): one.kind for one in compared("square", one_way, ("trees",)).found}
        self.assertEqual("equal cost", told["trees", "pe1 to pe2"])
        nearer = stored("dual-homing")  # the edge that is nearer by cost
        route = of_vrf(nearer, "pe1", "red1")["10.2.0.0/16"][0]
        at = next(number for number, one in enumerate(route["nexthops"]) if one["ip"] == "192.0.2.4")
        route["nexthops"] = route["nexthops"][at : at + 2]
        place = ("routes", "VRF red1 10.2.0.0/16")
        self.assertEqual([place], unexplained(compared("dual-homing", nearer, ("routes",))), "both edges are as far")
        topology = copy.deepcopy(network(ROOT / STORED["dual-homing"][0])[1])
        topology["link"][2]["cost"] = 5
        self.assertEqual("interior cost", self.kinds("dual-homing", nearer, "routes", (), topology)[place])
        topology = {key: value for key, value in network(ROOT / STORED["dual-homing"][0])[1].items() if key != "resolve"}
        self.assertEqual("unresolved", self.kinds("dual-homing", nearer, "routes", ["ldp p-pe2"], topology)[place])
        kept = self.kinds("square", stored("square"), "bindings", ["ldp pe2-pe3"])  # labels that are still heard once LDP fails
        self.assertEqual(("speaker's flaw", "independent control"), (kept["bindings", "pe1 of p1 for pe3"], kept["bindings", "p1 of pe2 for pe3"]))
        bare = stored("square")
        for one in hops(bare, "pe1", "192.0.2.2/32"):
            if one["interfaceName"] == "eth2":
                del one["labels"]
        bindings = bare["pe1"][tables.BINDINGS]["bindings"]
        bindings[:] = [one for one in bindings if (one["prefix"], one["neighborId"]) != ("192.0.2.2/32", "192.0.2.12")]
        label = next(one["localLabel"] for one in bindings if one["prefix"] == "192.0.2.2/32")
        entry = bare["pe1"][tables.LFIB][label]
        entry["nexthops"] = [one for one in entry["nexthops"] if one["nexthop"] == "100.64.0.2"]
        self.assertEqual({("labels", "pe1 puts on for pe2"): "speaker's flaw"}, self.kinds("square", bare, "labels", ["ldp p2-pe2"]))
        bare["pe1"][tables.VERSION] = ["FRRouting 10.0.1 (pe1)."]
        self.assertEqual({("labels", "pe1 puts on for pe2"): "unexplained"}, self.kinds("square", bare, "labels", ["ldp p2-pe2"]))
        explicit = stored("two-links")
        for one in explicit["p"][tables.BINDINGS]["bindings"]:
            one["remoteLabel"] = "exp-null" if one["remoteLabel"] == "imp-null" else one["remoteLabel"]
        kinds = {one.kind for one in compared("two-links", explicit, ("bindings",)).found}
        self.assertEqual({"explicit null"}, kinds)

    def test_as_a_user_compares(self):
        found, out = stored("two-links"), self.folder / "tables"
        tables.write_tables(out, found)
        program, page = stand_in(self.folder), self.folder / "page.html"
        path = ROOT / STORED["two-links"][0]
        ran = run_tool("compare", path, out, "--program", program, "--html", page)
        self.assertEqual((0, ""), (ran.returncode, ran.stderr))
        lines = ran.stdout.splitlines()
        self.assertEqual(f"{path}, all up", lines[0])
        self.assertIn("  pairs: 2 compared, 0 differ", lines)
        self.assertRegex(lines[-1], r"^(no difference|0 unexplained, \d+ upstream alone)$")
        self.assertIn("<h2>Differences</h2>", page.read_text())
        wrong_label_out(found)
        tables.write_tables(out, found)
        ran = run_tool("compare", path, out, "--program", program, "--json")
        told = json.loads(ran.stdout)
        self.assertEqual(1, ran.returncode)
        first = told["differences"][[one["kind"] for one in told["differences"]].index("unexplained")]
        wanted = ("labels", "p's label for pe2", "implicit null to pe2", "label 99 to pe2")
        self.assertEqual(wanted, (first["table"], first["at"], first["mplsnet"], first["lab"]))
        self.assertEqual(first["number"], next(one["follows"] for one in told["differences"] if one["kind"] == "follows"))

    def test_refusals(self):
        out, path = self.folder / "tables", ROOT / STORED["two-links"][0]
        found, program = stored("two-links"), stand_in(self.folder)
        del found["p"]
        tables.write_tables(out, found)
        for said, words in (
            ("there are no tables of router p", (path, out)),
            ("isn't a program that can be run", (path, out, "--program", self.folder)),
        ):
            ran = run_tool("compare", *words, *(() if "--program" in words else ("--program", program)))
            self.assertEqual((3, ""), (ran.returncode, ran.stdout))
            self.assertIn(said, ran.stderr)
        self.assertEqual(2, run_tool("compare", path, out, "--only", "colours").returncode)
        net, _ = network(path)
        with self.assertRaisesRegex(Fault, "--down: there is no 'pe1-pe2'"):
            compare.down_lines("net", net, ["pe1-pe2"])
        self.assertEqual(["link down pe1 p", "bgp down pe1 pe2", "ldp off p pe2"], compare.down_lines("net", net, ["p-pe1", "ldp pe2-p"]))
        for text, said in (("[]", "isn't an object"), ("{", "not JSON")):
            (out / "p.json").write_text(text)
            with self.assertRaisesRegex(Fault, said):
                tables.read_tables(out, ["p"])
        with self.assertRaisesRegex(Fault, "'show ip route json': isn't an object"):
            tables.Router("p.json", {"show ip route json": []}).routes()


# Real routers.


def has_namespaces():
    name = f"mplsnet-{os.getpid()}"
    made = shutil.which("ip") and subprocess.run(["ip", "netns", "add", name], capture_output=True).returncode == 0
    return made and subprocess.run(["ip", "netns", "del", name], capture_output=True).returncode == 0


def why_not():
    """Why no routers can run here; none where they can."""
    if not all((FRR / name).exists() for name in ("zebra", "staticd", "ospfd", "ldpd", "bgpd")):
        return "FRR isn't installed"
    if os.geteuid() != 0:
        return "the user isn't root"
    return None if has_namespaces() else "no network namespace can be made here"


class Routers(Folder):
    @unittest.skipIf(why_not(), why_not())
    def test_real_routers_agree(self):
        """FRR in network namespaces of its own: all tables, or where the kernel has no MPLS and VRFs those of OSPF and LDP."""
        name, out = "square", self.folder / "lab"
        path = ROOT / STORED[name][0]
        ran = run_tool("export", path, out, "--form", "frr", "--name", f"t{os.getpid()}")
        self.assertEqual(0, ran.returncode, ran.stderr)
        self.addCleanup(subprocess.run, [out / "lab.sh", "down"], capture_output=True)
        up = subprocess.run([out / "lab.sh", "up"], capture_output=True, text=True)
        self.assertTrue(up.returncode == 0 or "the kernel has no" in up.stderr, up.stderr)
        only = () if up.returncode == 0 else ("adjacencies", "trees", "ldp", "bindings", "labels")
        routers, ends = json.loads((out / "lab.json").read_text())["routers"], time.monotonic() + 180
        while time.monotonic() < ends:
            if not unexplained(compared(name, tables.collected(routers, (tables.PORTS, tables.ROUTES, tables.BINDINGS)), ("trees", "bindings"))):
                result = compared(name, tables.collected(routers), only)
                if not unexplained(result):
                    break
            time.sleep(3)
        else:
            found = tables.collected(routers)
            if unexplained(compared(name, found, ("adjacencies", "ldp"))):
                self.skipTest("the routers' sessions aren't up within 180 s: the processors are busy")
            result = compared(name, found, only)
        self.assertEqual([], [(one.table, one.at, one.ours, one.theirs) for one in result.found if one.kind == compare.UNEXPLAINED])
        self.assertTrue(all(result.compared.values()))
        self.assertIn("equal cost", {one.kind for one in result.found})


if __name__ == "__main__":
    unittest.main()
