"""The network at rest beside the tables of a lab's routers: each difference by its kind, with the choice that RFCs leave there.

What mplsnet says is a run of the program: all comes up, the failures come, all is learned and heard, and each site sends to each other.
What the lab says is its tables, looked up as a router would, at every next hop of equal cost.
"""

import subprocess
from dataclasses import dataclass, field
from pathlib import Path

import mplsnet.lab as lab
import mplsnet.whatif as whatif
from mplsnet.files import Fault
from mplsnet.knowledge import Knowledge, contains, prefix_of, prefix_text, tree
from mplsnet.pcap import capture_of, udp_packet
from mplsnet.run import Run
from mplsnet.tables import EXPLICIT_NULL, IMPLICIT_NULL
from mplsnet.topology import topology_text

TABLES = {
    "adjacencies": "OSPF's neighbours that are Full",
    "trees": "next hops and costs to each loopback",
    "ldp": "LDP sessions",
    "bindings": "who heard which kind of label for which loopback from whom, the penultimate router's implicit null among them",
    "labels": "what becomes of each label that was given for a loopback",
    "sessions": "BGP sessions",
    "vpn": "VPN routes that an edge has heard and that one of its VRFs imports",
    "paths": "of each VRF's prefix the sites and edges from which BGP has it",
    "routes": "of each VRF's prefix what is taken: a site, a VRF of the edge, an edge",
    "vpn labels": "labels that an edge gave for its VRFs",
    "pairs": "what becomes of a packet from each site to each prefix of the others, with its path",
}
UNEXPLAINED, FOLLOWS = "unexplained", "follows"
KINDS = {
    "equal cost": "of equally good next hops a router may take one or each (RFC 2328, section 16.8: OSPF \"maintains multiple equal-cost routes\"; RFC 3031, "
    "section 3.11: the procedures for choosing an element from the set are beyond its scope); mplsnet takes the one of least number",
    "multipath": "BGP's decision ends with one route (RFC 4271, section 9.1.2.2); several that differ in their edge alone may be used side by side, "
    "a local matter of routers; mplsnet takes one",
    "label per VRF": "whether or not each route has a different label is an implementation matter (RFC 4364, section 4.3.2): one label may stand for an "
    "entire VRF, whose table is then asked again; mplsnet gives one to each attachment",
    "interior cost": "routes of less-preferred interior cost are removed from consideration (RFC 4271, section 9.1.2.2, e); mplsnet doesn't compare it, "
    "and takes the edge of least address",
    "unresolved": "a route whose next hop isn't resolvable is excluded (RFC 4271, section 9.1.2); mplsnet leaves it in the choice unless the topology says "
    "resolve = true",
    "independent control": "LDP's control is independent or ordered, as is configured (RFC 5036, section 2.6.1); mplsnet's is ordered",
    "upstream alone": "with ordered control labels pass to upstream LSRs (RFC 5036, section 2.6.1.2): a router may give its own next hop none; mplsnet gives "
    "one to each neighbour",
    "explicit null": "the last router may ask for a frame without or with a label (RFC 3031, section 3.16; RFC 3032, section 2.1); mplsnet's asks for none",
    "speaker's flaw": "a flaw that is known of FRR 8.4.4",
    FOLLOWS: "it comes of another difference, which is named",
    UNEXPLAINED: "nothing that RFCs leave open, and no known flaw, makes this",
}
FLAWS = {
    "one hop": "a Withdraw goes one hop: a router still offers a label where its next hop's own is gone (RFC 5036, section 2.6.1.2, has it withdrawn)",
    "bare": "an equally good next hop without a label stays in use, and gets the VPN label alone (RFC 3031, section 3.22: it can't be read there)",
}
MOST_WAYS = 1000


@dataclass
class Difference:
    """Where mplsnet and the lab differ: the table, the place in it, what each has, the kind, and what else is said of it."""

    table: str
    at: str
    ours: str
    theirs: str
    kind: str = UNEXPLAINED
    why: str = ""
    of: object = None  # the difference that it follows from
    number: int = 0


# The network at rest.


def down_lines(path, net, words):
    """The lines that bring failures about, each named as 'p1-p2', 'link p1-p2', 'ldp p1-p2', 'bgp pe1-pe2' or 'node p1'."""
    links, rest = [], []
    ends = [(net.nodes[one], net.nodes[other]) for one, other, _ in net.links]
    names = {f"{a}-{b}": at for at, (one, other) in enumerate(ends) for a, b in ((one, other), (other, one))}
    edges = {f"{net.nodes[a]}-{net.nodes[b]}": (a, b) for a in net.edges for b in net.edges if a != b}
    for word in words:
        kind, blank, name = word.partition(" ")
        kind, name = (kind, name) if blank else ("link", word)
        if kind == "link" and name in names:
            links.append(names[name])
        elif kind == "node" and name in net.number:
            links += [link for _, link in net.neighbours[net.number[name]]]
        elif kind == "ldp" and name in names:
            rest.append(f"ldp off {whatif.link_words(net, names[name])}")
        elif kind == "bgp" and name in edges:
            rest.append(f"bgp down {' '.join(net.nodes[end] for end in sorted(edges[name]))}")
        else:
            raise Fault(f"{path}: --down: there is no {word!r} (a link as 'p1-p2', 'ldp p1-p2', 'bgp pe1-pe2' or 'node p1')", 3)
    down = whatif.links_failure(net, sorted(set(links)), False, "link", "").down
    never = {f"bgp down {a} {b}" for a, b in whatif.sessions_apart(net, set())}
    return [line for line in dict.fromkeys([*down, *rest]) if line not in never]


def script_of(net, down, probes):
    """The script: all comes up, the failures come, tables are shown, and the probes are sent."""
    lines = [*whatif.bring_up(net, False), "drain", *down, "drain"]
    lines += [f"show tree {name}" for name in net.nodes] + ["show ldp", "show bgp"] + [f"show vrf {vrf.name}" for vrf in net.vrfs]
    lines += [f"inject {probe.site} {record}" for record, probe in enumerate(probes, 1)] + ["flush"]
    return "\n".join(lines) + "\n"


def inputs_of(tables, net, down, probes):
    """Topology, script and capture of the run; links lose nothing."""
    links = [{key: value for key, value in link.items() if key != "loss"} for link in tables["link"]]
    capture = capture_of([udp_packet(probe.source, probe.address) for probe in probes])
    return {"topology.toml": topology_text(tables | {"link": links}).encode(), "script.txt": script_of(net, down, probes).encode(), "capture.pcap": capture}


def run_program(program, path, inputs, folder):
    """Runs the program in the folder; what it left, read."""
    folder, out = Path(folder), Path(folder) / "out"
    out.mkdir()
    for name, content in inputs.items():
        (folder / name).write_bytes(content)
    try:
        with open(out / "report.txt", "wb") as report:
            words = [program, "run", *(str(folder / name) for name in inputs), str(out)]
            ran = subprocess.run(words, stdin=subprocess.DEVNULL, stdout=report, stderr=subprocess.PIPE)
    except OSError as error:
        raise Fault(f"{program}: {error.strerror}", 3)
    said = (out / "report.txt").read_text(errors="replace").splitlines()
    if ran.returncode != 0:
        raise Fault(f"{path}: {(said or ran.stderr.decode(errors='replace').splitlines() or [f'{program} ended with status {ran.returncode}'])[-1]}", 3)
    for line in said:
        if line.startswith("line "):
            raise Fault(f"{path}: the program refused a line of the script: {line}", 3)
    return Run(out)


class Rest:
    """What the program says of the network at rest."""

    def __init__(self, net, run, probes):
        self.net, self.probes = net, probes
        files = run.files
        self.known = Knowledge(net, files.attachments, files.ldp, files.bgp, logs=False)
        for _, words in files.steps:
            self.known.do(words)
        self.view, self.held_by = self.known.up, {}
        self.hops, self.ldp, self.sessions, self.best = {}, set(), set(), {}
        for line in run.tables:
            self.take(line)
        self.ways = run.ways

    def take(self, line):
        """A line of a table that was shown."""
        net, number = self.net, self.net.number
        if line["kind"] == "tree" and line["next"]:
            self.hops[number[line["node"]], number[line["to"]]] = (line["cost"], number[line["next"]])
        elif line["kind"] == "ldp" and line["state"] == line["other_state"] == "operational":
            self.ldp |= {(number[line["a"]], number[line["b"]]), (number[line["b"]], number[line["a"]])}
        elif line["kind"] == "bgp" and line["state"] == line["other_state"] == "established":
            self.sessions.add((number[line["a"]], number[line["b"]]))
        elif line["kind"] == "vrf":
            if line["edge"]:
                origin = ("edge", line["edge"])
            else:
                origin = ("vrf", line["of_vrf"]) if line["of_vrf"] else ("site", line["site"])
            self.best[net.vrf_number[line["vrf"]], line["prefix"]] = origin

    def cost(self, node, to):
        return 0 if node == to else tree(self.net, node, self.view)[0].get(to)

    def near(self, node):
        """The neighbours over links that are up: (node, cost)."""
        return [(near, self.net.links[link][2]) for near, link in self.net.neighbours[node] if self.view >> link & 1]

    def equal(self, node, to):
        """The equally good next hops."""
        cost = self.cost(node, to)
        return {near for near, its in self.near(node) if cost is not None and (self.cost(near, to) is not None and its + self.cost(near, to) == cost)}

    def heard(self, node, near, to):
        """Whether the node has heard a label of the neighbour for the loopback."""
        return (node, near) in self.ldp and bool((self.known.binding(node, near, to) or (False,))[0])

    def offering(self, to):
        """The nodes that offer a label for the loopback, whichever of equally good next hops they take."""
        found, grows = {to}, True
        while grows:
            others = [node for node in range(len(self.net.nodes)) if node not in found]
            more = {node for node in others if any((node, near) in self.ldp and near in found for near in self.equal(node, to))}
            found, grows = found | more, bool(more)
        return found

    def offers_by_one_hop(self, node, to):
        """An equally good next hop has an LDP session with the node: what it offers where a Withdraw goes one hop only."""
        return any((node, near) in self.ldp for near in self.equal(node, to))

    def held(self, vrf, prefix):
        """Where the VRF's routes of the prefix come from, with the grade by which they are preferred."""
        of = prefix_of(prefix)
        if vrf not in self.held_by:
            self.held_by[vrf] = list(self.known.held(vrf))
        return {self.origin(vrf, route): route.rank[0] for route in self.held_by[vrf] if route.prefix == of}

    def origin(self, vrf, route):
        if route.rank[0] == 0:
            return ("site", self.net.sites[route.site])
        return ("vrf", self.net.vrfs[route.vrf].name) if route.rank[0] == 1 else ("edge", self.net.nodes[route.edge])


# The lab's tables, in the topology's names.


@dataclass
class Walk:
    """Where packets of a pair come to by the lab's tables: (end, path) each, and the places that were looked at."""

    ends: set = field(default_factory=set)
    touched: dict = field(default_factory=dict)  # in the order of looking
    asked_again: bool = False  # an edge's VRF sent it on, or to another site than its edge announced
    many: bool = False  # more ways than are counted


class Lab:
    """The routers' tables by nodes, VRFs and sites of the topology."""

    def __init__(self, net, tables, routers):
        self.net, self.routers = net, [routers[name] for name in net.nodes]
        self.devices = lab.devices(net)
        self.rds = [vrf["rd"] for vrf in tables["vrf"]]
        self.vrf_of_device = {(vrf.node, device): at for at, (vrf, device) in enumerate(zip(net.vrfs, self.devices))}
        self.loopback = {".".join(map(str, one)): at for at, one in enumerate(net.loopbacks)}
        self.owner = dict(self.loopback)
        for node, router in enumerate(self.routers):
            self.owner |= {address: node for address in router.addresses()}
            self.owner |= {address: self.loopback[name] for name, address in router.near() if name in self.loopback}
        self.plain = [router.routes() for router in self.routers]
        self.bindings = [router.bindings() for router in self.routers]
        self.lfib = [router.lfib() for router in self.routers]
        self.routes = {}
        for node, router in enumerate(self.routers):
            for (device, prefix), route in router.vrf_routes().items():
                if (node, device) in self.vrf_of_device:
                    self.routes[self.vrf_of_device[node, device], prefix] = route

    def prefix(self, node):
        return ".".join(map(str, self.net.loopbacks[node])) + "/32"

    def hops(self, node, to):
        """The cost and next hops of the router's route to a loopback; none where it has no route."""
        route = self.plain[node].get(self.prefix(to))
        if route is None:
            return None
        return route[1], {self.owner.get(hop.address, hop.address or hop.port) for hop in route[2]}

    def pushed(self, node, to):
        """The label that the router's route to a loopback puts on, by next hop; none where it puts none."""
        route = self.plain[node].get(self.prefix(to))
        return {self.owner.get(hop.address): hop.labels[0] if hop.labels else None for hop in route[2]} if route else {}

    def given(self, node, to):
        return self.bindings[node][0].get(self.prefix(to))

    def heard(self, node, near, to):
        """The label that the router heard of the neighbour for the loopback; none where it heard none."""
        return self.bindings[node][1].get((self.prefix(to), address_of(self.net, near)))

    def swaps(self, node, label):
        """What becomes of a label: the next hops, with the label that goes out."""
        return {(self.owner.get(hop, hop), out[0] if out else None) for kind, out, hop, _ in self.lfib[node].get(label, ()) if kind != "BGP"}

    def origins(self, vrf, prefix):
        """Where the VRF's route of the prefix leads; none where it has none."""
        route = self.routes.get((vrf, prefix))
        if route is None or route[0] in ("connected", "local", "kernel"):
            return frozenset()
        return frozenset(self.origin(vrf, route[0], hop) for hop in self.heads(route))

    def heads(self, route):
        """A route's own next hops, without those through which they are reached."""
        return [hop for hop in route[2] if hop.is_recursive] or route[2]

    def origin(self, vrf, protocol, hop):
        node = self.net.vrfs[vrf].node
        if hop.vrf is not None and (node, hop.vrf) in self.vrf_of_device and self.vrf_of_device[node, hop.vrf] != vrf:
            return ("vrf", self.net.vrfs[self.vrf_of_device[node, hop.vrf]].name)
        if protocol == "bgp" and hop.address in self.loopback:
            return ("edge", self.net.nodes[self.loopback[hop.address]])
        return ("static", hop.address or hop.port or "nothing")

    def path_origin(self, vrf, path):
        """Where a path of BGP in a VRF comes from."""
        node, near = self.net.vrfs[vrf].node, path.get("nhVrfName")
        if (node, near) in self.vrf_of_device and self.vrf_of_device[node, near] != vrf:
            return ("vrf", self.net.vrfs[self.vrf_of_device[node, near]].name)
        hops = [one.get("ip") for one in path.get("nexthops", [])]
        return next((("edge", self.net.nodes[self.loopback[hop]]) for hop in hops if hop in self.loopback), ("static", hops[0] if hops else "nothing"))

    # A packet's ways.

    def walk(self, vrf, address, sites):
        """The ways of a packet that enters in the VRF; `sites` tells the site of a VRF's static prefix."""
        walk = Walk()
        self.in_vrf(walk, vrf, address, sites, (self.net.vrfs[vrf].node,), frozenset())
        return walk

    def end(self, walk, kind, what, path):
        walk.ends.add(((kind, what), path))
        walk.many = walk.many or len(walk.ends) > MOST_WAYS

    def best(self, vrf, address):
        """The VRF's prefix of most bits that contains the address."""
        found = [prefix for of, prefix in self.routes if of == vrf and contains(prefix_of(prefix), address)]
        return max(found, key=lambda prefix: prefix_of(prefix)[1], default=None)

    def in_vrf(self, walk, vrf, address, sites, path, been):
        """Looked up in a VRF's table."""
        node = self.net.nodes[path[-1]]
        if walk.many:
            return None
        if vrf in been:
            return self.end(walk, "Loops", node, path)
        prefix = self.best(vrf, address)
        if prefix is None:
            return self.end(walk, "NoRoute", node, path)
        walk.touched["routes", vrf, prefix] = None
        walk.asked_again = walk.asked_again or bool(been)
        route = self.routes[vrf, prefix]
        for hop in self.heads(route):
            kind, what = self.origin(vrf, route[0], hop)
            if kind == "static":
                site = sites.get((vrf, prefix))
                self.end(walk, "delivered" if site else "NoRoute", site or node, path)
            elif kind == "vrf":
                self.in_vrf(walk, self.net.vrf_number[what], address, sites, path, been | {vrf})
            else:
                self.enter(walk, self.net.number[what], route, hop, (address, sites, been | {vrf}), path)
        return None

    def enter(self, walk, to, route, head, packet, path):
        """Into the label path to another edge: over each next hop through which the route's is reached."""
        node = path[-1]
        after = route[2][route[2].index(head) + 1 :] if head.is_recursive else [head]
        ways = []
        for hop in after:
            if hop.is_recursive and hop is not head:
                break
            ways.append(hop)
        walk.touched["trees", node, to] = None
        if not ways:
            self.end(walk, "NoLsp", self.net.nodes[node], path)
        for hop in ways:
            near = self.owner.get(hop.address)
            if near is None or not hop.labels:
                self.end(walk, "NoLsp", self.net.nodes[node], path)
                continue
            walk.touched |= {("labels", node, to, "on"): None, ("bindings", node, near, to): None}
            labels = tuple(label for label in hop.labels if label != IMPLICIT_NULL)
            self.carried(walk, to, labels, packet, (*path, near))

    def carried(self, walk, to, labels, packet, path):
        """A frame that came to a router."""
        node, name = path[-1], self.net.nodes[path[-1]]
        if walk.many:
            return None
        if len(path) > 64:
            return self.end(walk, "Loops", name, path)
        label, *rest = labels or (None,)
        if label == EXPLICIT_NULL and rest:
            return self.carried(walk, to, tuple(rest), packet, path)
        entries = self.lfib[node].get(label, ())
        if node == to:
            walk.touched |= {("vpn labels", vrf): None for vrf, of in enumerate(self.net.vrfs) if of.node == to}
        if label is None or not entries:
            return self.end(walk, "NoEntry", name, path)
        for kind, out, hop, device in entries:
            if kind == "BGP":
                vrf = self.vrf_of_device.get((node, device))
                if vrf is None or rest:
                    self.end(walk, "NoEntry", name, path)
                else:
                    self.in_vrf(walk, vrf, packet[0], packet[1], path, packet[2])
                continue
            near = self.owner.get(hop)
            if near is None:
                self.end(walk, "NoEntry", name, path)
                continue
            walk.touched |= {("labels", node, to): None, ("trees", node, to): None, ("bindings", node, near, to): None}
            self.carried(walk, to, (*(one for one in out if one != IMPLICIT_NULL), *rest), packet, (*path, near))
        return None


def address_of(net, node):
    return ".".join(map(str, net.loopbacks[node]))


def label_word(label):
    return {None: "none", IMPLICIT_NULL: "implicit null", EXPLICIT_NULL: "explicit null"}.get(label, "a label")


def origin_text(origins):
    return " and ".join(sorted(f"{kind} {what}" for kind, what in origins)) or "none"


# The comparison.


class Comparison:
    """All differences, in the order of TABLES; `compared` counts what was compared in each."""

    def __init__(self, rest, of_lab, reflectors, only=()):
        self.net, self.rest, self.lab, self.reflectors = rest.net, rest, of_lab, reflectors
        self.found, self.compared, self.at, self.pairs = [], {}, {}, []
        self.statics = {(rest.net.vrf_of[site], prefix_text(of)): rest.net.sites[site] for site, found in enumerate(rest.net.prefixes) for of in found}
        made = {"adjacencies": self.adjacencies, "trees": self.trees, "ldp": self.ldp, "bindings": self.bindings, "labels": self.labels}
        made |= {"sessions": self.sessions, "vpn": self.vpn, "paths": self.paths, "routes": self.routes, "vpn labels": self.vpn_labels, "pairs": self.reach}
        for table, compare in made.items():
            if not only or table in only:
                self.compared[table] = 0
                compare()
        self.found.sort(key=lambda one: one.kind == FOLLOWS)
        for number, one in enumerate(self.found, 1):
            one.number = number

    def name(self, node):
        return self.net.nodes[node] if isinstance(node, int) else str(node)

    def names(self, nodes):
        return " and ".join(sorted(map(self.name, nodes))) or "none"

    def count(self, table):
        self.compared[table] += 1

    def differ(self, key, at, ours, theirs, kind=UNEXPLAINED, why="", of=()):
        """A difference; one that nothing explains follows from the first of those differences that isn't explained either."""
        cause = next((self.at[one] for one in of if one in self.at and self.at[one].kind in (UNEXPLAINED, FOLLOWS)), None)
        if kind == UNEXPLAINED and cause is not None:
            kind, cause = FOLLOWS, cause.of or cause
        self.found.append(Difference(key[0], at, ours, theirs, kind, why, cause if kind == FOLLOWS else None))
        self.at[key] = self.found[-1]

    # Links, trees, LDP.

    def adjacencies(self):
        for node, router in enumerate(self.lab.routers):
            full = {self.lab.loopback.get(name, name) for name, _ in router.near()}
            near = {one for one, _ in self.rest.near(node)}
            for one in sorted(full | near, key=str):
                self.count("adjacencies")
                if (one in full) != (one in near):
                    words = ("Full", "none") if one in near else ("none", "Full")
                    self.differ(("adjacencies", node, one), f"{self.name(node)} with {self.name(one)}", *words)

    def trees(self):
        nodes = range(len(self.net.nodes))
        for node, to in ((node, to) for node in nodes for to in nodes if node != to):
            self.count("trees")
            ours, theirs = self.rest.hops.get((node, to)), self.lab.hops(node, to)
            if ours is None and theirs is None or ours and theirs and (ours[0], {ours[1]}) == theirs:
                continue
            kind, equal = UNEXPLAINED, self.rest.equal(node, to)
            if ours and theirs and ours[0] == theirs[0] and theirs[1] and theirs[1] <= equal:
                kind = "equal cost"
            said = [f"cost {cost} next {self.names(hops)}" for cost, hops in ([(ours[0], {ours[1]})] if ours else []) + ([theirs] if theirs else [])]
            words = (said[0] if ours else "unreachable", said[-1] if theirs else "no route")
            causes = [("adjacencies", node, near) for near, _ in self.rest.near(node)]
            causes += [("adjacencies", near, node) for near, _ in self.rest.near(node)]
            self.differ(("trees", node, to), f"{self.name(node)} to {self.name(to)}", *words, kind, of=causes)

    def ldp(self):
        theirs = {(node, self.lab.loopback.get(name, name)) for node, router in enumerate(self.lab.routers) for name in router.ldp()}
        for node, near in sorted(theirs | self.rest.ldp, key=str):
            self.count("ldp")
            if ((node, near) in theirs) != ((node, near) in self.rest.ldp):
                words = ("operational", "none") if (node, near) in self.rest.ldp else ("none", "operational")
                self.differ(("ldp", node, near), f"{self.name(node)} with {self.name(near)}", *words, of=[("adjacencies", node, near), ("ldp", near, node)])

    def bindings(self):
        for to in range(len(self.net.nodes)):
            offering = self.rest.offering(to)
            for node, ends in enumerate(self.net.neighbours):
                for near, _ in ends:
                    if node != to:
                        self.binding(node, near, to, offering)

    def binding(self, node, near, to, offering):
        """What the node heard of the neighbour for the loopback."""
        ours = (IMPLICIT_NULL if near == to else 16) if self.rest.heard(node, near, to) else None
        theirs = self.lab.heard(node, near, to)
        self.count("bindings")
        if label_word(ours) == label_word(theirs):
            return
        kind, why = UNEXPLAINED, ""
        if theirs is None and len(self.rest.equal(near, to)) > 1 and not self.leads(near, to):
            kind = "equal cost"
        elif theirs is None and near != to and (node, near) in self.rest.ldp and self.is_next_hop(node, near, to):
            kind = "upstream alone"
        elif ours is None and theirs not in (IMPLICIT_NULL, EXPLICIT_NULL) and (node, near) in self.rest.ldp:
            if near in offering:
                kind = "equal cost"
            elif self.rest.offers_by_one_hop(near, to) and self.has_flaws(near):
                kind, why = "speaker's flaw", FLAWS["one hop"]
            elif self.rest.equal(near, to):
                kind = "independent control"
        elif near == to and theirs == EXPLICIT_NULL:
            kind = "explicit null"
        words = (label_word(ours), label_word(theirs))
        causes = [("ldp", node, near), ("ldp", near, node), ("adjacencies", node, near), ("trees", near, to)]
        self.differ(("bindings", node, near, to), f"{self.name(node)} of {self.name(near)} for {self.name(to)}", *words, kind, why, causes)

    def is_next_hop(self, node, near, to):
        """The node is a next hop of the other towards the loopback, by costs and in the lab."""
        hops = self.lab.hops(near, to)
        return hops is not None and node in hops[1] and node in self.rest.equal(near, to)

    def has_flaws(self, node):
        """The router is of the version of which flaws are known, or doesn't tell its version."""
        version = self.lab.routers[node].version()
        return version is None or version[:2] == (8, 4)

    def leads(self, node, to):
        """One of the lab's next hops of the node gave it a label."""
        hops = self.lab.hops(node, to)
        return any(isinstance(near, int) and self.lab.heard(node, near, to) is not None for near in hops[1]) if hops else False

    def labels(self):
        """The label that a router gave, or puts on, leads on by the labels that it heard of its next hops."""
        nodes = range(len(self.net.nodes))
        for node, to in ((node, to) for node in nodes for to in nodes if node != to):
            hops = self.lab.hops(node, to)
            heard = {near: self.lab.heard(node, near, to) for near in (hops[1] if hops else ()) if isinstance(near, int)}
            causes = [("trees", node, to), *(("bindings", node, near, to) for near in {*heard, *self.rest.equal(node, to)})]
            self.count("labels")
            pushed = self.lab.pushed(node, to)
            wanted = {near: label for near, label in heard.items() if label is not None}
            if {near: label for near, label in pushed.items() if label is not None} != wanted:
                words = (self.label_text(wanted.items()), self.label_text(pushed.items()))
                self.differ(("labels", node, to, "on"), f"{self.name(node)} puts on for {self.name(to)}", *words, of=causes)
            elif len(wanted) != len(pushed) and wanted:
                words = (self.label_text(wanted.items()), self.label_text(pushed.items()))
                kind, why = ("speaker's flaw", FLAWS["bare"]) if self.has_flaws(node) else (UNEXPLAINED, "")
                self.differ(("labels", node, to, "on"), f"{self.name(node)} puts on for {self.name(to)}", *words, kind, why)
            label = self.lab.given(node, to)
            swaps = self.lab.swaps(node, label) if label is not None else set()
            if swaps != set(wanted.items()) and label is not None:
                words = (self.label_text(wanted.items()), self.label_text(swaps))
                self.differ(("labels", node, to), f"{self.name(node)}'s label for {self.name(to)}", *words, of=[("labels", node, to, "on"), *causes])

    def label_text(self, found):
        words = {None: "no label", IMPLICIT_NULL: "implicit null"}
        return " and ".join(sorted(f"{words.get(label, f'label {label}')} to {self.name(near)}" for near, label in found)) or "none"

    # BGP and VRFs.

    def sessions(self):
        down = {link for link in range(len(self.net.links)) if not self.rest.view >> link & 1}
        apart = {tuple(sorted(map(self.net.number.get, pair))) for pair in whatif.sessions_apart(self.net, down)}
        ours = self.rest.sessions if not self.reflectors else {pair for pair in lab.bgp_pairs(self.net, self.reflectors) if pair not in apart}
        theirs = {(node, self.lab.loopback.get(name, name)) for node, router in enumerate(self.lab.routers) for name in router.sessions()}
        wanted = ours | {(b, a) for a, b in ours}
        for node, peer in sorted(theirs | wanted, key=str):
            self.count("sessions")
            if ((node, peer) in theirs) != ((node, peer) in wanted):
                words = ("established", "none") if (node, peer) in wanted else ("none", "established")
                causes = [("sessions", peer, node), ("trees", node, peer), ("trees", peer, node)]
                self.differ(("sessions", node, peer), f"{self.name(node)} with {self.name(peer)}", *words, of=causes)

    def session_causes(self, node, edge):
        """The sessions by which routes of an edge come."""
        between = [edge, *self.reflectors]
        return [("sessions", a, b) for one in between for a, b in ((node, one), (one, node), (edge, one), (one, edge))]

    def vpn(self):
        """Each route of another edge that a VRF here imports, and its next hop."""
        net, known = self.net, self.rest.known
        for node in net.edges:
            imports = set().union(*(known.targets["import"][at] for at, vrf in enumerate(net.vrfs) if vrf.node == node))
            heard = self.lab.routers[node].vpn()
            told = {about: (edge, one) for (at, edge), found in known.believed.items() if at == node for about, one in found.items()}
            for (vrf, of), (edge, one) in sorted(told.items()):
                if not imports & one.targets:
                    continue
                self.count("vpn")
                paths = heard.get((self.lab.rds[vrf], prefix_text(of)), [])
                hops = {self.lab.loopback.get(hop.get("ip"), hop.get("ip")) for path in paths for hop in path.get("nexthops", [])}
                if hops != {edge}:
                    words = (f"edge {self.name(edge)}", f"edge {self.names(hops)}" if hops else "none")
                    key = ("vpn", node, self.lab.rds[vrf], prefix_text(of))
                    self.differ(key, f"{self.name(node)}, {self.lab.rds[vrf]} {prefix_text(of)}", *words, of=self.session_causes(node, edge))

    def prefixes(self, vrf, theirs):
        """The prefixes of a VRF in both, without those of the links to its sites."""
        ours = {prefix for of, prefix in self.rest.best if of == vrf}
        return sorted(ours | theirs, key=lambda prefix: prefix_of(prefix))

    def theirs_of(self, vrf, origin):
        """An origin as the topology has it: a static of the VRF leads to its site."""
        return ("site", self.statics.get((vrf, origin[0]), origin[1][1])) if origin[1][0] == "static" else origin[1]

    def paths(self):
        for vrf, of in enumerate(self.net.vrfs):
            found = {prefix: paths for (device, prefix), paths in self.lab.routers[of.node].vrf_paths().items() if device == self.lab.devices[vrf]}
            for prefix in self.prefixes(vrf, set(found)):
                self.count("paths")
                ours = set(self.rest.held(vrf, prefix))
                theirs = {self.theirs_of(vrf, (prefix, self.lab.path_origin(vrf, path))) for path in found.get(prefix, [])}
                if ours != theirs:
                    causes = [("vpn", of.node, rd, prefix) for rd in self.lab.rds]
                    causes += [one for kind, name in ours ^ theirs if kind == "edge" for one in self.session_causes(of.node, self.net.number[name])]
                    self.differ(("paths", vrf, prefix), f"VRF {of.name} {prefix}", origin_text(ours), origin_text(theirs), of=causes)

    def routes(self):
        for vrf, of in enumerate(self.net.vrfs):
            found = {prefix for at, prefix in self.lab.routes if at == vrf and self.lab.origins(vrf, prefix)}
            for prefix in self.prefixes(vrf, found):
                self.count("routes")
                ours = self.rest.best.get((vrf, prefix))
                theirs = {self.theirs_of(vrf, (prefix, origin)) for origin in self.lab.origins(vrf, prefix)}
                if theirs != ({ours} if ours else set()):
                    kind = self.route_kind(vrf, prefix, ours, theirs)
                    causes = [("paths", vrf, prefix)]
                    causes += [("trees", of.node, self.net.number[name]) for one, name in theirs | ({ours} if ours else set()) if one == "edge"]
                    self.differ(("routes", vrf, prefix), f"VRF {of.name} {prefix}", origin_text({ours} if ours else ()), origin_text(theirs), kind, of=causes)

    def route_kind(self, vrf, prefix, ours, theirs):
        """Why another route may be taken, or several."""
        if ours is None:
            return UNEXPLAINED
        node, held = self.net.vrfs[vrf].node, self.rest.held(vrf, prefix)
        alike = {origin for origin, grade in held.items() if grade == held.get(ours)}
        cost = lambda origin: self.rest.cost(node, self.net.number[origin[1]]) if origin[0] == "edge" else 0
        leads = lambda origin: origin[0] != "edge" or node in self.rest.offering(self.net.number[origin[1]])
        if ours[0] == "edge" and not leads(ours) and theirs <= set(held) and not any(leads(one) for one in set(held) - theirs):
            return "unresolved"
        if theirs and theirs <= alike and ours in theirs:
            return "multipath"
        if theirs and theirs <= alike and all(cost(one) is not None and cost(ours) is not None and cost(one) < cost(ours) for one in theirs):
            return "interior cost"
        return UNEXPLAINED

    def vpn_labels(self):
        for vrf, of in enumerate(self.net.vrfs):
            sites = [site for site, at in enumerate(self.net.vrf_of) if at == vrf and self.net.prefixes[site]]
            if not sites or not of.exports:
                continue
            self.count("vpn labels")
            theirs = sum(kind == "BGP" and device == self.lab.devices[vrf] for entries in self.lab.lfib[of.node].values() for kind, _, _, device in entries)
            if theirs != len(sites):
                kind = "label per VRF" if theirs == 1 else UNEXPLAINED
                words = tuple(f"{count} label{'s' * (count != 1)}" for count in (len(sites), theirs))
                self.differ(("vpn labels", vrf), f"{self.name(of.node)}, VRF {of.name}", *words, kind)

    # Pairs.

    def reach(self):
        for probe, way in zip(self.rest.probes, self.rest.ways):
            self.count("pairs")
            vrf, address = self.net.vrf_of[self.net.site_number[probe.site]], int.from_bytes(probe.address, "big")
            walk = self.lab.walk(vrf, address, self.statics)
            path = tuple(map(self.net.number.get, way.nodes))
            ours = (("delivered", way.words[0]) if way.end == "delivered" else (way.words[0], way.words[1]), path)
            self.pairs.append((probe, ours, walk))
            if walk.ends != {ours} or walk.many:
                kind, why = self.pair_kind(vrf, address, ours, walk)
                at = f"{probe.site} to {'|'.join(probe.to)} {probe.prefix}"
                causes = [*self.of_ours(vrf, address, ours), *walk.touched]
                self.differ(("pairs", probe.site, probe.prefix), at, self.end_text([ours]), self.end_text(walk.ends), kind, why, causes)

    def of_ours(self, vrf, address, ours):
        """The places that mplsnet's packet went by."""
        prefixes = [prefix for of, prefix in self.rest.best if of == vrf and contains(prefix_of(prefix), address)]
        prefix = max(prefixes, key=lambda prefix: prefix_of(prefix)[1], default=None)
        found, origin = [("routes", vrf, prefix)], self.rest.best.get((vrf, prefix), ("", ""))
        if origin[0] == "edge":
            to, path = self.net.number[origin[1]], ours[1]
            for at, node in enumerate(path[:-1]):
                found += [("trees", node, to), ("bindings", node, path[at + 1], to), ("labels", node, to), ("labels", node, to, "on")]
        return found

    def pair_kind(self, vrf, address, ours, walk):
        """The kind of the differences that the ways meet, where they explain what comes of them."""
        touched = [*self.of_ours(vrf, address, ours), *walk.touched]
        met = [self.at[one] for one in touched if one in self.at]
        if any(one.kind in (UNEXPLAINED, FOLLOWS) for one in met):
            return UNEXPLAINED, ""
        sites = {end for end, _ in walk.ends if end[0] == "delivered"}
        falls = any(end[0] != "delivered" for end, _ in walk.ends)
        for kind in ("unresolved", "interior cost", "multipath"):
            if any(one.kind == kind for one in met):
                return kind, ""
        if walk.asked_again and sites != ({ours[0]} if ours[0][0] == "delivered" else set()):
            return "label per VRF", ""
        flaw = next((one for one in met if one.kind == "speaker's flaw"), None)
        if flaw and falls:
            return flaw.kind, flaw.why
        if sites <= {ours[0]} or ours[0][0] != "delivered":
            for kind in ("equal cost", "speaker's flaw", "independent control", "explicit null"):
                if any(one.kind == kind for one in met):
                    return kind, next(one.why for one in met if one.kind == kind)
        return UNEXPLAINED, ""

    def end_text(self, ends):
        """How packets end, with the paths where they are few."""
        said = {}
        for (kind, what), path in ends:
            said.setdefault(f"delivered at {what}" if kind == "delivered" else f"{kind} at {what}", []).append("-".join(map(self.name, path)))
        return "; ".join(f"{end} by {' or '.join(sorted(paths)[:4])}{f' and {len(paths) - 4} more' * (len(paths) > 4)}" for end, paths in sorted(said.items()))

    # What is told.

    def counts(self):
        """How many differences are of each kind."""
        return {kind: sum(one.kind == kind for one in self.found) for kind in KINDS}
