"""Works out what `mplsnet reflect` puts for any topology and script, without the program.

It is a second telling of docs/REFLECT.md, written from that page and not from the program's source: what each node has
heard, what a reflector picks of it and offers each peer, what an edge holds, the course of a script, the report.
reference.py calls it; the inputs are read by reference_inputs.py. It goes by the definitions and not by speed: all
that a node offers is worked out anew before and after each step.
"""

import struct

from reference_inputs import ROUTES, TARGETS
from reference_routes import Route, vrf_table

LABELS, MESSAGES, STEPS = 1_048_560, 2_000_000, 4_000_000


class Spent(Exception):
    """A step that nothing else refuses comes after the last one that there may be."""


class Reflection:
    """Edges and reflectors as the steps have left them. A word is its kind, the VRF and prefix that it is about, and what
    is announced of them: the site, its attachment and the targets, and the clusters."""

    def __init__(self, topology, reflectors):
        self.topology, self.reflectors = topology, sorted(reflectors, key=lambda node: topology.nodes[node].loopback)
        self.nodes, self.edges = range(len(topology.nodes)), topology.edges()
        pairs = [(one, other) for one in self.nodes for other in self.nodes if one != other]
        self.lives = dict.fromkeys(pairs, False)  # the same both ways
        self.said = {pair: [] for pair in pairs}  # by speaker and hearer, in the session's present life
        self.heard = dict.fromkeys(pairs, 0)  # by hearer and speaker, how many of these
        self.flying = []  # by speaker and hearer, the one said first of all in front

        self.imports = [set(vrf.imports) for vrf in topology.vrfs]
        self.exports = [set(vrf.exports) for vrf in topology.vrfs]
        self.statics = {(site.vrf, of): no for no, site in enumerate(topology.sites) for of in site.prefixes}
        self.attachment = [1 for _ in topology.sites]  # the present one, None where the site is detached
        self.attachments = [1 for _ in topology.sites]  # how many there were
        self.given = {edge: [(site, 1) for site in self.sites_at(edge)] for edge in self.edges}
        self.steps = 0

    def sites_at(self, edge):
        return [no for no in range(len(self.topology.sites)) if self.topology.edge_of(no) == edge]

    def site_label(self, edge, site, attachment):
        return 16 + self.given[edge].index((site, attachment))

    def owner(self, about):
        """The edge of the VRF that a route is named by."""
        return self.topology.vrfs[about[0]].node

    # What is heard, picked and offered

    def say(self, speaker, hearer, *word):
        self.said[speaker, hearer].append(word)
        self.flying.append((speaker, hearer))

    def state(self, node, peer):
        """How many of the peer's words the end has heard, at most two; None where no session lives."""
        return min(self.heard[node, peer], 2) if self.lives[node, peer] else None

    def announced(self, node, peer):
        """By VRF and prefix what the peer announced last and hasn't withdrawn, of what the node has heard."""
        routes = {}
        for kind, *about in self.said[peer, node][: self.heard[node, peer]] if self.lives[node, peer] else []:
            if kind == "announce":
                routes[about[0]] = about[1]
            elif kind == "withdraw":
                routes.pop(about[0], None)
        return routes

    def from_reflectors(self, node):
        """By VRF and prefix what the reflector of least address that announces it to the node says, the node itself left out."""
        routes = {}
        for reflector in self.reflectors:
            if reflector != node:
                routes = self.announced(node, reflector) | routes
        return routes

    def from_edges(self, node):
        """By VRF and prefix what the VRF's edge announces to the node."""
        edges = [(edge, self.announced(node, edge)) for edge in self.edges if edge != node]
        return {about: route for edge, routes in edges for about, route in routes.items() if self.owner(about) == edge}

    def exports_of(self, edge):
        """By VRF and prefix what the edge exports: the site, its attachment and the targets, and no clusters."""
        exports = {}
        for (vrf, of), site in sorted(self.statics.items()):
            if self.topology.vrfs[vrf].node == edge and self.exports[vrf] and self.attachment[site] is not None:
                exports[vrf, of] = (site, self.attachment[site], tuple(sorted(self.exports[vrf])), ())
        return exports

    def offers(self, node, peer):
        """By VRF and prefix, in order, what the node offers the peer."""
        if node not in self.reflectors:
            return self.exports_of(node)
        if peer in self.reflectors:
            routes = self.from_edges(node)
        else:
            picked = self.from_reflectors(node) | self.from_edges(node)
            routes = {about: route for about, route in picked.items() if self.owner(about) != peer}
        own = self.topology.nodes[node].loopback
        return {about: (*routes[about][:3], (own, *routes[about][3])) for about in sorted(routes)}

    def steady(self):
        """What each end that is Established offers its peer."""
        ends = [ends for ends, lives in self.lives.items() if lives and self.state(*ends) == 2]
        return {ends: self.offers(*ends) for ends in ends}

    def with_news(self, change):
        """Does the change. Each end that was Established and is says what came, changed and went of its offers: by node,
        by route, by peer."""
        before = self.steady()
        change()
        after = self.steady()
        for node in self.nodes:
            ends = [ends for ends in after if ends[0] == node and ends in before]
            for about in sorted({about for pair in ends for about in {*before[pair], *after[pair]}}):
                for pair in sorted(ends):
                    was, new = before[pair].get(about), after[pair].get(about)
                    if was != new:
                        self.say(*pair, *(("withdraw", about) if new is None else ("announce", about, new)))

    # What is held

    def is_resolved(self, vrf, route):
        """Here are no label paths, so each next hop counts as reached."""
        return True

    def held(self, vrf):
        edge, routes = self.topology.vrfs[vrf].node, []
        for (of_vrf, of), site in self.statics.items():
            if of_vrf == vrf and self.attachment[site] is not None:
                routes.append(Route(of, (0,), edge, site, self.attachment[site]))
        near = {about: route for about, route in self.exports_of(edge).items() if about[0] != vrf}
        far = {about: route for about, route in self.from_reflectors(edge).items() if self.owner(about) != edge}
        for (of_vrf, of), (site, attachment, targets, _) in [*near.items(), *far.items()]:
            home = self.topology.vrfs[of_vrf].node
            rank = (2, self.topology.nodes[home].loopback, self.topology.vrfs[of_vrf].rd)
            if self.imports[vrf] & {*targets}:
                routes.append(Route(of, (1, of_vrf) if home == edge else rank, home, site, attachment))
        return routes

    # Steps

    def refusal(self, verb, *given):
        """Why the step is refused, the first cause in their order; None where it is done."""
        thing, _, wanted = verb.partition(" ")
        so = {
            "bgp": lambda: self.lives[given],
            "site": lambda: self.attachment[given[0]] is not None,
            "import": lambda: given[1] in self.imports[given[0]],
            "export": lambda: given[1] in self.exports[given[0]],
        }
        if thing in so and so[thing]() == (wanted in ("up", "add")):
            return "Unchanged"
        if verb == "hear bgp" and given not in self.flying:
            return "Empty"
        if thing == "route":
            there = self.statics.get((self.topology.sites[given[0]].vrf, given[1]))
            if wanted == "add" and there is not None:
                return f"PrefixTaken {self.topology.sites[there].name}"
            if wanted == "del" and there != given[0]:
                return "NoRouteThere"
            if wanted == "add" and len(self.statics) >= ROUTES:
                return "RoutesFull"
        sets = {"import add": self.imports, "export add": self.exports}
        if verb in sets and len(sets[verb][given[0]]) >= TARGETS:
            return "TargetsFull"
        if verb == "site up" and len(self.nodes) - 1 + len(self.given[self.topology.edge_of(given[0])]) >= LABELS:
            return "LabelsSpent"
        return "NetFull" if verb != "hear bgp" and len(self.flying) >= MESSAGES else None

    def do(self, verb, *given):
        """Does the step, or answers why it is refused."""
        refusal = self.refusal(verb, *given)
        if refusal:
            return refusal
        if self.steps == STEPS:
            raise Spent
        self.steps += 1
        self.with_news(lambda: getattr(self, verb.replace(" ", "_"))(*given))
        return None

    def begin_anew(self, one, other, lives):
        for ends in ((one, other), (other, one)):
            self.lives[ends], self.said[ends], self.heard[ends] = lives, [], 0
        self.flying = [ends for ends in self.flying if {*ends} != {one, other}]

    def bgp_up(self, lesser, greater):
        self.begin_anew(lesser, greater, True)
        self.say(lesser, greater, "open")
        self.say(greater, lesser, "open")

    def bgp_down(self, lesser, greater):
        self.begin_anew(lesser, greater, False)

    def hear_bgp(self, speaker, hearer):
        kind, *_ = self.said[speaker, hearer][self.heard[hearer, speaker]]
        state = self.state(hearer, speaker)
        self.flying.remove((speaker, hearer))
        self.heard[hearer, speaker] += 1
        if (state, kind) == (0, "open"):
            self.say(hearer, speaker, "keepalive")
        elif (state, kind) == (1, "keepalive"):
            for about, route in self.offers(hearer, speaker).items():
                self.say(hearer, speaker, "announce", about, route)

    def route_add(self, site, of):
        self.statics[self.topology.sites[site].vrf, of] = site

    def route_del(self, site, of):
        del self.statics[self.topology.sites[site].vrf, of]

    def import_add(self, vrf, of):
        self.imports[vrf].add(of)

    def import_del(self, vrf, of):
        self.imports[vrf].remove(of)

    def export_add(self, vrf, of):
        self.exports[vrf].add(of)

    def export_del(self, vrf, of):
        self.exports[vrf].remove(of)

    def site_up(self, site):
        self.attachments[site] += 1
        self.attachment[site] = self.attachments[site]
        self.given[self.topology.edge_of(site)].append((site, self.attachment[site]))

    def site_down(self, site):
        self.attachment[site] = None

    def drain(self, most):
        """The message that was said first of all that fly is heard, so often at most, until none flies."""
        while self.flying and most != 0:
            self.do("hear bgp", *self.flying[0])
            most = None if most is None else most - 1


# Bytes


def message(world, speaker, word):
    """A word as the speaker's message: docs/WIRE.md, and of a reflected route docs/REFLECT.md."""
    kind, *about = word
    if kind == "open":
        own = world.topology.nodes[speaker].loopback.to_bytes(4, "big")
        type_, body = 1, struct.pack(">BHH", 4, world.topology.asn, 0) + own + b"\x08\2\6\1\4\0\1\0\x80"
    elif kind == "keepalive":
        type_, body = 4, b""
    else:
        attributes = announced(world, *about) if kind == "announce" else attribute(0x80, 15, b"\0\1\x80" + nlri(world, about[0], b"\x80\0\0"))
        type_, body = 2, struct.pack(">HH", 0, len(attributes)) + attributes
    return b"\xff" * 16 + struct.pack(">HB", 19 + len(body), type_) + body


def announced(world, about, route):
    """The attributes of an announcement; one that is reflected has ORIGINATOR_ID and CLUSTER_LIST, and keeps the edge's next hop and label."""
    site, attachment, targets, clusters = route
    edge = world.owner(about)
    hop = world.topology.nodes[edge].loopback.to_bytes(4, "big")
    label = (world.site_label(edge, site, attachment) << 4 | 1).to_bytes(3, "big")
    passed_on = [attribute(0x80, 9, hop), attribute(0x80, 10, b"".join(one.to_bytes(4, "big") for one in clusters))] if clusters else []
    reach = b"\0\1\x80\x0c" + bytes(8) + hop + b"\0" + nlri(world, about, label)
    parts = [bytes.fromhex("40010100 400200 40050400000064"), *passed_on, attribute(0x80, 14, reach), attribute(0xC0, 16, b"".join(targets))]
    return b"".join(parts)


def nlri(world, about, label):
    vrf, (at, length) = about
    return bytes([88 + length]) + label + world.topology.vrfs[vrf].rd + at.to_bytes(4, "big")[: (length + 7) // 8]


def attribute(flags, type_, value):
    return bytes([flags, type_, len(value)]) + value


# The course of a script


def report_of(topology, script):
    """The lines that are put: what is refused and shown, in the script's order, then the total."""
    reflectors, commands = script
    world, lines, refused = Reflection(topology, reflectors), [], 0
    try:
        for line, (verb, *given) in commands:
            if verb == "drain":
                world.drain(*given)
            elif verb == "show vrf":
                lines += vrf_table(world, *given)
            elif refusal := world.do(verb, *given):
                lines.append(f"line {line} refused {refusal}")
                refused += 1
    except Spent:
        return [*lines, "too large steps"]
    return [*lines, f"total steps {world.steps} refused {refused} flying {len(world.flying)}"]
