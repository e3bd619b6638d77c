#!/usr/bin/env python3
"""Works out what `mplsnet run` leaves and reports for any topology, script and capture, what `mplsnet flood` and `mplsnet
reflect` report for any topology and script, what `mplsnet reach` reports for any topology and file of failures, and what
`mplsnet join` leaves and reports for two joined networks, without the program.

It is a second telling of the rules of docs/FORMATS.md and docs/WIRE.md (texts, bytes) and docs/LEDGER.md (who says
what, and when), written from these and not from the program's source. It goes by the definitions and not by speed:
the best route is chosen from the whole list, what a neighbour mentioned last is looked up in all that it said, what
comes next in all that is in flight. The inputs are read by reference_inputs.py, messages and frames that come in their
place by reference_readers.py, a node's labels are in reference_labels.py; here are IPv4, the network and its steps, a
script's course, the bytes of frames, LDP and BGP, the report, the files. Flooding is in reference_flood.py, reflected
routes are in reference_reflect.py, what crosses from one network into another in reference_join.py, what failures cut in
reference_reach.py, a file of which is read by reference_failures.py.
"""

import argparse
import struct
import sys
from dataclasses import dataclass
from pathlib import Path

import reference_flood
import reference_join
import reference_reach
import reference_reflect
from reference_failures import read_failures
from reference_inputs import FLOOD_FORMS, ROUTES, TARGETS, Refused, address_text, contains, is_unicast, prefix_text
from reference_inputs import read_capture, read_reflect_script, read_script, read_topology, target_text
from reference_labels import Labels
from reference_readers import reads_bgp, reads_pdu, stack_of
from reference_routes import Route, eligible, vrf_table
from reference_walks import costs_to, first_hop, tree_lines

USAGE = """\
reference.py [--compare] TOPOLOGY SCRIPT CAPTURE FOLDER
       reference.py [--compare] flood|reflect TOPOLOGY SCRIPT FOLDER
       reference.py [--compare] reach TOPOLOGY [FAILURES] FOLDER
       reference.py [--compare] join TOPOLOGY1 TOPOLOGY2 JOINTS SCRIPT CAPTURE FOLDER"""
HELP = """\
Writes every file of the run and its report, as report.txt, into FOLDER, which is made where it isn't there; flood,
reflect and reach have report.txt alone, join that and delivered.pcap. With --compare nothing is written: the files of
FOLDER, report.txt among them, are compared with those that are due, and the first difference is told. A refused input
leaves report.txt alone, with the line of the refusal.

Not covered: the words of the command line, faults of reading and writing, want of memory; and of TOML what 1.1 has
beyond 1.0, the limit of 80 on nesting, numbers like 1e309, and a byte order mark. It is for small networks: a
thousand steps take a second or two, and a million hours.

status: 0 written, or nothing differs; 1 something differs, or a file can't be read or written; 2 wrong words
"""

LABELS, MESSAGES, PACKET_BYTES, STEPS = 1_048_560, 2_000_000, 268_435_456, 4_000_000


class JournalFull(Exception):
    """A step that nothing else refuses meets a full journal."""


# IPv4


def total_length(packet):
    return int.from_bytes(packet[2:4], "big")


def header_length(packet):
    return 4 * (packet[0] & 15)


def words_sum(header):
    """The one's complement sum of the header's words of 16 bits."""
    total = sum(struct.unpack(f">{len(header) // 2}H", header))
    while total >> 16:
        total = (total & 0xFFFF) + (total >> 16)
    return total


def fault_of(packet):
    """The first rule on its form that drops the packet, None where it is good."""
    if not packet or packet[0] >> 4 != 4:
        return "NotIpv4"
    if header_length(packet) < 20 or len(packet) >= 4 and total_length(packet) < header_length(packet):
        return "Malformed"
    if len(packet) < max(20, header_length(packet)) or len(packet) < total_length(packet):
        return "Truncated"
    if words_sum(packet[: header_length(packet)]) != 0xFFFF:
        return "BadChecksum"
    return None


def aged(packet, by):
    """The packet cut to its total length, with its TTL lowered and its checksum made anew."""
    end = header_length(packet)
    header = packet[:8] + bytes([packet[8] - by]) + packet[9:10] + b"\0\0" + packet[12:end]
    checksum = (0xFFFF - words_sum(header)).to_bytes(2, "big")
    return header[:10] + checksum + header[12:] + packet[end : total_length(packet)]


# The network


@dataclass
class Token:
    """A packet on its way to an attachment of a site at an edge; its label's TTL, at the push and now."""

    packet: int
    edge: int
    site: int
    attachment: int
    pushed: int
    ttl: int
    bytes: bytes


@dataclass
class Item:
    """What is in flight on a channel: (link, node) of a notice, (sender, receiver) of a message of BGP, and (link,
    sender) of a message of LDP or a frame; of a frame its token and its number among those sent in its direction."""

    number: int
    sent: int
    due: int
    kind: str
    channel: tuple
    token: Token = None
    nth: int = 0


@dataclass
class Packet:
    """An injected packet, with the text of its verdict."""

    line: int
    site: int
    record: int
    path: list
    verdict: str = ""


class Network:
    """The network as its steps have left it, and all that they made and wrote."""

    def __init__(self, topology):
        self.topology = topology
        self.links, self.nodes = topology.links, range(len(topology.nodes))
        self.edges = topology.edges()
        self.neighbours = [topology.neighbours(node) for node in self.nodes]
        self.tick, self.made, self.in_flight, self.journal = 0, 0, [], []

        self.changes = [0 for _ in self.links]
        self.learned = [[0 for _ in self.links] for _ in self.nodes]
        self.costs = {}  # the least costs by view and end

        ends = [(no, end) for no, link in enumerate(self.links) for end in (link.a, link.b)]
        self.ldp_on = [True for _ in self.links]
        self.said = {end: [] for end in ends}  # in the session's present life
        self.heard = dict.fromkeys(ends, 0)  # of what the other end said in it
        self.pdus = {end: b"" for end in ends}  # the bytes of all lives

        pairs = [(edge, peer) for edge in self.edges for peer in self.edges if edge != peer]
        self.has_bgp = dict.fromkeys(((a, b) for a, b in pairs if a < b), False)
        self.told = {pair: [] for pair in pairs}
        self.listened = dict.fromkeys(pairs, 0)
        self.messages = {pair: b"" for pair in pairs}

        self.imports = [set(vrf.imports) for vrf in topology.vrfs]
        self.exports = [set(vrf.exports) for vrf in topology.vrfs]
        self.statics = {(site.vrf, of): no for no, site in enumerate(topology.sites) for of in site.prefixes}
        self.attachment = [1 for _ in topology.sites]  # the present one, None where the site is detached
        self.attachments = [1 for _ in topology.sites]  # how many there were

        self.labels = [self.first_labels(node) for node in self.nodes]
        self.packets, self.deliveries = [], []
        self.frames = [[] for _ in self.links]  # all that were sent, each with its tick
        self.sent = dict.fromkeys(ends, 0)

    # Items

    def make(self, kind, channel, delay, token=None, nth=0):
        self.in_flight.append(Item(self.made, self.tick, self.tick + delay, kind, channel, token, nth))
        self.made += 1

    def on(self, kind, channel):
        """What is in flight on the channel, in order."""
        return [item for item in self.in_flight if item.kind == kind and item.channel == channel]

    def take(self, kind, channel, place=0):
        item = self.on(kind, channel)[place]
        self.in_flight.remove(item)
        return item

    # Views and least walks

    def costs_to(self, view, to):
        if (view, to) not in self.costs:
            self.costs[view, to] = costs_to(self.links, len(self.nodes), view, to)
        return self.costs[view, to]

    def view(self, node):
        """Which links are up for the node: those of which it has learned an odd number of changes."""
        return tuple(count % 2 for count in self.learned[node])

    def next_hop(self, node, to):
        """The neighbour of least number on a least walk to another node, and the link to it."""
        view = self.view(node)
        return first_hop(self.links, self.neighbours[node], view, self.costs_to(view, to), node)

    # LDP: a message is its kind and, of a mapping, a withdraw and a release, the node whose FEC it is, and its label

    def lives(self, link):
        return self.changes[link] % 2 == 1 and self.ldp_on[link]

    def is_active(self, link, end):
        loopbacks = [self.topology.nodes[node].loopback for node in (end, self.links[link].other(end))]
        return loopbacks[0] > loopbacks[1]

    def ldp_state(self, link, end):
        if not self.lives(link):
            return "none"
        first = "opensent" if self.is_active(link, end) else "initialized"
        return (first, "openrec", "operational")[min(self.heard[link, end], 2)]

    def operational(self, node):
        return {link for _, link in self.neighbours[node] if self.ldp_state(link, node) == "operational"}

    def usable_hop(self, node, to):
        """The next hop and the link to it, where the node can send: where the last mention that it heard there maps."""
        hop = self.next_hop(node, to)
        if hop is None or self.ldp_state(hop[1], node) != "operational":
            return None
        neighbour, link = hop
        heard = self.said[link, neighbour][: self.heard[link, node]]
        mentions = [kind for kind, fec, _ in heard if fec == to and kind != "release"]
        return hop if mentions and mentions[-1] == "mapping" else None

    def offers(self, node):
        return {to for to in self.nodes if to == node or self.usable_hop(node, to)}

    def say(self, link, end, kind, fec=None, label=None):
        self.said[link, end].append((kind, fec, label))
        self.pdus[link, end] += pdu(self, link, end, len(self.said[link, end]), kind, fec, label)
        self.make("ldp", (link, end), self.links[link].delay)

    def with_ldp_news(self, nodes, change):
        """Does the change. These nodes, whose knowledge it may change, then say what has become of their offers."""
        before = [(node, offered := self.offers(node), self.operational(node), self.free(node, offered)) for node in nodes]
        change()
        for node, offered, was_operational, free in before:
            offers, operational = self.offers(node), self.operational(node)
            self.labels[node].lay_to_rest(offered - offers, self.tick)
            self.labels[node].offer(offers - offered, free)
            for fec in self.nodes:
                for _, link in self.neighbours[node]:
                    was_told = fec in offered and link in was_operational
                    if link in operational and was_told != (fec in offers):
                        self.say(link, node, "mapping" if fec in offers else "withdraw", fec, self.fec_label(node, fec))

    def change_session(self, link, change):
        """Does a change by which the link's session may begin or end."""
        ends = [self.links[link].a, self.links[link].b]

        def change_and_begin_anew():
            lived, operational = self.lives(link), [end for end in ends if self.ldp_state(link, end) == "operational"]
            change()
            if self.lives(link) == lived:
                return
            for end in operational:
                self.labels[end].lay_to_rest(self.nodes, self.tick)
            for end in ends:
                self.said[link, end], self.heard[link, end] = [], 0
                self.in_flight = [item for item in self.in_flight if (item.kind, item.channel) != ("ldp", (link, end))]
            for end in ends:
                if self.lives(link) and self.is_active(link, end):
                    self.say(link, end, "initialization")

        self.with_ldp_news(ends, change_and_begin_anew)

    # BGP: a message is its kind, the VRF and prefix that it is about, and what is announced of them

    def pair(self, edge, peer):
        return min(edge, peer), max(edge, peer)

    def bgp_state(self, edge, peer):
        if not self.has_bgp[self.pair(edge, peer)]:
            return "idle"
        return ("opensent", "openconfirm", "established")[min(self.listened[edge, peer], 2)]

    def tell(self, edge, peer, kind, about=None, export=None):
        self.told[edge, peer].append((kind, about, export))
        self.messages[edge, peer] += bgp(self, edge, kind, about, export)
        self.make("bgp", (edge, peer), self.topology.bgp_delay)

    def exports_of(self, edge):
        """By VRF and prefix what the edge exports: the site, its attachment and the targets."""
        exports = {}
        for (vrf, of), site in sorted(self.statics.items()):
            is_exported = self.topology.vrfs[vrf].node == edge and self.exports[vrf]
            if is_exported and self.attachment[site] is not None:
                exports[vrf, of] = (site, self.attachment[site], sorted(self.exports[vrf]))
        return exports

    def with_bgp_news(self, edge, change):
        """Does the change. The edge then tells each peer what came, changed and went of its exports."""
        before = self.exports_of(edge)
        change()
        after = self.exports_of(edge)
        for about in sorted({*before, *after}):
            for peer in self.edges:
                is_news = before.get(about) != after.get(about)
                if is_news and peer != edge and self.bgp_state(edge, peer) == "established":
                    self.tell(edge, peer, "announce" if about in after else "withdraw", about, after.get(about))

    def believed(self, edge, peer):
        """By VRF and prefix what the edge has heard announced last, and not withdrawn."""
        exports = {}
        for kind, about, export in self.told[peer, edge][: self.listened[edge, peer]]:
            if kind == "announce":
                exports[about] = export
            elif kind == "withdraw":
                exports.pop(about, None)
        return exports

    def held(self, vrf):
        """The routes that the VRF holds."""
        edge = self.topology.vrfs[vrf].node
        routes = []
        for (of_vrf, of), site in self.statics.items():
            if of_vrf == vrf and self.attachment[site] is not None:
                routes.append(Route(of, (0,), edge, site, self.attachment[site]))
        offered = {other: self.believed(edge, other) for other in self.edges if other != edge}
        offered[edge] = {about: export for about, export in self.exports_of(edge).items() if about[0] != vrf}
        for other, exports in offered.items():
            for (of_vrf, of), (site, attachment, targets) in exports.items():
                far = (2, self.topology.nodes[other].loopback, self.topology.vrfs[of_vrf].rd)
                if self.imports[vrf] & {*targets}:
                    routes.append(Route(of, (1, of_vrf) if other == edge else far, other, site, attachment))
        return routes

    def is_resolved(self, vrf, route):
        """The VRF's edge can send towards that of the route."""
        return route.edge in self.offers(self.topology.vrfs[vrf].node)

    def best(self, vrf, at):
        routes = eligible(self, vrf, [route for route in self.held(vrf) if contains(route.prefix, at)])
        return min(routes, key=lambda route: (-route.prefix[1], route.rank), default=None)

    # Labels

    def first_labels(self, node):
        """Each site of the node has one, in order."""
        labels = Labels(max((self.links[link].life for _, link in self.neighbours[node]), default=0))
        for site in range(len(self.topology.sites)):
            if self.topology.edge_of(site) == node:
                labels.attach(site, 1)
        return labels

    def is_answered(self, node, fec):
        """Each withdraw of the FEC that the node said in a session that still lives has its release, which the node heard."""
        for neighbour, link in self.neighbours[node]:
            heard = self.said[link, neighbour][: self.heard[link, node]]
            withdraws = sum(one[:2] == ("withdraw", fec) for one in self.said[link, node])
            if withdraws != sum(one[:2] == ("release", fec) for one in heard):
                return False
        return True

    def free(self, node, offered):
        """The FECs whose labels are free: not offered, each withdraw answered, and no frame of that time can fly."""
        labels = self.labels[node]
        past = [fec for fec in labels.fecs if fec not in offered and labels.is_past(fec, self.tick)]
        return [fec for fec in past if self.is_answered(node, fec)]

    def fec_label(self, node, to):
        return 3 if node == to else self.labels[node].fecs[to]

    def site_label(self, edge, site, attachment):
        return self.labels[edge].attachments[site, attachment]

    def are_spent(self, node):
        """There is no label for one attachment more: each other node may want one."""
        return len(self.labels[node].attachments) + len(self.nodes) - 1 >= LABELS

    # Packets

    def enter(self, packet, bytes_):
        """The packet's fate at the edge of its site."""
        vrf = self.topology.sites[packet.site].vrf
        edge, fault = self.topology.vrfs[vrf].node, fault_of(bytes_)
        drop = f"at {self.topology.nodes[edge].name}"
        if self.attachment[packet.site] is None:
            return f"dropped SiteDown {drop}"
        if fault:
            return f"dropped {fault} {drop}"
        if bytes_[8] <= 1:
            return f"dropped TtlExpired {drop}"
        to = int.from_bytes(bytes_[16:20], "big")
        if not is_unicast(to):
            return f"dropped NotUnicast {drop}"
        route = self.best(vrf, to)
        if route is None:
            return f"dropped NoRoute {drop}"
        left = aged(bytes_, 1)
        if route.edge == edge:
            return self.deliver(route.site, left)
        number = len(self.packets) - 1
        return self.hop(Token(number, route.edge, route.site, route.attachment, left[8], left[8], left), edge, "NoLsp")

    def deliver(self, site, bytes_):
        self.deliveries.append((self.tick, bytes_))
        return f"delivered {self.topology.sites[site].name} ttl {bytes_[8]} copy {len(self.deliveries)}"

    def hop(self, token, node, rule):
        """The packet leaves the node towards its edge, or the rule drops it."""
        hop = self.usable_hop(node, token.edge)
        if hop is None:
            return f"dropped {rule} at {self.topology.nodes[node].name}"
        neighbour, link = hop
        self.frames[link].append((self.tick, frame(self, token, neighbour)))
        self.sent[link, node] += 1
        self.make("frame", (link, node), self.links[link].delay, token, self.sent[link, node])
        return f"flying {self.topology.nodes[node].name} {self.topology.nodes[neighbour].name}"

    def arrive(self, token, node):
        self.packets[token.packet].path.append(node)
        if token.ttl == 1:
            return f"dropped TtlExpired at {self.topology.nodes[node].name}"
        token.ttl -= 1
        if node != token.edge:
            return self.hop(token, node, "NoEntry")
        if self.attachment[token.site] != token.attachment:
            return f"dropped SiteGone at {self.topology.nodes[node].name}"
        return self.deliver(token.site, aged(token.bytes, token.pushed - token.ttl))

    # Steps

    def refusal(self, step, bytes_=b""):
        """Why the step is refused, the first cause in their order; None where it is done."""
        verb, *given = step
        if self.is_so(verb, given):
            return "Unchanged"
        if self.is_empty(verb, given):
            return "Empty"
        if verb in READERS and READERS[verb](bytes_):
            return "StillReads"
        if verb in ("route add", "route del"):
            site, of = given
            there = self.statics.get((self.topology.sites[site].vrf, of))
            if verb == "route add" and there is not None:
                return f"PrefixTaken {self.topology.sites[there].name}"
            if verb == "route del" and there != site:
                return "NoRouteThere"
        if verb == "route add" and len(self.statics) >= ROUTES:
            return "RoutesFull"
        if verb in ("import add", "export add") and len(self.targets(verb)[given[0]]) >= TARGETS:
            return "TargetsFull"
        if verb == "site up" and self.are_spent(self.topology.edge_of(given[0])):
            return "LabelsSpent"
        return "NetFull" if self.is_full(verb, bytes_) else None

    def targets(self, verb):
        return self.imports if verb.startswith("import") else self.exports

    def is_so(self, verb, given):
        """What the step asks for is so already."""
        thing, _, wanted = verb.partition(" ")
        if thing == "link":
            so = self.changes[given[0]] % 2 == 1
        elif thing == "ldp":
            so = self.ldp_on[given[0]]
        elif thing == "bgp":
            so = self.has_bgp[tuple(given)]
        elif thing == "site":
            so = self.attachment[given[0]] is not None
        elif thing in ("import", "export"):
            so = given[1] in self.targets(verb)[given[0]]
        else:
            return False
        return so == (wanted in ("up", "on", "add"))

    def is_empty(self, verb, given):
        """Nothing is there to be learned, heard, carried or lost."""
        if verb == "learn":
            node, link = given
            return self.learned[node][link] == self.changes[link]
        if verb in ("hear ldp", "damage ldp"):
            link, speaker = given[:2]
            return self.heard[link, self.links[link].other(speaker)] == len(self.said[link, speaker])
        if verb in ("hear bgp", "damage bgp"):
            teller, hearer = given[:2]
            return self.listened[hearer, teller] == len(self.told[teller, hearer])
        return verb in ("carry", "lose") and given[2] >= len(self.on("frame", (given[0], given[1])))

    def is_full(self, verb, bytes_):
        if verb in ("learn", "hear ldp", "hear bgp", "carry", "lose", "tick"):
            return False
        flying = [len(item.token.bytes) for item in self.in_flight if item.kind == "frame"]
        too_long = verb == "inject" and sum(flying) + len(bytes_) > PACKET_BYTES
        return len(self.in_flight) - len(flying) >= MESSAGES or too_long

    def do(self, step, line=0, bytes_=b""):
        """Does the step, or answers why it is refused."""
        refusal = self.refusal(step, bytes_)
        if refusal:
            return refusal
        if len(self.journal) >= STEPS:
            raise JournalFull
        self.journal.append((self.tick, step))
        verb, *given = step
        if verb == "inject":
            self.inject(line, *given, bytes_)
        else:
            getattr(self, METHODS.get(verb) or verb.replace(" ", "_"))(*given)
        return None

    def change_link(self, link):
        def change():
            self.changes[link] += 1
            for node in self.nodes:
                self.make("notice", (link, node), self.topology.notice_delay)
            for end in (self.links[link].a, self.links[link].b):
                for _ in self.on("frame", (link, end)):
                    self.end_frame("LinkCut", link, end, 0)

        self.change_session(link, change)

    def learn(self, node, link):
        def change():
            self.take("notice", (link, node))
            self.learned[node][link] += 1

        self.with_ldp_news([node], change)

    def change_ldp(self, link):
        def change():
            self.ldp_on[link] = not self.ldp_on[link]

        self.change_session(link, change)

    def hear_ldp(self, link, speaker):
        end = self.links[link].other(speaker)
        kind, fec, label = self.said[link, speaker][self.heard[link, end]]
        state = self.ldp_state(link, end)

        def change():
            self.take("ldp", (link, speaker))
            self.heard[link, end] += 1
            if kind == "initialization":
                if state == "initialized":
                    self.say(link, end, "initialization")
                self.say(link, end, "keepalive")
            elif kind == "keepalive" and state == "openrec":
                self.say(link, end, "address")
            elif kind == "withdraw":
                self.say(link, end, "release", fec, label)
            elif kind == "release":
                self.labels[end].lay_to_rest([fec], self.tick)

        self.with_ldp_news([end], change)

    def change_bgp(self, lesser, greater):
        self.has_bgp[lesser, greater] = not self.has_bgp[lesser, greater]
        for edge, peer in ((lesser, greater), (greater, lesser)):
            self.told[edge, peer], self.listened[edge, peer] = [], 0
            self.in_flight = [item for item in self.in_flight if (item.kind, item.channel) != ("bgp", (edge, peer))]
        if self.has_bgp[lesser, greater]:
            self.tell(lesser, greater, "open")
            self.tell(greater, lesser, "open")

    def hear_bgp(self, teller, hearer):
        kind, _, _ = self.told[teller, hearer][self.listened[hearer, teller]]
        state = self.bgp_state(hearer, teller)
        self.take("bgp", (teller, hearer))
        self.listened[hearer, teller] += 1
        if kind == "open":
            self.tell(hearer, teller, "keepalive")
        elif kind == "keepalive" and state == "openconfirm":
            for about, export in self.exports_of(hearer).items():
                self.tell(hearer, teller, "announce", about, export)

    def damage_ldp(self, link, speaker, record):
        """What came in place of the message can't be read: the session ends at both ends, and LDP is off on the link."""
        self.change_ldp(link)

    def damage_bgp(self, teller, hearer, record):
        """The session ends at both ends, and is down."""
        self.change_bgp(*self.pair(teller, hearer))

    def route_add(self, site, of):
        def change():
            self.statics[self.topology.sites[site].vrf, of] = site

        self.with_bgp_news(self.topology.edge_of(site), change)

    def route_del(self, site, of):
        def change():
            del self.statics[self.topology.sites[site].vrf, of]

        self.with_bgp_news(self.topology.edge_of(site), change)

    def change_import(self, vrf, of):
        self.imports[vrf] ^= {of}

    def change_export(self, vrf, of):
        def change():
            self.exports[vrf] ^= {of}

        self.with_bgp_news(self.topology.vrfs[vrf].node, change)

    def site_up(self, site):
        edge = self.topology.edge_of(site)

        def change():
            self.attachments[site] += 1
            self.attachment[site] = self.attachments[site]
            self.labels[edge].attach(site, self.attachment[site])

        self.with_bgp_news(edge, change)

    def site_down(self, site):
        def change():
            self.attachment[site] = None

        self.with_bgp_news(self.topology.edge_of(site), change)

    def inject(self, line, site, record, bytes_):
        packet = Packet(line, site, record, [self.topology.edge_of(site)])
        self.packets.append(packet)
        packet.verdict = self.enter(packet, bytes_)

    def carry(self, link, sender, place):
        token = self.take("frame", (link, sender), place).token
        self.packets[token.packet].verdict = self.arrive(token, self.links[link].other(sender))

    def lose(self, link, sender, place):
        self.end_frame("Lost", link, sender, place)

    def let_time_pass(self, ticks):
        """Nothing arrives; each frame that was sent on its link longer ago than the link's life ends."""
        self.tick += ticks
        for item in [item for item in self.in_flight if item.kind == "frame"]:
            link, sender = item.channel
            if self.tick - item.sent > self.links[link].life:
                self.end_frame("Overdue", link, sender, self.on("frame", item.channel).index(item))

    def end_frame(self, rule, link, sender, place):
        token = self.take("frame", (link, sender), place).token
        self.packets[token.packet].verdict = f"dropped {rule} at {self.topology.nodes[sender].name}"


READERS = {"damage ldp": reads_pdu, "damage bgp": reads_bgp}
METHODS = {
    "link up": "change_link",
    "link down": "change_link",
    "ldp on": "change_ldp",
    "ldp off": "change_ldp",
    "bgp up": "change_bgp",
    "bgp down": "change_bgp",
    "import add": "change_import",
    "import del": "change_import",
    "export add": "change_export",
    "export del": "change_export",
    "tick": "let_time_pass",
}


# A script's course


def least(network, kinds):
    """What is in flight of these kinds with the least due tick and, among these, the least number."""
    items = [item for item in network.in_flight if item.kind in kinds]
    return min(items, key=lambda item: (item.due, item.number), default=None)


def let_arrive(network, item):
    """Does the step by which the item arrives; a frame is lost where its link loses it."""
    place = network.on(item.kind, item.channel).index(item)
    if item.kind == "notice":
        link, node = item.channel
        network.do(("learn", node, link))
    elif item.kind == "frame":
        link, sender = item.channel
        loss = network.links[link].loss
        network.do(("lose" if loss and item.nth % loss == 0 else "carry", link, sender, place))
    else:
        network.do((f"hear {item.kind}", *item.channel))


def run(network, ticks):
    """Step by step."""
    end = network.tick + ticks
    while (item := least(network, ("notice", "ldp", "bgp", "frame"))) and item.due <= end:
        network.tick = max(network.tick, item.due)
        yield let_arrive(network, item)
    network.tick = end


def drain(network, bound):
    """Step by step."""
    while bound != 0:
        item = least(network, ("notice",)) or least(network, ("ldp", "bgp"))
        if item is None:
            break
        yield let_arrive(network, item)
        bound = bound and bound - 1


def flush(network):
    """Step by step."""
    while item := least(network, ("frame",)):
        network.tick = max(network.tick, item.due)
        yield let_arrive(network, item)


ARRIVALS = {"run": run, "drain": drain, "flush": flush}


def play(network, commands, packets, notes):
    """Runs the script; notes get the report's refused lines and tables. How many lines were refused."""
    refused = 0
    for line, (verb, *given) in commands:
        if verb in ARRIVALS:
            for _ in ARRIVALS[verb](network, *given):
                pass
        elif verb == "show frame":
            notes.append(frame_line(network, packets, *given))
        elif verb.startswith("show "):
            notes += TABLES_OF[verb](network, *given)
        else:
            record = given[-1] if verb == "inject" or verb in READERS else None
            if record and record > len(packets):
                refusal = "NoRecord"
            else:
                refusal = network.do((verb, *given), line, packets[record - 1] if record else b"")
            if refusal:
                notes.append(f"line {line} refused {refusal}")
                refused += 1
    return refused


# Bytes of frames, LDP and BGP


def entry(label, bottom, ttl):
    return struct.pack(">I", label << 12 | bottom << 8 | ttl)


def frame(network, token, to):
    """The frame that is sent to this node: towards another edge with its label on top, which its TTL then stands in."""
    label = network.site_label(token.edge, token.site, token.attachment)
    if to == token.edge:
        return entry(label, True, token.ttl) + token.bytes
    outer = entry(network.fec_label(to, token.edge), False, token.ttl)
    return outer + entry(label, True, token.pushed) + token.bytes


def tlv(kind, value):
    return struct.pack(">HH", kind, len(value)) + value


def pdu(network, link, end, id_, kind, fec, label):
    """The PDU with this message."""
    other = network.links[link].other(end)
    own, others = (network.topology.nodes[node].loopback.to_bytes(4, "big") for node in (end, other))
    if kind == "initialization":
        type_, tlvs = 0x0200, tlv(0x0500, struct.pack(">HHBBH", 1, 0x00B4, 0, 0, 0x1000) + others + b"\0\0")
    elif kind == "keepalive":
        type_, tlvs = 0x0201, b""
    elif kind == "address":
        type_, tlvs = 0x0300, tlv(0x0101, b"\0\1" + own)
    else:
        type_ = {"mapping": 0x0400, "withdraw": 0x0402, "release": 0x0403}[kind]
        element = b"\2\0\1\x20" + network.topology.nodes[fec].loopback.to_bytes(4, "big")
        tlvs = tlv(0x0100, element) + tlv(0x0200, label.to_bytes(4, "big"))
    message = struct.pack(">HHI", type_, 4 + len(tlvs), id_) + tlvs
    return struct.pack(">HH", 1, 6 + len(message)) + own + b"\0\0" + message


def bgp(network, edge, kind, about, export):
    loopback = network.topology.nodes[edge].loopback.to_bytes(4, "big")
    if kind == "open":
        type_, body = 1, struct.pack(">BHH", 4, network.topology.asn, 0) + loopback + b"\x08\2\6\1\4\0\1\0\x80"
    elif kind == "keepalive":
        type_, body = 4, b""
    elif kind == "announce":
        site, attachment, targets = export
        label = network.site_label(edge, site, attachment) << 4 | 1
        reach = b"\0\1\x80\x0c" + bytes(8) + loopback + b"\0" + nlri(network, about, label.to_bytes(3, "big"))
        attributes = bytes.fromhex("40010100 400200 40050400000064") + attribute(0x80, 14, reach)
        type_, body = 2, update(attributes + attribute(0xC0, 16, b"".join(targets)))
    else:
        type_, body = 2, update(attribute(0x80, 15, b"\0\1\x80" + nlri(network, about, b"\x80\0\0")))
    return b"\xff" * 16 + struct.pack(">HB", 19 + len(body), type_) + body


def nlri(network, about, label):
    vrf, (at, length) = about
    return bytes([88 + length]) + label + network.topology.vrfs[vrf].rd + at.to_bytes(4, "big")[: (length + 7) // 8]


def attribute(flags, type_, value):
    return bytes([flags, type_, len(value)]) + value


def update(attributes):
    return struct.pack(">HH", 0, len(attributes)) + attributes


def pcap(link_type, records):
    bytes_ = struct.pack("<IHHiIII", 0xA1B2C3D4, 2, 4, 0, 0, 0x40000, link_type)
    for tick, record in records:
        bytes_ += struct.pack("<4I", tick // 1000, tick % 1000 * 1000, len(record), len(record)) + record
    return bytes_


# The report


def links_table(network):
    names = [node.name for node in network.topology.nodes]
    return [
        f"link {names[link.a]} {names[link.b]} {('down', 'up')[count % 2]} cost {link.cost} changes {count}"
        for link, count in zip(network.links, network.changes)
    ]


def tree_table(network, node):
    names, ways = [node.name for node in network.topology.nodes], []
    for to in network.nodes:
        if to != node:
            hop = network.next_hop(node, to)
            ways.append((to, network.costs_to(network.view(node), to).get(node), hop and hop[0]))
    return [*tree_lines(names, node, ways)]


def ldp_table(network):
    names = [node.name for node in network.topology.nodes]
    return [
        f"ldp {names[link.a]} {network.ldp_state(no, link.a)} {names[link.b]} {network.ldp_state(no, link.b)}"
        for no, link in enumerate(network.links)
    ]


def bgp_table(network):
    names = [node.name for node in network.topology.nodes]
    return [
        f"bgp {names[a]} {network.bgp_state(a, b)} {names[b]} {network.bgp_state(b, a)}" for a, b in network.has_bgp
    ]


def flight_table(network):
    names = [node.name for node in network.topology.nodes]
    kinds = [item.kind for item in network.in_flight]
    lines = [f"notices {kinds.count('notice')}", f"messages {kinds.count('ldp') + kinds.count('bgp')}"]
    for no, link in enumerate(network.links):
        for end in (link.a, link.b):
            if frames := network.on("frame", (no, end)):
                lines.append(f"frames {names[end]} {names[link.other(end)]} {len(frames)}")
    return lines


def frame_line(network, packets, node, record):
    name = network.topology.nodes[node].name
    said = frame_said(network, node, packets[record - 1]) if record <= len(packets) else "unread NoRecord"
    return f"frame {name} {record} {said}"


def frame_said(network, node, bytes_):
    """What the node would do with the bytes, taken as a frame."""
    stack = stack_of(bytes_)
    if stack is None:
        return "unread Short" if len(bytes_) % 4 else "unread NoBottom"
    packet = bytes_[4 * len(stack) :]
    if fault_of(packet) or total_length(packet) != len(packet):
        return "unread BadPayload"
    if stack[0] & 0xFF <= 1:
        return "drop TtlExpired"
    label, ttl = stack[0] >> 12, (stack[0] & 0xFF) - 1
    kind, thing, *attachment = network.labels[node].means(label) or ("none", None)
    if kind == "site":
        return site_said(network, thing, attachment, len(stack), ttl, packet)
    hop = network.usable_hop(node, thing) if kind == "fec" else None
    return next_said(network, hop, thing, stack, ttl, packet)


def site_said(network, site, attachment, depth, ttl, packet):
    if [network.attachment[site]] != attachment:
        return "drop SiteGone"
    if depth > 1:
        return "drop NoEntry"
    left = aged(packet[:8] + bytes([ttl]) + packet[9:], 0)
    return f"site {network.topology.sites[site].name} bytes {left.hex().upper()}"


def next_said(network, hop, to, stack, ttl, packet):
    """To the neighbour with the label that it gave; one that is where the label leads gets the entry below."""
    label = hop and network.fec_label(hop[0], to)
    if hop is None or label == 3 and len(stack) == 1:
        return "drop NoEntry"
    left = stack[1:] if label == 3 else [label << 12 | stack[0] & 0xFFF, *stack[1:]]
    left[0] = left[0] & ~0xFF | ttl
    bytes_ = struct.pack(f">{len(left)}I", *left) + packet
    return f"next {network.topology.nodes[hop[0]].name} bytes {bytes_.hex().upper()}"


TABLES_OF = {
    "show links": links_table,
    "show tree": tree_table,
    "show ldp": ldp_table,
    "show bgp": bgp_table,
    "show vrf": vrf_table,
    "show flight": flight_table,
}


def packet_lines(network, refused):
    """A line for each packet, and the total."""
    for number, packet in enumerate(network.packets, 1):
        path = " ".join(network.topology.nodes[node].name for node in packet.path)
        site = network.topology.sites[packet.site].name
        yield f"packet {number} line {packet.line} site {site} record {packet.record} {packet.verdict} path {path}"
    ends = [packet.verdict.split()[0] for packet in network.packets]
    counts = " ".join(f"{end} {ends.count(end)}" for end in ("delivered", "dropped", "flying"))
    yield f"total packets {len(ends)} {counts} steps {len(network.journal)} refused {refused} tick {network.tick}"


# Files


def step_words(topology, step):
    """A step in the script's words."""
    verb, *given = step
    kinds = topology.nodes, topology.vrfs, topology.sites
    nodes, vrfs, sites = ([thing.name for thing in things] for things in kinds)
    if verb in ("link up", "link down", "ldp on", "ldp off", "learn"):
        link = topology.links[given.pop()]
        return [verb, *(nodes[node] for node in given), nodes[link.a], nodes[link.b]]
    if verb in ("hear ldp", "damage ldp", "carry", "lose"):
        link, sender, *place = given
        return [verb, nodes[sender], nodes[topology.links[link].other(sender)], *map(str, place)]
    if verb in ("bgp up", "bgp down", "hear bgp", "damage bgp"):
        return [verb, nodes[given[0]], nodes[given[1]], *map(str, given[2:])]
    if verb in ("route add", "route del"):
        return [verb, sites[given[0]], prefix_text(given[1])]
    if verb in ("import add", "import del", "export add", "export del"):
        return [verb, vrfs[given[0]], target_text(given[1])]
    if verb == "tick":
        return [verb, str(given[0])]
    return [verb, sites[given[0]], *map(str, given[1:])]


def label_lines(network):
    topology = network.topology
    for node in network.nodes:
        for label, (kind, thing, *attachment) in network.labels[node].given:
            if kind == "fec":
                what = f"fec {address_text(topology.nodes[thing].loopback)}/32"
            else:
                what = f"site {topology.sites[thing].name} {attachment[0]}"
            yield f"{topology.nodes[node].name} {label} {what}"


def text_of(lines):
    return "".join(f"{line}\n" for line in lines).encode("latin-1")


def files_of(network):
    """By name, in the order of writing, the bytes of each file."""
    names = [node.name for node in network.topology.nodes]
    ends = [f"{names[end]}+{names[network.links[link].other(end)]}" for link, end in network.pdus]
    journal = (" ".join([str(tick), *step_words(network.topology, step)]) for tick, step in network.journal)
    files = {"journal.txt": text_of(journal), "labels.txt": text_of(label_lines(network))}
    files["delivered.pcap"] = pcap(228, network.deliveries)
    for name, frames in zip(ends[::2], network.frames):
        files[f"{name}.pcap"] = pcap(9, [(tick, b"\x02\x81" + bytes_) for tick, bytes_ in frames])
    files |= {f"{name}.ldp": bytes_ for name, bytes_ in zip(ends, network.pdus.values())}
    return files | {f"{names[edge]}+{names[peer]}.bgp": bytes_ for (edge, peer), bytes_ in network.messages.items()}


def run_of(topology_bytes, script_bytes, capture_bytes):
    """The report and, by name, the files of a run; a refused input has a report alone."""
    try:
        topology = read_topology(topology_bytes)
        commands = read_script(topology, script_bytes)
        packets = read_capture(capture_bytes)
    except Refused as refused:
        return text_of([str(refused)]), {}
    network, report = Network(topology), []
    try:
        refused = play(network, commands, packets, report)
        report += packet_lines(network, refused)
    except JournalFull:
        report.append("too large steps")
    return text_of(report), files_of(network)


def flood_of(topology_bytes, script_bytes):
    """The report of `flood`, which has no files."""
    try:
        topology = read_topology(topology_bytes)
        return text_of(reference_flood.report_of(topology, read_script(topology, script_bytes, FLOOD_FORMS))), {}
    except Refused as refused:
        return text_of([str(refused)]), {}


def reflect_of(topology_bytes, script_bytes):
    """The report of `reflect`, which has no files."""
    try:
        topology = read_topology(topology_bytes)
        return text_of(reference_reflect.report_of(topology, read_reflect_script(topology, script_bytes))), {}
    except Refused as refused:
        return text_of([str(refused)]), {}


def reach_of(topology_bytes, failures_bytes=b""):
    """The report of `reach`, which has no files."""
    try:
        topology = read_topology(topology_bytes)
        return text_of(reference_reach.report_of(topology, read_failures(topology, failures_bytes))), {}
    except Refused as refused:
        return text_of([str(refused)]), {}


def read_second(bytes_):
    """The second topology of two."""
    try:
        return read_topology(bytes_)
    except Refused as refused:
        raise Refused(f"second {refused}" if str(refused).startswith("topology refused ") else str(refused)) from None


def join_of(first_bytes, second_bytes, joints_bytes, script_bytes, capture_bytes):
    """The report and, by name, the one file of `join`; a refused input has a report alone."""
    try:
        topologies = read_topology(first_bytes), read_second(second_bytes)
        joints = reference_join.read_joints(*topologies, joints_bytes)
        commands = reference_join.read_pair_script(topologies, script_bytes)
        packets = read_capture(capture_bytes)
    except Refused as refused:
        return text_of([str(refused)]), {}
    pair, report = reference_join.Pair([Network(topology) for topology in topologies], joints), []
    try:
        reference_join.play(pair, commands, packets, ARRIVALS, report)
        report += pair.lines()
    except JournalFull:
        report.append("too large steps")
    return text_of(report), {"delivered.pcap": pcap(228, pair.exits)}


COMMANDS = {"run": run_of, "flood": flood_of, "reflect": reflect_of, "reach": reach_of, "join": join_of}
INPUTS = {"run": 3, "flood": 2, "reflect": 2, "reach": 2, "join": 5}
LEAST = INPUTS | {"reach": 1}  # it may have no failures


# The command line


def first_unlike(due, found):
    """The first place at which two lists, or bytes, differ."""
    return next(at for at in range(len(due) + 1) if due[at : at + 1] != found[at : at + 1])


def difference(due, found):
    """The first difference between the files that are due and those found; None where there is none."""
    for name in sorted(due.keys() | found.keys()):
        if name not in found:
            return f"{name} isn't there"
        if name not in due:
            return f"{name} isn't a file of the run"
        if due[name] == found[name]:
            continue
        if not name.endswith(".txt"):
            at = first_unlike(due[name], found[name])
            parts = [bytes_[at : at + 8].hex() or "the end" for bytes_ in (due[name], found[name])]
            return f"{name} at byte {at}: due is {parts[0]}, found {parts[1]}"
        lines = [bytes_.decode("latin-1").split("\n") for bytes_ in (due[name], found[name])]
        at = first_unlike(*lines)
        parts = ["".join(some[at : at + 1]) or "no more" for some in lines]
        return f"{name} at line {at + 1}: due is\n  {parts[0]}\nfound\n  {parts[1]}"
    return None


def files_in(folder):
    return {path.name: path.read_bytes() for path in folder.iterdir() if path.is_file()}


def words_given():
    """The command, its inputs, the folder, and whether that is compared."""
    about = __doc__.split("\n\n")[0]
    how = argparse.RawDescriptionHelpFormatter
    form = argparse.ArgumentParser(usage=USAGE, description=about, epilog=HELP, formatter_class=how)
    form.add_argument("words", nargs="+", metavar="WORD", help="an input, a command before the first, or FOLDER")
    form.add_argument("--compare", action="store_true", help="compare FOLDER with what is due, and write nothing")
    given = form.parse_args()
    command = given.words.pop(0) if given.words[0] in COMMANDS and given.words[0] != "run" else "run"
    *inputs, folder = given.words or [""]
    if not LEAST[command] <= len(inputs) <= INPUTS[command]:
        form.error(f"{command} has {INPUTS[command]} inputs, and then FOLDER")
    return command, inputs, Path(folder), given.compare


def main():
    command, inputs, folder, is_compared = words_given()
    try:
        report, files = COMMANDS[command](*(Path(name).read_bytes() for name in inputs))
        files["report.txt"] = report
        if is_compared:
            differs = difference(files, files_in(folder))
            print(differs or f"{len(files)} files are as worked out here")
            return 1 if differs else 0
        folder.mkdir(parents=True, exist_ok=True)
        for name, bytes_ in files.items():
            (folder / name).write_bytes(bytes_)
    except OSError as error:
        print(f"reference.py: {error.filename}: {error.strerror}", file=sys.stderr)
        return 1
    return 0


if __name__ == "__main__":
    sys.exit(main())
