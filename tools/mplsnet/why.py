"""Why a packet was dropped: a chain of facts, each with the step since which it holds.

    from mplsnet.why import drops_of
    drops_of(run, report, net)[3].sentence     # of packet 3: 'LDP is off on p2-p1, 3 hops from pe11, since step 11554'

A fact is a kind and the names that it is about; `since` is the first step of the stretch without a break in which it
holds up to the drop, or None where it holds from the start. What is told last in a chain is the drop's cause.
"""

from collections import Counter
from dataclasses import dataclass, field

from mplsnet.files import Fault, passed
from mplsnet.knowledge import Knowledge, Net, address_text, contains, latest, prefix_text
from mplsnet.replay import Frames

FORM = {
    "NotIpv4": "the packet is empty, or its version isn't 4",
    "Malformed": "the packet's header is said to be shorter than 20 bytes, or longer than the packet is said to be",
    "Truncated": "bytes of the packet are missing",
    "BadChecksum": "the checksum of the packet's header is wrong",
    "NotUnicast": "the packet's destination is no address of one host",
}
UNKNOWN = object()


@dataclass(frozen=True)
class Fact:
    """What holds as the packet is dropped. The kinds and what they name stand in `WORDS`."""

    kind: str
    names: tuple
    since: int | None = None
    is_dated: bool = True  # `since` is known; where it is None the fact holds from the start
    cause: str = ""  # words behind the step

    def words(self):
        return WORDS[self.kind](*self.names)


def state_words(protocol, end, other, state):
    if state in ("none", "idle"):
        return f"there is no {protocol} session between {end} and {other}"
    return f"the {protocol} session of {end} and {other} isn't up: at {end} it is {state}"


WORDS = {
    "detached": lambda site: f"site {site} is detached",
    "form": lambda rule: FORM[rule],
    "ttl at entry": lambda: "the packet comes with a TTL of 0 or 1",
    "ttl spent": lambda ttl, nodes: f"the packet's TTL of {ttl} is spent: its path has {nodes} nodes",
    "went round": lambda nodes, times: f"the packet went round by {' and '.join(nodes)}, {times} times at {nodes[0]}, until its TTL was spent",
    "no prefix": lambda to: f"no site has a route that contains {to}",
    "prefix removed": lambda prefix, site: f"site {site} has its route {prefix} no more",
    "address unknown": lambda: "the packet's address isn't known here: its capture is needed",
    "no common target": lambda vrf, others: f"VRF {vrf} imports no target of {' and '.join(others)}",
    "no session": lambda edge, peer: f"there is no BGP session between {edge} and {peer}",
    "bgp state": lambda edge, peer, state: state_words("BGP", edge, peer, state),
    "untold": lambda peer, edge, prefix: f"{peer}'s announcement of {prefix} is on its way to {edge}",
    "route": lambda prefix, site, edge: f"route: {prefix} of site {site} at {edge}",
    "hop": lambda node, to, near: f"{node}'s next hop to {to} is {near}",
    "no walk": lambda node, to: f"{node} sees no walk to {to}",
    "unlearned": lambda node, link: f"{node} hasn't learned of the last change of {link}",
    "link down": lambda link: f"link {link} is down",
    "links down": lambda links: f"links {' and '.join(links[:3])}{f' and {len(links) - 3} more' if len(links) > 3 else ''} are down",
    "down unlearned": lambda link, node: f"link {link} is down, of which {node} hasn't learned",
    "ldp off": lambda link: f"LDP is off on {link}",
    "ldp state": lambda end, other, state: state_words("LDP", end, other, state),
    "no mapping": lambda node, to, near: f"{node} has heard no Mapping of {to} from {near}",
    "withdrawn": lambda node, to, near: f"{node} has heard {near}'s Withdraw of {to}",
    "on its way": lambda near, node, to: f"{near}'s Mapping of {to} is on its way to {node}",
    "each waits": lambda nodes, to: f"each of {' and '.join(nodes)} waits for the other's Mapping of {to}",
    "attachment ended": lambda site, number: f"attachment {number} of site {site}, for which the packet's label was given, has ended",
    "pushed unheard": lambda edge: f"{edge} sent the packet before it heard of that",
    "ended in flight": lambda: "it ended while the packet flew",
    "lost by link": lambda link, loss, nth: f"link {link} loses each frame in a direction whose number is a multiple of {loss}, and this is number {nth}",
    "lost by line": lambda: "a line of the script loses the frame",
    "cut": lambda link: f"link {link} went down under the frame",
    "sent": lambda link, tick: f"the frame flies on {link}, where it was sent at tick {tick}",
    "overdue": lambda link, life, sent, tick: f"at tick {tick} a frame that was sent at tick {sent} is past {link}'s life of {life}",
}


# Label paths.


def path_facts(known, node, to, dated=True):
    """Why the node has no label path to the other one: facts from hop to hop, the last of them the cause."""
    facts, passed = [], []
    name = known.net.nodes

    def say(kind, *names, since=UNKNOWN):
        facts.append(Fact(kind, names, None if since is UNKNOWN else since, since is not UNKNOWN))

    while True:
        passed.append(node)
        near = known.next_hop(node, to)
        if near is None:
            since = known.since_view(node, lambda view: known.next_hop(node, to, view) is None)[0] if dated else UNKNOWN
            say("no walk", name[node], name[to], since=since)
            tell_unlearned(known, node, to, say)
            return facts
        say("hop", name[node], name[to], name[near], since=known.since_hop(node, to)[0] if dated else UNKNOWN)
        if known.ldp_state(node, near) != "operational":
            tell_session(known, node, near, say)
            return facts
        bound = known.binding(node, near, to)
        since = latest(known.ends[node, near].since, bound[1] if bound else None)
        if bound and bound[0]:
            raise Fault(f"{known.net.path}: {name[node]} has a label path to {name[to]}, and the report says that it has none: another run's files?")
        say("withdrawn" if bound else "no mapping", name[node], name[to], name[near], since=since)
        if known.ldp_state(near, node) != "operational":
            say("ldp state", name[near], name[node], known.ldp_state(near, node), since=known.ends[near, node].since)
            return facts
        if known.offers(near, to):
            since = latest(known.since_offer(near, to), known.ends[near, node].since) if dated else UNKNOWN
            say("on its way", name[near], name[node], name[to], since=since)
            return facts
        if near in passed:
            say("each waits", tuple(name[one] for one in passed[passed.index(near) :]), name[to])
            return facts
        node = near


def tell_session(known, node, near, say):
    """Why the session at the node's end isn't operational."""
    link, name = known.net.link_of[node, near], known.net.nodes
    if not known.up >> link & 1:
        say("down unlearned", known.net.link_name(link), name[node], since=known.up_since[link])
    elif not known.on >> link & 1:
        say("ldp off", known.net.link_name(link), since=known.on_since[link])
    else:
        say("ldp state", name[node], name[near], known.ldp_state(node, near), since=known.ends[node, near].since)


def tell_unlearned(known, node, to, say):
    """Where links that are up lead on: which of their changes the node hasn't learned; and else which links are down."""
    if known.next_hop(node, to, known.up) is not None:
        for link in sorted(known.unlearned[node]):
            if (known.views[node] ^ known.up) >> link & 1:
                say("unlearned", known.net.nodes[node], known.net.link_name(link))
        return
    # The links between what the node reaches and the rest are all down, since the last of them went down.
    reached = {node, *(other for other in range(len(known.net.nodes)) if other != node and known.next_hop(node, other, known.up) is not None)}
    cut = [at for at, (a, b, _) in enumerate(known.net.links) if (a in reached) != (b in reached)]
    if cut:
        names = tuple(map(known.net.link_name, cut))
        say("links down" if len(cut) > 1 else "link down", names if len(cut) > 1 else names[0], since=latest(*(known.up_since[link] for link in cut)))


# Routes.


def route_facts(known, vrf, address):
    """Why the VRF holds no route that contains the address: of each VRF that has one, the first reason; the most telling one last."""
    net, facts, apart = known.net, [], []
    edge = net.vrfs[vrf].node
    for (other, of), (site, _) in known.statics.items():
        if not contains(of, address):
            continue
        if other != vrf and not known.targets["import"][vrf] & known.targets["export"][other]:
            apart.append(other)
        elif known.attachment[site] is None:
            facts.append(Fact("detached", (net.sites[site],), known.attached_since[site]))
        elif net.vrfs[other].node == edge:
            raise Fault(f"{net.path}: VRF {net.vrfs[vrf].name} holds {prefix_text(of)}, and the report says that it doesn't: another run's files?")
        else:
            facts.append(unheard(known, edge, net.vrfs[other].node, other, of))
    if apart:
        since = latest(*(known.sharing_since(vrf, other) for other in apart))
        names = (net.vrfs[vrf].name, tuple(net.vrfs[other].name for other in dict.fromkeys(apart)))
        facts.insert(0, Fact("no common target", names, since, len({*apart}) == 1))
    if not facts:
        gone = [(step, of, site) for (_, of), (site, step) in known.removed.items() if contains(of, address)]
        facts.append(Fact("no prefix", (address_text(address),), max(step for step, _, _ in gone) if gone else None))
        facts += [Fact("prefix removed", (prefix_text(of), net.sites[site]), step) for step, of, site in sorted(gone)[-1:]]
    return facts


def unheard(known, edge, peer, vrf, of):
    """Why the edge hasn't a route that the peer exports."""
    name, pair = known.net.nodes, known.pair(edge, peer)
    if pair not in known.stand:
        return Fact("no session", (name[edge], name[peer]), known.sessions[pair])
    state, (_, since) = known.bgp_state(peer, edge), known.listened[peer, edge]
    if state != "established":
        return Fact("bgp state", (name[peer], name[edge], state), since)
    return Fact("untold", (name[peer], name[edge], prefix_text(of)), latest(since, known.exported_since(vrf, of)))


# Packets.


@dataclass
class Drop:
    """A drop: the packet's number, the step that dropped it, from 1, its rule, node and site, and the facts."""

    packet: int
    rule: str
    node: str
    site: str
    line: int
    path: list
    step: int
    tick: int
    to: str | None
    facts: list = field(default_factory=list)

    @property
    def cause(self):
        """The fact that the drop goes back to."""
        return self.facts[-1]

    @property
    def short(self):
        """What the cause says, and how far away it is."""
        return short(self.rule, self.node, self.facts)

    @property
    def sentence(self):
        return self.short + dated(self.cause)

    def told(self):
        """Lines that tell all of it."""
        to = f", to {self.to}" if self.to else ""
        lines = [f"packet {self.packet} (line {self.line}, site {self.site}{to}) dropped {self.rule} at {self.node}, path {' '.join(self.path)}; step {self.step}, tick {self.tick}"]
        for number, fact in enumerate(self.facts):
            lead = "" if fact.kind == "route" else "because " if number == 0 or self.facts[number - 1].kind == "route" else "and "
            lines.append(f"  {lead}{fact.words()}{dated(fact)}")
        return lines


def short(rule, node, facts):
    """What the last of the facts says, and how far away it is from the node that drops."""
    hops = sum(fact.kind == "hop" for fact in facts)
    said = facts[-1].words()
    if rule not in ("NoLsp", "NoEntry") or facts[-1].kind == "each waits" or hops < 2:
        return said
    return f"{said}, {hops} hops from {node}"


def dated(fact):
    """Since when the fact holds."""
    if not fact.is_dated:
        return ""
    return ", from the start" if fact.since is None else f", since step {fact.since}{fact.cause}"


class Explainer:
    """Explains drops as a run's steps go by: `at` the step before which the packet was dropped or sent."""

    def __init__(self, net, attachments, ldp, bgp, dated=True):
        self.known = Knowledge(net, attachments, ldp, bgp, dated)
        self.net, self.dated = net, dated

    def entry(self, rule, site, address):
        """The facts of a packet that is dropped at its edge as it enters; the address is none where it isn't known."""
        known, at = self.known, self.net.site_number[site]
        if rule == "SiteDown":
            return [Fact("detached", (site,), known.attached_since[at])]
        if rule == "TtlExpired":
            return [Fact("ttl at entry", (), is_dated=False)]
        if rule in FORM:
            return [Fact("form", (rule,), is_dated=False)]
        vrf = self.net.vrf_of[at]
        if address is None:
            return self.without_address(rule, vrf)
        if rule == "NoRoute":
            return route_facts(known, vrf, address)
        route = known.best(vrf, address)
        if route is None:
            raise Fault(f"{self.net.path}: VRF {self.net.vrfs[vrf].name} holds no route to {address_text(address)}, and the report says that it does: another run's files?")
        told = Fact("route", (prefix_text(route.prefix), self.net.sites[route.site], self.net.nodes[route.edge]), route.since)
        return [told, *path_facts(known, self.net.vrfs[vrf].node, route.edge, self.dated)]

    def without_address(self, rule, vrf):
        """Where the address isn't known, one edge's routes may still be all that can have been meant."""
        edge = self.net.vrfs[vrf].node
        edges = {route.edge for route in self.known.held(vrf)} - {edge}
        cut = [other for other in edges if not self.known.offers(edge, other)]
        if rule == "NoLsp" and len(cut) == 1:
            return path_facts(self.known, edge, cut[0], self.dated)
        return [Fact("address unknown", (), is_dated=False)]

    def transit(self, node, edge):
        """The facts of a packet that comes to a node without a label path to its edge."""
        return path_facts(self.known, self.net.number[node], self.net.number[edge], self.dated)


def went_round(path):
    """The nodes of a loop at the end of a path; none where there is none."""
    last = path[-1]
    if path.count(last) < 2:
        return None
    before = len(path) - 2 - path[-2::-1].index(last)
    nodes = path[before:-1]
    return tuple(nodes), path.count(nodes[0])


def packet_address(packet):
    """The destination of a packet's bytes; none where they have none."""
    return int.from_bytes(packet[16:20], "big") if len(packet) >= 20 else None


def drops_of(run, report, net, records=None, lines=None, only=None):
    """Of each dropped packet's number its Drop, in one pass over the run's steps.

    run: of mplsnet.files.read_run; report: lines and ways of its read_report; net: a topology's tables of its
    read_topology, or a Net; records: the packets of the capture, where it is at hand, for the addresses of packets that
    never left their edge; lines: of each step the script's line, as script_lines of mplsnet.script gives them; only:
    numbers of packets, else all.
    """
    net = net if isinstance(net, Net) else Net("the topology", net)
    ways = report[1]
    moves = Frames(run, ways, net.lives).found()
    sent, ended, addresses = {}, {}, {}
    for move in moves:
        if move.words[0] == "inject":
            sent[move.packet] = move
        if move.sent:
            addresses.setdefault(move.sent.packet, packet_address(move.sent.frame.packet))
        for number in [flight.packet for flight in move.took] if move.took and move.end else [move.packet] if move.end else []:
            ended[number] = move
    wanted = {}
    for number, way in enumerate(ways, 1):
        if way.end == "dropped" and (only is None or number in only):
            wanted.setdefault(ended[number].step, []).append(number)
    if not wanted:
        return {}
    told = Told(run, ways, net, moves, sent, ended, addresses, records, lines)
    told.line_of = [int(line.split()[3]) for line in report[0] if line.startswith("packet ")]
    return told.all(wanted)


class Told:
    """Tells the drops of a run, step by step."""

    def __init__(self, run, ways, net, moves, sent, ended, addresses, records, lines):
        self.run, self.ways, self.net, self.sent, self.ended = run, ways, net, sent, ended
        self.addresses, self.records, self.lines = addresses, records, lines
        self.by_record = {}
        for number, address in addresses.items():
            self.by_record.setdefault(int(sent[number].words[2]), address)
        self.explainer = Explainer(net, run.attachments, run.ldp, run.bgp)
        counts, self.nth = Counter(), {}  # of each frame its number among those sent in its direction
        self.sent_by = {move.sent: move.step + 1 for move in moves if move.sent}
        for move in moves:
            if move.sent:
                counts[move.sent.sender, move.sent.receiver] += 1
                self.nth[move.sent] = counts[move.sent.sender, move.sent.receiver]
        self.detached = {}
        for step, (_, words) in enumerate(run.steps, 1):
            if words[:2] == ("site", "down"):
                self.detached.setdefault(words[2], []).append(step)

    def all(self, wanted):
        found, known = {}, self.explainer.known
        for step, (tick, words) in enumerate(self.run.steps):
            for number in wanted.get(step, ()):
                found[number] = self.drop(number, step, tick)
            known.do(words)
            if len(found) == sum(map(len, wanted.values())):
                break
        for drop in found.values():
            drop.facts = [self.with_cause(fact) for fact in drop.facts]
        return dict(sorted(found.items()))

    def with_cause(self, fact):
        """The fact with the words of the step since which it holds."""
        if fact.since is None or not fact.is_dated:
            return fact
        said = " ".join(self.run.steps[fact.since - 1][1])
        line = self.lines[fact.since - 1] if self.lines else None
        if line is None:
            cause = f" ({said})"
        else:
            number, text = line
            cause = f" (line {number}: {said})" if text == said else f" ({said}; line {number}: {text})"
        return Fact(fact.kind, fact.names, fact.since, True, cause)

    def address(self, number):
        """The packet's destination; none where it isn't known."""
        record = int(self.sent[number].words[2])
        if self.addresses.get(number) is not None:
            return self.addresses[number]
        if self.records is not None and record <= len(self.records):
            return packet_address(self.records[record - 1])
        return self.by_record.get(record)

    def drop(self, number, step, tick):
        way, sent, move = self.ways[number - 1], self.sent[number], self.ended[number]
        rule, node = way.words
        address = self.address(number)
        to = address_text(address) if address is not None and rule not in FORM else None
        drop = Drop(number, rule, node, way.site, self.line_of[number - 1], way.nodes, step + 1, tick, to)
        flight = next((one for one in move.took if one.packet == number), None)
        if flight is None:
            drop.facts = self.explainer.entry(rule, way.site, address)
        elif rule == "NoEntry":
            drop.facts = self.explainer.transit(node, flight.edge)
        elif rule == "TtlExpired":
            drop.facts = self.spent(way, flight)
        elif rule == "SiteGone":
            drop.facts = self.gone(flight, sent)
        elif rule == "Overdue":
            drop.facts = self.overdue(flight, move)
        elif rule == "LinkCut":
            drop.facts = [Fact("cut", (f"{move.words[2]}-{move.words[3]}",), step + 1)]
        else:
            drop.facts = [self.lost(flight, step)]
        return drop

    def spent(self, way, flight):
        round_ = went_round(way.nodes)
        if round_ is None:
            return [Fact("ttl spent", (len(way.nodes), len(way.nodes)), is_dated=False)]
        nodes, times = round_
        known, number, facts = self.explainer.known, self.net.number, [Fact("went round", (nodes, times), is_dated=False)]
        edge = number[flight.edge]
        for node, near in zip(nodes, (*nodes[1:], nodes[0])):
            if known.next_hop(number[node], edge) == number[near]:
                facts.append(Fact("hop", (node, flight.edge, near), known.since_hop(number[node], edge)[0]))
        return [*facts[1:], facts[0]]

    def gone(self, flight, sent):
        """The label's attachment ended before the packet was sent, and its edge hadn't heard, or while it flew."""
        site, attachment = self.run.attachments[flight.edge][flight.frame.stack[-1].label]
        ended = self.detached[site][attachment - 1]
        fact = Fact("attachment ended", (site, attachment), ended)
        sender = self.run.node_of[sent.words[1]]
        return [Fact("pushed unheard", (sender,), is_dated=False) if ended <= sent.step else Fact("ended in flight", (), is_dated=False), fact]

    def overdue(self, flight, move):
        """When the frame was sent, and by which step it was on its link for too long."""
        link = self.net.link_of[self.net.number[flight.sender], self.net.number[flight.receiver]]
        name, life = self.net.link_name(link), self.net.lives[tuple(self.net.nodes[end] for end in self.net.links[link][:2])]
        sent, now = flight.frame.tick, move.tick + passed(move.words)
        return [Fact("sent", (name, sent), self.sent_by[flight]), Fact("overdue", (name, life, sent, now), move.step + 1)]

    def lost(self, flight, step):
        link = self.net.link_of[self.net.number[flight.sender], self.net.number[flight.receiver]]
        loss = self.net.losses[link]
        is_by_link = bool(loss) and self.nth[flight] % loss == 0
        if self.lines:
            is_by_link = self.lines[step][1].split()[0] != "lose"
        if not is_by_link:
            return Fact("lost by line", (), step + 1)
        return Fact("lost by link", (self.net.link_name(link), loss, self.nth[flight]), is_dated=False)
