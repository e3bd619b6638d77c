"""What nodes know after each step of a run: links, views, sessions, bindings and routes, each with its last change.

Nothing of the protocols is done anew. A step of the journal says what it switches, learns or hears; what is heard is
the next message of the stream of its session. Least walks are computed where they are asked for, over a node's view.
docs/FORMATS.md has the rules of a packet, docs/LEDGER.md what nodes say and when.
"""

from dataclasses import dataclass, field
from heapq import heappop, heappush

from mplsnet.files import Fault, done_by, lives_of
from mplsnet.words import NO_SESSION, attributes, state_of

INITIALIZATION, KEEPALIVE, ADDRESS, MAPPING, WITHDRAW, RELEASE = 0x0200, 0x0201, 0x0300, 0x0400, 0x0402, 0x0403
START = None  # the step of what is so from the start


# The topology, by numbers.


@dataclass
class Vrf:
    name: str
    node: int
    rd: bytes
    imports: frozenset
    exports: frozenset


class Net:
    """A topology that breaks no rule, by numbers: nodes, links, VRFs and sites in its order."""

    def __init__(self, path, tables):
        self.path = path
        self.nodes = [node["name"] for node in tables["node"]]
        self.number = {name: at for at, name in enumerate(self.nodes)}
        self.loopbacks = [bytes(map(int, node["loopback"].split("."))) for node in tables["node"]]
        self.by_loopback = {address: at for at, address in enumerate(self.loopbacks)}
        self.links = [(self.number[link["a"]], self.number[link["b"]], link.get("cost", 10)) for link in tables["link"]]
        self.losses = [link.get("loss", 0) for link in tables["link"]]
        self.lives = lives_of(tables)  # by their ends
        self.link_of, self.neighbours = {}, [[] for _ in self.nodes]
        for at, (a, b, _) in enumerate(self.links):
            self.link_of[a, b] = self.link_of[b, a] = at
            self.neighbours[a].append((b, at))
            self.neighbours[b].append((a, at))
        for ends in self.neighbours:
            ends.sort()
        self.vrfs = [self.vrf(vrf) for vrf in tables["vrf"]]
        self.vrf_of_rd = {vrf.rd: at for at, vrf in enumerate(self.vrfs)}
        vrfs = {vrf.name: at for at, vrf in enumerate(self.vrfs)}
        self.vrf_number = vrfs
        self.sites = [site["name"] for site in tables["site"]]
        self.site_number = {name: at for at, name in enumerate(self.sites)}
        self.vrf_of = [vrfs[site["vrf"]] for site in tables["site"]]
        self.prefixes = [[prefix_of(text) for text in site.get("prefixes", [])] for site in tables["site"]]
        self.edges = sorted({vrf.node for vrf in self.vrfs})
        self.resolve = tables.get("resolve", False)  # routes to whose edge no label path leads stand aside
        self.trees = {}  # of (node, view), as long as there aren't too many

    def vrf(self, table):
        targets = [frozenset(table.get(key, [])) for key in ("import", "export")]
        return Vrf(table["name"], self.number[table["node"]], distinguisher(table["rd"]), *targets)

    def takes(self, vrf, other):
        """Whether a VRF has imported the other's routes once they have come: its own, and those that carry a target that it imports."""
        return other == vrf or bool(self.vrfs[vrf].imports & self.vrfs[other].exports)

    def rank(self, vrf, other):
        """By what a VRF prefers the other's routes of one prefix, the least first (docs/LEDGER.md): its own, another's of its edge, another edge's."""
        if other == vrf:
            return (0,)
        theirs = self.vrfs[other]
        return (1, other) if theirs.node == self.vrfs[vrf].node else (2, self.loopbacks[theirs.node], theirs.rd)

    def link_name(self, link):
        return "-".join(self.nodes[end] for end in self.links[link][:2])

    def edge_of(self, site):
        return self.vrfs[self.vrf_of[site]].node


def prefix_of(text):
    """A prefix as its address and its length."""
    address, slash, length = text.partition("/")
    numbers = bytes(int(part) for part in address.split("."))
    if not slash or len(numbers) != 4 or not 0 <= int(length) <= 32:
        raise ValueError(text)
    return int.from_bytes(numbers, "big"), int(length)


def prefix_text(of):
    return f"{address_text(of[0])}/{of[1]}"


def address_text(number):
    return ".".join(map(str, number.to_bytes(4, "big")))


def contains(of, address):
    return of[0] >> 32 - of[1] == address >> 32 - of[1]


def distinguisher(text):
    """The eight bytes of AS:N or ADDRESS:N."""
    first, _, last = text.partition(":")
    if "." in first:
        return b"\0\1" + bytes(map(int, first.split("."))) + int(last).to_bytes(2, "big")
    return b"\0\0" + int(first).to_bytes(2, "big") + int(last).to_bytes(4, "big")


def target_text(data):
    """A target of eight bytes as text (RFC 4360, sections 3.1 and 3.2)."""
    if data[0] == 1:
        return f"{'.'.join(map(str, data[2:6]))}:{int.from_bytes(data[6:], 'big')}"
    return f"{int.from_bytes(data[2:4], 'big')}:{int.from_bytes(data[4:], 'big')}"


# What nodes keep.


@dataclass
class End:
    """An end of an LDP session, in one life of it; its bindings are what it heard last of each FEC."""

    alive: bool = False
    heard: int = 0
    since: int | None = START  # of its state
    bindings: dict = field(default_factory=dict)  # of a FEC: (is a Mapping, step)
    life: int | None = None  # of the messages that it hears


@dataclass(frozen=True)
class Route:
    """A route that a VRF holds; what it is preferred by stands in `rank`, the least first."""

    prefix: tuple
    rank: tuple
    edge: int
    vrf: int
    site: int
    attachment: int
    since: int | None  # the step at which it was heard, or came to be


@dataclass(frozen=True)
class Told:
    """What an edge has heard announced of a VRF's prefix."""

    site: int
    attachment: int
    targets: frozenset
    step: int


class NoLog:
    """A log that keeps nothing."""

    def append(self, entry):
        pass


class Knowledge:
    """The network as the steps so far have left it. `did` counts them; a step's number is from 1.

    Without logs it can't tell since when a next hop or an offer is as it is.
    """

    def __init__(self, net, attachments, ldp, bgp, logs=True):
        self.net, self.attached, self.did = net, attachments, 0
        self.up, self.on = 0, (1 << len(net.links)) - 1
        self.up_since, self.on_since = [START] * len(net.links), [START] * len(net.links)
        self.views, self.logs = [0] * len(net.nodes), [[] if logs else NoLog() for _ in net.nodes]
        self.unlearned = [{} for _ in net.nodes]  # of each link how many of its changes the node has yet to learn
        self.ends = {(node, near): End() for node, ends in enumerate(net.neighbours) for near, _ in ends}
        self.ldp = streams(net, ldp, "ldp")
        self.lives = dict.fromkeys(self.ldp, -1)
        self.bgp = streams(net, bgp, "bgp")
        self.bgp_lives = dict.fromkeys(self.bgp, -1)
        self.sessions = {(a, b): START for a in net.edges for b in net.edges if a < b}  # since when it is as it is
        self.stand = set()
        self.listened = {(a, b): (0, START) for a in net.edges for b in net.edges if a != b}  # of (edge, peer), and since when
        self.believed = {pair: {} for pair in self.listened}
        self.targets = {"import": [set(vrf.imports) for vrf in net.vrfs], "export": [set(vrf.exports) for vrf in net.vrfs]}
        self.target_log = {"import": [[] for _ in net.vrfs], "export": [[] for _ in net.vrfs]}
        self.statics = {(net.vrf_of[site], of): (site, START) for site, found in enumerate(net.prefixes) for of in found}
        self.removed = {}  # of (VRF, prefix) the site that had it last, and the step
        self.attachment = [1] * len(net.sites)
        self.attachments = [1] * len(net.sites)
        self.attached_since = [START] * len(net.sites)
        self.verbs = {
            ("link", "up"): self.link, ("link", "down"): self.link, ("ldp", "on"): self.switch, ("ldp", "off"): self.switch,
            ("hear", "ldp"): self.hear_ldp, ("hear", "bgp"): self.hear_bgp, ("bgp", "up"): self.bgp_up, ("bgp", "down"): self.bgp_down,
            ("route", "add"): self.route_add, ("route", "del"): self.route_del, ("import", "add"): self.target, ("import", "del"): self.target,
            ("export", "add"): self.target, ("export", "del"): self.target, ("site", "up"): self.site_up, ("site", "down"): self.site_down,
        }  # fmt: skip

    # Steps.

    def do(self, words):
        """Does the step that the words of the journal say."""
        self.did += 1
        words = done_by(words)
        kind = words[0]
        if kind in ("carry", "lose", "inject", "tick"):
            return
        try:
            if kind == "learn":
                self.learn(*(self.net.number[word] for word in words[1:]))
            else:
                self.verbs[kind, words[1]](words)
        except (KeyError, IndexError):
            raise Fault(f"{self.net.path}: doesn't fit the journal's step {self.did}, '{' '.join(words)}': another run's topology?")

    def link(self, words):
        a, b = self.net.number[words[2]], self.net.number[words[3]]
        link = self.net.link_of[a, b]
        self.up ^= 1 << link
        self.up_since[link] = self.did
        for pending in self.unlearned:
            pending[link] = pending.get(link, 0) + 1
        self.renew(link, a, b, words[1] == "up" and self.on >> link & 1, words[1] == "down" and self.on >> link & 1)

    def switch(self, words):
        a, b = self.net.number[words[2]], self.net.number[words[3]]
        link = self.net.link_of[a, b]
        self.on ^= 1 << link
        self.on_since[link] = self.did
        self.renew(link, a, b, words[1] == "on" and self.up >> link & 1, words[1] == "off" and self.up >> link & 1)

    def renew(self, link, a, b, begins, ends):
        """The session of the link begins or ends."""
        if not begins and not ends:
            return
        for node, near in ((a, b), (b, a)):
            self.logs[node].append((self.did, "life", near, self.ends[node, near]))
            self.ends[node, near] = End(bool(begins), 0, self.did)
            # The end of greater address says the first message; the other says none before it hears that one.
            if begins and self.net.loopbacks[near] > self.net.loopbacks[node]:
                self.lives[near, node] += 1
                self.ends[node, near].life = self.lives[near, node]

    def learn(self, node, a, b):
        link = self.net.link_of[a, b]
        self.views[node] ^= 1 << link
        self.logs[node].append((self.did, "view", link, None))
        self.unlearned[node][link] -= 1
        if not self.unlearned[node][link]:
            del self.unlearned[node][link]

    def hear_ldp(self, words):
        speaker, node = self.net.number[words[2]], self.net.number[words[3]]
        end = self.ends[node, speaker]
        if end.life is None:
            raise KeyError
        if end.heard == 0 and self.net.loopbacks[speaker] > self.net.loopbacks[node]:
            self.lives[node, speaker] += 1  # it answers with its own first message
            self.ends[speaker, node].life = self.lives[node, speaker]
        message = self.ldp[speaker, node][end.life][end.heard]
        end.heard += 1
        if end.heard <= 2:
            self.logs[node].append((self.did, "heard", speaker, end.since))
            end.since = self.did
        kind = int.from_bytes(message[10:12], "big") & 0x7FFF
        if kind in (MAPPING, WITHDRAW):
            fec = self.net.by_loopback[message[26:30]]
            self.logs[node].append((self.did, "binding", (speaker, fec), end.bindings.get(fec)))
            end.bindings[fec] = (kind == MAPPING, self.did)

    def hear_bgp(self, words):
        teller, edge = self.net.number[words[2]], self.net.number[words[3]]
        if self.pair(teller, edge) not in self.stand:
            raise KeyError
        count, since = self.listened[edge, teller]
        message = self.bgp[teller, edge][self.bgp_lives[teller, edge]][count]
        self.listened[edge, teller] = (count + 1, self.did if count < 2 else since)
        if message[18] != 2:
            return
        about, label, targets = update_of(self.net, message)
        if label is None:
            self.believed[edge, teller].pop(about, None)
            return
        site, attachment = self.attached[self.net.nodes[teller]][label]
        self.believed[edge, teller][about] = Told(self.net.site_number[site], attachment, targets, self.did)

    def pair(self, a, b):
        return (a, b) if a < b else (b, a)

    def bgp_up(self, words):
        self.bgp_change(words, True)

    def bgp_down(self, words):
        self.bgp_change(words, False)

    def bgp_change(self, words, is_up):
        a, b = self.net.number[words[2]], self.net.number[words[3]]
        self.sessions[self.pair(a, b)] = self.did
        (self.stand.add if is_up else self.stand.discard)(self.pair(a, b))
        for edge, peer in ((a, b), (b, a)):
            self.listened[edge, peer] = (0, self.did)
            self.believed[edge, peer] = {}
            self.bgp_lives[edge, peer] += is_up

    def route_add(self, words):
        site = self.net.site_number[words[2]]
        self.statics[self.net.vrf_of[site], prefix_of(words[3])] = (site, self.did)

    def route_del(self, words):
        site = self.net.site_number[words[2]]
        about = self.net.vrf_of[site], prefix_of(words[3])
        del self.statics[about]
        self.removed[about] = (site, self.did)

    def target(self, words):
        vrf = self.net.vrf_number[words[2]]
        self.targets[words[0]][vrf] ^= {words[3]}
        self.target_log[words[0]][vrf].append((self.did, words[3]))

    def site_up(self, words):
        site = self.net.site_number[words[2]]
        self.attachments[site] += 1
        self.attachment[site] = self.attachments[site]
        self.attached_since[site] = self.did

    def site_down(self, words):
        site = self.net.site_number[words[2]]
        self.attachment[site] = None
        self.attached_since[site] = self.did

    # Sessions.

    def is_active(self, node, near):
        return self.net.loopbacks[node] > self.net.loopbacks[near]

    def ldp_state(self, node, near, alive=None, heard=None):
        end = self.ends[node, near]
        alive, heard = (end.alive, end.heard) if alive is None else (alive, heard)
        return state_of("ldp", self.is_active(node, near), heard) if alive else NO_SESSION["ldp"]

    def bgp_state(self, edge, peer):
        if self.pair(edge, peer) not in self.stand:
            return NO_SESSION["bgp"]
        return state_of("bgp", True, self.listened[edge, peer][0])

    # Label paths.

    def next_hop(self, node, to, view=None):
        """The neighbour of least number on a least walk of the node's view; none where there is no walk."""
        return tree(self.net, node, self.views[node] if view is None else view)[1].get(to)

    def binding(self, node, near, fec):
        """What the node heard last from the neighbour of the FEC in the session's life: (is a Mapping, step), none where nothing."""
        return self.ends[node, near].bindings.get(fec)

    def usable_hop(self, node, to):
        """The next hop, where the node can send to it: where what it heard there last is a Mapping."""
        near = self.next_hop(node, to)
        if near is None or self.ldp_state(node, near) != "operational" or not (self.binding(node, near, to) or (False,))[0]:
            return None
        return near

    def offers(self, node, fec):
        return node == fec or self.usable_hop(node, fec) is not None

    def since_view(self, node, holds):
        """The step since which this holds of the node's view and the link whose change was learned then; it holds now."""
        view = self.views[node]
        for step, kind, link, _ in reversed(self.logs[node]):
            if kind == "view":
                view ^= 1 << link
                if not holds(view):
                    return step, link
        return START, None

    def since_hop(self, node, to):
        """Since when the next hop towards the other node is as it is, and by which link's change."""
        hop, view, last = self.next_hop(node, to), self.views[node], None
        for step, kind, link, _ in reversed(self.logs[node]):
            if kind != "view":
                continue
            matters = bears_on(self.net, node, view, link)
            view ^= 1 << link
            if matters and self.next_hop(node, to, view) != hop:
                return step, link
        return START, last

    def since_offer(self, node, fec):
        """Since when the node offers the FEC without a break; it offers it now."""
        if node == fec:
            return START
        view, ends = self.views[node], {near: [end.alive, end.heard] for (at, near), end in self.ends.items() if at == node}
        bound = {near: (self.binding(node, near, fec) or (False,))[0] for near in ends}
        for step, kind, what, old in reversed(self.logs[node]):
            if kind == "view":
                view ^= 1 << what
            elif kind == "life":
                ends[what] = [old.alive, old.heard]
                bound[what] = (old.bindings.get(fec) or (False,))[0]
            elif kind == "heard":
                ends[what][1] = min(ends[what][1], 2) - 1
            elif what[1] == fec:
                bound[what[0]] = (old or (False,))[0]
            else:
                continue
            near = self.next_hop(node, fec, view)
            if near is None or self.ldp_state(node, near, *ends[near]) != "operational" or not bound[near]:
                return step
        return START

    # Routes.

    def held(self, vrf, address=None):
        """The routes that the VRF holds, of those prefixes that contain the address."""
        net, edge = self.net, self.net.vrfs[vrf].node
        imports = self.targets["import"][vrf]
        for (of_vrf, of), (site, since) in self.statics.items():
            if self.attachment[site] is None or address is not None and not contains(of, address):
                continue
            since = latest(since, self.attached_since[site])
            if of_vrf == vrf:
                yield Route(of, net.rank(vrf, vrf), edge, of_vrf, site, self.attachment[site], since)
            elif net.vrfs[of_vrf].node == edge and imports & self.targets["export"][of_vrf]:
                yield Route(of, net.rank(vrf, of_vrf), edge, of_vrf, site, self.attachment[site], latest(since, self.sharing_since(vrf, of_vrf)))
        for peer in net.edges:
            for (of_vrf, of), told in self.believed[edge, peer].items() if peer != edge else ():
                if (address is None or contains(of, address)) and imports & told.targets:
                    since = latest(told.step, self.sharing_since(vrf, targets=told.targets))
                    yield Route(of, net.rank(vrf, of_vrf), peer, of_vrf, told.site, told.attachment, since)

    def best(self, vrf, address):
        """The best of the routes that take part: where the topology says `resolve`, the resolved ones, if there are any; else all."""
        routes, edge = list(self.held(vrf, address)), self.net.vrfs[vrf].node
        routes = self.net.resolve and [route for route in routes if self.offers(edge, route.edge)] or routes
        return min(routes, key=lambda route: (-route.prefix[1], route.rank), default=None)

    def exported(self, vrf, of):
        """What the VRF's edge exports of the prefix now: the site, its attachment and the targets; none where it doesn't."""
        site, _ = self.statics.get((vrf, of), (None, None))
        if site is None or self.attachment[site] is None or not self.targets["export"][vrf]:
            return None
        return site, self.attachment[site], frozenset(self.targets["export"][vrf])

    def exported_since(self, vrf, of):
        """Since when that is as it is."""
        site, since = self.statics[vrf, of]
        log = self.target_log["export"][vrf]
        return latest(since, self.attached_since[site], log[-1][0] if log else START)

    def sharing_since(self, vrf, other=None, targets=()):
        """Since when it is as it is now whether the VRF imports one of the targets, or of those that the other exports."""
        imports, exports = set(self.targets["import"][vrf]), set(targets if other is None else self.targets["export"][other])
        log = [(step, what, imports) for step, what in self.target_log["import"][vrf]]
        log += [(step, what, exports) for step, what in self.target_log["export"][other]] if other is not None else []
        shares = bool(imports & exports)
        for step, what, changed in sorted(log, key=lambda one: -one[0]):
            changed ^= {what}
            if bool(imports & exports) != shares:
                return step
        return START


def latest(*steps):
    """The last of some steps, any of which may be the start."""
    return max((step for step in steps if step is not START), default=START)


def streams(net, found, protocol):
    """The messages of each stream by numbers; those that the folder lacks are empty."""
    ends = [(a, b) for a, near in enumerate(net.neighbours) for b, _ in near] if protocol == "ldp" else [(a, b) for a in net.edges for b in net.edges if a != b]
    return {(a, b): found.get((net.nodes[a], net.nodes[b]), []) for a, b in ends}


def update_of(net, message):
    """An UPDATE: the VRF and prefix that it is about, and of an announcement its label and targets."""
    about, label, targets = None, None, frozenset()
    for kind, value in attributes(message[23:]):
        if kind in (14, 15):
            nlri = value[17:] if kind == 14 else value[3:]
            length = nlri[0] - 88
            about = net.vrf_of_rd[nlri[4:12]], (int.from_bytes(nlri[12:16].ljust(4, b"\0"), "big"), length)
            label = int.from_bytes(nlri[1:4], "big") >> 4 if kind == 14 else None
        elif kind == 16:
            targets = frozenset(target_text(value[at : at + 8]) for at in range(0, len(value), 8))
    return about, label, targets


# Least walks.


MOST_TREES = 20_000


def tree(net, root, view):
    """Of each other node that the view leads to: the least cost, and the neighbour of least number on a least walk."""
    found = net.trees.get((root, view))
    if found is None:
        if len(net.trees) >= MOST_TREES:
            net.trees.clear()
        found = net.trees[root, view] = grown(net, root, view)
    return found


def grown(net, root, view):
    """A tree by Dijkstra's algorithm; of walks of one cost the one whose first node has the least number."""
    costs, hops, done, heap = {root: 0}, {}, set(), [(0, root)]
    while heap:
        cost, node = heappop(heap)
        if node in done:
            continue
        done.add(node)
        for near, link in net.neighbours[node]:
            if not view >> link & 1:
                continue
            longer, hop = cost + net.links[link][2], near if node == root else hops[node]
            if near not in costs or longer < costs[near]:
                costs[near], hops[near] = longer, hop
                heappush(heap, (longer, near))
            elif longer == costs[near] and near != root:
                hops[near] = min(hops[near], hop)
    return costs, hops


def bears_on(net, node, view, link):
    """A change of the link in the view may change the node's tree: the link lies, or would lie, on a least walk."""
    a, b, cost = net.links[link]
    costs = tree(net, node, view)[0]
    if a not in costs or b not in costs:
        return a in costs or b in costs
    apart = abs(costs[a] - costs[b])
    return apart == cost if view >> link & 1 else apart >= cost
