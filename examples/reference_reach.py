"""Works out what `mplsnet reach` puts for any topology and file of failures, without the program.

It is a second telling of docs/REACH.md, told without the program's source: what is left under a failure, by which nodes
packets go over it, which routes a VRF holds, what becomes of each pair, the lines. Nothing is sent and nobody learns:
this is the network at rest. reference.py calls it; the inputs are read by reference_inputs.py and reference_failures.py.
"""

from dataclasses import replace

from reference_failures import RESOLVE, SETTINGS, failures_of
from reference_inputs import Refused, contains, is_unicast, prefix_text
from reference_routes import Route, eligible
from reference_walks import costs_to, first_hop

PAIRS, FIRST_HOST = 100_000, 0x01000001
PROFILE = "profile equal least edges one order least interior no resolve {} sync no control ordered bare avoid labels site sessions {}"


# Pairs


def takes_from(topology, vrf, other):
    """The VRF has the routes of the other: its own, or of one that exports a target which it imports."""
    return vrf == other or bool({*topology.vrfs[vrf].imports} & {*topology.vrfs[other].exports})


def address_in(of):
    """The first host of the prefix to which a packet may go, None where there is none; the network's own address is no host."""
    first = of[0] + (of[1] < 31)
    return next((at for at in (first, FIRST_HOST) if contains(of, at) and is_unicast(at)), None)


def pairs_of(topology):
    """Each site with each prefix that another site has and it hasn't, whose routes its VRF takes; and the address of it to which is sent."""
    found = {}
    for no, site in enumerate(topology.sites):
        for other_no, other in enumerate(topology.sites):
            if other_no != no and takes_from(topology, site.vrf, other.vrf):
                found |= {(no, of): address_in(of) for of in other.prefixes if of not in site.prefixes}
    return [(*pair, at) for pair, at in found.items() if at is not None]


# The network at rest


class AtRest:
    """The network at rest under a failure, which is its parts: every node has learned which links are up, and all is heard."""

    def __init__(self, topology, parts, sessions_end):
        self.topology, self.links, self.sessions_end = topology, topology.links, sessions_end
        self.failed = {failed for _, failed in parts}
        self.view = tuple(not self.has_failed(("link down", no), ("node down", link.a), ("node down", link.b)) for no, link in enumerate(self.links))
        self.costs, self.ways, self.routes = {}, {}, {}

    def has_failed(self, *some):
        return not self.failed.isdisjoint(some)

    def costs_to(self, to):
        if to not in self.costs:
            self.costs[to] = costs_to(self.links, len(self.topology.nodes), self.view, to)
        return self.costs[to]

    def way(self, node, to):
        """The nodes from one to another by next hops, None where none leads there or a link of the way has no LDP, and so no label."""
        if (node, to) not in self.ways:
            self.ways[node, to] = [node] if node == to else self.way_on(node, to)
        return self.ways[node, to]

    def way_on(self, node, to):
        hop = first_hop(self.links, self.topology.neighbours(node), self.view, self.costs_to(to), node)
        rest = hop and not self.has_failed(("ldp off", hop[1])) and self.way(hop[0], to)
        return [node, *rest] if rest else None

    def lives(self, one, other):
        """The session of two edges lives: it didn't fail, nor did it end where no links lead from edge to edge."""
        return not self.has_failed(("bgp down", *sorted((one, other)))) and not (self.sessions_end and one not in self.costs_to(other))

    def held(self, vrf):
        """The routes that the VRF holds."""
        if vrf not in self.routes:
            self.routes[vrf] = [Route(of, rank, self.topology.edge_of(no), no, 1) for no, rank in self.sites_of(vrf) for of in self.topology.sites[no].prefixes]
        return self.routes[vrf]

    def sites_of(self, vrf):
        """The sites whose routes it holds, and how much these are preferred."""
        edge = self.topology.vrfs[vrf].node
        for no, site in enumerate(self.topology.sites):
            other = self.topology.vrfs[site.vrf]
            if site.vrf == vrf:
                yield no, (0,)
            elif takes_from(self.topology, vrf, site.vrf) and other.node == edge:
                yield no, (1, site.vrf)
            elif takes_from(self.topology, vrf, site.vrf) and self.lives(edge, other.node):
                yield no, (2, self.topology.nodes[other.node].loopback, other.rd)

    def is_resolved(self, vrf, route):
        """Labels lead to the route's edge."""
        return self.way(self.topology.vrfs[vrf].node, route.edge) is not None

    def verdict(self, site, at, ttl):
        """What becomes of a packet from the site to the address."""
        names, vrf = [node.name for node in self.topology.nodes], self.topology.sites[site].vrf
        edge = self.topology.vrfs[vrf].node
        routes = eligible(self, vrf, [route for route in self.held(vrf) if contains(route.prefix, at)])
        if not routes:
            return f"dropped NoRoute at {names[edge]}"
        best = min(routes, key=lambda route: (-route.prefix[1], route.rank))
        way = self.way(edge, best.edge)
        if way is None:
            return f"dropped NoLsp at {names[edge]}"
        if ttl <= len(way):
            return f"dropped TtlExpired at {names[way[ttl - 1]]}"
        return f"delivered {self.topology.sites[best.site].name} ttl {ttl - len(way)} path {' '.join(names[node] for node in way)}"


def is_dropped(verdict):
    return verdict.startswith("dropped ")


# The lines


class Report:
    """The lines for what the file asks for so far, and what they say in all."""

    def __init__(self, topology):
        self.topology, self.pairs = topology, pairs_of(topology)
        if len(self.pairs) > PAIRS:
            raise Refused("too large pairs")
        self.ttl, self.counts, self.sessions_end, self.resolve = 64, False, False, "topology"
        self.lines, self.whole = [], None  # the verdicts without a failure, None until they are told as things are now
        self.failures = self.lost = self.moved = 0

    def set(self, verb, *given):
        """From here on; the pairs are told anew before what follows."""
        self.whole = None
        if verb == "ttl":
            self.ttl = given[0]
        elif verb in ("losses", "counts"):
            self.counts = verb == "counts"
        elif verb in RESOLVE:
            self.resolve = verb.split()[1]
        else:
            self.sessions_end = verb == "sessions end"

    def resolves(self):
        """The topology's key `resolve`, or what a line sets in its place."""
        return {"no": False, "label": True}.get(self.resolve, self.topology.resolve)

    def verdicts(self, parts):
        network = AtRest(replace(self.topology, resolve=self.resolves()), parts, self.sessions_end)
        return [network.verdict(site, at, self.ttl) for site, _, at in self.pairs]

    def named(self):
        return [f"{self.topology.sites[site].name} {prefix_text(of)}" for site, of, _ in self.pairs]

    def tell_pairs(self):
        """What becomes of each pair without a failure, where that isn't told yet."""
        if self.whole is None:
            self.whole = self.verdicts([])
            self.lines.append(PROFILE.format(self.resolve, "end" if self.sessions_end else "stay"))
            self.lines += [f"pair {name} {verdict}" for name, verdict in zip(self.named(), self.whole)]

    def tell(self, line, parts):
        """What a failure changes: lost is what was delivered and is dropped, moved what is delivered otherwise than it was."""
        self.failures += 1
        verdicts = zip(self.named(), self.whole, self.verdicts(parts))
        found = [(name, now) for name, was, now in verdicts if now != was and not (is_dropped(was) and is_dropped(now))]
        lost = sum(is_dropped(now) for _, now in found)
        self.lost, self.moved = self.lost + lost, self.moved + len(found) - lost
        count = f" lost {lost} part 0 moved {len(found) - lost}" if self.counts else ""
        self.lines.append(f"failure {self.failures} line {line} {', '.join(words for words, _ in parts)}{count}")
        for name, now in [] if self.counts else found:
            word = "lost" if is_dropped(now) else "moved"
            self.lines.append(f"{word} {self.failures} {name} {now.removeprefix('dropped ')}")

    def total(self):
        pairs = len(self.pairs)
        return f"total pairs {pairs} failures {self.failures} verdicts {pairs * self.failures} lost {self.lost} part 0 moved {self.moved}"


def report_of(topology, commands):
    """The lines that are put."""
    report = Report(topology)
    for line, (verb, *given) in commands:
        if verb in SETTINGS:
            report.set(verb, *given)
            continue
        report.tell_pairs()
        for parts in failures_of(topology, verb, *given):
            report.tell(line, parts)
    report.tell_pairs()
    return [*report.lines, report.total()]
