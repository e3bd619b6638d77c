"""What nodes know of a network at rest under a failure, without a run: all is learned, and all is heard in the sessions that stand.

So it tells why a packet is dropped or goes astray in the words in which a run's knowledge does.
"""

from dataclasses import replace

from mplsnet.knowledge import START, Knowledge, Route, tree
from mplsnet.whatif import astray_reason, ended
from mplsnet.why import Explainer, short


class AtRest(Knowledge):
    """The network at rest as script lines leave it that bring it up, and then others by which a failure comes."""

    def __init__(self, net, lines):
        super().__init__(net, {}, {}, {}, False)
        self.all, self.whole, self.routes = (1 << len(net.links)) - 1, self.sessions_in(lines, "up"), {}
        self.fail(())

    def sessions_in(self, lines, word):
        ends = (line.split()[2:] for line in lines if line.startswith(f"bgp {word} "))
        return {self.pair(*map(self.net.number.get, names)) for names in ends}

    def links_in(self, lines, words):
        """The links that lines of this kind name, as bits."""
        ends = [tuple(map(self.net.number.get, line.split()[2:])) for line in lines if line.startswith(words)]
        return sum({1 << self.net.link_of[pair] for pair in ends})

    def fail(self, lines):
        """The failure that these lines bring comes, in place of one that was."""
        self.up = self.all & ~self.links_in(lines, "link down ")
        self.on = self.all & ~self.links_in(lines, "ldp off ")
        self.views = [self.up] * len(self.net.nodes)
        self.stand = self.whole - self.sessions_in(lines, "down")
        self.usable = {}

    # Label paths.

    def next_hop(self, node, to, view=None):
        if view is not None:
            return super().next_hop(node, to, view)
        costs = tree(self.net, to, self.up)[0]
        links = ((near, costs[near] + self.net.links[link][2]) for near, link in self.net.neighbours[node] if self.up >> link & 1 and near in costs)
        return next((near for near, cost in links if cost == costs[node]), None) if node != to else None

    def ldp_state(self, node, near, alive=None, heard=None):
        link = self.net.link_of[node, near]
        return "operational" if self.up & self.on & 1 << link else "none"

    def bgp_state(self, edge, peer):
        return "established" if self.pair(edge, peer) in self.stand else "idle"

    def binding(self, node, near, fec):
        return (True, START) if self.offers(near, fec) else None

    def usable_hop(self, node, to):
        if (node, to) not in self.usable:
            near = self.next_hop(node, to)
            can_send = near is not None and self.ldp_state(node, near) == "operational" and self.offers(near, to)
            self.usable[node, to] = near if can_send else None
        return self.usable[node, to]

    # Routes.

    def taken(self, vrf):
        """The routes that the VRF takes where all sessions stand, by prefix."""
        if vrf not in self.routes:
            found, net = {}, self.net
            for (of_vrf, of), (site, _) in self.statics.items():
                if net.takes(vrf, of_vrf):
                    found.setdefault(of, []).append(Route(of, net.rank(vrf, of_vrf), net.vrfs[of_vrf].node, of_vrf, site, 1, START))
            self.routes[vrf] = found
        return self.routes[vrf]

    def held(self, vrf, address=None):
        taken, edge = self.taken(vrf), self.net.vrfs[vrf].node
        prefixes = taken if address is None else [(address >> 32 - length << 32 - length, length) for length in range(33)]
        routes = (route for of in prefixes for route in taken.get(of, ()))
        return (route for route in routes if route.edge == edge or self.pair(edge, route.edge) in self.stand)


class Reasons:
    """Tells why packets are lost under one failure after another."""

    def __init__(self, net, bring_up):
        self.explainer = Explainer(net, {}, {}, {}, dated=False)
        self.known = self.explainer.known = AtRest(net, bring_up)
        self.failure = None

    def fail(self, failure):
        if failure != self.failure:
            self.known.fail(failure.down if failure else ())
            self.failure = failure

    def told(self, failure, probes, losses):
        """The losses with their reasons."""
        self.fail(failure)
        return [self.explained(probes[loss.probe], loss) for loss in losses]

    def rule(self, failure, probe):
        """Why a probe is dropped that is dropped with the failure and without it, of which nothing is told."""
        self.fail(failure)
        vrf = self.known.net.vrf_of[self.known.net.site_number[probe.site]]
        return "NoLsp" if self.known.best(vrf, int.from_bytes(probe.address, "big")) else "NoRoute"

    def explained(self, probe, loss):
        net, known = self.known.net, self.known
        vrf, address = net.vrf_of[net.site_number[probe.site]], int.from_bytes(probe.address, "big")
        if loss.rule == "NodeDown":
            return loss
        if loss.astray_to is not None:
            return replace(loss, reason=astray_reason(known, probe, vrf, address))
        if loss.rule not in ("NoRoute", "NoLsp"):
            return loss
        facts = self.explainer.entry(loss.rule, probe.site, address)
        return replace(loss, reason=ended(known, facts[-1]) or short(loss.rule, loss.node, facts))
