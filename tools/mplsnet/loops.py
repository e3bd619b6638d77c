"""Where packets can go round while the change of one link spreads: found by shortest paths alone, without a run.

While nodes learn that a link went down or came up, each goes towards an edge by its old or by its new next hop, and any
set of nodes may have learned, since notices come in every order. So a packet can go round exactly by a cycle of these
hops that takes each node once, by a hop of its own, and a node's packets can meet it where such hops lead there. A
session stands with each neighbour and each neighbour's Mapping has come, since the network was settled; so each hop can
be gone but that over the link itself, and no cycle has that one: behind it all nodes are nearer to the edge than before
it, with the link and without.
"""

from collections import deque
from dataclasses import dataclass

from mplsnet.knowledge import grown

MOST_LOOPS, MOST_TRIES = 1_000, 100_000  # of a link and an edge: what is told, and what is tried
WITH, WITHOUT = "with", "without"  # a next hop is that with the link, or that without it


def costs_to(net, edge, down=frozenset()):
    """Of each node that links lead to the edge from, without those that are down: the least cost."""
    view = sum(1 << link for link in range(len(net.links)) if link not in down)
    return grown(net, edge, view)[0]  # (a link costs the same in both directions)


def hops_to(net, edge, costs, down=frozenset()):
    """Of each such node the next hop: the neighbour of least number on a least walk."""
    hops = {}
    for node, cost in costs.items():
        if node != edge:
            on_walks = (near for near, link in net.neighbours[node] if link not in down and costs.get(near, cost) + net.links[link][2] == cost)
            hops[node] = next(on_walks)
    return hops


class Hops:
    """Next hops towards each edge, with all links and without some."""

    def __init__(self, net):
        self.net = net
        self.costs = {edge: costs_to(net, edge) for edge in net.edges}
        self.whole = {edge: hops_to(net, edge, self.costs[edge]) for edge in net.edges}
        self.found = {}

    def without(self, edge, links):
        """The next hops towards the edge without these links: those with them, where no least walk has one of them."""
        if not any(self.is_on_a_least_walk(edge, link) for link in links):
            return self.whole[edge]
        key = edge, frozenset(links)
        if key not in self.found:
            self.found[key] = hops_to(self.net, edge, costs_to(self.net, edge, key[1]), key[1])
        return self.found[key]

    def is_on_a_least_walk(self, edge, link):
        a, b, cost = self.net.links[link]
        costs = self.costs[edge]
        return a in costs and b in costs and abs(costs[a] - costs[b]) == cost

    def is_concerned(self, node, edge, links):
        """The node's walk to the edge has one of the links, or a node whose next hop is another without them.

        Where it has neither, no node of the walk changes its next hop, with any of the links, and none of their
        sessions ends and no Mapping is taken back there.
        """
        whole, without = self.whole[edge], self.without(edge, links)
        while node != edge:
            hop = whole.get(node)
            if hop != without.get(node) or hop is not None and self.net.link_of[node, hop] in links:
                return True
            if hop is None:
                return False
            node = hop
        return False

    def choices(self, edge, link):
        """Of each node the next hops towards the edge while the link's change spreads, each with its kinds; none over the link itself."""
        found = {}
        for hops, kind in ((self.whole[edge], WITH), (self.without(edge, [link]), WITHOUT)):
            for node, hop in hops.items():
                if self.net.link_of[node, hop] != link:
                    found.setdefault(node, {}).setdefault(hop, set()).add(kind)
        return found


@dataclass(frozen=True)
class Loop:
    """A loop: the link that changes, the edge towards which packets go, and the nodes in a packet's order, the least first.

    `kinds` has of each node by which next hop it goes: that with the link, that without it, or none where they are one.
    """

    link: int
    edge: int
    nodes: tuple
    kinds: tuple

    def learned(self, way):
        """The nodes of it that must have learned of the change."""
        return tuple(node for node, kind in zip(self.nodes, self.kinds) if kind == learned_kind(way))

    def unlearned(self, way):
        """The nodes of it that mustn't have learned of it."""
        return tuple(node for node, kind in zip(self.nodes, self.kinds) if kind and kind != learned_kind(way))


def learned_kind(way):
    """By which next hop a node goes that has learned that the link went this way."""
    return WITHOUT if way == "down" else WITH


def kind_of(choices, node, hop):
    """The kind of the node's hop; none where it has but that one, with the link and without."""
    kinds = choices[node][hop]
    return None if len(kinds) == 2 else next(iter(kinds))


def on_cycles(choices):
    """The nodes that may be on a cycle: those that are left where such without a hop to them or from them are taken out."""
    left = set(choices)
    while True:
        entered = {hop for node in left for hop in choices[node]}
        kept = {node for node in left & entered if left & choices[node].keys()}
        if kept == left:
            return left
        left = kept


def loops_of(hops, link):
    """The loops that the link's change can make, down or up, and whether these are all: a search that grows too large is cut off."""
    loops, are_all = [], True
    for edge in hops.net.edges:
        if hops.is_on_a_least_walk(edge, link):
            choices = hops.choices(edge, link)
            cycles, found_all = cycles_of(choices)
            loops += [Loop(link, edge, cycle, tuple(kind_of(choices, *step) for step in steps_of(cycle))) for cycle in cycles]
            are_all = are_all and found_all
    return loops, are_all


def steps_of(cycle):
    return zip(cycle, cycle[1:] + cycle[:1])


def cycles_of(choices):
    """The cycles that take each node once, each from its least node on; and whether these are all."""
    left, cycles, tries = on_cycles(choices), [], 0
    for first in sorted(left):
        open_ways = [(first,)]
        while open_ways:
            way, tries = open_ways.pop(), tries + 1
            if tries > MOST_TRIES or len(cycles) >= MOST_LOOPS:
                return cycles, False
            for hop in choices[way[-1]]:
                if hop == first:
                    cycles.append(way)
                elif hop in left and hop > first and hop not in way:
                    open_ways.append((*way, hop))
    return cycles, True


def ways_into(choices, nodes):
    """Of each node from which hops lead into the loop: the nodes up to the loop's first on a shortest way, itself first."""
    before = {}
    for node, hops in choices.items():
        for hop in hops:
            before.setdefault(hop, []).append(node)
    ways, waiting = {node: (node,) for node in nodes}, deque(nodes)
    while waiting:
        node = waiting.popleft()
        for earlier in before.get(node, ()):
            if earlier not in ways:
                ways[earlier] = (earlier, *ways[node])
                waiting.append(earlier)
    return ways


def learned_on(choices, walk, way):
    """The nodes of a walk, each of which goes to the next of it, that must have learned of the link's change."""
    return [node for node, hop in dict(zip(walk, walk[1:])).items() if kind_of(choices, node, hop) == learned_kind(way)]
