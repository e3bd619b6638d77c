"""Works out what `mplsnet flood` puts for any topology and script, without the program.

It is a second telling of docs/FLOOD.md, written from that page and not from the program's source: which adverts a node
keeps and sends on, the tree that it computes of them, the course of a script, the report. reference.py calls it; the
inputs are read by reference_inputs.py.
"""

from dataclasses import dataclass, field

from reference_walks import costs_to, first_hop, tree_lines

FLYING, STEPS = 100_000, 4_000_000


class Spent(Exception):
    """A step that nothing else refuses comes after the last one that there may be."""


@dataclass(frozen=True)
class Advert:
    """What a node says of its own links: with a number that grows, those that are up."""

    origin: int
    number: int
    links: frozenset = field(default_factory=frozenset)


class Flood:
    """The nodes' databases, and what flies on the links, as the steps have left them."""

    def __init__(self, topology):
        self.topology, self.links = topology, topology.links
        self.nodes = range(len(topology.nodes))
        self.up = [False for _ in self.links]
        self.databases = [{node: Advert(node, 0)} for node in self.nodes]
        ways = [(no, end) for no, link in enumerate(self.links) for end in (link.a, link.b)]
        self.flying = {way: [] for way in ways}  # by link and sender, each advert behind its number among all that were sent
        self.sent = self.steps = 0

    def up_links(self, node):
        """The node's links that are up, in link order."""
        return [no for no, link in enumerate(self.links) if self.up[no] and node in (link.a, link.b)]

    def send(self, link, sender, advert):
        self.sent += 1
        self.flying[link, sender].append((self.sent, advert))

    def fly(self):
        """How many adverts fly."""
        return sum(map(len, self.flying.values()))

    def count(self):
        if self.steps == STEPS:
            raise Spent
        self.steps += 1

    def change(self, link, up):
        """The link comes up or goes down; the refusal, None where there is none."""
        if self.up[link] == up:
            return "Unchanged"
        if self.fly() >= FLYING:
            return "FloodFull"
        self.count()
        self.up[link] = up
        ends = self.links[link].a, self.links[link].b
        for end in ends:
            if not up:
                self.flying[link, end] = []
        for end in ends:
            number = self.databases[end][end].number + 1
            self.databases[end][end] = Advert(end, number, frozenset(self.up_links(end)))
        for end in ends:
            for of in sorted(self.databases[end]) if up else []:
                self.send(link, end, self.databases[end][of])
            for other in self.up_links(end):
                if other != link:
                    self.send(other, end, self.databases[end][end])
        return None

    def hear(self, link, sender):
        """The far end of the link hears the first advert from the sender; the refusal, None where there is none."""
        if not self.flying[link, sender]:
            return "Empty"
        self.count()
        _, advert = self.flying[link, sender].pop(0)
        hearer = self.links[link].other(sender)
        kept = self.databases[hearer].get(advert.origin)
        if kept is None or advert.number > kept.number:
            self.databases[hearer][advert.origin] = advert
            for other in self.up_links(hearer):
                if other != link:
                    self.send(other, hearer, advert)
        return None

    def drain(self):
        """The advert that was sent first of all that fly is heard, until none flies."""
        while firsts := [(queue[0][0], way) for way, queue in self.flying.items() if queue]:
            _, way = min(firsts)
            self.hear(*way)

    def view(self, node):
        """By link whether it is up for the node: where the adverts that it has of both ends list it."""
        database = self.databases[node]
        lists = [database[end].links if end in database else frozenset() for end in self.nodes]
        return [no in lists[link.a] and no in lists[link.b] for no, link in enumerate(self.links)]

    def tree(self, node):
        """Of each other node its number, the least cost of a walk there and the next hop, None and None where none leads."""
        view, neighbours = self.view(node), self.topology.neighbours(node)
        for to in self.nodes:
            if to != node:
                costs = costs_to(self.links, len(self.nodes), view, to)
                hop = first_hop(self.links, neighbours, view, costs, node)
                yield to, costs.get(node), hop and hop[0]


def report_of(topology, commands):
    """The lines that are put: those of what is refused, each node's tree, the total."""
    flood, lines = Flood(topology), []
    try:
        for line, (verb, *given) in commands:
            if verb == "drain":
                flood.drain()
            elif refusal := do(flood, verb, *given):
                lines.append(f"line {line} refused {refusal}")
    except Spent:
        return [*lines, "too large steps"]
    refused, names = len(lines), [node.name for node in topology.nodes]
    for node in flood.nodes:
        lines += tree_lines(names, node, flood.tree(node))
    return [*lines, f"total steps {flood.steps} refused {refused} flying {flood.fly()}"]


def do(flood, verb, link, sender=None):
    return flood.hear(link, sender) if verb == "hear flood" else flood.change(link, verb == "link up")
