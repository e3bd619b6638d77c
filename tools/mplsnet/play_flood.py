"""What the page of a flood shows: each step, the adverts in flight, and of each node its database and its shortest paths."""

from mplsnet.files import read_topology
from mplsnet.knowledge import Net, grown
from mplsnet.play_told import Trace, counted, listed
from mplsnet.second import read, reference_flood, reference_inputs, reference_walks

SECTIONS = [
    ["db", "Its database: the advert that it has of each origin", ["origin", "number", "links that it lists"]],
    ["tree", "Its shortest paths by this database", ["to", "cost", "next hop"]],
]
BEGUN = "All links are down. Each node has one advert, its own of number 0, which lists no link."


class Traced(reference_flood.Flood):
    """A flood whose steps are kept."""

    def __init__(self, topology, net, trace):
        super().__init__(topology)
        self.net, self.trace, self.names = net, trace, net.nodes
        self.ways = [(link.a, link.b) for link in topology.links]
        for node in self.nodes:
            trace.tables[node] = self.tables_of(node)

    def advert_rows(self, advert):
        """An advert's name, and the other ends of the links that it lists."""
        return [f"{self.names[advert.origin]}#{advert.number}", self.listed_links(advert)]

    def listed_links(self, advert):
        return " ".join(self.names[self.links[link].other(advert.origin)] for link in sorted(advert.links))

    def told(self, advert):
        name, links = self.advert_rows(advert)
        return f"{name} {{{links}}}"

    def send(self, link, sender, advert):
        super().send(link, sender, advert)
        self.trace.send(sender, self.links[link].other(sender), "advert", self.advert_rows(advert))

    def change(self, link, up):
        refusal = super().change(link, up)
        if refusal is None:
            ends = self.ways[link]
            gone = [] if up else self.trace.cut(*ends)
            made = listed(self.told(self.databases[end][end]) for end in ends)
            said = f"The link between {' and '.join(self.names[end] for end in ends)} {'comes up' if up else 'goes down'}. "
            said += f"{counted(len(gone), 'advert')} in flight on it {'is' if len(gone) == 1 else 'are'} gone. " if gone else ""
            said += f"Both ends make a new advert: {made}; {counted(len(self.trace.sent), 'advert')} {'is' if len(self.trace.sent) == 1 else 'are'} sent."
            words = f"link {'up' if up else 'down'} {' '.join(self.names[end] for end in ends)}"
            self.trace.done({"w": words, "x": said, "k": "link", "l": link, "on": up, "cut": gone}, {end: self.tables_of(end) for end in ends})
        return refusal

    def hear(self, link, sender):
        hearer, queue = self.links[link].other(sender), self.flying[link, sender]
        advert = queue[0][1] if queue else None
        before = self.databases[hearer].get(advert.origin) if advert else None
        refusal = super().hear(link, sender)
        if refusal is None:
            is_kept = before is None or before.number < advert.number
            step = {
                "w": f"hear flood {self.names[sender]} {self.names[hearer]}", "k": "hear", "l": link, "f": self.trace.take(sender, hearer),
                "n": hearer, "x": self.heard_words(hearer, sender, advert, before, is_kept), "kept": is_kept,
            }  # fmt: skip
            self.trace.done(step, {hearer: self.tables_of(hearer)} if is_kept else {})
        return refusal

    def heard_words(self, hearer, sender, advert, before, is_kept):
        origin, name = self.names[advert.origin], self.names[hearer]
        said = f"{name} receives {self.told(advert)} from {self.names[sender]}. "
        had = f"It has {self.told(before)}" if before else f"It has no advert of {origin}"
        if advert.origin == hearer:
            had += ", its own"
        if not is_kept:
            return f"{said}{had}, which is {'the same' if before.number == advert.number else 'newer'}: this one is passed over."
        to = [self.names[self.trace.flights[number]["b"]] for number in self.trace.sent]
        onward = f"sends it on to {listed(to)}" if to else "has no other link that is up to send it on"
        return f"{said}{had}{', which is older' if before else ''}: it keeps this one, and {onward}."

    def tables_of(self, node):
        """The rows of the node: its database, the links that it takes for up, and its paths."""
        rows = {f"db {at:04}": [self.names[at], advert.number, self.listed_links(advert) or "none"] for at, advert in self.databases[node].items()}
        view = self.view(node)
        rows |= {f"view {at}": [] for at, is_up in enumerate(view) if is_up}
        costs, hops = grown(self.net, node, sum(1 << at for at, is_up in enumerate(view) if is_up))
        return rows | {f"tree {to:04}": [self.names[to], costs[to], self.names[hops[to]]] for to in sorted(hops)}

    def trees(self, node):
        """The node's lines of the report."""
        rows = self.trace.tables[node]
        found = [(to, rows.get(f"tree {to:04}")) for to in self.nodes if to != node]
        return reference_walks.tree_lines(self.names, node, [(to, row and row[1], row and self.names.index(row[2])) for to, row in found])


def flood_page(topology_path, script_path):
    """The topology's tables, the page's data but for what is drawn, and the trace."""
    topology = read(topology_path, reference_inputs.read_topology)
    commands = read(script_path, lambda content: reference_inputs.read_script(topology, content, reference_inputs.FLOOD_FORMS))
    trace = Trace(script_path, len(topology.nodes))
    net = read_topology(topology_path)
    flood = Traced(topology, Net(topology_path, net), trace)
    tables, refused = [dict(rows) for rows in trace.tables], 0
    for trace.line, (verb, *given) in commands:
        if verb == "drain":
            flood.drain()
        elif refusal := reference_flood.do(flood, verb, *given):
            trace.put(f"line {trace.line} refused {refusal}")
            refused += 1
    for node in flood.nodes:
        for line in flood.trees(node):
            trace.put(line)
    trace.put(f"total steps {flood.steps} refused {refused} flying {flood.fly()}")
    return net, {"told": "flood", "tables": tables, "sections": SECTIONS, "begun": BEGUN, "put": trace.put_at}, trace
