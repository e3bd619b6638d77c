"""What the page of reflected routes shows: each step, the messages in flight, and of each node what it has received, picks, offers and imports."""

from mplsnet.files import read_topology
from mplsnet.play_told import Trace, counted, listed
from mplsnet.second import read, reference_inputs, reference_reflect, reference_routes

SECTIONS = [
    ["session", "Its sessions", ["with", "its state"]],
    ["in", "What its peers announce to it", ["from", "route", "VRF", "label", "by way of"]],
    ["pick", "What it picks as a reflector", ["route", "VRF", "from"]],
    ["out", "What it offers", ["route", "VRF", "to"]],
    ["table", "The tables of its VRFs", ["VRF", "route", "by"]],
]
BEGUN = "No session lives. Every site is attached."
STATES = ("OpenSent", "OpenConfirm", "Established")


class Traced(reference_reflect.Reflection):
    """Reflected routes whose steps are kept; what a node has received and offers is kept too, as long as nothing changes there."""

    def __init__(self, topology, reflectors, trace, shown, lines):
        self.known, self.offered, self.touched = {}, {}, ()
        super().__init__(topology, reflectors)
        self.trace, self.names, self.shown, self.lines = trace, [node.name for node in topology.nodes], shown, lines
        self.cut = []
        for node in shown:
            trace.tables[shown[node]] = self.tables_of(node)

    # What is worked out once

    def announced(self, node, peer):
        said, heard = self.said[peer, node], self.heard[node, peer] if self.lives[node, peer] else 0
        of, count, routes = self.known.get((node, peer), (None, 0, {}))
        if of is not said or heard < count:
            count, routes = 0, {}
        if heard > count:
            routes = dict(routes)
            for kind, *about in said[count:heard]:
                if kind == "announce":
                    routes[about[0]] = about[1]
                elif kind == "withdraw":
                    routes.pop(about[0], None)
        self.known[node, peer] = said, heard, routes
        return routes

    def offers(self, node, peer):
        if (node, peer) not in self.offered:
            self.offered[node, peer] = super().offers(node, peer)
        return self.offered[node, peer]

    def with_news(self, change):
        def change_and_forget():
            change()
            self.offered = {ends: offer for ends, offer in self.offered.items() if ends[0] not in self.touched}

        super().with_news(change_and_forget)

    def concerned(self, verb, given):
        """The nodes that a step may change."""
        if verb in ("bgp up", "bgp down"):
            return given
        if verb == "hear bgp":
            return given[1:]
        if verb.startswith(("import", "export")):
            return (self.topology.vrfs[given[0]].node,)
        return (self.topology.edge_of(given[0]),)

    # Steps

    def say(self, speaker, hearer, *word):
        super().say(speaker, hearer, *word)
        self.trace.send(self.shown[speaker], self.shown[hearer], word[0], *self.message_words(*word))

    def begin_anew(self, one, other, lives):
        self.cut = self.trace.cut(self.shown[one], self.shown[other])
        super().begin_anew(one, other, lives)

    def do(self, verb, *given):
        self.touched = self.concerned(verb, given)
        heard = self.said[given][self.heard[given[1], given[0]]] if verb == "hear bgp" and given in self.flying else None
        refusal = super().do(verb, *given)
        if refusal is None:
            step = {"w": self.words_of(verb, given), "k": "conf"}
            if verb in ("bgp up", "bgp down"):
                step |= {"k": "link", "l": self.lines[given], "on": verb == "bgp up", "cut": self.cut}
            elif heard:
                ends = [self.shown[node] for node in given]
                step |= {"k": "hear", "l": self.lines[tuple(sorted(given))], "f": self.trace.take(*ends), "n": ends[1]}
            else:
                step["n"] = self.shown[self.touched[0]]
            sent = list(self.trace.sent)
            changed = self.trace.done(step, {self.shown[node]: self.tables_of(node) for node in self.touched})
            step["x"] = self.said_of(verb, given, heard) + self.effect(changed, sent)
        return refusal

    # Words

    def words_of(self, verb, given):
        if verb in ("bgp up", "bgp down", "hear bgp"):
            return " ".join([verb, *(self.names[node] for node in given)])
        if verb.startswith(("import", "export")):
            return f"{verb} {self.topology.vrfs[given[0]].name} {reference_inputs.target_text(given[1])}"
        site = self.topology.sites[given[0]].name
        return f"{verb} {site}" if verb.startswith("site") else f"{verb} {site} {reference_inputs.prefix_text(given[1])}"

    def message_words(self, kind, about=None, route=None):
        """The rows of a message's chip, and its words in a table."""
        if kind in ("open", "keepalive"):
            return [kind.upper()], kind.upper()
        prefix, vrf = self.route_words(*about)
        if kind == "withdraw":
            return [f"-{prefix}", vrf], f"UPDATE that withdraws {prefix} of VRF {vrf}"
        via = f" via {self.way(route)}" if route[3] else ""
        return [prefix, f"{vrf}{via}"], f"UPDATE: {prefix} of VRF {vrf}, label {self.label(about, route)}{via}"

    def label(self, about, route):
        return self.site_label(self.owner(about), route[0], route[1])

    def way(self, route):
        """The reflectors through which a route came, the first one first."""
        named = {node.loopback: node.name for node in self.topology.nodes}
        return " ".join(named[cluster] for cluster in reversed(route[3]))

    def said_of(self, verb, given, heard):
        """The sentence of a step, but for what it leads to."""
        if heard:
            kind, *about = heard
            if kind in ("open", "keepalive"):
                what = f"{'an OPEN' if kind == 'open' else 'a KEEPALIVE'}"
                return f"{self.names[given[1]]} receives {what} from {self.names[given[0]]}, and is {STATES[self.state(given[1], given[0])]}."
            what = "announces" if kind == "announce" else "withdraws"
            label = f" with label {self.label(*about)}" if kind == "announce" else ""
            via = f", by way of {self.way(about[1])}" if kind == "announce" and about[1][3] else ""
            vrf, of = about[0]
            of = f"{reference_inputs.prefix_text(of)} of VRF {self.topology.vrfs[vrf].name}"
            return f"{self.names[given[1]]} receives an UPDATE from {self.names[given[0]]} that {what} {of}{label}{via}."
        if verb in ("bgp up", "bgp down"):
            pair = " and ".join(self.names[node] for node in given)
            what = "comes up: each sends an OPEN." if verb == "bgp up" else "goes down, and each end forgets what it received in it."
            return f"The session of {pair} {what}"
        thing, what = verb.split()
        if thing == "site":
            return f"Site {self.topology.sites[given[0]].name} is {'attached again, by a new label' if what == 'up' else 'detached'}."
        if thing == "route":
            prefix = reference_inputs.prefix_text(given[1])
            return f"The VRF of site {self.topology.sites[given[0]].name} {'gets' if what == 'add' else 'loses'} the static route {prefix}."
        target = reference_inputs.target_text(given[1])
        return f"VRF {self.topology.vrfs[given[0]].name} {'gets' if what == 'add' else 'loses'} the {thing} target {target}."

    def effect(self, changed, sent):
        """What a step leads to: picks, tables, and what is sent."""
        said, keys = "", [key for changes in changed.values() for key in changes]
        if any(key.startswith("pick") for key in keys):
            said += " Its pick changes."
        tables = sorted({key.split()[2] for key in keys if key.startswith("table")})
        if tables:
            said += f" {'The table of VRF' if len(tables) == 1 else 'The tables of VRFs'} {listed(tables)} {'changes' if len(tables) == 1 else 'change'}."
        sent = [self.trace.flights[number] for number in sent if self.trace.flights[number]["kind"] in ("announce", "withdraw")]
        if sent:
            by = [name for name, at in ((self.names[node], at) for node, at in self.shown.items()) if any(one["a"] == at for one in sent)]
            names = {at: self.names[node] for node, at in self.shown.items()}
            to = dict.fromkeys(names[one["b"]] for one in sent)
            said += f" {listed(by)} {'sends' if len(by) == 1 else 'send'} {counted(len(sent), 'UPDATE')} to {listed(to)}."
        return said

    # Tables

    def tables_of(self, node):
        """The rows of the node."""
        peers = [peer for peer in self.shown if tuple(sorted((node, peer))) in self.lines]
        rows = {f"session {self.shown[peer]:04}": [self.names[peer], self.state_words(node, peer)] for peer in peers}
        for peer in peers:
            for (vrf, of), route in self.announced(node, peer).items():
                told = [self.names[peer], *self.route_words(vrf, of), str(self.label((vrf, of), route)), self.way(route) or "-"]
                rows[f"in {vrf:04} {of[0]:010}/{of[1]:02} {self.shown[peer]:04}"] = told
        if node in self.reflectors:
            near, far = self.from_edges(node), self.from_reflectors(node)
            for vrf, of in sorted({*near, *far}):
                by = self.owner((vrf, of)) if (vrf, of) in near else self.who_tells(node, (vrf, of))
                rows[f"pick {vrf:04} {of[0]:010}/{of[1]:02}"] = [*self.route_words(vrf, of), self.names[by]]
        return rows | self.offer_rows(node, peers) | self.vrf_rows(node)

    def state_words(self, node, peer):
        state = self.state(node, peer)
        return "Idle" if state is None else STATES[state]

    def route_words(self, vrf, of):
        return [reference_inputs.prefix_text(of), self.topology.vrfs[vrf].name]

    def who_tells(self, node, about):
        """The reflector of least address that announces the route to the node."""
        return next(peer for peer in self.reflectors if peer != node and about in self.announced(node, peer))

    def offer_rows(self, node, peers):
        """By route the peers to whom it is offered, of those that are Established."""
        to = {}
        for peer in peers:
            for about in self.offers(node, peer) if self.state(node, peer) == 2 else ():
                to.setdefault(about, []).append(self.names[peer])
        return {f"out {vrf:04} {of[0]:010}/{of[1]:02}": [*self.route_words(vrf, of), " ".join(names)] for (vrf, of), names in to.items()}

    def vrf_rows(self, node):
        """What `show vrf` would put of each VRF of the node."""
        rows = {}
        for at, vrf in enumerate(self.topology.vrfs):
            for number, line in enumerate(reference_routes.vrf_table(self, at) if vrf.node == node else ()):
                _, name, prefix, *by = line.split()
                rows[f"table {at:04} {name} {number:05}"] = [name, prefix, " ".join(by)]
        return rows


def reflect_page(topology_path, script_path):
    """The topology's tables, the page's data but for what is drawn, the trace, and which nodes and sessions are drawn."""
    topology = read(topology_path, reference_inputs.read_topology)
    reflectors, commands = read(script_path, reference_inputs.read_reflect_script, topology)
    shown = {node: at for at, node in enumerate(sorted({*topology.edges(), *reflectors}))}
    lines = {ends: at for at, ends in enumerate(dict.fromkeys(tuple(given) for _, (verb, *given) in commands if verb in ("bgp up", "bgp down")))}
    trace = Trace(script_path, len(shown))
    world = Traced(topology, reflectors, trace, shown, lines)
    tables, refused = [dict(rows) for rows in trace.tables], 0
    for trace.line, (verb, *given) in commands:
        if verb == "drain":
            world.drain(*given)
        elif verb == "show vrf":
            for line in reference_routes.vrf_table(world, *given):
                trace.put(line)
        elif refusal := world.do(verb, *given):
            trace.put(f"line {trace.line} refused {refusal}")
            refused += 1
    trace.put(f"total steps {world.steps} refused {refused} flying {len(world.flying)}")
    data = {"told": "reflect", "tables": tables, "sections": SECTIONS, "begun": BEGUN, "put": trace.put_at, "reflectors": [shown[node] for node in reflectors]}
    return read_topology(topology_path), data, trace, shown, list(lines)
