"""The steps of a run as a page or a picture of it needs them: what changes by each, a sentence, and the state that they leave."""

from mplsnet.files import lives_of, passed
from mplsnet.replay import Frames, sessions_of
from mplsnet.words import ENDED, NO_SESSION, bgp_words, ldp_words, packet_words, state_of


class State:
    """What stands after some steps: nodes, links, sites, sessions, packets and flights by their numbers."""

    def __init__(self, nodes, links, sites, sessions):
        self.nodes, self.links, self.sessions = nodes, links, sessions
        self.tick, self.up, self.switched, self.changes = 0, [False] * links, [True] * links, [0] * links
        self.learned = {}  # of a node and a link, as the number node * links + link
        self.living, self.heard = {}, [0] * (2 * len(sessions))
        self.attached = [True] * sites
        self.queues, self.way_of = {}, {}  # of a direction the flights, and of a flight its direction
        self.paths = {}  # of each packet that flies
        self.ended = {"delivered": 0, "dropped": 0}
        self.sent = 0

    def apply(self, step):
        """What the step changes."""
        kind, self.tick = step["k"], step["t"] + step.get("ticks", 0)
        if "ends" in step:
            self.living.pop(self.pair(step["ends"]), None)
        if "begins" in step:
            self.living[self.pair(step["begins"])] = step["begins"]
        if kind == "link":
            self.up[step["l"]] = step["on"]
            self.changes[step["l"]] += 1
        elif kind == "ldp":
            self.switched[step["l"]] = step["on"]
        elif kind == "learn":
            place = step["n"] * self.links + step["l"]
            self.learned[place] = self.learned.get(place, 0) + 1
        elif kind == "hear":
            self.heard[2 * step["s"] + (step["f"] == self.sessions[step["s"]][1])] += 1
        elif kind == "site":
            self.attached[step["i"]] = step["on"]
        for flight, packet in step.get("gone", ()):
            self.land(flight)
            self.end(packet, "dropped")
        if "p" in step:
            self.move(step)

    def move(self, step):
        """What a packet's step changes."""
        packet = step["p"]
        if step["k"] == "inject":
            self.paths[packet] = [step["n"]]
            self.sent += 1
        else:
            self.land(step["f"])
        if step["k"] == "carry":
            self.paths[packet].append(step["n"])
        if "send" in step:
            self.way_of[step["send"]] = step["way"]
            self.queues.setdefault(step["way"], []).append(step["send"])
        elif "ttl" in step:
            self.end(packet, "delivered")
        else:
            self.end(packet, "dropped")

    def end(self, packet, kind):
        self.ended[kind] += 1
        del self.paths[packet]

    def land(self, flight):
        way = self.way_of.pop(flight)
        self.queues[way].remove(flight)
        if not self.queues[way]:
            del self.queues[way]

    def pair(self, session):
        kind, a, b = self.sessions[session]
        return f"{kind} {min(a, b)} {max(a, b)}"

    def ends_of(self, kind, a, b):
        """The states of a session's two ends, by the messages that each has heard."""
        session = self.living.get(f"{kind} {min(a, b)} {max(a, b)}")
        if session is None:
            return NO_SESSION[kind], NO_SESSION[kind]
        told = [state_of(kind, end == 0, self.heard[2 * session + end]) for end in (0, 1)]
        return tuple(told if self.sessions[session][1] == a else told[::-1])


class Steps:
    """What the page needs of each step: what changes, and a sentence."""

    def __init__(self, run, net, ways, number=lambda packet: packet):
        self.run, self.ways = run, ways
        self.number = number  # what a packet is called, by its number in the run
        self.nodes = {node["name"]: at for at, node in enumerate(net["node"])}
        self.sites = {site["name"]: at for at, site in enumerate(net["site"])}
        self.links = {}
        for at, link in enumerate(net["link"]):
            self.links[link["a"], link["b"]] = self.links[link["b"], link["a"]] = at
        self.lives, self.talk = sessions_of(run)
        self.session_at = {session: at for at, session in enumerate(self.lives)}
        self.sessions = [[one.protocol, self.nodes[one.opener], self.nodes[one.other]] for one in self.lives]
        self.moves = {move.step: move for move in Frames(run, ways, lives_of(net)).found()}
        self.flights, self.flight_at, self.packets, self.flown = {}, {}, {}, 0

    def state(self):
        """What stands before the first step."""
        return State(len(self.nodes), len(self.run.links), len(self.sites), self.sessions)

    def steps_of(self, packet):
        """The first and the last step of the packet, from 0; none where there is no such packet."""
        found = [step for step, move in self.moves.items() if move.packet == packet or any(flight.packet == packet for flight in move.took)]
        return (found[0], found[-1]) if found else None

    def told(self, at):
        """The step."""
        tick, words = self.run.steps[at]
        kind = words[0]
        step = {"t": tick, "w": " ".join(words)}
        if kind in ("link", "ldp"):
            told = self.switched(words)
        elif kind in ("inject", "carry", "lose"):
            told = self.moved(self.moves[at])
        elif kind == "tick":
            told = self.ticks(tick, words)
        else:
            teller = {"learn": self.learn, "hear": self.hear, "bgp": self.bgp, "site": self.site, "damage": self.damage}
            told = teller.get(kind, self.configured)(at, words)
        for what, session, *_ in self.talk.get(at, ()):
            if what != "hears":
                step[what] = self.session_at[session]
        if kind == "tick" or kind == "link" and words[1] == "down":
            step["gone"] = [(self.flight_at.pop(flight), flight.packet - 1) for flight in self.moves[at].took]
            step["cut"] = [flight for flight, _ in step["gone"]]
            if step["cut"]:
                step["rule"] = ENDED[kind]
                said = "What flies on it is cut" if kind == "link" else f"{ENDED[kind]}, each sent on its link longer ago than the link's life"
                told["x"] += f" {said}: {', '.join(f'packet {self.number(packet + 1)}' for _, packet in step['gone'])}."
        if "ends" in step:
            told["x"] += self.unheard(self.lives[step["ends"]])
        return step | told

    def unheard(self, session):
        count = sum(len(said) - session.heard[speaker] for speaker, said in session.said.items())
        name = session.protocol.upper()
        return f" The {name} session ends" + (f", and {count} of its messages with it." if count else ".")

    def switched(self, words):
        kind, what, a, b = words
        on = what in ("up", "on")
        if kind == "link":
            said = f"The link between {a} and {b} {'comes up' if on else 'goes down'}: a notice of it goes to each node."
        else:
            said = f"LDP is switched {what} for the link between {a} and {b}."
        return {"k": kind, "l": self.links[a, b], "on": on, "x": said}

    def ticks(self, tick, words):
        ticks = passed(words)
        return {"k": "tick", "ticks": ticks, "x": f"Time passes, {ticks} tick{'s' * (ticks != 1)} up to tick {tick + ticks}, and nothing arrives."}

    def learn(self, _, words):
        _, node, a, b = words
        return {"k": "learn", "n": self.nodes[node], "l": self.links[a, b], "x": f"{node} learns of the next change of the link between {a} and {b}."}

    def hear(self, at, words):
        ((_, session, speaker, number),) = self.talk[at]
        message = session.said[speaker][number]
        said = (ldp_words if session.protocol == "ldp" else bgp_words)(message)
        hearer = session.peer(speaker)
        return {
            "k": "hear", "s": self.session_at[session], "f": self.nodes[speaker], "o": self.nodes[hearer], "m": said,
            "x": f"{hearer} hears from {speaker} by {session.protocol.upper()}, message {number + 1} of the session: {said}.",
        }  # fmt: skip

    def bgp(self, _, words):
        _, what, a, b = words
        said = f"The BGP session of {a} and {b} begins: each tells the other an OPEN." if what == "up" else f"The BGP session of {a} and {b} is ended."
        return {"k": "bgp", "on": what == "up", "x": said}

    def damage(self, _, words):
        """The session of the message is switched off."""
        _, protocol, speaker, hearer, record = words
        what = "a PDU" if protocol == "ldp" else "a message of BGP"
        said = f"Record {record} comes to {hearer} in place of {what} from {speaker}, and can't be read."
        if protocol == "bgp":
            return {"k": "bgp", "on": False, "x": said}
        return {"k": "ldp", "l": self.links[speaker, hearer], "on": False, "x": said}

    def site(self, _, words):
        _, what, site = words
        node = self.run.node_of[site]
        said = f"Site {site} is attached to {node} again, by a new label." if what == "up" else f"Site {site} is detached from {node}."
        return {"k": "site", "i": self.sites[site], "on": what == "up", "x": said}

    def configured(self, _, words):
        """A change of routes or targets; a step of another kind is told by its own words."""
        kind = words[0]
        if kind == "route":
            said = f"The VRF of site {words[2]} {'gets' if words[1] == 'add' else 'loses'} the static route {words[3]}."
        elif kind in ("import", "export"):
            said = f"VRF {words[2]} {'gets' if words[1] == 'add' else 'loses'} the {kind} target {words[3]}."
        else:
            said = f"{' '.join(words)}."
        return {"k": "conf", "x": said}

    # Packets.

    def moved(self, move):
        kind, *rest = move.words
        before = move.took[0] if move.took else None
        step = {"k": kind, "p": (before.packet if before else move.packet) - 1}
        if before:
            step["f"] = self.flight_at.pop(before)
        if kind == "inject":
            step |= {"i": self.sites[rest[0]], "n": self.nodes[self.run.node_of[rest[0]]]}
            self.packets[step["p"]] = {"n": move.packet, "site": rest[0], "s": step["i"], "record": int(rest[1]), "ip": None}
            here, said = self.run.node_of[rest[0]], f"Packet {self.number(move.packet)} enters at site {rest[0]}"
        elif kind == "lose":
            return step | {"x": f"Packet {self.number(before.packet)} is lost on its way from {before.sender} to {before.receiver}."}
        else:
            step["n"] = self.nodes[rest[1]]
            here, said = rest[1], f"{rest[1]} gets packet {self.number(before.packet)} from {rest[0]}"
        if move.sent:
            step |= {"send": self.flight(move.sent), "way": f"{self.nodes[move.sent.sender]} {self.nodes[move.sent.receiver]}"}
            return step | {"x": f"{said}{self.relabelled(before, move.sent, here)}, and sends it to {move.sent.receiver}."}
        if move.end[0] == "delivered":
            return step | self.delivery(move, before, said, here)
        rule = self.ways[step["p"]].words[0] if self.ways is not None else None
        told = f"{said}, and {'' if before else here + ' '}drops it{f': {rule}' if rule else ''}."
        return step | {"drop": rule or "dropped", "x": told}

    def relabelled(self, before, sent, here):
        """What the node does with the label stack."""
        names = [f"label {sent.frame.stack[0].label} ({sent.receiver}'s for {sent.edge})"] if len(sent.frame.stack) > 1 else []
        if before is None:
            inner = f"{here} pushes {self.of_site(sent.edge, sent.frame.stack[-1].label)}"
            return f": {inner}" + (f", and on it {names[0]}" if names else "")
        out = before.frame.stack[0].label
        return f", swaps its label {out} for {names[0]}" if names else f", takes its label {out} off, being the last node but one"

    def of_site(self, node, label):
        return f"label {label} ({node}'s for site {self.run.attachments[node][label][0]})"

    def flight(self, sent):
        """The number of a new flight."""
        packet, number = sent.frame.packet, self.flown
        self.flown += 1
        self.flight_at[sent] = number
        self.flights[number] = {
            "p": sent.packet - 1, "a": self.nodes[sent.sender], "b": self.nodes[sent.receiver], "l": self.links[sent.sender, sent.receiver],
            "t": sent.frame.tick, "st": [[entry.label, entry.ttl] for entry in sent.frame.stack], "ttl": packet[8],
        }  # fmt: skip
        self.packets[sent.packet - 1]["ip"] = packet_words(packet)
        return number

    def delivery(self, move, before, said, here):
        """The end of a packet at a site: by its label's site, or the report's."""
        copy = move.end[1]
        packet = self.run.delivered[copy - 1][1]
        number = (before.packet if before else move.packet) - 1
        self.packets[number]["ip"] = packet_words(packet)
        if self.ways is not None:
            site = self.ways[number].words[0]
        else:
            site = self.run.attachments[here][before.frame.stack[-1].label][0] if before else None
        popped = f", takes off {self.of_site(here, before.frame.stack[-1].label)} and" if before else f", and {here}"
        told = f"{said}{popped} delivers it to {f'site {site}' if site else 'another of its sites'} with TTL {packet[8]}, as delivery {copy}."
        return {"to": self.sites.get(site), "ttl": packet[8], "x": told}


class Part:
    """Some steps of a run, with the state before them, and the packets and flights that they know, numbered anew from 0."""

    def __init__(self, steps, first, end):
        self.first, state = first, steps.state()
        for at in range(first):
            self.pass_over(steps, state, steps.told(at))
        self.state = state
        self.start = self.started(state) if first else None
        flying = sorted(state.paths)
        self.packet_at = {packet: at for at, packet in enumerate(flying)}
        self.flights_before = sorted(flight for queue in state.queues.values() for flight in queue)
        self.flight_at = {flight: at for at, flight in enumerate(self.flights_before)}
        self.steps = [self.numbered(steps.told(at)) for at in range(first, end)]
        self.packets = [steps.packets[packet] for packet in self.packet_at]
        self.flights = [steps.flights[flight] | {"p": self.packet_at[steps.flights[flight]["p"]]} for flight in self.flight_at]
        if self.start:
            self.start["queues"] = {way: [self.flight_at[flight] for flight in queue] for way, queue in state.queues.items()}
            self.start["ways"] = [{"path": state.paths[packet]} for packet in flying]

    @staticmethod
    def pass_over(steps, state, step):
        """What the step leaves; what it ends isn't kept."""
        state.apply(step)
        if "p" in step:
            steps.flights.pop(step.get("f"), None)
            if step["p"] not in state.paths:
                steps.packets.pop(step["p"])
        for flight, packet in step.get("gone", ()):
            steps.flights.pop(flight)
            steps.packets.pop(packet)

    @staticmethod
    def started(state):
        return {
            "tick": state.tick, "up": list(state.up), "switched": list(state.switched), "changes": list(state.changes), "learned": list(state.learned.items()),
            "living": dict(state.living), "heard": list(state.heard), "attached": list(state.attached), "sent": state.sent, **state.ended,
        }  # fmt: skip

    def numbered(self, step):
        """The step with this part's numbers."""
        step.pop("gone", None)
        step.pop("way", None)
        if "p" in step:
            step["p"] = self.packet_at.setdefault(step["p"], len(self.packet_at))
            for key in ("f", "send"):
                if key in step:
                    step[key] = self.flight_at.setdefault(step[key], len(self.flight_at))
        if "cut" in step:
            step["cut"] = [self.flight_at[flight] for flight in step["cut"]]
        return step
