"""The journal of a run beside its other files: which message each step hears, and which frame it sends.

Nothing of the protocols is done anew. What a step hears is the next message of the stream; which frame an `inject` or
a `carry` sends is looked up in the links' captures, by its tick, its packet and its labels, and by the packet's path
where the report is there. A step that fits several frames is decided by the steps after it.

Which frames a `tick` makes overdue goes by the lives of their links, which the topology has. Without it a link's life is
any that fits the steps so far, 2000 where that fits; of a frame that is overdue by one of several `tick` the files alone
don't tell which.
"""

from bisect import bisect_left, bisect_right, insort
from dataclasses import dataclass, field
from itertools import product

from mplsnet.files import LIFE, Fault, done_by, passed

MOST_TRIES = 200_000
AHEAD = 60  # how many of the frames that a node has still to send are looked at
MOST_LIFE = 1_000_000
MOST_WAYS = 1000  # in which time may pass on the links whose lives aren't known
MAPPING, WITHDRAW = b"\x04\0", b"\x04\2"


# Sessions.


@dataclass(eq=False, slots=True)
class Session:
    """One life of a session. The end of greater address opens it: it says the first message, as RFC 5036 has it."""

    protocol: str
    opener: str
    other: str
    begun: int  # the step that begins it
    ended: int | None = None
    said: dict = field(default_factory=dict)  # of each end the messages that it said
    heard: dict = field(default_factory=dict)  # of each speaker how many of its messages were heard

    def peer(self, end):
        return self.other if end == self.opener else self.opener


def sessions_of(run):
    """All sessions in the order of their beginnings, and of each step what it does to them.

    A step has a list of ("begins", session), ("ends", session) and ("hears", session, speaker, message).
    """
    sessions, living, talk = [], {}, {}
    up, off = set(), set()

    def begin(at, protocol, a, b):
        other, opener = sorted((a, b), key=lambda end: run.loopbacks.get(end, b""))
        session = Session(protocol, opener, other, at, heard={a: 0, b: 0})
        sessions.append(session)
        living[protocol, frozenset((a, b))] = session
        talk.setdefault(at, []).append(("begins", session))

    def end(at, protocol, a, b):
        session = living.pop((protocol, frozenset((a, b))), None)
        if session:
            session.ended = at
            talk.setdefault(at, []).append(("ends", session))

    for at, (_, words) in enumerate(run.steps):
        kind, *rest = done_by(words)
        pair = frozenset(rest[-2:])
        if kind == "link":
            if rest[0] == "down":
                up.discard(pair)
                end(at, "ldp", *rest[1:])
            else:
                up.add(pair)
                if pair not in off:
                    begin(at, "ldp", *rest[1:])
        elif kind == "ldp":
            if rest[0] == "off":
                off.add(pair)
                end(at, "ldp", *rest[1:])
            else:
                off.discard(pair)
                if pair in up:
                    begin(at, "ldp", *rest[1:])
        elif kind == "bgp":
            (begin if rest[0] == "up" else end)(at, "bgp", *rest[1:])
        elif kind == "hear":
            session = living.get((rest[0], pair))
            if not session:
                raise Fault(f"{run.place(at)}: hears where no session lives")
            speaker = rest[1]
            talk.setdefault(at, []).append(("hears", session, speaker, session.heard[speaker]))
            session.heard[speaker] += 1
    hand_out(run, sessions)
    return sessions, talk


def hand_out(run, sessions):
    """Gives each session the messages of its life.

    By LDP the end that doesn't open a session says nothing before it hears, so that end's stream has a life for each
    session in which it heard. By BGP both ends tell an OPEN as the session begins.
    """
    for streams, protocol in ((run.ldp, "ldp"), (run.bgp, "bgp")):
        for (speaker, hearer), lives in streams.items():
            ours = [s for s in sessions if s.protocol == protocol and {s.opener, s.other} == {speaker, hearer}]
            speaking = [s for s in ours if protocol == "bgp" or s.opener == speaker or s.heard[s.opener]]
            file = run.folder / f"{speaker}+{hearer}.{protocol}"
            if len(speaking) != len(lives):
                raise Fault(f"{file}: has {len(lives)} sessions, and by the journal there are {len(speaking)}")
            for session in ours:
                session.said[speaker] = []
            for session, life in zip(speaking, lives):
                session.said[speaker] = life
    for session in sessions:
        for speaker, count in session.heard.items():
            if count > len(session.said.setdefault(speaker, [])):
                file = run.folder / f"{speaker}+{session.peer(speaker)}.{session.protocol}"
                raise Fault(f"{file}: a session has {len(session.said[speaker])} messages, and by the journal {count} were heard")


class Mappings:
    """To which node's FEC a label leads. A node's label that it gave more than once leads by what the sender has heard of it last."""

    def __init__(self, run):
        self.run, self.changes = run, None
        self.fecs = {node: {} for node in run.nodes}
        for node, given in run.given.items():
            for label, what in given:
                if what[0] == "fec":
                    self.fecs[node].setdefault(label, []).append(what[1])

    def fec(self, label, sender, receiver, step):
        """What the receiver's label means to the sender before this step; none where it means nothing."""
        fecs = self.fecs[receiver].get(label, ())
        if len(fecs) < 2:
            return fecs[0] if fecs else None
        if self.changes is None:
            self.changes = self.changes_of()
        changes = self.changes.get((sender, receiver), {}).get(label, [])
        at = bisect_left(changes, (step,)) - 1
        return changes[at][1] if at >= 0 else None

    def changes_of(self):
        """Of each hearer and speaker, and of each label, the steps in which it comes to mean another FEC to the hearer, or none."""
        changes, named = {}, {address: node for node, address in self.run.loopbacks.items()}
        for step, things in sessions_of(self.run)[1].items():
            for what, session, *heard in things:
                if session.protocol == "ldp" and what == "ends":
                    for ends in ((session.opener, session.other), (session.other, session.opener)):
                        for known in changes.get(ends, {}).values():
                            known.append((step, None))
                elif session.protocol == "ldp" and what == "hears":
                    speaker, number = heard
                    pdu = session.said[speaker][number]
                    if pdu[10:12] in (MAPPING, WITHDRAW):
                        known = changes.setdefault((session.peer(speaker), speaker), {})
                        fec, label = named.get(pdu[26:30]), int.from_bytes(pdu[34:38], "big")
                        known.setdefault(label, []).append((step, fec if pdu[10:12] == MAPPING else None))
        return changes


# Frames.


@dataclass(eq=False, slots=True)
class Flight:
    """A frame on its way: the packet's number from 1, how many nodes the packet was at, and the packet's edge."""

    packet: int
    nodes: int
    sender: str
    receiver: str
    edge: str
    frame: object


NONE = ()
LOSE, DROP, DELIVER = ("lose",), ("drop",), ("deliver",)
LOST, DROPPED = ("lost",), ("dropped",)


@dataclass(slots=True)
class Move:
    """A step that moves packets, and what it did.

    `took` are the flights that end by it, and `sent` is the one that begins; `end` is how the packet ends otherwise:
    ("delivered", copy from 1), ("dropped",) or, for those of a link that goes down, those that are overdue and a frame
    that is lost, ("lost",). `before` is what a `tick` changed, as it was.
    """

    step: int
    tick: int
    words: tuple
    packet: int | None = None
    took: tuple = ()
    sent: Flight | None = None
    end: tuple | None = None
    before: tuple | None = None


class Frames:
    """Finds the frame that each step sends, over the links' captures in order.

    ways: of each packet, where the report is there; lives: of each link its life, where the topology is (`lives_of` of mplsnet.files).
    """

    def __init__(self, run, ways=None, lives=None):
        self.run, self.ways, self.mappings = run, ways, Mappings(run)
        # Of each link the least and the greatest that its life may be.
        self.lives = {link: (lives[link],) * 2 if lives and link in lives else (1, MOST_LIFE) for link in run.links}
        self.link_of = {pair: link for link in run.links for pair in (link, link[::-1])}
        self.neighbours = {node: [] for node in run.nodes}
        for a, b in run.links:
            self.neighbours[a].append(b)
            self.neighbours[b].append(a)
        self.next = {link: 0 for link in run.links}
        self.delivered = 0
        self.flying = {pair: [] for pair in self.link_of}
        self.moves, packets = [], 0
        for step, (tick, words) in enumerate(run.steps):
            if words[0] in ("inject", "carry", "lose", "tick") or words[:2] == ("link", "down"):
                packets += words[0] == "inject"
                self.moves.append(Move(step, tick, words, packets if words[0] == "inject" else None))
        self.last_tick = max((at for at, move in enumerate(self.moves) if move.words[0] == "tick"), default=None)
        if ways is not None and len(ways) != packets:
            raise Fault(f"the report has {len(ways)} packets, and by the journal {packets} were sent")
        if ways is None:
            self.look_ahead()

    def look_ahead(self):
        """By which move each frame must have been sent, for a run without its report.

        A link that goes down begins another epoch of its two directions. In an epoch the frame of place P that is
        taken as the Kth, from 0, is at least the (K+P+1)th that was sent in it.
        """
        self.here = {node: [] for node in self.run.nodes}  # the moves by which a packet is at the node
        self.epochs = {pair: [[]] for pair in self.link_of}  # of each the moves by which its frames must have been sent
        self.sent = {pair: [0] for pair in self.link_of}  # of each epoch so far how many were sent
        taken = dict.fromkeys(self.link_of, 0)
        for at, move in enumerate(self.moves):
            kind, *rest = move.words
            if kind == "link":
                for pair in self.both(rest):
                    self.epochs[pair].append([])
                    taken[pair] = 0
                continue
            if kind == "tick":
                continue
            if kind != "inject":
                pair, place = (rest[0], rest[1]), int(rest[2])
                due = self.epochs[pair][-1]
                due += [at] * (taken[pair] + place + 1 - len(due))
                taken[pair] += 1
            if kind != "lose":
                self.here[self.node_at(move)].append(at)
        self.due = {node: [] for node in self.run.nodes}  # what each node has still to send, of the present epochs
        for pair in self.link_of:
            self.add_due(pair)

    def due_in(self, pair):
        """What is due in a direction's present epoch."""
        return self.epochs[pair][len(self.sent[pair]) - 1][self.sent[pair][-1] :]

    def add_due(self, pair):
        self.due[pair[0]] += self.due_in(pair)
        self.due[pair[0]].sort()

    def both(self, ends):
        """The two directions of a link."""
        return (ends[-2], ends[-1]), (ends[-1], ends[-2])

    def node_at(self, move):
        """Where the move brings a packet."""
        return self.run.node_of[move.words[1]] if move.words[0] == "inject" else move.words[2]

    def found(self):
        """All moves, each with what it did: the first way through the journal that uses every frame and delivery."""
        trail, tries, farthest = [self.choices(0)], 0, 0  # of each step so far the choices that weren't tried yet, the next one last
        while trail and tries < MOST_TRIES:
            at = len(trail) - 1
            choice = self.next_choice(at, trail[-1])
            if choice is None:
                tries += 1
                trail.pop()
                if trail:
                    self.undo(self.moves[at - 1])
                continue
            if not trail[-1]:
                trail[-1] = NONE
            if at == len(self.moves):
                return self.moves
            self.do(self.moves[at], choice)
            trail.append(self.choices(at + 1))
            farthest = max(farthest, at + 1)
        place = self.run.place(self.moves[farthest].step) + ": this step" if farthest < len(self.moves) else f"{self.run.folder}: the journal's end"
        advice = "" if self.ways is not None else " (the report would help)"
        raise Fault(f"{place} fits no frame of the links' captures{advice}")

    def next_choice(self, at, untried):
        """The next of the choices after which all can still be sent in time."""
        while untried:
            choice = untried.pop()
            if self.ways is not None or choice[0] in ("lose", "end", "pass") or self.is_in_time(at, choice):
                return choice
        return None

    def is_used_before(self, tick):
        """Each frame and delivery of a tick before this one has its step."""
        waiting = [self.run.frames[link][at].tick for link, at in self.next.items() if at < len(self.run.frames[link])]
        waiting += [when for when, _ in self.run.delivered[self.delivered : self.delivered + 1]]
        return not waiting or tick is not None and min(waiting) >= tick

    # What a step may have done: ("send", node, node), ("deliver",), ("drop",), ("lose",) or ("pass", of each link the
    # least age of its frames that are overdue by it, and what its life may be then).

    def choices(self, at):
        """What the move may have done, the likeliest last."""
        if at == len(self.moves):
            return [("end",)] if self.is_used_before(None) and self.flies_on() else NONE
        move = self.moves[at]
        kind, *rest = move.words
        if (at == 0 or self.moves[at - 1].tick < move.tick) and not self.is_used_before(move.tick):
            return NONE
        if kind == "tick":
            return self.passing(at, move)
        if kind == "link":
            cut = [flight for pair in self.both(rest) for flight in self.flying[pair]]
            return [LOSE] if all(self.ends_as(flight, "LinkCut") for flight in cut) else NONE
        if kind == "inject":
            node = self.node_at(move)
            return self.onward(move, node, None) if self.was_at(move.packet, 0, node) else NONE
        flights, place = self.flying[rest[0], rest[1]], int(rest[2])
        if place >= len(flights):
            return NONE
        flight = flights[place]
        if kind == "lose":
            return [LOSE] if self.ends_as(flight, "Lost") else NONE
        return self.onward(move, rest[1], flight) if self.was_at(flight.packet, flight.nodes, rest[1]) else NONE

    def flies_on(self):
        """What flies at the end is what the report says of it."""
        return self.ways is None or all(self.ways[flight.packet - 1].end == "flying" for flights in self.flying.values() for flight in flights)

    def passing(self, at, move):
        """Which frames may be overdue by a `tick`: of each link those of some age and more, the likeliest way last."""
        clock, links = move.tick + passed(move.words), []
        for link in self.run.links:
            if flights := [flight for pair in self.both(link) for flight in self.flying[pair]]:
                links.append([(link, *way) for way in self.passing_on(link, flights, clock, at == self.last_tick)])
        if not all(links):
            return NONE
        ways = [dict((link, (age, life)) for link, age, life in way) for _, way in zip(range(MOST_WAYS), product(*links))]
        return [("pass", way) for way in reversed(ways)]

    def passing_on(self, link, flights, clock, is_last):
        """The ways in which the time may pass for the frames of a link, the likeliest first."""
        least, most = self.lives[link]
        ages = sorted({clock - flight.frame.tick for flight in flights})
        may_end = {age: all(self.ends_as(flight, "Overdue") for flight in flights if clock - flight.frame.tick == age) for age in ages}
        ways = []
        for place, age in enumerate([*ages, MOST_LIFE + clock]):
            low, high = max(least, ages[place - 1] if place else 1), min(most, age - 1)
            if low <= high and all(may_end[later] for later in ages[place:]):
                ways.append((age, (low, high)))
        if self.ways is not None and is_last:
            return ways[:1]
        return sorted(ways, key=lambda way: not way[1][0] <= LIFE <= way[1][1])

    def was_at(self, packet, place, node):
        """The packet's path may have the node at the place."""
        if self.ways is None:
            return True
        nodes = self.ways[packet - 1].nodes
        return place < len(nodes) and nodes[place] == node

    def ends_as(self, flight, rule):
        """The flight's packet may have been dropped by the rule as it flew."""
        if self.ways is None:
            return True
        way = self.ways[flight.packet - 1]
        return way.end == "dropped" and way.words[0] == rule and len(way.nodes) == flight.nodes

    def onward(self, move, node, flight):
        """What may become of a packet at the node; it came there by the flight, or is new."""
        packet, been = (flight.packet, flight.nodes + 1) if flight else (move.packet, 1)
        receivers, may_end = self.neighbours[node], [DROP, DELIVER]
        if self.ways is not None:
            way = self.ways[packet - 1]
            if been < len(way.nodes):
                receivers, may_end = [way.nodes[been]], []
            elif way.end == "flying":
                receivers, may_end = [way.words[1]], []
            elif way.end == "delivered":
                receivers, may_end = [], [DELIVER] if int(way.words[2]) == self.delivered + 1 else []
            elif way.words[0] in ("Lost", "LinkCut", "Overdue"):
                may_end = []
            else:
                receivers, may_end = [], [DROP]
        if DELIVER in may_end and not self.delivers(move.tick, flight):
            may_end.remove(DELIVER)
        return may_end + [("send", node, to) for to in reversed(receivers) if self.sends(move, node, to, flight)]

    def is_in_time(self, at, choice):
        """After the choice the node has still enough moves to send, in time, what is taken later from its directions."""
        node = self.node_at(self.moves[at])
        due, moves, done = self.due[node], self.here[node], None
        if choice[0] == "send":
            pair = choice[1:]
            epoch, place = self.epochs[pair][len(self.sent[pair]) - 1], self.sent[pair][-1]
            done = bisect_left(due, epoch[place]) if place < len(epoch) else None
        gone = bisect_right(moves, at)
        for rank, later in enumerate(due[:AHEAD]):
            if rank != done and bisect_left(moves, later, gone) - gone <= rank - (done is not None and rank > done):
                return False
        return True

    def next_frame(self, sender, receiver):
        link = self.link_of.get((sender, receiver))
        frames = self.run.frames[link] if link else []
        return frames[self.next[link]] if link and self.next[link] < len(frames) else None

    def edge_of(self, frame, sender, receiver, step):
        """The edge to which a frame goes if the one node sends it to the other in this step, by the labels that were given; none if it can't."""
        *top, bottom = frame.stack
        if len(top) > 1:
            return None
        edge = self.mappings.fec(top[0].label, sender, receiver, step) if top else receiver
        return edge if edge and bottom.label in self.run.attachments.get(edge, ()) else None

    def sends(self, move, sender, receiver, flight):
        """The next frame of the link may go from the one to the other now, as what was received by the flight."""
        frame = self.next_frame(sender, receiver)
        if frame is None or frame.tick != move.tick:
            return False
        edge = self.edge_of(frame, sender, receiver, move.step)
        if edge is None or flight is None:
            return edge is not None
        before = flight.frame
        if len(before.stack) < 2 or frame.packet != before.packet or frame.stack[0].ttl != before.stack[0].ttl - 1:
            return False
        bottoms = (frame.stack[-1], before.stack[-1])
        return edge == flight.edge and (bottoms[0] == bottoms[1] if len(frame.stack) > 1 else bottoms[0].label == bottoms[1].label)

    def delivers(self, tick, flight):
        """The next delivery may be now, of the packet that the flight brought."""
        if self.delivered == len(self.run.delivered):
            return False
        when, packet = self.run.delivered[self.delivered]
        if when != tick or flight is None:
            return when == tick
        came = flight.frame.packet
        same = all(packet[part] == came[part] for part in (slice(0, 8), slice(9, 10), slice(12, None)))
        return len(flight.frame.stack) == 1 and flight.edge == flight.receiver and same

    def do(self, move, choice):
        """Does what was chosen for the step."""
        kind, *rest = move.words
        if kind == "link":
            move.took = tuple(flight for pair in self.both(rest) for flight in self.flying[pair])
            for pair in self.both(rest):
                self.flying[pair] = []
        elif kind == "tick":
            self.let_pass(move, choice[1])
        elif kind != "inject":
            move.took = (self.flying[rest[0], rest[1]].pop(int(rest[2])),)
        if choice[0] == "send":
            _, sender, receiver = choice
            frame = self.next_frame(sender, receiver)
            packet, been = (move.took[0].packet, move.took[0].nodes + 1) if move.took else (move.packet, 1)
            move.sent = Flight(packet, been, sender, receiver, self.edge_of(frame, sender, receiver, move.step), frame)
            self.next[self.link_of[sender, receiver]] += 1
            self.flying[sender, receiver].append(move.sent)
        elif choice[0] == "deliver":
            self.delivered += 1
            move.end = ("delivered", self.delivered)
        else:
            move.end = DROPPED if choice[0] == "drop" else LOST
        if self.ways is None:
            self.count(move, +1)

    def let_pass(self, move, way):
        """The frames of a `tick` that are overdue by it end."""
        clock = move.tick + passed(move.words)
        pairs = [(pair, least) for link, (least, _) in way.items() for pair in self.both(link)]
        move.took = tuple(flight for pair, least in pairs for flight in self.flying[pair] if clock - flight.frame.tick >= least)
        move.before = {pair: self.flying[pair] for pair, _ in pairs}, {link: self.lives[link] for link in way}
        for pair, least in pairs:
            self.flying[pair] = [flight for flight in self.flying[pair] if clock - flight.frame.tick < least]
        self.lives |= {link: life for link, (_, life) in way.items()}

    def undo(self, move):
        """Undoes what was done last, for this step."""
        kind, *rest = move.words
        if self.ways is None:
            self.count(move, -1)
        if move.sent:
            self.flying[move.sent.sender, move.sent.receiver].pop()
            self.next[self.link_of[move.sent.sender, move.sent.receiver]] -= 1
        elif move.end[0] == "delivered":
            self.delivered -= 1
        if kind == "link":
            for flight in move.took:
                self.flying[flight.sender, flight.receiver].append(flight)
        elif kind == "tick":
            self.flying |= move.before[0]
            self.lives |= move.before[1]
        elif move.took:
            self.flying[rest[0], rest[1]].insert(int(rest[2]), move.took[0])
        move.took, move.sent, move.end, move.before = (), None, None, None

    def count(self, move, by):
        """Counts what the move sent, and the epochs that it began; or counts back."""
        if move.sent:
            pair = (move.sent.sender, move.sent.receiver)
            place = self.sent[pair][-1] - (by < 0)
            for later in self.epochs[pair][len(self.sent[pair]) - 1][place : place + 1]:
                remove(self.due[pair[0]], later) if by > 0 else insort(self.due[pair[0]], later)
            self.sent[pair][-1] += by
        elif move.words[0] == "link":
            for pair in self.both(move.words):
                for later in self.due_in(pair):
                    remove(self.due[pair[0]], later)
                self.sent[pair].append(0) if by > 0 else self.sent[pair].pop()
                self.add_due(pair)


def remove(places, one):
    """Takes a number out of numbers in order."""
    places.pop(bisect_left(places, one))
