"""Two networks joined site to site, for reference.py: the list of joints, the script for both, and what crosses.

Each network has a clock, a journal and packets of its own. A packet that a step delivers at a joint is sent into the
other network at once, at the site that is joined there; it may come back the same way.
"""

import re
from dataclasses import dataclass, field

from reference_inputs import FORMS, Refused, lines_of, read_line, script_lines, words_of

JOIN_FORMS = {form: kinds for form, kinds in FORMS.items() if form.split()[0] not in ("run", "show")}
JOINTS_BYTES = 1_048_576
OF_RECORDS = ("inject", "damage ldp", "damage bgp")


def read_joints(first, second, bytes_):
    """The pairs of joined sites, of the first network and of the second."""
    if len(bytes_) > JOINTS_BYTES:
        raise Refused("too large joints bytes")
    joints = []
    for at, line in enumerate(lines_of(bytes_), 1):
        words = [word for word in re.split("[ \t]+", line) if word]
        if len(words) != 2:
            raise Refused(f"joints refused J1 WrongCount at line {at}")
        sites = first.named("site", words[0]), second.named("site", words[1])
        if None in sites:
            raise Refused(f"joints refused J2 NoSuchName at line {at}")
        if any(sites[0] == one or sites[1] == other for one, other in joints):
            raise Refused(f"joints refused J3 TwiceJoined at line {at}")
        joints.append(sites)
    return joints


def read_pair_script(topologies, bytes_):
    """The commands, each with the number of its line and, from 0, that of its network."""
    commands = []
    for at, line in enumerate(script_lines(bytes_), 1):
        words = words_of(line)
        if words and words[0] not in ("1", "2"):
            raise Refused(f"script refused S1 UnknownWord at line {at}")
        if len(words) > 1:
            which = int(words[0]) - 1
            commands.append((at, which, read_line(topologies[which], words[1:], at, JOIN_FORMS)))
    return commands


@dataclass
class Crossing:
    """A packet that a line sent: its legs, each a network and the number of a packet there, and its refusal, if any."""

    line: int
    record: int
    legs: list = field(default_factory=list)
    refused: str = None


class Pair:
    """Two networks, and the packets that were sent into them."""

    def __init__(self, networks, joints):
        self.networks = networks
        self.partners = [dict(joints), {other: one for one, other in joints}]
        self.owners = [[], []]  # of each packet of each network the crossing that it is a leg of
        self.crossings, self.exits = [], []

    def inject(self, which, crossing, site, bytes_):
        """Sends a leg; the refusal, None where it is sent."""
        refusal = self.networks[which].do(("inject", site, crossing.record), crossing.line, bytes_)
        if refusal is None:
            crossing.legs.append((which, len(self.owners[which])))
            self.owners[which].append(crossing)
        return refusal

    def send(self, which, line, site, record, bytes_):
        """Does a line that sends a packet; the refusal, None where it is sent."""
        crossing, delivered = Crossing(line, record), len(self.networks[which].deliveries)
        refusal = self.inject(which, crossing, site, bytes_)
        if refusal is None:
            self.crossings.append(crossing)
            self.hand_on(which, delivered)
        return refusal

    def hand_on(self, which, delivered):
        """What the network's last step delivered, if it did, goes on: so many were delivered there before the step."""
        while len(self.networks[which].deliveries) > delivered:
            network = self.networks[which]
            tick, bytes_ = network.deliveries[-1]
            copy = f"copy {len(network.deliveries)}"
            packet = next(no for no, one in enumerate(network.packets) if one.verdict.endswith(f" {copy}"))
            name = network.packets[packet].verdict.split()[1]
            site, crossing = network.topology.named("site", name), self.owners[which][packet]
            if site not in self.partners[which]:
                self.exits.append((tick, bytes_))
                return
            which, site = 1 - which, self.partners[which][site]
            delivered = len(self.networks[which].deliveries)
            refusal = self.inject(which, crossing, site, bytes_)
            if refusal:
                crossing.refused = refusal
                return

    def step(self, which, step, bytes_=b""):
        """Does a step other than sending a packet; the refusal, None where it is done. The bytes come in place of a message."""
        delivered = len(self.networks[which].deliveries)
        refusal = self.networks[which].do(step, bytes_=bytes_)
        if refusal is None:
            self.hand_on(which, delivered)
        return refusal

    def end(self, crossing):
        if crossing.refused:
            return f"refused {crossing.refused}"
        which, packet = crossing.legs[-1]
        return self.networks[which].packets[packet].verdict.split(" copy ")[0]

    def lines(self):
        """A line for each packet, and the total."""
        for number, crossing in enumerate(self.crossings, 1):
            legs = ""
            for which, packet in crossing.legs:
                sites = self.networks[which].topology.sites
                legs += f" net {which + 1} site {sites[self.networks[which].packets[packet].site].name}"
            yield f"packet {number} line {crossing.line} record {crossing.record}{legs} {self.end(crossing)}"
        ends = [self.end(crossing).split()[0] for crossing in self.crossings]
        counts = " ".join(f"{end} {ends.count(end)}" for end in ("delivered", "dropped", "flying", "refused"))
        yield f"total packets {len(ends)} {counts}"


def play(pair, commands, packets, arrive, notes):
    """Runs the script; notes get the report's refused lines. `arrive` has, by verb, what arrives by it step by step."""
    for line, which, (verb, *given) in commands:
        network, refusal = pair.networks[which], None
        if verb in arrive:
            delivered = len(network.deliveries)
            for _ in arrive[verb](network, *given):
                pair.hand_on(which, delivered)
                delivered = len(network.deliveries)
        elif verb in OF_RECORDS and given[-1] > len(packets):
            refusal = "NoRecord"
        elif verb == "inject":
            refusal = pair.send(which, line, *given, packets[given[1] - 1])
        else:
            refusal = pair.step(which, (verb, *given), packets[given[-1] - 1] if verb in OF_RECORDS else b"")
        if refusal:
            notes.append(f"line {line} refused {refusal}")
