"""What is lost while a network converges: changes, the scripts that ask, and what their runs say.

`run_job` is a plain function of a job. It may be called in any process, and on any machine that has the program.
"""

import random
import shutil
import tempfile
from dataclasses import dataclass, field, replace
from pathlib import Path

import mplsnet.whatif as whatif
from mplsnet.files import Fault
from mplsnet.knowledge import Net
from mplsnet.loops import ways_into
from mplsnet.pcap import capture_of, udp_packet
from mplsnet.topology import topology_text

WAYS = ("down", "up")
TTL, MOST_TTL = 64, 255
MOST_DELAY, LONG = 1_000, 1_000_000  # ticks: the greatest delay, and of a `run` after which all is settled
MOST_POINTS = 100  # ticks of a window at which packets are sent, where none are asked for
POINTS, AT_A_POINT, HEARD = 24, 2, 3  # of an order: points, packets at each, and messages of each channel
SENT = "inject"  # among a case's lines: the place of its packet


# Changes.


@dataclass(frozen=True)
class Change:
    """A failure, which comes and goes, and the links that it touches; `pairs` are the probes that it is asked of."""

    failure: whatif.Failure
    links: tuple
    pairs: tuple = ()

    def lines(self, way):
        return self.failure.down if way == "down" else self.failure.up

    def before(self, way):
        """The lines from the settled network, with all up, to the one before the change goes this way."""
        return [] if way == "down" else [*self.failure.down, "drain"]

    def after(self, way):
        """The lines that lead back, once it has."""
        return ["drain", *self.failure.up, "drain"] if way == "down" else ["drain"]

    def notices(self, net):
        """The lines by which nodes learn of it."""
        if self.failure.kind not in ("link", "node"):
            return []
        return [f"learn {node} {whatif.link_words(net, link)}" for link in self.links for node in net.nodes]


def changes_of(net, kinds):
    """The changes of these kinds, each of a failure. No session of BGP ends with a link: its hold timer is longer than convergence takes."""
    return [Change(failure, links_of(net, failure)) for failure in whatif.failures_of(net, kinds, True)]


def links_of(net, failure):
    return tuple(net.link_of[net.number[a], net.number[b]] for kind, _, a, b in map(str.split, failure.down) if kind != "bgp")


# Probes.


class Edges:
    """Towards which edges a probe may be sent, by the routes that its VRF may hold."""

    def __init__(self, net):
        self.net, self.routes = net, {}  # of each VRF, length and first bits the routes' ranks and edges
        sources = {}
        for site, prefixes in enumerate(net.prefixes):
            for first, length in prefixes:
                sources.setdefault(net.vrf_of[site], []).append((length, first >> 32 - length))
        for vrf in range(len(net.vrfs)):
            table = self.routes[vrf] = {}
            for other, prefixes in sources.items():
                if net.takes(vrf, other):
                    for of in prefixes:
                        table.setdefault(of, []).append((net.rank(vrf, other), net.vrfs[other].node))

    def of(self, probe):
        """The edge where the probe enters, and those that it may be sent towards, the most preferred first."""
        vrf, address = self.net.vrf_of[self.net.site_number[probe.site]], int.from_bytes(probe.address, "big")
        found = []
        for length in range(32, -1, -1):
            found += [edge for _, edge in sorted(self.routes[vrf].get((length, address >> 32 - length), ()))]
        return self.net.vrfs[vrf].node, list(dict.fromkeys(found))


def concerned(hops, ends, change):
    """The probes that the change may concern: all others are on walks that it leaves as they are."""
    net, failure = hops.net, change.failure
    known, found = {}, []
    session = set(map(net.number.get, failure.down[0].split()[2:])) if failure.kind == "bgp" else None
    for probe, (source, edges) in enumerate(ends):
        for edge in edges:
            key = source, edge
            if key not in known:
                known[key] = set(key) == session if session else hops.is_concerned(source, edge, change.links)
            if known[key]:
                found.append(probe)
                break
    return tuple(found)


# Runs.


@dataclass
class Job:
    """Work that one process does: a question, and what it is asked of."""

    ask: str
    program: str
    path: str  # the topology's, for what is said of it
    tables: dict
    probes: list
    work: list
    ways: tuple = WAYS
    seed: int = 0
    every: int | None = None  # the ticks from one packet of a pair to the next; none where they are few enough
    delays: tuple | None = None  # the least and the greatest of those that are drawn
    draw: int = 0
    room: str | None = None

    @property
    def net(self):
        if not hasattr(self, "_net"):
            self._net = Net(self.path, {kind: self.tables.get(kind, []) for kind in ("node", "link", "vrf", "site")})
        return self._net

    def drawn(self):
        """The tables, with the delays that are drawn where they are."""
        if self.delays is None:
            return self.tables
        rng = random.Random(f"{self.seed} {self.draw}")
        links = [link | {"delay": rng.randint(*self.delays)} for link in self.tables.get("link", [])]
        links = [link | {"life": max(link.get("life", 2_000), link["delay"])} for link in links]
        return self.tables | {"link": links, "bgp_delay": rng.randint(*self.delays), "notice_delay": MOST_DELAY}

    def topology(self):
        return topology_text(self.drawn()).encode()


class Script:
    """The lines of a script, and the packets that it sends, each with its mark."""

    def __init__(self, job):
        self.job, self.program, self.path, self.topology = job, job.program, job.path, job.topology()
        self.lines, self.records, self.marks = [*whatif.bring_up(job.net, True), "drain"], {}, {}

    def add(self, *lines):
        self.lines += lines

    def send(self, probe, mark=None, ttl=TTL):
        record = self.records.setdefault((probe, ttl), len(self.records) + 1)
        self.lines.append(f"inject {self.job.probes[probe].site} {record}")
        self.marks[len(self.lines)] = (probe, mark)

    def script(self):
        return "\n".join(self.lines) + "\n"

    def capture(self):
        probes = self.job.probes
        return capture_of([udp_packet(probes[probe].source, probes[probe].address, ttl) for probe, ttl in self.records])


@dataclass(frozen=True)
class Fall:
    """What became of a packet that reached no site that it was meant for: the rule and the node that dropped it.

    Where it was delivered elsewhere the rule is Astray, the node is the last of its path, and `astray_to` is the site.
    """

    rule: str
    node: str
    astray_to: str | None = None

    def words(self):
        return f"{self.rule} at {self.node}" if self.astray_to is None else f"astray to {self.astray_to}"


@dataclass(frozen=True)
class End:
    """How a packet ended: its probe and mark, what became of it where it wasn't reached, and its path."""

    probe: int
    mark: object
    fall: Fall | None
    path: str


class Reading(whatif.Reading):
    """A run of a script, and what became of its packets."""

    def ends(self, may_be_empty=False):
        found = []
        with open(self.folder / "report", encoding="latin-1") as report:
            for line in report:
                if line.startswith("packet "):
                    found.append(self.end(line))
                elif line.startswith("line ") and not (may_be_empty and line.split()[3] in ("Empty", "Unchanged")):
                    raise Fault(f"{self.job.path}: the program refused a line of the script: {line.rstrip()}", 3)
        return found

    def end(self, line):
        said, _, path = line.rstrip("\n").partition(" path ")
        words = said.split(" ")
        probe, mark = self.job.marks[int(words[3])]
        verdict, what, last = words[8], words[9], path.rsplit(" ", 1)[-1]
        if verdict == "delivered":
            fall = None if what in self.job.job.probes[probe].to else Fall("Astray", last, what)
        else:
            fall = Fall(what, last) if verdict == "dropped" else Fall("Flying", last)
        return End(probe, mark, fall, path)

    def steps(self):
        with open(self.out / "journal.txt", "rb") as journal:
            return sum(1 for _ in journal)


def run(script, folder, name):
    """Runs the script in a folder of its own."""
    place = folder / name
    place.mkdir()
    return Reading(script, place)


def run_job(job):
    """The answer of each part of the work; none where the run takes too many steps."""
    folder = whatif.WORKING["folder"] = tempfile.mkdtemp(prefix="mplsnet-orders-", dir=job.room)
    try:
        return ASKED[job.ask](job, Path(folder))
    except whatif.TooLarge:
        return None
    finally:
        shutil.rmtree(folder, ignore_errors=True)
        whatif.WORKING.pop("folder", None)


# At rest: which pairs are reached, and by which change they are cut.


def at_rest(job, folder):
    """How all probes end in the settled network, and the steps that it takes; the work is of no change."""
    script = Script(job)
    for probe in range(len(job.probes)):
        script.send(probe)
    script.add("flush")
    reading = run(script, folder, "rest")
    return [(reading.ends(), reading.steps())]


def surveyed(job, folder):
    """Of each change the probes, of those that it concerns, that are reached once it has settled."""
    script = Script(job)
    for number, change in enumerate(job.work):
        script.add(*change.lines("down"), "drain")
        for probe in change.pairs:
            script.send(probe, number)
        script.add("flush", *change.lines("up"), "drain")
    reached = [[] for _ in job.work]
    for end in run(script, folder, "survey").ends():
        if end.fall is None:
            reached[end.mark].append(end.probe)
    return reached


# Loops: each that was found is shown.


@dataclass(frozen=True)
class Witness:
    """An order that shows a loop: the change and its way, the lines by which nodes learn, and the packet that goes round."""

    change: Change
    way: str
    learns: tuple
    probe: int
    ttl: int
    path: str

    def lines(self):
        return [*self.change.lines(self.way), *self.learns]


def witness_of(net, change, way, loop, choices, probe, source):
    """The order in which the nodes of the loop that must have learned have, and those of the way to it; a packet goes round twice."""
    walk = [*ways_into(choices, loop.nodes)[source]]
    at = loop.nodes.index(walk.pop())
    nodes = loop.nodes[at:] + loop.nodes[:at]
    learned = dict.fromkeys(node for node in (*walk, *nodes) if goes_by_the_new(choices, [*walk, *nodes, nodes[0]], node, way))
    learns = [f"learn {net.nodes[node]} {whatif.link_words(net, loop.link)}" for node in learned]
    ttl = min(len(walk) + 2 * len(nodes), MOST_TTL)
    path = ([*walk] + [*nodes] * 2)[:ttl]
    return Witness(change, way, tuple(learns), probe, ttl, " ".join(net.nodes[node] for node in path))


def goes_by_the_new(choices, walk, node, way):
    """The node's hop on the walk is the one that it has learned, and not the one that it had before."""
    kinds = choices[node][walk[walk.index(node) + 1]]
    return kinds == {"without" if way == "down" else "with"}


def shown(job, folder):
    """Of each witness how its packet ended."""
    script = Script(job)
    for number, witness in enumerate(job.work):
        script.add(*witness.change.before(witness.way), *witness.lines())
        script.send(witness.probe, number, witness.ttl)
        script.add("flush", *witness.change.after(witness.way))
    return run(script, folder, "loops").ends()


# Window: by the delays, from which tick to which.


@dataclass
class Window:
    """Of a change in one way: the ticks until it had settled, those at which packets were sent, and what was lost: (probe, tick, fall)."""

    change: int
    way: str
    draw: int
    settled: int
    every: int
    sent: int = 0
    lost: list = field(default_factory=list)


def learned_at(job, change, way):
    """Of each tick the lines by which nodes learn at it, where delays are drawn: each node has its own."""
    found = {}
    if job.delays is not None:
        rng = random.Random(f"{job.seed} {job.draw} {change.failure} {way}")
        for line in change.notices(job.net):
            found.setdefault(rng.randint(*job.delays), []).append(line)
    return found


def timed(script, change, way, learns, points, send):
    """Adds the change and what comes after it by the clock: what is learned, and at some ticks packets. The tick at which it ends."""
    now = 0
    script.add(*change.lines(way))
    for tick in sorted({*learns, *points}):
        if tick > now:
            script.add(f"run {tick - now}")
            now = tick
        script.add(*learns.get(tick, ()))
        if tick in points:
            send(tick)
    return now


def settling(job, folder):
    """Of each change and way the ticks until the last notice is learned and the last message heard."""
    script = Script(job)
    for change in job.work:
        for way in WAYS:
            now = timed(script, change, way, learned_at(job, change, way), (), None)
            script.add(f"run {LONG - now}")
    found = [0] * (2 * len(job.work))
    reading = run(script, folder, "settling")
    reading.ends()
    with open(reading.out / "journal.txt", encoding="ascii") as journal:
        for line in journal:
            block, tick = divmod(int(line.split(" ", 1)[0]), LONG)
            if block >= len(found):
                raise Fault(f"{job.path}: {job.work[-1].failure} hasn't settled after {LONG} ticks", 3)
            found[block] = tick
    return found


def windows(job, folder):
    """Of each change and way what is lost of packets that are sent tick by tick until it has settled."""
    script, times, found = Script(job), settling(job, folder), []
    for number, change in enumerate(job.work):
        for at, way in enumerate(WAYS):
            settled = times[2 * number + at]
            every = job.every or -(-(settled + 1) // MOST_POINTS)
            window = Window(number, way, job.draw, settled, every)
            points = range(0, settled + 1, every) if way in job.ways else ()

            def send(tick):
                for probe in change.pairs:
                    script.send(probe, (window, tick))

            now = timed(script, change, way, learned_at(job, change, way), points, send)
            script.add(f"run {max(settled - now, 0) + 1}", "flush", "drain")
            if way in job.ways:
                window.sent = len(points) * len(change.pairs)
                found.append(window)
    for end in run(script, folder, "window").ends():
        if end.fall is not None:
            window, tick = end.mark
            window.lost.append((end.probe, tick, end.fall))
    return found


# Orders: drawn at random, with packets while all else stands still.


@dataclass
class Order:
    """A random order of a change in one way: its packets, and those lost: (place among its actions, probe, fall)."""

    change: int
    way: str
    number: int
    sent: int = 0
    lost: list = field(default_factory=list)


def channels(hops, change):
    """The directions of links by which LDP may have something to say: those of nodes whose walks to edges the change concerns."""
    net = hops.net
    told = {end for link in change.links for end in net.links[link][:2]}
    told |= {node for node in range(len(net.nodes)) if any(hops.is_concerned(node, edge, change.links) for edge in net.edges if edge != node)}
    links = [link for link, (a, b, _) in enumerate(net.links) if {a, b} & told]
    return [(a, b) for link in links if link not in change.links for a, b in (net.links[link][:2], net.links[link][1::-1])]


@dataclass(frozen=True)
class Acts:
    """A change with the lines of which an order is made, each way."""

    change: Change
    down: tuple
    up: tuple
    numbers: tuple  # of the orders


def acts_of(hops, change, numbers):
    """The lines of which orders are made: all notices; messages of those that may have some to say, and of sessions that begin all."""
    net, name = hops.net, hops.net.nodes
    lines = change.notices(net)
    if change.failure.kind == "bgp":
        a, b = change.failure.down[0].split()[2:]
        count = HEARD + sum(len(prefixes) for site, prefixes in enumerate(net.prefixes) if name[net.edge_of(site)] in (a, b))
        return Acts(change, (), tuple([f"hear bgp {a} {b}", f"hear bgp {b} {a}"] * count), numbers)
    lines += [f"hear ldp {name[a]} {name[b]}" for a, b in channels(hops, change)] * HEARD
    begun = [f"hear ldp {name[a]} {name[b]}" for link in change.links for a, b in (net.links[link][:2], net.links[link][1::-1])]
    return Acts(change, tuple(lines), tuple(lines + begun * (len(name) + HEARD)), numbers)


def order_of(seed, acts, way, number):
    """The actions of an order: lines, and probes that are sent between them."""
    rng = random.Random(f"{seed} {acts.change.failure} {way} {number}")
    lines = [*(acts.down if way == "down" else acts.up)]
    rng.shuffle(lines)
    apart = max(1, len(lines) // POINTS)
    actions = []
    for at in range(0, max(len(lines), 1), apart):
        actions += [rng.choice(acts.change.pairs) for _ in range(AT_A_POINT)]
        actions += lines[at : at + apart]
    return actions


def orders(job, folder):
    """What is lost in random orders of each change."""
    script, found = Script(job), []
    for at, acts in enumerate(job.work):
        for number in acts.numbers:
            for way in WAYS:
                script.add(*acts.change.lines(way))
                if way in job.ways:
                    found.append(Order(at, way, number))
                    add_order(script, found[-1], order_of(job.seed, acts, way, number))
                script.add("drain")
    for end in run(script, folder, "orders").ends(may_be_empty=True):
        order, place = end.mark
        order.sent += 1
        if end.fall is not None:
            order.lost.append((place, end.probe, end.fall))
    return found


def add_order(script, order, actions):
    for place, action in enumerate(actions):
        if isinstance(action, str):
            script.add(action)
        else:
            script.send(action, (order, place))
            script.add("flush")


# A script for one packet, as short as can be.


@dataclass(frozen=True)
class Case:
    """A packet that is lost: what comes before its change, the lines of it, of which number `sent` sends the packet, and how it ends."""

    change: Change
    way: str
    lines: tuple
    sent: int
    probe: int
    ttl: int
    fall: Fall
    draw: int = 0


class Lines(list):
    """Lines alone, in place of a script."""

    def add(self, *lines):
        self += lines


def window_lines(job, change, window, tick):
    """The lines of a window with one packet, at the tick."""
    lines = Lines()
    now = timed(lines, change, window.way, learned_at(job, change, window.way), (tick,), lambda _: lines.add(SENT))
    return (*lines, f"run {max(window.settled - now, 0) + 1}")


def tried(job, folder):
    """Of each case whether its packet falls by the same rule at the same node."""
    script, kept = Script(job), []
    for number, case in enumerate(job.work):
        script.add(*case.change.before(case.way), *case.lines[: case.sent])
        script.send(case.probe, number, case.ttl)
        script.add(*case.lines[case.sent + 1 :], "flush", *case.change.after("down"))
    for end, case in zip(run(script, folder, "case").ends(may_be_empty=True), job.work):
        kept.append(end.fall == case.fall)
    return kept


def without(case, places):
    """The case without the lines at these places."""
    left = tuple(line for place, line in enumerate(case.lines) if place not in places)
    return replace(case, lines=left, sent=case.sent - sum(place < case.sent for place in places))


def shrunk(case, trial):
    """The case with as few lines as it takes: no line of it can be left out, and the packet falls by the same rule at the same node.

    `trial` tells of a list of cases which are so. Parts that can be left out one by one are left out together as far as that goes.
    """
    size = len(case.lines)
    while size:
        parts = [range(at, min(at + size, len(case.lines))) for at in range(0, len(case.lines), size)]
        parts = [set(part) - {case.sent} for part in parts]
        parts = [part for part, is_free in zip(parts, trial([without(case, part) for part in parts])) if part and is_free]
        if not parts:
            size = size // 2
            continue
        together = [set().union(*parts[: count + 1]) for count in range(len(parts))]
        free = [many for many, is_free in zip(together, trial([without(case, many) for many in together])) if is_free]
        case = without(case, free[-1])
    return case


ASKED = {"rest": at_rest, "survey": surveyed, "loops": shown, "window": windows, "orders": orders, "case": tried}
