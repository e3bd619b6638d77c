"""Answers expectations by the program: what becomes of their packets without a failure and with each, and what falls short of what is expected."""

from dataclasses import dataclass, field

import mplsnet.reach as reach
import mplsnet.whatif as whatif
from mplsnet.files import Fault, way_of
from mplsnet.knowledge import contains, prefix_text

SIZES = {"link": 1, "ldp": 2, "bgp": 3, "node": 4, "links": 5}  # which failure is smaller


@dataclass
class Job(whatif.Job):
    """Packets under failures, with the numbers of those that are to arrive: why they don't is told.

    Where `mplsnet reach` answers, `topology` is the one that it is asked of, `of_pair` has the packets by its pairs, and `fixed` how others end always.
    """

    wanted: frozenset = frozenset()
    keep_bgp: bool = False
    of_pair: dict | None = None
    fixed: dict = field(default_factory=dict)


@dataclass(frozen=True)
class End:
    """How a packet ended: at a site, or by a rule at a node; and its path."""

    site: str | None
    rule: str
    node: str
    path: tuple


@dataclass
class Outcome:
    """How each packet ended in one failure; of those lost that were to arrive the reasons stand in `lost`, by whatif's Reading."""

    failure: whatif.Failure | None
    ends: list
    lost: list
    steps: int = 0


@dataclass(frozen=True)
class Short:
    """What falls short: of which packet, by its number, in which failure, and why."""

    failure: whatif.Failure | None
    packet: int
    what: str  # the rule that dropped it, or 'Astray', 'Arrives', 'Path'
    node: str
    path: tuple
    why: str


class Reading(whatif.Reading):
    """Runs a job's script, and reads how each packet ended."""

    def outcomes(self):
        found, job = [], self.job
        for number, ends in enumerate(self.ends()):
            failure = job.failures[number - 1] if number else None
            ends = [end if failure is None or failure.node != end.path[0] else down(failure, end) for end in ends]
            lost = [(at, end) for at, end in enumerate(ends) if at in job.wanted and end.site is None]
            found.append(Outcome(failure, ends, [whatif.Loss(at, end.rule, end.node, reason_of(end)) for at, end in lost]))
        self.with_reasons(found)
        return found

    def ends(self):
        """Of the run without a failure, and then of each failure, how each packet ended."""
        ends, count = [], len(self.job.probes)
        with open(self.folder / "report", encoding="latin-1") as report:
            for line in report:
                if line.startswith("line "):
                    raise Fault(f"{self.job.path}: the program refused a line of the script: {line.rstrip()}", 3)
                if line.startswith("packet "):
                    ends.append(end_of(way_of(self.job.path, line.split())))
                if ends and len(ends) == count:
                    yield ends
                    ends = []


def end_of(way):
    rule, node = way.words if way.end == "dropped" else ("", "")
    return End(way.words[0] if way.end == "delivered" else None, rule, node, tuple(way.nodes))


def down(failure, end):
    """Nothing comes from a site whose node is down."""
    return End(None, "NodeDown", failure.node, end.path[:1])


def reason_of(end):
    return f"node {end.node} is down" if end.rule == "NodeDown" else ""


def run_job(job):
    """The outcome without a failure, and then that of each failure; none where the run takes too many steps."""
    try:
        with whatif.working(job.room, "mplsnet-expect-") as folder:
            return Reading(job, folder).outcomes()
    except whatif.TooLarge:
        return None


# By `mplsnet reach`.


class Pairs(reach.Pairs):
    """Which pair of reach tells of which packet: that of the longest prefix around its address of which the sender's VRF knows."""

    def __init__(self, net, tables, packets):
        super().__init__(net, tables, [])
        self.pairs, self.fixed = {}, {}
        for number, packet in enumerate(packets):
            self.place(number, packet)
        self.check()

    def place(self, number, packet):
        """The packet's pair; or how it ends always: with no route, or at its own site, which has the prefix."""
        site, at = self.net.site_number[packet.site], int.from_bytes(packet.address, "big")
        vrf, edge = self.net.vrf_of[site], self.net.nodes[self.net.edge_of(site)]
        of = max((one for one in self.reaches[vrf].prefixes if contains(one, at)), key=lambda one: one[1], default=None)
        if of is None:
            self.fixed[number] = "dropped", f"NoRoute {edge}", edge
        elif of in self.net.prefixes[site]:
            self.fixed[number] = "delivered", packet.site, edge
        else:
            self.pairs[number] = f"{packet.site} {prefix_text(of if at == whatif.first_address(of) else self.free(of, vrf))}"

    def of(self, numbers):
        """Of these packets, by their places among them, which pairs tell of which, and how the others end."""
        of_pair = {}
        for at, number in enumerate(numbers):
            if number in self.pairs:
                of_pair.setdefault(self.pairs[number], []).append(at)
        return of_pair, {at: self.fixed[number] for at, number in enumerate(numbers) if number in self.fixed}


class Asking(reach.Asking):
    """Asks reach of a job's failures, and reads how each packet ended."""

    def __init__(self, job, folder):
        lines, failures = list(map(reach.line_of, job.failures)), tuple(job.failures)
        about = job.program, job.path, job.topology, job.tables, job.bring_up, job.keep_bgp, job.probes, job.of_pair
        super().__init__(reach.Part(*about, 0, lines, failures), folder)
        self.job = job

    def base(self, ends):
        self.ends = [self.job.fixed.get(at, end) for at, end in enumerate(ends)]
        self.check(self.ends)
        return reach.Answered(self.ended(None, self.ends))

    def outcome(self, failure, changed):
        ends = list(self.ends)
        for pair, words in changed.items():
            for at in self.part.of_pair.get(pair, ()):
                ends[at] = self.end(at, words)
        for at in self.job.wanted:
            if ends[at] == self.ends[at] and ends[at][0] == "dropped" and ends[at][1].endswith(f" {self.edges[at]}"):
                ends[at] = "dropped", f"{self.reasons.rule(failure, self.part.probes[at])} {self.edges[at]}", self.edges[at]
        return self.ended(failure, ends)

    def ended(self, failure, ends):
        """The outcome, with the reasons why packets are lost that are to arrive."""
        ends = [End(what, "", "", tuple(path.split())) if verdict == "delivered" else End(None, *what.split(), (path,)) for verdict, what, path in ends]
        ends = [end if failure is None or failure.node != end.path[0] else down(failure, end) for end in ends]
        lost = [whatif.Loss(at, ends[at].rule, ends[at].node, reason_of(ends[at])) for at in sorted(self.job.wanted) if ends[at].site is None]
        return Outcome(failure, ends, self.reasons.told(failure, self.part.probes, lost), 1)


def ask_job(job):
    """The outcome without a failure, and then that of each failure, as reach answers."""
    with whatif.working(job.room, "mplsnet-expect-") as folder:
        answered = Asking(job, folder).answered()
        return [answered.base, *(outcome for _, outcome in answered.outcomes)]


# What falls short.


class Judge:
    """Holds what packets came to against what is expected of them."""

    def __init__(self, net, packets, lines):
        self.net, self.packets, self.lines, self.asked = net, packets, lines, {}
        for line in lines:
            for ask in line.asks:
                self.asked.setdefault(ask.packet, []).append((line, ask))

    def take(self, outcome, numbers):
        """An outcome of packets of these numbers."""
        reasons = {numbers[loss.probe]: loss.reason for loss in outcome.lost}
        failure = outcome.failure
        for number, end in zip(numbers, outcome.ends):
            for line, ask in self.asked[number]:
                if (failure is None or line.always or failure in line.failures) and line.counts(ask, failure):
                    line.counted.add(failure)
                    if short := self.arrived(ask, end, failure) if not ask.arrives else self.missed(line, ask, end, failure, reasons):
                        line.short.append(short)

    def sort(self):
        """What falls short in one order, whatever order runs ended in."""
        for line in self.lines:
            line.short.sort(key=lambda short: (size(self.net, short.failure), short.packet))

    def missed(self, line, ask, end, failure, reasons):
        """Why the packet isn't where it is to be, or not by a path as it is to be; none where it is."""
        path = " ".join(end.path)
        if end.site is None:
            reason = reasons.get(ask.packet)
            return Short(failure, ask.packet, end.rule, end.node, end.path, f"dropped {end.rule} at {end.node}" + (f": {reason}" if reason else ""))
        if end.site not in ask.sites:
            return Short(failure, ask.packet, "Astray", end.path[-1], end.path, f"astray to {end.site}, by {path}: {self.owning(end, ask)}")
        wrong = [] if is_within(line.via, end.path) else [f"it isn't via {' and then '.join(line.via)}"]
        wrong += [f"it is via {node}" for node in line.avoids if node in end.path]
        if line.most is not None and len(end.path) > line.most:
            wrong.append(f"it has {len(end.path)} nodes")
        return Short(failure, ask.packet, "Path", end.path[-1], end.path, f"its path is {path}: {', '.join(wrong)}") if wrong else None

    def arrived(self, ask, end, failure):
        """Why the packet came where it is not to come; none where it didn't."""
        if end.site not in ask.sites:
            return None
        return Short(failure, ask.packet, "Arrives", end.path[-1], end.path, f"arrives at {end.site}, by {' '.join(end.path)}: {self.shared(ask, end)}")

    def shared(self, ask, end):
        """What makes a site's prefixes known to the sender."""
        net = self.net
        ours, theirs = (net.vrf_of[net.site_number[name]] for name in (self.packets[ask.packet].site, end.site))
        if ours == theirs:
            return f"both are of VRF {net.vrfs[ours].name}"
        targets = sorted(net.vrfs[ours].imports & net.vrfs[theirs].exports)
        return f"VRF {net.vrfs[ours].name} imports {' and '.join(targets)}, which VRF {net.vrfs[theirs].name} exports"

    def owning(self, end, ask):
        """By which prefix the packet went where it wasn't to go."""
        at = int.from_bytes(self.packets[ask.packet].address, "big")
        found = [of for of in self.net.prefixes[self.net.site_number[end.site]] if contains(of, at)]
        return f"it has {prefix_text(max(found, key=lambda of: of[1]))}" if found else "the address is in no prefix of it"


def is_within(nodes, path):
    """The path has these nodes in this order."""
    rest = iter(path)
    return all(node in rest for node in nodes)


def smallest(shorts):
    """Those of the smallest failure, of shorts that are sorted, and all failures in order."""
    failures = list(dict.fromkeys(short.failure for short in shorts))
    return [short for short in shorts if short.failure == failures[0]], failures


def size(net, failure):
    """By which failures are sorted: none, a link, LDP on one, a session, a node, two links; those of a kind in the topology's order."""
    if failure is None:
        return 0, ()
    if failure.node is not None:
        return SIZES[failure.kind], (net.number[failure.node],)
    verb = "link" if failure.kind == "links" else failure.kind
    ends = [tuple(map(net.number.get, words[2:])) for words in map(str.split, failure.down) if words[0] == verb]
    return SIZES[failure.kind], tuple(ends if verb == "bgp" else map(net.link_of.get, ends))


# Runs.


@dataclass
class Share:
    """Failures that are run together, with the numbers of the packets that are sent in each."""

    failures: list
    packets: list


@dataclass
class Runs:
    """What is to be answered for expectations; `pool` takes jobs, `make` makes one of failures and packets, and `how` does it."""

    path: str  # of the file of expectations, for what is said of it
    lines: list
    make: object
    pool: object
    judge: Judge
    budget: int
    workers: int
    progress: object = None
    how: object = run_job
    steps: dict = field(default_factory=dict)

    def all(self):
        """Everything that the lines ask for: first without a failure, then one failure of each kind, by whose steps the others are shared out."""
        everything = list(range(len(self.judge.packets)))
        base = self.run([Share([], everything)])
        first, rest = [], []
        for numbers, failures in self.groups():
            kinds = {}
            for failure in failures:
                kinds.setdefault(failure.kind, []).append(failure)
            for kind, those in kinds.items():
                first.append(Share(those[:1], list(numbers)))
                rest.append((those[1:], first[-1]))
        self.run(first)
        shares = []
        for those, measured in rest:
            cost = self.steps.get((measured.failures[0], tuple(measured.packets)), base)
            cut = whatif.shares(those, [cost] * len(those), base, self.budget, self.workers)
            shares += [Share(part, measured.packets) for part in cut]
        self.run(shares)
        self.judge.sort()

    def groups(self):
        """The failures by the packets that are sent in them."""
        lines, wanted = self.lines, {}
        always = {ask.packet for line in lines if line.always for ask in line.asks}
        for line in lines:
            for failure in line.failures:
                wanted.setdefault(failure, set(always)).update(ask.packet for ask in line.asks if line.counts(ask, failure))
        groups = {}
        for failure, numbers in wanted.items():
            groups.setdefault(tuple(sorted(numbers)), []).append(failure)
        return [(numbers, failures) for numbers, failures in groups.items() if numbers]

    def run(self, shares):
        """Runs the shares; one that takes too many steps is halved. The steps without a failure."""
        base = 0
        while shares:
            waiting = {self.pool.submit(self.how, self.make(share)): share for share in shares}
            shares = []
            for future in self.pool.as_completed(waiting):
                outcomes, share = future.result(), waiting[future]
                if outcomes is None:
                    shares += self.halves(share)
                    continue
                base = outcomes[0].steps
                for outcome in outcomes[1:] if share.failures else outcomes:
                    self.steps[outcome.failure, tuple(share.packets)] = outcome.steps
                    self.judge.take(outcome, share.packets)
                if self.progress:
                    self.progress(len(share.failures))
        return base

    def halves(self, share):
        """Half of the failures, or else half of the packets, each."""
        if max(len(share.failures), len(share.packets)) < 2:
            raise Fault(f"{self.path}: {share.failures[0] if share.failures else 'bringing it up'} takes more than {whatif.MOST_STEPS} steps", 3)
        of, half = ("failures", len(share.failures) // 2) if len(share.failures) > 1 else ("packets", len(share.packets) // 2)
        parts = [getattr(share, of)[:half], getattr(share, of)[half:]]
        return [Share(part, share.packets) if of == "failures" else Share(share.failures, part) for part in parts]
