"""What becomes of a network's site pairs when parts of it fail: failures, probes, scripts, and runs of them.

`run_job` is a plain function of a job: a topology's, a script's and a capture's bytes with what they ask. It may be
called in any process, and on any machine that has the program.
"""

import contextlib
import ctypes
import os
import shutil
import signal
import subprocess
import tempfile
from bisect import bisect_left
from dataclasses import dataclass, field, replace
from itertools import combinations
from pathlib import Path

from mplsnet.files import Fault, Run, bgp_lives, ldp_lives, read_labels
from mplsnet.knowledge import Net, prefix_of, prefix_text
from mplsnet.pcap import capture_of, udp_packet
from mplsnet.why import Explainer, path_facts, short, unheard

KINDS = ("links", "nodes", "ldp", "bgp")
WORST = "what LDP alone cuts is the worst case: routers with LDP-IGP synchronization (RFC 5443) go round a link without LDP"
MOST_STEPS, MOST_RECORDS = 4_000_000, 100_000
REFUSED = (3, 4, 5, 9)  # statuses that a line of the report goes with


@dataclass(frozen=True)
class Failure:
    """What fails at once: its kind and name, the script's lines that bring it about and undo it, and a node that is down."""

    kind: str
    name: str
    down: tuple
    up: tuple
    node: str | None = None

    def __str__(self):
        return f"{self.kind} {self.name}"


@dataclass(frozen=True)
class Probe:
    """A packet from a site to an address of a prefix, and the sites that it is meant for.

    These have the prefix, in VRFs that import and export the same targets: one customer's site behind several edges.
    """

    site: str
    prefix: str
    address: bytes
    source: bytes
    to: tuple

    def __str__(self):
        return f"{self.site} -> {'|'.join(self.to)}"


@dataclass
class Job:
    """A run: the network comes up, and then each failure comes and goes."""

    program: str
    path: str  # the topology's, for what is said of it
    topology: bytes
    tables: dict
    bring_up: list
    probes: list
    failures: list
    room: str | None = None  # the folder in which the run's folder is made
    paths: bool = False  # each way is told
    reasons: bool = True

    def script(self):
        inject = [f"inject {probe.site} {record}" for record, probe in enumerate(self.probes, 1)]
        lines = [*self.bring_up, "drain", *inject, "flush"]
        for failure in self.failures:
            lines += [*failure.down, "drain", *inject, "flush", *failure.up, "drain"]
        return "\n".join(lines) + "\n"

    def capture(self):
        return capture_of([udp_packet(probe.source, probe.address) for probe in self.probes])


@dataclass(frozen=True)
class Loss:
    """A probe that reached no site that it was meant for: its number from 0, the rule and the node that dropped it, and why.

    Where it was delivered elsewhere the rule is Astray, the node is the last of its path, and `astray_to` is the site.
    """

    probe: int
    rule: str
    node: str
    reason: str
    astray_to: str | None = None

    def words(self):
        """What became of it."""
        return f"{self.rule} at {self.node}" if self.astray_to is None else f"astray to {self.astray_to}"


@dataclass
class Outcome:
    """What a failure did: the probes lost of those that reached their site without it, how many took another way, its steps.

    Of the run without a failure, `lost` are the probes that don't reach their site.
    """

    failure: Failure | None
    lost: list = field(default_factory=list)
    moved: int = 0
    steps: int = 0
    paths: list | None = None


def resolves(said, resolve=False, no_resolve=False, keep_bgp=False):
    """Whether routes to whose edge no label path leads stand aside: unless the topology says that they don't, or an option does."""
    return resolve or not (no_resolve or keep_bgp or said is False)


# Failures.


def failures_of(net, kinds, keep_bgp):
    """The single failures of these kinds, in the topology's order."""
    made = {"links": links_of, "nodes": nodes_of, "ldp": ldp_of, "bgp": bgp_of}
    return [failure for kind in KINDS if kind in kinds for failure in made[kind](net, keep_bgp)]


def link_words(net, link):
    return f"{net.nodes[net.links[link][0]]} {net.nodes[net.links[link][1]]}"


def links_failure(net, links, keep_bgp, kind, name, node=None):
    """These links go down, and with them the sessions of edges that have no way left."""
    apart = [] if keep_bgp else sessions_apart(net, set(links))
    down = [f"link down {link_words(net, link)}" for link in links] + [f"bgp down {a} {b}" for a, b in apart]
    up = [f"link up {link_words(net, link)}" for link in links] + [f"bgp up {a} {b}" for a, b in apart]
    return Failure(kind, name, tuple(down), tuple(up), node)


def links_of(net, keep_bgp):
    return [links_failure(net, [link], keep_bgp, "link", net.link_name(link)) for link in range(len(net.links))]


def nodes_of(net, keep_bgp):
    found = []
    for node, name in enumerate(net.nodes):
        links = sorted(link for _, link in net.neighbours[node])
        found.append(links_failure(net, links, keep_bgp, "node", name, name))
    return found


def ldp_of(net, _):
    return [Failure("ldp", net.link_name(at), (f"ldp off {link_words(net, at)}",), (f"ldp on {link_words(net, at)}",)) for at in range(len(net.links))]


def bgp_of(net, _):
    """The sessions whose edges have something to tell each other."""
    found = []
    for a, b in combinations(net.edges, 2):
        ours, theirs = ([vrf for vrf in net.vrfs if vrf.node == edge] for edge in (a, b))
        if any(one.imports & other.exports or other.imports & one.exports for one in ours for other in theirs):
            names = f"{net.nodes[a]} {net.nodes[b]}"
            found.append(Failure("bgp", names.replace(" ", "-"), (f"bgp down {names}",), (f"bgp up {names}",)))
    return found


def double_of(net, keep_bgp):
    """Each two links at once."""
    pairs = combinations(range(len(net.links)), 2)
    return [links_failure(net, pair, keep_bgp, "links", " and ".join(map(net.link_name, pair))) for pair in pairs]


def sessions_apart(net, down):
    """The pairs of edges between which no links lead, without these ones."""
    part = list(range(len(net.nodes)))

    def root(node):
        while part[node] != node:
            part[node] = part[part[node]]
            node = part[node]
        return node

    for link, (a, b, _) in enumerate(net.links):
        if link not in down:
            part[root(a)] = root(b)
    return [(net.nodes[a], net.nodes[b]) for a, b in combinations(net.edges, 2) if root(a) != root(b)]


def bring_up(net, keep_bgp):
    """All links and sessions; a session of edges between which no links lead never stood."""
    apart = set() if keep_bgp else set(sessions_apart(net, set()))
    pairs = [(net.nodes[a], net.nodes[b]) for a, b in combinations(net.edges, 2)]
    return [f"link up {link_words(net, at)}" for at in range(len(net.links))] + [f"bgp up {a} {b}" for a, b in pairs if (a, b) not in apart]


# Probes.


NO_UNICAST = ((0, 8), (0x7F000000, 8), (0xE0000000, 3))  # prefixes to which no packet may go


def first_address(of, longer=()):
    """The first address of the prefix, behind the network's own, that a packet may go to and none of the longer ones in it has."""
    first, length = of
    end = first + (1 << 32 - length)
    spans = ((at, at + (1 << 32 - size)) for at, size in (*NO_UNICAST, *longer))
    at = first + (length < 31)
    for below, above in [*sorted(span for span in spans if span[0] < end and first < span[1]), (end, end)]:
        if at < below:
            return at + 1 if length < 31 and at & 0xFF == 0 and at + 1 < below else at
        at = max(at, above)
    return None


class Reach:
    """What a VRF's sites may send to: the sites of the VRF, and of those that export a target that it imports."""

    def __init__(self, net, vrf):
        self.sites = [site for site, other in enumerate(net.vrf_of) if net.takes(vrf, other)]
        self.prefixes = sorted({of for site in self.sites for of in net.prefixes[site]})
        self.known = {}

    def address(self, of):
        """An address of the prefix for which no longer one is known here; its first where all are known by longer ones."""
        if of not in self.known:
            within = self.prefixes[bisect_left(self.prefixes, (of[0], 0)) : bisect_left(self.prefixes, (of[0] + (1 << 32 - of[1]), 0))]
            free = first_address(of, [one for one in within if one[1] > of[1]])
            self.known[of] = first_address(of) if free is None else free
        return self.known[of]


def probes_of(net, sites=None):
    """From each site a packet to each prefix of other sites of which its VRF imports a target, or that are of its VRF.

    Sites with one prefix are meant by one probe where their VRFs import and export the same targets.
    """
    found, reaches = {}, {}
    for site, name in enumerate(net.sites):
        vrf = net.vrf_of[site]
        reach = reaches[vrf] = reaches.get(vrf) or Reach(net, vrf)
        source = next(filter(None, map(first_address, net.prefixes[site])), 0xC0000201)
        for other in reach.sites:
            to, behind = net.sites[other], net.vrfs[net.vrf_of[other]]
            if other == site or sites and not {name, to} <= sites:
                continue
            for of in net.prefixes[other]:
                at = reach.address(of)
                if of not in net.prefixes[site] and at is not None:
                    found.setdefault((name, of, behind.imports, behind.exports), (at, source, []))[2].append(to)
    return [Probe(name, prefix_text(of), at.to_bytes(4, "big"), source.to_bytes(4, "big"), tuple(to)) for (name, of, *_), (at, source, to) in found.items()]


# A run.


WORKING = {}  # the program that runs in this process, its folder and the one around it, for the case that it is told to stop
ENDING = {signal.SIGINT, signal.SIGTERM, signal.SIGHUP}


def stop(*_):
    """Ends the program that runs, and leaves nothing behind. It takes no lock, and isn't begun twice: it may come at any time."""
    signal.signal(signal.SIGTERM, lambda *_: None)  # (SIG_IGN would have Python complain of one that came by now)
    if "program" in WORKING:
        try:
            os.kill(WORKING["program"].pid, signal.SIGKILL)
            os.waitpid(WORKING["program"].pid, 0)
        except (ProcessLookupError, ChildProcessError):
            pass  # it has ended
    shutil.rmtree(WORKING.get("folder", ""), ignore_errors=True)
    try:
        os.rmdir(WORKING.get("room") or "")  # where who began this process is gone, the last one removes it
    except OSError:
        pass
    os._exit(143)


def end_with_parent(number):
    """Has the kernel send this process a signal as the one that began it ends (prctl(2), PR_SET_PDEATHSIG), where it knows how."""
    try:
        ctypes.CDLL(None).prctl(1, int(number))
    except (OSError, AttributeError):
        pass


def begin_worker():
    """A process that works for another one: that one alone hears of an interrupt, and tells it to stop, or ends."""
    signal.signal(signal.SIGINT, signal.SIG_IGN)
    signal.signal(signal.SIGHUP, signal.SIG_IGN)
    signal.signal(signal.SIGTERM, stop)
    end_with_parent(signal.SIGTERM)
    signal.pthread_sigmask(signal.SIG_UNBLOCK, ENDING)


@contextlib.contextmanager
def deaf():
    """Signals that end this process wait until it is over."""
    mask = signal.pthread_sigmask(signal.SIG_BLOCK, ENDING)
    try:
        yield
    finally:
        signal.pthread_sigmask(signal.SIG_SETMASK, mask)


def before_program():
    """In the process that is to be the program: it ends with this one, and hears signals."""
    end_with_parent(signal.SIGKILL)
    signal.pthread_sigmask(signal.SIG_UNBLOCK, ENDING)


def begun(words, report):
    """The program; it can't be missed by what tells this process to stop."""
    with deaf():
        WORKING["program"] = subprocess.Popen(words, stdin=subprocess.DEVNULL, stdout=report, stderr=subprocess.PIPE, preexec_fn=before_program)
        return WORKING["program"]


@contextlib.contextmanager
def working(room, prefix):
    """A folder in which the program works, and of which nothing is left however that ends."""
    with deaf():
        WORKING["room"] = room
        folder = WORKING["folder"] = tempfile.mkdtemp(prefix=prefix, dir=room)
    try:
        yield Path(folder)
    finally:
        shutil.rmtree(folder, ignore_errors=True)
        WORKING.pop("folder", None)


class TooLarge(Exception):
    """The run takes more steps than a run may."""


def run_job(job):
    """The outcome without a failure, and then that of each failure; none where the run takes too many steps."""
    try:
        with working(job.room, "mplsnet-whatif-") as folder:
            return Reading(job, folder).outcomes()
    except TooLarge:
        return None


class Reading:
    """Runs a job's script in a folder, and reads what became of its probes."""

    def __init__(self, job, folder):
        self.job, self.folder, self.out = job, folder, folder / "out"
        self.run()

    def run(self):
        """Runs the program."""
        job = self.job
        self.out.mkdir()
        inputs = [(self.folder / name, content) for name, content in (("t", job.topology), ("s", job.script().encode()), ("c", job.capture()))]
        try:
            for path, content in inputs:
                path.write_bytes(content)
            with open(self.folder / "report", "wb") as report:
                words = [job.program, "run", *(str(path) for path, _ in inputs), str(self.out)]
                with begun(words, report) as program:
                    said = program.communicate()[1]
        except OSError as error:
            raise Fault(f"{error.filename or job.program}: {error.strerror}", 3)
        finally:
            WORKING.pop("program", None)
        with open(self.folder / "report", encoding="latin-1") as report:
            last = next((line.rstrip("\n") for line in report if program.returncode in REFUSED), "")
        if last == "too large steps":
            raise TooLarge
        if program.returncode != 0:
            what = last or said.decode(errors="replace").strip().partition("\n")[0] or f"{job.program} ended with status {program.returncode}"
            raise Fault(f"{job.path}: {what}", 3)

    def outcomes(self):
        """What became of the probes of each failure, told against those without one."""
        job, outcomes, base, kept = self.job, [], None, None
        for number, ends in enumerate(self.blocks()):
            failure = job.failures[number - 1] if number else None
            outcome = Outcome(failure)
            losses = [loss_of(failure, probe, job.probes[probe], end) for probe, end in enumerate(ends)]
            if job.paths or not number:
                outcome.paths = [loss.words() if loss else path for loss, (_, _, path) in zip(losses, ends)]
            if base is None:
                base, kept = ends, [loss is None for loss in losses]
                outcome.lost = [loss for loss in losses if loss]
            else:
                outcome.lost = [loss for loss, is_kept in zip(losses, kept) if loss and is_kept]
                outcome.moved = sum(is_kept and not loss and end != before for loss, is_kept, end, before in zip(losses, kept, ends, base))
            outcomes.append(outcome)
        self.with_reasons(outcomes)
        return outcomes

    def blocks(self):
        """Of the run without a failure, and then of each failure, how each probe ended: verdict, its words, the path."""
        ends, count = [], len(self.job.probes)
        with open(self.folder / "report", encoding="latin-1") as report:
            for line in report:
                if not line.startswith("packet "):
                    if line.startswith("line "):
                        raise Fault(f"{self.job.path}: the program refused a line of the script: {line.rstrip()}", 3)
                    continue
                said, _, path = line.rstrip("\n").partition(" path ")
                words = said.split(" ")
                verdict = words[8]
                ends.append((verdict, words[9] if verdict == "delivered" else f"{words[9]} {words[-1]}", path))
                if len(ends) == count:
                    yield ends
                    ends = []

    def with_reasons(self, outcomes):
        """Counts each failure's steps, and tells why its probes were lost, by what nodes knew as they were sent."""
        count, number, sent, before = len(self.job.probes), 0, 0, 0
        explainer = None
        if self.job.reasons and any(loss.rule != "NodeDown" for outcome in outcomes for loss in outcome.lost):
            explainer = self.explainer()
        with open(self.out / "journal.txt", encoding="ascii") as journal:
            for step, line in enumerate(journal, 1):
                words = line.split()
                kind = words[1]
                if kind == "carry":
                    continue
                if kind == "inject":
                    if sent % count == 0:
                        number = sent // count
                        if number:
                            outcomes[number].steps, before = step - before, step
                        else:
                            outcomes[0].steps = before = step
                        if explainer:
                            outcomes[number].lost = [self.explained(explainer, loss) for loss in outcomes[number].lost]
                    sent += 1
                elif explainer:
                    explainer.known.do(words[1:])

    def explainer(self):
        run = Run(self.out)
        read_labels(run)
        for path in self.out.iterdir():
            if path.suffix in (".ldp", ".bgp") and path.stat().st_size:
                lives = ldp_lives(path) if path.suffix == ".ldp" else bgp_lives(path)
                (run.ldp if path.suffix == ".ldp" else run.bgp)[tuple(path.stem.split("+"))] = lives
        return Explainer(Net(self.job.path, self.job.tables), run.attachments, run.ldp, run.bgp, dated=False)

    def explained(self, explainer, loss):
        """The loss with its reason."""
        if loss.rule == "NodeDown":
            return loss
        probe, net = self.job.probes[loss.probe], explainer.net
        address = int.from_bytes(probe.address, "big")
        vrf = net.vrf_of[net.site_number[probe.site]]
        if loss.astray_to is not None:
            return replace(loss, reason=astray_reason(explainer.known, probe, vrf, address))
        if net.nodes[net.vrfs[vrf].node] == loss.node:
            facts = explainer.entry(loss.rule, probe.site, address)
        elif loss.rule == "NoEntry":
            facts = explainer.transit(loss.node, net.nodes[explainer.known.best(vrf, address).edge])
        else:
            return loss
        return replace(loss, reason=ended(explainer.known, facts[-1]) or short(loss.rule, loss.node, facts))


def loss_of(failure, number, probe, end):
    """What a failure did to the probe, none where it reached a site that it was meant for; its own edge may be the node that is down."""
    verdict, what, path = end
    edge, _, last = path.split(" ", 1)[0], *path.rpartition(" ")[1:]
    if failure is not None and failure.node == edge:
        return Loss(number, "NodeDown", edge, f"node {edge} is down")
    if verdict == "delivered":
        return None if what in probe.to else Loss(number, "Astray", last, "", what)
    rule, _, node = what.partition(" ") if verdict == "dropped" else ("Flying", "", last)
    return Loss(number, rule, node, "")


def astray_reason(known, probe, vrf, address):
    """Why a packet went to another site than the one that was meant: the first of the reasons that keep its routes from being taken."""
    net, of = known.net, prefix_of(probe.prefix)
    edge = net.vrfs[vrf].node
    held = {(route.vrf, route.site): route for route in known.held(vrf, address) if route.prefix == of}
    for site in map(net.site_number.get, probe.to):
        other = net.vrf_of[site]
        route = held.get((other, site))
        if route is None and net.vrfs[other].node != edge:
            fact = unheard(known, edge, net.vrfs[other].node, other, of)
            return ended(known, fact) or fact.words()
        if route is not None and not known.offers(edge, route.edge):
            return short("NoLsp", net.nodes[edge], path_facts(known, edge, route.edge, False))
    best = known.best(vrf, address)
    return f"its {prefix_text(best.prefix)} goes before {probe.prefix} of {' and '.join(probe.to)}"


def ended(known, fact):
    """What is said of a session that is gone because no links lead from the one edge to the other."""
    if fact.kind != "no session" or known.next_hop(*map(known.net.number.get, fact.names), known.up) is not None:
        return None
    return f"no links lead from {fact.names[0]} to {fact.names[1]}, and their BGP session ended"


# Many runs.


def memory_folder():
    """A folder in memory where there is one that has room."""
    room = Path("/dev/shm")
    if room.is_dir() and os.access(room, os.W_OK) and shutil.disk_usage(room).free > 1 << 30:
        return str(room)
    return None


def shares(failures, costs, bring_up_cost, budget, workers):
    """The failures cut into runs, each of at most the budget of steps with its bring-up, as far as one failure allows.

    There are two runs for each worker, since costs are only guessed; but none is much shorter than its bring-up. The first
    ones are shorter, a quarter of a bring-up, and then twice as long for each further one of a worker: results come early.
    """
    most = max(1, min(budget - bring_up_cost, max(-(-sum(costs) // (2 * workers)), 2 * bring_up_cost)))
    cut, share, cost = [], [], 0
    for failure, its in zip(failures, costs):
        if share and cost + its > min(most, max(1, bring_up_cost // 4) << len(cut) // workers):
            cut.append(share)
            share, cost = [], 0
        share.append(failure)
        cost += its
    return [*cut, share] if share else cut
