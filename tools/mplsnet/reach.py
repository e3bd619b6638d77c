"""Asks `mplsnet reach` what becomes of a network's probes under failures, part by part: which are lost, and why.

`run_part` is a plain function of a part. It may be called in any process, and on any machine that has the program.
"""

import subprocess
from dataclasses import dataclass, field
from itertools import combinations, takewhile
from math import comb

import mplsnet.whatif as whatif
from mplsnet.files import Fault
from mplsnet.knowledge import Net, contains, prefix_of, prefix_text
from mplsnet.rest import Reasons
from mplsnet.topology import topology_text

MOST_PAIRS, MOST_PREFIXES = 100_000, 65_536  # beyond which reach answers nothing
LONGEST = 20_000  # failures of a part, where it needn't have more


class CantAsk(Exception):
    """The probes can't be asked of reach."""


# Pairs.


class Pairs:
    """Which pair of reach tells of which probes, and the topology whose pairs these are.

    Reach sends to the first address of a prefix. Where a longer prefix has that, the sites with the prefix get one more, of a free address of it
    alone: they lose and gain it together with the prefix, so its routes are those of the prefix for that address.
    """

    def __init__(self, net, tables, probes):
        self.net, self.tables, self.of_pair, self.more = net, tables, {}, {}
        self.reaches = [whatif.Reach(net, vrf) for vrf in range(len(net.vrfs))]
        self.taken = {(at, 32) for found in net.prefixes for of in found if (at := whatif.first_address(of)) is not None}  # to which packets are sent
        for number, probe in enumerate(probes):
            of = prefix_of(probe.prefix)
            if int.from_bytes(probe.address, "big") != whatif.first_address(of):
                of = self.free(of, net.vrf_of[net.site_number[probe.site]])
            self.of_pair.setdefault(f"{probe.site} {prefix_text(of)}", []).append(number)
        self.check()

    def free(self, of, vrf):
        """An address of the prefix, as a prefix, that is in no longer one of which the VRF knows."""
        longer = [one for one in self.reaches[vrf].prefixes if one[1] > of[1] and contains(of, one[0])]
        known = next((one for one in self.more.get(of, ()) if not any(contains(other, one[0]) for other in longer)), None)
        if known is None:
            at = whatif.first_address(of, [*longer, *(one for one in self.taken if contains(of, one[0]))])
            if at is None:
                raise CantAsk(f"no address of {prefix_text(of)} is left beside those of longer prefixes")
            known = at, 32
            self.taken.add(known)
            self.more.setdefault(of, []).append(known)
        return known

    def check(self):
        """All pairs are told, also of sites that aren't asked for."""
        prefixes = sum(len(found) + sum(len(self.more.get(of, ())) for of in found) for found in self.net.prefixes)
        known = [len(reach.prefixes) + sum(len(self.more.get(of, ())) for of in reach.prefixes) for reach in self.reaches]
        pairs = sum(known[vrf] - len(self.net.prefixes[site]) for site, vrf in enumerate(self.net.vrf_of))
        if prefixes > MOST_PREFIXES or pairs > MOST_PAIRS:
            raise CantAsk(f"more than {MOST_PREFIXES} prefixes" if prefixes > MOST_PREFIXES else f"more than {MOST_PAIRS} pairs")

    def topology(self):
        """The topology's text, with the prefixes that are asked for beside its own."""
        sites = []
        for table, found in zip(self.tables.get("site", []), self.net.prefixes):
            more = [prefix_text(one) for of in found for one in self.more.get(of, ())]
            sites.append(table | {"prefixes": [*table["prefixes"], *more]} if more else table)
        return topology_text(self.tables | {"site": sites}).encode()


# Failures, in their order.


def unknown(start, end, known, most=None):
    """Between two numbers those that aren't among the known ones, each stretch from its first to behind its last; at most so many in one."""
    while start < end:
        until = start
        while until < (min(end, start + most) if most else end) and until not in known:
            until += 1
        if start < until:
            yield start, until
        start = max(until, start + 1)


class Listed:
    """Failures one by one."""

    def __init__(self, failures):
        self.failures = failures
        self.numbers = {str(failure): number for number, failure in enumerate(failures)}

    def __len__(self):
        return len(self.failures)

    def __iter__(self):
        return iter(self.failures)

    def at(self, number):
        return self.failures[number]

    def number(self, name):
        """The number of the failure of this name, none where it isn't one of these."""
        return self.numbers.get(name)

    def cut(self, known, workers):
        """Where each part begins and ends, without those that are known, and its lines."""
        most = max(1, min(64, -(-len(self) // (4 * workers))))
        for at, end in unknown(0, len(self), known, most):
            yield at, end, [line_of(failure) for failure in self.failures[at:end]], tuple(self.failures[at:end])


class Many:
    """Each so many links at once, 2 or 3."""

    def __init__(self, net, many, keep_bgp):
        self.net, self.many, self.keep_bgp = net, many, keep_bgp
        self.links = len(net.links)
        self.starts = [comb(self.links, many) - comb(self.links - first, many) for first in range(self.links + 1)]  # of the first link's number
        self.named_links = {f"{net.nodes[one]}-{net.nodes[other]}": at for at, (a, b, _) in enumerate(net.links) for one, other in ((a, b), (b, a))}

    def __len__(self):
        return comb(self.links, self.many)

    def __iter__(self):
        return map(self.failure, combinations(range(self.links), self.many))

    def failure(self, links):
        return whatif.links_failure(self.net, links, self.keep_bgp, "links", " and ".join(map(self.net.link_name, links)))

    def at(self, number):
        """The failure of this number: of links before a greater one there are as many as may follow each."""
        links, link = [], 0
        while len(links) < self.many:
            behind = comb(self.links - 1 - link, self.many - 1 - len(links))
            if number < behind:
                links.append(link)
            else:
                number -= behind
            link += 1
        return self.failure(links)

    def links_of(self, name):
        """The links that a name has, in order, whatever the order of their ends; none where it isn't that of a failure."""
        links = sorted(self.named_links.get(one, self.links) for one in name.removeprefix("links ").split(" and "))
        return links if len(links) == len({*links}) == self.many and self.links not in links else None

    def named(self, name):
        links = self.links_of(name)
        return links and self.failure(links)

    def number(self, name):
        """The number of the failure of this name, none where it isn't one of these."""
        links, number, passed = self.links_of(name), 0, 0
        if links is None or str(self.failure(links)) != name:
            return None
        for place, link in enumerate(links):
            number += sum(comb(self.links - 1 - before, self.many - 1 - place) for before in range(passed, link))
            passed = link + 1
        return number

    def cut(self, known, workers):
        """As of those that are listed; a part has all failures whose first links lie between two numbers."""
        most, first = min(LONGEST, -(-len(self) // (4 * workers))), 0
        while first < self.links:
            end = first + 1
            while end < self.links and self.starts[end + 1] - self.starts[first] <= most:
                end += 1
            at, last = self.starts[first], self.starts[end]
            if not all(number in known for number in range(at, last)):
                yield at, last, [f"each {self.many} links from {first} to {end - 1}"], (self.many, first, end)
            first = end


def line_of(failure):
    """The failure as a line of reach; sessions of edges between which no links lead end by another line."""
    if failure.kind == "node":
        return f"node down {failure.node}"
    return ", ".join(failure.down[: {"links": failure.name.count(" and ") + 1}.get(failure.kind, 1)])


# A part.


@dataclass
class Part:
    """Failures that one process of the program answers; `failures` are these, or how many links fail of which first ones."""

    program: str
    path: str  # the topology's, for what is said of it
    topology: bytes
    tables: dict
    bring_up: list
    keep_bgp: bool
    probes: list
    of_pair: dict
    start: int
    lines: list
    failures: tuple
    everything: bool = True  # also failures that cut nothing come back
    paths: bool = False  # each way is told
    room: str | None = None

    def text(self):
        return "\n".join([f"sessions {'stay' if self.keep_bgp else 'end'}", *self.lines, ""]).encode()


@dataclass
class Answered:
    """What a part's failures do: the outcome without a failure, those that cut something, by number, and how many failures were asked of."""

    base: whatif.Outcome
    count: int = 0
    outcomes: list = field(default_factory=list)


def run_part(part):
    """What the failures of a part do."""
    with whatif.working(part.room, "mplsnet-whatif-") as folder:
        return Asking(part, folder).answered()


class Asking:
    """Runs the program over a part, and reads its lines as they come."""

    def __init__(self, part, folder):
        self.part, self.folder = part, folder
        self.net = Net(part.path, {kind: [] for kind in ("node", "link", "vrf", "site")} | part.tables)
        self.edges = [self.net.nodes[self.net.edge_of(self.net.site_number[probe.site])] for probe in part.probes]
        self.behind = {}
        for number, edge in enumerate(self.edges):
            self.behind.setdefault(edge, []).append(number)
        self.reasons = Reasons(self.net, part.bring_up)
        self.is_of_many = bool(part.failures) and isinstance(part.failures[0], int)
        self.many = Many(self.net, part.failures[0], part.keep_bgp) if self.is_of_many else None

    def answered(self):
        """The program's lines, read; what is wrong with how it ended is a fault."""
        names = [self.folder / "t", self.folder / "f"]
        last = b""
        try:
            for path, content in zip(names, (self.part.topology, self.part.text())):
                path.write_bytes(content)
            with whatif.begun([self.part.program, "reach", *map(str, names)], subprocess.PIPE) as program:
                found = self.read(line.decode("latin-1").rstrip("\n") for line in program.stdout)
                last, said = self.last, program.stderr.read().decode(errors="replace").strip().partition("\n")[0]
        except OSError as error:
            raise Fault(f"{error.filename or self.part.program}: {error.strerror}", 3)
        finally:
            whatif.WORKING.pop("program", None)
        if program.returncode != 0 or found is None:
            raise Fault(f"{self.part.path}: {self.fault(program.returncode, last, said)}", 3)
        return found

    def fault(self, status, last, said):
        if status == 2:
            return f"{self.part.program} doesn't know 'reach': --simulate asks by runs"
        return (last if status in whatif.REFUSED else said) or f"{self.part.program} ended with status {status}, and its last line was {last!r}"

    def read(self, lines):
        """What the lines say; none where they end before the total."""
        self.last, ends, found, failures = "", [None] * len(self.part.probes), None, self.failures()
        changed, number, told = {}, None, ""
        for line in lines:
            self.last = line
            words = line.split(" ")
            if words[0] in ("lost", "moved"):
                changed[f"{words[2]} {words[3]}"] = ["dropped", *words[4:]] if words[0] == "lost" else words[4:]
                continue
            if words[0] == "pair":
                for probe in self.part.of_pair.get(f"{words[1]} {words[2]}", ()):
                    ends[probe] = self.end(probe, words[3:])
                continue
            if words[0] not in ("failure", "total"):
                continue
            if found is None:
                found = self.base(ends)
            if number is not None:
                self.add(found, number, next(failures, None), changed, told)
            changed, number, told = {}, int(words[1]) if words[0] == "failure" else None, " ".join(words[4:])
        return found if self.last.startswith("total ") and next(failures, None) is None else None

    def failures(self):
        """The failures in order, each as its links or itself."""
        if self.is_of_many:
            many, first, end = self.part.failures
            return takewhile(lambda links: links[0] < end, combinations(range(first, len(self.net.links)), many))
        return iter(self.part.failures)

    def end(self, probe, words):
        """How the probe ended, as of a run: verdict, its words, the path."""
        if words[0] == "delivered":
            return "delivered", words[1], " ".join(words[words.index("path", 3) + 1 :])
        return "dropped", f"{words[1]} {words[3]}", self.edges[probe]

    def check(self, ends):
        """That each probe has an end."""
        missing = next((number for number, end in enumerate(ends) if end is None), None)
        if missing is not None:
            raise Fault(f"{self.part.path}: the program tells of no pair {self.part.probes[missing].site} {self.part.probes[missing].prefix}", 3)

    def base(self, ends):
        """The outcome without a failure."""
        self.check(ends)
        losses = [whatif.loss_of(None, number, probe, end) for number, (probe, end) in enumerate(zip(self.part.probes, ends))]
        self.words = [loss.words() if loss else end[2] for loss, end in zip(losses, ends)]
        self.kept = [loss is None for loss in losses]
        lost = self.reasons.told(None, self.part.probes, [loss for loss in losses if loss])
        return Answered(whatif.Outcome(None, lost, 0, None, self.words))

    def add(self, found, number, failure, changed, told):
        """One failure more, of which these pairs have changed."""
        if number != found.count + 1 or failure is None:
            raise Fault(f"{self.part.path}: the program tells of failure {number} behind {found.count}", 3)
        found.count += 1
        if not changed and not self.part.everything and (self.is_of_many or failure.node is None):
            return
        if self.is_of_many:
            failure = self.many.failure(failure)
        if told != line_of(failure):
            raise Fault(f"{self.part.path}: the program tells of {told}, and {line_of(failure)} was asked for", 3)
        outcome = self.outcome(failure, changed)
        if outcome.lost or self.part.everything:
            found.outcomes.append((self.part.start + number - 1, outcome))

    def outcome(self, failure, changed):
        """What the failure did; nothing comes from a site whose node is down."""
        probes, outcome, ends = self.part.probes, whatif.Outcome(failure, steps=None), {}
        for pair, words in changed.items():
            ends |= {probe: self.end(probe, words) for probe in self.part.of_pair.get(pair, ())}
        for probe in self.behind.get(failure.node, ()):
            ends[probe] = "dropped", f"NodeDown {failure.node}", failure.node
        losses = {probe: whatif.loss_of(failure, probe, probes[probe], end) for probe, end in sorted(ends.items())}
        lost = [loss for probe, loss in losses.items() if loss and self.kept[probe]]
        outcome.lost = self.reasons.told(failure, probes, lost) if lost else []
        outcome.moved = sum(self.kept[probe] and loss is None for probe, loss in losses.items())
        if self.part.paths:
            words = {at: loss.words() if loss else ends[at][2] for at, loss in losses.items()}
            outcome.paths = [words.get(at) or self.as_before(failure, at) for at in range(len(probes))]
        return outcome

    def as_before(self, failure, at):
        """What is told of a probe that is as without the failure, but that one which is dropped may be so by another rule."""
        if self.kept[at] or not self.words[at].endswith(f" at {self.edges[at]}"):
            return self.words[at]
        return f"{self.reasons.rule(failure, self.part.probes[at])} at {self.edges[at]}"
