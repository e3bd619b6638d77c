"""What is expected of a topology: the lines of a file of expectations, and the packets by which each is asked (docs/EXPECT.md)."""

import re
from dataclasses import dataclass, field

import mplsnet.whatif as whatif
from mplsnet.files import Fault, bytes_of, vpns_of
from mplsnet.knowledge import contains, prefix_text
from mplsnet.rules import address, meant_name, prefix, why_no_prefix

WORDS = re.compile(r'"([^"]*)"|[^\s,"]+')
ENDS_OF_SITES = ("reaches", "reach", "never", "after", "via", "not", "within", "but", "each", "none")
KINDS = {"link": "links", "node": "nodes", "ldp": "ldp", "bgp": "bgp"}  # as mplsnet-whatif names them
FORM = "a line is 'SITES reach SITES', '.. never reach ..', '.. reach PREFIX', '.. reach none' or '.. reach each other', with 'after', 'via', 'within' behind"


@dataclass(frozen=True)
class Word:
    """A word of a line with its column, from 1; in quotes it is a name, whatever it says."""

    text: str
    column: int
    is_name: bool


@dataclass(frozen=True)
class Packet:
    """A packet from a site to an address, in the words of a what-if's probe."""

    site: str
    prefix: str
    address: bytes
    source: bytes
    to: tuple


@dataclass(frozen=True)
class Ask:
    """What is asked of a packet, by its number: to arrive at one of the sites, or at none of them; and the nodes whose failure it can't outlive."""

    packet: int
    arrives: bool
    sites: frozenset
    nodes: frozenset


@dataclass
class Expectation:
    """A line: what it asks, after which failures, and of the paths: nodes that they have in this order, nodes that they haven't, and how many at most."""

    line: int
    text: str
    asks: list
    failures: list
    via: tuple = ()
    avoids: tuple = ()
    most: int | None = None
    counted: set = field(default_factory=set)  # the failures that were looked at
    short: list = field(default_factory=list)

    @property
    def always(self):
        """It is asked of each failure that any line asks for."""
        return not self.asks[0].arrives

    def counts(self, ask, failure):
        """The failure counts for what is asked."""
        return failure is None or failure.node not in ask.nodes


# Who has what.


class Sites:
    """Which sites have what, as a sender's VRF may see them."""

    def __init__(self, net, tables):
        self.net, (self.vpn_of, self.vpns) = net, vpns_of(tables)
        self.seen, self.having = {}, {}
        for site, prefixes in enumerate(net.prefixes):
            for of in prefixes:
                self.having.setdefault(of, []).append(site)

    def seen_by(self, vrf):
        """The sites whose prefixes the VRF may have routes to: its own, and those of VRFs of which it imports a target."""
        if vrf not in self.seen:
            self.seen[vrf] = [site for site, of in enumerate(self.net.vrf_of) if self.net.takes(vrf, of)]
        return self.seen[vrf]

    def same(self, site, of):
        """The sites that are one with this one at a prefix: they have it, in VRFs of the same targets."""
        ours = self.net.vrfs[self.net.vrf_of[site]]
        theirs = ((other, self.net.vrfs[self.net.vrf_of[other]]) for other in self.having.get(of, ()))
        return {other for other, vrf in theirs if other == site or (vrf.imports, vrf.exports) == (ours.imports, ours.exports)}

    def owners(self, sites, at):
        """Those of the sites that have the longest prefix that contains the address."""
        found = [(of[1], site) for site in sites for of in self.net.prefixes[site] if contains(of, at)]
        longest = max(found, default=(0, 0))[0]
        return {site for length, site in found if length == longest}

    def address(self, sites, of):
        """An address of the prefix that is in no longer prefix of the sites; where there is none, the first one that a packet may go to."""
        longer = {one for site in sites for one in self.net.prefixes[site] if one[1] > of[1] and contains(of, one[0])}
        free = whatif.first_address(of, longer)
        return whatif.first_address(of) if free is None else free

    def of_vpn(self, name):
        """The sites of a VPN: of a name with which its VRFs' names begin, of one VRF, or of a target; none where there is none."""
        numbers = {self.net.vrf_number[vrf] for vrf, number in self.vpn_of.items() if self.vpns[number] == name}
        numbers = numbers or {number for number, vrf in enumerate(self.net.vrfs) if vrf.name == name}
        numbers = numbers or {number for number, vrf in enumerate(self.net.vrfs) if name in vrf.imports | vrf.exports}
        return [site for site, vrf in enumerate(self.net.vrf_of) if vrf in numbers]


def lies_in(inner, outer):
    return inner[1] >= outer[1] and contains(outer, inner[0])


# Packets and what is asked of them.


class Packets:
    """The packets that are sent, each once, with what is asked of each."""

    def __init__(self, net, tables):
        self.net, self.sites, self.found, self.numbers = net, Sites(net, tables), [], {}

    def packet(self, site, of, at):
        """The number of the packet to the address."""
        if (site, at) not in self.numbers:
            self.numbers[site, at] = len(self.found)
            source = next(filter(None, map(whatif.first_address, self.net.prefixes[site])), 0xC0000201)
            self.found.append(Packet(self.net.sites[site], prefix_text(of), at.to_bytes(4, "big"), source.to_bytes(4, "big"), ()))
        return self.numbers[site, at]

    def ask(self, site, of, arrives, where, seen=None):
        """What is asked of a packet from the site to the prefix; none where no packet may go there."""
        at = self.sites.address(self.sites.seen_by(self.net.vrf_of[site]) if seen is None else seen, of)
        if at is None:
            return None
        name = self.net.nodes
        homes = {name[self.net.edge_of(one)] for one in where} if arrives else set()
        nodes = {name[self.net.edge_of(site)]} | (homes if len(homes) == 1 else set())
        return Ask(self.packet(site, of, at), arrives, frozenset(self.net.sites[one] for one in where), frozenset(nodes))

    def of_site(self, site, other, arrives):
        """From a site to each prefix of another one; to its own none can arrive elsewhere."""
        prefixes = [of for of in self.net.prefixes[other] if not arrives or of not in self.net.prefixes[site]] if site != other else []
        return [self.ask(site, of, arrives, self.sites.same(other, of) - {site}) for of in prefixes]

    def of_prefix(self, site, of):
        """From a site to a prefix: to those that lie in it, or else to the part of a longer one that it is."""
        net, own = self.net, self.net.prefixes[site]
        for sites in (self.sites.seen_by(net.vrf_of[site]), range(len(net.sites))):
            others = [one for one in sites if one != site]
            inner = dict.fromkeys(one for other in others for one in net.prefixes[other] if lies_in(one, of) and one not in own)
            if inner:
                return [self.ask(site, one, True, {other for other in others if one in net.prefixes[other]}) for one in inner]
            at = self.sites.address(others, of)
            owners = self.sites.owners(others, at) if at is not None else ()
            if owners:
                return [self.ask(site, of, True, owners, others)]
        return []

    def of_none(self, site, allowed, within=None):
        """From a site to all prefixes of others, or those that lie in a prefix or around it: at no site but itself and those that are allowed."""
        net = self.net
        free = {one for of in net.prefixes[site] for one in self.sites.same(site, of)} | {site} | set(allowed)
        where = set(range(len(net.sites))) - free
        others = dict.fromkeys(of for other, found in enumerate(net.prefixes) if other != site for of in found)
        chosen = [of for of in others if within is None or lies_in(of, within)]
        if within is not None and within not in chosen and any(lies_in(within, of) for of in others):
            chosen.append(within)
        return [self.ask(site, of, False, where) for of in chosen]


# Lines.


class Line:
    """Reads the words of a line."""

    def __init__(self, reader, number, text):
        self.reader, self.net, self.packets = reader, reader.net, reader.packets
        self.number, self.text, self.at, self.words = number, text, 0, []
        end = 0
        for found in WORDS.finditer(text):
            if found[0].startswith("#"):
                break
            between = text[end : found.start()].replace(",", " ")
            if between.strip():
                raise self.fault("a quote isn't closed", end + len(between) - len(between.lstrip()) + 1)
            self.words.append(Word(found[0] if found[1] is None else found[1], found.start() + 1, found[1] is not None))
            end = found.end()
        if '"' in (rest := text[end:].partition("#")[0]):
            raise self.fault("a quote isn't closed", end + rest.index('"') + 1)
        self.said = text[: self.words[-1].column - 1 + len(self.words[-1].text) + 2 * self.words[-1].is_name].strip() if self.words else ""

    def fault(self, why, column=None):
        column = column or (self.words[self.at].column if self.at < len(self.words) else len(self.text.rstrip()) + 1)
        return Fault(f"{self.reader.path}:{self.number}:{column}: {why}", 3)

    def sees(self, *texts):
        """One of these words is next."""
        return self.at < len(self.words) and not self.words[self.at].is_name and self.words[self.at].text in texts

    def takes(self, *texts):
        found = self.sees(*texts)
        self.at += found
        return found

    def next(self, what):
        if self.at == len(self.words):
            raise self.fault(f"{what} is missing")
        self.at += 1
        return self.words[self.at - 1]

    # Sites.

    def sites(self):
        """One or more sites, or all of a VPN."""
        found, first = [], self.at
        while self.at < len(self.words) and not self.sees(*ENDS_OF_SITES):
            if self.takes("and"):
                continue
            if self.takes("all"):
                found += self.vpn() if self.takes("of") or self.sees("vpn") else range(len(self.net.sites))
            elif self.sees("vpn"):
                found += self.vpn()
            else:
                found.append(self.site())
        if self.at == first:
            raise self.fault(f"a site is missing: {FORM}" if first == 0 else "a site is missing")
        return list(dict.fromkeys(found))

    def vpn(self):
        if not self.takes("vpn"):
            raise self.fault("behind 'all of' stands 'vpn' and the VPN's name")
        word = self.next("the VPN's name")
        found = self.packets.sites.of_vpn(word.text)
        if not found:
            raise self.fault(f"no VPN with sites is named {word.text!r}{meant_name(word.text, dict.fromkeys(self.packets.sites.vpns))}", word.column)
        return found

    def site(self):
        word = self.next("a site")
        if word.text not in self.net.site_number:
            raise self.fault(f"there is no site {word.text!r}{meant_name(word.text, self.net.site_number)}", word.column)
        return self.net.site_number[word.text]

    # What is reached.

    def read(self):
        """The expectation that the line says."""
        senders = self.sites()
        never = self.takes("never")
        if not self.takes("reaches", "reach"):
            raise self.fault("'reaches' or 'reach' is missing")
        start = self.at
        asks = self.reached(senders, never)
        asks = [ask for ask in asks if ask is not None]
        if not asks:
            raise self.fault("there is nothing to send: no site of these has a prefix that the sender hasn't", self.words[start].column)
        line = Expectation(self.number, self.said, list(dict.fromkeys(asks)), [])
        while self.at < len(self.words):
            self.condition(line)
        line.failures = list(dict.fromkeys(line.failures))
        return line

    def reached(self, senders, never):
        if self.sees("none") and never:
            raise self.fault("'never reaches none' says nothing: it is 'reaches none'")
        if self.takes("none"):
            allowed = self.allowed(senders)
            return [ask for site in senders for ask in self.packets.of_none(site, allowed)]
        if self.takes("each"):
            if not self.takes("other"):
                raise self.fault("behind 'each' stands 'other'")
            if len(senders) < 2:
                raise self.fault("one site alone has no other", self.words[self.at - 2].column)
            return [ask for site in senders for other in senders for ask in self.packets.of_site(site, other, not never)]
        if self.at < len(self.words) and self.words[self.at].text not in self.net.site_number and re.match(r"[0-9.]+(/|\Z)", self.words[self.at].text):
            return self.prefix(senders, never)
        others = self.sites()
        return [ask for site in senders for other in others for ask in self.packets.of_site(site, other, not never)]

    def allowed(self, senders):
        """The sites behind 'but'."""
        found = []
        if not self.takes("but"):
            return found
        while not found or self.at < len(self.words) and not self.sees("after", "via", "within", "not"):
            if self.takes("each"):
                if not self.takes("other"):
                    raise self.fault("behind 'each' stands 'other'")
                found += senders
                self.takes("and")
            else:
                found += self.sites()
        return found

    def prefix(self, senders, never):
        word = self.next("a prefix")
        at = address(word.text)
        of = prefix(word.text) if at is None else (at, 32)
        if of is None:
            raise self.fault(f"{word.text!r} is no site and no prefix: {why_no_prefix(word.text)}", word.column)
        if whatif.first_address(of) is None:
            raise self.fault(f"no packet may go to {word.text}", word.column)
        found = [ask for site in senders for ask in (self.packets.of_none(site, (), of) if never else self.packets.of_prefix(site, of))]
        if not found:
            raise self.fault(f"no other site has a prefix that contains {word.text} or lies in it", word.column)
        return found

    # Conditions.

    def condition(self, line):
        if self.takes("after"):
            self.after(line)
            return
        is_path = self.sees("via", "within", "not")
        if is_path and line.always:
            raise self.fault(f"{self.words[self.at].text!r} is asked of what arrives: it doesn't go with 'never' and 'none'")
        if self.takes("via"):
            line.via += tuple(self.nodes())
        elif self.takes("not"):
            if not self.takes("via"):
                raise self.fault("behind 'not' stands 'via' and a node")
            line.avoids += tuple(self.nodes())
        elif self.takes("within"):
            word = self.next("a number of nodes")
            if not re.fullmatch("[1-9][0-9]{0,2}", word.text):
                raise self.fault(f"{word.text!r} isn't a number of nodes from 1", word.column)
            line.most = int(word.text)
            self.takes("nodes", "node")
        else:
            raise self.fault(f"{self.words[self.at].text!r}: here stands 'after', 'via', 'not via' or 'within'")

    def nodes(self):
        found = [self.node()]
        while self.at < len(self.words) and not self.sees(*ENDS_OF_SITES):
            if not self.takes("and"):
                found.append(self.node())
        return found

    def node(self):
        word = self.next("a node")
        if word.text not in self.net.number:
            raise self.fault(f"there is no node {word.text!r}{meant_name(word.text, self.net.number)}", word.column)
        return word.text

    def after(self, line):
        """Failures behind 'after', one or several with 'or' between them."""
        while True:
            line.failures += self.any() if self.takes("any") else [self.failure()]
            if not self.takes("or", "and"):
                return

    def any(self):
        count = "2" if self.takes("2", "two") else "1"
        self.takes("1", "one", "single")
        word = self.next("'link', 'node', 'ldp', 'bgp', 'failure' or '2 links'")
        if count == "2" and word.text == "links":
            return [*self.reader.of("link"), *self.reader.of("links")]
        if count == "1" and word.text == "failure":
            return [*self.reader.of("link"), *self.reader.of("node")]
        if count == "1" and word.text in KINDS:
            return self.reader.of(word.text)
        raise self.fault(f"{word.text!r}: behind 'any' stands 'link', 'node', 'ldp', 'bgp', 'failure' or '2 links'", word.column)

    def failure(self):
        """A failure by its name, as 'link p1-p2', 'link p1 p2' or 'node p1'."""
        kind = self.next("'any', or 'link', 'node', 'ldp' or 'bgp' and a name")
        if kind.text in KINDS:
            return self.named(kind.text)
        if kind.text != "links":
            raise self.fault(f"{kind.text!r}: behind 'after' stands 'any', or 'link', 'node', 'ldp' or 'bgp' and a name", kind.column)
        first, _, second = self.named("link"), self.takes("and"), self.named("link")
        if first == second:
            raise self.fault("both links are the same", kind.column)
        pair = sorted(map(self.reader.of("link").index, (first, second)))
        return whatif.links_failure(self.net, pair, self.reader.keep_bgp, "links", " and ".join(map(self.net.link_name, pair)))

    def named(self, kind):
        word = self.next(f"the name of the {kind}")
        known, text = self.reader.named(kind), word.text
        if text not in known and kind != "node" and self.at < len(self.words) and f"{text}-{self.words[self.at].text}" in known:
            text = f"{text}-{self.next('its other end').text}"
        if text not in known:
            what = {"ldp": "link", "bgp": "session"}.get(kind, kind)
            raise self.fault(f"there is no {what} {text!r}{meant_name(text, known)}", word.column)
        return known[text]


class Reader:
    """Reads lines over a topology; the packets that they ask of are in `packets`."""

    def __init__(self, path, net, tables, keep_bgp):
        self.path, self.net, self.keep_bgp, self.packets, self.failures = path, net, keep_bgp, Packets(net, tables), {}

    def file(self):
        """The expectations of the file."""
        try:
            text = bytes_of(self.path).decode()
        except UnicodeDecodeError as error:
            raise Fault(f"{self.path}: byte {error.start}: not UTF-8", 3)
        except Fault as fault:
            raise Fault(str(fault), 3)
        found, faults = [], []
        for number, text in enumerate(text.splitlines(), 1):
            try:
                line = Line(self, number, text)
                found += [line.read()] if line.words else []
            except Fault as fault:
                faults.append(str(fault))
            if len(self.packets.found) > whatif.MOST_RECORDS:
                raise Fault(f"{self.path}:{number}: up to this line there are {len(self.packets.found)} packets, and a run takes {whatif.MOST_RECORDS}", 3)
        if faults or not found:
            raise Fault("\n".join(faults or [f"{self.path}: has no line: {FORM}"]), 3)
        return found

    def of(self, kind):
        """All failures of a kind, in the topology's order."""
        if kind not in self.failures:
            all_of = whatif.double_of(self.net, self.keep_bgp) if kind == "links" else whatif.failures_of(self.net, [KINDS[kind]], self.keep_bgp)
            self.failures[kind] = all_of
        return self.failures[kind]

    def named(self, kind):
        """The failures of a kind by their names; the ends of a link or a session stand in either order."""
        known, net = {failure.name: failure for failure in self.of(kind)}, self.net
        pairs = [(a, b) for a, b, _ in net.links] if kind != "bgp" else [(a, b) for a in net.edges for b in net.edges]
        for a, b in pairs if kind != "node" else ():
            if (name := f"{net.nodes[a]}-{net.nodes[b]}") in known:
                known.setdefault(f"{net.nodes[b]}-{net.nodes[a]}", known[name])
        return known


# A first file.


MOST_TRIED = 300_000  # packets in failures, beyond which a first file says nothing of failures
FIRST = """\
# What is so of the network as it is: change it to what is to be, and ask by 'mplsnet-expect {name} {expect}'.
# 'any failure' is that of any link or any node. More may be said: 'a reaches b via p1', '.. within 4 nodes', '.. after any 2 links', 'a never reaches c'.
"""


def first_text(net, tables, keep_bgp, name, expect):
    """A first file of expectations of a network."""
    return FIRST.format(name=name, expect=expect) + "".join(f"{line}\n" for line in First(net, tables, keep_bgp).lines())


class First:
    """Writes lines that are so of a topology whose links, sessions and LDP are all up, by targets, prefixes and links alone."""

    def __init__(self, net, tables, keep_bgp):
        self.net, self.reader = net, Reader("a first file", net, tables, keep_bgp)
        self.sites = self.reader.packets.sites
        self.failures = [(failure, {link}) for link, failure in enumerate(self.reader.of("link"))]
        self.failures += [(failure, {link for _, link in net.neighbours[node]}) for node, failure in enumerate(self.reader.of("node"))]
        self.apart = {failure: self.pairs_apart(links) for failure, links in [(None, set()), *self.failures]}

    def pairs_apart(self, links):
        return {frozenset(pair) for pair in whatif.sessions_apart(self.net, links)}

    def lines(self):
        net, groups = self.net, {}
        for site, vrf in enumerate(net.vrf_of):
            groups.setdefault(self.sites.vpns[self.sites.vpn_of[net.vrfs[vrf].name]], []).append(site)
        for name, sites in groups.items():
            seen = {site: set(self.sites.seen_by(net.vrf_of[site])) - {site} for site in sites}
            whole = [other for other, theirs in groups.items() if all(set(theirs) - {site} <= seen[site] for site in sites)]
            who, others = self.group(name, sites), {other: self.group(other, groups[other]) for other in whole if other != name}
            each = ["each other"] * (name in whole and len(sites) > 1)
            for what in [*each, *others.values()]:
                yield from self.line(f"{who} {'reach' if len(sites) > 1 else 'reaches'} {what}", len(sites) * len(net.sites))
            known, rest = {one for other in whole for one in groups[other]}, set()
            for site in sites:
                if seen[site] - known:
                    yield from self.line(f"{self.name(site)} reaches {self.listed(seen[site] - known)}", len(seen[site]))
                    rest |= seen[site] - known
            but = ", ".join([*each, *others.values(), *([self.listed(rest)] if rest else [])])
            yield from self.line(f"{who} {'reach' if len(sites) > 1 else 'reaches'} none" + (f" but {but}" if but else ""), len(sites) * len(net.sites))

    def line(self, text, size):
        """The line, with the failures after which it is so too; a comment where it isn't so, or asks too much of one run."""
        if size > whatif.MOST_RECORDS:
            yield f"# more packets than one run takes: {text}"
            return
        try:
            found = Line(self.reader, 0, text).read()
        except Fault:  # there is nothing to send
            return
        if not self.is_so(found, None):
            yield f"# not so as it is: {text}"
        elif found.always or len(found.asks) * len(self.failures) > MOST_TRIED or not self.is_so_after(found, "link"):
            yield text
        else:
            yield f"{text} after any {'failure' if self.is_so_after(found, 'node') else 'link'}"

    def is_so_after(self, line, kind):
        return all(self.is_so(line, failure) for failure, _ in self.failures if failure.kind == kind)

    def is_so(self, line, failure):
        return all((self.arrival(ask, failure) in ask.sites) == ask.arrives for ask in line.asks if line.counts(ask, failure))

    def arrival(self, ask, failure):
        """The site at which the packet arrives: that of the best of the routes to whose edges links lead; none where they lead to none."""
        net, packet, apart = self.net, self.reader.packets.found[ask.packet], self.apart[failure]
        vrf, at = net.vrf_of[net.site_number[packet.site]], int.from_bytes(packet.address, "big")
        here, found = net.vrfs[vrf].node, []
        for site in self.sites.seen_by(vrf):
            edge = net.edge_of(site)
            if edge == here or frozenset((net.nodes[here], net.nodes[edge])) not in apart:
                found += [(-of[1], net.rank(vrf, net.vrf_of[site]), net.sites[site]) for of in net.prefixes[site] if contains(of, at)]
        return min(found, default=(0, 0, None))[2]

    def group(self, name, sites):
        return self.name(sites[0]) if len(sites) == 1 else f"all of vpn {name}"

    def name(self, site):
        name = self.net.sites[site]
        return f'"{name}"' if name in (*ENDS_OF_SITES, "all", "vpn", "and") else name

    def listed(self, sites):
        return " ".join(map(self.name, sorted(sites)))
