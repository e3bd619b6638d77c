"""What is lawful in a topology, a script and a capture, and seldom meant (docs/FORMATS.md has what is refused).

A warning is told at its key or value. A comment 'lint: ok' on that line says that it is meant.
"""

import re
from bisect import bisect_left, bisect_right

from mplsnet.rules import Broken, listed, meant, prefix, shown, starts_of, value_shown, words_of
from mplsnet.toml import read
from mplsnet.words import address as address_text

MEANT = re.compile(r"#.*\blint: ok\b")


def stem(name):
    """How a name begins: red of red1, red-west and red.pe2."""
    return re.split(r"[-_.0-9]", name)[0] or name


def count_of(number, what):
    return f"{number} {what}{'s' * (number != 1)}"


def contains(of, other):
    """The prefix contains the other one, or is it."""
    return of[1] <= other[1] and of[0] >> 32 - of[1] == other[0] >> 32 - of[1]


def is_unicast(of):
    """A packet may go to an address of the prefix."""
    return of[0] >> 24 < 224 and not (of[1] >= 8 and of[0] >> 24 in (0, 127))


class Vrf:
    """A VRF with its targets, those of the script too, and those that the topology names with their places."""

    def __init__(self, index, table):
        self.index, self.table, self.name, self.node = index, table, table["name"], table["node"]
        self.places = {key: dict(zip(table.get(key, []), table[key].places if key in table else [])) for key in ("import", "export")}
        self.targets = {key: set(self.places[key]) for key in self.places}

    @property
    def place(self):
        return f"vrf {self.index} '{self.name}'"

    def at(self, key):
        return self.table.value_at.get(key, self.table.at)

    def learns_from(self, other):
        return self is other or bool(self.targets["import"] & other.targets["export"])


class Site:
    """A site with its prefixes, those of the script too, and those that the topology names with their places."""

    def __init__(self, index, table, vrf):
        self.index, self.table, self.name, self.vrf = index, table, table["name"], vrf
        found = zip(table.get("prefixes", []), table["prefixes"].places if "prefixes" in table else [])
        self.places = {prefix(text): (text, at) for text, at in found}
        self.prefixes = set(self.places)

    @property
    def place(self):
        return f"site {self.index} '{self.name}'"


class TopologyWarnings:
    """Looks at a topology without faults, and at a script over it without faults; what it warns of is in `found`, by place."""

    def __init__(self, bytes_, script=None):
        self.top, self.text = read(bytes_)
        self.starts, self.lines, self.told, self.quiet = starts_of(self.text), self.text.split("\n"), [], set()
        self.nodes = {node["name"]: node for node in self.top.get("node", [])}
        self.vrfs = [Vrf(index, table) for index, table in enumerate(self.top.get("vrf", []))]
        by_name = {vrf.name: vrf for vrf in self.vrfs}
        self.sites = [Site(index, table, by_name[table["vrf"]]) for index, table in enumerate(self.top.get("site", []))]
        self.take_script(by_name, script or b"")
        self.part, self.members = self.parts(), {vrf.name: [] for vrf in self.vrfs}
        for site in self.sites:
            self.members[site.vrf.name].append(site)
        # Of each VRF those that have routes to its sites, a bit for each.
        self.learners = {vrf.name: sum(1 << one.index for one in self.vrfs if one.learns_from(vrf)) for vrf in self.vrfs}
        for look in (self.targets, self.empty, self.lonely, self.one_way, self.links, self.overlaps, self.unreachable):
            look()
        self.found = [one for _, one in sorted(self.told, key=lambda pair: pair[0]) if not MEANT.search(self.lines[one.line - 1])]

    def take_script(self, by_name, script):
        """What the script adds counts as there."""
        sites = {site.name: site for site in self.sites}
        for line in script.split(b"\n"):
            words = [word for word, _ in words_of(line.removesuffix(b"\r"))]
            if words[:2] in (["import", "add"], ["export", "add"]):
                by_name[words[2]].targets[words[0]].add(words[3])
            elif words[:2] == ["route", "add"]:
                sites[words[2]].prefixes.add(prefix(words[3]))

    def warn(self, at, place, why, vrfs=()):
        """Told once; of these VRFs nothing is told that follows from it."""
        line = bisect_right(self.starts, at)
        self.told.append((at, Broken("warning", place, why, line, at - self.starts[line - 1] + 1)))
        self.quiet |= {vrf.name for vrf in vrfs}

    # Targets.

    def targets(self):
        """Targets that one side alone has."""
        sides = {"import": ("export", "exported"), "export": ("import", "imported")}
        for vrf in self.vrfs:
            for key, (other, done) in sides.items():
                others = [one for one in self.vrfs if one is not vrf]
                known = {target for one in others for target in one.targets[other]}
                alike = {target for one in others if stem(one.name) == stem(vrf.name) for target in one.targets[key]} & known
                for target, at in vrf.places[key].items():
                    if target not in known and target not in vrf.targets[other]:
                        hint = meant(target, sorted(alike)) or meant(target, sorted(known - vrf.targets[key])) or meant(target, sorted(known))
                        self.warn(at, vrf.place, f"{key}: {value_shown(target)} is {done} by no VRF{hint}", [vrf])

    def empty(self):
        """VRFs without targets or sites."""
        for vrf in self.vrfs:
            others = [one for one in self.vrfs if one is not vrf]
            if not vrf.targets["import"] and others:
                self.warn(vrf.table.key_at.get("import", vrf.table.at), vrf.place, "it imports no target: its sites reach those of no other VRF", [vrf])
            if not vrf.targets["export"] and others:
                self.warn(vrf.table.key_at.get("export", vrf.table.at), vrf.place, "it exports no target: no other VRF has routes to its sites", [vrf])
            if not self.members[vrf.name]:
                self.warn(vrf.at("name"), vrf.place, "no site is in it", [vrf])

    def lonely(self):
        """VRFs named like others with which they share no target."""
        for vrf in self.vrfs:
            alike = [one for one in self.vrfs if one is not vrf and stem(one.name) == stem(vrf.name)]
            shares = any(vrf.learns_from(one) or one.learns_from(vrf) for one in self.vrfs if one is not vrf)
            if vrf.name in self.quiet or shares or not alike:
                continue
            targets = sorted({target for one in alike for target in one.targets["export"]})
            hint = f"; {listed([one.name for one in alike[:3]])} export{'s' * (len(alike) == 1)} {listed(targets[:3])}" if targets else ""
            key = "import" if "import" in vrf.table else "name"
            self.warn(vrf.at(key), vrf.place, f"it shares no target with any other VRF{hint}", [vrf])

    def one_way(self):
        """VRFs of which one has routes to the other's sites, which have none back."""
        for vrf in self.vrfs:
            for other in self.vrfs:
                pair, shared = {vrf.name, other.name}, sorted(vrf.places["import"].keys() & other.places["export"].keys())
                if vrf is not other and shared and not other.learns_from(vrf) and not pair & self.quiet:
                    shared = listed(shared)
                    back = f"{other.name} has none back: it imports none of {listed(sorted(vrf.targets['export']))}"
                    why = f"it has routes to the sites of {other.name}, by {shared}, and {back}"
                    self.warn(vrf.at("import"), vrf.place, why, [vrf, other])

    # Links.

    def parts(self):
        """Of each node the part of the network that links join; parts are named by their first node."""
        part = {name: name for name in self.nodes}

        def root(name):
            while part[name] != name:
                name = part[name]
            return name

        for link in self.top.get("link", []):
            part[root(link["a"])] = root(link["b"])
        roots, first = {name: root(name) if "link" in self.top else "" for name in self.nodes}, {}  # without any link there is no network to be parted
        return {name: first.setdefault(end, name) for name, end in roots.items()}

    def links(self):
        members = {}
        for name, first in self.part.items():
            members.setdefault(first, []).append(name)
        numbers = {name: index for index, name in enumerate(self.nodes)}
        largest = max(members.values(), key=len, default=[])
        for names in members.values():
            vrfs = [vrf for vrf in self.vrfs if vrf.node in names]
            place, at = f"node {numbers[names[0]]} '{names[0]}'", self.nodes[names[0]].value_at["name"]
            if len(names) == 1 and len(self.nodes) > 1:
                self.warn(at, place, "no link leads to it", vrfs)
            elif names is not largest:
                more = f" and {count_of(len(names) - 3, 'node')} more" if len(names) > 3 else ""
                self.warn(at, place, f"no link joins {listed(names[:3])}{more} with the other nodes", vrfs)
        for index, link in enumerate(self.top.get("link", [])):
            if link.get("loss") == 1:
                self.warn(link.value_at["loss"], f"link {index}", "loss = 1: every frame on it is lost; 100 loses every hundredth, 0 none")

    # Prefixes.

    def overlaps(self):
        """Prefixes of a VPN that overlap, other than a default route, and than those of one site behind several edges."""
        every = sorted((of, site.index) for site in self.sites for of in site.prefixes)
        for site in self.sites:
            for of, (text, at) in site.places.items():
                if of[1] == 0:
                    continue
                first, last = bisect_left(every, (of, 0)), bisect_left(every, ((of[0] + (1 << 32 - of[1]), 0), 0))
                near = [(self.sites[index], within) for within, index in every[first:last] if index != site.index and self.meet(site, self.sites[index])]
                same = [one for one, within in near if within == of and one.index < site.index and not self.is_one(site, one, of)]
                inner = [(one, within) for one, within in near if within != of and not site.prefixes & one.prefixes]
                if same:
                    resolve = "" if same[0].vrf.node == site.vrf.node else "; of a site behind two edges say 'resolve = true', so that either serves"
                    why = f"is a prefix of {same[0].place} too, and packets go to one of the two alone{resolve}"
                    self.warn(at, site.place, f"prefixes: {value_shown(text)} {why}")
                if inner:
                    (one, within), more = inner[0], f" (and {len(inner) - 1} more)" if len(inner) > 1 else ""
                    lies = f"{shown(within[0])}/{within[1]} of {one.place} lies in it{more}: packets to that go there"
                    self.warn(at, site.place, f"prefixes: {value_shown(text)}: {lies}")

    def meet(self, site, other):
        """Some VRF has routes to both."""
        return self.learners[site.vrf.name] & self.learners[other.vrf.name] != 0

    def is_one(self, site, other, of):
        """The two may be one site behind two edges: routes stand aside there, or no other site of the VPN is named like these two."""
        if site.vrf.node == other.vrf.node:
            return False
        alike = [one for one in self.sites if self.meet(site, one) and stem(one.name) == stem(site.name) and of not in one.prefixes]
        return self.top.get("resolve") is True or stem(site.name) == stem(other.name) and not alike

    def unreachable(self):
        """Sites that no other site can reach."""
        for site in self.sites:
            if not site.prefixes:
                self.warn(site.table.key_at.get("prefixes", site.table.at), site.place, "it has no prefix: nothing is sent to it")
            for of, (text, at) in site.places.items():
                if not is_unicast(of):
                    self.warn(at, site.place, f"prefixes: {value_shown(text)}: no packet may go there (RFC 1812, section 5.3.7)")
            learners = [vrf for vrf in self.vrfs if self.learners[site.vrf.name] >> vrf.index & 1]
            near = (one for vrf in learners if self.part[vrf.node] == self.part[site.vrf.node] for one in self.members[vrf.name])
            if site.vrf.name not in self.quiet and len(learners) > 1 and not any(one is not site for one in near):
                self.warn(site.table.value_at["name"], site.place, "no other site can reach it")


# Captures.


ORDERS = {b"\xa1\xb2\xc3\xd4": ">", b"\xa1\xb2\x3c\x4d": ">", b"\xd4\xc3\xb2\xa1": "<", b"\x4d\x3c\xb2\xa1": "<"}
MOST_CAPTURE_BYTES, MOST_RECORDS, MOST_RECORD = 67_108_864, 100_000, 262_144
CAUSES = {
    "CutShort": "bytes are missing", "IsPcapng": "it is a pcapng: 'editcap -F pcap' makes a pcap of it", "BadMagic": "it doesn't begin as a pcap capture",
    "BadVersion": "its version isn't 2.4", "BadLinkType": "its link type is none of 1 (Ethernet), 101 (raw IP) and 228 (raw IPv4)",
    "BadRecord": f"the record is said to have more than {MOST_RECORD:,} bytes",
}  # fmt: skip
DROPS = {
    "NotIpv4": "it is empty, or its version isn't 4", "Malformed": "its header is said to be shorter than 20 bytes, or longer than the packet",
    "Truncated": "bytes of it are missing", "BadChecksum": "the checksum of its header is wrong", "TtlExpired": "its TTL is 0 or 1",
    "NotUnicast": "its destination is no address of one host",
}  # fmt: skip


class Capture:
    """Reads a capture as the program does: what is refused is in `broken`, else its packets in `packets`."""

    def __init__(self, bytes_):
        self.bytes, self.packets, self.broken = bytes_, [], []
        if len(bytes_) > MOST_CAPTURE_BYTES:
            self.broken.append(Broken("too large capture bytes", "", f"it has {len(bytes_):,} bytes, and may have {MOST_CAPTURE_BYTES:,}"))
            return
        refusal = self.head() or self.records()
        if len(self.packets) > MOST_RECORDS:
            self.broken.append(Broken("too large capture records", "", f"it has more than {MOST_RECORDS:,} records"))
        elif refusal:
            self.broken.append(Broken(refusal[0], f"byte {refusal[1]}", CAUSES[refusal[0]]))

    def number(self, at, size):
        return int.from_bytes(self.bytes[at : at + size], "big" if self.order == ">" else "little")

    def head(self):
        """Why the file's header is refused, and at which byte."""
        self.order = ORDERS.get(self.bytes[:4])
        if len(self.bytes) < 4:
            return "CutShort", 0
        if self.bytes[:4] == b"\x0a\x0d\x0d\x0a":
            return "IsPcapng", 0
        if self.order is None:
            return "BadMagic", 0
        if len(self.bytes) < 24:
            return "CutShort", 0
        if (self.number(4, 2), self.number(6, 2)) != (2, 4):
            return "BadVersion", 4
        self.link_type = self.number(20, 4) & 0xFFFF
        return None if self.link_type in (1, 101, 228) else ("BadLinkType", 20)

    def records(self):
        at = 24
        while at < len(self.bytes):
            size = self.number(at + 8, 4)
            if at + 16 > len(self.bytes):
                return "CutShort", at
            if size > MOST_RECORD:
                return "BadRecord", at
            if at + 16 + size > len(self.bytes):
                return "CutShort", at
            record = self.bytes[at + 16 : at + 16 + size]
            self.packets.append(record if self.link_type != 1 else record[14:] if record[12:14] == b"\x08\x00" else b"")
            at += 16 + size
        return None


def drop_of(packet):
    """The rule by which any edge drops the packet as it enters, whatever routes there are; none where there is none."""
    if not packet or packet[0] >> 4 != 4:
        return "NotIpv4"
    header = 4 * (packet[0] & 15)
    total = int.from_bytes(packet[2:4], "big")
    if header < 20 or len(packet) >= 4 and total < header:
        return "Malformed"
    if len(packet) < max(20, header, total):
        return "Truncated"
    words = sum(int.from_bytes(packet[at : at + 2], "big") for at in range(0, header, 2))
    while words >> 16:
        words = (words & 0xFFFF) + (words >> 16)
    if words != 0xFFFF:
        return "BadChecksum"
    if packet[8] < 2:
        return "TtlExpired"
    return "NotUnicast" if packet[16] in (0, 127) or packet[16] >> 4 in (14, 15) else None


class CaptureWarnings:
    """Looks at the records that a script names: what it warns of in the script is in `of_script`, in the capture in `of_capture`."""

    def __init__(self, script, packets, prefixes):
        self.of_script, self.of_capture, first = [], [], {}
        for number, line in enumerate(script.split(b"\n"), 1):
            words = words_of(line.removesuffix(b"\r"))
            verb = " ".join(word for word, _ in words[:2])
            if not verb.startswith("inject ") and verb not in ("damage ldp", "damage bgp", "show frame") or MEANT.search(line.decode("latin-1")):
                continue
            record, at = words[-1]
            if int(record) > len(packets):
                has = f"the capture has {count_of(len(packets), 'record')}"
                self.of_script.append(Broken("warning", f"line {number}", f"there is no record {record}: {has}", number, at + 1))
            elif verb.startswith("inject"):
                first.setdefault(int(record), number)
        for record, number in sorted(first.items()):
            packet = packets[record - 1]
            rule, to = drop_of(packet), int.from_bytes(packet[16:20], "big")
            if rule:
                self.say(record, number, f"any edge drops it as {rule}: {DROPS[rule]}")
            elif not any(contains(of, (to, 32)) for of in prefixes):
                self.say(record, number, f"any edge drops it as NoRoute: no site has a prefix that contains {address_text(packet[16:20])}")

    def say(self, record, number, why):
        self.of_capture.append(Broken("warning", f"record {record}", f"{why} (line {number} of the script sends it)"))
