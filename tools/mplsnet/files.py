"""What the tools read: a topology, a report, and the folder of a run (docs/FORMATS.md has them all)."""

import os
import re
import struct
import sys
from dataclasses import dataclass, field
from pathlib import Path

from mplsnet.rules import TopologyRules
from mplsnet.topology import KINDS

if sys.version_info < (3, 11):
    sys.exit(f"{Path(sys.argv[0]).name}: needs Python 3.11 or later")

NAME = re.compile(r"[A-Za-z0-9._-]{1,32}\Z")


class Fault(Exception):
    """What is wrong, with the file and the place, and the status to end with."""

    def __init__(self, text, status=1):
        super().__init__(text)
        self.status = status


def bytes_of(path):
    """The bytes of the file."""
    try:
        return Path(path).read_bytes()
    except OSError as error:
        raise Fault(f"{path}: {error.strerror}")


def lines_of(path, what):
    """The lines of a text of ASCII."""
    try:
        return bytes_of(path).decode("ascii").splitlines()
    except UnicodeDecodeError:
        raise Fault(f"{path}: not {what}: it has bytes that aren't ASCII")


# The topology.


def read_tables(path, status=1):
    """The tables of a topology that breaks no rule; of any other the first rule that it breaks is said, as the program says it."""
    rules = TopologyRules(bytes_of(path))
    if rules.broken:
        more = f" ({len(rules.broken) - 1} more: mplsnet-lint tells them)" if len(rules.broken) > 1 else ""
        raise Fault(rules.broken[0].words(path) + more, status)
    return rules.tables


def read_topology(path, status=1):
    """The same: an array of each kind, and whether the topology resolves next hops."""
    tables = read_tables(path, status)
    return {kind: tables.get(kind, []) for kind in KINDS} | {"resolve": tables.get("resolve", False)}


def vpns_of(net):
    """A number for each VRF, and the VPNs' names: VRFs whose first target (exported, or else imported) is the same have the same.

    A VPN is named as its VRFs' names begin, or else by that target.
    """
    found, members = {}, {}
    for vrf in net["vrf"]:
        targets = [*vrf.get("export", []), *vrf.get("import", [])]
        target = targets[0] if targets else f"vrf {vrf['name']}"
        found[vrf["name"]] = target
        members.setdefault(target, []).append(vrf["name"])
    names, taken = [], set()
    for target, vrfs in members.items():
        name = os.path.commonprefix(vrfs)
        if name not in vrfs:
            name = re.sub(r"[-_.][^-_.]*\Z", "", name)
        names.append(name if len(name) > 1 and name not in taken else target)
        taken.add(names[-1])
    numbers = {target: at for at, target in enumerate(members)}
    return {vrf: numbers[target] for vrf, target in found.items()}, names


# The report.


class Way:
    """What a report's line says of a packet: where it came in, its nodes, and how it ended."""

    def __init__(self, site, end, words, nodes):
        self.site, self.end, self.words, self.nodes = site, end, words, nodes


def way_of(place, words):
    """The way that the words of a line say."""
    line = " ".join(words)
    start = re.match(r"packet \d+ line \d+ site (\S+) record \d+ (.*)", line)
    if start:
        site, rest = start.groups()
        for end, form in (
            ("delivered", r"delivered (\S+) ttl (\d+) copy (\d+) path (.+)"),
            ("dropped", r"dropped (\S+) at (\S+) path (.+)"),
            ("flying", r"flying (\S+) (\S+) path (.+)"),
        ):
            found = re.fullmatch(form, rest)
            if found:
                *said, nodes = found.groups()
                return Way(site, end, said, nodes.split())
    raise Fault(f"{place}: not a packet's line: {line[:100]}")


def read_report(path):
    """The lines of a report, and the way of each packet in the order of sending."""
    lines = lines_of(path, "a report")
    ways = [way_of(f"{path}: line {number}", line.split()) for number, line in enumerate(lines, 1) if line.startswith("packet ")]
    return lines, ways


# The folder of a run.


@dataclass(frozen=True, slots=True)
class Entry:
    """An entry of a label stack."""

    label: int
    ttl: int
    bottom: bool


@dataclass(frozen=True, slots=True)
class Frame:
    """A frame that was sent over a link: its tick, its label stack, top first, and the packet's bytes."""

    tick: int
    stack: tuple
    packet: bytes

    def bytes(self):
        return b"".join(struct.pack(">I", one.label << 12 | one.bottom << 8 | one.ttl) for one in self.stack) + self.packet


@dataclass
class Run:
    """What the folder has. A link is (A, B) in the topology's order of ends; a stream is of (speaker, hearer)."""

    folder: Path
    steps: list = field(default_factory=list)  # (tick, words)
    nodes: list = field(default_factory=list)  # those that gave labels in the topology's order, then others by name
    loopbacks: dict = field(default_factory=dict)  # four bytes of each node that had a session
    given: dict = field(default_factory=dict)  # of each node the labels that it gave, in order, each with ("fec", node) or ("site", site, attachment)
    attachments: dict = field(default_factory=dict)  # of each node: of each label of an attachment its site and number
    node_of: dict = field(default_factory=dict)  # of each site
    links: list = field(default_factory=list)
    frames: dict = field(default_factory=dict)  # of each link
    ldp: dict = field(default_factory=dict)  # of each stream: the sessions' lives, each a list of messages
    bgp: dict = field(default_factory=dict)
    delivered: list = field(default_factory=list)  # (tick, packet)

    def place(self, step):
        """A step's place, for what is said of it."""
        return f"{self.folder / 'journal.txt'}: line {step + 1}"


JOURNAL = re.compile(
    r"link (?:up|down) \S+ \S+|learn \S+ \S+ \S+|ldp (?:on|off) \S+ \S+|hear (?:ldp|bgp) \S+ \S+|bgp (?:up|down) \S+ \S+"
    r"|route (?:add|del) \S+ \S+|import (?:add|del) \S+ \S+|export (?:add|del) \S+ \S+|site (?:up|down) \S+|inject \S+ \d+|(?:carry|lose) \S+ \S+ \d+|tick \d+"
    r"|damage (?:ldp|bgp) \S+ \S+ \d+"
)
STEPS = {"link", "learn", "ldp", "hear", "bgp", "route", "import", "export", "site", "inject", "carry", "lose", "tick", "damage"}
NUMBER = re.compile(r"0|[1-9]\d*")
OLDER = "an older run's? It isn't removed when another run writes into the folder"


def read_run(folder):
    """The folder of a run, with the forms of its files checked."""
    run = Run(Path(folder))
    if not run.folder.is_dir():
        raise Fault(f"{folder}: not a folder")
    read_journal(run)
    read_labels(run)
    shared = Shared()
    for file in sorted(run.folder.iterdir()):
        ends = tuple(file.stem.split("+"))
        if len(ends) != 2 or file.suffix not in (".pcap", ".ldp", ".bgp"):
            continue
        if file.suffix == ".pcap":
            run.links.append(ends)
            run.frames[ends] = frames_of(file, shared)
        elif file.suffix == ".ldp":
            run.ldp[ends] = ldp_lives(file)
        else:
            run.bgp[ends] = bgp_lives(file)
    check_pairs(run)
    name_nodes(run)
    run.links.sort(key=lambda link: sorted(map(run.nodes.index, link)))
    run.delivered = records_of(run.folder / "delivered.pcap", 228)
    check_names(run)
    return run


def check_pairs(run):
    """Where PDUs of a link are there its capture is too, and where one edge's messages are the other's are too."""
    for streams, kind, others, what in ((run.ldp, "ldp", {*run.links}, "pcap"), (run.bgp, "bgp", {*run.bgp}, "bgp")):
        for pair in streams:
            if not {pair, pair[::-1]} & others - ({pair} if kind == "bgp" else set()):
                raise Fault(f"{run.folder / '+'.join(pair)}.{kind}: there is no {'+'.join(pair[::-1])}.{what}: the file may be {OLDER}")


def name_nodes(run):
    """The nodes and their addresses, by the files' names and by what is said in sessions; FECs get their nodes' names."""
    for (speaker, hearer), lives in run.ldp.items():
        if lives and lives[0][0][10:12] == b"\2\0":  # an Initialization, which names its receiver
            run.loopbacks |= {speaker: lives[0][0][4:8], hearer: lives[0][0][30:34]}
    for (teller, _), lives in run.bgp.items():
        if lives:
            run.loopbacks[teller] = lives[0][0][24:28]
    learners = {words[1] for _, words in run.steps if words[0] == "learn"}
    found = {name for pair in (*run.links, *run.bgp) for name in pair} | learners
    run.nodes = [*run.given, *sorted(found - run.given.keys())]
    named = {address: node for node, address in run.loopbacks.items()}
    for node, givings in run.given.items():
        for at, (label, (kind, *what)) in enumerate(givings):
            if kind == "fec":
                if what[0] not in named:
                    raise Fault(f"{run.folder / 'labels.txt'}: {node} gave a label for {'.'.join(map(str, what[0]))}, and no session tells of a node with this address")
                givings[at] = (label, ("fec", named[what[0]]))


def check_names(run):
    """What the steps name is there: links by their captures, edges by what they told, sites by their labels."""
    joined, seen = {frozenset(link) for link in run.links}, set()
    for step, (_, words) in enumerate(run.steps):
        if words in seen:
            continue
        seen.add(words)
        fault = misnamed(run, joined, words)
        if fault:
            raise Fault(f"{run.place(step)}: {fault}")


def misnamed(run, joined, words):
    """What the words of a step name that isn't there."""
    kind, *rest = words
    if kind in ("site", "inject", "route"):
        name = rest[0] if kind == "inject" else rest[1]
        return None if name in run.node_of else f"labels.txt has no site '{name}'"
    if kind == "bgp" or words[:2] in (("hear", "bgp"), ("damage", "bgp")):
        return None if tuple(rest[1:3]) in run.bgp else f"there is no {'+'.join(rest[1:3])}.bgp"
    if kind not in STEPS or kind in ("import", "export", "tick"):
        return None
    ends = {"carry": rest[:2], "lose": rest[:2], "damage": rest[1:3]}.get(kind, rest[-2:])
    return None if frozenset(ends) in joined else f"there is no {'+'.join(ends)}.pcap"


LIFE = 2000  # ticks for which a frame may be on a link of which the topology names no life


def lives_of(net):
    """Of each link of a topology's tables, by its ends, its life."""
    return {(link["a"], link["b"]): link.get("life", LIFE) for link in net["link"]}


def done_by(words):
    """The step that the words say; of a damaged message the one that ends its session."""
    if words[0] != "damage":
        return words
    return ("ldp", "off", *words[2:4]) if words[1] == "ldp" else ("bgp", "down", *words[2:4])


def passed(words):
    """The ticks that pass by the step itself."""
    return int(words[1]) if words[0] == "tick" else 0


def read_journal(run):
    """The steps, each with its tick. Steps of the same words share them; those of a kind that isn't known here are only kept."""
    path, last, known = run.folder / "journal.txt", 0, {}
    for number, line in enumerate(lines_of(path, "a journal"), 1):
        tick, _, rest = line.partition(" ")
        words = known.get(rest)
        if words is None:
            words = tuple(map(sys.intern, rest.split()))
            if not words or words[0] in STEPS and not JOURNAL.fullmatch(rest):
                raise Fault(f"{path}: line {number}: not a step: {line[:100]}")
            known[rest] = words
        if not NUMBER.fullmatch(tick):
            raise Fault(f"{path}: line {number}: not a step: {line[:100]}")
        when = int(tick)
        if when < last:
            raise Fault(f"{path}: line {number}: before the tick of the line above: {line[:100]}")
        last = last if when == last else when
        run.steps.append((last, words))
        last += passed(words)


def read_labels(run):
    """The labels that each node gave, FECs by their addresses, and the sites' nodes."""
    path = run.folder / "labels.txt"
    for number, line in enumerate(lines_of(path, "a list of labels"), 1):
        found = re.fullmatch(r"(\S+) (\d+) (?:fec (\d+)\.(\d+)\.(\d+)\.(\d+)/32|site (\S+) (\d+))", line)
        if not found:
            raise Fault(f"{path}: line {number}: not a label: {line[:100]}")
        node, label, *address, site, attachment = found.groups()
        attachments = run.attachments.setdefault(node, {})
        if int(label) in attachments:
            raise Fault(f"{path}: line {number}: the label is an attachment's, which keeps it: {line[:100]}")
        what = ("fec", bytes(map(int, address))) if site is None else ("site", site, int(attachment))
        run.given.setdefault(node, []).append((int(label), what))
        if site is not None:
            attachments[int(label)] = what[1:]
            run.node_of[site] = node


def records_of(path, link_type):
    """The records of a capture that the program wrote, each with its tick."""
    content = bytes_of(path)
    if content[:24] != struct.pack("<IHHiIII", 0xA1B2C3D4, 2, 4, 0, 0, 0x40000, link_type):
        raise Fault(f"{path}: doesn't begin as a capture of link type {link_type} that mplsnet wrote")
    records, at = [], 24
    while at < len(content):
        if len(content) - at < 16:
            raise Fault(f"{path}: byte {at}: the record is cut short")
        seconds, rest, size, _ = struct.unpack_from("<4I", content, at)
        if len(content) - at - 16 < size:
            raise Fault(f"{path}: byte {at}: the record is cut short")
        records.append((seconds * 1000 + rest // 1000, content[at + 16 : at + 16 + size]))
        at += 16 + size
    return records


class Shared:
    """Label stacks and packets that stand in several frames are kept once."""

    def __init__(self):
        self.stacks, self.packets = {}, {}


def frames_of(path, shared):
    """The frames of a link."""
    return [frame_of(path, tick, record, shared) for tick, record in records_of(path, 9)]


def frame_of(path, tick, record, shared):
    """A record of a link as a frame: 02 81, the label stack and the packet."""
    at = 2
    while at == 2 or not record[at - 2] & 1:
        if record[:2] != b"\x02\x81" or len(record) - at < 4:
            raise Fault(f"{path}: a record of tick {tick} isn't an MPLS frame over PPP")
        at += 4
    labels, packet = record[2:at], record[at:]
    stack = shared.stacks.get(labels)
    if stack is None:
        words = struct.unpack(f">{len(labels) // 4}I", labels)
        stack = shared.stacks[labels] = tuple(Entry(word >> 12, word & 255, bool(word >> 8 & 1)) for word in words)
    return Frame(tick, stack, shared.packets.setdefault(packet, packet))


def ldp_lives(path):
    """The PDUs that one end said, by lives of the session: in each the messages are numbered from 1."""
    content, lives, at = bytes_of(path), [], 0
    while at < len(content):
        size = 4 + int.from_bytes(content[at + 2 : at + 4], "big")
        pdu = content[at : at + size]
        if len(pdu) < max(size, 18) or pdu[:2] != b"\0\1":
            raise Fault(f"{path}: byte {at}: not an LDP PDU")
        number = int.from_bytes(pdu[14:18], "big")
        if number == 1:
            lives.append([])
        if number != (len(lives[-1]) + 1 if lives else 1):
            raise Fault(f"{path}: byte {at}: message {number} doesn't follow the one before it")
        lives[-1].append(pdu)
        at += size
    return lives


def bgp_lives(path):
    """The messages that one edge told another, by lives of the session: each begins with an OPEN."""
    content, lives, at = bytes_of(path), [], 0
    while at < len(content):
        size = int.from_bytes(content[at + 16 : at + 18], "big")
        message = content[at : at + size]
        if not 19 <= size == len(message) or message[:16] != b"\xff" * 16:
            raise Fault(f"{path}: byte {at}: not a BGP message")
        if message[18] == 1:
            lives.append([])
        elif not lives:
            raise Fault(f"{path}: byte {at}: no OPEN stands before this message")
        lives[-1].append(message)
        at += size
    return lives
