"""Reads topology, script and capture for reference.py, and says why they are refused: docs/FORMATS.md, told again."""

import re
import struct
import sys
from dataclasses import dataclass, field

try:
    import tomllib
except ImportError:
    sys.exit("reference.py: needs Python 3.11 or later (for tomllib)")

ROUTES, TARGETS, EDGES = 65_536, 16, 64
LENGTHS = {"node": 256, "link": 1024, "vrf": 512, "site": 4096}


class Refused(Exception):
    """An input is refused; the text is the line that is put."""


# Texts


def number(word, least, most):
    """The number that a word says, None where it isn't one or is out of range."""
    if re.fullmatch("0|[1-9][0-9]*", word) and len(word) < 20 and least <= int(word) <= most:
        return int(word)
    return None


def address(word):
    parts = [number(part, 0, 255) for part in word.split(".")]
    return None if len(parts) != 4 or None in parts else int.from_bytes(bytes(parts), "big")


def prefix(word):
    """An address and a length; bits past the length are zero."""
    first, slash, last = word.partition("/")
    at, length = address(first), number(last, 0, 32)
    if not slash or at is None or length is None or at & (1 << 32 - length) - 1:
        return None
    return at, length


def pair(word, kinds):
    """The eight bytes of AS:N or ADDRESS:N, of the first or the second of the kinds."""
    first, colon, last = word.partition(":")
    asn, at = number(first, 0, 65_535), address(first)
    if asn is not None and (n := number(last, 0, 2**32 - 1)) is not None:
        return struct.pack(">HHI", kinds[0], asn, n)
    if at is not None and (n := number(last, 0, 65_535)) is not None:
        return struct.pack(">HIH", kinds[1], at, n)
    return None


def distinguisher(word):
    return pair(word, (0x0000, 0x0001))


def target(word):
    return pair(word, (0x0002, 0x0102))


def address_text(at):
    return ".".join(str(byte) for byte in at.to_bytes(4, "big"))


def prefix_text(of):
    return f"{address_text(of[0])}/{of[1]}"


def target_text(of):
    if of[:2] == b"\0\2":
        return f"{int.from_bytes(of[2:4], 'big')}:{int.from_bytes(of[4:], 'big')}"
    return f"{address_text(int.from_bytes(of[2:6], 'big'))}:{int.from_bytes(of[6:], 'big')}"


def contains(of, at):
    return at >> 32 - of[1] == of[0] >> 32 - of[1]


def is_unicast(at):
    """Outside 0.0.0.0/8, 127.0.0.0/8, 224.0.0.0/4 and 240.0.0.0/4."""
    return at >> 24 not in (0, 127) and at >> 28 not in (14, 15)


# Topology


@dataclass
class Node:
    name: str
    loopback: int


@dataclass
class Link:
    a: int
    b: int
    cost: int
    delay: int
    loss: int
    life: int

    def other(self, end):
        return self.a + self.b - end


@dataclass
class Vrf:
    name: str
    node: int
    rd: bytes
    imports: list
    exports: list


@dataclass
class Site:
    name: str
    vrf: int
    prefixes: list


@dataclass
class Topology:
    asn: int = 65_000
    notice_delay: int = 1
    bgp_delay: int = 1
    resolve: bool = False
    nodes: list = field(default_factory=list)
    links: list = field(default_factory=list)
    vrfs: list = field(default_factory=list)
    sites: list = field(default_factory=list)

    def named(self, kind, name):
        """The number of the node, VRF or site of this name, None where there is none."""
        things = {"node": self.nodes, "vrf": self.vrfs, "site": self.sites}[kind]
        return next((no for no, thing in enumerate(things) if thing.name == name), None)

    def link_between(self, a, b):
        return next((no for no, link in enumerate(self.links) if {link.a, link.b} == {a, b} and a != b), None)

    def edges(self):
        return sorted({vrf.node for vrf in self.vrfs})

    def edge_of(self, site):
        return self.vrfs[self.sites[site].vrf].node

    def neighbours(self, node):
        """Of each neighbour, by number, the link to it."""
        ends = [(link.other(node), no) for no, link in enumerate(self.links) if node in (link.a, link.b)]
        return sorted(ends)


TEXT, INTEGER, BOOLEAN, TEXTS, TABLES = "text", "integer", "boolean", "texts", "tables"
KEYS = {
    "top": {"as": INTEGER, "notice_delay": INTEGER, "bgp_delay": INTEGER, "resolve": BOOLEAN} | dict.fromkeys(LENGTHS, TABLES),
    "node": {"name": TEXT, "loopback": TEXT},
    "link": {"a": TEXT, "b": TEXT, "cost": INTEGER, "delay": INTEGER, "loss": INTEGER, "life": INTEGER},
    "vrf": {"name": TEXT, "node": TEXT, "rd": TEXT, "import": TEXTS, "export": TEXTS},
    "site": {"name": TEXT, "vrf": TEXT, "prefixes": TEXTS},
}
REQUIRED = {
    "node": ["name", "loopback"],
    "link": ["a", "b"],
    "vrf": ["name", "node", "rd"],
    "site": ["name", "vrf"],
}


def is_of_kind(value, kind):
    if kind == INTEGER:
        return type(value) is int
    if kind == BOOLEAN:
        return type(value) is bool
    if kind == TEXT:
        return isinstance(value, str)
    return isinstance(value, list) and all(isinstance(one, str if kind == TEXTS else dict) for one in value)


def refuse(rule, place):
    raise Refused(f"topology refused {rule} at {place}")


def is_in_64_bits(value):
    if isinstance(value, dict):
        value = list(value.values())
    if isinstance(value, list):
        return all(map(is_in_64_bits, value))
    return type(value) is not int or -(2**63) <= value < 2**63


def read_topology(bytes_):
    if len(bytes_) > 1_048_576:
        raise Refused("too large topology bytes")
    try:
        top = tomllib.loads(bytes_.decode())
    except (UnicodeDecodeError, tomllib.TOMLDecodeError, RecursionError):
        refuse("T1 NotToml", "top")
    if not is_in_64_bits(top):
        refuse("T1 NotToml", "top")
    check_top(top)
    topology = Topology(top.get("as", 65_000), top.get("notice_delay", 1), top.get("bgp_delay", 1), top.get("resolve", False))
    readers = {"node": read_node, "link": read_link, "vrf": read_vrf, "site": read_site}
    for kind, read in readers.items():
        for index, table in enumerate(top.get(kind, [])):
            place = f"{kind} {index}"
            check_keys(table, kind, place)
            read(topology, table, lambda rule: refuse(rule, place))
    return topology


def check_top(top):
    if not top.keys() <= KEYS["top"].keys():
        refuse("T2 UnknownKey", "top")
    ranges = {"as": 65_535, "notice_delay": 1000, "bgp_delay": 1000}
    kinds_fit = all(is_of_kind(value, KEYS["top"][key]) for key, value in top.items())
    if not kinds_fit or not all(1 <= top.get(key, 1) <= most for key, most in ranges.items()):
        refuse("T4 WrongKind", "top")
    if any(len(top.get(key, [])) > most for key, most in LENGTHS.items()):
        refuse("T16 TooMany", "top")


def check_keys(table, kind, place):
    if not table.keys() <= KEYS[kind].keys():
        refuse("T2 UnknownKey", place)
    if not table.keys() >= set(REQUIRED[kind]):
        refuse("T3 MissingKey", place)
    if not all(is_of_kind(value, KEYS[kind][key]) for key, value in table.items()):
        refuse("T4 WrongKind", place)


def check_name(topology, kind, name, refused):
    if not re.fullmatch("[A-Za-z0-9._-]{1,32}", name):
        refused("T5 BadName")
    if topology.named(kind, name) is not None:
        refused("T6 TwiceNamed")


def read_node(topology, table, refused):
    loopback = address(table["loopback"])
    if loopback is None or not is_unicast(loopback):
        refused("T4 WrongKind")
    check_name(topology, "node", table["name"], refused)
    if loopback in (node.loopback for node in topology.nodes):
        refused("T10 TwiceLoopback")
    topology.nodes.append(Node(table["name"], loopback))


def read_link(topology, table, refused):
    a, b = (topology.named("node", table[end]) for end in "ab")
    link = Link(a, b, table.get("cost", 10), table.get("delay", 1), table.get("loss", 0), table.get("life", 2000))
    if a is None or b is None:
        refused("T7 NoSuchName")
    if a == b:
        refused("T8 SelfLink")
    if topology.link_between(a, b) is not None:
        refused("T9 TwiceLinked")
    if not 1 <= link.cost <= 65_535:
        refused("T11 BadCost")
    if not 1 <= link.delay <= 1000 or not 0 <= link.loss <= 65_535:
        refused("T12 BadDelay")
    if not link.delay <= link.life <= 1_000_000:
        refused("T12 BadDelay")
    topology.links.append(link)


def read_vrf(topology, table, refused):
    check_name(topology, "vrf", table["name"], refused)
    node, rd = topology.named("node", table["node"]), distinguisher(table["rd"])
    if node is None:
        refused("T7 NoSuchName")
    if rd is not None and rd in (vrf.rd for vrf in topology.vrfs):
        refused("T13 TwiceRd")
    imports, exports = ([target(text) for text in table.get(key, [])] for key in ("import", "export"))
    for targets in (imports, exports):
        if rd is None or None in targets or len(set(targets)) < len(targets) or len(targets) > TARGETS:
            refused("T14 BadTarget")
    if len({*topology.edges(), node}) > EDGES:
        refused("T16 TooMany")
    topology.vrfs.append(Vrf(table["name"], node, rd, imports, exports))


def read_site(topology, table, refused):
    prefixes = [prefix(text) for text in table.get("prefixes", [])]
    if None in prefixes:
        refused("T4 WrongKind")
    check_name(topology, "site", table["name"], refused)
    vrf = topology.named("vrf", table["vrf"])
    if vrf is None:
        refused("T7 NoSuchName")
    taken = [of for site in topology.sites if site.vrf == vrf for of in site.prefixes]
    if len({*taken, *prefixes}) < len(taken) + len(prefixes):
        refused("T15 PrefixTaken")
    if sum(len(site.prefixes) for site in topology.sites) + len(prefixes) > ROUTES:
        refused("T16 TooMany")
    topology.sites.append(Site(table["name"], vrf, prefixes))


# Script: a command is a tuple, the words that say what it is and then its numbers

PLACE, RECORD, TICKS, BOUND = (0, 2**32 - 1), (1, 2**32 - 1), (0, 1_000_000), (0, 4_000_000)
PASSING = (1, 1_000_000)
FORMS = {
    "link up": ["node", "node"],
    "link down": ["node", "node"],
    "learn": ["node", "node", "node"],
    "ldp on": ["node", "node"],
    "ldp off": ["node", "node"],
    "hear ldp": ["node", "node"],
    "hear bgp": ["node", "node"],
    "bgp up": ["node", "node"],
    "bgp down": ["node", "node"],
    "route add": ["site", prefix],
    "route del": ["site", prefix],
    "import add": ["vrf", target],
    "import del": ["vrf", target],
    "export add": ["vrf", target],
    "export del": ["vrf", target],
    "site up": ["site"],
    "site down": ["site"],
    "inject": ["site", RECORD],
    "damage ldp": ["node", "node", RECORD],
    "damage bgp": ["node", "node", RECORD],
    "carry": ["node", "node", PLACE],
    "lose": ["node", "node", PLACE],
    "tick": [PASSING],
    "run": [TICKS],
    "drain": [BOUND],
    "flush": [],
    "show links": [],
    "show tree": ["node"],
    "show ldp": [],
    "show bgp": [],
    "show vrf": ["vrf"],
    "show flight": [],
    "show frame": ["node", RECORD],
}
ON_LINKS = {"link up", "link down", "learn", "ldp on", "ldp off"}
FROM_AN_END = {"hear ldp", "hear flood", "damage ldp", "carry", "lose"}
FLOOD_FORMS = {
    "link up": ["node", "node"],
    "link down": ["node", "node"],
    "hear flood": ["node", "node"],
    "drain": [],
}
REFLECT_VERBS = ["bgp up", "bgp down", "hear bgp", "route add", "route del", "import add", "import del", "export add"]
REFLECT_VERBS += ["export del", "site up", "site down", "drain", "show vrf"]
REFLECT_FORMS = {"reflector": ["node"]} | {verb: FORMS[verb] for verb in REFLECT_VERBS}


def lines_of(bytes_):
    """The lines as texts of one letter a byte; a CR right before an LF isn't part of its line."""
    lines = bytes_.decode("latin-1").split("\n")
    last = lines.pop()
    return [line.removesuffix("\r") for line in lines] + [last] * (last != "")


def words_of(line):
    words = [word for word in re.split("[ \t]+", line) if word]
    comment = next((at for at, word in enumerate(words) if word.startswith("#")), len(words))
    return words[:comment]


def script_lines(bytes_):
    """The lines of a script, which is within its limits."""
    if len(bytes_) > 67_108_864:
        raise Refused("too large script bytes")
    lines = lines_of(bytes_)
    if len(lines) > 3_000_000:
        raise Refused("too large script lines")
    return lines


def lines_with_words(bytes_):
    """The words of each line of a script that has some, with the line's number."""
    return [(at, words) for at, line in enumerate(script_lines(bytes_), 1) if (words := words_of(line))]


def read_script(topology, bytes_, forms=FORMS):
    """The commands of these forms, each with the number of its line."""
    return [(at, read_line(topology, words, at, forms)) for at, words in lines_with_words(bytes_)]


def read_reflect_script(topology, bytes_):
    """The reflectors that the first lines name, and the commands of the others, each with the number of its line."""
    edges, reflectors, commands = topology.edges(), [], []

    def may_peer(a, b):
        return any(one in reflectors and other in [*reflectors, *edges] for one, other in ((a, b), (b, a)))

    for at, words in lines_with_words(bytes_):
        verb, *given = read_line(topology, words, at, REFLECT_FORMS, may_peer)
        if verb != "reflector":
            commands.append((at, (verb, *given)))
        elif commands or given[0] in [*reflectors, *edges]:
            raise Refused(f"script refused S6 NotEdge at line {at}")
        else:
            reflectors += given
    return reflectors, commands


def read_line(topology, words, line, forms=FORMS, may_peer=None):
    """The command of the line. Two edges may have a session, or else the nodes of which it is said."""

    def refused(rule):
        raise Refused(f"script refused {rule} at line {line}")

    firsts = {form.split()[0] for form in forms}
    if words[0] not in firsts:
        refused("S1 UnknownWord")
    verb, given = words[0], words[1:]
    if verb not in forms:
        if not given:
            refused("S2 WrongCount")
        verb, given = f"{verb} {given[0]}", given[1:]
        if verb not in forms:
            refused("S1 UnknownWord")
    form = forms[verb]
    if len(given) != len(form) and (verb, given) != ("drain", []):
        refused("S2 WrongCount")
    values = [read_word(topology, word, kind) for word, kind in zip(given, form)]
    if any(value is None and not isinstance(kind, str) for value, kind in zip(values, form)):
        refused("S3 BadNumber")
    if None in values:
        refused("S4 NoSuchName")
    return command_of(topology, verb, values, may_peer or (lambda a, b: {a, b} <= {*topology.edges()}), refused)


def read_word(topology, word, kind):
    if isinstance(kind, str):
        return topology.named(kind, word)
    return number(word, *kind) if isinstance(kind, tuple) else kind(word)


def command_of(topology, verb, values, may_peer, refused):
    """The command, with a link in place of its ends, and before it or after it the node that is meant."""
    if verb in ("bgp up", "bgp down", "hear bgp", "damage bgp"):
        if values[0] == values[1] or not may_peer(*values[:2]):
            refused("S6 NotEdge")
        return verb, *(sorted(values) if verb in ("bgp up", "bgp down") else values)
    if verb == "drain":
        return verb, *(values or [None])
    if verb not in ON_LINKS and verb not in FROM_AN_END:
        return verb, *values
    learner = [values.pop(0)] if verb == "learn" else []
    link = topology.link_between(*values[:2])
    if link is None:
        refused("S5 NotLinked")
    sender = values[:1] if verb in FROM_AN_END else []
    return verb, *learner, link, *sender, *values[2:]


# Capture


def read_capture(bytes_):
    """The packets of the records."""
    if len(bytes_) > 67_108_864:
        raise Refused("too large capture bytes")
    refusal, link_type, records = scan(bytes_)
    if len(records) > 100_000:
        raise Refused("too large capture records")
    if refusal:
        raise Refused("capture refused {} at byte {}".format(*refusal))
    return [packet_of(link_type, record) for record in records]


def scan(bytes_):
    """The first refusal and its byte, None where there is none; the link type; the whole records before the refusal."""
    head = refusal_of_head(bytes_)
    if head:
        return head, None, []
    order = byte_order(bytes_)
    link_type, at, records = struct.unpack(order + "I", bytes_[20:24])[0] & 0xFFFF, 24, []
    while at < len(bytes_):
        if at + 16 > len(bytes_):
            return ("CutShort", at), link_type, records
        captured = struct.unpack(order + "I", bytes_[at + 8 : at + 12])[0]
        if captured > 262_144:
            return ("BadRecord", at), link_type, records
        if at + 16 + captured > len(bytes_):
            return ("CutShort", at), link_type, records
        records.append(bytes_[at + 16 : at + 16 + captured])
        at += 16 + captured
    return None, link_type, records


def byte_order(bytes_):
    for order in "<>":
        if struct.unpack(order + "I", bytes_[:4])[0] in (0xA1B2C3D4, 0xA1B23C4D):
            return order
    return None


def refusal_of_head(bytes_):
    if len(bytes_) < 4:
        return "CutShort", 0
    if bytes_[:4] == b"\x0a\x0d\x0d\x0a":
        return "IsPcapng", 0
    order = byte_order(bytes_)
    if order is None:
        return "BadMagic", 0
    if len(bytes_) < 24:
        return "CutShort", 0
    if struct.unpack(order + "HH", bytes_[4:8]) != (2, 4):
        return "BadVersion", 4
    if struct.unpack(order + "I", bytes_[20:24])[0] & 0xFFFF not in (1, 101, 228):
        return "BadLinkType", 20
    return None


def packet_of(link_type, record):
    if link_type != 1:
        return record
    return record[14:] if record[12:14] == b"\x08\x00" else b""
