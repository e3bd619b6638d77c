"""Reads a file of failures for reference.py, and says why it is refused: docs/FORMATS.md, "Reach", told again."""

from itertools import combinations

from reference_inputs import Refused, lines_with_words, number, read_line

MOST_PARTS, LAST_LINK = 1_024, 1_023
PARTS = {
    "link down": ["node", "node"],
    "ldp off": ["node", "node"],
    "bgp down": ["node", "node"],
    "node down": ["node"],
}
EACH = {"each link": [], "each ldp": [], "each node": [], "each bgp": []}
RESOLVE = {"resolve topology": [], "resolve no": [], "resolve label": []}
SETTINGS = {"sessions end": [], "sessions stay": [], "losses": [], "counts": [], "ttl": [(2, 255)]} | RESOLVE
LONE = EACH | SETTINGS


def read_failures(topology, bytes_):
    """What each line asks for, behind its number: a verb and what it names, which of `fail` is the parts that fail at once."""
    return [(at, read_words(topology, words, at)) for at, words in lines_with_words(bytes_)]


def read_words(topology, words, line):
    """What a line asks for. One of a lone form has no comma: with one it is read as parts."""
    pieces = " ".join(words).split(",")
    if len(pieces) == 1 and words[0] in {form.split()[0] for form in LONE}:
        return read_some_links(words, line) or read_line(topology, words, line, LONE)
    parts = [read_part(topology, piece, line) for piece in pieces]
    if len(parts) > MOST_PARTS or len({failed for _, failed in parts}) < len(parts):
        refuse("S2 WrongCount", line)
    return "fail", parts


def refuse(rule, line):
    raise Refused(f"script refused {rule} at line {line}")


def read_part(topology, piece, line):
    """A part: its words, and what fails. The ends of a session come in order there, so that a part is the same by either."""
    words = [word for word in piece.split(" ") if word]
    if not words:
        refuse("S2 WrongCount", line)
    return " ".join(words), read_line(topology, words, line, PARTS)


def read_some_links(words, line):
    """`each N links`, alone or `from A to B`: how many fail at once, and between which numbers the first is; None of another line."""
    if words[0] != "each" or " ".join(words[:2]) in EACH or words[2:3] != ["links"]:
        return None
    for at, word in ((3, "from"), (5, "to")) if len(words) > 3 else ():
        if words[at : at + 1] != [word]:
            refuse("S1 UnknownWord" if len(words) > at else "S2 WrongCount", line)
    if len(words) not in (3, 7):
        refuse("S2 WrongCount", line)
    numbers = number(words[1], 2, 3), *(number(word, 0, LAST_LINK) for word in words[4::2] or ["0", str(LAST_LINK)])
    if None in numbers:
        refuse("S3 BadNumber", line)
    return "each links", *numbers


# What each failure is


def failures_of(topology, verb, *given):
    """Of a line the failures that it stands for, in their order, each as its parts."""
    if verb == "fail":
        return [given[0]]
    if verb == "each bgp":
        return [[part(topology, "bgp down", *edges)] for edges in combinations(topology.edges(), 2) if exchange(topology, *edges)]
    if verb == "each node":
        return [[part(topology, "node down", node)] for node in range(len(topology.nodes))]
    links = range(len(topology.links))
    if verb == "each links":
        many, first, last = given
        return [[link_part(topology, "link down", link) for link in some] for some in combinations(links, many) if first <= some[0] <= last]
    return [[link_part(topology, {"each link": "link down", "each ldp": "ldp off"}[verb], link)] for link in links]


def part(topology, verb, *nodes):
    return " ".join([verb, *(topology.nodes[node].name for node in nodes)]), (verb, *nodes)


def link_part(topology, verb, link):
    ends = topology.links[link].a, topology.links[link].b
    return part(topology, verb, *ends)[0], (verb, link)


def exchange(topology, one, other):
    """One of two edges imports a target that the other exports."""
    ours, theirs = ([vrf for vrf in topology.vrfs if vrf.node == edge] for edge in (one, other))
    return any({*a.imports} & {*b.exports} or {*b.imports} & {*a.exports} for a in ours for b in theirs)
