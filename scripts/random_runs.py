"""Makes random topologies, scripts and captures: small networks in which much happens, and now and then a wrong input.

The script is made line by line beside the network of examples/reference.py as the lines so far have left it, so that
most lines ask for something that can be done: in any order, though, and not for what would come next. So too the script
of a flood, beside that of examples/reference_flood.py, and of reflected routes, beside that of reference_reflect.py; lines
of two joined networks are those of each.
"""

import random
import struct
import sys
from functools import partial
from pathlib import Path

sys.path.insert(0, str(Path(__file__).resolve().parents[1] / "examples"))
import reference  # noqa: E402
import reference_flood  # noqa: E402
import reference_inputs as inputs  # noqa: E402
import reference_reflect  # noqa: E402

PREFIXES = """
0.0.0.0/0 10.0.0.0/8 10.1.0.0/16 10.1.2.0/24 10.1.2.3/32 10.1.2.2/31 10.128.0.0/9 192.168.0.0/17 172.16.0.0/12
255.255.255.255/32 128.0.0.0/1 0.0.0.0/32 0.0.0.0/1
""".split()
ADDRESSES = """
10.1.2.3 10.1.2.2 10.1.2.9 10.1.9.9 10.200.0.1 10.9.9.9 192.168.1.1 172.31.0.1 8.8.8.8 127.0.0.1 224.0.0.5 0.1.2.3
255.255.255.255 128.1.1.1
""".split()
LOOPBACKS = "192.0.2.1 192.0.2.2 10.0.0.9 1.0.0.1 223.255.255.255 128.0.0.1 126.9.9.9".split()
RDS = "65000:1 65000:2 1.2.3.4:5 0:0 65535:4294967295 1:1 192.0.2.1:1".split()
TARGETS = "65000:1 65000:2 0:0 65535:4294967295 10.0.0.1:7 10.0.0.1:65535 1:7 255.255.255.255:0".split()
NAMES = ["pe1", "p", "pe2", "a", "b", "A", "n-1", "n_2", "n.pcap", "up", "x" * 32, "9", ".", "drain", "p2", "ldp"]
VERBS = {  # how often each is drawn
    "link up": 24, "link down": 2, "learn": 12, "ldp on": 12, "ldp off": 1, "hear ldp": 20, "hear bgp": 20,
    "bgp up": 24, "bgp down": 1, "route add": 6, "route del": 2, "import add": 6, "import del": 1, "export add": 6,
    "export del": 1, "site up": 12, "site down": 2, "inject": 40, "carry": 40, "lose": 4, "tick": 4, "run": 8,
    "drain": 14, "flush": 6, "show links": 2, "show tree": 3, "show ldp": 3, "show bgp": 2, "show vrf": 5, "show flight": 4,
    "show frame": 20, "damage ldp": 24, "damage bgp": 24,
}  # fmt: skip
RESTLESS = {"ldp off": 60, "ldp on": 6, "tick": 20, "drain": 12}


def toml(value):
    if isinstance(value, dict):
        return "{" + ", ".join(f"{key} = {toml(one)}" for key, one in value.items()) + "}"
    if isinstance(value, list):
        return "[" + ", ".join(map(toml, value)) + "]"
    if isinstance(value, bool):
        return str(value).lower()
    return '"' + value + '"' if isinstance(value, str) else str(value)


def toml_text(top):
    kinds = ("node", "link", "vrf", "site")
    arrays = {kind: top[kind] for kind in kinds if isinstance(top.get(kind), list)}
    lines = [f"{key} = {toml(value)}" for key, value in top.items() if key not in arrays]
    for kind, tables in arrays.items():
        for table in tables:
            lines += [f"[[{kind}]]"] + [f"{key} = {toml(value)}" for key, value in table.items()]
    return "\n".join(lines) + "\n"


def some(rng, table, chance, **more):
    """The table with some of these keys, each a function that makes its value."""
    return table | {key: make() for key, make in more.items() if rng.random() < chance}


def random_links(rng, nodes):
    pairs = [(a["name"], b["name"]) for i, a in enumerate(nodes) for b in nodes[i + 1 :]]
    rng.shuffle(pairs)
    for a, b in pairs[: len(nodes) - 1 + rng.choice([0, 0, 0, 1, 2, 3])]:
        link = {"a": a, "b": b} if rng.random() < 0.6 else {"a": b, "b": a}
        link = some(rng, link, 0.4, cost=lambda: rng.choice([1, 2, 3, 10, 20, 65535]))
        link = some(rng, link, 0.4, delay=lambda: rng.choice([1, 2, 3, 7, 1000]))
        delay = link.get("delay", 1)
        link = some(rng, link, 0.2, life=partial(rng.choice, [delay, delay + 1, 1000, 2000, 1000000]))
        yield some(rng, link, 0.2, loss=lambda: rng.choice([0, 1, 2, 3, 65535]))


def random_vrfs(rng, nodes):
    edges = rng.sample(nodes, len(nodes)) if rng.random() < 0.92 else [rng.choice(nodes)]
    targets = rng.sample(TARGETS, rng.choice([1, 1, 1, 2, 3]))

    def some_targets():
        return rng.sample(targets, rng.randint(rng.random() < 0.8, min(2, len(targets))))

    names, rds = rng.sample(NAMES, 6), rng.sample(RDS, 6)
    for at in range(rng.choice([0, 1, 2, 2, 2, 3, 3, 3, 4, 4, 5, 6])):
        vrf = {"name": names[at], "node": edges[at % len(edges)]["name"], "rd": rds[at]}
        yield some(rng, vrf, 0.93, **{"import": some_targets, "export": some_targets})


def random_sites(rng, vrfs):
    """Sites; in most topologies each has a prefix of its own, and in the others the prefixes lie in each other."""
    own_prefixes = rng.random() < 0.7
    free = {vrf["name"]: rng.sample(PREFIXES, len(PREFIXES)) for vrf in vrfs}
    for at, name in enumerate(rng.sample(NAMES, rng.choice([0, 1, 4, 4, 5, 6, 7, 8]) if vrfs else 0)):
        vrf = vrfs[at % len(vrfs) if own_prefixes else rng.randrange(len(vrfs))]["name"]
        prefixes = [free[vrf].pop() for _ in range(min(rng.choice([0, 1, 1, 2, 3]), len(free[vrf])))]
        prefixes = [f"10.{at + 2}.0.0/16"] if own_prefixes else prefixes
        yield {"name": name, "vrf": vrf} | ({"prefixes": prefixes} if prefixes or rng.random() < 0.5 else {})


def random_topology(rng):
    count = rng.choice([1, 2, 2, 3, 3, 3, 4, 4, 4, 5, 5, 5, 6, 6])
    names, loopbacks = rng.sample(NAMES, count), rng.sample(LOOPBACKS, count)
    nodes = [{"name": name, "loopback": loopback} for name, loopback in zip(names, loopbacks)]
    top = some(rng, {}, 0.2, **{"as": lambda: rng.choice([1, 64512, 65535])})
    top = some(rng, top, 0.2, notice_delay=lambda: rng.choice([1, 3, 10, 1000]))
    top = some(rng, top, 0.2, bgp_delay=lambda: rng.choice([1, 2, 5, 1000]))
    vrfs = list(random_vrfs(rng, nodes))
    links, sites = list(random_links(rng, nodes)), list(random_sites(rng, vrfs))
    return top | {"node": nodes, "link": links, "vrf": vrfs, "site": sites}


WRONG = """
x 10.0.0.1 127.0.0.1 240.0.0.1 1:1 65536:1 1:4294967296 01:1 x:y 1.2.3.4:65536 10.0.0.0/8 10.0.0.1/8 0.0.0.0/33 1.2.3
1.2.3.4.5 n\u00e9
""".split()
WRONG += [True, 1.5, 0, -1, 1, 65535, 65536, 1001, 10**19, -(10**19), "", "n 1", "y" * 33, [], [1], [[]], {}, [{}]]
WRONG += [["1:1"], ["1:1", "1:1"], ["10.0.0.0/8", "10.0.0.0/8"]]
WRONG += [[f"1:{n}" for n in range(most)] for most in (16, 17)]
KEYS = "name loopback a b cost delay loss life node rd import export vrf prefixes as other".split()
TOP_KEYS = ["as", "notice_delay", "bgp_delay", "resolve", "more"]
LETTERS = ["", " ", "\n", "\r", "\t", "0", "9", "#", "=", "[", '"', "x", ":", "/", "\x00", "\u00e9"]


def wrong_topology(rng, top):
    """The topology with one to three values that may be wrong."""
    for _ in range(rng.randint(1, 3)):
        tables = [table for kind in ("node", "link", "vrf", "site") for table in top[kind]] + [top]
        table = rng.choice(tables)
        present = [key for key in table if key not in ("link", "site") and not isinstance(top.get(key), list)] or ["as"]
        deed = rng.random()
        if deed < 0.15 and table is not top:
            table.pop(rng.choice(present), None)
        elif deed < 0.3:
            table[rng.choice(KEYS if table is not top else TOP_KEYS)] = rng.choice(WRONG)
        elif deed < 0.5 and table is not top:
            twin = rng.choice([one for one in tables if one is not top])
            table |= {key: value for key, value in twin.items() if rng.random() < 0.4 and key in table}
        else:
            table[rng.choice(present)] = rng.choice(WRONG)
    return top


def damaged(rng, text):
    """The text with a few letters changed, left out or doubled."""
    letters = list(text)
    for _ in range(rng.randint(1, 3)):
        at = rng.randrange(len(letters) + 1)
        letters[at : at + rng.randint(0, 2)] = rng.choice(LETTERS)
    return "".join(letters)


def words_in_flight(rng, verb, network):
    """The words that take something that is in flight, None where nothing of the kind is."""
    kinds = {"learn": "notice", "hear ldp": "ldp", "hear bgp": "bgp", "damage ldp": "ldp", "damage bgp": "bgp"}
    kind = kinds.get(verb, "frame")
    items = [item for item in network.in_flight if item.kind == kind]
    if not items:
        return None
    item = rng.choice(items)
    if kind == "notice":
        step = verb, *item.channel[::-1]
    elif kind == "frame":
        step = verb, *item.channel, network.on(kind, item.channel).index(item)
    else:
        step = verb, *item.channel
    return reference.step_words(network.topology, step)[1:]


def words_of_damage(rng, verb, network, packets):
    """A message in flight, and a record that mostly begins as such a message does; None where none is in flight."""
    words = words_in_flight(rng, verb, network)
    if words is None or not packets:
        return None
    begins = b"\0\1\0" if verb == "damage ldp" else b"\xff\xff"
    alike = [k for k, packet in enumerate(packets, 1) if packet.startswith(begins)]
    refused = [k for k in alike if not reference.READERS[verb](packets[k - 1])]
    records = rng.choice([refused, refused, alike]) or range(1, len(packets) + 1)
    return [*words, str(rng.choice(records))]


def words_of_frame(rng, network, packets):
    """A node, and a record that mostly is a frame."""
    frames = [k for k, packet in enumerate(packets, 1) if packet and packet[0] >> 4 == 0]
    records = frames if frames and rng.random() < 0.8 else range(1, len(packets) + 2)
    return [rng.choice(network.topology.nodes).name, str(rng.choice(records))]


def ticks_for(rng, network):
    """Ticks that pass: often so many that a frame in flight is then just as old as it may be, or older."""
    frames = [item for item in network.in_flight if item.kind == "frame"]
    if not frames or rng.random() < 0.2:
        return rng.choice([1, 1, 2, 5, 100, 1000, 2001, 1000000])
    item = rng.choice(frames)
    left = item.sent + network.links[item.channel[0]].life - network.tick
    return min(max(left + rng.choice([-1, 0, 0, 1]), 1), 1000000)


def words_for(rng, verb, top, packets, network):
    """The words behind the verb, which name what there is but for a few."""
    if verb == "show frame":
        return words_of_frame(rng, network, packets)
    if verb.startswith("damage") and rng.random() < 0.9:
        if words := words_of_damage(rng, verb, network, packets):
            return words
    if verb in ("learn", "hear ldp", "hear bgp", "carry", "lose") and rng.random() < 0.9:
        if words := words_in_flight(rng, verb, network):
            return words
    nodes = [node["name"] for node in top["node"]]
    vrfs, sites = ([thing["name"] for thing in top[kind]] or ["none"] for kind in ("vrf", "site"))
    edges = [vrf["node"] for vrf in top["vrf"]] or nodes
    ends = [[link["a"], link["b"]] for link in top["link"]] or [nodes[:1] * 2]
    link = rng.choice(ends)[:: rng.choice([1, -1])]
    first = verb.split()[0]
    record = [str(rng.randint(1, len(packets) + 1 if rng.random() < 0.1 else max(len(packets), 1)))]
    if "bgp" in verb and first != "show":
        pair = [rng.choice(edges), rng.choice([edge for edge in edges if edge != edges[0]] or edges)]
        return pair + record * (first == "damage")
    if first in ("link", "ldp") or verb in ("hear ldp", "damage ldp"):
        return link + record * (first == "damage")
    if verb == "learn":
        return [rng.choice(nodes), *link]
    if first in ("carry", "lose"):
        return [*link, str(rng.choice([0, 0, 0, 0, 1, 2, 4294967295]))]
    if first == "route":
        site = rng.choice(top["site"] or [{"name": "none"}])
        return [site["name"], rng.choice(site.get("prefixes", []) + rng.sample(PREFIXES, 2))]
    if first in ("import", "export"):
        return [rng.choice(vrfs), rng.choice(TARGETS)]
    if first == "site":
        return [rng.choice(sites)]
    if verb == "inject":
        return [rng.choice(sites), *record]
    if verb == "run":
        return [str(rng.choice([0, 1, 1, 2, 3, 5, 10, 100, 1000, 1000000]))]
    if verb == "tick":
        return [str(ticks_for(rng, network))]
    if verb == "drain":
        return [] if rng.random() < 0.5 else [str(rng.choice([0, 1, 2, 3, 5, 8, 13, 1000, 4000000]))]
    return {"show tree": [rng.choice(nodes)], "show vrf": [rng.choice(vrfs)]}.get(verb, [])


def makes_sense(verb, top):
    """The line isn't refused as it is read."""
    edges = {vrf["node"] for vrf in top["vrf"]}
    if verb in ("link up", "link down", "learn", "ldp on", "ldp off", "hear ldp", "damage ldp", "carry", "lose"):
        return bool(top["link"])
    if "bgp" in verb and "show" not in verb:
        return len(edges) > 1
    if verb.split()[0] in ("route", "site", "inject"):
        return bool(top["site"])
    return verb.split()[0] not in ("import", "export") and verb != "show vrf" or bool(top["vrf"])


def bring_up(rng, top):
    """Lines that bring most of the network up."""
    edges = sorted({vrf["node"] for vrf in top["vrf"]}, key=[node["name"] for node in top["node"]].index)
    lines = [["link", "up", link["a"], link["b"]] for link in top["link"] if rng.random() < 0.95]
    lines += [["bgp", "up", a, b] for i, a in enumerate(edges) for b in edges[i + 1 :] if rng.random() < 0.95]
    rng.shuffle(lines)
    return lines + [rng.choice([["drain"], ["drain"], ["drain", "1000"], ["drain", "25"], ["run", "20"]])]


def leaves_its_edge(network, site, packet):
    """The packet would leave its edge over a link."""
    vrf = network.topology.sites[site].vrf
    edge = network.topology.vrfs[vrf].node
    if network.attachment[site] is None or reference.fault_of(packet) or packet[8] < 2:
        return False
    route = network.best(vrf, int.from_bytes(packet[16:20], "big"))
    return route is not None and route.edge != edge and network.usable_hop(edge, route.edge) is not None


def random_line(rng, verb, top, packets, network):
    words = words_for(rng, verb, top, packets, network)
    if verb == "inject" and rng.random() < 0.85:
        pairs = [(site, k) for site in range(len(top["site"])) for k in range(len(packets))]
        pairs = [(site, k) for site, k in pairs if leaves_its_edge(network, site, packets[k])]
        if not pairs and rng.random() < 0.5:
            return ["drain"]
        site, k = rng.choice(pairs or [(0, 0)])
        words = [top["site"][site]["name"], str(k + 1)]
    if "bgp" in verb and "show" not in verb and words[0] == words[1]:
        words[:2] = rng.sample(sorted({vrf["node"] for vrf in top["vrf"]}), 2)
    return [*verb.split(), *words]


def is_refused(network, words, packets):
    """Does the line's command; whether it was refused, in which case nothing was done."""
    verb, *given = inputs.read_line(network.topology, words, 1)
    if verb == "inject" or verb in reference.READERS:
        return given[-1] > len(packets) or bool(network.do((verb, *given), 1, packets[given[-1] - 1]))
    if verb in ("run", "drain", "flush"):
        getattr(reference, verb)(network, *given)
    return verb.split()[0] not in ("run", "drain", "flush", "show") and bool(network.do((verb, *given)))


def disturbance(rng, network):
    """Lines that end what a frame in flight relies on: its site's attachment, its link, or a way on."""
    frames = [item for item in network.in_flight if item.kind == "frame"]
    if not frames:
        return []
    item = rng.choice(frames)
    link, sender = item.channel
    site = network.topology.sites[item.token.site].name
    ways_on = [way for _, way in network.neighbours[network.links[link].other(sender)]]
    ends = {no: [network.topology.nodes[end].name for end in (way.a, way.b)] for no, way in enumerate(network.links)}
    deeds = [
        [["site", "down", site]],
        [["site", "down", site], ["site", "up", site]],
        [["link", "down", *ends[link]]],
        [["ldp", "off", *ends[rng.choice(ways_on)]]],
        [["link", "down", *ends[rng.choice(ways_on)]], ["drain", str(rng.choice([1, 3, 10, 100]))]],
    ]
    return rng.choice(deeds)


def recovery(rng, words, network):
    """Where a message was damaged lines by which its session begins anew, and some of what is then said is heard."""
    is_done = words[0] == "damage" and network.journal and network.journal[-1][1][0] == " ".join(words[:2])
    if not is_done or rng.random() < 0.2:
        return []
    begins = ["ldp", "on", *words[2:4]] if words[1] == "ldp" else ["bgp", "up", *words[2:4]]
    return [begins, ["drain", str(rng.choice([0, 1, 2, 3, 5, 8, 13]))]]


def random_lines(rng, top, packets, network):
    """Lines one after another; of those that would be refused most are left out."""
    verbs = [verb for verb in VERBS if makes_sense(verb, top)]
    weights = [VERBS[verb] for verb in verbs]
    if rng.random() < 0.4:  # here many messages are damaged
        weights = [weight * 6 if verb.startswith("damage") else weight for verb, weight in zip(verbs, weights)]
    if rng.random() < 0.5:  # here little arrives by itself
        weights = [weight // 4 if verb in ("run", "drain", "flush") else weight for verb, weight in zip(verbs, weights)]
    if rng.random() < 0.25:  # here sessions of LDP come and go as time passes, so that labels come free
        weights = [weight * RESTLESS.get(verb, 1) for verb, weight in zip(verbs, weights)]
    for words in bring_up(rng, top) if rng.random() < 0.85 else []:
        is_refused(network, words, packets)
        yield words
    for _ in range(rng.choice([0, 3, 10, 20, 40, 80])):
        for _ in range(6):
            words = random_line(rng, rng.choices(verbs, weights)[0], top, packets, network)
            if not is_refused(network, words, packets) or rng.random() < (0.3 if words[0] == "damage" else 0.08):
                yield words
                break
        for words in [*recovery(rng, words, network), *(disturbance(rng, network) if rng.random() < 0.08 else [])]:
            is_refused(network, words, packets)
            yield words


def script_text(rng, all_words, ends):
    """The lines of these words, with blanks and comments here and there, and one of the ends."""
    lines = []
    for words in all_words:
        line = rng.choice([" ", " ", " ", " ", "  ", "\t", " \t "]).join(words)
        lines.append(line + (rng.choice([" # why", " #", "\r", "\t", " #\r"]) if rng.random() < 0.1 else ""))
        lines += [rng.choice(["", "  ", "# a comment", "\t# one more"])] * (rng.random() < 0.03)
    return "\n".join(lines + rng.choice(ends)) + rng.choice(["\n", "\n", ""])


def checksum(header):
    total = sum(struct.unpack(f">{len(header) // 2}H", header))
    while total >> 16:
        total = (total & 0xFFFF) + (total >> 16)
    return 0xFFFF - total


def random_packet(rng, top):
    prefixes = [of for site in top["site"] for of in site.get("prefixes", [])] * 3
    to = bytes(map(int, rng.choice([of.split("/")[0] for of in prefixes] * 4 + ADDRESSES).split(".")))
    words = rng.choice([0, 0, 0, 0, 1, 10])
    body = rng.randbytes(rng.choice([0, 1, 8, 8, 8, 100]))
    ttl = rng.choice([64, 64, 64, 64, 255, rng.randrange(2), 2, 3, 4, 5, 6])
    total = 20 + 4 * words + len(body)
    header = struct.pack(">BBHHHBBHI", 0x45 + words, 0, total, rng.randrange(65536), 0, ttl, 17, 0, 0x0A010001) + to
    header += rng.randbytes(4 * words)
    packet = bytearray(header[:10] + struct.pack(">H", checksum(header)) + header[12:] + body)
    if rng.random() < 0.1:
        return spoiled(rng, packet)
    return bytes(packet) + rng.randbytes(rng.choice([0, 0, 0, 5]))


def spoiled(rng, packet):
    deed = rng.randrange(7)
    if deed == 0:
        return bytes(packet[: rng.randrange(len(packet) + 1)])
    if deed == 1:
        packet[0] = rng.choice([0x40, 0x44, 0x46, 0x4F, 0x55, 0x65, 0x05])
    elif deed == 2:
        packet[2:4] = rng.choice([0, 19, 20, 21, 24, 65535, len(packet) + 1]).to_bytes(2, "big")
    elif deed == 3:
        packet[rng.randrange(len(packet))] ^= 1 << rng.randrange(8)
    elif deed == 4:
        packet[10:12] = rng.choice([b"\0\0", b"\xff\xff"])
    elif deed == 5:
        return b""
    if deed > 3 or rng.random() < 0.3:
        return bytes(packet)
    header = bytes(packet[:10]) + b"\0\0" + bytes(packet[12 : 4 * (packet[0] & 15)])
    if len(header) % 2 == 0:
        packet[10:12] = checksum(header).to_bytes(2, "big")
    return bytes(packet)


def parts_of(bytes_, size_at, more):
    """Messages one after another, each with its length, to which this is added, at this place."""
    while bytes_:
        size = int.from_bytes(bytes_[size_at : size_at + 2], "big") + more
        yield bytes_[:size]
        bytes_ = bytes_[size:]


def said_and_told(rng, top):
    """PDUs and messages of BGP that a network of the topology says."""
    network = reference.Network(inputs.read_topology(toml_text(top).encode()))
    for words in bring_up(rng, top):
        is_refused(network, words, [])
    for _ in reference.drain(network, 100):
        pass
    pdus = [pdu for bytes_ in network.pdus.values() for pdu in parts_of(bytes_, 2, 4)]
    return pdus, [message for bytes_ in network.messages.values() for message in parts_of(bytes_, 16, 0)]


def spoiled_message(rng, message):
    """The message with something wrong, but for a few."""
    bytes_, at = bytearray(message), rng.randrange(len(message))
    deed = rng.randrange(8)
    if deed == 0:
        return message[:at]
    if deed == 1:
        return message + rng.randbytes(rng.choice([1, 2, 4]))
    if deed == 2:
        del bytes_[at]
    elif deed in (3, 4):
        bytes_[at] ^= 1 << rng.randrange(8)
    elif deed in (5, 6):
        bytes_[at] = rng.choice([0, 1, 2, 4, 8, 16, 33, 127, 128, 255])
    elif rng.random() < 0.7:  # a part of it stands twice, or is gone
        end = rng.randint(at, len(message))
        bytes_[at:end] = bytes_[at:end] * rng.choice([0, 2])
    return bytes(bytes_)


def random_frame(rng, top):
    """Label entries, mostly of a table's labels, and a packet."""
    stack, depth = b"", rng.choice([1, 1, 2, 2, 3])
    for left in range(depth - 1, -1, -1):
        label = rng.randrange(16, 16 + len(top["node"]) + len(top["site"]))
        label = label if rng.random() < 0.9 else rng.choice([0, 3, 1048575])
        bottom = left == 0 if rng.random() < 0.95 else rng.random() < 0.5
        ttl = rng.choice([0, 1, 2, 2, 3, 63, 64, 255])
        stack += struct.pack(">I", label << 12 | rng.choice([0, 0, 5]) << 9 | bottom << 8 | ttl)
    packet = random_packet(rng, top)
    is_cut = rng.random() < 0.8 and not reference.fault_of(packet)
    return stack + (packet[: reference.total_length(packet)] if is_cut else packet)


def odd_records(rng, top):
    """Damaged messages and frames, which come in place of messages and are shown at nodes."""
    pdus, messages = said_and_told(rng, top)
    for _ in range(rng.choice([2, 5, 8])):
        kinds = [kind for kind in (pdus, messages) if kind]
        if not kinds or rng.random() < 0.4:
            yield random_frame(rng, top)
        else:
            yield spoiled_message(rng, rng.choice(rng.choice(kinds)))


def random_record(rng, packet, link_type):
    """The packet, behind a header of Ethernet where that is due: now and then of another type, or cut short."""
    if link_type != 1:
        return packet
    type_ = rng.choice([b"\x08\0"] * 18 + [b"\x81\0", b"\x86\xdd"])
    record = rng.randbytes(12) + type_ + packet
    return record[: rng.randrange(16)] if rng.random() < 0.05 else record


def random_capture(rng, top, network=None):
    """Packets for the sites of a topology, and damaged messages and frames of a network, which is the topology's where none is given."""
    order, magic = rng.choice("<<>"), rng.choice([0xA1B2C3D4, 0xA1B2C3D4, 0xA1B23C4D])
    link_type = rng.choice([228, 228, 101, 1])
    bytes_ = struct.pack(order + "IHHiII", magic, 2, 4, rng.randrange(9), 0, rng.choice([0, 0x40000]))
    bytes_ += struct.pack(order + "I", link_type | rng.choice([0, 0, 0x10000]))
    packets = [random_packet(rng, top) for _ in range(rng.choice([0, 1, 3, 6, 10, 10]))]
    packets += odd_records(rng, network or top) if rng.random() < 0.7 else []
    for packet in packets:
        record = random_record(rng, packet, link_type)
        bytes_ += struct.pack(order + "3I", rng.randrange(2**32), rng.randrange(2**32), len(record))
        bytes_ += struct.pack(order + "I", rng.choice([len(record), 0, 2**32 - 1])) + record
    return damaged_capture(rng, bytes_) if rng.random() < 0.05 else bytes_


def damaged_capture(rng, bytes_):
    at = rng.randrange(len(bytes_))
    changed = bytes_[:at] + rng.randbytes(1) + bytes_[at + 1 :]
    return rng.choice([bytes_[:at], changed, bytes_ + rng.randbytes(3), b"\x0a\x0d\x0d\x0a" + bytes_])


def random_run(seed, resolve=False):
    """Topology, script and capture as bytes; the topology may be asked to say `resolve`."""
    rng = random.Random(seed)
    top = random_topology(rng) | ({"resolve": True} if resolve else {})
    capture = random_capture(rng, top)
    network = reference.Network(inputs.read_topology(toml_text(top).encode()))
    _, link_type, records = inputs.scan(capture)
    packets = [inputs.packet_of(link_type, record) for record in records]
    lines = random_lines(rng, top, packets, network)
    script = script_text(rng, lines, [["flush"], ["drain", "show flight"], [], []])
    return *perhaps_wrong(rng, top, script), capture


def perhaps_wrong(rng, top, script):
    """Topology and script as bytes, now and then wrong."""
    if rng.random() < 0.06:
        script = damaged(rng, script)
    text = toml_text(wrong_topology(rng, top) if rng.random() < 0.12 else top)
    if rng.random() < 0.02:
        text = damaged(rng, text)
    return text.encode(), script.encode()


# Floods

FLOOD_VERBS = {"link up": 20, "link down": 8, "hear flood": 60, "drain": 4}
NO_LINES = [["drain", "5"], ["hear", "ldp"], ["hear"], ["hear", "flood", "nobody"], ["learn"], ["show", "links"], ["link"]]


def flood_topology(rng):
    """Nodes and links alone, the links often more than a tree has."""
    count = rng.choice([1, 2, 3, 3, 4, 4, 5, 5, 6, 6, 7])
    names, loopbacks = rng.sample(NAMES, count), rng.sample(LOOPBACKS, count)
    nodes = [{"name": name, "loopback": loopback} for name, loopback in zip(names, loopbacks)]
    links = list(random_links(rng, nodes))
    linked = [{link["a"], link["b"]} for link in links]
    for a, b in [(a["name"], b["name"]) for i, a in enumerate(nodes) for b in nodes[i + 1 :]]:
        if {a, b} not in linked and rng.random() < 0.3:
            links.append(some(rng, {"a": a, "b": b}, 0.4, cost=lambda: rng.choice([1, 5, 10, 20, 65535])))
    return {"node": nodes, "link": links, "vrf": [], "site": []}


def flood_words(rng, flood):
    """The words of a line, which mostly asks for what can be done."""
    if rng.random() < 0.001:
        return rng.choice(NO_LINES)
    names = [node.name for node in flood.topology.nodes]
    verb = rng.choices([*FLOOD_VERBS], FLOOD_VERBS.values())[0]
    links = [no for no, up in enumerate(flood.up) if up != (verb == "link up")]
    ways = [way for way, queue in flood.flying.items() if queue]
    if verb == "hear flood" and ways:
        link, sender = rng.choice(ways)
    elif verb != "drain" and flood.links:
        link = rng.choice(links or [0]) if rng.random() < 0.9 else rng.randrange(len(flood.links))
        sender = rng.choice([flood.links[link].a, flood.links[link].b])
    else:
        return ["drain"]
    return [*verb.split(), names[sender], names[flood.links[link].other(sender)]]


def is_refused_in(flood, words):
    """Does the line's command; whether it was refused, in which case nothing was done."""
    try:
        verb, *given = inputs.read_line(flood.topology, words, 1, inputs.FLOOD_FORMS)
    except inputs.Refused:
        return False  # it is written as it is
    if verb == "drain":
        return flood.drain()
    return bool(reference_flood.do(flood, verb, *given))


def flood_lines(rng, flood):
    """Lines one after another; of those that would be refused most are left out."""
    for _ in range(rng.choice([0, 3, 10, 20, 40, 80, 160])):
        for _ in range(6):
            words = flood_words(rng, flood)
            if not is_refused_in(flood, words) or rng.random() < 0.1:
                yield words
                break


def random_flood(seed):
    """Topology and script of a flood as bytes."""
    rng = random.Random(f"flood {seed}")
    top = flood_topology(rng)
    flood = reference_flood.Flood(inputs.read_topology(toml_text(top).encode()))
    return perhaps_wrong(rng, top, script_text(rng, flood_lines(rng, flood), [["drain"], [], [], []]))


# Reflected routes

REFLECT_VERBS = {
    "bgp up": 16, "bgp down": 4, "hear bgp": 60, "route add": 6, "route del": 4, "import add": 4, "import del": 3, "export add": 4,
    "export del": 3, "site up": 6, "site down": 4, "drain": 5, "show vrf": 10,
}  # fmt: skip
NO_REFLECT_LINES = [["link", "up", "a", "b"], ["hear", "ldp"], ["hear"], ["show", "links"], ["drain", "-1"], ["bgp", "up", "nobody"], ["reflector"]]


def reflect_topology(rng):
    """Up to four edges, mostly with a VRF each and a prefix, and up to three other nodes; links are of no account."""
    count = rng.choice([1, 2, 3, 4, 4, 5, 5, 6, 6, 7])
    names, loopbacks = rng.sample(NAMES, count), rng.sample(LOOPBACKS, count)
    nodes = [{"name": name, "loopback": loopback} for name, loopback in zip(names, loopbacks)]
    edges = rng.sample(nodes, max(1, count - rng.choice([1, 1, 2, 2, 3])))[:4]
    vrfs = list(random_vrfs(rng, edges))
    return {"node": nodes, "link": list(random_links(rng, nodes)), "vrf": vrfs, "site": list(random_sites(rng, vrfs))}


def first_words(rng, top):
    """The reflectors: most of the nodes that aren't edges, in any order, and now and then one that can't be."""
    edges = {vrf["node"] for vrf in top["vrf"]}
    others = [node["name"] for node in top["node"] if node["name"] not in edges]
    named = rng.sample(others, rng.choice([len(others), len(others), max(0, len(others) - 1)]))
    wrong = rng.choice([[*edges], named, ["nobody"]]) if rng.random() < 0.02 else []
    return [["reflector", name] for name in named + wrong[:1]]


def reflect_words(rng, top, world):
    """The words of a line, which mostly asks for what can be done."""
    if rng.random() < 0.001:
        return rng.choice(NO_REFLECT_LINES)
    names = [node.name for node in world.topology.nodes]
    may = [(a, b) for a in world.reflectors for b in [*world.reflectors, *world.edges] if a != b]
    verbs = [verb for verb in REFLECT_VERBS if makes_sense(verb, top) or "bgp" in verb and may]
    verb = rng.choices(verbs, [REFLECT_VERBS[verb] for verb in verbs])[0]
    if "bgp" not in verb:
        return [*verb.split(), *words_for(rng, verb, top, [], world)]
    if verb == "hear bgp" and world.flying and rng.random() < 0.95:
        ends = rng.choice(world.flying)
    else:
        pairs = [pair for pair in may if world.lives[pair] != (verb == "bgp up")]
        ends = rng.sample(rng.choice(pairs if pairs and rng.random() < 0.9 else may or [(0, 0)]), 2)
    return [*verb.split(), *(names[end] for end in ends)]


def is_refused_by(world, words):
    """Does the line's command; whether it was refused, in which case nothing was done."""

    def may_peer(a, b):
        return any(one in world.reflectors and other in [*world.reflectors, *world.edges] for one, other in ((a, b), (b, a)))

    try:
        verb, *given = inputs.read_line(world.topology, words, 1, inputs.REFLECT_FORMS, may_peer)
    except inputs.Refused:
        return False  # it is written as it is
    if verb == "drain":
        return world.drain(*given)
    return verb not in ("show vrf", "reflector") and bool(world.do(verb, *given))


def peerings(rng, world):
    """Lines by which most sessions come up, and most of what is sent in them is received."""
    names = [node.name for node in world.topology.nodes]
    pairs = [(a, b) for a in world.reflectors for b in [*world.reflectors, *world.edges] if a != b and (b not in world.reflectors or a < b)]
    lines = [["bgp", "up", names[a], names[b]] for a, b in pairs if rng.random() < 0.85]
    rng.shuffle(lines)
    return lines + [rng.choice([["drain"], ["drain"], ["drain", "20"]])]


def reflect_lines(rng, top, world):
    """Lines one after another; of those that would be refused most are left out."""
    for words in peerings(rng, world) if rng.random() < 0.85 else []:
        is_refused_by(world, words)
        yield words
    for _ in range(rng.choice([0, 3, 10, 20, 40, 80])):
        for _ in range(6):
            words = reflect_words(rng, top, world)
            if not is_refused_by(world, words) or rng.random() < 0.1:
                yield words
                break
    for vrf in top["vrf"] if rng.random() < 0.7 else []:
        yield ["show", "vrf", vrf["name"]]


def random_reflection(seed):
    """Topology and script of reflected routes as bytes."""
    rng = random.Random(f"reflect {seed}")
    top = reflect_topology(rng)
    first = first_words(rng, top)
    topology = inputs.read_topology(toml_text(top).encode())
    numbers = [topology.named("node", words[1]) for words in first]
    edges = topology.edges()
    world = reference_reflect.Reflection(topology, [no for no in dict.fromkeys(numbers) if no is not None and no not in edges])
    return perhaps_wrong(rng, top, script_text(rng, [*first, *reflect_lines(rng, top, world)], [["drain"], ["drain"], [], []]))


# Two joined networks


def joined_sites(rng, tops):
    """Some sites of the first with some of the second, each at most once."""
    names = [[site["name"] for site in top["site"]] for top in tops]
    count = rng.randrange(min(len(names[0]), len(names[1])) + 1)
    return list(zip(*(rng.sample(some, count) for some in names)))


def routes_over(rng, tops, joints):
    """For the sites of joints, static routes to what the other network has."""
    for joint in joints:
        for which in range(2):
            beyond = [of for site in tops[1 - which]["site"] for of in site.get("prefixes", [])]
            for of in rng.sample(beyond, rng.randrange(min(len(beyond), 3) + 1)):
                yield [str(which + 1), "route", "add", joint[which], of]


def is_of_a_pair(words):
    return words[0] not in ("run", "show")


def joined_lines(rng, tops, joints, packets, networks):
    """Lines of both networks, in turns; some that two networks don't play are left in."""
    yield from routes_over(rng, tops, joints)
    sides = [random_lines(rng, top, packets, network) for top, network in zip(tops, networks)]
    while sides[0] or sides[1]:
        which = rng.randrange(2)
        words = next(sides[which] or iter(()), None)
        if words is None:
            sides[which] = None
        elif is_of_a_pair(words) or rng.random() < 0.001:
            yield [str(which + 1), *words]
            if rng.random() < 0.1:
                yield [str(rng.randrange(2) + 1), "flush"]


def random_join(seed):
    """Two topologies, their joints, a script and a capture as bytes."""
    rng = random.Random(f"join {seed}")
    tops = [random_topology(rng) for _ in range(2)]
    networks = [reference.Network(inputs.read_topology(toml_text(top).encode())) for top in tops]
    both = {"site": tops[0]["site"] + tops[1]["site"]}
    capture = random_capture(rng, both, rng.choice(tops))
    _, link_type, records = inputs.scan(capture)
    packets = [inputs.packet_of(link_type, record) for record in records]
    joints = joined_sites(rng, tops)
    script = script_text(rng, joined_lines(rng, tops, joints, packets, networks), [["1 flush", "2 flush"], ["2 drain"], ["1"], []])
    text = "".join(f"{one} {other}\n" for one, other in joints)
    if rng.random() < 0.04:
        text = damaged(rng, text)
    if rng.random() < 0.04:
        script = damaged(rng, script)
    texts = [toml_text(wrong_topology(rng, top) if rng.random() < 0.05 else top).encode() for top in tops]
    return *texts, text.encode(), script.encode(), capture


COMMANDS = {"run": random_run, "flood": random_flood, "reflect": random_reflection, "join": random_join}
