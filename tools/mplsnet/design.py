"""Networks in few words: the short form, families by a seed, and what becomes of them as a topology."""

import math
import random
import re
from dataclasses import dataclass, field

from mplsnet.files import NAME, Fault
from mplsnet.left import NUMBERS, PARTS, Left
from mplsnet.rules import address, pair

LIMITS = {"node": 256, "link": 1024, "vrf": 512, "site": 4096}
MOST_EDGES = 64
MOST_OF = {"cost": 65_535, "delay": 1000}
FAMILIES = ("ring", "mesh", "waxman", "fat-tree")


@dataclass
class Design:
    """A network as it is gathered; `left` says what it has otherwise than its source."""

    source: str
    asn: int = 65_000
    resolve: bool = True
    nodes: dict = field(default_factory=dict)  # of each name its loopback, none where it is to be given
    links: list = field(default_factory=list)
    vrfs: list = field(default_factory=list)
    sites: list = field(default_factory=list)
    left: Left = field(default_factory=Left)
    off: list = field(default_factory=list)  # the ends of links on which LDP is off as the network comes up
    lawful: dict = field(default_factory=dict)  # of each kind and name of a source the name here

    def tell(self, group, text, where="", line=None, whole=""):
        self.left.tell(group, text, where, line, whole)

    def name(self, kind, wanted, key=None):
        """A name of its form for what the source names so, or by the key; no other of the kind has it."""
        key = (kind, wanted if key is None else key)
        if key not in self.lawful:
            taken = {name for (other, _), name in self.lawful.items() if other == kind}
            text = re.sub(r"[^A-Za-z0-9._-]", "-", wanted)[:32] or kind
            name, number = text, 1
            while name in taken:
                number += 1
                name = f"{text[: 31 - len(str(number))]}-{number}"
            if name != wanted:
                self.tell(NUMBERS, f"{kind} {wanted!r} is '{name}' here")
            self.lawful[key] = name
        return self.lawful[key]

    def node(self, place, name, loopback=None):
        if not NAME.match(name):
            raise Fault(f"{place}: {name!r} is no name (1 to 32 letters, digits, '-', '.', '_')")
        if name in self.nodes:
            raise Fault(f"{place}: node {name!r} stands twice")
        self.nodes[name] = loopback

    def link(self, place, a, b, **keys):
        for end in (a, b):
            if end not in self.nodes:
                raise Fault(f"{place}: there is no node {end!r}")
        if a == b:
            raise Fault(f"{place}: a link from {a!r} to itself")
        if any({link["a"], link["b"]} == {a, b} for link in self.links):
            return False
        self.links.append({"a": a, "b": b} | {key: value for key, value in keys.items() if value is not None})
        return True

    def merged(self, a, b, what, **keys):
        """A link that joins the same two nodes as one before is one with it, of the least cost; `what` names the source's link."""
        if a == b:
            self.tell(PARTS, f"{what} joins {a} with itself: left out")
        elif not self.link(what, a, b, **keys):
            before = next(link for link in self.links if {link["a"], link["b"]} == {a, b})
            costs = [link.get("cost") for link in (before, keys)]
            if costs != [None, None]:
                before["cost"] = min(10 if cost is None else cost for cost in costs)
            self.tell(PARTS, f"links side by side are one link of the least cost, which fails only whole: {what}", f"{a}-{b}")

    def site(self, name, vrf, prefixes):
        """A site with those of the prefixes that its VRF hasn't yet."""
        taken = {prefix for site in self.sites if site["vrf"] == vrf for prefix in site["prefixes"]}
        twice = [prefix for prefix in dict.fromkeys(prefixes) if prefix in taken]
        if twice:
            self.tell(PARTS, f"{', '.join(twice)}: another site of VRF {vrf} has it already: left out", name)
        self.sites.append({"name": name, "vrf": vrf, "prefixes": [prefix for prefix in dict.fromkeys(prefixes) if prefix not in taken]})

    def fresh_rd(self, rds):
        """A route distinguisher that isn't among these."""
        number = 1
        while f"{self.asn}:{number}" in rds:
            number += 1
        return f"{self.asn}:{number}"

    def vrf(self, place, name, node, rd, imports, exports):
        if not NAME.match(name):
            raise Fault(f"{place}: {name!r} is no name for a VRF (1 to 32 letters, digits, '-', '.', '_')")
        self.vrfs.append({"name": name, "node": node, "rd": rd, "import": list(dict.fromkeys(imports)), "export": list(dict.fromkeys(exports))})
        return self.vrfs[-1]

    def own_loopbacks(self):
        """Loopbacks that no node can have, or that stand twice, are given anew."""
        seen = set()
        for name, loopback in self.nodes.items():
            at = address(loopback) if loopback is not None else None
            if loopback is not None and (at is None or at >> 24 in (0, 127) or at >> 28 in (14, 15) or loopback in seen):
                self.tell(NUMBERS, f"loopback {loopback}: {'another node has it' if loopback in seen else 'no node can have it here'}: one is given", name)
                self.nodes[name] = None
            seen.add(loopback)

    def tables(self):
        """The topology's tables, within its limits."""
        self.own_loopbacks()
        used, loopbacks, given = set(self.nodes.values()), {}, 0
        for name, loopback in self.nodes.items():
            while loopback is None:
                text = f"172.16.{given // 250}.{given % 250 + 1}"
                given += 1
                loopback = None if text in used else text
            loopbacks[name] = loopback
        tables = {"as": self.asn, "resolve": self.resolve}
        tables |= {"node": [{"name": name, "loopback": at} for name, at in loopbacks.items()], "link": self.links}
        tables |= {"vrf": self.vrfs, "site": self.sites}
        for kind, most in LIMITS.items():
            if len(tables[kind]) > most:
                raise Fault(f"{self.source}: {len(tables[kind])} entries of '{kind}', and a topology has at most {most}")
        edges = len({vrf["node"] for vrf in self.vrfs})
        if edges > MOST_EDGES:
            raise Fault(f"{self.source}: {edges} nodes have a VRF, and a topology has at most {MOST_EDGES} of them")
        for vrf in self.vrfs:
            if max(len(vrf["import"]), len(vrf["export"])) > 16:
                raise Fault(f"{self.source}: VRF {vrf['name']} has more than 16 targets")
        return tables


class Numbers:
    """AS numbers, and the pairs of targets and distinguishers, of a source; those of four bytes get one of two bytes that it hasn't, one to one."""

    def __init__(self, design, texts):
        self.design, self.given = design, {}
        self.used = {int(word) for text in texts for word in re.findall(r"\d+", text) if len(word) < 6}

    def asn(self, word):
        """The number of an AS, also in the form N.N; none where it isn't one."""
        found = re.fullmatch(r"(\d{1,5})\.(\d{1,5})", str(word))
        number = int(found[1]) << 16 | int(found[2]) if found and max(map(int, found.groups())) < 65_536 else int(word) if str(word).isdecimal() else 0
        if not 0 < number < 1 << 32:
            return None
        if number < 65_536:
            return number
        if number not in self.given:
            taken = {*self.used, *self.given.values()}
            self.given[number] = next((one for one in [*range(64_512, 65_535), *range(1, 64_512)] if one not in taken), None)
            self.design.tell(NUMBERS, f"AS {word} has four bytes: it is AS {self.given[number]} here, in targets and distinguishers too")
        return self.given[number]

    def pair(self, word):
        """AS:N or ADDRESS:N as a topology has it; none where it is neither."""
        first, _, last = str(word).partition(":")
        if pair(str(word)):
            return str(word)
        number = self.asn(first) if last.isdecimal() and re.fullmatch(r"\d{6,10}|\d{1,5}\.\d{1,5}", first) else None
        text = f"{number}:{last}" if number and int(last) < 65_536 else ""
        return text if pair(text) else None


# The short form.


def expanded(place, word):
    """The names of a pattern, as p[1-3,7] or pe[01-30]."""
    found = re.fullmatch(r"([^\[\]]*)\[([0-9,-]+)\]([^\[\]]*)", word)
    if not found:
        if "[" in word or "]" in word:
            raise Fault(f"{place}: {word!r} isn't a name or a pattern as p[1-8]")
        return [word]
    before, ranges, behind = found.groups()
    names = []
    for one in ranges.split(","):
        first, dash, last = one.partition("-")
        if not first or dash and (not last or int(last) < int(first)):
            raise Fault(f"{place}: {word!r}: {one!r} isn't a number or a range as 1-8")
        names += [f"{before}{number:0{len(first)}}{behind}" for number in range(int(first), int(last or first) + 1)]
    return names


class Short:
    """Reads the short form."""

    def __init__(self, source):
        self.design, self.vpns, self.shares = Design(source), {}, []

    def read(self, text):
        for number, line in enumerate(text.split("\n"), 1):
            line = line.partition("#")[0].strip()
            if line:
                self.line(f"{self.design.source}: line {number}", line)
        self.finish()
        return self.design

    def line(self, place, line):
        key, colon, rest = line.partition(":")
        words = key.split()
        if not colon or not words:
            raise Fault(f"{place}: isn't of the form 'nodes: ..', 'links: ..', 'vpn NAME: ..', 'share: .. with ..', 'as: N' or 'resolve: false'")
        items = [item.split() for item in rest.split(";") if item.split()]
        if words == ["nodes"]:
            for name in (name for item in items for word in item for name in expanded(place, word)):
                self.design.node(place, name)
        elif words == ["links"]:
            for item in items:
                self.links(place, item)
        elif words[0] == "vpn" and len(words) == 2:
            self.vpn(place, words[1], items)
        elif words == ["share"]:
            self.share(place, items)
        elif words == ["as"] and len(items) == 1 and len(items[0]) == 1 and items[0][0].isdecimal() and 1 <= int(items[0][0]) <= 65_535:
            self.design.asn = int(items[0][0])
        elif words == ["resolve"] and items in ([["true"]], [["false"]]):
            self.design.resolve = items == [["true"]]
        else:
            raise Fault(f"{place}: {key!r} is none of 'nodes', 'links', 'vpn NAME', 'share', 'as' with a number from 1 to 65535 and 'resolve' with true or false")

    def group(self, place, words):
        """The nodes that patterns name; a bare word that is no node's name stands for all nodes that are it and a number."""
        found = []
        for word in words:
            names = expanded(place, word)
            if names == [word] and word not in self.design.nodes:
                names = [name for name in self.design.nodes if re.fullmatch(re.escape(word) + r"\d+", name)]
            for name in names or [word]:
                if name not in self.design.nodes:
                    raise Fault(f"{place}: there is no node {name!r}")
            found += names
        if not found:
            raise Fault(f"{place}: no node is named")
        return found

    def links(self, place, words):
        keys = {}
        while len(words) > 2 and words[-2] in ("cost", "delay"):
            most = MOST_OF[words[-2]]
            if not words[-1].isdecimal() or not 1 <= int(words[-1]) <= most:
                raise Fault(f"{place}: {words[-2]} {words[-1]!r} isn't a number from 1 to {most}")
            keys[words[-2]] = int(words[-1])
            words = words[:-2]
        pairs = self.pairs(place, words)
        for a, b in pairs:
            self.design.link(place, a, b, **keys)

    def pairs(self, place, words):
        shape, rest = words[0], words[1:]
        if "->" in words:
            at = words.index("->")
            tail = words[at + 1 :]
            if len(tail) < 3 or tail[1] != "of" or not tail[0].isdecimal():
                raise Fault(f"{place}: '{' '.join(words)}' isn't of the form 'pe -> 2 of p'")
            count, near, far = int(tail[0]), self.group(place, words[:at]), self.group(place, tail[2:])
            if not 1 <= count <= len(far):
                raise Fault(f"{place}: {count} of {len(far)} nodes")
            return [(name, far[(at * count + turn) % len(far)]) for at, name in enumerate(near) for turn in range(count)]
        if "-" in words and len(words) == 3:
            return [(words[0], words[2])]
        nodes = self.group(place, rest) if rest else []
        if shape == "ring" and len(nodes) > 2:
            return list(zip(nodes, [*nodes[1:], nodes[0]]))
        if shape in ("chain", "ring") and len(nodes) > 1:
            return list(zip(nodes, nodes[1:]))
        if shape == "mesh" and len(nodes) > 1:
            return [(a, b) for at, a in enumerate(nodes) for b in nodes[at + 1 :]]
        if shape == "star" and len(nodes) > 1:
            return [(nodes[0], one) for one in nodes[1:]]
        raise Fault(f"{place}: '{' '.join(words)}' is none of 'ring ..', 'chain ..', 'mesh ..', 'star ..', 'A - B' and 'pe -> 2 of p'")

    def vpn(self, place, name, items):
        """Each place is an edge, or edges with '+' between them: a customer's site behind all of these."""
        places, hubs = [], []
        for item in items:
            is_hub = item[0] == "hub"
            for word in item[1:] if is_hub else item:
                edges = [self.group(place, [one]) for one in word.split("+")]
                found = [[edge] for edge in edges[0]] if len(edges) == 1 else [[one for some in edges for one in some]]
                (hubs if is_hub else places).extend(found)
        if name in self.vpns:
            raise Fault(f"{place}: VPN {name!r} stands twice")
        self.vpns[name] = (place, places, hubs)

    def share(self, place, items):
        for item in items:
            if len(item) < 3 or item[1] != "with":
                raise Fault(f"{place}: '{' '.join(item)}' isn't of the form 'svc with c1 c2'")
            for name in (item[0], *item[2:]):
                if name not in self.vpns:
                    raise Fault(f"{place}: there is no VPN {name!r} above")
            self.shares.append((item[0], item[2:]))

    def finish(self):
        """VRFs and sites: a VPN's target is AS:N of its number; with hubs their own is AS:10000+N; what is shared has two of its own."""
        design, asn, further = self.design, self.design.asn, 0
        for number, (name, (place, places, hubs)) in enumerate(self.vpns.items(), 1):
            main, hub = f"{asn}:{number}", f"{asn}:{10_000 + number}"
            vrfs, counts = {}, {}
            for at, (edges, is_hub) in enumerate([(one, False) for one in places] + [(one, True) for one in hubs], 1):
                prefix = f"10.{number}.{at}.0/24"
                if max(number, at) > 255:
                    prefix, further = f"11.{further // 256}.{further % 256}.0/24", further + 1
                for edge in edges:
                    key = (edge, is_hub)
                    if key not in vrfs:
                        targets = ([hub], [main]) if hubs and not is_hub else ([main], [hub]) if is_hub else ([main], [main])
                        vrfs[key] = design.vrf(place, f"{name}-{edge}{'-hub' if is_hub else ''}", edge, f"{asn}:{len(design.vrfs) + 1}", *targets)
                        vrfs[key]["vpn"] = name
                    counts[key] = counts.get(key, 0) + 1
                    site = vrfs[key]["name"] + (f"-{counts[key]}" if counts[key] > 1 else "")
                    design.sites.append({"name": site, "vrf": vrfs[key]["name"], "prefixes": [prefix]})
        for number, (name, others) in enumerate(self.shares, 1):
            out, back = f"{asn}:{20_000 + number}", f"{asn}:{30_000 + number}"
            for vrf in design.vrfs:
                imports, exports = (back, out) if vrf["vpn"] == name else (out, back) if vrf["vpn"] in others else (None, None)
                if imports:
                    vrf["import"].append(imports)
                    vrf["export"].append(exports)
        for vrf in design.vrfs:
            vrf.pop("vpn")


# Families: each is text of the short form.


def family_text(family, seed, size, edges, vpns):
    """A network of the family: `size` inner nodes (of a fat tree its k), edges at two of them each, VPNs by chance."""
    rng = random.Random(seed)
    if family == "fat-tree":
        lines, homes = fat_tree(size)
        names = homes[:edges]
    else:
        names = [f"pe{number:02}" for number in range(1, edges + 1)]
        inner = [f"p{number}" for number in range(1, size + 1)]
        lines = [f"nodes: {' '.join(inner)} {' '.join(names)}"]
        if family == "waxman":
            lines += waxman(rng, inner)
        else:
            lines.append(f"links: {family} {' '.join(inner)}")
        for name in names:
            at = rng.randrange(size)
            lines.append(f"links: {name} - {inner[at]}; {name} - {inner[(at + 1) % size]}")
    for number in range(1, vpns + 1):
        members = rng.sample(names, min(len(names), rng.randint(2, max(2, len(names) // 2))))
        is_hub = len(members) > 2 and rng.random() < 0.25
        lines.append(f"vpn c{number}: " + (f"{' '.join(members[1:])}; hub {members[0]}" if is_hub else " ".join(members)))
    return "\n".join(lines) + "\n"


def waxman(rng, inner, alpha=0.6, beta=0.4):
    """Waxman's graph: nodes at random places, linked the likelier the nearer; what stays apart is linked by its shortest link."""
    at = {name: (rng.random(), rng.random()) for name in inner}
    pairs = sorted((math.dist(at[a], at[b]), a, b) for number, a in enumerate(inner) for b in inner[number + 1 :])
    part = {name: name for name in inner}

    def root(name):
        while part[name] != name:
            name = part[name]
        return name

    chosen = [(far, a, b) for far, a, b in pairs if rng.random() < alpha * math.exp(-far / (beta * math.sqrt(2)))]
    for _, a, b in chosen:
        part[root(a)] = root(b)
    for far, a, b in pairs:
        if root(a) != root(b):
            part[root(a)] = root(b)
            chosen.append((far, a, b))
    return [f"links: {a} - {b} cost {1 + round(99 * far)}" for far, a, b in chosen]


def fat_tree(k):
    """A fat tree of k pods, and its edge nodes."""
    half = k // 2
    core = [f"c{number}" for number in range(1, half * half + 1)]
    lines, edges = [f"nodes: {' '.join(core)}"], []
    for pod in range(1, k + 1):
        upper, lower = ([f"{letter}{pod}-{number}" for number in range(1, half + 1)] for letter in "ae")
        lines.append(f"nodes: {' '.join(upper)} {' '.join(lower)}")
        lines += [f"links: {a} - {core[at * half + turn]}" for at, a in enumerate(upper) for turn in range(half)]
        lines += [f"links: {e} - {a}" for e in lower for a in upper]
        edges += lower
    return lines, edges


# The inputs of 'mplsnet generate N'.


def generated(number):
    """Topology, script and the addresses that packets go to, as crates/mn_gen defines them."""
    count, half = 8 + number, (8 + number) // 2
    edges = [4 * at for at in range((count + 3) // 4)]
    ring, chords = [(at, (at + 1) % count) for at in range(count)], [(at, at + half) for at in range(half)]
    topology = "".join(f'[[node]]\nname = "n{at}"\nloopback = "172.16.0.{at + 1}"\n' for at in range(count))
    link = '[[link]]\na = "n{}"\nb = "n{}"\ncost = {}\ndelay = {}\n'.format
    topology += "".join(link(a, b, 10, 1 + a % 3) for a, b in ring) + "".join(link(a, b, 15, 1) for a, b in chords)
    for edge in edges:
        for vpn, colour in ((1, "red"), (2, "blue")):
            topology += f'[[vrf]]\nname = "{colour}{edge}"\nnode = "n{edge}"\nrd = "65000:{2 * edge + vpn}"\nimport = ["65000:{vpn}"]\nexport = ["65000:{vpn}"]\n'
    for edge in edges:
        for letter, colour in (("r", "red"), ("b", "blue")):
            topology += f'[[site]]\nname = "{letter}{edge}"\nvrf = "{colour}{edge}"\nprefixes = ["10.{edge}.0.0/16"]\n'
    script = [f"link up n{a} n{b}" for a, b in ring + chords] + [f"bgp up n{a} n{b}" for a in edges for b in edges if a < b] + ["drain 4000000"]
    script += [f"inject {'rb'[turn % 2]}{4 * (turn % len(edges))} {(7 * turn + 1) % len(edges) + 1}" for turn in range(1000)]
    return topology, "\n".join([*script, "flush"]) + "\n", [bytes((10, edge, 0, 1)) for edge in edges]
