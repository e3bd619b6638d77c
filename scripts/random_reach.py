"""Makes random files of failures over random topologies: small networks with ways of one cost, prefixes that lie in each other and several
edges of one prefix, and now and then a wrong input."""

import random
import sys
from pathlib import Path

sys.path.insert(0, str(Path(__file__).resolve().parent))
from random_runs import NAMES, perhaps_wrong, random_topology, script_text, some  # noqa: E402

PREFIXES = "0.0.0.0/0 10.0.0.0/8 10.1.0.0/16 10.1.2.0/24 10.1.2.2/31 10.1.2.3/32 10.2.0.0/16 10.9.0.0/16 0.0.0.0/1 127.0.0.0/8 224.0.0.0/4".split()
TARGETS = ["65000:1", "65000:2", "10.0.0.1:7"]
COSTS = [[10], [1, 2], [10, 10, 10, 20], [5, 10, 100], [1, 65535]]
LINES = {
    "fail": 50, "each link": 4, "each ldp": 4, "each node": 4, "each bgp": 4, "each 2 links": 4, "each 3 links": 2, "sessions end": 4, "sessions stay": 2,
    "resolve topology": 2, "resolve no": 3, "resolve label": 4, "counts": 4, "losses": 3, "ttl": 4,
}  # fmt: skip
WRONG = """
each site|each|each 4 links|each 2 links from 0|each 2 links from 0 to 1024|each 2 links until 5|sessions|sessions down|resolve|resolve labels|resolve no 1|counts 1|ttl 1|ttl 256|ttl
profile frr|node up nobody|node down nobody|link down|,|bgp down a a|link down a b,|node down a, each link
""".replace("\n", "|").strip("|").split("|")


# Topologies


def meshed_links(rng, names):
    """A tree and some more, with few costs, so that many ways cost the same."""
    pairs, costs = {frozenset((names[at], names[rng.randrange(at)])) for at in range(1, len(names))}, rng.choice(COSTS)
    pairs |= {frozenset(rng.sample(names, 2)) for _ in range(rng.randint(0, len(names)))} if len(names) > 1 else set()
    links = [sorted(pair, key=names.index)[:: rng.choice([1, -1])] for pair in sorted(pairs, key=sorted)]
    return [{"a": a, "b": b, "cost": rng.choice(costs)} for a, b in rng.sample(links, len(links))]


def targets_of(rng):
    """What a VRF imports and exports: as most of the others do, as a hub, or as two VPNs."""
    one, other = rng.sample(TARGETS, 2)
    kind = rng.random()
    return ([TARGETS[0]],) * 2 if kind < 0.6 else ([one], [other]) if kind < 0.85 else ([one, other], [one])


def customers(rng, names):
    """VRFs at up to five edges, with the sites of each."""
    vrfs, sites = [], []
    for node in [name for name in rng.sample(names, rng.randint(1, min(len(names), 5))) for _ in range(rng.choice([1, 1, 2]))]:
        imports, exports = targets_of(rng)
        number = len(vrfs) + 1
        vrfs.append({"name": f"v{number}", "node": node, "rd": rng.choice([f"65000:{number}", f"192.0.2.{number}:7"]), "import": imports, "export": exports})
        left = rng.sample(PREFIXES, len(PREFIXES))
        for _ in range(rng.choice([0, 1, 1, 2])):
            sites.append({"name": f"s{len(sites) + 1}", "vrf": f"v{number}", "prefixes": [left.pop() for _ in range(rng.choice([0, 1, 1, 2, 3]))]})
    return vrfs, rng.sample(sites, len(sites))


def reach_topology(rng):
    """As of a run, or more meshed."""
    if rng.random() < 0.3:
        return some(rng, random_topology(rng), 0.5, resolve=lambda: True)
    names = rng.sample(NAMES, rng.choice([2, 3, 4, 5, 5, 6, 6, 7]))
    nodes = [{"name": name, "loopback": f"192.0.2.{at}"} for name, at in zip(names, rng.sample(range(1, 200), len(names)))]
    vrfs, sites = customers(rng, names)
    return some(rng, {}, 0.5, resolve=lambda: True) | {"node": nodes, "link": meshed_links(rng, names), "vrf": vrfs, "site": sites}


# Failures


def part_words(rng, top):
    """A part that the topology has."""
    names = [node["name"] for node in top["node"]]
    edges = sorted({vrf["node"] for vrf in top["vrf"]}, key=names.index)
    kinds = ["node down"] + ["link down", "link down", "ldp off", "ldp off"] * bool(top["link"]) + ["bgp down"] * 2 * (len(edges) > 1)
    kind = rng.choice(kinds)
    if kind == "node down":
        return ["node", "down", rng.choice(names)]
    if kind == "bgp down":
        return ["bgp", "down", *rng.sample(edges, 2)]
    link = rng.choice(top["link"])
    return [*kind.split(), *rng.sample([link["a"], link["b"]], 2)]


def fail_words(rng, top):
    """Parts with commas between them; seldom is one named twice."""
    parts = {}
    for _ in range(rng.choice([1, 1, 1, 1, 2, 2, 3, 4, 12])):
        words = part_words(rng, top)
        parts[(*words[:2], *sorted(words[2:]))] = words
    first, *rest = [*parts.values(), *([rng.choice([*parts.values()])] * (rng.random() < 0.002))]
    for words in rest:
        before = rng.random()
        if before < 0.6:
            first[-1] += ","
        elif before < 0.8:
            words = [f",{words[0]}", *words[1:]]
        else:
            words = [",", *words]
        first = [*first, *words]
    return first


def some_links_words(rng, top):
    """All, or those whose first link's number is between two."""
    if rng.random() < 0.5:
        return []
    numbers = [rng.randrange(len(top["link"]) + 1) for _ in range(2)]
    return ["from", str(min(numbers)), "to", str(max(numbers) if rng.random() < 0.8 else rng.choice([0, 1023]))]


def line_words(rng, top):
    """The words of a line."""
    if rng.random() < 0.004:
        return rng.choice(WRONG).split(" ")
    form = rng.choices([*LINES], LINES.values())[0]
    if form == "fail":
        return fail_words(rng, top)
    if form == "ttl":
        return ["ttl", str(rng.choice([2, 3, 4, 5, 64, 255]))]
    return form.split() + (some_links_words(rng, top) if form.endswith("links") else [])


def random_reach(seed):
    """Topology and file of failures as bytes; now and then there is none."""
    rng = random.Random(f"reach {seed}")
    top = reach_topology(rng)
    lines = [line_words(rng, top) for _ in range(rng.choice([0, 1, 2, 4, 8, 12]))]
    inputs = perhaps_wrong(rng, top, script_text(rng, lines, [["each link"], [], [], []]))
    return inputs[:1] if rng.random() < 0.04 else inputs
