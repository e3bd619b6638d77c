"""Asks by a run what `mplsnet reach` answers: each failure as lines of a script, a drain, and then a packet for each pair.

From the lines that reach has put follows what each packet comes to: as in its `pair` line, but where a `lost` or `moved` line
says otherwise. Of a pair that is dropped both with and without a failure it says no more. What the run's packets come to is set
beside that. Links that lose frames lose none here.
"""

import random
import struct
import sys
import tomllib
from dataclasses import dataclass, field
from itertools import combinations
from pathlib import Path

sys.path[:0] = [str(Path(__file__).resolve().parents[1] / "examples"), str(Path(__file__).resolve().parent)]
from random_runs import checksum, toml_text  # noqa: E402
from reference_failures import SETTINGS, failures_of, read_failures  # noqa: E402
from reference_inputs import Refused, read_topology  # noqa: E402
from reference_reach import AtRest, Report, is_dropped  # noqa: E402

HEAD = struct.pack("<IHHiIII", 0xA1B2C3D4, 2, 4, 0, 0, 0x40000, 228)


class Differs(Exception):
    """Lines of reach and what a run comes to differ."""


@dataclass
class State:
    """What packets are sent in: a failure, or none, and what reach says of them."""

    parts: list
    ttl: int
    sessions_end: bool
    resolves: bool
    words: str  # of the failure's line
    whole: list  # verdicts without the failure
    changed: dict = field(default_factory=dict)  # verdicts by pair that have changed
    counted: tuple = None  # how many were lost and moved, where no more is told


class Told:
    """The lines that reach has put, one after another."""

    def __init__(self, report):
        self.lines = report.decode("latin-1").splitlines()

    def take(self, first):
        if not self.lines or self.lines[0].split(" ", 1)[0] != first:
            raise Differs(f"a line {first} is due, and there is {self.lines[:1] or 'none'}")
        return self.lines.pop(0)

    def all(self, firsts):
        while self.lines and self.lines[0].split(" ", 1)[0] in firsts:
            yield self.lines.pop(0)


def states_of(settings, commands, names, told):
    """Each state in which packets are sent, in the order of the lines that were put."""
    for verb, *given in [*(command for _, command in commands), ("end",)]:
        if verb in SETTINGS:
            settings.set(verb, *given)
            continue
        if settings.whole is None:
            told.take("profile")
            settings.whole = [told.take("pair").removeprefix(f"pair {name} ") for name in names]
            yield State([], settings.ttl, settings.sessions_end, settings.resolves(), "no failure", settings.whole)
        for parts in failures_of(settings.topology, verb, *given) if verb != "end" else ():
            state = State(parts, settings.ttl, settings.sessions_end, settings.resolves(), told.take("failure"), settings.whole)
            yield failure_told(state, settings.counts, names, told)


def failure_told(state, counts, names, told):
    """The failure with what its lines say."""
    number = state.words.split()[1]
    if counts:
        *_, lost, _, _, _, moved = state.words.split()
        state.counted = int(lost), int(moved)
    for line in told.all(("lost", "moved")):
        word, *words = line.split(" ")
        name, verdict = " ".join(words[1:3]), " ".join(words[3:])
        if words[:1] != [number] or name not in names:
            raise Differs(f"no pair of failure {number}: {line}")
        state.changed[name] = f"dropped {verdict}" if word == "lost" else verdict
    return state


# The run


def sessions_that_live(topology, state):
    network = AtRest(topology, state.parts, state.sessions_end)
    return {pair for pair in combinations(topology.edges(), 2) if network.lives(*pair)}


def on_of(topology, state):
    """What is on: links that are up, LDP on links, sessions; each as the words behind `link`, `ldp` or `bgp`."""
    names, view = [node.name for node in topology.nodes], AtRest(topology, state.parts, state.sessions_end).view
    failed = {what for _, what in state.parts}
    ends = [f"{names[link.a]} {names[link.b]}" for link in topology.links]
    links = {f"link {words}" for words, up in zip(ends, view) if up}
    ldp = {f"ldp {words}" for no, words in enumerate(ends) if ("ldp off", no) not in failed}
    return links | ldp | {f"bgp {names[one]} {names[other]}" for one, other in sessions_that_live(topology, state)}


WORDS = {"link": ("up", "down"), "ldp": ("on", "off"), "bgp": ("up", "down")}


def lines_between(before, after, rng):
    """The lines, in any order, by which what was on is off, and what is to be on is on."""
    changes = [(words, words in after) for words in sorted(before ^ after)]
    rng.shuffle(changes)
    for words, is_on in changes:
        kind, ends = words.split(" ", 1)
        yield f"{kind} {WORDS[kind][not is_on]} {ends}"


def packet(to, ttl):
    header = struct.pack(">BBHHHBBHII", 0x45, 0, 28, 0, 0, ttl, 17, 0, 0xC0000201, to)
    return header[:10] + struct.pack(">H", checksum(header)) + header[12:] + bytes.fromhex("0035003500080000")


def inputs_of(topology, pairs, states, rng):
    """The script and the capture: the network goes from state to state, and in each a packet is sent for each pair."""
    ends = [f"{topology.nodes[link.a].name} {topology.nodes[link.b].name}" for link in topology.links]
    on, lines, records = {f"ldp {words}" for words in ends}, [], {}
    for state in states:
        after = on_of(topology, state)
        lines += [*lines_between(on, after, rng), "drain"]
        for site, _, to in pairs:
            lines.append(f"inject {topology.sites[site].name} {records.setdefault((to, state.ttl), len(records) + 1)}")
        lines.append("flush")
        on = after
    packets = [packet(*record) for record in records]
    return "\n".join(lines).encode(), HEAD + b"".join(struct.pack("<4I", 0, 0, len(one), len(one)) + one for one in packets)


def topology_for(topology_bytes, resolves):
    """The topology's text with that key, in which links lose no frames."""
    top = tomllib.loads(topology_bytes.decode()) | {"resolve": resolves}
    for link in top.get("link", []):
        link.pop("loss", None)
    return toml_text(top).encode()


def verdicts_of(report):
    """What each packet came to, as reach tells it."""
    for line in report.decode("latin-1").splitlines():
        words = line.split(" ")
        if words[0] != "packet":
            if words[0] != "total":
                raise Differs(f"the run says: {line}")
            continue
        verdict = words[8:]
        at = verdict.index("path", 4)
        yield " ".join(verdict[:4] + verdict[at:] if verdict[0] == "delivered" else verdict[:at])


def found_by(run, inputs, topology, pairs, states, rng):
    """The verdicts of each state's packets, by its place: a run has one way to resolve next hops, so there are two runs at most."""
    found = {}
    for resolves in {state.resolves for state in states}:
        places = [at for at, state in enumerate(states) if state.resolves == resolves]
        verdicts = list(verdicts_of(run(topology_for(inputs[0], resolves), *inputs_of(topology, pairs, [states[at] for at in places], rng))))
        if len(verdicts) != len(places) * len(pairs):
            raise Differs(f"{len(places)} states of {len(pairs)} pairs, and {len(verdicts)} packets")
        found |= {at: verdicts[of * len(pairs) : (of + 1) * len(pairs)] for of, at in enumerate(places)}
    return found


def compare(state, names, found):
    """Sets a state's verdicts beside those that packets came to. How many were lost and moved."""
    lost = moved = 0
    for name, was, now in zip(names, state.whole, found):
        said = state.changed.get(name, was)
        lost, moved = lost + (is_dropped(now) and not is_dropped(was)), moved + (not is_dropped(now) and now != was)
        if state.counted is None and said != now and not (name not in state.changed and state.parts and is_dropped(was) and is_dropped(now)):
            raise Differs(f"{state.words}: {name}: reach says {said}, a run comes to {now}")
    if state.counted not in (None, (lost, moved)):
        raise Differs(f"{state.words}: a run comes to lost {lost} moved {moved}")
    return lost, moved


def difference(inputs, report, run, seed=0):
    """The first difference between the report of reach and what the run of its failures comes to, None where there is none, and
    how many verdicts were compared. `run` answers the report of a run of a topology, a script and a capture."""
    try:
        topology = read_topology(inputs[0])
        commands, settings = read_failures(topology, (*inputs, b"")[1]), Report(topology)
    except Refused:
        return None, 0
    told, names = Told(report), settings.named()
    try:
        states = list(states_of(settings, commands, names, told))
        found = found_by(run, inputs, topology, settings.pairs, states, random.Random(seed))
        sums = [compare(state, names, found[at]) for at, state in enumerate(states)]
        lost, moved = (sum(one[at] for one in sums) for at in range(2))
        failures = sum(state.words != "no failure" for state in states)
        due = f"total pairs {len(names)} failures {failures} verdicts {len(names) * failures} lost {lost} part 0 moved {moved}"
        if told.lines != [due]:
            raise Differs(f"the total due is {due}, and there is {told.lines}")
    except Differs as differs:
        return str(differs), 0
    return None, len(states) * len(names)
