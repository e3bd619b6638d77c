"""What the page of two joined networks shows: the steps of both in the order in which they were done, and each packet over all its legs."""

import re
import tempfile
from pathlib import Path

from mplsnet.files import Fault, read_report, read_run, read_topology
from mplsnet.play_told import MOST_STEPS
from mplsnet.second import read, reference, reference_inputs, reference_join
from mplsnet.steps import Steps


class Watched(reference.Network):
    """A network that notes, in a list for both, when it does a step."""

    def __init__(self, topology, which, order):
        super().__init__(topology)
        self.which, self.order = which, order

    def do(self, step, line=0, bytes_=b""):
        refusal = super().do(step, line, bytes_)
        if refusal is None:
            self.order.append(self.which)
            if len(self.order) > MOST_STEPS:
                raise Fault(f"the script has more than {MOST_STEPS} steps, which is what a page takes")
        return refusal


def played(topology_paths, joints_path, script_path, capture_path):
    """The pair of networks after the script, in which order they did their steps, and the report."""
    topologies = read(topology_paths[0], reference_inputs.read_topology), read(topology_paths[1], reference.read_second)
    joints = read(joints_path, reference_join.read_joints, *topologies)
    commands = read(script_path, reference_join.read_pair_script, topologies)
    packets = read(capture_path, reference_inputs.read_capture)
    order, notes = [], []
    pair = reference_join.Pair([Watched(topology, which, order) for which, topology in enumerate(topologies)], joints)
    reference_join.play(pair, commands, packets, reference.ARRIVALS, notes)
    return pair, joints, order, [*notes, *pair.lines()]


def steps_of(network, net, number):
    """The network's run as `mplsnet run` would leave it, and its steps."""
    with tempfile.TemporaryDirectory() as folder:
        for name, content in reference.files_of(network).items():
            (Path(folder) / name).write_bytes(content)
        report = Path(folder) / "report.txt"
        report.write_text("".join(f"{line}\n" for line in reference.packet_lines(network, 0)))
        run = read_run(folder)
        return run, Steps(run, net, read_report(report)[1], number)


class Merged:
    """The steps of both networks with the numbers of one drawing."""

    def __init__(self, pair, joints, parts):
        self.pair, self.parts = pair, parts  # of each network its run, its Steps
        self.crossing_at = {id(crossing): at for at, crossing in enumerate(pair.crossings)}
        first = parts[0][1]
        self.offsets = {"node": (0, len(first.nodes)), "link": (0, len(parts[0][0].links)), "site": (0, len(first.sites)), "session": (0, len(first.sessions))}
        self.partners = {which: {pair_[which]: pair_[1 - which] for pair_ in joints} for which in (0, 1)}
        self.flights, self.flight_at, self.packets, self.done, self.exits = [], {}, {}, [0, 0], 0

    def crossing(self, which, packet):
        return self.crossing_at[id(self.pair.owners[which][packet])]

    def next(self, which):
        """The next step of this network."""
        steps, at = self.parts[which][1], self.done[which]
        self.done[which] += 1
        step = steps.told(at)
        step.pop("gone", None)
        step.pop("way", None)
        kind = step["k"]
        for key, what in (("l", "link"), ("n", "node"), ("i", "site"), ("s", "session"), ("begins", "session"), ("ends", "session"), ("o", "node")):
            if key in step:
                step[key] += self.offsets[what][which]
        if kind == "hear":
            step["f"] += self.offsets["node"][which]
        step |= {"net": which, "w": f"{which + 1} {step['w']}", "x": f"Network {which + 1}: {step['x']}"}
        if "cut" in step:
            step["cut"] = [self.flight(which, flight) for flight in step["cut"]]
        if "p" in step:
            self.move(which, steps, step)
        return step

    def move(self, which, steps, step):
        """A packet's step."""
        packet, step["p"] = step["p"], self.crossing(which, step["p"])
        crossing = self.pair.crossings[step["p"]]
        if step["k"] == "inject":
            leg = crossing.legs.index((which, packet))
            if leg:
                step["leg"] = leg
            else:
                told = steps.packets[packet]
                self.packets[step["p"]] = told | {"n": step["p"] + 1, "site": f"{which + 1} {told['site']}", "s": step["i"]}
        for key in ("f", "send"):
            if key in step:
                step[key] = self.flight(which, step[key])
        self.packets[step["p"]]["ip"] = self.packets[step["p"]]["ip"] or steps.packets[packet]["ip"]
        if step.get("to") is not None:
            over = self.partners[which].get(step["to"])
            self.exits += over is None
            step["to"] += self.offsets["site"][which]
            step["x"] = re.sub(r", as delivery \d+\.\Z", "." if over is not None else f", as record {self.exits} of delivered.pcap.", step["x"])
            if over is not None:
                site = self.pair.networks[1 - which].topology.sites[over].name
                step |= {"over": True, "x": f"{step['x']} It is joined to site {site} of network {2 - which}."}
                if crossing.refused and crossing.legs[-1] == (which, packet):
                    step |= {"refused": crossing.refused, "x": f"{step['x']} There it is refused: {crossing.refused}."}

    def flight(self, which, number):
        """The drawing's number of a flight."""
        if (which, number) not in self.flight_at:
            told = self.parts[which][1].flights[number]
            offset = self.offsets["node"][which]
            self.flight_at[which, number] = len(self.flights)
            ends = {end: told[end] + offset for end in ("a", "b")}
            self.flights.append(told | ends | {"p": self.crossing(which, told["p"]), "l": told["l"] + self.offsets["link"][which]})
        return self.flight_at[which, number]


def join_page(topology_paths, joints_path, script_path, capture_path):
    """The page's data but for what is drawn, and of both networks the topologies' tables and the runs; and the joints."""
    try:
        pair, joints, order, report = played(topology_paths, joints_path, script_path, capture_path)
    except reference.JournalFull:
        raise Fault(f"{script_path}: has more steps than a journal takes") from None
    nets = [read_topology(path) for path in topology_paths]
    numbers = [lambda packet, which=which: merged.crossing(which, packet - 1) + 1 for which in (0, 1)]
    parts = [steps_of(network, net, number) for network, net, number in zip(pair.networks, nets, numbers)]
    merged = Merged(pair, joints, parts)
    steps = [merged.next(which) for which in order]
    sessions = [[kind, a + offset, b + offset] for (_, told), offset in zip(parts, merged.offsets["node"]) for kind, a, b in told.sessions]
    packets = [merged.packets[at] for at in range(len(pair.crossings))]
    data = {"steps": steps, "flights": merged.flights, "packets": packets, "sessions": sessions, "report": report}
    return data, nets, [run for run, _ in parts], joints
