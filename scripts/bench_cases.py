"""The cases of scripts/bench: each makes the topology, script and capture of a run. The inputs are the same every time."""

import random
import re
import struct
import subprocess
import sys
import tempfile
from dataclasses import dataclass
from pathlib import Path
from typing import Callable, Iterator

ROOT = Path(__file__).resolve().parents[1]
sys.path.insert(0, str(ROOT / "examples"))
import packets  # noqa: E402

TARGET = "65000:100"
MOST_PREFIXES = 65_536


@dataclass(frozen=True)
class Inputs:
    """The texts of a run's topology and script, the latter in pieces, and the packets of its capture."""

    topology: str
    script: Iterator[str]
    packets: tuple[bytes, ...] = ()

    def write(self, folder):
        (folder / "topology.toml").write_text(self.topology)
        with open(folder / "script.txt", "w") as script:
            script.writelines(self.script)
        records = (struct.pack("<4I", 0, 0, len(packet), len(packet)) + packet for packet in self.packets)
        (folder / "capture.pcap").write_bytes(packets.HEADER + b"".join(records))


@dataclass(frozen=True)
class Case:
    """What is run: `generate` of a number, or a command on inputs that are made. Cases of a family differ in size alone."""

    name: str
    says: str
    make: Callable[[], Inputs] | None = None
    number: int | None = None
    size: int | None = None
    command: str = "run"

    @property
    def family(self):
        return self.name.rsplit("-", 1)[0] if self.size is not None else None


# Topologies.


def table(kind, **keys):
    lines = [f"[[{kind}]]"]
    for key, value in keys.items():
        if isinstance(value, list):
            lines.append(f"{key} = [" + ",".join(f'"{one}"' for one in value) + "]")
        else:
            lines.append(f'{key} = "{value}"' if isinstance(value, str) else f"{key} = {value}")
    return "\n".join(lines) + "\n"


def node(at):
    return table("node", name=f"n{at}", loopback=f"192.0.{2 + at // 250}.{1 + at % 250}")


def link(a, b, **keys):
    return table("link", a=f"n{a}", b=f"n{b}", **keys)


def vrf(name, at, number, target=TARGET):
    return table("vrf", name=name, node=f"n{at}", rd=f"65000:{number}", **{"import": [target], "export": [target]})


def site(name, of, prefixes=()):
    return table("site", name=name, vrf=of, prefixes=list(prefixes))


def prefix(number):
    """One of 65,536 prefixes of 24 bits within 10.0.0.0/8, spread so that neighbours in number don't stand side by side."""
    spread = number * 40_503 % MOST_PREFIXES
    return f"10.{spread >> 8}.{spread & 255}.0/24"


def path_of(nodes, at_a=(), at_b=(), **keys):
    """Nodes in a row, an edge with a VRF and a site at each end."""
    parts = [node(at) for at in range(nodes)]
    parts += [link(at, at + 1, **keys) for at in range(nodes - 1)]
    parts += [vrf("red1", 0, 1), vrf("red2", nodes - 1, 2)]
    parts += [site("a", "red1", at_a or ["10.1.0.0/16"]), site("b", "red2", at_b or ["10.2.0.0/16"])]
    return "".join(parts)


def path_up(nodes):
    yield from (f"link up n{at} n{at + 1}\n" for at in range(nodes - 1))
    yield f"bgp up n0 n{nodes - 1}\ndrain\n"


def random_links(nodes, links):
    """A ring and chords, without a pair twice, in an order and of costs that are drawn with a fixed seed."""
    draw = random.Random(nodes * 10_000 + links)
    pairs = {(at, at + 1) for at in range(nodes - 1)} | {(0, nodes - 1)}
    while len(pairs) < links:
        a, b = int(draw.random() * nodes), int(draw.random() * nodes)
        if a != b:
            pairs.add((min(a, b), max(a, b)))
    drawn = sorted((draw.random(), a, b) for a, b in sorted(pairs))
    return [(a, b, 1 + int(draw.random() * 100)) for _, a, b in drawn]


def random_net(nodes):
    """Four links for each node, and an edge with a VRF at each fourth node."""
    links = random_links(nodes, 4 * nodes)
    parts = [node(at) for at in range(nodes)]
    parts += [link(a, b, cost=cost) for a, b, cost in links]
    parts += [vrf(f"v{at}", at, 1 + at) for at in range(0, nodes, 4)]
    return "".join(parts), links


def all_links(what, links):
    return (f"link {what} n{a} n{b}\n" for a, b, *_ in links)


UDP = packets.udp("10.1.0.1", "10.2.0.1")
LONG_LIVED = packets.udp("10.1.0.1", "10.2.0.1", ttl=255)
TO_NOBODY = packets.udp("10.1.0.1", "10.9.0.1")


def udp_of(size):
    """A packet of so many bytes from 10.1.0.1 to 10.2.0.1."""
    udp = size - 20
    fields = (0x45, 0, size, 0, 0, 64, 17, 0, packets.address("10.1.0.1"), packets.address("10.2.0.1"))
    header = struct.pack(">BBHHHBBH4s4s", *fields)
    header = header[:10] + struct.pack(">H", packets.checksum(header)) + header[12:]
    return header + struct.pack(">4H", 53, 53, udp, 0) + bytes(udp - 8)


# Runs.


def tiny():
    example = ROOT / "examples/two-links"
    return Inputs((example / "topology.toml").read_text(), iter([(example / "script.txt").read_text()]), (UDP,))


def refused(lines=3_000_000):
    return Inputs(path_of(2), ("link down n0 n1\n" for _ in range(lines)))


def come_up(nodes):
    topology, links = random_net(nodes)

    def script():
        yield from all_links("up", links)
        yield "drain\n"

    return Inputs(topology, script())


def down_and_up(nodes, count, times=1):
    """The first so many links of a settled network go down and come up, drained each time."""
    topology, links = random_net(nodes)

    def script():
        yield from all_links("up", links)
        yield "drain\n"
        for _ in range(times):
            for what in ("down", "up"):
                yield from all_links(what, links[:count])
                yield "drain\n"

    return Inputs(topology, script())


def flying(count, rounds=None):
    """So many frames at a time on one path of two links, flushed; 1,000,000 packets and 3,000,000 steps in all."""
    rounds = rounds or 1_000_000 // count

    def script():
        yield from path_up(3)
        for _ in range(rounds):
            yield from ("inject a 1\n" for _ in range(count))
            yield "flush\n"

    return Inputs(path_of(3), script(), (UDP,))


def ring(packets_sent=100_000):
    """Twelve nodes in a ring with six chords; the packets are all in flight at once."""
    chords = [(at, at + 6) for at in range(6)]
    links = [(at, (at + 1) % 12) for at in range(12)] + chords
    parts = [node(at) for at in range(12)] + [link(a, b) for a, b in links]
    parts += [vrf("red1", 0, 1), vrf("red2", 3, 2), site("a", "red1", ["10.1.0.0/16"]), site("b", "red2", ["10.2.0.0/16"])]

    def script():
        yield from all_links("up", links)
        yield "bgp up n0 n3\ndrain\n"
        yield from ("inject a 1\n" for _ in range(packets_sent))
        yield "flush\n"

    return Inputs("".join(parts), script(), (UDP,))


def long_packets(deliveries=8_000):
    """Packets of 65,535 bytes, 100 in flight at a time."""

    def script():
        yield from path_up(2)
        for at in range(deliveries):
            yield "inject a 1\n"
            if at % 100 == 99:
                yield "flush\n"

    return Inputs(path_of(2), script(), (udp_of(65_535),))


def far_delays(packets_sent=200_000):
    """A tick between two packets, over links of 1,000 ticks."""

    def script():
        yield from path_up(4)
        yield from ("inject a 1\nrun 1\n" for _ in range(packets_sent))
        yield "flush\n"

    return Inputs(path_of(4, delay=1000), script(), (UDP,))


def one_node(packet, packets_sent=1_000_000):
    """Packets that leave their edge by no link: to another site of the VRF, or without a route."""
    parts = [node(0), vrf("red1", 0, 1), site("a", "red1", ["10.1.0.0/16"]), site("b", "red1", ["10.2.0.0/16"])]
    return Inputs("".join(parts), ("inject a 1\n" for _ in range(packets_sent)), (packet,))


def loss(packets_sent=500_000):
    """Each third frame is lost."""

    def script():
        yield from path_up(3)
        for at in range(packets_sent):
            yield "inject a 1\n"
            if at % 1000 == 999:
                yield "flush\n"

    return Inputs(path_of(3, loss=3), script(), (UDP,))


def long_path(packets_sent=8_000):
    """Paths of 250 hops, and the bring-up of the nodes in a row."""

    def script():
        yield from path_up(251)
        yield from ("inject a 1\n" for _ in range(packets_sent))
        yield "flush\n"

    return Inputs(path_of(251), script(), (LONG_LIVED,))


def steps(rounds=95_000):
    """One of two links goes down and comes up, drained each time."""

    def script():
        yield from path_up(3)
        yield from ("link down n0 n1\ndrain\nlink up n0 n1\ndrain\n" for _ in range(rounds))

    return Inputs(path_of(3), script())


def ticks(count=300_000):
    """Time goes by in a network of 256 nodes and 1,024 links where nothing flies."""
    parts, _ = random_net(256)
    return Inputs(parts, ("tick 1\n" for _ in range(count)))


def labels(attachments=1_000_000):
    """A site goes down and comes up: each time it has a new label."""
    parts = [node(0), node(1), link(0, 1), vrf("red1", 0, 1), site("a", "red1", ["10.1.0.0/16"])]
    return Inputs("".join(parts), ("site down a\nsite up a\n" for _ in range(attachments)))


def mesh(routes):
    """Sixteen edges in a ring, with 32 VRFs each, of 32 VPNs; all edges talk to all."""
    each = routes // 512
    parts = [node(at) for at in range(16)]
    links = [(at, (at + 1) % 16) for at in range(16)]
    parts += [link(a, b) for a, b in links]
    parts += [vrf(f"v{k}", k // 32, 1 + k, f"65000:{k % 32}") for k in range(512)]
    parts += [site(f"s{k}", f"v{k}", [prefix(k * each + at) for at in range(each)]) for k in range(512)]

    def script():
        yield from all_links("up", links)
        yield "drain\n"
        yield from (f"bgp up n{a} n{b}\n" for b in range(16) for a in range(b))
        yield "drain\n"

    return Inputs("".join(parts), script())


def reflect(routes):
    """64 edges with a VRF each, all of one VPN, and two reflectors: each edge has a session with both."""
    each = routes // 64
    parts = [node(at) for at in range(66)]
    parts += [vrf(f"v{at}", at, 1 + at, TARGET) for at in range(64)]
    parts += [site(f"s{at}", f"v{at}", [prefix(at * each + k) for k in range(each)]) for at in range(64)]

    def script():
        yield "reflector n64\nreflector n65\nbgp up n64 n65\n"
        yield from (f"bgp up n{at} n{reflector}\n" for reflector in (64, 65) for at in range(64))
        yield "drain\nshow vrf v0\n"

    return Inputs("".join(parts), script())


def told(routes):
    """Routes are there before the session of two edges opens."""
    prefixes = [prefix(at) for at in range(routes)]

    def script():
        yield "link up n0 n1\ndrain\nbgp up n0 n1\ndrain\n"

    return Inputs(path_of(2, at_a=prefixes, at_b=["192.168.0.0/16"]), script())


def shown(routes):
    prefixes = [prefix(at) for at in range(routes)]
    return Inputs(path_of(2, at_a=prefixes, at_b=["192.168.0.0/16"]), iter(["show vrf red1\n"]))


def site_moves(routes=4_096, times=50):
    """A site of many prefixes goes down and comes up, heard by another edge."""
    prefixes = [prefix(at) for at in range(routes)]

    def script():
        yield from path_up(2)
        yield from ("site down a\ndrain\nsite up a\ndrain\n" for _ in range(times))

    return Inputs(path_of(2, at_a=prefixes, at_b=["192.168.0.0/16"]), script())


def statics(added):
    """So many static routes are added and taken back, at most 62,500 at a time."""
    at_once = min(added, 62_500)
    lines = [f"a {prefix(at)}\n" for at in range(at_once)]
    parts = [node(0), vrf("red1", 0, 1), site("a", "red1")]

    def script():
        for _ in range(added // at_once):
            yield from ("route add " + line for line in lines)
            yield from ("route del " + line for line in lines)

    return Inputs("".join(parts), script())


def carry_middle(frames, carried=2_000):
    """Frames are carried from the middle of a channel that holds many."""

    def script():
        yield from path_up(2)
        yield from ("inject a 1\n" for _ in range(frames))
        yield from (f"carry n0 n1 {frames // 2}\n" for _ in range(carried))

    return Inputs(path_of(2), script(), (UDP,))


def show_all(times=100):
    """Every table of a settled network of 32 nodes, many times."""
    topology, links = random_net(32)

    def script():
        yield from all_links("up", links)
        yield from (f"bgp up n{a} n{b}\n" for b in range(0, 32, 4) for a in range(0, b, 4))
        yield "drain\n"
        for _ in range(times):
            yield "show links\nshow ldp\nshow bgp\nshow flight\n"
            yield from (f"show tree n{at}\n" for at in range(32))
            yield from (f"show vrf v{at}\n" for at in range(0, 32, 4))

    return Inputs(topology, script())


EACH = "each link\neach node\neach ldp\neach bgp\n"


def provider(failures):
    """The provider of docs/WHATIF.md, as mplsnet-new makes it of its thirteen lines."""
    short = re.search(r"```text\n(nodes: .*?)```", (ROOT / "docs/WHATIF.md").read_text(), re.S)[1]
    with tempfile.TemporaryDirectory() as folder:
        source, topology = Path(folder) / "provider.txt", Path(folder) / "topology.toml"
        source.write_text(short)
        subprocess.run([sys.executable, "-B", ROOT / "tools/mplsnet-new", "--from", source, "--topology", topology], check=True, stdout=subprocess.DEVNULL)
        return Inputs(topology.read_text(), iter([failures]))


def reached(failures):
    """256 nodes with four links each; at each fourth an edge with four VRFs, and sixteen VPNs with sixteen sites each: 3,840 pairs."""
    parts = [node(at) for at in range(256)]
    parts += [link(a, b, cost=cost) for a, b, cost in random_links(256, 1_024)]
    parts += [vrf(f"v{k}", 4 * (k // 4), 1 + k, f"65000:{k % 16}") for k in range(256)]
    parts += [site(f"s{k}", f"v{k}", [prefix(k)]) for k in range(256)]
    return Inputs("".join(parts), iter([failures]))


def sized(name, says, make, sizes, **how):
    return [Case(f"{name}-{size}", says.format(f"{size:,}"), lambda size=size: make(size), size=size, **how) for size in sizes]


CASES = [
    Case("tiny", "the example two-links", tiny),
    Case("refused", "3,000,000 refused lines", refused),
    *sized("up", "{} nodes with four links each come up, drained", come_up, (64, 128, 256)),
    *sized("flood", "{} nodes with four links each: links come up, and each advert is heard", come_up, (64, 128, 256), command="flood"),
    Case("links", "64 of the 256 links of 64 nodes go down and come up, drained", lambda: down_and_up(64, 64)),
    Case("links-large", "64 of the 1,024 links of 256 nodes go down and come up, drained", lambda: down_and_up(256, 64)),
    *sized("mesh", "16 edges with 32 VRFs each, {} routes", mesh, (8_192, 49_152)),
    *sized("reflect", "64 edges and two reflectors, {} routes", reflect, (1_024, 8_000), command="reflect"),
    *sized("told", "{} routes are told as a session opens", told, (1_000, 8_000, 60_000)),
    *sized("shown", "'show vrf' of {} routes", shown, (1_000, 8_000, 60_000)),
    *sized("statics", "{} statics added and taken back", statics, (250_000, 1_000_000)),
    Case("site", "a site of 4,096 statics goes down and comes up 50 times", site_moves),
    Case("show", "every table of 32 nodes, 100 times", show_all),
    Case("labels", "1,000,000 attachments of one site", labels),
    Case("ticks", "300,000 ticks over 1,024 links, nothing in flight", ticks),
    Case("steps", "near 4,000,000 steps: a link goes down and comes up", steps),
    *sized("flying", "{} frames in flight at a time, 3,000,000 steps", flying, (1_000, 10_000, 100_000, 1_000_000)),
    Case("ring", "ring of 12 with 6 chords, 100,000 packets in flight", ring),
    Case("far", "200,000 packets a tick apart over links of 1,000 ticks", far_delays),
    Case("loss", "500,000 packets, each third frame lost", loss),
    Case("local", "1,000,000 deliveries at the edge itself", lambda: one_node(UDP)),
    Case("nowhere", "1,000,000 packets without a route", lambda: one_node(TO_NOBODY)),
    Case("long-packets", "8,000 deliveries of packets of 65,535 bytes", long_packets),
    Case("long-path", "8,000 packets over 250 hops", long_path),
    *sized("middle", "2,000 carries from the middle of {} frames", carry_middle, (10_000, 100_000)),
    Case("reach-provider", "38 nodes, all 332 single failures", lambda: provider(EACH), command="reach"),
    Case("reach-provider-doubles", "38 nodes, each two of 68 links", lambda: provider("each 2 links\n"), command="reach"),
    Case("reach-large", "256 nodes, 1,024 links, 3,840 pairs, all single failures", lambda: reached(EACH), command="reach"),
    Case("reach-large-doubles", "the same, each two links, counted", lambda: reached("counts\neach 2 links\n"), command="reach"),
    Case("generate-50", "'generate 50'", number=50, size=58),
    Case("generate-99", "'generate 99'", number=99, size=107),
]  # fmt: skip
