"""A provider's network and a run over it, as 'mplsnet run' would leave them.

They are made here, so that the tools are tried on large networks where no program is built. The run keeps to what the
tools look at: forms, sessions, labels, and the order of what is heard and carried. It isn't worked out by the rules of
routing: every node hears every mapping, and packets go by least hops over the links that are up.
"""

import struct
from collections import deque

PPP, RAW = 9, 228


def words_sum(data):
    total = sum(struct.unpack(f">{len(data) // 2}H", data))
    while total >> 16:
        total = (total & 0xFFFF) + (total >> 16)
    return total


def packet(source, destination, ttl, payload=b"\0\x35\0\x35\0\x08\0\0"):
    """An IPv4 packet of UDP."""
    header = struct.pack(">BBHHHBBH4s4s", 0x45, 0, 20 + len(payload), 0, 0x4000, ttl, 17, 0, source, destination)
    return header[:10] + struct.pack(">H", 0xFFFF - words_sum(header)) + header[12:] + payload


class Provider:
    """Cores in two rings with a link from each to its like, and edges with two cores each; every second edge has two sites."""

    def __init__(self, cores=8, edges=30, vpns=10):
        half = cores // 2
        self.nodes = [f"p{n:02}" for n in range(1, cores + 1)] + [f"pe{n:02}" for n in range(1, edges + 1)]
        self.links = []
        for start in (0, half):
            self.links += [(start + n, start + (n + 1) % half) for n in range(half if half > 2 else half - 1)]
        self.links += [(n, half + n) for n in range(half)]
        for n in range(edges):
            self.links += [(cores + n, n % half), (cores + n, half + (n + n // half) % half)]
        self.edges = list(range(cores, cores + edges))
        self.sites = []  # name, edge, VPN, second byte of its prefix
        for n in range(edges + (edges - 3 if edges > 3 else 0)):
            edge = self.edges[n % edges]
            self.sites.append((f"c{n % vpns + 1}s{n // vpns + 1}", edge, n % vpns, n + 1))
        self.beside = [[] for _ in self.nodes]
        for a, b in self.links:
            self.beside[a].append(b)
            self.beside[b].append(a)

    def loopback(self, node):
        return bytes((10, 255, 0, node + 1))

    def topology(self):
        """The topology's text."""
        out = ["as = 65000"]
        for node, name in enumerate(self.nodes):
            out += ["[[node]]", f'name = "{name}"', f'loopback = "{".".join(map(str, self.loopback(node)))}"']
        for a, b in self.links:
            out += ["[[link]]", f'a = "{self.nodes[a]}"', f'b = "{self.nodes[b]}"']
            out += ["cost = 50", "delay = 3"] if b == 0 else []
        for n, (name, edge, vpn, _) in enumerate(self.sites):
            out += ["[[vrf]]", f'name = "vpn{vpn + 1}-{name}"', f'node = "{self.nodes[edge]}"', f'rd = "65000:{n + 1}"']
            out += [f'import = ["65000:{100 + vpn}"]', f'export = ["65000:{100 + vpn}"]']
        for name, _, vpn, second in self.sites:
            out += ["[[site]]", f'name = "{name}"', f'vrf = "vpn{vpn + 1}-{name}"', f'prefixes = ["10.{second}.0.0/16"]']
        return "\n".join(out) + "\n"


class Run:
    """The run's steps and files, as they are made."""

    def __init__(self, net):
        self.net, self.tick = net, 0
        self.journal, self.report, self.delivered = [], [], []
        self.ldp = {end: [] for link in net.links for end in (link, link[::-1])}
        self.bgp = {(a, b): [] for a in net.edges for b in net.edges if a != b}
        self.ids = dict.fromkeys(self.ldp, 0)
        self.frames = {link: [] for link in net.links}
        self.up, self.flying = set(), []
        self.hops = {}
        self.sites_at = {node: [n for n, site in enumerate(net.sites) if site[1] == node] for node in range(len(net.nodes))}

    # The network comes up.

    def step(self, *words):
        self.journal.append(f"{self.tick} {' '.join(words)}")

    def learn(self, link):
        for name in self.net.nodes:
            self.step("learn", name, *(self.net.nodes[end] for end in link))

    def link(self, what, link):
        self.step("link", what, *(self.net.nodes[end] for end in link))
        (self.up.add if what == "up" else self.up.discard)(link)
        self.hops = {}
        self.ids[link] = self.ids[link[::-1]] = 0
        if what == "down":
            for way, (number, words, sender, receiver) in enumerate(self.flying):
                if {sender, receiver} == set(link):
                    self.flying[way] = None
                    self.report[number - 1] = f"{words} dropped LinkCut at {self.net.nodes[sender]} path {self.net.nodes[sender]}"
            self.flying = [one for one in self.flying if one]
        self.learn(link)

    def say(self, speaker, hearer, kind, body=b""):
        """A PDU, which is heard at once."""
        self.ids[speaker, hearer] += 1
        message = struct.pack(">HHI", kind, 4 + len(body), self.ids[speaker, hearer]) + body
        self.ldp[speaker, hearer].append(struct.pack(">HH4sH", 1, 6 + len(message), self.net.loopback(speaker), 0) + message)
        self.step("hear", "ldp", self.net.nodes[speaker], self.net.nodes[hearer])

    def session(self, link):
        """The session of a link that came up: the end of greater address opens it; each end maps all FECs."""
        opener, other = sorted(link, reverse=True)
        for speaker, hearer in ((opener, other), (other, opener)):
            self.say(speaker, hearer, 0x0200, struct.pack(">HHHHBBH4sH", 0x0500, 14, 1, 180, 0, 0, 4096, self.net.loopback(hearer), 0))
        for speaker, hearer in ((other, opener), (opener, other)):
            self.say(speaker, hearer, 0x0201)
        for speaker, hearer in ((other, opener), (opener, other)):
            self.say(speaker, hearer, 0x0300, struct.pack(">HHH4s", 0x0101, 6, 1, self.net.loopback(speaker)))
            for fec in range(len(self.net.nodes)):
                self.say(speaker, hearer, 0x0400, struct.pack(">HHBHB4sHHI", 0x0100, 8, 2, 1, 32, self.net.loopback(fec), 0x0200, 4, self.label(speaker, fec)))

    def tell(self, teller, hearer, kind, body):
        self.bgp[teller, hearer].append(b"\xff" * 16 + struct.pack(">HB", 19 + len(body), kind) + body)
        self.step("hear", "bgp", self.net.nodes[teller], self.net.nodes[hearer])

    def peers(self, a, b):
        """A session of two edges, which announce their sites."""
        self.step("bgp", "up", *(self.net.nodes[end] for end in (a, b)))
        for teller, hearer in ((a, b), (b, a)):
            self.tell(teller, hearer, 1, struct.pack(">BHH4sB", 4, 65000, 0, self.net.loopback(teller), 8) + b"\2\6\1\4\0\1\0\x80")
        for teller, hearer in ((a, b), (b, a)):
            self.tell(teller, hearer, 4, b"")
        for teller, hearer in ((a, b), (b, a)):
            for n, (name, edge, vpn, second) in enumerate(self.net.sites):
                if edge == teller:
                    route = b"\x68" + (self.site_label(n) << 4 | 1).to_bytes(3, "big") + struct.pack(">HHI", 0, 65000, n + 1) + bytes((10, second))
                    reach = b"\0\1\x80\x0c" + bytes(8) + self.net.loopback(teller) + b"\0" + route
                    rest = b"\x40\1\1\0\x40\2\0\x40\5\4\0\0\0\x64" + struct.pack(">BBB", 0x80, 14, len(reach)) + reach
                    rest += b"\xc0\x10\x08" + struct.pack(">HHI", 2, 65000, 100 + vpn)
                    self.tell(teller, hearer, 2, struct.pack(">HH", 0, len(rest)) + rest)

    def comes_up(self, with_bgp=True):
        for link in self.net.links:
            self.link("up", link)
        for link in self.net.links:
            self.session(link)
        for at, a in enumerate(self.net.edges if with_bgp else []):
            for b in self.net.edges[at + 1 :]:
                self.peers(a, b)

    # Labels and packets.

    def label(self, node, fec):
        """Behind those of the sites, by number: the tools ask for no order."""
        return 3 if node == fec else 16 + len(self.sites_at[node]) + fec - (fec > node)

    def site_label(self, site):
        return 16 + self.sites_at[self.net.sites[site][1]].index(site)

    def next_hop(self, node, to):
        """By least hops over links that are up; none where there is no way."""
        if to not in self.hops:
            far, queue = {to: None}, deque([to])
            while queue:
                at = queue.popleft()
                for other in self.net.beside[at]:
                    if other not in far and ((at, other) in self.up or (other, at) in self.up):
                        far[other] = at
                        queue.append(other)
            self.hops[to] = far
        return self.hops[to].get(node)

    def send(self, source, destination, ttl=64, fly=False):
        """A packet from a site to a site's network: delivered, without a route, cut of its label path, or left flying."""
        (name, edge, vpn, second), target = self.net.sites[source], self.net.sites[destination]
        number = len(self.report) + 1
        words = f"packet {number} line {number} site {name} record 1"
        self.step("inject", name, "1")
        path, hop = [edge], self.next_hop(edge, target[1])
        told = lambda end: f"{words} {end} path {' '.join(self.net.nodes[node] for node in path)}"
        if target[2] != vpn or hop is None:
            self.report.append(told(f"dropped {'NoRoute' if target[2] != vpn else 'NoLsp'} at {self.net.nodes[edge]}"))
            return
        ends = bytes((10, second, 0, 1)), bytes((10, target[3], 0, 1))
        left = ttl - 1
        while hop is not None:
            sender, top = path[-1], self.label(hop, target[1])
            link = (sender, hop) if (sender, hop) in self.frames else (hop, sender)
            bottom = self.site_label(destination) << 12 | 0x100 | (left if top == 3 else ttl - 1)
            frame = (struct.pack(">I", top << 12 | left) if top != 3 else b"") + struct.pack(">I", bottom) + packet(*ends, ttl - 1)
            self.frames[link].append((self.tick, b"\2\x81" + frame))
            if fly:
                self.flying.append((number, words, sender, hop))
                self.report.append(told(f"flying {self.net.nodes[sender]} {self.net.nodes[hop]}"))
                return
            self.tick += 1
            self.step("carry", self.net.nodes[sender], self.net.nodes[hop], "0")
            path.append(hop)
            left -= 1
            hop = self.next_hop(hop, target[1])
        self.delivered.append((self.tick, packet(*ends, left)))
        self.report.append(told(f"delivered {target[0]} ttl {left} copy {len(self.delivered)}"))

    def probes(self, most=None):
        """A packet from each site to each other of its VPN, and one that finds no route."""
        pairs = [(a, b) for a, one in enumerate(self.net.sites) for b, other in enumerate(self.net.sites) if a != b and one[2] == other[2] and one[1] != other[1]]
        for a, b in pairs[:most]:
            self.send(a, b)
        self.send(0, 1)

    def failure(self, link):
        """The link goes down, packets are sent, and it comes up."""
        self.link("down", link)
        self.probes()
        self.link("up", link)
        self.session(link)

    # Files.

    def write(self, folder):
        folder.mkdir(parents=True, exist_ok=True)
        net, names = self.net, self.net.nodes
        (folder / "journal.txt").write_text("".join(f"{line}\n" for line in self.journal))
        labels = []
        for node, name in enumerate(names):
            others = [other for other in range(len(names)) if other != node]
            labels += [f"{name} {self.site_label(n)} site {net.sites[n][0]} 1" for n in self.sites_at[node]]
            labels += [f"{name} {self.label(node, other)} fec {'.'.join(map(str, net.loopback(other)))}/32" for other in others]
        (folder / "labels.txt").write_text("".join(f"{line}\n" for line in labels))
        for (a, b), said in [*self.ldp.items()]:
            (folder / f"{names[a]}+{names[b]}.ldp").write_bytes(b"".join(said))
        for (a, b), told in self.bgp.items():
            (folder / f"{names[a]}+{names[b]}.bgp").write_bytes(b"".join(told))
        for (a, b), frames in self.frames.items():
            self.write_capture(folder / f"{names[a]}+{names[b]}.pcap", PPP, frames)
        self.write_capture(folder / "delivered.pcap", RAW, self.delivered)
        count = {end: sum(f" {end} " in line for line in self.report) for end in ("delivered", "dropped", "flying")}
        total = f"total packets {len(self.report)} {' '.join(f'{end} {number}' for end, number in count.items())}"
        total += f" steps {len(self.journal)} refused 0 tick {self.tick}"
        (folder / "report.txt").write_text("".join(f"{line}\n" for line in self.report + [total]))

    def write_capture(self, path, link_type, records):
        parts = [struct.pack("<IHHiIII", 0xA1B2C3D4, 2, 4, 0, 0, 0x40000, link_type)]
        for tick, record in records:
            parts.append(struct.pack("<4I", tick // 1000, tick % 1000 * 1000, len(record), len(record)) + record)
        path.write_bytes(b"".join(parts))


def made(folder, cores=8, edges=30, failures=0, with_bgp=True, most=None):
    """Writes topology.toml, and the run into its folder 'run'."""
    net = Provider(cores, edges)
    folder.mkdir(parents=True, exist_ok=True)
    (folder / "topology.toml").write_text(net.topology())
    run = Run(net)
    run.comes_up(with_bgp)
    run.probes(most)
    for n in range(failures):
        run.failure(net.links[n % len(net.links)])
    same = [(a, b) for a, one in enumerate(net.sites) for b, other in enumerate(net.sites) if one[2] == other[2] and one[1] != other[1]]
    for pair in same[:3]:
        run.send(*pair, fly=True)
    run.write(folder / "run")
    return len(run.journal)
