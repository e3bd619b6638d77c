"""Scripts over a topology of one's own: it comes up step by step, packets are sent, and a link is taken out and put back."""

import mplsnet.expect as expect
import mplsnet.whatif as whatif
from mplsnet.files import Fault, bytes_of
from mplsnet.knowledge import Net
from mplsnet.pcap import capture_of, udp_packet
from mplsnet.rules import TopologyRules
from mplsnet.toml import plain, read
from mplsnet.topology import KINDS


class Network:
    """A topology with the packets that are sent over it: from each site one to each prefix of others that its VRF imports."""

    def __init__(self, name, text):
        self.tables = plain(read(text.encode())[0])
        self.read = {kind: self.tables.get(kind, []) for kind in KINDS}
        self.resolve = self.tables.get("resolve") is True
        self.net = Net(name, self.read | {"resolve": self.resolve})
        self.probes = whatif.probes_of(self.net)

    def inject(self):
        return [f"inject {probe.site} {number}" for number, probe in enumerate(self.probes, 1)]

    def capture(self):
        return capture_of([udp_packet(probe.source, probe.address) for probe in self.probes])

    def links(self, verb):
        return [f"{verb} {whatif.link_words(self.net, link)}" for link in range(len(self.net.links))]

    def sessions(self):
        return [line for line in whatif.bring_up(self.net, self.resolve) if line.startswith("bgp up ")]

    def packets(self, first):
        """Which packets of the report a round of probes is."""
        count = len(self.probes)
        return f"packets {first} to {first + count - 1}" if count > 1 else f"packet {first}" if count else "no packet is sent"

    def brought_up(self):
        """Links, LDP and BGP, each settled before the next one begins; and a packet of each probe."""
        lines = ["# Links: LDP waits, and each node learns of each link.", *self.links("ldp off"), *self.links("link up"), "drain"]
        lines += ["", "# LDP: sessions over the links, and labels.", *self.links("ldp on"), "drain"]
        lines += ["", "# BGP: sessions between edges, and routes.", *self.sessions(), "drain"]
        probes = ["", f"# From each site a packet to each prefix that its VRF imports: {self.packets(1)}.", *self.inject(), "flush"]
        return lines + (probes if self.probes else [])

    def maintained(self, name):
        """The link goes out and comes back: packets go before, as soon as it went, once all is settled, and the same as it comes back."""
        failure, count, lines = self.link(name), len(self.probes), []
        for at, (what, changes) in enumerate([("goes out", failure.down), ("comes back", failure.up)]):
            sent = self.packets(1 + count * (2 * at + 1))
            lines += ["", f"# The link {failure.name} {what}. At once, while no node has learned of it: {sent}.", *changes, *self.inject(), "flush"]
            lines += ["", f"# Once all have learned of it: {self.packets(1 + count * (2 * at + 2))}.", "drain", *self.inject(), "flush"]
        return lines

    def link(self, name):
        """The failure of the link, by its name, as p1-p2."""
        reader = expect.Reader("--maintain", self.net, self.read, self.resolve)
        known = reader.named("link")
        if name not in known:
            raise Fault(f"--maintain: there is no link {name!r}{expect.meant_name(name, known)}")
        return known[name]

    def expected(self, topology, file):
        """A first file of expectations."""
        return expect.first_text(self.net, self.read, self.tables.get("resolve", True), topology, file)


def own(path):
    """The bytes of a topology of one's own, which is in order."""
    content = bytes_of(path)
    broken = TopologyRules(content).broken
    if broken:
        raise Fault("\n".join(one.words(path) for one in broken))
    return content
