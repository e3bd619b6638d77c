"""FRR's configuration (https://docs.frrouting.org) as a network: routers, links, VRFs with their targets, prefixes. What isn't taken is told."""

import ipaddress
import re
from pathlib import Path

from mplsnet.design import Design, Numbers
from mplsnet.files import Fault, bytes_of
from mplsnet.left import LABELS, NUMBERS, PARTS, REACH, UNKNOWN, UNREAD, WAYS

SILENT = {"!", "exit", "end", "exit-vrf", "exit-address-family", "exit-vnc", "frr", "log", "service", "description"}
DECORATION = {
    "top": ("ip forwarding", "ipv6", "no ipv6", "line", "password", "enable", "debug", "ip prefix-list", "ip community-list", "access-list", "bgp", "route-map", "ip nht", "zebra", "agentx", "router-id", "router ospf6"),
    "interface": ("ip ospf", "isis", "ip router", "ipv6", "mpls", "ip igmp", "ip pim", "no ip", "no ipv6", "no mpls", "evpn", "link-params", "mtu", "bfd", "no isis"),
    "ospf": ("ospf", "area", "log-adjacency-changes", "timers", "capability", "redistribute", "default-information", "distance", "refresh", "neighbor", "bfd", "no", "compatible", "write-multiplier"),
    "isis": ("net", "is-type", "metric-style", "lsp-gen-interval", "spf-interval", "area-password", "domain-password", "hostname", "log-adjacency-changes", "topology", "redistribute", "no", "set-overload-bit", "lsp-mtu", "dynamic-hostname"),
    "ldp": ("router-id", "discovery", "neighbor", "session", "dual-stack", "ttl-security", "no", "wait-for-sync"),
    "bgp": ("bgp", "neighbor", "no", "timers", "distance", "coalesce-time", "read-quanta", "write-quanta", "update-delay", "network", "redistribute", "segment-routing", "bmp", "listen"),
}  # fmt: skip
SYNC = "LDP-IGP synchronization, by which routers go round a link whose LDP session isn't up: here they go on over it"
ONE_PATH = "'maximum-paths': of paths of one cost a packet has one here, by the neighbour of least number"
SPEED, REFERENCE = 10_000, 100  # Mbit/s: that which FRR takes where it knows none, and the reference of a cost of 1


class Router:
    """What a router's configuration says of what is modelled; the rest is told."""

    def __init__(self, path, name, numbers):
        self.path, self.name, self.numbers, self.number = path, name, numbers, 0
        self.asn, self.router_id, self.interfaces, self.vrfs = None, None, {}, {}
        self.ldp, self.reflects, self.igp, self.networks, self.reference, self.passive = None, False, None, [], REFERENCE, set()
        self.block, self.inner, self.said = None, None, []

    def tell(self, group, text, whole=""):
        self.said.append((group, text, self.number, whole))

    def place(self):
        return f"{self.path}: line {self.number}"

    def vrf(self, name):
        empty = {"rd": None, "import": [], "export": [], "networks": [], "static": [], "connected": False, "redistributes static": False, "flags": set()}
        return self.vrfs.setdefault(name, empty)

    def read(self, text):
        for self.number, line in enumerate(text.split("\n"), 1):
            words = line.split()
            if not words or words[0][0] in "!#" or words[0] in SILENT:
                self.inner = None if words and words[0] == "exit-address-family" else self.inner
            elif not line[0].isspace():
                self.block, self.inner = None, None
                self.begin(words)
            elif not self.take(words):
                self.unread(self.block[0] if self.block else "top", words)

    def unread(self, kind, words):
        """A line that isn't taken: it is one of those that change nothing, or it isn't known."""
        if kind == "none":
            return
        text = " ".join(words)
        known = any(text == one or text.startswith(f"{one} ") for one in DECORATION.get(kind, ()))
        count = 2 if len(words) > 1 and re.fullmatch("[a-z-]+|ipv[46]", words[1]) else 1
        self.tell(UNREAD if known else UNKNOWN, f"'{' '.join(words[:count])}{' ..' if len(words) > count else ''}'", f"'{text}'")

    # Blocks.

    def begin(self, words):
        pair = " ".join(words[:2])
        if words[0] == "hostname" and len(words) == 2:
            self.name = words[1]
        elif words[0] == "interface" and len(words) > 1:
            self.block = ("interface", words[1])
            empty = {"vrf": None, "addresses": [], "cost": None, "bandwidth": None, "shutdown": False, "igp": False, "passive": False, "no ldp": False}
            self.interfaces.setdefault(words[1], empty)
            if words[2:3] == ["vrf"] and len(words) > 3:
                self.interfaces[words[1]]["vrf"] = words[3]
        elif pair == "router bgp" and len(words) > 2:
            self.block = ("bgp", words[4] if words[3:4] == ["vrf"] and len(words) > 4 else None)
            self.asn = self.numbers.asn(words[2]) or self.asn
            if self.block[1]:
                self.vrf(self.block[1])
        elif words[0] == "vrf" and len(words) > 1:
            self.block = ("vrf", words[1])
        elif pair == "mpls ldp":
            self.block, self.ldp = ("ldp", None), self.ldp or set()
        elif words[:3] == ["no", "mpls", "ldp"]:
            self.ldp = None
        elif pair in ("router ospf", "router isis"):
            self.block = (words[1], None) if "vrf" not in words else ("none", None)
            self.igp = self.igp or (words[1] if "vrf" not in words else None)
        elif pair == "ip route":
            self.static(words, words[words.index("vrf") + 1] if "vrf" in words[:-1] else None)
        else:
            self.block = ("none", None) if words[0] == "route-map" else None
            self.unread("top", words)

    def take(self, words):
        """A line within a block; whether it is taken."""
        kind, name = self.block or (None, None)
        if kind == "interface":
            return self.interface_line(self.interfaces[name], words)
        if kind == "vrf" and words[:2] == ["ip", "route"] and len(words) > 2:
            self.static(words, name)
            return True
        lines = {"ldp": self.ldp_line, "ospf": self.igp_line, "isis": self.igp_line, "bgp": self.core_line if name is None else self.vrf_line}
        return kind in lines and lines[kind](words)

    def static(self, words, vrf):
        if len(words) < 3:
            self.unread("top", words)
        elif vrf is None:
            self.tell(WAYS, f"static route {words[2]} outside VRFs: left out")
        else:
            self.vrf(vrf)["static"].append(self.network(words[2]))

    def interface_line(self, interface, words):
        pair = " ".join(words[:2])
        if pair == "ip address" and len(words) > 2:
            interface["addresses"].append(self.interface_address(words[2]))
        elif (words[:3] == ["ip", "ospf", "cost"] or pair == "isis metric") and words[-1].isdecimal() and len(words) > 2:
            interface["cost"] = int(words[-1])
        elif words[0] == "bandwidth" and len(words) == 2 and words[1].isdecimal() and int(words[1]):
            interface["bandwidth"] = int(words[1])
        elif words[0] == "vrf" and len(words) == 2:
            interface["vrf"] = words[1]
        elif words == ["shutdown"] or words == ["no", "shutdown"]:
            interface["shutdown"] = words == ["shutdown"]
        elif words[:3] == ["no", "mpls", "ldp"]:
            interface["no ldp"] = True
        elif words[:3] in (["ip", "ospf", "area"], ["ip", "router", "isis"]):
            interface["igp"] = True
        elif pair in ("isis passive",) or words[:3] == ["ip", "ospf", "passive"]:
            interface["passive"] = True
        elif "ldp-sync" in words:
            self.tell(WAYS, SYNC)
        else:
            return False
        return True

    def igp_line(self, words):
        if words[:2] == ["auto-cost", "reference-bandwidth"] and words[-1].isdecimal() and int(words[-1]):
            self.reference = int(words[-1])
        elif words[0] == "network" and len(words) > 1:
            self.networks.append(ipaddress.ip_network(self.network(words[1])))
        elif words[0] == "passive-interface" and len(words) > 1:
            self.passive.add(words[1])
        elif words[0] == "maximum-paths":
            self.tell(WAYS, ONE_PATH)
        elif words[0] == "max-metric":
            self.tell(WAYS, "'max-metric', by which others go round this router: here they don't")
        elif "ldp-sync" in words:
            self.tell(WAYS, SYNC)
        else:
            return False
        return True

    def ldp_line(self, words):
        if words[0] == "address-family":
            self.inner = words[1] if len(words) > 1 else None
        elif self.inner == "ipv6":
            self.tell(UNREAD, "LDP's address-family ipv6")
        elif words[0] == "interface" and len(words) > 1:
            self.ldp.add(words[1])
        elif words[0] == "ordered-control":
            self.tell(LABELS, "'ordered-control': so it is here at every node")
        elif words[0] == "label":
            is_same = words[1:4] == ["local", "allocate", "host-routes"]
            other = "here each node gives a label to each loopback, and the last router but one pops"
            self.tell(LABELS, f"'{' '.join(words)}': {'the labels are those of loopbacks alone, as here' if is_same else other}")
        else:
            return False
        return True

    # BGP.

    def family(self, words):
        name = words[1] if len(words) > 1 else ""
        self.inner = "ipv6" if name.startswith("ipv6") else "vpn" if "vpn" in words or name == "vpnv4" else name
        return True

    def core_line(self, words):
        if words[0] == "address-family":
            return self.family(words)
        if self.inner == "ipv6":
            self.tell(UNREAD, "BGP's address-family ipv6")
        elif words[-1] == "route-reflector-client":
            self.reflects = True
        elif words[0] == "neighbor" and self.inner == "vpn" and words[2:3] and words[2] in ("route-map", "prefix-list", "filter-list", "distribute-list"):
            self.tell(REACH, f"'{' '.join(words)}': VPN routes are passed on unchanged here")
        elif words[0] == "neighbor" and words[-1] == "shutdown":
            self.tell(PARTS, f"the BGP session with {words[1]} is shut down: the script has it up ('bgp down ..' ends it)")
        elif words[0] == "maximum-paths":
            self.tell(WAYS, ONE_PATH)
        else:
            return False
        return True

    def vrf_line(self, words):
        if words[0] == "address-family":
            return self.family(words)
        name, vrf, pair = self.block[1], self.vrf(self.block[1]), " ".join(words[:2])
        if self.inner == "ipv6":
            self.tell(UNREAD, "a VRF's address-family ipv6, with its targets")
        elif words[:3] == ["rd", "vpn", "export"] and len(words) > 3:
            vrf["rd"] = words[3]
        elif pair == "rt vpn" and words[2:3] and words[2] in ("import", "export", "both"):
            for key in ("import", "export") if words[2] == "both" else (words[2],):
                vrf[key] += [one for one in words[3:] if one not in vrf[key]]
        elif pair in ("import vpn", "export vpn"):
            vrf["flags"].add(words[0])
        else:
            return self.vrf_routes(words, name, vrf)
        return True

    def vrf_routes(self, words, name, vrf):
        """What the VRF announces, and what changes that."""
        if words[0] == "network" and len(words) > 1:
            vrf["networks"].append(self.network(words[1]))
        elif words[0] == "redistribute" and len(words) > 1 and words[1] in ("connected", "static"):
            vrf["connected" if words[1] == "connected" else "redistributes static"] = True
        elif words[0] == "redistribute" and len(words) > 1:
            self.tell(REACH, f"VRF {name}: 'redistribute {words[1]}': the prefixes that come by it aren't known here")
        elif words[0] == "aggregate-address" and len(words) > 1:
            self.tell(REACH, f"VRF {name}: '{' '.join(words)}': the prefixes are announced as they are")
        elif words[0] == "neighbor" and words[2:3] == ["remote-as"] and len(words) > 3:
            self.tell(REACH, f"VRF {name}: eBGP with the CE {words[1]} of AS {words[3]}: the prefixes that it announces aren't known here")
        elif words[:2] == ["import", "vrf"] and len(words) > 2:
            self.tell(REACH, f"VRF {name}: '{' '.join(words)}': no route is leaked so here; targets do the same")
        elif words[:2] == ["label", "vpn"]:
            if words[-1] != "auto":
                self.tell(LABELS, f"VRF {name}: '{' '.join(words)}': labels are given in order here")
            return True
        elif words[0] == "maximum-paths":
            self.tell(WAYS, ONE_PATH)
        elif "route-map" not in words and "prefix-list" not in words:
            return False
        if "route-map" in words or "prefix-list" in words:
            self.tell(REACH, f"VRF {name}: '{' '.join(words)}': all routes are taken, and unchanged")
        return True

    def network(self, word):
        try:
            return str(ipaddress.IPv4Network(word, strict=False))
        except ValueError:
            raise Fault(f"{self.place()}: {word!r} isn't a prefix of IPv4")

    def interface_address(self, word):
        try:
            return ipaddress.IPv4Interface(word)
        except ValueError:
            raise Fault(f"{self.place()}: {word!r} isn't an address of IPv4 with a length")

    # What is asked of it.

    def loopback(self):
        """The first address of a loopback interface that others can know."""
        names = sorted((name for name in self.interfaces if re.fullmatch(r"lo\d*|dummy\d+|loopback\d*", name, re.I)), key=lambda name: name != "lo")
        found = [address.ip for name in names if self.interfaces[name]["vrf"] is None for address in self.interfaces[name]["addresses"]]
        return next((str(address) for address in found if not address.is_loopback), None)

    def core(self):
        """The interfaces outside VRFs and loopbacks with an address: name, interface, address."""
        for name, interface in self.interfaces.items():
            if interface["vrf"] is None and not re.fullmatch(r"lo\d*|dummy\d+|loopback\d*", name, re.I):
                for address in interface["addresses"]:
                    yield name, interface, address

    def has_cost(self, name):
        return self.interfaces[name]["cost"] is not None or self.interfaces[name]["bandwidth"] is not None

    def cost(self, name):
        """The cost that FRR gives the interface: that which is set, or by the bandwidth; IS-IS has 10."""
        interface = self.interfaces[name]
        if interface["cost"] is not None:
            return min(65_535, max(1, interface["cost"]))
        if self.igp == "isis":
            return 10
        return min(65_535, max(1, int(self.reference / (interface["bandwidth"] or SPEED) + 0.5)))

    def is_in_igp(self, name, interface, address):
        return interface["igp"] or any(address.ip in network for network in self.networks)

    def has_ldp(self, name):
        return self.ldp is not None and name in self.ldp and not self.interfaces[name]["no ldp"]


# Files.


def configuration_files(path):
    """The files of routers: the file itself, or of a folder each *.conf, and frr.conf in each folder of it."""
    path = Path(path)
    if path.is_file():
        return [(path, path.stem)]
    if not path.is_dir():
        raise Fault(f"{path}: No such file or directory")
    found = [(file, file.stem) for file in sorted(path.glob("*.conf"))]
    found += [(file, file.parent.name) for file in sorted(path.glob("*/frr.conf"))]
    if not found:
        raise Fault(f"{path}: has neither *.conf nor */frr.conf")
    return found


def frr(path):
    """Routers, links where two of them have an address in one net, and VRFs with their targets and prefixes."""
    texts = [(file, name, bytes_of(file).decode("latin-1").replace("\r", "")) for file, name in configuration_files(path)]
    design = Design(str(path))
    numbers = Numbers(design, (text for _, _, text in texts))
    routers = []
    for file, name, text in texts:
        routers.append(Router(file, name, numbers))
        routers[-1].read(text)
        routers[-1].source, routers[-1].name = routers[-1].name, design.name("node", routers[-1].name, (file, routers[-1].name))
    kept = kept_routers(design, routers)
    for router in kept:
        design.node(router.path, router.name, router.loopback())
        for entry in router.said:
            design.tell(*entry[:2], router.name, *entry[2:])
    own_as(design, kept)
    frr_links(design, routers, kept)
    general(design, kept)
    frr_vrfs(design, kept, numbers)
    return design


def nets_of(routers):
    """Of each net outside VRFs the ends in it: router, interface's name, interface."""
    nets = {}
    for router in routers:
        for name, interface, address in router.core():
            nets.setdefault(address.network, []).append((router, name, interface, address))
    return nets


def kept_routers(design, routers):
    """The provider's routers: those with LDP or VRFs, and those of the IGP between two of which packets may pass; where none has them, all."""
    has_mpls = {id(router) for router in routers if router.ldp is not None or router.vrfs}
    if not has_mpls:
        return routers
    joined = {id(router): 0 for router in routers}
    for ends in nets_of(routers).values():
        for router, name, interface, address in ends if len(ends) == 2 else ():
            joined[id(router)] += router.is_in_igp(name, interface, address)
    kept = [router for router in routers if id(router) in has_mpls or joined[id(router)] > 1]
    for router in routers:
        what = "a route reflector" if router.reflects else "a router without LDP and VRFs"
        if router not in kept:
            design.tell(WAYS if router.reflects else PARTS, f"{what}, left out" + (REFLECTS if router.reflects else ""), router.name)
        elif router.reflects:
            design.tell(WAYS, f"{what} too{REFLECTS}", router.name)
    return kept


REFLECTS = ": here each edge has a session with each other, so no route is hidden by another of the same distinguisher (docs/REFLECT.md)"


def own_as(design, routers):
    """The AS of the edges; others are told."""
    found = {}
    for router in routers:
        if router.asn:
            found.setdefault(router.asn, []).append(router.name)
    if found:
        design.asn = max(found, key=lambda asn: len(found[asn]))
    for asn, names in found.items():
        if asn != design.asn:
            design.tell(REACH, f"AS {asn}: here all are of AS {design.asn}, with iBGP between them", ", ".join(names))


def frr_links(design, routers, kept):
    """The links: nets that two routers share outside VRFs."""
    apart = any(router.has_cost(name) for router in kept for name, _, _ in router.core())  # else all have the topology's own
    mpls, ldp, ends_of = any(router.ldp for router in kept), {}, {}
    for net, ends in nets_of(routers).items():
        inside = [end for end in ends if end[0] in kept]
        if len(ends) != len(inside) or not inside:
            continue  # what leads to a router that is left out is told with it
        where = "-".join(sorted(router.name for router, _, _, _ in ends))
        ends_of[where] = tuple(router.name for router, _, _, _ in ends)
        down = [f"{router.name}'s {name}" for router, name, interface, _ in ends if interface["shutdown"]]
        if len(ends) != 2 or ends[0][0] is ends[1][0]:
            shut = f", and {' and '.join(down)} is shut down" if down else ""
            what = "one router alone has it" if len({id(end[0]) for end in ends}) == 1 else f"{len(ends)} routers share it"
            design.tell(PARTS, f"net {net}: {what}{shut}: left out, since a link joins two", where)
        elif down:
            design.tell(PARTS, f"link {net}: shutdown at {' and '.join(down)}: left out", where)
        else:
            frr_link(design, net, ends, where, apart)
            ldp.setdefault(where, []).append([f"{router.name}'s {name}" for router, name, _, _ in ends if not router.has_ldp(name)])
    for where, without in ldp.items() if mpls else ():
        if all(without):  # of links side by side one with LDP is enough
            design.off.append(ends_of[where])
            a, b = ends_of[where]
            design.tell(LABELS, f"LDP isn't on at {' and '.join(without[0])}: the script has 'ldp off {a} {b}'; mplsnet-whatif has it on", where)


def frr_link(design, net, ends, where, apart):
    names = [router.name for router, _, _, _ in ends]
    costs = [router.cost(name) for router, name, _, _ in ends]
    given = [router.has_cost(name) or router.igp == "isis" for router, name, _, _ in ends]
    if apart and costs[0] != costs[1]:
        design.tell(WAYS, f"link {net}: cost {costs[1]} at {names[1]}; a link has one cost here, {costs[0]}", where)
    if apart and not all(given):
        without = " and ".join(name for name, one in zip(names, given) if not one)
        design.tell(WAYS, f"no 'ip ospf cost' or 'bandwidth' at {without}: the cost is FRR's for a speed that it doesn't know", where)
    for router, name, interface, address in ends:
        if router.igp and not router.is_in_igp(name, interface, address) or interface["passive"] or name in router.passive:
            design.tell(PARTS, f"no adjacency of the IGP at {router.name}'s {name}: here the link has one", where)
    design.merged(*names, f"net {net}", cost=costs[0] if apart else None)


def general(design, routers):
    """What FRR does by default otherwise."""
    plain = [router.name for router in routers if router.ldp and not any("'ordered-control'" in entry[1] for entry in router.said)]
    for name in plain:
        design.tell(LABELS, "no 'ordered-control': FRR maps labels before the next hop has; here a node waits for it", name)
    if not any(router.ldp for router in routers):
        design.tell(LABELS, "no router has 'mpls ldp' with an interface: LDP is on on each link here")


# VRFs.


def frr_vrfs(design, routers, numbers):
    """The routers' VRFs: what they announce are their sites' prefixes."""
    rds, spread = {}, {}
    for router in routers:
        for name, vrf in router.vrfs.items():
            rd = numbers.pair(vrf["rd"]) if vrf["rd"] else None
            spread.setdefault(rd, []).append((router, name))
    taken = {rd for rd in spread if rd}
    for router in routers:
        for name, vrf in router.vrfs.items():
            rd = numbers.pair(vrf["rd"]) if vrf["rd"] else None
            if rd is None or rd in rds:
                new = design.fresh_rd(taken)
                taken.add(new)
                why = f"rd {vrf['rd']} isn't of the form AS:N or ADDRESS:N: one is given" if vrf["rd"] else "no 'rd vpn export': one is given"
                if rd:
                    why = f"rd {vrf['rd']} stands on {len(spread[rd])} VRFs, and each has one of its own here"
                design.tell(NUMBERS, f"VRF {name}: {why}", router.name)
                rd = new
            rds[rd] = name
            frr_vrf(design, router, name, vrf, rd, numbers)


def frr_vrf(design, router, name, vrf, rd, numbers):
    targets = {}
    for key in ("import", "export"):
        targets[key] = [one for one in map(numbers.pair, vrf[key]) if one]
        for one in vrf[key]:
            if numbers.pair(one) is None:
                design.tell(REACH, f"VRF {name}: {key} target {one} isn't of the form AS:N or ADDRESS:N: left out", router.name)
        if key not in vrf["flags"] and vrf["flags"]:
            design.tell(REACH, f"VRF {name}: no '{key} vpn', without which FRR {key}s nothing; here it does", router.name)
    made = design.vrf(f"{router.path}: VRF {name}", design.name("vrf", f"{name}-{router.name}"), router.name, rd, targets["import"], targets["export"])
    connected = []
    for port, interface in router.interfaces.items():
        nets = [str(address.network) for address in interface["addresses"]] if interface["vrf"] == name else []
        if nets and interface["shutdown"]:
            design.tell(PARTS, f"VRF {name}: {port} is shut down: {', '.join(nets)} isn't announced", router.name)
        else:
            connected += nets
    prefixes = vrf["networks"] + (connected if vrf["connected"] else []) + (vrf["static"] if vrf["redistributes static"] else [])
    design.site(design.name("site", made["name"]), made["name"], prefixes)
    if not prefixes:
        what = f"VRF {name} announces nothing that is known here (no 'network', no 'redistribute' of what it has)"
        design.tell(REACH, f"{what}: nothing can be sent to its site", router.name)
