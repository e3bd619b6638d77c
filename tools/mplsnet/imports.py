"""Networks of other tools: netlab's and containerlab's YAML. Each tells what it left out."""

import ipaddress
import json
import re
from pathlib import Path

from mplsnet.design import Design, Numbers
from mplsnet.files import Fault, bytes_of
from mplsnet.left import LABELS, NUMBERS, PARTS, REACH, UNKNOWN, UNREAD, WAYS

HOSTS = ("linux", "host", "bridge", "ovs-bridge")  # kinds of nodes that are no routers


def yaml_of(path):
    """The document of a YAML file."""
    try:
        import yaml
    except ImportError:
        raise Fault(f"{path}: YAML is read by python3-yaml, which isn't installed")
    class Loader(yaml.SafeLoader):
        """65000:10 is a text: not a number of base 60."""

    Loader.yaml_implicit_resolvers = {
        first: [(tag, form) for tag, form in forms if tag != "tag:yaml.org,2002:int"] for first, forms in yaml.SafeLoader.yaml_implicit_resolvers.items()
    }
    Loader.add_implicit_resolver("tag:yaml.org,2002:int", re.compile(r"[-+]?(?:0|[1-9][0-9]*)\Z"), list("-+0123456789"))
    try:
        found = yaml.load(bytes_of(path), Loader)
    except yaml.YAMLError as error:
        mark = getattr(error, "problem_mark", None)
        raise Fault(f"{path}: {f'line {mark.line + 1}: ' if mark else ''}not YAML: {getattr(error, 'problem', error)}")
    if not isinstance(found, dict):
        raise Fault(f"{path}: isn't a mapping with 'nodes' and 'links'")
    return found


def table(value):
    """A mapping, where the value is one."""
    return value if isinstance(value, dict) else {}


# containerlab (https://containerlab.dev/manual/topo-def-file/).


OUTER = ("host", "macvlan", "mgmt-net", "vxlan", "vxlan-stitch", "dummy")  # ends that are no nodes
BRIDGES = ("bridge", "ovs-bridge")


class Containerlab:
    """Nodes and links; it has no VPNs of its own."""

    def __init__(self, path):
        self.path, found = path, yaml_of(path)
        topology = found.get("topology")
        if not isinstance(topology, dict) or not isinstance(topology.get("nodes"), dict):
            raise Fault(f"{path}: has no topology with nodes: isn't containerlab's")
        self.found, self.topology, self.design = found, topology, Design(str(path))
        self.routers, self.hosts, self.bridges = {}, [], {}

    def read(self):
        for name, node in self.topology["nodes"].items():
            self.node(str(name), node if isinstance(node, dict) else {})
        if self.hosts:
            self.design.tell(PARTS, f"nodes that are no routers, left out with their links: {', '.join(self.hosts)}")
        links = self.topology.get("links") or []
        for at, link in enumerate(links if isinstance(links, list) else []):
            self.link(f"link {at}", link if isinstance(link, dict) else {})
        for bridge, ends in self.bridges.items():
            self.bridge(bridge, ends)
        keys = sorted(str(key) for key in self.found if key not in ("name", "topology"))
        if keys:
            self.design.tell(UNREAD, f"keys of the top: {', '.join(keys)}")
        return self.design

    def node(self, name, node):
        kinds, groups, defaults = (table(self.topology.get(part)) for part in ("kinds", "groups", "defaults"))
        node = {**defaults, **table(groups.get(str(node.get("group")))), **node}
        kind = node.get("kind")
        image = node.get("image", table(kinds.get(str(kind))).get("image", ""))
        if kind in BRIDGES:
            self.bridges[name] = []
        elif kind in HOSTS and "frr" not in str(image):
            self.hosts.append(name)
        else:
            self.routers[name] = self.design.name("node", name)
            self.design.node(f"{self.path}: node {name}", self.routers[name])
            config = node.get("startup-config")
            if isinstance(config, str):
                self.design.tell(REACH, "its 'startup-config' isn't read: costs, LDP and VPNs stand there (FRR's goes in by --form frr)", name)

    def ends(self, place, link):
        """The names of a link's ends; none where an end is no node."""
        found = link.get("endpoints")
        if found is None and "endpoint" in link:
            return [str(link["endpoint"].get("node") if isinstance(link["endpoint"], dict) else link["endpoint"]).partition(":")[0], str(link.get("type"))]
        if isinstance(found, list) and len(found) == 2 and all(isinstance(end, dict) for end in found):
            return [str(end.get("node")) for end in found]
        if isinstance(found, list) and len(found) == 2 and all(isinstance(end, str) for end in found):
            return [end.partition(":")[0] for end in found]
        raise Fault(f"{self.path}: {place}: 'endpoints' isn't a list of two, as [\"pe1:eth1\", \"p1:eth1\"]")

    def link(self, place, link):
        names = self.ends(place, link)
        for name in names:
            if name not in self.routers and name not in self.hosts and name not in self.bridges and name not in OUTER:
                raise Fault(f"{self.path}: {place}: there is no node {name!r}")
        outer = [name for name in names if name not in self.routers and name not in self.bridges]
        if outer:
            why = "not between two routers" if outer[0] in self.hosts else f"leads out by {outer[0]}"
            self.design.tell(PARTS, f"{place} of {', '.join(names)}: {why}: left out")
        elif any(name in self.bridges for name in names):
            for name, other in (names, names[::-1]):
                if name in self.bridges:
                    self.bridges[name].append(other)
        else:
            self.design.merged(*map(self.routers.get, names), place)

    def bridge(self, bridge, ends):
        """A bridge is a link where two routers meet there."""
        routers = [name for name in ends if name in self.routers]
        if len(ends) == len(routers) == 2:
            a, b = map(self.routers.get, routers)
            self.design.tell(PARTS, f"bridge {bridge}, where two routers meet: it is their link", f"{a}-{b}")
            self.design.merged(a, b, f"bridge {bridge}")
        else:
            self.design.tell(PARTS, f"bridge {bridge} of {', '.join(ends) or 'nothing'}: left out, since a link joins two routers")


def containerlab(path):
    return Containerlab(path).read()


# netlab (https://netlab.tools/topology-overview/).


KNOWN = {
    "top": {"nodes", "links", "vrfs", "bgp", "name", "provider", "defaults", "module", "groups"},
    "node": {"module", "device", "role", "vrfs", "loopback", "bgp", "group", "id", "name", "routing"},
    "link": {"vrf", "prefix", "ospf", "isis", "link", "group", "members", "interfaces", "linkindex", "name"},
}
MEANT = {  # keys that change something: the group, and what is said
    "bandwidth": (WAYS, "'bandwidth': no cost is taken from it"),
    "mpls": (LABELS, "'mpls': LDP is on on all links, and labels are those of loopbacks"),
    "role": (UNREAD, "'role'"), "type": (UNREAD, "'type'"), "mtu": (UNREAD, "'mtu'"),
    "addressing": (NUMBERS, "'addressing': addresses of loopbacks and of sites are others here"),
    "plugin": (UNKNOWN, "'plugin'"), "ospf": (UNREAD, "'ospf'"), "isis": (UNREAD, "'isis'"),
    "config": (UNKNOWN, "'config'"), "static": (UNKNOWN, "'static'"), "routing": (REACH, "'routing': policies aren't taken"),
    "evpn": (UNKNOWN, "'evpn'"), "vlans": (UNKNOWN, "'vlans'"), "vlan": (UNKNOWN, "'vlan'"), "sr": (LABELS, "'sr': labels are LDP's here"),
}  # fmt: skip


class Netlab:
    """Nodes, links, the VRFs of the top or of a node, and the attachments of hosts and CEs to VRFs."""

    def __init__(self, path):
        self.path, self.found = path, yaml_of(path)
        self.design = Design(str(path))
        self.numbers = Numbers(self.design, [json.dumps(self.found, default=str)])
        self.attached = []  # (node, VRF, prefixes, name of what is attached)
        self.routes = set()  # (node, number) of the static routes that are taken
        self.prefixes = 0

    def read(self):
        nodes = self.found.get("nodes")
        if isinstance(nodes, list):
            nodes = {str(name): {} for name in nodes if not isinstance(name, (dict, list))}
        if not isinstance(nodes, dict):
            raise Fault(f"{self.path}: has no nodes: isn't netlab's")
        self.nodes = {str(name): self.with_groups(str(name), table(node)) for name, node in nodes.items()}
        self.vrfs = {str(name): table(vrf) for name, vrf in table(self.found.get("vrfs")).items()}
        self.design.asn = self.numbers.asn(self.value(self.found, "bgp", "as")) or self.design.asn
        entries = list(self.entries())
        self.customers = self.outside(entries)
        for name in self.nodes:
            if name not in self.customers:
                self.node(name)
        for place, ends, keys in entries:
            self.link(place, ends, keys)
        self.attach()
        for name in self.nodes:
            self.routing(name)
        self.keys("top", self.found, "")
        return self.design

    def with_groups(self, name, node):
        """A node with what its groups say of their members."""
        found = {}
        for group, said in table(self.found.get("groups")).items():
            members = said if isinstance(said, list) else table(said).get("members")
            if name in map(str, members if isinstance(members, list) else []) or str(node.get("group")) == str(group):
                said = table(said)
                found |= {key: value for key, value in said.items() if key not in ("members", "node_data", "vars", "config")} | table(said.get("node_data"))
        return {**found, **node}

    def entries(self):
        """The links, each with its place, its ends and what it says of itself."""
        links = [(f"link {at}", link, {}) for at, link in enumerate(self.found.get("links") or [])]
        for name, vrf in self.vrfs.items():
            links += [(f"VRF {name}: link {at}", link, {"vrf": name}) for at, link in enumerate(vrf.get("links") or [])]
        while links:
            place, link, keys = links.pop(0)
            if isinstance(link, dict) and isinstance(link.get("members"), list):
                own = {key: value for key, value in link.items() if key not in ("group", "members")}
                links = [(f"{place}, member {at}", member, {**keys, **own}) for at, member in enumerate(link["members"])] + links
                continue
            ends, own = self.ends(f"{self.path}: {place}", link)
            yield place, ends, {**keys, **own}

    def node(self, name):
        loopback = self.value(self.nodes[name], "loopback", "ipv4")
        loopback = str(loopback).partition("/")[0] if isinstance(loopback, str) else None
        self.design.node(f"{self.path}: node {name}", self.design.name("node", name), loopback)
        if self.value(self.nodes[name], "bgp", "rr"):
            self.design.tell(WAYS, "a route reflector: here each edge has a session with each other, so no route is hidden by another (docs/REFLECT.md)", name)
        self.keys("node", self.nodes[name], name)

    def keys(self, kind, said, where):
        """Tells the keys that aren't read."""
        for key in map(str, said):
            first = key.partition(".")[0]
            if first not in KNOWN[kind]:
                group, text = MEANT.get(first, (UNKNOWN, f"'{key}'"))
                self.design.tell(group, f"key {text}" if text.startswith("'") else text, where)

    def value(self, said, *keys):
        """A value under keys, which netlab also takes joined by dots."""
        if ".".join(keys) in said:
            return said[".".join(keys)]
        inner = said.get(keys[0])
        return inner if len(keys) == 1 else self.value(inner, *keys[1:]) if isinstance(inner, dict) else None

    def ends(self, place, link):
        """The nodes of a link with what it says of each, and what it says of itself."""
        if isinstance(link, str):
            return {name: {} for name in self.names(place, link)}, {}
        if isinstance(link, list):
            link = {"interfaces": link}
        if not isinstance(link, dict):
            raise Fault(f"{place}: is neither a text as 'pe1-p1', nor a list, nor a mapping")
        if isinstance(link.get("interfaces"), list):
            ends = {}
            for one in link["interfaces"]:
                ends |= {str(one.get("node")): one} if isinstance(one, dict) else {str(one): {}}
        else:
            ends = {str(name): table(value) for name, value in link.items() if str(name) in self.nodes}
        for name in ends:
            if name not in self.nodes:
                raise Fault(f"{place}: there is no node {name!r}")
        if not ends:
            raise Fault(f"{place}: names no node")
        return ends, {str(key): value for key, value in link.items() if str(key) not in self.nodes and key != "interfaces"}

    def names(self, place, text):
        """The nodes of 'a-b', whose names may have dashes."""
        parts, names = text.split("-"), []
        while parts:
            for count in range(len(parts), 0, -1):
                if "-".join(parts[:count]) in self.nodes:
                    names.append("-".join(parts[:count]))
                    parts = parts[count:]
                    break
            else:
                raise Fault(f"{place}: '{text}' doesn't name nodes")
        return names

    def vrf_of(self, end, keys):
        return self.value(end, "vrf") or keys.get("vrf")

    def outside(self, entries):
        """What isn't the provider's: hosts, and nodes all of whose links lead into VRFs of other nodes."""
        inner, outer = set(), set()
        for _, ends, keys in entries:
            vrfs = {name: self.vrf_of(end, keys) for name, end in ends.items()}
            has_vrfs = any(vrfs.values())
            for name in ends:
                one = self.nodes[name]
                if one.get("role") == "host" or one.get("device") == "linux":
                    outer.add(name)
                elif has_vrfs and not self.has_vrfs(name) and (keys.get("vrf") or not vrfs[name]):
                    outer.add(name)
                else:
                    inner.add(name)
        return {name for name in outer if name not in inner or self.nodes[name].get("role") == "host"}

    def has_vrfs(self, name):
        """The node is one with VRFs of its own, or one that the modules say to have them."""
        node = self.nodes[name]
        module = node.get("module") if isinstance(node.get("module"), list) else []
        return bool(node.get("vrfs")) or "vrf" in module or "mpls" in module

    def link(self, place, ends, keys):
        self.keys("link", keys, place)
        routers = [name for name in ends if name not in self.customers]
        for name in routers:
            vrf = self.vrf_of(ends[name], keys)
            if vrf:
                others = [other for other in ends if other != name and other in self.customers]
                prefixes = self.statics(place, name, str(vrf), ends[others[0]] if others else {}) or self.connected(place, str(vrf), keys)
                self.attached.append((name, str(vrf), prefixes, others[0] if others else None))
        core = [name for name in routers if not self.vrf_of(ends[name], keys)]
        if len(core) == 2 and len(ends) == 2:
            self.core_link(place, core, ends, keys)
        elif core:
            self.design.tell(PARTS, f"{place} of {', '.join(ends)}: not between two routers: left out")

    def core_link(self, place, core, ends, keys):
        costs = [self.value(keys, "ospf", "cost"), self.value(keys, "isis", "metric")]
        costs += [self.value(ends[name], *key) for name in core for key in (("ospf", "cost"), ("isis", "metric"))]
        found = [cost for cost in costs if cost is not None]
        lawful = [cost for cost in found if isinstance(cost, int) and not isinstance(cost, bool) and 1 <= cost <= 65_535]
        if len(lawful) < len(found) or len({*lawful}) > 1:
            self.design.tell(WAYS, f"costs {', '.join(map(str, found))}: a link has one cost here, {lawful[0] if lawful else 10}", place)
        self.design.merged(*(self.design.name("node", name) for name in core), place, cost=lawful[0] if lawful else None)

    def static_routes(self, name):
        found = self.value(self.nodes[name], "routing", "static")
        return [table(one) for one in found] if isinstance(found, list) else []

    def statics(self, place, name, vrf, end):
        """The prefixes of the node's static routes in the VRF whose next hop is the other end of the link."""
        found, gateway = [], str(end.get("ipv4")).partition("/")[0]
        for at, one in enumerate(self.static_routes(name)):
            if str(one.get("vrf")) == vrf and isinstance(one.get("ipv4"), str) and self.value(one, "nexthop", "ipv4") == gateway:
                found.append(self.prefix(place, {"prefix": one["ipv4"]}))
                self.routes.add((name, at))
        return found

    def connected(self, place, vrf, keys):
        """The link's prefix, where BGP in the VRF takes what is connected, as it does by default."""
        taken = self.value(self.vrfs.get(vrf, {}), "bgp", "import")
        return [self.prefix(place, keys)] if not isinstance(taken, list) or "connected" in taken else []

    def routing(self, name):
        """Tells what of a node's 'routing' isn't taken: all but static routes in VRFs to what is attached there."""
        said = self.nodes[name]
        keys = [*table(said.get("routing")), *(str(key).partition(".")[2] for key in said if str(key).startswith("routing."))]
        if any(key != "static" for key in keys):
            self.design.tell(REACH, "key 'routing': policies aren't taken", name)
        for at, one in enumerate(self.static_routes(name)):
            if (name, at) not in self.routes:
                self.design.tell(REACH, f"static route {one.get('ipv4')}: not in a VRF to what is attached there: left out", name)

    def prefix(self, place, keys):
        """The link's prefix, or one of the pool from which netlab takes those of LANs."""
        given = keys.get("prefix")
        given = given.get("ipv4") if isinstance(given, dict) else given
        if isinstance(given, str):
            try:
                return str(ipaddress.IPv4Network(given, strict=False))
            except ValueError:
                raise Fault(f"{self.path}: {place}: prefix {given!r} isn't one of IPv4")
        self.prefixes += 1
        return f"172.{16 + self.prefixes // 256}.{self.prefixes % 256}.0/24"

    def attach(self):
        """A VRF for each edge and name, a site for each attachment; their targets are those given, or the VRF's number."""
        self.order = {name: at for at, name in enumerate(self.vrfs, 1)}
        made = {}
        for node, vrf, prefixes, other in self.attached:
            self.order.setdefault(vrf, len(self.order) + 1)
            if (node, vrf) not in made:
                made[node, vrf] = self.vrf(node, vrf)
            asn = self.value(self.nodes[other], "bgp", "as") if other else None
            if asn:
                self.design.tell(REACH, f"a CE of AS {asn}: the prefixes that it announces by BGP aren't known here; its site has those of its links", other)
            name = self.design.name("site", other or f"{vrf}-{node}", len(self.design.sites))
            self.design.site(name, made[node, vrf], prefixes)

    def vrf(self, node, name):
        said = {**self.vrfs.get(name, {}), **table(table(self.nodes[node].get("vrfs")).get(name))}
        default = self.own_target(name, said)
        imports, exports = (self.targets(said, key, default) for key in ("import", "export"))
        rd = self.distinguisher(node, name, said)
        made = self.design.vrf(f"{self.path}: VRF {name}", self.design.name("vrf", f"{name}-{node}"), self.design.name("node", node), rd, imports, exports)
        return made["name"]

    def distinguisher(self, node, name, said):
        """The VRF's own, where no other edge has the VRF and no other VRF the distinguisher; else one that nothing has."""
        own, taken = self.given_rd(said), {vrf["rd"] for vrf in self.design.vrfs}
        is_alone = {edge for edge, vrf, _, _ in self.attached if vrf == name} == {node}
        if own and is_alone and own not in taken:
            return own
        if said.get("rd") is not None:
            shared = "is another VRF's: one is given" if is_alone else "is that of all its edges: each has one of its own here"
            why = shared if own else "isn't of the form AS:N or ADDRESS:N: one is given"
            self.design.tell(NUMBERS, f"VRF {name}: rd {said['rd']} {why}", node)
        taken |= {self.given_rd(vrf) for vrf in self.vrfs.values()}
        number = 1000 + len(self.design.vrfs) + 1
        while f"{self.design.asn}:{number}" in taken:
            number += 1
        return f"{self.design.asn}:{number}"

    def given_rd(self, said):
        """The distinguisher that a VRF is given, as a topology has it; none where it has none."""
        rd = said.get("rd")
        if isinstance(rd, int) and not isinstance(rd, bool) and 0 <= rd < 1 << 32:
            return f"{self.design.asn}:{rd}"
        return self.numbers.pair(rd)

    def own_target(self, name, said):
        """The target that a VRF has where none is given: its distinguisher, or AS:N of its number."""
        return self.given_rd(said) or f"{self.design.asn}:{self.order.get(name, len(self.order) + 1)}"

    def targets(self, said, key, default):
        """The targets of a list; a VRF's name stands for its own."""
        given, found = said.get(key), []
        for one in given if isinstance(given, list) else [given] if given else [default]:
            target = self.own_target(str(one), self.vrfs[str(one)]) if str(one) in self.vrfs else self.numbers.pair(one)
            if target is None:
                self.design.tell(REACH, f"{key} target {one}: not of the form AS:N or ADDRESS:N: left out")
            elif target not in found:
                found.append(target)
        return found


def netlab(path):
    return Netlab(path).read()


# Forms.


def form_of(path):
    """Which form a file or folder has."""
    path = Path(path)
    if path.is_dir() or path.suffix == ".conf":
        return "frr"
    if path.suffix in (".yml", ".yaml"):
        found = yaml_of(path)
        return "containerlab" if isinstance(found.get("topology"), dict) else "netlab"
    return "short"
