"""A topology as a lab of FRR routers: who is linked to whom by which interface and address, and the files of the lab.

Everything is counted from the topology alone, so that what is collected from the lab can be told of in the topology's names.
"""

import ipaddress
import json
import re
from dataclasses import dataclass, field

from mplsnet.files import Fault
from mplsnet.knowledge import address_text, prefix_text
from mplsnet.whatif import first_address, probes_of

FORMS = ("containerlab", "netlab", "frr")
IMAGE, TAG = "frrouting/frr", "v8.4.1"
HOST_IMAGE = "alpine:latest"
FILES = ("lab.json", "lab.clab.yml", "topology.yml", "lab.sh", "ping.sh", "README.md")  # of the lab
OF_ROUTER = ("frr.conf", "daemons", "vtysh.conf", "kernel.sh")  # of each router, in its folder
POOLS = ("100.64.0.0/10", "198.18.0.0/15", "10.0.0.0/8", "172.16.0.0/12", "192.168.0.0/16")
DEVICE = re.compile(r"[A-Za-z0-9_.-]{1,15}\Z")
OWN_DEVICES = re.compile(r"(lo|all|default|mgmt|eth\d+|vrf\d+|(tunl|gre|gretap|erspan|sit|ip\w+)0)\Z")  # what Linux or the lab names so


# Who has which interface and address.


@dataclass(frozen=True)
class Port:
    """An interface of a router: over it another router, or the host of a site in a VRF."""

    name: str
    address: str  # with its length
    near: int | None = None
    cost: int = 0
    site: int | None = None


@dataclass
class Plan:
    """A lab of a network. Routers are by their nodes' numbers, hosts by their sites' numbers."""

    net: object
    asn: int
    name: str
    reflectors: dict = field(default_factory=dict)  # of each its clients
    ports: list = field(default_factory=list)  # of each router
    hosts: list = field(default_factory=list)  # of each site the host's name
    attached: list = field(default_factory=list)  # of each site (the router's port, the host's address with its length)
    vrfs: list = field(default_factory=list)  # of each VRF the name of its device
    rds: list = field(default_factory=list)  # of each VRF its route distinguisher

    def sessions(self):
        """The pairs of routers that have a BGP session: of all edges, or of reflectors with their clients and each other."""
        return bgp_pairs(self.net, self.reflectors)

    def loopback(self, node):
        return ".".join(map(str, self.net.loopbacks[node]))


def bgp_pairs(net, reflectors):
    """The pairs of nodes that have a BGP session, the lesser number first."""
    if not reflectors:
        return [(a, b) for at, a in enumerate(net.edges) for b in net.edges[at + 1 :]]
    found = {tuple(sorted((a, b))) for a in reflectors for b in [*reflectors[a], *reflectors] if a != b}
    return sorted(found)


def reflectors_of(path, net, words):
    """The reflectors that words as 'rr1' or 'rr1=pe1,pe2' name, each with its clients."""
    found = {}
    for word in words:
        name, equals, clients = word.partition("=")
        named = [name, *(clients.split(",") if equals else [])]
        for one in named:
            if one not in net.number:
                raise Fault(f"{path}: --reflector {word}: there is no node {one!r}")
        node, *edges = (net.number[one] for one in named)
        if node in net.edges:
            raise Fault(f"{path}: --reflector {word}: {name} has a VRF: a reflector has none")
        for edge in edges:
            if edge not in net.edges:
                raise Fault(f"{path}: --reflector {word}: {net.nodes[edge]} has no VRF: a client has one")
        found.setdefault(node, set()).update(edges if equals else net.edges)
    return {node: sorted(edges) for node, edges in found.items()}


def devices(net):
    """The name of each VRF's device: the VRF's own where Linux takes it, else 'vrf' and its number from 1."""
    found, taken = [], set()
    for at, vrf in enumerate(net.vrfs):
        name = vrf.name
        if not DEVICE.match(name) or OWN_DEVICES.match(name) or name in (".", "..") or name.startswith("-") or (vrf.node, name) in taken:
            name = f"vrf{at + 1}"
        taken.add((vrf.node, name))
        found.append(name)
    return found


def room(path, length, avoided):
    """The first net of the pools of this length that meets none of those."""
    for pool in map(ipaddress.ip_network, POOLS):
        if length < pool.prefixlen:
            continue
        for net in pool.subnets(new_prefix=length):
            if not any(net.overlaps(one) for one in avoided):
                return net
    raise Fault(f"{path}: no room is left for the addresses of links beside the topology's own ({', '.join(POOLS)})")


def nets_of(path, net):
    """Nets of four addresses for the links, and for the attachments of sites; none meets a loopback, a prefix or another."""
    loopbacks = [ipaddress.ip_network(".".join(map(str, one))) for one in net.loopbacks]
    prefixes = [ipaddress.ip_network(prefix_text(of)) for found in net.prefixes for of in found if of[1] >= 8]
    found = []
    for count in (len(net.links), len(net.sites)):
        length = 30 - max(1, count - 1).bit_length()
        found.append(room(path, min(length, 24), loopbacks + prefixes + found))
    return [one.subnets(new_prefix=30) for one in found]


def planned(path, net, tables, name, reflectors):
    """The lab of the network."""
    for node in net.nodes:
        if not node[0].isalnum():
            raise Fault(f"{path}: node {node!r}: FRR takes no name of a router that begins with {node[0]!r}")
        if node in (*FILES, "tables"):
            raise Fault(f"{path}: node {node!r} has the name of a file of the lab")
    plan = Plan(net, tables.get("as", 65_000), name, reflectors, [[] for _ in net.nodes], vrfs=devices(net), rds=[vrf["rd"] for vrf in tables["vrf"]])
    of_links, of_sites = nets_of(path, net)
    for a, b, cost in net.links:
        first, second = map(str, next(of_links).hosts())
        for node, near, address in ((a, b, first), (b, a, second)):
            plan.ports[node].append(Port(f"eth{len(plan.ports[node]) + 1}", f"{address}/30", near, cost))
    taken = set(net.nodes)
    for site, name_of_site in enumerate(net.sites):
        edge = net.edge_of(site)
        first, second = map(str, next(of_sites).hosts())
        port = Port(f"eth{len(plan.ports[edge]) + 1}", f"{first}/30", site=site)
        plan.ports[edge].append(port)
        plan.attached.append((port, f"{second}/30"))
        host = f"host-{name_of_site}"
        while host in taken:
            host += "-"
        taken.add(host)
        plan.hosts.append(host)
    return plan


# A router's files.


def router_text(plan, node):
    """frr.conf of a router."""
    net, loopback = plan.net, plan.loopback(node)
    vrfs = [at for at, vrf in enumerate(net.vrfs) if vrf.node == node]
    lines = ["frr defaults traditional", f"hostname {net.nodes[node]}", "service integrated-vtysh-config", "no ipv6 forwarding", "!"]
    for vrf in vrfs:
        lines += vrf_lines(plan, vrf)
    lines += ["router ospf", f" ospf router-id {loopback}", "exit", "!"]
    lines += ["interface lo", f" ip address {loopback}/32", " ip ospf area 0", "exit", "!"]
    for port in plan.ports[node]:
        lines += port_lines(plan, port)
    lines += bgp_lines(plan, node)
    for vrf in vrfs:
        lines += bgp_vrf_lines(plan, vrf)
    lines += ["mpls ldp", f" router-id {loopback}", " ordered-control", " address-family ipv4", f"  discovery transport-address {loopback}"]
    lines += ["  label local allocate host-routes"]
    for port in plan.ports[node]:
        lines += [f"  interface {port.name}", "  exit"] if port.near is not None else []
    lines += [" exit-address-family", "exit", "!", "end"]
    return "\n".join(lines) + "\n"


def vrf_lines(plan, vrf):
    """A VRF with the static routes of its sites."""
    net, device = plan.net, plan.vrfs[vrf]
    lines = [f"! VRF {net.vrfs[vrf].name}"] if device != net.vrfs[vrf].name else []
    lines += [f"vrf {device}"]
    for site, of in enumerate(net.vrf_of):
        if of == vrf:
            lines += [f" ip route {prefix_text(prefix)} {plan.attached[site][1].partition('/')[0]}" for prefix in net.prefixes[site]]
    return [*lines, "exit-vrf", "!"]


def port_lines(plan, port):
    """An interface: of a link with OSPF and MPLS, or of a site in its VRF."""
    if port.near is None:
        vrf = plan.vrfs[plan.net.vrf_of[port.site]]
        return [f"interface {port.name} vrf {vrf}", f" description site {plan.net.sites[port.site]}", f" ip address {port.address}", "exit", "!"]
    lines = [f"interface {port.name}", f" description {plan.net.nodes[port.near]}", f" ip address {port.address}", " ip ospf area 0"]
    return [*lines, " ip ospf network point-to-point", f" ip ospf cost {port.cost}", " mpls enable", "exit", "!"]


def bgp_lines(plan, node):
    """BGP between loopbacks, for VPN-IPv4 alone."""
    peers = [b if a == node else a for a, b in plan.sessions() if node in (a, b)]
    if not peers and node not in plan.net.edges:
        return []
    lines = [f"router bgp {plan.asn}", f" bgp router-id {plan.loopback(node)}", " no bgp default ipv4-unicast"]
    for peer in peers:
        lines += [f" neighbor {plan.loopback(peer)} remote-as {plan.asn}", f" neighbor {plan.loopback(peer)} description {plan.net.nodes[peer]}"]
        lines += [f" neighbor {plan.loopback(peer)} update-source {plan.loopback(node)}", f" neighbor {plan.loopback(peer)} timers connect 5"]
    lines += [" address-family ipv4 vpn"] if peers else []
    for peer in peers:
        lines += [f"  neighbor {plan.loopback(peer)} activate"]
        lines += [f"  neighbor {plan.loopback(peer)} route-reflector-client"] if peer in plan.reflectors.get(node, ()) else []
    return [*lines, *([" exit-address-family"] if peers else []), "exit", "!"]


def bgp_vrf_lines(plan, vrf):
    """What a VRF exports and imports: its static routes, with its RD and targets."""
    of = plan.net.vrfs[vrf]
    lines = [f"router bgp {plan.asn} vrf {plan.vrfs[vrf]}", f" bgp router-id {plan.loopback(of.node)}", " address-family ipv4 unicast"]
    lines += ["  redistribute static", "  label vpn export auto", f"  rd vpn export {plan.rds[vrf]}"]
    for word, found in (("import", of.imports), ("export", of.exports)):
        lines += [f"  rt vpn {word} {' '.join(sorted(found))}"] if found else []
    lines += [f"  {word} vpn" for word, found in (("export", of.exports), ("import", of.imports)) if found]
    return [*lines, " exit-address-family", "exit", "!"]


DAEMONS = """\
# Which daemons run, and how.
zebra=yes
staticd=yes
ospfd=yes
ldpd=yes
bgpd=yes
vtysh_enable=yes
zebra_options="  -A 127.0.0.1 -s 90000000"
staticd_options="-A 127.0.0.1"
ospfd_options="  -A 127.0.0.1"
ldpd_options="   -A 127.0.0.1"
bgpd_options="   -A 127.0.0.1"
"""
KERNEL = """\
#!/bin/sh
# What the kernel has to have of {name} before FRR's configuration holds: VRFs, and MPLS on its links.
lacks() {{ echo "{name}: the kernel has no $1: load the module $2" >&2; status=1; }}
status=0
sysctl -qw net.ipv4.ip_forward=1 net.ipv4.conf.all.rp_filter=0 net.ipv4.conf.default.rp_filter=0
if [ -d /proc/sys/net/mpls ]; then
    sysctl -qw net.mpls.platform_labels=1048575 net.mpls.conf.lo.input=1
else
    lacks "MPLS" "mpls_router (and mpls_iptunnel)"
fi
for port in {links}; do
    [ ! -d /proc/sys/net/mpls ] || sysctl -qw net.mpls.conf.$port.input=1
    ip link set $port up
done
"""
KERNEL_VRF = """\
if ip link add {device} type vrf table {table} 2>/dev/null || ip link show {device} >/dev/null 2>&1; then
    ip link set {device} up
    [ ! -d /proc/sys/net/mpls ] || sysctl -qw net.mpls.conf.{device}.input=1
{ports}else
    lacks "VRFs" vrf
fi
"""


def kernel_text(plan, node):
    """kernel.sh of a router: its VRFs with their interfaces, and MPLS on its links."""
    links = [port.name for port in plan.ports[node] if port.near is not None]
    text = KERNEL.format(name=plan.net.nodes[node], links=" ".join(links))
    text = text if links else text.replace("for port in ; do", "for port in $none; do")
    table = 1000
    for at, vrf in enumerate(plan.net.vrfs):
        if vrf.node == node:
            table += 1
            ports = [port.name for port in plan.ports[node] if port.site is not None and plan.net.vrf_of[port.site] == at]
            lines = "".join(f"    ip link set {port} master {plan.vrfs[at]}\n    ip link set {port} up\n" for port in ports)
            text += KERNEL_VRF.format(device=plan.vrfs[at], table=table, ports=lines)
    return text + "exit $status\n"


# A site's host.


def host_addresses(plan, site):
    """The addresses that a site's host has beside that of its link: the first of each of its prefixes that a packet may go to."""
    found = [first_address(of) for of in plan.net.prefixes[site]]
    return list(dict.fromkeys(address_text(at) for at in found if at is not None))


def host_lines(plan, site):
    """What makes the host of a site: its address, its way out, and the addresses of its prefixes."""
    port, address = plan.attached[site]
    lines = [f"ip addr add {address} dev eth1", "ip link set eth1 up", "ip link set lo up"]
    lines += [f"ip addr add {one}/32 dev lo" for one in host_addresses(plan, site)]
    return [*lines, f"ip route replace default via {port.address.partition('/')[0]}"]


PING = """\
#!/bin/sh
# Pings from each site of the lab to each prefix of the others that its VRF imports, from the first address of the site's own first
# prefix. 'ok' needs the way there and the way back. Usage: ./ping.sh [SITE], from where the lab runs.
# Status: 0 all answer; 1 some don't.
only=$1
lost=0
from() {{
    [ -z "$only" ] || [ "$only" = "$2" ] || return 0
    if {run} ping -c 1 -W 2 -I "$4" "$5" >/dev/null 2>&1; then echo "$2 -> $3 $5 ok"; else echo "$2 -> $3 $5 lost"; lost=1; fi
}}
"""


def ping_text(plan, form):
    """ping.sh: from each site to each other."""
    run = {"frr": f'ip netns exec "{plan.name}-$1"'}.get(form, f'docker exec "clab-{plan.name}-$1"')
    text = PING.format(run=run)
    for site, host in enumerate(plan.hosts) if form == "netlab" else ():  # whose hosts have the addresses of their links alone
        text += "".join(f"{run.replace('$1', host)} ip addr add {one}/32 dev lo 2>/dev/null\n" for one in host_addresses(plan, site))
    for probe in probes_of(plan.net):
        host = plan.hosts[plan.net.site_number[probe.site]]
        source, to = ".".join(map(str, probe.source)), ".".join(map(str, probe.address))
        text += f"from {host} {probe.site} '{'|'.join(probe.to)}' {source} {to}\n"
    return text + "exit $lost\n"


# The forms.


def quoted(word):
    """A text as YAML takes it for one, whatever it is."""
    return json.dumps(str(word))


def containerlab_text(plan, image, host_image):
    """lab.clab.yml."""
    lines = [f"# Made by mplsnet-lab: containerlab deploy -t lab.clab.yml, then ./ping.sh; README.md says what it needs.", f"name: {quoted(plan.name)}"]
    lines += ["topology:", "  kinds:", "    linux:", f"      image: {quoted(image)}", "  nodes:"]
    for node in plan.net.nodes:
        binds = [f"{node}/{file}:/etc/frr/{file}" for file in ("daemons", "frr.conf", "vtysh.conf", "kernel.sh")]
        lines += [f"    {quoted(node)}:", "      kind: linux", f"      image: {quoted(image)}", "      binds:"]
        lines += [f"        - {quoted(bind)}" for bind in binds]
        lines += ["      exec:", f"        - {quoted('sh /etc/frr/kernel.sh')}", f"        - {quoted('vtysh -b')}"]
    for site, host in enumerate(plan.hosts):
        lines += [f"    {quoted(host)}:", "      kind: linux", f"      image: {quoted(host_image)}", "      exec:"]
        lines += [f"        - {quoted(line)}" for line in host_lines(plan, site)]
    lines += ["  links:"] if plan.net.links or plan.net.sites else ["  links: []"]
    for (node, port), (near, other) in wires(plan):
        lines += [f"    - endpoints: [{quoted(f'{node}:{port}')}, {quoted(f'{near}:{other}')}]"]
    return "\n".join(lines) + "\n"


def wires(plan):
    """The lab's wires: (name, interface) of both ends; links first, in the topology's order, then sites."""
    ports, found = [iter(found) for found in plan.ports], []
    for a, b, _ in plan.net.links:
        found.append(((plan.net.nodes[a], next(ports[a]).name), (plan.net.nodes[b], next(ports[b]).name)))
    for site, (port, _) in enumerate(plan.attached):
        found.append(((plan.net.nodes[plan.net.edge_of(site)], port.name), (plan.hosts[site], "eth1")))
    return found


def netlab_text(plan, image):
    """topology.yml of netlab, which chooses the addresses of links itself; a site's prefix is its host's net or a static route to it."""
    net, asn = plan.net, plan.asn
    lines = ["# Made by mplsnet-lab: netlab up, then ./ping.sh; README.md says what it needs.", f"name: {quoted(plan.name)}", "provider: clab"]
    lines += ["defaults.device: frr", f"defaults.devices.frr.clab.image: {quoted(image)}", "module: [ ospf, bgp, mpls, vrf, routing ]"]
    lines += ["mpls.ldp: true", "mpls.vpn: true", f"bgp.as: {asn}", "vrfs:" if net.vrfs else "vrfs: {}"]
    for at, vrf in enumerate(net.vrfs):
        lines += [f"  {quoted(plan.vrfs[at])}:", f"    rd: {quoted(plan.rds[at])}"]
        lines += [f"    {word}: [{', '.join(map(quoted, sorted(found)))}]" for word, found in (("import", vrf.imports), ("export", vrf.exports))]
        lines += ["    bgp.import: [ static ]"]
    lines += ["nodes:"]
    for node, name in enumerate(net.nodes):
        modules = "ospf, bgp, mpls, vrf, routing" if node in net.edges else "ospf, bgp, mpls" if node in plan.reflectors else "ospf, mpls"
        lines += [f"  {quoted(name)}:", f"    module: [ {modules} ]", f"    loopback.ipv4: {quoted(plan.loopback(node) + '/32')}"]
        lines += ["    bgp.rr: true"] if node in plan.reflectors else []
        lines += netlab_vrfs(plan, node)
    for host in plan.hosts:
        lines += [f"  {quoted(host)}:", "    device: linux", "    role: host"]
    lines += ["links:"] if net.links or net.sites else ["links: []"]
    for a, b, cost in net.links:
        lines += ["- interfaces:", f"  - node: {quoted(net.nodes[a])}", f"  - node: {quoted(net.nodes[b])}", f"  ospf.cost: {cost}"]
    for site, host in enumerate(plan.hosts):
        port, address = plan.attached[site]
        lines += ["- interfaces:", f"  - node: {quoted(net.nodes[net.edge_of(site)])}", f"    vrf: {quoted(plan.vrfs[net.vrf_of[site]])}"]
        lines += [f"    ipv4: {quoted(port.address)}", f"  - node: {quoted(host)}", f"    ipv4: {quoted(address)}"]
    return "\n".join(lines) + "\n"


def netlab_vrfs(plan, node):
    """The VRFs of a node, and the static routes in them."""
    net = plan.net
    own = [at for at, vrf in enumerate(net.vrfs) if vrf.node == node]
    lines = [f"    vrfs: {{ {', '.join(f'{quoted(plan.vrfs[at])}: {{}}' for at in own)} }}"] if own else []
    routes = [(site, of) for site, vrf in enumerate(net.vrf_of) if vrf in own for of in net.prefixes[site]]
    lines += ["    routing.static:"] if routes else []
    for site, of in routes:
        gateway = plan.attached[site][1].partition("/")[0]
        lines += [f"    - ipv4: {quoted(prefix_text(of))}", f"      nexthop.ipv4: {quoted(gateway)}", f"      vrf: {quoted(plan.vrfs[net.vrf_of[site]])}"]
    return lines


LAB = """\
#!/bin/sh
# Runs the lab in network namespaces of this machine, by root: ./lab.sh up | down.
# FRR's daemons are those of $FRR (default /usr/lib/frr). Status: 0 done; 1 the kernel lacks something, or a daemon didn't start; 2 wrong words.
lab={lab}
daemons=${{FRR:-/usr/lib/frr}}
here=$(cd "$(dirname "$0")" && pwd)
status=0
inside() {{ at=$1; shift; ip netns exec "$lab-$at" "$@"; }}
wire() {{ ip link add "$2" netns "$lab-$1" type veth peer name "$4" netns "$lab-$3" || status=1; }}
room() {{ ip netns add "$lab-$1" && inside "$1" ip link set lo up || status=1; }}
router() {{  # its name and its number
    run=/var/run/frr/$lab-$2
    mkdir -p "$run" && chown frr:frr "$run"
    inside "$1" sh "$here/$1/kernel.sh" || status=1
    for daemon in mgmtd zebra staticd ospfd ldpd bgpd; do
        [ ! -x "$daemons/$daemon" ] || inside "$1" "$daemons/$daemon" -d -N "$lab-$2" -f /dev/null --log "file:$run/$daemon.log" >/dev/null || status=1
    done
    inside "$1" vtysh -N "$lab-$2" -f "$here/$1/frr.conf" >"$run/vtysh.log" 2>&1 || {{ cat "$run/vtysh.log" >&2; status=1; }}
}}
ends() {{  # its name and its number
    for file in "/var/run/frr/$lab-$2"/*.pid; do [ ! -f "$file" ] || kill "$(cat "$file")" 2>/dev/null; done
    rm -rf "/var/run/frr/${{lab:?}}-$2"
}}
case $1 in
up)
{up}    ;;
down)
{down}    ;;
*)
    echo "usage: $0 up | down" >&2
    exit 2
    ;;
esac
exit $status
"""
README = """# The lab {name}

Made by `mplsnet-lab export` of {source}: {routers} routers of FRR, {hosts} hosts, one for each site.

| | |
|---|---|
| `NODE/frr.conf` | the router's configuration: OSPF, LDP with ordered control, BGP between loopbacks for VPN routes, VRFs with static routes to their sites |
| `NODE/daemons`, `NODE/vtysh.conf` | which daemons run |
| `NODE/kernel.sh` | what the kernel has to have before: VRFs, MPLS on the links |
{files}| `ping.sh` | pings from each site to each other |
| `lab.json` | where each router is, for `mplsnet-lab collect` |

## What it needs

The kernel of the machine, with these modules (`modprobe -a mpls_router mpls_iptunnel vrf`), and labels (`sysctl net.mpls.platform_labels`{by}):

- `mpls_router`, `mpls_iptunnel`: frames with labels, and packets that get them
- `vrf`: the VRFs' tables

{how}

Then `./ping.sh`, and

    mplsnet-lab collect {name_of_folder}
    mplsnet-lab compare {source} {name_of_folder}/tables

Back to a topology: `mplsnet-new --from {back}`.
"""
HOW = {
    "containerlab": "`containerlab deploy -t lab.clab.yml` starts it, `containerlab destroy -t lab.clab.yml` ends it\n"
    "([containerlab](https://containerlab.dev)). FRR's image is that of `--image` and `--tag`.",
    "netlab": "`netlab up` starts it, `netlab down` ends it ([netlab](https://netlab.tools), 1.9.1 or later for static routes in VRFs).\n"
    "netlab writes the routers' configurations itself and chooses the links' addresses; LDP then advertises labels as its templates say.",
    "frr": "FRR (Debian's package `frr`) and `ip`. As root, `./lab.sh up` makes a network namespace for each router and host and starts\n"
    "FRR's daemons there; `./lab.sh down` ends them.",
}


def lab_text(plan):
    """lab.sh: the lab in network namespaces."""
    net = plan.net
    up = [f"    room {name}" for name in [*net.nodes, *plan.hosts]]
    up += [f"    wire {node} {port} {near} {other}" for (node, port), (near, other) in wires(plan)]
    up += [f"    inside {host} {line}" for site, host in enumerate(plan.hosts) for line in host_lines(plan, site)]
    up += [f"    router {name} {node + 1}" for node, name in enumerate(net.nodes)]
    down = [f"    ends {name} {node + 1}" for node, name in enumerate(net.nodes)]
    down += [f'    ip netns del "$lab-{name}"' for name in [*net.nodes, *plan.hosts]]
    return LAB.format(lab=plan.name, up="".join(f"{line}\n" for line in up), down="".join(f"{line}\n" for line in down))


def readme_text(plan, form, source, folder):
    """README.md of the lab."""
    files = {"containerlab": "| `lab.clab.yml` | the lab for containerlab |\n", "frr": "| `lab.sh` | runs the lab in network namespaces |\n"}.get(form)
    text = README if form != "netlab" else re.sub(r"(?m)^\| `NODE/.*\n", "", README).replace("{files}", "| `topology.yml` | the lab for netlab |\n")
    back, by = (f"{folder}/topology.yml", "") if form == "netlab" else (folder, ",\nwhich `kernel.sh` sets")
    return text.format(
        name=plan.name, source=source, routers=len(plan.net.nodes), hosts=len(plan.hosts), files=files, how=HOW[form], name_of_folder=folder, back=back, by=by
    )


def manifest(plan, form):
    """lab.json: how each router's shell is reached."""
    at = {}
    for node, name in enumerate(plan.net.nodes):
        words = ["ip", "netns", "exec", f"{plan.name}-{name}", "vtysh", "-N", f"{plan.name}-{node + 1}"]
        at[name] = words if form == "frr" else ["docker", "exec", f"clab-{plan.name}-{name}", "vtysh"]
    return json.dumps({"lab": plan.name, "form": form, "routers": at}, indent=1) + "\n"


def files_of(plan, form, source, folder, image, host_image):
    """The files of the lab by their places in its folder; those that are run end in .sh."""
    found = {"lab.json": manifest(plan, form), "ping.sh": ping_text(plan, form), "README.md": readme_text(plan, form, source, folder)}
    if form == "netlab":
        return found | {"topology.yml": netlab_text(plan, image)}
    for node, name in enumerate(plan.net.nodes):
        found[f"{name}/frr.conf"] = router_text(plan, node)
        found[f"{name}/daemons"] = DAEMONS
        found[f"{name}/vtysh.conf"] = "service integrated-vtysh-config\n"
        found[f"{name}/kernel.sh"] = kernel_text(plan, node)
    return found | ({"lab.sh": lab_text(plan)} if form == "frr" else {"lab.clab.yml": containerlab_text(plan, image, host_image)})
