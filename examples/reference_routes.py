"""The routes of a VRF as the reference has them: what is held, which take part, and the lines of `show vrf`. reference.py, reference_reach.py and
reference_reflect.py import it."""

from dataclasses import dataclass

from reference_inputs import prefix_text


@dataclass
class Route:
    """What a VRF holds: own routes are preferred, then those of another VRF of the edge, then those of other edges."""

    prefix: tuple
    rank: tuple
    edge: int
    site: int
    attachment: int


def eligible(network, vrf, routes):
    """Of these routes of the VRF, where the topology says `resolve`, those that are resolved, if there are any; else all."""
    return network.topology.resolve and [route for route in routes if network.is_resolved(vrf, route)] or routes


def vrf_table(network, vrf):
    """The best route of each prefix that the VRF holds in a network, which tells `held`, `is_resolved` and `site_label`."""
    topology, held, lines = network.topology, network.held(vrf), []
    for of in sorted({route.prefix for route in held}):
        best = min(eligible(network, vrf, [route for route in held if route.prefix == of]), key=lambda route: route.rank)
        mark = " unresolved" if topology.resolve and not network.is_resolved(vrf, best) else ""
        site = topology.sites[best.site]
        if best.rank[0] == 0:
            source = f"site {site.name}"
        elif best.rank[0] == 1:
            source = f"vrf {topology.vrfs[site.vrf].name} site {site.name}"
        else:
            label = network.site_label(best.edge, best.site, best.attachment)
            source = f"edge {topology.nodes[best.edge].name} label {label}"
        lines.append(f"route {topology.vrfs[vrf].name} {prefix_text(of)} {source}{mark}")
    return lines
