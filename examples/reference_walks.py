"""Least walks for reference.py, reference_flood.py and reference_reach.py, over the links that a node takes for up."""


def costs_to(links, nodes, view, to):
    """Of each of so many nodes from which a walk over the links of the view leads to this one, the least cost of any."""
    costs, ways = {to: 0}, [(link.a, link.b, link.cost) for up, link in zip(view, links) if up]
    for _ in range(nodes):  # a least walk passes no node twice
        for x, y, cost in ways + [(y, x, cost) for x, y, cost in ways]:
            if y in costs:
                costs[x] = min(costs.get(x, cost + costs[y]), cost + costs[y])
    return costs


def first_hop(links, neighbours, view, costs, node):
    """The neighbour of least number on a walk of these costs from the node, and the link to it; None where none leads."""
    for neighbour, link in neighbours:
        if view[link] and neighbour in costs and links[link].cost + costs[neighbour] == costs[node]:
            return neighbour, link
    return None


def tree_lines(names, node, ways):
    """The node's table: ways has of each other node in order its number, cost and next hop, these None where no walk leads."""
    for to, cost, hop in ways:
        if cost is None:
            yield f"tree {names[node]} to {names[to]} unreachable"
        else:
            yield f"tree {names[node]} to {names[to]} cost {cost} next {names[hop]}"
