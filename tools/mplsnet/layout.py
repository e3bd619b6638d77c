"""Where the nodes of a network and their sites are drawn."""

import math


def distances(count, links):
    """The number of links between each two nodes, by breadth; one more than the most where nothing joins them."""
    beside = [[] for _ in range(count)]
    for a, b in links:
        beside[a].append(b)
        beside[b].append(a)
    table = []
    for start in range(count):
        far, queue = {start: 0}, [start]
        for at in queue:
            for to in beside[at]:
                if to not in far:
                    far[to] = far[at] + 1
                    queue.append(to)
        table.append(far)
    most = max((max(far.values()) for far in table), default=0) + 1
    return [[far.get(to, most) for to in range(count)] for far in table]


def laid_out(count, links, unit):
    """A place for each node, so that those d links apart are about d units apart (stress majorization), widest across.

    It begins with the places that classical scaling gives, and goes on as long as it may for a drawing made in seconds.
    """
    far = distances(count, links)
    places = scaled(far)
    for _ in range(min(300, 2_000_000 // max(1, count * count))):
        for at in range(count):
            x = y = weight = 0.0
            for to in range(count):
                if to == at:
                    continue
                wanted = far[at][to]
                share = 1 / (wanted * wanted)
                dx, dy = places[at][0] - places[to][0], places[at][1] - places[to][1]
                length = math.hypot(dx, dy) or 0.001
                x += share * (places[to][0] + dx * wanted / length)
                y += share * (places[to][1] + dy * wanted / length)
                weight += share
            if weight:
                places[at] = [x / weight, y / weight]
    return turned(places, unit)


def circle(count, unit):
    """Places on a circle in the nodes' order, the first one above, neighbours about a unit apart.

    The second half is turned a little, so that lines between opposite nodes don't all meet in the middle.
    """
    radius = unit / 2 / math.sin(math.pi / count) if count > 1 else 0
    turn = 0.3 * 2 * math.pi / count if count >= 8 else 0
    angles = [2 * math.pi * at / count - math.pi / 2 + (turn if 2 * at >= count else 0) for at in range(count)]
    return [(round(radius * math.cos(angle)), round(radius * math.sin(angle))) for angle in angles]


def scaled(far):
    """Classical scaling: the two greatest axes of the centred squares of the distances; nodes on one place are moved apart."""
    count = len(far)
    squares = [[one * one for one in row] for row in far]
    means = [sum(row) / count for row in squares]
    mean = sum(means) / max(1, count)
    matrix = [[-0.5 * (squares[a][b] - means[a] - means[b] + mean) for b in range(count)] for a in range(count)]
    axes = []
    for turn in range(2):
        axis = [math.cos(1 + at * (1 + turn)) for at in range(count)]
        for _ in range(60):
            for other, _ in axes:
                along = sum(one * two for one, two in zip(axis, other))
                axis = [one - along * two for one, two in zip(axis, other)]
            axis = [sum(one * two for one, two in zip(row, axis)) for row in matrix]
            length = math.sqrt(sum(one * one for one in axis))
            axis = [one / length if length > 1e-9 else 0.0 for one in axis]
        axes.append((axis, math.sqrt(max(length, 0.0)) if length > 1e-6 else 0.0))
    places = [[axis[at] * size for axis, size in axes] for at in range(count)]
    for at in range(count):
        if any(math.dist(places[at], places[to]) < 0.1 for to in range(at)):
            places[at] = [places[at][0] + 0.4 * math.cos(at), places[at][1] + 0.4 * math.sin(at)]
    return places


def turned(places, unit):
    """The places about their middle, turned so that they are widest across and the first node is left or above."""
    count = len(places)
    if not count:
        return []
    mid = [sum(place[axis] for place in places) / count for axis in (0, 1)]
    moved = [(x - mid[0], y - mid[1]) for x, y in places]
    sxx, syy, sxy = sum(x * x for x, _ in moved), sum(y * y for _, y in moved), sum(x * y for x, y in moved)
    angle = -0.5 * math.atan2(2 * sxy, sxx - syy)
    cos, sin = math.cos(angle), math.sin(angle)
    spun = [(x * cos - y * sin, x * sin + y * cos) for x, y in moved]
    flip_x = -1 if spun[0][0] > 1e-6 else 1
    flip_y = -1 if spun[0][1] > 1e-6 else 1
    return [(round(x * flip_x * unit), round(y * flip_y * unit)) for x, y in spun]


# Boxes: half the width and half the height of what is drawn, in full and with its name alone, as mplsnet/play_draw.js has them.


def node_box(name):
    return max(52.0, 4.4 * len(name) + 12), 23.0


def site_box(name, vrf):
    return max(58.0, 3.7 * (len(name) + 5) + 8, 3.4 * (len(vrf) + 4) + 8), 27.0


def short_box(name, high):
    return 3.6 * len(name) + 7, high


SCREEN = (1040, 680)  # the pixels of the drawing on a usual screen
NAME = 10.5 / 12  # of a name alone: 10.5 pixels there
GAP = 7  # between boxes
RING = 200  # the way from a node to the next one of a ring


def is_provider(count, edges, links):
    """Edges around a core: more edges than other nodes, and few links between edges."""
    cores = count - len(edges)
    between = sum(a in edges and b in edges for a, b in links)
    return count > 14 and 0 < cores < len(edges) and between * 4 <= len(links)


def likely_edges(count, edges, links):
    """The nodes without a VRF that stand where edges do: no link leads from them to an edge, and no way of fewest links between edges passes them."""
    beside = [[] for _ in range(count)]
    for a, b in links:
        beside[a].append(b)
        beside[b].append(a)
    most, far = max((len(beside[edge]) for edge in edges), default=0), distances(count, links)
    found = set()
    for node in range(count):
        is_apart = node not in edges and 0 < len(beside[node]) <= most and not any(near in edges for near in beside[node])
        if is_apart and not any(far[a][node] + far[node][b] == far[a][b] for a in edges for b in edges if a < b):
            found.add(node)
    return found


def cycle(count, links):
    """The nodes in the order of a ring that takes in all of them, none where there is no such: each has two links, or is linked to the next one."""
    beside = [set() for _ in range(count)]
    for a, b in links:
        beside[a].add(b)
        beside[b].add(a)
    if count < 4:
        return None
    if all((at + 1) % count in beside[at] for at in range(count)):
        return list(range(count))
    order = [0]
    while all(len(near) == 2 for near in beside) and (onward := [near for near in sorted(beside[order[-1]]) if near not in order]):
        order.append(onward[0])
    return order if len(order) == count else None


def drawing(kind, names, edges, links, sites, unit=300, reach=165):
    """A place for each node and each site (its name, VRF and node), none on another; edges is the set of nodes with a VRF."""
    homes = [home for *_, home in sites]
    edges = edges | likely_edges(len(names), edges, links)
    around = cycle(len(names), links) if kind == "auto" else None
    if kind == "rings" or kind == "auto" and is_provider(len(names), edges, links):
        nodes, outer = rings(len(names), edges, links, homes)
    else:
        nodes = circle(len(names), unit) if kind == "circle" else laid_out(len(names), links, unit)
        if around:
            nodes = [(1.2 * x, y) for _, (x, y) in sorted(zip(around, circle(len(names), RING)))]
        nodes = moved_apart([(x, y, wide + 40, high + 30) for (x, y), (wide, high) in zip(nodes, map(node_box, names))], 0)
        outer = sites_laid_out(nodes, links, homes, reach, 66)
    full = [node_box(name) for name in names] + [site_box(name, vrf) for name, vrf, _ in sites]
    short = [short_box(name, 11) for name in names] + [short_box(name, 9) for name, *_ in sites]
    places = nodes + outer
    for _ in range(4):
        size = NAME / scale_of(places, full)
        boxes = [(x, y, max(one[0], two[0] * size) + GAP, max(one[1], two[1] * size) + GAP) for (x, y), one, two in zip(places, full, short)]
        if not any_on_another(boxes):
            break
        places = moved_apart(boxes, len(names))
    places = [(round(x), round(y)) for x, y in places]
    return places[: len(names)], places[len(names) :]


def scale_of(places, boxes):
    """How many pixels of a usual screen a unit takes where all is seen."""
    spans = [[places[at][axis] + way * boxes[at][axis] for at in range(len(places)) for way in (-1, 1)] for axis in (0, 1)]
    return min(pixels / max(1, max(span) - min(span)) for pixels, span in zip(SCREEN, spans)) if places else 1


def pairs_on_another(boxes):
    """The pairs of boxes that overlap, each with by how much, found in the order of their left sides."""
    order = sorted(range(len(boxes)), key=lambda at: boxes[at][0] - boxes[at][2])
    for place, at in enumerate(order):
        x, y, wide, high = boxes[at]
        for other in order[place + 1 :]:
            far_x, far_y, far_wide, far_high = boxes[other]
            if far_x - far_wide >= x + wide:
                break
            over = high + far_high - abs(y - far_y)
            if over > 1e-6:
                yield at, other, wide + far_wide - abs(x - far_x), over


def any_on_another(boxes):
    return next(pairs_on_another(boxes), None) is not None


def moved_apart(boxes, fixed):
    """The boxes' places when none lies on another: the first ones stay, but that all move from the middle where there is no room."""
    boxes = [list(box) for box in boxes]
    for turn in range(1, 1500):
        pairs = list(pairs_on_another(boxes))
        if not pairs:
            break
        for at, other, wide, high in pairs:
            axis, over = (0, wide) if wide < high else (1, high)
            way = 1 if (boxes[other][axis], other) >= (boxes[at][axis], at) else -1
            share = 0 if at < fixed else 1 if other < fixed else 0.5
            if max(at, other) >= fixed:
                boxes[at][axis] -= way * (over * share + (0.5 if share else 0))
                boxes[other][axis] += way * (over * (1 - share) + (0.5 if share < 1 else 0))
        if turn % 40 == 0 or all(max(at, other) < fixed for at, other, *_ in pairs):
            for box in boxes:
                box[0], box[1] = box[0] * 1.06, box[1] * 1.06
    return [(x, y) for x, y, *_ in boxes]


# A provider: its core within, its edges around it in the order of the cores that they are at, and their sites outside.

SLOT, WIDER = 74, 1.5  # the way along the outer ring for each site, and how much wider than high the rings are


def rings(count, edges, links, homes):
    """Places of the nodes and of the sites."""
    cores = [at for at in range(count) if at not in edges]
    numbers = {core: at for at, core in enumerate(cores)}
    inner = laid_out(len(cores), [(numbers[a], numbers[b]) for a, b in links if a in numbers and b in numbers], 300)
    order = sorted(numbers.values(), key=lambda at: (round(math.atan2(inner[at][1], inner[at][0]), 3), at))
    angle = {cores[at]: 2 * math.pi * place / len(cores) for place, at in enumerate(order)}
    wanted = {}
    for edge in sorted(edges):
        near = [angle[b if a == edge else a] for a, b in links if edge in (a, b) and (b if a == edge else a) in angle]
        x, y = sum(map(math.cos, near)), sum(map(math.sin, near))
        wanted[edge] = math.atan2(y, x) % (2 * math.pi) if math.hypot(x, y) > 0.2 else (near[0] if near else 0)
    around = sorted(edges, key=lambda edge: (round(wanted[edge], 3), edge))
    slots = {edge: max(1.6, homes.count(edge)) for edge in around}
    length = max(sum(slots.values()) * SLOT, len(edges) * 118 + 900, len(cores) * 260)
    high = length / around_of(WIDER, 1)
    ring = [(WIDER * high, high), (WIDER * high - 190, high - 120), (max(120, WIDER * high - 480), max(80, high - 310))]
    places, at, edge_share = {}, 0.0, {}
    for edge in around:
        edge_share[edge] = (at + slots[edge] / 2) / sum(slots.values())
        at += slots[edge]
    # The first edge stands where it is nearest to its cores.
    turn = wanted[around[0]] / (2 * math.pi) - edge_share[around[0]] if around else 0
    for edge in around:
        places[edge] = on_ring(*ring[1], edge_share[edge] + turn)
    for core in cores:
        places[core] = on_ring(*ring[2], angle[core] / (2 * math.pi))
    outer, seen, total = [], {}, sum(slots.values())
    for home in homes:
        place = seen[home] = seen.get(home, -1) + 1
        share = edge_share[home] + (place - (homes.count(home) - 1) / 2) * slots[home] / homes.count(home) / total + turn
        outer.append(on_ring(*ring[0], share))
    return [places[at] for at in range(count)], outer


def around_of(wide, high):
    """The length of an ellipse (Ramanujan's approximation)."""
    return math.pi * (3 * (wide + high) - math.sqrt((3 * wide + high) * (wide + 3 * high)))


def on_ring(wide, high, share):
    """The place on an ellipse after a share of its way around, counted from the right."""
    share %= 1
    points, way = 360, [0.0]
    spots = [(wide * math.cos(2 * math.pi * at / points), high * math.sin(2 * math.pi * at / points)) for at in range(points + 1)]
    for one, other in zip(spots, spots[1:]):
        way.append(way[-1] + math.dist(one, other))
    at = next(at for at in range(points) if way[at + 1] >= share * way[-1])
    part = (share * way[-1] - way[at]) / (way[at + 1] - way[at])
    return tuple(one + (other - one) * part for one, other in zip(spots[at], spots[at + 1]))


# Two networks that are joined at sites.

BETWEEN = {0: 340, 1: 320}  # the way between them, by the axis along which they stand


def joined(one, other, joints, axis):
    """The places of two networks (nodes, sites) beside each other (axis 0) or one below the other (1), their joined sites as near as may be."""
    if not one[0] or not other[0]:
        return one, other
    across = 1 - axis
    marks = [one[1][a] for a, _ in joints], [other[1][b] for _, b in joints]
    one, other = turned_to(one, marks[0], axis, 1), turned_to(other, marks[1], axis, -1)
    marks = [one[1][a] for a, _ in joints], [other[1][b] for _, b in joints]
    if sum((a[across] - mean_of(one, across)) * (b[across] - mean_of(other, across)) for a, b in zip(*marks)) < 0:
        other = tuple([flipped(place, across, mean_of(other, across)) for place in part] for part in other)
        marks = marks[0], [other[1][b] for _, b in joints]
    shift = [0, 0]
    shift[axis] = max(place[axis] for part in one for place in part) - min(place[axis] for part in other for place in part) + BETWEEN[axis]
    if joints:
        shift[across] = round(sum(a[across] - b[across] for a, b in zip(*marks)) / len(joints))
    return one, tuple([(x + shift[0], y + shift[1]) for x, y in part] for part in other)


def mean_of(places, axis):
    found = [place[axis] for part in places for place in part]
    return (min(found) + max(found)) / 2


def flipped(place, axis, about):
    return tuple(round(2 * about - one) if at == axis else one for at, one in enumerate(place))


def turned_to(places, marks, axis, way):
    """The places, mirrored where these of them lie on the other side of the middle."""
    about = mean_of(places, axis)
    if way * sum(mark[axis] - about for mark in marks) >= 0:
        return places
    return tuple([flipped(place, axis, about) for place in part] for part in places)


# Sites beside their nodes.


def sites_laid_out(places, links, sites, reach, gap):
    """A place for each site, in rows beside its node where the angle between the node's links is widest."""
    angles = [[] for _ in places]
    for a, b in links:
        for here, there in ((a, b), (b, a)):
            angles[here].append(math.atan2(places[there][1] - places[here][1], places[there][0] - places[here][0]))
    laid, count = [], {}
    for node in sites:
        count[node] = count.get(node, 0) + 1
    at = dict.fromkeys(count, 0)
    for node in sites:
        start, width = widest(sorted(angles[node]), math.atan2(places[node][1], places[node][0]))
        row, place = divmod(at[node], 5)
        here = min(5, count[node] - row * 5)
        spread = min(width / (here + 1), 0.85) if here > 1 else 0
        angle = start + width / 2 + spread * (place - (here - 1) / 2)
        radius = reach + row * gap
        # Sites are wider than high: those above and below a node may be nearer.
        laid.append((round(places[node][0] + radius * math.cos(angle) * 1.15), round(places[node][1] + radius * math.sin(angle) * 0.9)))
        at[node] += 1
    return laid


def widest(angles, outward):
    """The widest gap between the angles: where it starts, and how wide it is; outward where there is no angle."""
    if not angles:
        return outward - math.pi, 2 * math.pi
    gaps = [(b - a, a) for a, b in zip(angles, angles[1:] + [angles[0] + 2 * math.pi])]
    width, start = max(gaps, key=lambda gap: (round(gap[0], 3), math.cos(gap[1] + gap[0] / 2 - outward)))
    return start, width
