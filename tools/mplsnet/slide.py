"""A picture (SVG) of the network after a step of a run: links, sessions, frames with their label stacks, and the step in words."""

import math
import textwrap
from xml.sax.saxutils import escape

from mplsnet.layout import node_box, scale_of, short_box, site_box

INK, FAINT, LINE, DOWN, PAPER = "#1c2733", "#66758a", "#46556a", "#b9c3d0", "#ffffff"
GRADES = {"operational": "#15803d", "established": "#15803d", "none": DOWN, "idle": DOWN}
OPENING, OUTER, INNER, PACKET, GOOD, POOR = "#d99a06", "#2563eb", "#c2570c", "#3f4c5c", "#15803d", "#c81e1e"
VPNS = ["#0f766e", "#b45309", "#9333ea", "#be185d", "#4d7c0f", "#0369a1", "#a16207", "#7f1d1d", "#0e7490", "#6d28d9"]
CHIP_WIDE, CHIP_HIGH = 78, 19
FEW_FRAMES = 8  # more than these aren't shown over a large network, but for the step's
MARGIN, WORDS_HIGH = 60, 110


def slide(net, steps, at):
    """The picture after step `at`, counted from 1."""
    state = steps.state()
    for number in range(at):
        step = steps.told(number)
        state.apply(step)
    return Drawing(net).drawn(state, step, at, steps)


class Drawing:
    """The parts of the picture, those below first."""

    def __init__(self, net):
        self.nodes, self.links, self.sites = net["nodes"], net["links"], net["sites"]
        full = [node_box(one["name"]) for one in self.nodes] + [site_box(one["name"], one["vrf"]) for one in self.sites]
        places = [(one["x"], one["y"]) for one in self.nodes + self.sites]
        scale = scale_of(places, full)
        # Where names in full would be smaller than nine pixels, names stand alone, and larger.
        self.is_full = scale >= 0.8
        self.size = 1 if self.is_full else 10.5 / 12 / scale
        short = [short_box(one["name"], 11) for one in self.nodes] + [short_box(one["name"], 9) for one in self.sites]
        self.half = [(wide * self.size, high * self.size) for wide, high in (full if self.is_full else short)]
        spans = [[places[n][axis] + way * self.half[n][axis] for n in range(len(places)) for way in (-1, 1)] or [0] for axis in (0, 1)]
        self.left, self.top = min(spans[0]) - MARGIN * self.size, min(spans[1]) - MARGIN * self.size
        self.wide = max(spans[0]) - min(spans[0]) + 2 * MARGIN * self.size
        self.high = max(spans[1]) - min(spans[1]) + (2 * MARGIN + WORDS_HIGH) * self.size
        self.parts = []

    def add(self, name, words=None, **attributes):
        told = "".join(f' {key.rstrip("_").replace("_", "-")}="{escape(str(value), {chr(34): "&quot;"})}"' for key, value in attributes.items())
        self.parts.append(f"<{name}{told}/>" if words is None else f"<{name}{told}>{escape(words)}</{name}>")

    def text(self, words, x, y, size=12, colour=INK, weight=400, anchor="middle"):
        self.add("text", words, x=round(x, 1), y=round(y, 1), font_size=round(size * self.size, 1), fill=colour, font_weight=weight, text_anchor=anchor)

    def line(self, a, b, colour, width, **more):
        self.add("line", x1=a[0], y1=a[1], x2=b[0], y2=b[1], stroke=colour, stroke_width=round(width * self.size, 1), **more)

    def box(self, x, y, half, **more):
        self.add("rect", x=round(x - half[0], 1), y=round(y - half[1], 1), width=round(2 * half[0], 1), height=round(2 * half[1], 1), **more)

    def drawn(self, state, step, at, steps):
        for link, up in zip(self.links, state.up):
            dashes = {} if up else {"stroke_dasharray": f"{5 * self.size:.0f} {6 * self.size:.0f}"}
            self.line(self.place(link["a"]), self.place(link["b"]), LINE if up else DOWN, 2.2 if up else 1.6, **dashes)
        for site in self.sites:
            self.line(self.place(site["node"]), (site["x"], site["y"]), "#d5dce6", 1.6)
        for at_site, site in enumerate(self.sites):
            self.site(site, self.half[len(self.nodes) + at_site], state.attached[at_site])
        for number, one in enumerate(self.nodes):
            self.node(one, self.half[number])
        for link in self.links:
            for (one, other), name in zip(((link["a"], link["b"]), (link["b"], link["a"])), state.ends_of("ldp", link["a"], link["b"])):
                x, y = self.rim(one, other, 8)
                self.add("circle", cx=round(x, 1), cy=round(y, 1), r=round(5 * self.size, 1), fill=GRADES.get(name, OPENING), stroke=PAPER)
        are_few = self.is_full or sum(map(len, state.queues.values())) <= FEW_FRAMES
        for way, flights in state.queues.items():
            shown = [flight for flight in flights if are_few or flight == step.get("send")]
            self.frames(*map(int, way.split()), [steps.flights[flight] for flight in shown], state.tick)
        self.ending(step, steps)
        self.words(step, at)
        size = f'viewBox="{self.left:.0f} {self.top:.0f} {self.wide:.0f} {self.high:.0f}" width="1280"'
        head = f'<svg xmlns="http://www.w3.org/2000/svg" {size} style="background: {PAPER}" font-family="system-ui, Helvetica, Arial, sans-serif">'
        return "\n".join([head, *self.parts, "</svg>", ""])

    def place(self, node):
        return self.nodes[node]["x"], self.nodes[node]["y"]

    def rim(self, one, other, more):
        """Where the link to the other node leaves the node's box."""
        (x, y), (far_x, far_y) = self.place(one), self.place(other)
        length = math.dist((x, y), (far_x, far_y)) or 1
        dx, dy = (far_x - x) / length, (far_y - y) / length
        reach = min(self.half[one][0] / (abs(dx) or 1e-9), self.half[one][1] / (abs(dy) or 1e-9)) + more * self.size
        return x + dx * reach, y + dy * reach

    def node(self, one, half):
        round_ = 9 * self.size if one["edge"] else half[1]
        self.box(one["x"], one["y"], half, rx=round(round_, 1), fill="#dbe7fb" if one["edge"] else PAPER, stroke=LINE, stroke_width=1.6 * self.size)
        if self.is_full:
            self.text(one["name"], one["x"], one["y"] - 2, 15, weight=650)
            self.text(one["loopback"], one["x"], one["y"] + 14, 11.5, FAINT)
        else:
            self.text(one["name"], one["x"], one["y"] + 4 * self.size, 12, weight=650)

    def site(self, site, half, is_attached):
        colour, shade = VPNS[site["vpn"] % len(VPNS)], {} if is_attached else {"opacity": 0.38}
        self.box(site["x"], site["y"], half, rx=8 * self.size, fill=PAPER, stroke=colour, stroke_width=1.8 * self.size, **shade)
        if self.is_full:
            self.text(f"site {site['name']}", site["x"], site["y"] - 11, weight=650)
            self.text(f"VRF {site['vrf']}", site["x"], site["y"] + 4, 11.5, colour)
            self.text(" ".join(site["prefixes"][:1]), site["x"], site["y"] + 19, 11.5, FAINT)
        else:
            self.text(site["name"], site["x"], site["y"] + 4 * self.size, 12, colour, 600)

    def frames(self, a, b, flights, tick):
        """The frames of a direction: the first is the farthest; behind three, how many more there are."""
        delay = next(link["delay"] for link in self.links if {link["a"], link["b"]} == {a, b})
        start, end = self.rim(a, b, 12), self.rim(b, a, 12)
        for rank, flight in enumerate(flights[:3]):
            share = max(0.15, 0.3 + 0.48 * min(1, (tick - flight["t"]) / delay) - 0.24 * rank)
            self.chip([one + (other - one) * share for one, other in zip(start, end)], flight, a, b)
        if len(flights) > 3:
            self.text(f"+{len(flights) - 3}", *start, 14, weight=700)

    def chip(self, place, flight, a, b):
        (x, y), (far_x, far_y) = self.place(a), self.place(b)
        length, rows = math.dist((x, y), (far_x, far_y)) or 1, [*flight["st"], [f"IP #{flight['p'] + 1}", flight["ttl"]]]
        away = ((far_y - y) / length, -(far_x - x) / length)
        reach = 11 + abs(away[0]) * CHIP_WIDE / 2 + abs(away[1]) * len(rows) * CHIP_HIGH / 2
        left = place[0] + (away[0] * reach - CHIP_WIDE / 2) * self.size
        top = place[1] + (away[1] * reach - len(rows) * CHIP_HIGH / 2) * self.size
        self.add("circle", cx=round(place[0], 1), cy=round(place[1], 1), r=5 * self.size, fill=PACKET)
        for row, (label, ttl) in enumerate(rows):
            colour = PACKET if row == len(rows) - 1 else INNER if row == len(rows) - 2 else OUTER
            above = top + row * CHIP_HIGH * self.size
            half = (CHIP_WIDE / 2 * self.size, CHIP_HIGH / 2 * self.size)
            self.box(left + half[0], above + half[1], half, rx=4 * self.size, fill=colour, stroke=PAPER)
            self.text(f"{label}", left + 7 * self.size, above + 14 * self.size, 12, PAPER, 600, "start")
            self.text(f"{ttl}", left + (CHIP_WIDE - 7) * self.size, above + 14 * self.size, 12, PAPER, 400, "end")

    def ending(self, step, steps):
        """A mark where the step ends a packet."""
        if step["k"] == "tick":
            self.overdue(step.get("rule"), [(steps.flights[flight], steps.packets[packet]["n"]) for flight, packet in step["gone"]])
        if "p" not in step or "send" in step:
            return
        name = f"#{steps.packets[step['p']]['n']}"
        if step["k"] == "lose":
            flight = steps.flights[step["f"]]
            (x, y), (far_x, far_y) = self.place(flight["a"]), self.place(flight["b"])
            self.text(f"\u2715 {name} Lost", (x + far_x) / 2, (y + far_y) / 2, 15, POOR, 700)
        elif "ttl" in step and step["to"] is not None:
            site = self.sites[step["to"]]
            self.text(f"\u2713 {name} delivered, TTL {step['ttl']}", site["x"], site["y"] + 48 * self.size, 15, GOOD, 700)
        else:
            (x, y), told = self.place(step["n"]), f"delivered, TTL {step['ttl']}" if "ttl" in step else step["drop"]
            self.text(f"{'✓' if 'ttl' in step else '✕'} {name} {told}", x, y + 44 * self.size, 15, GOOD if "ttl" in step else POOR, 700)

    def overdue(self, rule, late):
        """A mark on each link whose frames time has passed."""
        ways = {}
        for flight, number in late:
            ways.setdefault((flight["a"], flight["b"]), []).append(f"#{number}")
        for (a, b), names in ways.items():
            (x, y), (far_x, far_y) = self.place(a), self.place(b)
            self.text(f"\u2715 {rule}: {' '.join(names[:6])}", x + (far_x - x) * 0.45, y + (far_y - y) * 0.45 - 12 * self.size, 15, POOR, 700)

    def words(self, step, at):
        """The step and its sentence, below the network."""
        y = self.top + self.high - (WORDS_HIGH + 10) * self.size
        x = self.left + 24 * self.size
        self.text(f"step {at}, tick {step['t']}: {step['w']}", x, y, 16, weight=700, anchor="start")
        for row, line in enumerate(textwrap.wrap(step["x"], max(40, int(self.wide / self.size / 7.4)))[:4]):
            self.text(line, x, y + (24 + 20 * row) * self.size, 14, anchor="start")
