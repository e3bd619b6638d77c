"""A run as data: lists of dicts, so that 'pandas.DataFrame(run.packets)' is all that it takes.

    from mplsnet.run import Run
    run = Run("out")                      # what 'mplsnet run .. out >out/report.txt' left
    run.packets[0]["verdict"]             # 'delivered'

Each kind is a list of dicts with the same keys in every entry, None where an entry has no such thing; KEYS has them. A step has its
number, from 1, which is its line in journal.txt; ticks are those of the journal. KINDS says what there is.
"""

import re
from functools import cached_property

from mplsnet.files import Fault, lines_of, read_run, way_of
from mplsnet.replay import Frames, sessions_of
from mplsnet.words import attributes, bgp_words, ldp_words, packet_words, prefix, route, target

KINDS = {
    "packets": "how each packet ended, with its path, and the steps by which it came in and ended",
    "steps": "the journal, a dict for each step",
    "labels": "what each node gave each label for",
    "messages": "what was said by LDP and told by BGP, with the step that heard it",
    "sessions": "each life of a session, with the steps that began and ended it",
    "frames": "what was sent over the links, with labels, by packet",
    "deliveries": "the packets that arrived",
    "tables": "what 'show' lines reported",
    "refused": "the lines of the script that were refused",
}
FIELDS = {
    "link": ("what", "a", "b"),
    "learn": ("node", "a", "b"),
    "ldp": ("what", "a", "b"),
    "hear": ("what", "a", "b"),
    "bgp": ("what", "a", "b"),
    "route": ("what", "site", "prefix"),
    "import": ("what", "vrf", "target"),
    "export": ("what", "vrf", "target"),
    "site": ("what", "site"),
    "inject": ("site", "record"),
    "carry": ("a", "b", "place"),
    "lose": ("a", "b", "place"),
    "tick": ("ticks",),
    "damage": ("what", "a", "b", "record"),
}
STEP = ("step", "tick", "kind", "what", "a", "b", "node", "site", "vrf", "prefix", "target", "record", "place", "ticks", "words")
PACKET = ("packet", "line", "site", "record", "verdict", "rule", "node", "to", "ttl", "copy", "hops", "path", "sent", "ended", "tick", "ended_tick")
LDP_TYPES = {0x0001: "notification", 0x0200: "initialization", 0x0201: "keepalive", 0x0300: "address", 0x0400: "mapping", 0x0402: "withdraw", 0x0403: "release"}
MESSAGE = ("protocol", "session", "sender", "receiver", "number", "type", "fec", "label", "rd", "prefix", "targets", "heard", "tick", "bytes", "words")
TABLES = (
    ("links", r"link (?P<a>\S+) (?P<b>\S+) (?P<state>up|down) cost (?P<cost>\d+) changes (?P<changes>\d+)"),
    ("tree", r"tree (?P<node>\S+) to (?P<to>\S+) (?:unreachable|cost (?P<cost>\d+) next (?P<next>\S+))"),
    ("ldp", r"ldp (?P<a>\S+) (?P<state>\S+) (?P<b>\S+) (?P<other_state>\S+)"),
    ("bgp", r"bgp (?P<a>\S+) (?P<state>\S+) (?P<b>\S+) (?P<other_state>\S+)"),
    ("vrf", r"route (?P<vrf>\S+) (?P<prefix>\S+) site (?P<site>\S+)"),
    ("vrf", r"route (?P<vrf>\S+) (?P<prefix>\S+) vrf (?P<of_vrf>\S+) site (?P<site>\S+)"),
    ("vrf", r"route (?P<vrf>\S+) (?P<prefix>\S+) edge (?P<edge>\S+) label (?P<label>\d+)(?: (?P<state>unresolved))?"),
    ("flight", r"(?P<what>notices|messages) (?P<count>\d+)"),
    ("flight", r"(?P<what>frames) (?P<a>\S+) (?P<b>\S+) (?P<count>\d+)"),
    ("frame", r"frame (?P<node>\S+) (?P<record>\d+) next (?P<next>\S+) bytes (?P<bytes>[0-9A-F]*)"),
    ("frame", r"frame (?P<node>\S+) (?P<record>\d+) site (?P<site>\S+) bytes (?P<bytes>[0-9A-F]*)"),
    ("frame", r"frame (?P<node>\S+) (?P<record>\d+) (?:drop|unread) (?P<rule>\S+)"),
)
TABLE = ("table", "kind", "a", "b", "node", "to", "state", "other_state", "cost", "changes", "next", "vrf", "prefix", "site", "of_vrf", "edge", "label", "what", "count", "record", "rule", "bytes")
KEYS = {
    "packets": PACKET,
    "steps": STEP,
    "labels": ("node", "label", "kind", "fec", "site", "attachment"),
    "messages": MESSAGE,
    "sessions": ("session", "protocol", "opener", "other", "begun", "begun_tick", "ended", "ended_tick", "said", "heard"),
    "frames": ("step", "tick", "packet", "sender", "receiver", "edge", "labels", "ttl", "size", "words"),
    "deliveries": ("copy", "packet", "site", "step", "tick", "ttl", "size", "words", "bytes"),
    "tables": TABLE,
    "refused": ("line", "rule", "site"),
}
NUMBERS = {"cost", "changes", "label", "count", "record", "place", "ticks"}


def filled(keys, values):
    """A dict with all of the keys."""
    return {key: int(values[key]) if key in NUMBERS and values.get(key) is not None else values.get(key) for key in keys}


class Run:
    """The folder of a run, read once. The report is FOLDER/report.txt, or the file that is named."""

    def __init__(self, folder, report=None):
        self.files = read_run(folder)
        self.report_path = report or self.files.folder / "report.txt"
        if report is None and not self.report_path.exists():
            raise Fault(f"{self.report_path}: isn't there: save what 'mplsnet run' puts, as by 'mplsnet run .. {folder} >{self.report_path}', or name the report")

    def kind(self, name):
        """The list of this name of KINDS."""
        return getattr(self, name)

    # The report.

    @cached_property
    def report(self):
        """The report's lines."""
        return lines_of(self.report_path, "a report")

    @cached_property
    def ways(self):
        """The way of each packet, as mplsnet.files has it."""
        return [way_of(f"{self.report_path}: line {number}", line.split()) for number, line in enumerate(self.report, 1) if line.startswith("packet ")]

    @cached_property
    def total(self):
        """The numbers of the last line, by name; none where the journal was full."""
        words = self.report[-1].split() if self.report else []
        return {name: int(count) for name, count in zip(words[1::2], words[2::2])} if words[:1] == ["total"] else None

    @cached_property
    def refused(self):
        found = (re.fullmatch(r"line (\d+) refused (\w+)(?: (\S+))?", line) for line in self.report)
        return [{"line": int(line[1]), "rule": line[2], "site": line[3]} for line in found if line]

    @cached_property
    def tables(self):
        """Each line of each table, with the table's number from 1: one begins where the kind or what is asked for changes, or its first line comes again."""
        lines, table, last, first = [], 0, None, None
        for line in self.report:
            for kind, form in TABLES:
                found = re.fullmatch(form, line)
                if not found:
                    continue
                entry = filled(TABLE[2:], found.groupdict())
                key = (kind, entry["node"] if kind == "tree" else entry["vrf"] if kind == "vrf" else None)
                name = tuple(entry[one] for one in ("a", "b", "to", "prefix", "what"))
                if key != last or name == first:
                    table, last, first = table + 1, key, name
                lines.append({"table": table, "kind": kind} | entry)
                break
            else:
                last = None
        return lines

    @cached_property
    def packets(self):
        began = {move.packet: move for move in self.moves if move.words[0] == "inject"}
        ended = {}
        for move in self.moves:
            for number in [flight.packet for flight in move.took] if move.end and move.took else [move.packet] if move.end else []:
                ended[number] = move
        lines = [line.split() for line in self.report if line.startswith("packet ")]
        return [self.packet(number, words, way, began[number], ended.get(number)) for number, (words, way) in enumerate(zip(lines, self.ways), 1)]

    def packet(self, number, words, way, began, ended):
        """A packet's dict; its numbers are those of its steps."""
        said = dict(zip({"delivered": ("to", "ttl", "copy"), "dropped": ("rule", "node"), "flying": ("node", "to")}[way.end], way.words))
        values = {
            "packet": number, "line": int(words[3]), "site": way.site, "record": int(words[7]), "verdict": way.end, **said,
            "hops": len(way.nodes) - 1, "path": " ".join(way.nodes), "sent": began.step + 1, "tick": began.tick,
            "ended": ended.step + 1 if ended else None, "ended_tick": ended.tick if ended else None,
        }  # fmt: skip
        return {key: int(values[key]) if key in ("ttl", "copy") and key in values else values.get(key) for key in PACKET}

    # The journal and the files beside it.

    @cached_property
    def steps(self):
        entries = []
        for number, (tick, words) in enumerate(self.files.steps, 1):
            kind, *rest = words
            values = {"step": number, "tick": tick, "kind": kind, "words": " ".join(words)} | dict(zip(FIELDS[kind], rest))
            entries.append(filled(STEP, values))
        return entries

    @cached_property
    def labels(self):
        return [
            {"node": node, "label": label, "kind": what[0], "fec": what[1] if what[0] == "fec" else None}
            | ({"site": what[1], "attachment": what[2]} if what[0] == "site" else {"site": None, "attachment": None})
            for node, given in self.files.given.items()
            for label, what in given
        ]

    @cached_property
    def moves(self):
        """The steps that move packets, as mplsnet.replay finds them."""
        return Frames(self.files, self.ways).found()

    @cached_property
    def lives(self):
        return sessions_of(self.files)

    @cached_property
    def sessions(self):
        tick = [tick for tick, _ in self.files.steps]
        return [
            {
                "session": number, "protocol": one.protocol, "opener": one.opener, "other": one.other, "begun": one.begun + 1, "begun_tick": tick[one.begun],
                "ended": one.ended + 1 if one.ended is not None else None, "ended_tick": tick[one.ended] if one.ended is not None else None,
                "said": sum(map(len, one.said.values())), "heard": sum(one.heard.values()),
            }
            for number, one in enumerate(self.lives[0], 1)
        ]  # fmt: skip

    @cached_property
    def messages(self):
        """By session, in each first what the opener said."""
        sessions, talk = self.lives
        heard = {}
        for at, things in talk.items():
            for what, session, *more in things:
                if what == "hears":
                    heard[id(session), *more] = at
        entries = []
        for number, session in enumerate(sessions, 1):
            for speaker in (session.opener, session.other):
                for place, message in enumerate(session.said[speaker]):
                    at = heard.get((id(session), speaker, place))
                    values = ldp_fields(message) if session.protocol == "ldp" else bgp_fields(message)
                    values |= {"protocol": session.protocol, "session": number, "sender": speaker, "receiver": session.peer(speaker), "number": place + 1}
                    values |= {"heard": at + 1 if at is not None else None, "tick": self.files.steps[at][0] if at is not None else None, "bytes": message.hex()}
                    entries.append({key: values.get(key) for key in MESSAGE})
        return entries

    @cached_property
    def frames(self):
        """In the order of sending."""
        return [
            {
                "step": move.step + 1, "tick": move.tick, "packet": move.sent.packet, "sender": move.sent.sender, "receiver": move.sent.receiver,
                "edge": move.sent.edge, "labels": " ".join(str(one.label) for one in move.sent.frame.stack), "ttl": move.sent.frame.stack[0].ttl,
                "size": len(move.sent.frame.bytes()), "words": packet_words(move.sent.frame.packet),
            }
            for move in self.moves
            if move.sent
        ]  # fmt: skip

    @cached_property
    def deliveries(self):
        ended = [one for one in self.packets if one["verdict"] == "delivered"]
        number = {one["copy"]: one for one in ended}
        return [
            {"copy": copy, "packet": number[copy]["packet"], "site": number[copy]["to"], "step": number[copy]["ended"], "tick": tick}
            | {"ttl": packet[8], "size": len(packet), "words": packet_words(packet), "bytes": packet.hex()}
            for copy, (tick, packet) in enumerate(self.files.delivered, 1)
        ]


def ldp_fields(pdu):
    """What a PDU with one message says."""
    kind = int.from_bytes(pdu[10:12], "big") & 0x7FFF
    values = {"type": LDP_TYPES.get(kind, f"{kind:04x}"), "words": ldp_words(pdu)}
    if kind not in (0x0400, 0x0402, 0x0403):
        return values
    size = int.from_bytes(pdu[20:22], "big")
    fec = pdu[22 : 22 + size]
    return values | {"fec": prefix(fec[3], fec[4:]), "label": int.from_bytes(pdu[26 + size : 30 + size], "big")}


def bgp_fields(message):
    """What a message of BGP says."""
    values = {"type": {1: "open", 3: "notification", 4: "keepalive"}.get(message[18], "update"), "words": bgp_words(message)}
    for kind, value in attributes(message[23:]) if message[18] == 2 else ():
        if kind in (14, 15):
            label, words = route(value[17:] if kind == 14 else value[3:])
            rd, of = words.split()
            values |= {"type": "announce" if kind == 14 else "withdraw", "label": label if kind == 14 else None, "rd": rd, "prefix": of}
        elif kind == 16:
            values["targets"] = " ".join(target(value[at], value[at + 2 : at + 8]) for at in range(0, len(value), 8))
    return values
