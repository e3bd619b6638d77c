"""What is told of what is lost while a network converges: a table, JSON, CSV, a page, and scripts of the worst cases."""

import csv
import html
import json
import re
import subprocess
import sys
import tempfile
from collections import Counter
from pathlib import Path

import mplsnet.orders as orders
import mplsnet.whatif as whatif
from mplsnet.files import Fault
from mplsnet.knowledge import address_text
from mplsnet.pcap import capture_of, udp_packet
from mplsnet.topology import topology_text

TOOLS = Path(__file__).resolve().parents[1]
SHOWN = 4  # pairs and reasons that the table names of each answer
MOST_STEPS = 100_000  # that a page of mplsnet-play takes
MARK = "made by mplsnet-orders"
FILES = ("topology.toml", "script.txt", "capture.pcap")
WENT = {("link", "down"): "goes down", ("link", "up"): "comes up", ("node", "down"): "goes down", ("node", "up"): "comes up"}
WENT |= {("ldp", "down"): "is switched off", ("ldp", "up"): "is switched on", ("bgp", "down"): "ends", ("bgp", "up"): "begins"}


def counted(count, one, many=None):
    return f"{count} {one if count == 1 else many or one + 's'}"


def listed(words, most=SHOWN):
    """The words, the first few of them."""
    words = list(words)
    rest = f" and {len(words) - most} more" if most and len(words) > most else ""
    return ", ".join(words[:most] if most else words) + rest


def in_words(nodes):
    return " and ".join([", ".join(nodes[:-1]), nodes[-1]] if len(nodes) > 1 else nodes)


def name_of(change, way):
    return f"{change.failure} {way}"


# What each answer comes to.


class Sums:
    """The losses of some windows or orders: by what became of packets, and by pair."""

    def __init__(self, losses):
        losses = list(losses)
        self.falls = Counter(fall for _, fall in losses)
        self.rules = Counter(fall.rule for _, fall in losses)
        self.pairs = sorted({probe for probe, _ in losses})

    def words(self, most):
        return listed((f"{count} {fall.words()}" for fall, count in self.falls.most_common()), most)


def window_sums(windows):
    return Sums((probe, fall) for window in windows for probe, _, fall in window.lost)


def order_sums(found):
    return Sums((probe, fall) for order in found for _, probe, fall in order.lost)


def grouped(net, found, way):
    """Loops of the same nodes, of which the same have learned: the edges and the pairs."""
    groups = {}
    for met in found:
        edges, pairs = groups.setdefault((met.loop.nodes, met.loop.kinds), ([], set()))
        edges.append(net.nodes[met.loop.edge])
        pairs |= set(met.pairs)
    for (nodes, kinds), (edges, pairs) in groups.items():
        loop = next(met.loop for met in found if (met.loop.nodes, met.loop.kinds) == (nodes, kinds))
        names = [[net.nodes[node] for node in some] for some in (nodes, loop.learned(way), loop.unlearned(way))]
        yield *names, edges, sorted(pairs)


class Telling:
    """The answer in lines; `most` is how many pairs and reasons are named, none for all."""

    def __init__(self, question, answer, most):
        self.question, self.answer, self.most = question, answer, most
        self.net, self.probes, self.given = question.net, question.probes, question.given

    def pairs(self, probes):
        return f"  {counted(len(probes), 'pair')}: {listed((str(self.probes[probe]) for probe in probes), self.most)}"

    def loops(self, number, way):
        for nodes, learned, unlearned, edges, pairs in grouped(self.net, self.answer.loops.get((number, way), ()), way):
            if pairs or self.most is None:
                have, have_not = "has" if len(learned) == 1 else "have", "hasn't" if len(unlearned) == 1 else "haven't"
                when = f"{in_words(learned)} {have} learned of it and {in_words(unlearned)} {have_not}"
                yield f"loop of {in_words(nodes)} towards {listed(edges, self.most)}, once {when}"
                yield self.pairs(pairs) if pairs else "  no pair meets it"

    def window(self, number, way):
        windows = self.answer.windows.get((number, way), ())
        lossy = [window for window in windows if window.lost]
        if not lossy:
            return
        ticks = [tick for window in lossy for _, tick, _ in window.lost]
        sums, runs = window_sums(windows), f"in {len(lossy)} of {counted(len(windows), 'run')} " if self.given.delays else ""
        every = max(window.every for window in lossy)
        settled = f"settled at tick {max(window.settled for window in windows)}" + (f", sent each {every} ticks" if every > 1 else "")
        sent = f"tick {min(ticks)}" if min(ticks) == max(ticks) else f"ticks {min(ticks)} to {max(ticks)}"
        yield f"window: {runs}packets of {sent} are lost ({settled}): {sums.words(self.most)}"
        yield self.pairs(sums.pairs)

    def orders(self, number, way):
        found = self.answer.orders.get((number, way), ())
        lossy = [order for order in found if order.lost]
        if lossy:
            sums, lost, sent = order_sums(found), sum(len(order.lost) for order in found), sum(order.sent for order in found)
            worst = max(lossy, key=lambda one: len(one.lost))
            most = f", most by order {worst.number}, {len(worst.lost)}"
            yield f"orders: {len(lossy)} of {len(found)} lose packets, {lost} of {sent}{most}: {sums.words(self.most)}"
            yield self.pairs(sums.pairs)

    def of(self, number, way):
        return [*self.loops(number, way), *self.window(number, way), *self.orders(number, way)]

    def header(self, number, way):
        cut = self.answer.cut[number]
        return name_of(self.answer.changes[number], way) + (f" ({counted(cut, 'pair')} not reached while it is down)" if cut else "")

    def table(self):
        for number, way, lines in self.changes():
            if lines or self.most is None:
                yield self.header(number, way) + (":" if lines else ": nothing is lost")
                yield from (f"  {line}" for line in lines)
        yield from self.totals()

    def changes(self):
        for number in range(len(self.answer.changes)):
            for way in self.given.ways:
                yield number, way, self.of(number, way)

    def totals(self):
        answer, given = self.answer, self.given
        unreached = sum(end.fall is not None for end in answer.rest)
        rest = f", {unreached} of them not reached at rest" if unreached else ""
        yield f"{counted(len(answer.changes), 'change')}, {' and '.join(given.ways)}, of {counted(len(self.probes), 'pair')}{rest}"
        if "loops" in given.ask:
            yield self.loops_total()
        if "window" in given.ask:
            sums = window_sums(window for found in answer.windows.values() for window in found)
            yield self.total("window", answer.windows, sums, " (by random delays: others may lose more)" if given.delays else "")
        if "orders" in given.ask:
            sums = order_sums(order for found in answer.orders.values() for order in found)
            yield self.total("orders", answer.orders, sums, " (at random: others may lose more)")

    def loops_total(self):
        found = [(number, met) for (number, _), loops in self.answer.loops.items() for met in loops]
        met = [one for _, one in found if one.pairs]
        pairs = {probe for one in met for probe in one.pairs}
        links = sum(change.failure.kind == "link" for change in self.answer.changes)
        shown = "not shown by the program" if self.given.no_witness else "each shown by the program"
        said = f"{len(found)} by {len({number for number, _ in found})} of {counted(links, 'link')}" if found else f"none by {counted(links, 'link')}"
        said += f"; {len(met)} of them met by {counted(len(pairs), 'pair')}, {shown}" if met else "; no pair meets one" if found else ""
        return f"loops: {said}" + ("" if self.answer.are_all else "; the search was cut off, so there may be more")

    def total(self, what, found, sums, words):
        lossy = [key for key, those in found.items() if any(one.lost for one in those)]
        rules = f": {listed((f'{count} {rule}' for rule, count in sums.rules.most_common()), None)}" if sums.rules else ""
        total = len(self.answer.changes) * len(self.given.ways)
        number, way = max(lossy, key=lambda key: sum(len(one.lost) for one in found[key]), default=(None, None))
        most = f"; most by {name_of(self.answer.changes[number], way)}" if lossy else ""
        return f"{what}: {len(lossy)} of {total} lose packets of {counted(len(sums.pairs), 'pair')}{rules}{most}{words}"


# As data.


def as_json(question, answer):
    net = question.net

    def loops(number, way):
        for met in answer.loops.get((number, way), ()):
            loop = met.loop
            names = [[net.nodes[node] for node in some] for some in (loop.nodes, loop.learned(way), loop.unlearned(way))]
            yield dict(zip(("nodes", "learned", "unlearned"), names)) | {"to": net.nodes[loop.edge], "pairs": list(met.pairs)}

    def windows(number, way):
        for one in answer.windows.get((number, way), ()):
            lost = [{"pair": probe, "tick": tick} | vars(fall) for probe, tick, fall in one.lost]
            yield {"run": one.draw, "settled": one.settled, "every": one.every, "sent": one.sent, "lost": lost}

    def random(number, way):
        for one in answer.orders.get((number, way), ()):
            lost = [{"pair": probe} | vars(fall) for _, probe, fall in one.lost]
            yield {"order": one.number, "sent": one.sent, "lost": lost}

    return {
        "topology": question.given.topology,
        "resolve": question.resolve,
        "seed": question.given.seed,
        "all_loops": answer.are_all,
        "pairs": [{"from": one.site, "to": list(one.to), "prefix": one.prefix, "reached": end.fall is None} for one, end in zip(question.probes, answer.rest)],
        "changes": [
            {
                "kind": change.failure.kind, "name": change.failure.name, "way": way, "cut": answer.cut[number], "pairs": list(change.pairs),
                "loops": list(loops(number, way)), "window": list(windows(number, way)), "orders": list(random(number, way)),
            }
            for number, change in enumerate(answer.changes) for way in question.given.ways
        ],
    }  # fmt: skip


COLUMNS = ("ask", "kind", "name", "way", "from", "to", "prefix", "rule", "node", "astray_to", "lost", "first", "last", "learned")


def rows(question, answer):
    """A row for each pair and how it is lost; of a loop its nodes, and those of them that have learned."""
    net = question.net
    for number, change in enumerate(answer.changes):
        for way in question.given.ways:
            named = (change.failure.kind, change.failure.name, way)
            for met in answer.loops.get((number, way), ()):
                nodes, learned = (" ".join(net.nodes[node] for node in some) for some in (met.loop.nodes, met.loop.learned(way)))
                for probe in met.pairs:
                    yield "loops", *named, *pair_words(question.probes[probe]), "TtlExpired", nodes, None, None, None, None, learned
            ticks = {}
            for window in answer.windows.get((number, way), ()):
                for probe, tick, fall in window.lost:
                    ticks.setdefault((probe, fall), []).append(tick)
            for (probe, fall), those in ticks.items():
                yield "window", *named, *pair_words(question.probes[probe]), *vars(fall).values(), len(those), min(those), max(those), None
            counts = Counter(loss[1:] for order in answer.orders.get((number, way), ()) for loss in order.lost)
            for (probe, fall), count in counts.items():
                yield "orders", *named, *pair_words(question.probes[probe]), *vars(fall).values(), count, None, None, None


def pair_words(probe):
    return probe.site, "|".join(probe.to), probe.prefix


# The worst cases as scripts.


def case_files(question, case):
    """The topology, script and capture of a case."""
    probe, failure = question.probes[case.probe], case.change.failure
    job = question.job("case", [], delays=question.given.delays if case.draw else None, draw=case.draw)
    packet = udp_packet(probe.source, probe.address, case.ttl)
    what = f"{failure} {WENT[failure.kind, case.way]}: the packet from {probe.site} to {address_text(int.from_bytes(probe.address, 'big'))}"
    comments = [f"# {MARK}: {what} ends: {case.fall.words()}"]
    settled = [*whatif.bring_up(question.net, True), "drain               # the network has settled", *case.change.before(case.way), ""]
    lines = [f"inject {probe.site} 1" if line == orders.SENT else line for line in joined(case.lines)]
    script = "\n".join([*comments, *settled, *lines, "flush", ""])
    return topology_text(job.drawn(), [MARK]).encode(), script.encode(), capture_of([packet])


def joined(lines):
    """The lines, with those that let time pass one after another as one."""
    found = []
    for line in lines:
        if line.startswith("run ") and found and found[-1].startswith("run "):
            line = f"run {int(found.pop()[4:]) + int(line[4:])}"
        found.append(line)
    return found


def check_folder(folder):
    """Where something is there that this tool didn't make, nothing is put over it."""
    if folder.exists() and not folder.is_dir():
        raise Fault(f"{folder}: isn't a folder", 3)
    if not folder.absolute().parent.is_dir():
        raise Fault(f"{folder}: No such file or directory", 3)
    for ask in ("loops", "window", "orders"):
        place = folder / ask
        made = (place / FILES[0]).is_file() and (place / FILES[0]).read_bytes().startswith(f"# {MARK}\n".encode())
        if place.exists() and not made and not (place.is_dir() and not any(place.iterdir())):
            raise Fault(f"{place}: is there already, and no run of mplsnet-orders made it", 3)


def write_cases(question, answer, folder):
    """Writes the cases' files, and removes those of an earlier answer."""
    try:
        folder.mkdir(exist_ok=True)
        for ask in ("loops", "window", "orders"):
            place = folder / ask
            if ask in answer.cases:
                place.mkdir(exist_ok=True)
                for name, content in zip(FILES, case_files(question, answer.cases[ask])):
                    (place / name).write_bytes(content)
            elif place.is_dir():
                for name in FILES:
                    (place / name).unlink(missing_ok=True)
                if not any(place.iterdir()):
                    place.rmdir()
    except OSError as error:
        raise Fault(f"{error.filename}: {error.strerror}", 3)


def player(question, case):
    """The page of mplsnet-play that shows a case, from its change on."""
    with tempfile.TemporaryDirectory(dir=question.room) as room:
        inputs = [Path(room) / name for name in FILES]
        out, page = Path(room) / "out", Path(room) / "page.html"
        out.mkdir()
        for path, content in zip(inputs, case_files(question, case)):
            path.write_bytes(content)
        with open(out / "report.txt", "wb") as report:
            ran = subprocess.run([question.program, "run", *inputs, out], stdout=report, stderr=subprocess.PIPE)
        if ran.returncode != 0:
            raise Fault(f"{question.program} ended with status {ran.returncode}", 3)
        first = first_step(case, out / "journal.txt")
        words = [sys.executable, "-B", TOOLS / "mplsnet-play", "--from", str(first), "--capture", inputs[2], "--script", inputs[1], out, inputs[0], page]
        ran = subprocess.run(words, capture_output=True, text=True)
        if ran.returncode != 0:
            raise Fault(ran.stderr.strip(), 3)
        return page.read_text(encoding="utf-8")


def first_step(case, journal):
    """The step with which a page begins: the first of those by which the case's change comes, as far as a page takes them."""
    steps = [line.partition(" ")[2] for line in journal.read_text(encoding="ascii").splitlines()]
    change = set(case.change.lines(case.way))
    found = [number for number, step in enumerate(steps, 1) if step in change]
    return max(found[-len(change)] if len(found) >= len(change) else 1, len(steps) - MOST_STEPS + 1)


# The page.

STYLE = """body{font:15px system-ui,sans-serif;margin:2em;color:#222}summary{cursor:pointer;padding:.15em 0}li{margin:.2em 0}
iframe{width:100%;height:85vh;border:1px solid #ccc}.p{margin:1em 0}"""
OPEN = """for (const one of document.querySelectorAll("details.p")) one.addEventListener("toggle", () => {
  const frame = one.querySelector("iframe");
  if (one.open && !frame.src) frame.src = URL.createObjectURL(new Blob([PAGES[frame.id]], {type: "text/html"}));
});"""


def page(question, answer):
    """A page of HTML without parts outside."""
    say, telling = html.escape, Telling(question, answer, None)
    title = f"What is lost while it converges: {question.given.topology}"
    parts = [f"<!DOCTYPE html><html lang=en><meta charset=utf-8><title>{say(title)}</title><style>{STYLE}</style><h1>{say(title)}</h1>"]
    parts.append("<p>" + "<br>".join(map(say, telling.totals())) + "</p>")
    if answer.cases:
        parts.append("<h2>The worst, step by step</h2>")
    pages = {ask: player(question, case) for ask, case in answer.cases.items()}
    for ask, case in answer.cases.items():
        what = f"{ask}: {name_of(case.change, case.way)}, {question.probes[case.probe]}: {case.fall.words()}"
        script = say(case_files(question, case)[1].decode())
        parts.append(f"<details class=p><summary>{say(what)}</summary><pre>{script}</pre><iframe id={ask}></iframe></details>")
    parts.append("<h2>Changes by which something is lost</h2>")
    for number, way, lines in telling.changes():
        if lines:
            kinds = ", ".join(dict.fromkeys(re.match("[a-z]+", line)[0] for line in lines if line[0] != " "))
            parts.append(f"<details><summary>{say(telling.header(number, way))}: {kinds}</summary><ul>")
            parts += [f"<li>{say(line)}</li>" for line in lines]
            parts.append("</ul></details>")
    data = json.dumps(pages).replace("<", "\\u003c")
    return "\n".join([*parts, f"<script>const PAGES = {data};\n{OPEN}</script></html>", ""])


def tell(question, answer, out):
    given = question.given
    if given.json:
        json.dump(as_json(question, answer), out, indent=1)
        out.write("\n")
    elif given.csv:
        writer = csv.writer(out, lineterminator="\n")
        writer.writerow(COLUMNS)
        writer.writerows(rows(question, answer))
    else:
        for line in Telling(question, answer, None if given.all else SHOWN).table():
            out.write(line + "\n")
    out.flush()
    if given.script:
        write_cases(question, answer, Path(given.script))
    if given.html:
        try:
            Path(given.html).write_text(page(question, answer), encoding="utf-8")
        except OSError as error:
            raise Fault(f"{given.html}: {error.strerror}", 3)
