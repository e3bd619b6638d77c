"""What mplsnet-whatif tells of failures: a table as they are known, CSV, JSON, a matrix, a page."""

import csv
import html
import json
import sys
from collections import Counter
from dataclasses import dataclass, field
from pathlib import Path

import mplsnet.whatif as whatif
from mplsnet.files import Fault

SHOWN = 4  # pairs that the table names of each reason


@dataclass
class Tally:
    """What is known of all failures together: how many there are, how many cut something, and of each probe that is cut by how many.

    Outcomes themselves are kept for what is told at the end.
    """

    keeps: bool
    count: int = 0
    cut: int = 0
    at_worst: bool = False
    times: Counter = field(default_factory=Counter)
    kept: list = field(default_factory=list)

    def add(self, count, outcomes):
        """So many failures more; the outcomes are at least those of them that cut something."""
        cut = [outcome for outcome in outcomes if outcome.lost]
        self.count, self.cut = self.count + count, self.cut + len(cut)
        self.at_worst = self.at_worst or any(outcome.failure.kind == "ldp" for outcome in cut)
        self.times.update(loss.probe for outcome in cut for loss in outcome.lost)
        self.kept += outcomes if self.keeps else []


def listed(probes, losses, most):
    """The pairs of losses, the first few of them."""
    names = [str(probes[loss.probe]) for loss in losses]
    rest = f" and {len(names) - most} more" if most and len(names) > most else ""
    return ", ".join(names[:most] if most else names) + rest


def reasons(outcome):
    """The losses by what became of them and the reason, those of most pairs first."""
    groups = {}
    for loss in outcome.lost:
        groups.setdefault((loss.words(), loss.reason), []).append(loss)
    return sorted(groups.items(), key=lambda one: (-len(one[1]), one[1][0].probe))


def pairs(count):
    return f"{count} pair{'s' if count != 1 else ''}"


def failures(count):
    return f"{count} failure{'s' if count != 1 else ''}"


def base_lines(question, base):
    """What isn't reached without a failure."""
    if base.lost:
        yield f"without a failure: {pairs(len(base.lost))} of {len(question.probes)} not reached"
        yield from reason_lines(question.probes, base, None if question.given.all else SHOWN)


def outcome_lines(question, outcome):
    """What a failure cuts."""
    moved = f", {outcome.moved} by another way" if outcome.moved else ""
    if outcome.lost:
        yield f"{outcome.failure}: {pairs(len(outcome.lost))} lost{' at worst' if outcome.failure.kind == 'ldp' else ''}{moved}"
        yield from reason_lines(question.probes, outcome, None if question.given.all else SHOWN)
    elif question.given.all:
        yield f"{outcome.failure}: none lost{moved}"


def total_lines(question, tally):
    """All together; where not all failures are known, that comes first."""
    if tally.at_worst:
        yield f"at worst: {whatif.WORST}"
    if tally.count < len(question.failures):
        yield f"ended early: {len(question.failures) - tally.count} of {failures(len(question.failures))} aren't known"
    yield f"{failures(tally.count)} of {pairs(len(question.probes))}: {tally.count * len(question.probes)} verdicts"
    yield f"{failures(tally.cut)} cut {pairs(len(tally.times))}; {tally.count - tally.cut} cut none"


def reason_lines(probes, outcome, most):
    for (what, reason), losses in reasons(outcome):
        why = f": {reason}" if reason else ""
        yield f"  {len(losses)} {what}{why}: {listed(probes, losses, most)}"


def as_json(question, base, tally):
    probes, outcomes = question.probes, tally.kept
    known = {one.failure for one in outcomes}

    def lost(outcome):
        return [
            {"from": probe.site, "to": list(probe.to), "prefix": probe.prefix}
            | {"rule": one.rule, "node": one.node, "astray_to": one.astray_to, "why": one.reason}
            for one, probe in ((one, probes[one.probe]) for one in outcome.lost)
        ]

    return {
        "topology": question.given.topology,
        "pairs": [{"from": one.site, "to": list(one.to), "prefix": one.prefix, "path": path} for one, path in zip(probes, base.paths)],
        "unreached": lost(base),
        "failures": [{"kind": one.failure.kind, "name": one.failure.name, "lost": lost(one), "moved": one.moved, "steps": one.steps} for one in outcomes],
        "notes": {"ldp": whatif.WORST},
        "missing": [str(failure) for failure in question.failures if failure not in known],
    }


class Table:
    """Lines for each failure as it is known."""

    def __init__(self, question):
        self.question = question

    def put(self, lines):
        for line in lines:
            sys.stdout.write(line + "\n")
        sys.stdout.flush()

    def begin(self, base):
        self.put(base_lines(self.question, base))

    def add(self, outcome):
        self.put(outcome_lines(self.question, outcome))

    def end(self, base, tally):
        self.put(total_lines(self.question, tally))


class Csv(Table):
    """A line for each pair lost, as its failure is known."""

    def begin(self, base):
        self.writer = csv.writer(sys.stdout, lineterminator="\n")
        self.writer.writerow(["kind", "name", "from", "to", "prefix", "rule", "node", "why", "astray_to"])
        self.add(base)

    def add(self, outcome):
        named = [outcome.failure.kind, outcome.failure.name] if outcome.failure else ["none", ""]
        for loss in outcome.lost:
            probe = self.question.probes[loss.probe]
            self.writer.writerow([*named, probe.site, "|".join(probe.to), probe.prefix, loss.rule, loss.node, loss.reason, loss.astray_to])
        sys.stdout.flush()

    def end(self, base, tally):
        pass


class Whole(Table):
    """What is told at the end, of all together."""

    def begin(self, base):
        pass

    def add(self, outcome):
        pass


class Json(Whole):
    def end(self, base, tally):
        json.dump(as_json(self.question, base, tally), sys.stdout, indent=1)
        sys.stdout.write("\n")


class Matrix(Whole):
    def end(self, base, tally):
        write_matrix(self.question, base, tally, sys.stdout)


FORMS = {"table": Table, "csv": Csv, "json": Json, "matrix": Matrix}


def write_matrix(question, base, tally, out):
    """A row for each site that sends, a column for each that is sent to."""
    times, paths = tally.times, tally.kept[0].paths if question.has_paths() and tally.kept else None
    senders = list(dict.fromkeys(probe.site for probe in question.probes))
    receivers = list(dict.fromkeys("|".join(probe.to) for probe in question.probes))
    cells = {}
    for at, probe in enumerate(question.probes):
        said = base.paths[at] + (f" => {paths[at]}" if paths and paths[at] != base.paths[at] else "")
        said += f" (cut by {times[at]})" if times[at] and not paths else ""
        cells.setdefault((probe.site, "|".join(probe.to)), []).append(said)
    writer = csv.writer(out, lineterminator="\n")
    writer.writerow(["from \\ to", *receivers])
    for site in senders:
        writer.writerow([site, *("; ".join(cells.get((site, to), [])) for to in receivers)])


STYLE = """body{font:15px system-ui,sans-serif;margin:2em;color:#222}table{border-collapse:collapse;margin:1em 0}td,th{border:1px solid #ccc;padding:.2em .5em;
text-align:left;font-size:13px}summary{cursor:pointer}.n{text-align:right}code{font-size:13px}"""


def page(question, base, tally):
    """A page of HTML without parts outside."""
    say, probes, times = html.escape, question.probes, tally.times
    cut = sorted((outcome for outcome in tally.kept if outcome.lost), key=lambda one: -len(one.lost))
    title = f"What if: {question.given.topology}"
    parts = [f"<!DOCTYPE html><html lang=en><meta charset=utf-8><title>{say(title)}</title><style>{STYLE}</style><h1>{say(title)}</h1>"]
    parts.append("<p>" + "<br>".join(map(say, total_lines(question, tally))) + "</p>")
    if base.lost:
        parts.append(f"<h2>Not reached without a failure: {len(base.lost)}</h2>{losses_html(probes, base)}")
    parts.append("<h2>Failures that cut something</h2>")
    for outcome in cut:
        summary = f"{say(str(outcome.failure))}: {pairs(len(outcome.lost))} lost, {outcome.moved} by another way"
        parts.append(f"<details><summary>{summary}</summary>{losses_html(probes, outcome)}</details>")
    senders = list(dict.fromkeys(probe.site for probe in probes))
    receivers = list(dict.fromkeys("|".join(probe.to) for probe in probes))
    counts = Counter()
    known = set()
    for at, probe in enumerate(probes):
        known.add((probe.site, "|".join(probe.to)))
        counts[probe.site, "|".join(probe.to)] += times[at]
    most = max(counts.values(), default=0) or 1
    parts.append("<h2>How many failures cut a pair</h2><table><tr><th>from \\ to" + "".join(f"<th>{say(to)}" for to in receivers))
    for site in senders:
        row = f"<tr><th>{say(site)}"
        for to in receivers:
            fade = 255 - 140 * counts[site, to] // most
            row += f'<td class=n style="background:rgb(255,{fade},{fade})">{counts[site, to]}' if (site, to) in known else "<td>"
        parts.append(row)
    return "\n".join([*parts, "</table></html>", ""])


def losses_html(probes, outcome):
    rows = ((str(len(losses)), what, reason, listed(probes, losses, None)) for (what, reason), losses in reasons(outcome))
    return "<table>" + "".join(f"<tr><td class=n>{'<td>'.join(map(html.escape, row))}" for row in rows) + "</table>"


def write_page(question, base, tally):
    try:
        Path(question.given.html).write_text(page(question, base, tally), encoding="utf-8")
    except OSError as error:
        raise Fault(f"{question.given.html}: {error.strerror}", 3)
