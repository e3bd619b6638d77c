"""Which line of the script asked for each step of a journal."""

import re

from mplsnet.files import Fault, bytes_of, passed

ARRIVALS = ("learn", "hear", "carry", "lose")


def script_words(path):
    """The lines that have words, each with its number."""
    lines = []
    for number, line in enumerate(bytes_of(path).decode("latin-1").split("\n"), 1):
        words = [word for word in re.split("[ \t]+", line.removesuffix("\r")) if word]
        comment = next((at for at, word in enumerate(words) if word.startswith("#")), len(words))
        if words[:comment]:
            lines.append((number, words[:comment]))
    return lines


def refused_lines(report):
    """The numbers of the script's lines that the report says were refused."""
    return {int(line.split()[1]) for line in report if re.match(r"line \d+ refused ", line)}


def script_lines(path, run, report, notice_delay=1):
    """Of each step of the run the number and the words of the script's line that asked for it.

    A line asks for its own step; `run`, `drain` and `flush` for what arrives. Where a `drain` follows a `run`, the files
    don't tell which of the two asked for a notice or message of the run's last tick: such a step has none.
    """
    return Lines(path, run, report, notice_delay).found()


class Lines:
    """Goes through script and journal side by side; where several ways fit so far it comes back to the others."""

    def __init__(self, path, run, report, notice_delay):
        self.path, self.run, self.steps = path, run, run.steps
        refused = refused_lines(report)
        self.lines = [(number, words) for number, words in script_words(path) if number not in refused and words[0] != "show"]
        # When each notice is due, and which notice each step learns: the steps alone tell that.
        self.due, made, learned = {}, {}, {}
        for at, (tick, step) in enumerate(self.steps):
            if step[0] == "link":
                made.setdefault(frozenset(step[2:]), []).append(tick + notice_delay)
            elif step[0] == "learn":
                link = frozenset(step[2:])
                count = learned.get((step[1], link), 0)
                learned[step[1], link] = count + 1
                self.due[at] = made[link][count] if count < len(made.get(link, ())) else 0

    def found(self):
        told, doubtful, open_ways, farthest = [], [], [], (-1, 0)
        place, at, clock, ways = 0, 0, 0, None
        while place < len(self.lines) or at < len(self.steps):
            if ways is None:
                ways = self.ways(place, at, clock) if place < len(self.lines) else []
            if not ways:
                farthest = max(farthest, (place, at))
                if not open_ways:
                    raise self.fault(*farthest)
                place, at, clock, ways, length = open_ways.pop()
                del told[length:]
                continue
            (end, later), *others = ways
            if others:
                open_ways.append((place, at, clock, others, len(told)))
            number, words = self.lines[place]
            if words[0] == "run" and self.has_drain_behind(place):
                doubtful.append((end, later))
            told += [(number, " ".join(words))] * (end - at)
            place, at, clock, ways = place + 1, end, later, None
        for at, tick in doubtful:
            self.leave_out(told, at, tick)
        return told

    def leave_out(self, told, at, tick):
        """Has none for the arrivals of the tick around the end of a run that a drain follows."""
        first = at
        while first > 0 and self.steps[first - 1][0] == tick and self.steps[first - 1][1][0] in ARRIVALS:
            first -= 1
        for place in range(first, len(told)):
            if self.steps[place][0] != tick or self.steps[place][1][0] not in ARRIVALS:
                break
            if self.steps[place][1][0] in ("learn", "hear"):
                told[place] = None

    def has_drain_behind(self, place):
        """The next line that isn't for one arrival, or for frames alone, is a drain."""
        return next((words[0] for _, words in self.lines[place + 1 :] if words[0] not in (*ARRIVALS, "flush")), None) == "drain"

    def fault(self, place, at):
        if place == len(self.lines):
            return Fault(f"{self.path}: asks for no step like that of {self.run.place(at)}: another run's script?")
        return Fault(f"{self.path}: line {self.lines[place][0]}: isn't what {self.run.place(at)} did: another run's script?")

    def ways(self, place, at, clock):
        """Up to which steps the line may have gone, and what the clock is then; the likeliest way first."""
        words = self.lines[place][1]
        if words[0] == "run":
            return self.played(place, at, clock + int(words[1]))
        if words[0] in ("drain", "flush"):
            kinds, bound = (("learn", "hear"), words[1:]) if words[0] == "drain" else (("carry", "lose"), ())
            end = at
            while end < len(self.steps) and self.steps[end][1][0] in kinds and not (bound and end - at == int(bound[0])):
                if words[0] == "drain" and self.steps[end][0] != clock:
                    break
                end += 1
            return [(end, max(clock, self.steps[end - 1][0] if end > at else 0))]
        if at < len(self.steps) and is_asked(words, self.steps[at][1]) and self.steps[at][0] == clock:
            return [(at + 1, clock + passed(words))]
        return []

    def played(self, place, first, end):
        """Up to which steps a `run` may have gone."""
        last = first
        while last < len(self.steps) and self.steps[last][0] <= end and self.steps[last][1][0] in ARRIVALS:
            last += 1
        behind = 0  # the lines that follow, each of which has its own step
        for _, words in self.lines[place + 1 :]:
            if words[0] not in ARRIVALS:
                break
            behind += 1
        # Of the last tick's steps some may be those of lines behind, a drain's among them; no notice that wasn't due is the run's.
        start = next((at for at in range(first, last) if self.steps[at][0] == end), last)
        early = next((at for at in range(start, last) if self.due.get(at, 0) > end), last)
        ways = range(early, start - 1, -1)
        likely = min(early, last - behind)
        return [(at, end) for at in sorted(ways, key=lambda at: at != likely)]


def is_asked(words, step):
    """A line's words ask for the step: they are its words, with a link's ends or a session's edges in any order."""
    if words[0] != step[0] or len(words) != len(step):
        return False
    first = {"learn": 2, "link": 2, "ldp": 2, "bgp": 2}.get(words[0], len(words))
    return tuple(words[:first]) == step[:first] and sorted(words[first:]) == sorted(step[first:])
