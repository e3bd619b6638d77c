"""Asks what is lost while a network converges: cuts the questions into runs, and puts their answers together."""

from dataclasses import dataclass, field, replace

import mplsnet.orders as orders
import mplsnet.whatif as whatif
from mplsnet.files import Fault
from mplsnet.loops import Hops, loops_of, ways_into
from mplsnet.pool import result_of

ASKED = ("loops", "window", "orders")
SETTLING = 8  # steps for each node that a change is guessed to take; a share that takes too many is halved
LOOPED = "TtlExpired"


@dataclass
class Met:
    """A loop, the probes that meet it, and how its packet must end where one does."""

    loop: object
    pairs: tuple
    witness: orders.Witness | None = None


@dataclass
class Answer:
    """How probes end at rest; of each change the probes that it doesn't cut and how many it does; and what is lost between."""

    rest: list
    changes: list
    cut: list
    loops: dict = field(default_factory=dict)  # of each number of a change and way the loops
    windows: dict = field(default_factory=dict)
    orders: dict = field(default_factory=dict)
    are_all: bool = True  # no search for loops was cut off
    cases: dict = field(default_factory=dict)  # of each question the worst, as short as can be

    @property
    def loses(self):
        windows = any(window.lost for found in self.windows.values() for window in found)
        met = any(one.pairs for found in self.loops.values() for one in found)
        return windows or met or any(order.lost for found in self.orders.values() for order in found)


class Asking:
    """A question, the pool that runs it, and what is said meanwhile."""

    def __init__(self, question, pool, progress):
        self.question, self.pool, self.progress = question, pool, progress
        self.given, self.net = question.given, question.net
        self.hops, edges = Hops(self.net), orders.Edges(self.net)
        self.ends = [edges.of(probe) for probe in question.probes]

    def answer(self):
        answer = self.at_rest()
        self.number = {change.failure: number for number, change in enumerate(answer.changes)}
        self.survey(answer)
        self.find_loops(answer)
        self.collect(answer, self.jobs_of(answer))
        if self.given.script or self.given.html:
            self.find_cases(answer)
        return answer

    # Runs.

    def run(self, jobs, what):
        """Runs the jobs, and gives each with its answer; one that takes too many steps is halved."""
        done, all_work = 0, sum(len(job.work) for job in jobs)
        while jobs:
            waiting = {self.pool.submit(orders.run_job, job): job for job in jobs}
            jobs = []
            for future in self.pool.as_completed(waiting):
                found, job = result_of(future), waiting[future]
                if found is None:
                    jobs += self.halved(job)
                    continue
                done += len(job.work)
                self.progress.say(f"{what}: {done} of {all_work}" if all_work else what)
                yield job, found

    def halved(self, job):
        work, half = job.work, len(job.work) // 2
        if len(work) > 1:
            return [replace(job, work=work[:half]), replace(job, work=work[half:])]
        if work and job.ask == "orders" and len(work[0].numbers) > 1:
            half = len(work[0].numbers) // 2
            return [replace(job, work=[replace(work[0], numbers=part)]) for part in (work[0].numbers[:half], work[0].numbers[half:])]
        what = work[0].failure if work and job.ask in ("survey", "window") else "bringing it up" if not work else "a change"
        raise Fault(f"{self.given.topology}: {what} takes more than {whatif.MOST_STEPS} steps with all packets: choose sites by --site, or ticks by --every", 3)

    def shares(self, ask, work, costs, **more):
        """Jobs of the work, each of about the same number of steps."""
        found = whatif.shares(work, costs, self.bring_up_cost, self.given.budget, self.given.jobs)
        return [self.question.job(ask, share, **more) for share in found]

    # At rest.

    def at_rest(self):
        """The network that has settled; the changes each with the probes that it concerns and that are reached there."""
        ((_, [(ends, steps)]),) = self.run([self.question.job("rest", [])], "at rest")
        moved = sum(end.path.count(" ") + 2 for end in ends)
        self.bring_up_cost, self.packet_cost = max(steps - moved, 1), -(-moved // len(ends))
        reached = {end.probe for end in ends if end.fall is None}
        changes = [self.asked_of(change, reached) for change in self.question.changes]
        return Answer(ends, changes, [0] * len(changes))

    def asked_of(self, change, reached):
        return replace(change, pairs=tuple(probe for probe in orders.concerned(self.hops, self.ends, change) if probe in reached))

    def survey(self, answer):
        """Leaves each change the probes that are reached before it and after it."""
        changes = [change for change in answer.changes if change.pairs]
        costs = [2 * SETTLING * len(self.net.nodes) + len(change.pairs) * self.packet_cost for change in changes]
        for job, found in self.run(self.shares("survey", changes, costs), "changes"):
            for change, reached in zip(job.work, found):
                number = self.number[change.failure]
                answer.cut[number] = len(change.pairs) - len(reached)
                answer.changes[number] = replace(change, pairs=tuple(reached))

    # Loops.

    def find_loops(self, answer):
        if "loops" not in self.given.ask:
            return
        for number, change in enumerate(answer.changes):
            if change.failure.kind == "link":
                self.progress.say(f"loops: {number + 1} of {len(answer.changes)}")
                loops, are_all = loops_of(self.hops, change.links[0])
                answer.are_all = answer.are_all and are_all
                for way in self.given.ways if loops else ():
                    answer.loops[number, way] = self.met(change, way, loops)

    def met(self, change, way, loops):
        """Of each loop the probes that meet it, and the order that shows it to the one that comes to it soonest."""
        sent, choices, found = {}, {}, []
        for probe in change.pairs:
            sent.setdefault((self.ends[probe][0], self.towards(probe, way, change.links[0])), []).append(probe)
        for loop in loops:
            if loop.edge not in choices:
                choices[loop.edge] = self.hops.choices(loop.edge, loop.link)
            choice = choices[loop.edge]
            ways = ways_into(choice, loop.nodes)
            pairs = sorted(probe for source in ways for probe in sent.get((source, loop.edge), ()))
            first = min(pairs, key=lambda probe: len(ways[self.ends[probe][0]]), default=None)
            witness = orders.witness_of(self.net, change, way, loop, choice, first, self.ends[first][0]) if pairs else None
            found.append(Met(loop, tuple(pairs), witness))
        return found

    def towards(self, probe, way, link):
        """The edge towards which the probe is sent before the link's change is heard of."""
        source, edges = self.ends[probe]
        for edge in edges:
            hops = self.hops.whole[edge] if way == "down" else self.hops.without(edge, [link])
            if edge == source or not self.question.resolve or source in hops:
                return edge
        return edges[0]

    def check_shown(self, job, ends):
        """Each witness has shown its loop."""
        for end, witness in zip(ends, job.work):
            if (end.fall and end.fall.rule, end.path) != (LOOPED, witness.path):
                found = f"{witness.change.failure} {witness.way}: a loop with {', '.join(witness.learns)} was found, and the program doesn't show it"
                shown = f"{end.fall.rule if end.fall else 'delivered'}, path {end.path}, and not {witness.path}"
                raise Fault(f"{self.given.topology}: {found}: {shown}", 3)

    # All three.

    def jobs_of(self, answer):
        """The runs of all questions."""
        given, jobs = self.given, []
        changes = [change for change in answer.changes if change.pairs]
        settling = SETTLING * len(self.net.nodes)
        witnesses = [one.witness for found in answer.loops.values() for one in found if one.witness]
        if not given.no_witness:
            jobs += self.shares("loops", witnesses, [2 * settling + 2 * witness.ttl for witness in witnesses])
        if "window" in given.ask:
            costs = [4 * settling + 20 * len(change.pairs) * self.packet_cost for change in changes]
            for draw in range(1, given.runs + 1) if given.delays else (0,):
                jobs += self.shares("window", changes, costs, delays=given.delays, draw=draw)
        if "orders" in given.ask:
            acts = [orders.acts_of(self.hops, change, tuple(range(1, given.orders + 1))) for change in changes]
            cost = 2 * given.orders * (settling + orders.POINTS * orders.AT_A_POINT * self.packet_cost)
            jobs += self.shares("orders", acts, [cost] * len(acts))
        return jobs

    def collect(self, answer, jobs):
        for job, found in self.run(jobs, "runs of changes"):
            if job.ask == "loops":
                self.check_shown(job, found)
                continue
            into = answer.windows if job.ask == "window" else answer.orders
            for one in found:
                work = job.work[one.change]
                one.change = self.number[(work if job.ask == "window" else work.change).failure]
                into.setdefault((one.change, one.way), []).append(one)
        for found in answer.windows.values():
            found.sort(key=lambda one: one.draw)
        for found in answer.orders.values():
            found.sort(key=lambda one: one.number)

    # The worst cases.

    def find_cases(self, answer):
        """Of each question the worst that was found, with as few lines as it takes."""
        for ask, case_of in (("loops", self.worst_loop), ("window", self.worst_window), ("orders", self.worst_order)):
            case = case_of(answer)
            if case is not None:
                answer.cases[ask] = orders.shrunk(case, self.trial)
                if not all(self.trial([answer.cases[ask]])):
                    raise Fault(f"{self.given.topology}: the program doesn't show the worst case of {ask} by a script of its own", 3)

    def trial(self, cases):
        """Which of the cases are as they are to be."""
        if not cases:
            return []
        job = self.question.job("case", cases, delays=self.given.delays if cases[0].draw else None, draw=cases[0].draw)
        found = {case: is_so for one, kept in self.run([job], "worst cases") for case, is_so in zip(one.work, kept)}
        return [found[case] for case in cases]

    def worst_loop(self, answer):
        """The loop that most probes meet."""
        met = max((one for found in answer.loops.values() for one in found if one.witness), key=lambda one: len(one.pairs), default=None)
        if met is None or self.given.no_witness:
            return None
        one = met.witness
        lines = (*one.lines(), orders.SENT)
        return orders.Case(one.change, one.way, lines, len(lines) - 1, one.probe, one.ttl, orders.Fall(LOOPED, one.path.rsplit(" ", 1)[-1]))

    def worst_window(self, answer):
        """Of the change that loses most packets the probe that loses most, as it first does."""
        windows = [window for found in answer.windows.values() for window in found]
        worst = max(windows, key=lambda one: len(one.lost), default=None)
        if worst is None or not worst.lost:
            return None
        count = {}
        for probe, *_ in worst.lost:
            count[probe] = count.get(probe, 0) + 1
        probe = max(count, key=count.get)
        tick, fall = next(rest for of, *rest in worst.lost if of == probe)
        job = self.question.job("window", [], delays=self.given.delays, draw=worst.draw)
        lines = orders.window_lines(job, answer.changes[worst.change], worst, tick)
        return orders.Case(answer.changes[worst.change], worst.way, lines, lines.index(orders.SENT), probe, orders.TTL, fall, worst.draw)

    def worst_order(self, answer):
        """Of the order that loses most the first packet that goes round, or else the first that is lost."""
        worst = max((order for found in answer.orders.values() for order in found), key=lambda one: len(one.lost), default=None)
        if worst is None or not worst.lost:
            return None
        place, probe, fall = min(worst.lost, key=lambda one: (one[2].rule != LOOPED, one[0]))
        change = answer.changes[worst.change]
        actions = orders.order_of(self.given.seed, orders.acts_of(self.hops, change, ()), worst.way, worst.number)[:place]
        lines = (*change.lines(worst.way), *(action for action in actions if isinstance(action, str)), orders.SENT)
        return orders.Case(change, worst.way, lines, len(lines) - 1, probe, orders.TTL, fall)
