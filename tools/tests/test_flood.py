"""Floods by examples/reference_flood.py: what is promised of them holds after each step, and what is told of them is so."""

import random
import subprocess
import sys
import tempfile
import unittest
from pathlib import Path
from unittest import mock

sys.path.insert(0, str(Path(__file__).resolve().parent))
from runs import ROOT, random_runs, reference, reference_inputs, stand_in  # noqa: E402

import reference_flood  # noqa: E402
from reference_flood import Flood  # noqa: E402
from reference_walks import costs_to  # noqa: E402

FLOOD = ROOT / "examples/flood"
STORED = sorted(path.parent for path in ROOT.glob("crates/mn_stored_runs/data/runs/*/command.txt") if path.read_text().strip() == "flood")
ROW = (FLOOD / "topology.toml").read_bytes()
SEEDS = 60


def report(topology, *lines):
    return reference.flood_of(topology, "\n".join(lines).encode())[0].decode().splitlines()


def number_at(flood, node, origin):
    """How new what a node has of an origin is: none is the oldest."""
    kept = flood.databases[node].get(origin)
    return -1 if kept is None else kept.number


def far_ends_have_it_or_it_flies(flood):
    """Over each link that is up, for each origin, the far end has as great a number as the near end, or such an advert flies to it."""
    for (link, sender), queue in flood.flying.items():
        for origin in flood.nodes if flood.up[link] else []:
            least = number_at(flood, sender, origin)
            sent = [advert.number for _, advert in queue if advert.origin == origin]
            if max([number_at(flood, flood.links[link].other(sender), origin), *sent]) < least:
                return False
    return True


def trees_are_those_of_the_links(flood):
    costs = [costs_to(flood.links, len(flood.nodes), flood.up, to) for to in flood.nodes]
    return all(costs[to].get(node) == cost for node in flood.nodes for to, cost, _ in flood.tree(node))


def floods():
    """Random floods, each with its random lines."""
    for seed in range(SEEDS):
        rng = random.Random(seed)
        top = random_runs.flood_topology(rng)
        yield rng, Flood(reference_inputs.read_topology(random_runs.toml_text(top).encode()))


def step(flood, words):
    """One line's step, if it is one and can be done."""
    verb, *given = reference_inputs.read_line(flood.topology, words, 1, reference_inputs.FLOOD_FORMS)
    return verb != "drain" and reference_flood.do(flood, verb, *given) is None


class Laws(unittest.TestCase):
    def test_after_each_step_the_far_end_has_it_or_it_flies(self):
        done = 0
        for rng, flood in floods():
            for _ in range(60):
                words = random_runs.flood_words(rng, flood)
                if words not in random_runs.NO_LINES and step(flood, words):
                    done += 1
                    self.assertTrue(far_ends_have_it_or_it_flies(flood), words)
        self.assertLess(1000, done)

    def test_a_drain_is_bounded_and_then_the_trees_are_those_of_the_links(self):
        longest, differed = 0, 0
        for rng, flood in floods():
            for words in random_runs.flood_lines(rng, flood):
                pass
            differed += not trees_are_those_of_the_links(flood)
            flying, steps = flood.fly(), flood.steps
            flood.drain()
            self.assertLessEqual(flood.steps - steps, flying * (1 + 2 * len(flood.links)))
            self.assertTrue(trees_are_those_of_the_links(flood))
            longest = max(longest, flood.steps - steps)
        self.assertLess(20, longest)
        self.assertLess(5, differed)  # while adverts fly

    def test_an_end_that_sends_its_own_advert_alone_breaks_them(self):
        """What goes over a new link is all that the end has: two parts of a network that are joined tell it apart."""
        folder = next(folder for folder in STORED if folder.name == "two-parts-of-a-flood-are-joined")
        flood = Flood(reference_inputs.read_topology((folder / "topology.toml").read_bytes()))

        def own_alone(link, sender, advert, send=flood.send):
            if advert.origin == sender or sender not in (flood.links[2].a, flood.links[2].b) or link != 2:
                send(link, sender, advert)

        flood.send = own_alone
        for line in (folder / "script.txt").read_text().splitlines():
            words = line.split()
            flood.drain() if words == ["drain"] else step(flood, words)
        self.assertFalse(far_ends_have_it_or_it_flies(flood))
        self.assertFalse(trees_are_those_of_the_links(flood))


class Lines(unittest.TestCase):
    def test_what_is_no_line_is_refused(self):
        for line, rule in (
            ("link sideways r1 r2", "S1 UnknownWord"),
            ("hear ldp r1 r2", "S1 UnknownWord"),
            ("inject a 1", "S1 UnknownWord"),
            ("flush", "S1 UnknownWord"),
            ("show tree r1", "S1 UnknownWord"),
            ("hear", "S2 WrongCount"),
            ("link up r1", "S2 WrongCount"),
            ("drain 5", "S2 WrongCount"),
            ("hear flood r1 r2 0", "S2 WrongCount"),
            ("hear flood r1 r9", "S4 NoSuchName"),
            ("link down r1 r3", "S5 NotLinked"),
            ("link up r1 r1", "S5 NotLinked"),
        ):
            self.assertEqual([f"script refused {rule} at line 3"], report(ROW, "link up r1 r2 # a remark", "", line, "nonsense"), line)

    def test_a_topology_is_refused_first(self):
        self.assertEqual(["topology refused T2 UnknownKey at top"], report(b"x = 1", "nonsense"))

    def test_nothing_happens(self):
        self.assertEqual(["total steps 0 refused 0 flying 0"], report(b"", ""))
        self.assertEqual("total steps 0 refused 0 flying 0", report(ROW, "drain", "drain")[-1])

    def test_refused_lines_come_first_and_change_nothing(self):
        told = report(ROW, "link down r1 r2", "hear flood r2 r1", "link up r1 r2", "link up r2 r1", "hear flood r2 r1", "hear flood r2 r1")
        refused = ["line 1 refused Unchanged", "line 2 refused Empty", "line 4 refused Unchanged", "line 6 refused Empty"]
        self.assertEqual(refused, told[:4])
        self.assertEqual(["tree r1 to r2 cost 10 next r2", "tree r1 to r3 unreachable", "tree r2 to r1 unreachable"], told[4:7])
        self.assertEqual("total steps 2 refused 4 flying 1", told[-1])

    def test_a_step_past_the_last_ends_all(self):
        lines = ["link up r1 r2", "link up r1 r2", "link up r2 r3", "drain", "link down r1 r2"]
        with mock.patch.object(reference_flood, "STEPS", 9):
            self.assertEqual(["line 2 refused Unchanged", "too large steps"], report(ROW, *lines))
            self.assertEqual("total steps 9 refused 2 flying 0", report(ROW, *lines[:4], "hear flood r1 r2")[-1])
        with mock.patch.object(reference_flood, "STEPS", 8):
            self.assertEqual(["line 2 refused Unchanged", "too large steps"], report(ROW, *lines[:4]))

    def test_of_equal_ways_the_neighbour_of_least_number(self):
        square = ROW + b'[[node]]\nname = "r4"\nloopback = "192.0.2.4"\n[[link]]\na = "r1"\nb = "r4"\n[[link]]\na = "r4"\nb = "r3"\n'
        told = report(square, "link up r1 r4", "link up r3 r4", "link up r2 r3", "link up r1 r2", "drain")
        self.assertIn("tree r1 to r3 cost 20 next r2", told)
        self.assertIn("tree r2 to r4 cost 20 next r1", told)

    def test_delays_and_customers_change_nothing(self):
        links = ROOT / "examples/two-links/topology.toml"
        told = report(links.read_bytes(), "link up pe1 p", "link up p pe2", "drain")
        self.assertEqual(told, report(links.read_bytes().split(b"[[vrf]]")[0].replace(b"delay = 2", b""), "link up pe1 p", "link up p pe2", "drain"))


class Told(unittest.TestCase):
    def test_the_page_shows_the_example(self):
        self.assertIn((FLOOD / "expected/report.txt").read_text(), (ROOT / "docs/FLOOD.md").read_text())

    def test_the_usage_line_stands_once(self):
        forms = (ROOT / "docs/FORMATS.md").read_text().split("`usage: ")[1].split("`")[0].replace("\\|", "|")
        with tempfile.TemporaryDirectory() as room:
            self.assertEqual(f"usage: {forms}\n", subprocess.run([stand_in(room)], capture_output=True, text=True).stdout)


class Reference(unittest.TestCase):
    def setUp(self):
        self.room = Path(tempfile.mkdtemp())
        self.addCleanup(subprocess.run, ["rm", "-r", self.room])

    def run_it(self, *words):
        ran = subprocess.run([sys.executable, "-B", ROOT / "examples/reference.py", *words], capture_output=True, text=True)
        return ran.returncode, ran.stdout, ran.stderr

    def test_leaves_a_report_alone(self):
        words = ["flood", FLOOD / "topology.toml", FLOOD / "script.txt", self.room / "out"]
        self.assertEqual((0, "", ""), self.run_it(*words))
        self.assertEqual(["report.txt"], [path.name for path in (self.room / "out").iterdir()])
        self.assertEqual((0, "1 files are as worked out here\n", ""), self.run_it("--compare", *words))
        (self.room / "out/report.txt").write_text("total\n")
        self.assertEqual(1, self.run_it(*words, "--compare")[0])

    def test_other_words(self):
        self.assertEqual(2, self.run_it("flood", FLOOD / "topology.toml", self.room)[0])
        self.assertIn("reference.py [--compare] flood|reflect TOPOLOGY SCRIPT FOLDER", self.run_it("--help")[1])


class Compare(unittest.TestCase):
    """The script that compares program and reference, by a program that is the reference, whole or with a fault in it."""

    def setUp(self):
        room = tempfile.TemporaryDirectory()
        self.addCleanup(room.cleanup)
        self.room = Path(room.name)
        self.program = stand_in(self.room)

    def compare(self, *words):
        ran = subprocess.run([ROOT / "scripts/compare", "--program", self.program, *words], capture_output=True, text=True)
        self.assertEqual("", ran.stderr)
        return ran.returncode, ran.stdout

    def test_the_stored_floods(self):
        self.assertEqual(6, len(STORED))
        self.assertEqual((0, "6 runs: program and reference leave what is expected\n"), self.compare(*STORED))

    def test_random_floods(self):
        status, said = self.compare("--random", "12", "--command", "flood")
        self.assertEqual((0, "12 random runs of flood, 0 differences"), (status, said.splitlines()[0]))
        self.assertIn(" table tree\n", said)

    def test_a_flood_that_differs_is_told_and_kept(self):
        self.program.write_text(self.program.read_text().replace("import reference\n", "import reference, reference_flood\nreference_flood.Flood.fly = lambda flood: 0\n"))
        status, said = self.compare("--random", "12", "--command", "flood", "--keep", self.room / "kept")
        self.assertEqual(1, status)
        self.assertRegex(said, r"seed \d+: report.txt at line \d+: due is\n  total steps \d+ refused \d+ flying [1-9]\d*\nfound\n  total .* flying 0\n")
        kept = next((self.room / "kept").iterdir())
        self.assertEqual(["due", "found", "script.txt", "topology.toml"], sorted(path.name for path in kept.iterdir()))

    def test_a_program_that_has_no_such_command(self):
        self.program.write_text(self.program.read_text().replace('["flood", 3]', '["flood", 0]'))
        status, said = self.compare(next(folder for folder in STORED if folder.name == "a-flood-over-three-in-a-row"))
        self.assertEqual(1, status)
        self.assertIn("a-flood-over-three-in-a-row: the program differs: status 2 where 0 is due", said)


if __name__ == "__main__":
    unittest.main()
