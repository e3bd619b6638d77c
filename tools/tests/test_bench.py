"""scripts/bench: its inputs are within the limits, its words are checked, and it removes what it made. Nothing is timed."""

import contextlib
import importlib.machinery
import importlib.util
import io
import json
import re
import sys
import tempfile
import unittest
from pathlib import Path

ROOT = Path(__file__).resolve().parents[2]
sys.dont_write_bytecode = True
loader = importlib.machinery.SourceFileLoader("bench", str(ROOT / "scripts/bench"))
bench = importlib.util.module_from_spec(importlib.util.spec_from_loader("bench", loader))
sys.modules["bench"] = bench
loader.exec_module(bench)
bench_cases = sys.modules["bench_cases"]
import reference_inputs  # noqa: E402
import reference_reach  # noqa: E402

# A program that writes one file of this text, puts a total line and ends with this status.
FAKE = """#!/bin/sh
[ "$1" = generate ] || printf '{text}' >"$5/journal.txt"
echo 'total packets 0 delivered 0 dropped 0 flying 0 steps {steps} refused 0 tick 0'
exit {status}
"""


def ran(*words):
    """The status, and what was put on both outputs."""
    out, error = io.StringIO(), io.StringIO()
    with contextlib.redirect_stdout(out), contextlib.redirect_stderr(error):
        try:
            status = bench.main([str(word) for word in words])
        except SystemExit as ended:
            status = ended.code
    return status, out.getvalue(), error.getvalue()


def case(name):
    (found,) = bench.chosen([name])
    return found


class Inputs(unittest.TestCase):
    def test_each_case_is_within_the_limits(self):
        for one in bench_cases.CASES:
            if not one.make:
                continue
            with self.subTest(case=one.name):
                inputs = one.make()
                topology = inputs.topology
                self.assertLessEqual(len(topology.encode()), 1 << 20)
                for kind, most in {"node": 256, "link": 1024, "vrf": 512, "site": 4096}.items():
                    self.assertLessEqual(topology.count(f"[[{kind}]]"), most)
                prefixes = sum(line.count("/") for line in topology.splitlines() if line.startswith("prefixes"))
                self.assertLessEqual(prefixes, 65_536)
                self.assertLessEqual(sum(24 + 16 + len(packet) for packet in inputs.packets), 64 << 20)
                size = lines = 0
                for piece in inputs.script:
                    size += len(piece)
                    lines += piece.count("\n")
                self.assertLessEqual(lines, 3_000_000)
                self.assertLessEqual(size, 64 << 20)

    def test_links_are_four_for_each_node_and_none_twice(self):
        for nodes in (64, 128, 256):
            links = bench_cases.random_links(nodes, 4 * nodes)
            self.assertEqual(4 * nodes, len({frozenset(link[:2]) for link in links}))
            self.assertTrue(all(a != b and 1 <= cost <= 100 for a, b, cost in links))
            self.assertEqual(links, bench_cases.random_links(nodes, 4 * nodes))

    def test_prefixes_are_65536_and_none_twice(self):
        self.assertEqual(65_536, len({bench_cases.prefix(at) for at in range(65_536)}))

    def test_a_packet_has_its_size_and_checksum(self):
        packet = bench_cases.udp_of(65_535)
        self.assertEqual(65_535, len(packet))
        self.assertEqual(0xFFFF, int.from_bytes(packet[2:4], "big"))
        self.assertEqual(0, bench_cases.packets.checksum(packet[:20]))

    def test_a_flood_is_given_a_topology_and_a_script(self):
        self.assertEqual(["flood", "in/topology.toml", "in/script.txt"], bench.words_of(case("flood-64"), Path("in"), Path("out")))

    def test_so_are_reflected_routes(self):
        self.assertEqual(["reflect", "in/topology.toml", "in/script.txt"], bench.words_of(case("reflect-8000"), Path("in"), Path("out")))
        inputs = case("reflect-8000").make()
        self.assertEqual(8_000, inputs.topology.count("/24"))
        self.assertEqual(129, "".join(inputs.script).count("bgp up"))

    def test_failures_are_asked_of_networks_with_so_many_pairs(self):
        for name, sites, links in (("reach-provider", 57, 68), ("reach-large", 256, 1_024)):
            inputs = case(name).make()
            self.assertEqual((sites, links), (inputs.topology.count("[[site]]"), inputs.topology.count("[[link]]")))
            self.assertEqual("each link\neach node\neach ldp\neach bgp\n", "".join(inputs.script))
            self.assertEqual(["reach", "in/topology.toml", "in/script.txt"], bench.words_of(case(name), Path("in"), Path("out")))
        topology = reference_inputs.read_topology(inputs.topology.encode())
        self.assertEqual(3_840, len(reference_reach.pairs_of(topology)))
        self.assertEqual(64, len(topology.edges()))

    def test_names_of_cases_differ(self):
        names = [one.name for one in bench_cases.CASES]
        self.assertEqual(len(names), len(set(names)))

    def test_are_made_in_a_new_folder(self):
        with tempfile.TemporaryDirectory() as made:
            folder = Path(made) / "inputs"
            self.assertEqual((0, "", ""), ran("--make", folder, "--only", "tiny", "generate"))
            self.assertEqual(["tiny"], [path.name for path in folder.iterdir()])
            for name in ("topology.toml", "script.txt", "capture.pcap"):
                self.assertEqual((ROOT / "examples/two-links" / name).read_bytes(), (folder / "tiny" / name).read_bytes())
            status, _, error = ran("--make", folder, "--only", "tiny")
            self.assertEqual((2, f"scripts/bench: {folder}: File exists\n"), (status, error))


class Words(unittest.TestCase):
    def test_lists_all_cases(self):
        status, out, _ = ran("--list")
        self.assertEqual(0, status)
        self.assertEqual([one.name for one in bench_cases.CASES], re.findall(r"^([^:]+): ", out, re.M))

    def test_a_family_is_all_its_sizes(self):
        self.assertEqual(["up-64", "up-128", "up-256"], [one.name for one in bench.chosen(["up"])])

    def test_refused(self):
        cases = {
            ("--only", "upp"): "scripts/bench: no case or family is named upp: --list shows them\n",
            ("--program", "/nowhere"): "scripts/bench: /nowhere isn't a program: 'make build' makes one, or --program names another\n",
            ("--times", "0"): "--times is at least 1",
            ("--seconds", "0"): "--seconds is above 0",
        }
        for words, says in cases.items():
            with self.subTest(words=words):
                status, out, error = ran(*words)
                self.assertEqual((2, ""), (status, out))
                self.assertIn(says, error)


class Runs(unittest.TestCase):
    def setUp(self):
        self.made = tempfile.TemporaryDirectory()
        self.addCleanup(self.made.cleanup)
        self.folder = Path(self.made.name) / "work"
        self.folder.mkdir()

    def fake(self, name, text="a", steps=5, status=0):
        path = Path(self.made.name) / name
        path.write_text(FAKE.format(text=text, steps=steps, status=status))
        path.chmod(0o755)
        return path

    def run_with(self, *words):
        return ran("--folder", self.folder, "--times", 2, "--only", "tiny", *words)

    def test_a_row_for_a_case_and_nothing_left(self):
        status, out, error = self.run_with("--program", self.fake("one"))
        self.assertEqual((0, ""), (status, error))
        self.assertRegex(out.splitlines()[2], r"^\| tiny \| 5 \| \d+\.\d{3} \| ")
        self.assertEqual([], list(self.folder.iterdir()))

    def test_two_programs_that_write_the_same(self):
        status, out, _ = self.run_with("--program", self.fake("one"), "--against", self.fake("two"))
        self.assertEqual(0, status)
        self.assertTrue(out.splitlines()[2].endswith("| the same |"))

    def test_two_programs_that_write_otherwise(self):
        for other in (self.fake("two", text="b"), self.fake("three", steps=6)):
            status, out, _ = self.run_with("--program", self.fake("one"), "--against", other)
            self.assertEqual(1, status)
            self.assertTrue(out.splitlines()[2].endswith("| DIFFERENT |"))
        self.assertEqual([], list(self.folder.iterdir()))

    def test_a_program_that_fails(self):
        program = self.fake("one", status=7)
        status, _, error = self.run_with("--program", program)
        self.assertEqual(1, status)
        self.assertTrue(error.startswith(f"scripts/bench: {program}: tiny: status 7: total "), error)
        self.assertEqual([], list(self.folder.iterdir()))

    def test_json(self):
        status, out, _ = self.run_with("--program", self.fake("one"), "--json", "--only", "generate-50")
        (entry,) = json.loads(out)
        self.assertEqual(("generate-50", 58, 5), (entry["case"], entry["size"], entry["runs"][0]["steps"]))


class Growth(unittest.TestCase):
    def test_is_told_as_a_power(self):
        before = case("up-64"), bench.Measured(user=1.0, peak=1000)
        now = bench.Measured(user=4.0, peak=2000)
        self.assertEqual("n^2.0, memory n^1.0", bench.growth(case("up-128"), now, before))

    def test_says_nothing_from_a_short_time(self):
        before = case("up-64"), bench.Measured(user=0.01, peak=1000)
        self.assertEqual("", bench.growth(case("up-128"), bench.Measured(user=4.0, peak=2000), before))


if __name__ == "__main__":
    unittest.main()
