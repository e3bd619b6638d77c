"""The program by hand: help and version, the line on standard error after a failed call or a limit, `flood`, `reflect`, `join` and `reach`.

It is the proved one where it is built, else the trial build, or what MPLSNET names; where neither is there these are passed over. So are
those of a command that an older program doesn't know.
"""

import os
import re
import subprocess
import sys
import tempfile
import unittest
from pathlib import Path

ROOT = Path(__file__).resolve().parents[2]
sys.path.insert(0, str(ROOT / "scripts"))
import sources  # noqa: E402

BUILT = [sources.PROGRAM] * sources.is_proved() + [sources.TRIAL] * sources.is_tried()
PROGRAM = Path(os.environ["MPLSNET"]) if "MPLSNET" in os.environ else next(iter(BUILT), None)
FIRST = ROOT / "examples/first"
FLOOD = ROOT / "examples/flood"
REFLECT = ROOT / "examples/reflectors"
REACH = ROOT / "examples/reach"
JOINED = ROOT / "examples/two-providers"
JOINS = [JOINED / name for name in ("topology1.toml", "topology2.toml", "joints.txt", "script.txt", "capture.pcap")]
INPUTS = [FIRST / "topology.toml", FIRST / "script.txt", FIRST / "capture.pcap"]


def run(*words, **how):
    ran = subprocess.run([PROGRAM, *words], stdin=subprocess.DEVNULL, stderr=subprocess.PIPE, text=True, **({"stdout": subprocess.PIPE} | how))
    return ran.returncode, ran.stdout, ran.stderr


KNOWS_FLOOD, KNOWS_REFLECT = (bool(PROGRAM) and f"{word} TOPOLOGY SCRIPT" in run()[1] for word in ("flood", "reflect"))
JOIN = "join TOPOLOGY1 TOPOLOGY2 JOINTS SCRIPT CAPTURE FOLDER"
KNOWS_JOIN = bool(PROGRAM) and JOIN in run()[1]
KNOWS_REACH = bool(PROGRAM) and "reach TOPOLOGY" in run()[1]
FORMS = ["run TOPOLOGY SCRIPT CAPTURE FOLDER", "check TOPOLOGY", "generate NUMBER"]
FORMS += ["flood TOPOLOGY SCRIPT"] * KNOWS_FLOOD + ["reflect TOPOLOGY SCRIPT"] * KNOWS_REFLECT + [JOIN] * KNOWS_JOIN
FORMS += ["reach TOPOLOGY [FAILURES]"] * KNOWS_REACH
USAGE = f"usage: mplsnet {' | '.join(FORMS)}\n"


@unittest.skipUnless(PROGRAM, "the program isn't built")
class Program(unittest.TestCase):
    def setUp(self):
        self.room = tempfile.TemporaryDirectory()
        self.addCleanup(self.room.cleanup)
        self.out = Path(self.room.name) / "out"
        self.out.mkdir()

    def file(self, name, content):
        path = Path(self.room.name) / name
        path.write_bytes(content)
        return path

    def test_help_and_version_alone(self):
        status, out, err = run("--help")
        self.assertEqual((0, ""), (status, err))
        for form in FORMS:
            self.assertIn(f"mplsnet {form}\n", out)
        self.assertEqual((0, f"mplsnet {sources.version()}\n", ""), run("--version"))

    def test_other_words_are_usage(self):
        for words in (["--help", "run"], ["-h"], ["--version", "--help"], ["help"], [""], []):
            self.assertEqual((2, USAGE, ""), run(*words), words)

    def test_an_input_that_is_not_there(self):
        gone = Path(self.room.name) / "gone"
        line = f"mplsnet: {gone}: can't be read: No such file or directory (os error 2)\n"
        self.assertEqual((6, "", line), run("check", gone))
        for place in range(3):
            inputs = [*INPUTS[:place], gone, *INPUTS[place + 1 :]]
            self.assertEqual((6, "", line), run("run", *inputs, self.out))

    def test_a_folder_that_is_not_there(self):
        gone = Path(self.room.name) / "gone"
        line = f"mplsnet: {gone}/journal.txt: can't be made: No such file or directory (os error 2)\n"
        self.assertEqual((7, "", line), run("run", *INPUTS, gone))

    @unittest.skipUnless(os.path.exists("/dev/full"), "there is no /dev/full")
    def test_an_output_that_cannot_be_written(self):
        with open("/dev/full", "w") as full:
            for words in (["check", INPUTS[0]], ["--help"], ["run", *INPUTS, self.out]):
                status, _, err = run(*words, stdout=full)
                self.assertEqual((7, "mplsnet: standard output: can't be written: No space left on device (os error 28)\n"), (status, err), words)

    def test_limits(self):
        big = self.file("big", bytes(1_048_577))
        self.assertEqual((9, "too large topology bytes\n", f"mplsnet: {big}: more than 1048576 bytes\n"), run("check", big))
        lines = self.file("lines", b"\n" * 3_000_001)
        told = (9, "too large script lines\n", f"mplsnet: {lines}: more than 3000000 lines\n")
        self.assertEqual(told, run("run", INPUTS[0], lines, INPUTS[2], self.out))
        records = self.file("records", INPUTS[2].read_bytes()[:24] + bytes(16 * 100_001))
        told = (9, "too large capture records\n", f"mplsnet: {records}: more than 100000 records\n")
        self.assertEqual(told, run("run", *INPUTS[:2], records, self.out))

    def test_a_refusal_has_no_line_on_standard_error(self):
        bad = self.file("bad", b"x = 1\n")
        self.assertEqual((3, "topology refused T2 UnknownKey at top\n", ""), run("check", bad))


@unittest.skipUnless(KNOWS_FLOOD, "the program isn't built, or doesn't know 'flood' yet")
class Flood(unittest.TestCase):
    def setUp(self):
        self.room = tempfile.TemporaryDirectory()
        self.addCleanup(self.room.cleanup)

    def file(self, name, content):
        path = Path(self.room.name) / name
        path.write_bytes(content)
        return path

    def test_puts_the_report_and_writes_nothing(self):
        for example in (FLOOD, ROOT / "examples/older-database"):
            report = (example / "expected/report.txt").read_text()
            self.assertEqual((0, report, ""), run("flood", example / "topology.toml", example / "script.txt", cwd=self.room.name))
        self.assertEqual([], list(Path(self.room.name).iterdir()))

    def test_other_words_are_usage(self):
        topology, script = FLOOD / "topology.toml", FLOOD / "script.txt"
        for words in (["flood"], ["flood", topology], ["flood", topology, script, INPUTS[2]], ["Flood", topology, script]):
            self.assertEqual((2, USAGE, ""), run(*words), words)

    def test_inputs_are_those_of_a_run(self):
        topology, script, gone = FLOOD / "topology.toml", FLOOD / "script.txt", Path(self.room.name) / "gone"
        line = f"mplsnet: {gone}: can't be read: No such file or directory (os error 2)\n"
        for inputs in ([gone, script], [topology, gone]):
            self.assertEqual((6, "", line), run("flood", *inputs))
        bad = self.file("bad", b"x = 1\n")
        self.assertEqual((3, "topology refused T2 UnknownKey at top\n", ""), run("flood", bad, gone))
        bad = self.file("bad", b"link up r1 r2\ninject a 1\n")
        self.assertEqual((4, "script refused S1 UnknownWord at line 2\n", ""), run("flood", topology, bad))
        lines = self.file("lines", b"\n" * 3_000_001)
        told = (9, "too large script lines\n", f"mplsnet: {lines}: more than 3000000 lines\n")
        self.assertEqual(told, run("flood", topology, lines))

    @unittest.skipUnless(PROGRAM and PROGRAM != sources.TRIAL, "a trial build takes minutes")
    def test_a_step_past_the_last_ends_it(self):
        """45 nodes, each linked to each: the first drain hears some 2 million adverts, and each change of a link then some 3,900."""
        nodes = [f"n{number}" for number in range(1, 46)]
        links = [(a, b) for at, a in enumerate(nodes) for b in nodes[at + 1 :]]
        text = "".join(f'[[node]]\nname = "{name}"\nloopback = "192.0.2.{at}"\n' for at, name in enumerate(nodes, 1))
        text += "".join(f'[[link]]\na = "{a}"\nb = "{b}"\n' for a, b in links)
        lines = [f"link up {a} {b}" for a, b in links] + ["drain", "link up n1 n2"]
        lines += ["link down n1 n2", "drain", "link up n1 n2", "drain"] * 300
        inputs = self.file("topology", text.encode()), self.file("script", "\n".join(lines).encode())
        self.assertEqual((9, f"line {len(links) + 2} refused Unchanged\ntoo large steps\n"), run("flood", *inputs)[:2])


@unittest.skipUnless(KNOWS_REFLECT, "the program isn't built, or doesn't know 'reflect' yet")
class Reflect(unittest.TestCase):
    def setUp(self):
        self.room = tempfile.TemporaryDirectory()
        self.addCleanup(self.room.cleanup)

    def file(self, name, content):
        path = Path(self.room.name) / name
        path.write_bytes(content)
        return path

    def test_puts_the_report_and_writes_nothing(self):
        report = (REFLECT / "expected/report.txt").read_text()
        self.assertEqual((0, report, ""), run("reflect", REFLECT / "topology.toml", REFLECT / "script.txt", cwd=self.room.name))
        self.assertEqual([], list(Path(self.room.name).iterdir()))

    def test_other_words_are_usage(self):
        topology, script = REFLECT / "topology.toml", REFLECT / "script.txt"
        for words in (["reflect"], ["reflect", topology], ["reflect", topology, script, INPUTS[2]], ["Reflect", topology, script]):
            self.assertEqual((2, USAGE, ""), run(*words), words)

    def test_inputs_are_those_of_a_run(self):
        topology, gone = REFLECT / "topology.toml", Path(self.room.name) / "gone"
        line = f"mplsnet: {gone}: can't be read: No such file or directory (os error 2)\n"
        self.assertEqual((6, "", line), run("reflect", topology, gone))
        bad = self.file("bad", b"reflector rr1\nbgp up pe1 pe2\n")
        self.assertEqual((4, "script refused S6 NotEdge at line 2\n", ""), run("reflect", topology, bad))
        lines = self.file("lines", b"\n" * 3_000_001)
        told = (9, "too large script lines\n", f"mplsnet: {lines}: more than 3000000 lines\n")
        self.assertEqual(told, run("reflect", topology, lines))

    @unittest.skipUnless(PROGRAM and PROGRAM != sources.TRIAL, "a trial build takes minutes")
    def test_a_step_past_the_last_ends_it(self):
        """A session that begins and ends, without end."""
        lines = self.file("lines", b"reflector rr1\n" + b"bgp up pe1 rr1\nbgp down pe1 rr1\n" * 1_499_999)
        self.assertEqual((0, "total steps 2999998 refused 0 flying 0\n"), run("reflect", REFLECT / "topology.toml", lines)[:2])
        script = b"reflector rr1\n" + b"bgp up pe1 rr1\ndrain 4\nbgp down pe1 rr1\n" * 700_000 + b"bgp down pe1 rr1\n"
        lines = self.file("lines", script)
        self.assertEqual((9, "too large steps\n"), run("reflect", REFLECT / "topology.toml", lines)[:2])


@unittest.skipUnless(KNOWS_REACH, "the program isn't built, or doesn't know 'reach' yet")
class Reach(unittest.TestCase):
    def setUp(self):
        self.room = tempfile.TemporaryDirectory()
        self.addCleanup(self.room.cleanup)

    def file(self, name, content):
        path = Path(self.room.name) / name
        path.write_bytes(content)
        return path

    def test_puts_the_report_and_writes_nothing(self):
        report = (REACH / "expected/report.txt").read_text()
        self.assertEqual((0, report, ""), run("reach", REACH / "topology.toml", REACH / "failures.txt", cwd=self.room.name))
        pairs = report.split("failure 1 ")[0]
        self.assertEqual((0, f"{pairs}total pairs 5 failures 0 verdicts 0 lost 0 part 0 moved 0\n", ""), run("reach", REACH / "topology.toml"))
        self.assertEqual([], list(Path(self.room.name).iterdir()))

    def test_other_words_are_usage(self):
        topology, failures = REACH / "topology.toml", REACH / "failures.txt"
        for words in (["reach"], ["reach", topology, failures, failures], ["Reach", topology]):
            self.assertEqual((2, USAGE, ""), run(*words), words)

    def test_inputs_are_those_of_a_run(self):
        topology, gone = REACH / "topology.toml", Path(self.room.name) / "gone"
        line = f"mplsnet: {gone}: can't be read: No such file or directory (os error 2)\n"
        for words in ([gone], [topology, gone], [gone, topology]):
            self.assertEqual((6, "", line), run("reach", *words))
        bad = self.file("bad", b"each link\nbgp down pe1 p1\n")
        self.assertEqual((4, "script refused S6 NotEdge at line 2\n", ""), run("reach", topology, bad))
        lines = self.file("lines", b"\n" * 3_000_001)
        told = (9, "too large script lines\n", f"mplsnet: {lines}: more than 3000000 lines\n")
        self.assertEqual(told, run("reach", topology, lines))

    def test_too_many_pairs_are_told_after_a_refused_line(self):
        topology = ROOT / "crates/mn_stored_runs/data/runs/more-pairs-than-are-told/topology.toml"
        status, out, err = run("reach", topology)
        self.assertEqual((9, "too large pairs\n"), (status, out))
        self.assertTrue(err.startswith("mplsnet: ") and err.endswith(": more than 100000 pairs\n"), err)
        self.assertEqual((4, "script refused S3 BadNumber at line 1\n", ""), run("reach", topology, self.file("bad", b"ttl 1\n")))


@unittest.skipUnless(KNOWS_JOIN, "the program isn't built, or doesn't know 'join' yet")
class Join(unittest.TestCase):
    def setUp(self):
        self.room = tempfile.TemporaryDirectory()
        self.addCleanup(self.room.cleanup)
        self.out = Path(self.room.name) / "out"
        self.out.mkdir()

    def file(self, name, content):
        path = Path(self.room.name) / name
        path.write_bytes(content)
        return path

    def test_puts_the_report_and_writes_what_comes_out(self):
        report = (JOINED / "expected/report.txt").read_text()
        self.assertEqual((0, report, ""), run("join", *JOINS, self.out))
        self.assertEqual({"delivered.pcap"}, {path.name for path in self.out.iterdir()})
        self.assertEqual((JOINED / "expected/delivered.pcap").read_bytes(), (self.out / "delivered.pcap").read_bytes())

    def test_other_words_are_usage(self):
        for words in ([], JOINS, [*JOINS[:4], self.out], [*JOINS, self.out, self.out]):
            self.assertEqual((2, USAGE, ""), run("join", *words), words)

    def test_an_input_in_the_folder_is_usage(self):
        for place, path in enumerate(JOINS):
            inside = self.out / path.name
            inside.write_bytes(path.read_bytes())
            self.assertEqual((2, USAGE, ""), run("join", *JOINS[:place], inside, *JOINS[place + 1 :], self.out))
            inside.unlink()

    def test_an_input_or_a_folder_that_is_not_there(self):
        gone = Path(self.room.name) / "gone"
        line = f"mplsnet: {gone}: can't be read: No such file or directory (os error 2)\n"
        for place in range(5):
            self.assertEqual((6, "", line), run("join", *JOINS[:place], gone, *JOINS[place + 1 :], self.out))
        line = f"mplsnet: {gone}/delivered.pcap: can't be made: No such file or directory (os error 2)\n"
        self.assertEqual((7, "", line), run("join", *JOINS, gone))

    def test_inputs_are_tried_in_their_order(self):
        bad = self.file("bad", b"x = 1\n")
        self.assertEqual((3, "topology refused T2 UnknownKey at top\n", ""), run("join", bad, bad, *JOINS[2:], self.out))
        self.assertEqual((12, "second topology refused T2 UnknownKey at top\n", ""), run("join", JOINS[0], bad, bad, *JOINS[3:], self.out))
        self.assertEqual((11, "joints refused J1 WrongCount at line 1\n", ""), run("join", *JOINS[:2], bad, bad, JOINS[4], self.out))
        self.assertEqual((4, "script refused S1 UnknownWord at line 1\n", ""), run("join", *JOINS[:3], bad, bad, self.out))
        self.assertEqual([], list(self.out.iterdir()))

    def test_limits(self):
        big = self.file("big", bytes(1_048_577))
        for place, name in ((0, "topology"), (1, "topology"), (2, "joints")):
            told = (9, f"too large {name} bytes\n", f"mplsnet: {big}: more than 1048576 bytes\n")
            self.assertEqual(told, run("join", *JOINS[:place], big, *JOINS[place + 1 :], self.out))


class Version(unittest.TestCase):
    def test_stands_in_the_changes(self):
        """The newest version with a head in the CHANGELOG is the program's."""
        heads = re.findall(r"^## \[(.+)\]", (ROOT / "CHANGELOG.md").read_text(), re.M)
        self.assertEqual("Unreleased", heads[0])
        self.assertEqual(sources.version(), heads[1])


if __name__ == "__main__":
    unittest.main()
