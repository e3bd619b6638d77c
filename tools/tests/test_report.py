"""A run as data, and the differences of two runs."""

import csv
import io
import json
import shutil
import subprocess
import sys
import tempfile
import unittest
from pathlib import Path

from runs import ROOT

from mplsnet.run import KEYS, KINDS, Run

LINKS = ROOT / "examples/two-links/expected"
AGAIN = ROOT / "examples/labels-again/expected"
LATE = ROOT / "examples/late/expected"
DUAL = ROOT / "examples/dual-homing/expected"
DAMAGED = ROOT / "examples/damaged/expected"
LOSS = ROOT / "examples/loss/expected"
LOOP = ROOT / "examples/micro-loop"
RUNS = sorted(file.parent for file in ROOT.glob("examples/*/expected/journal.txt"))


def run_tool(name, *words):
    return subprocess.run([sys.executable, ROOT / "tools" / name, *map(str, words)], capture_output=True, text=True)


class Data(unittest.TestCase):
    def test_every_kind_of_every_example(self):
        self.assertIn(LINKS, RUNS)
        for folder in RUNS:
            run = Run(folder)
            for kind in KINDS:
                with self.subTest(folder=folder.parent.name, kind=kind):
                    self.assertTrue(all(tuple(entry) == KEYS[kind] for entry in run.kind(kind)))
            total = run.total
            self.assertEqual((total["packets"], total["steps"], total["refused"]), (len(run.packets), len(run.steps), len(run.refused)))
            self.assertEqual(total["delivered"], len(run.deliveries))
            self.assertEqual((folder / "labels.txt").read_text().count("\n"), len(run.labels))
            self.assertEqual((folder / "journal.txt").read_text().splitlines(), [f"{step['tick']} {step['words']}" for step in run.steps])

    def test_the_run_over_two_links(self):
        run = Run(LINKS)
        packet = {
            "packet": 1, "line": 5, "site": "a", "record": 1, "verdict": "delivered", "rule": None, "node": None, "to": "b", "ttl": 61, "copy": 1,
            "hops": 2, "path": "pe1 p pe2", "sent": 40, "ended": 42, "tick": 0, "ended_tick": 4,
        }  # fmt: skip
        self.assertEqual([packet], run.packets)
        self.assertEqual([("16 16", 63), ("16", 62)], [(frame["labels"], frame["ttl"]) for frame in run.frames])
        self.assertEqual(
            [("ldp", "p", "pe1"), ("ldp", "pe2", "p"), ("bgp", "pe2", "pe1")],
            [(session["protocol"], session["opener"], session["other"]) for session in run.sessions],
        )
        announced = [message for message in run.messages if message["type"] == "announce"]
        self.assertEqual([("pe2", "65000:2", "10.2.0.0/16", 16, "65000:100"), ("pe1", "65000:1", "10.1.0.0/16", 16, "65000:100")],
                         [tuple(message[key] for key in ("sender", "rd", "prefix", "label", "targets")) for message in announced])  # fmt: skip
        mapped = [message for message in run.messages if message["type"] == "mapping" and message["sender"] == "p" and message["receiver"] == "pe1"]
        self.assertEqual({("192.0.2.2/32", 3), ("192.0.2.1/32", 17), ("192.0.2.3/32", 16)}, {(message["fec"], message["label"]) for message in mapped})
        self.assertEqual([1, 1, 2, 2, 3, 3, 4, 5, 5, 6, 6, 6], [entry["table"] for entry in run.tables])

    def test_a_label_that_is_given_again(self):
        run = Run(AGAIN)
        of_p = [(entry["label"], entry["fec"]) for entry in run.labels if entry["node"] == "p"]
        self.assertEqual([(16, "pe2"), (17, "pe1"), (16, "pe1"), (17, "pe2")], of_p)
        to_p = [(frame["packet"], frame["sender"], frame["edge"], frame["labels"]) for frame in run.frames if frame["receiver"] == "p"]
        back = (6, "pe2", "pe1", "16 17")
        self.assertEqual([*((packet, "pe1", "pe2", "16 16") for packet in (1, 2, 3, 4)), (5, "pe1", "pe2", "17 16"), back], to_p)

    def test_time_that_passes(self):
        run = Run(LATE)
        passed = [(step["step"], step["tick"], step["ticks"]) for step in run.steps if step["kind"] == "tick"]
        self.assertEqual([(42, 0, 10), (44, 10, 1), (51, 112, 4)], passed)
        dropped = [(one["packet"], one["rule"], one["node"], one["ended"], one["ended_tick"]) for one in run.packets if one["verdict"] == "dropped"]
        self.assertEqual([(2, "Overdue", "pe1", 44, 10), (4, "Overdue", "p", 51, 112)], dropped)

    def test_damaged_messages_and_frames(self):
        run = Run(DAMAGED)
        damages = [{key: step[key] for key in ("tick", "what", "a", "b", "record")} for step in run.steps if step["kind"] == "damage"]
        ldp = {"tick": 2, "what": "ldp", "a": "p", "b": "pe1", "record": 4}
        self.assertEqual([ldp, {"tick": 5, "what": "bgp", "a": "pe2", "b": "pe1", "record": 6}], damages)
        frames = [(row.get("rule"), row.get("next")) for row in run.tables if row["kind"] == "frame"]
        self.assertEqual([("NoEntry", None), (None, "pe1")], frames)

    def test_routes_that_are_not_resolved(self):
        run = Run(DUAL)
        routes = [(row["table"], row["prefix"], row["edge"]) for row in run.tables if row["kind"] == "vrf" and row["state"] == "unresolved"]
        in_the_third = [(3, prefix, edge) for prefix, edge in (("10.2.0.0/16", "pe2"), ("10.3.0.0/16", "pe3"), ("10.3.1.0/24", "pe2"))]
        self.assertEqual([(2, "10.3.1.0/24", "pe2"), *in_the_third], routes)

    def test_csv_and_json_say_the_same(self):
        for kind in KINDS:
            found = json.loads(run_tool("mplsnet-report", LOSS, "--json", kind).stdout)
            rows = list(csv.DictReader(io.StringIO(run_tool("mplsnet-report", LOSS, "--csv", kind).stdout)))
            self.assertEqual([{key: "" if value is None else str(value) for key, value in entry.items()} for entry in found], rows)
        self.assertEqual(",".join(KEYS["refused"]) + "\n", run_tool("mplsnet-report", "--csv", LINKS, "refused").stdout)

    def test_counts(self):
        said = run_tool("mplsnet-report", LINKS).stdout
        self.assertRegex(said, r"(?m)^ +1 packets +how each packet ended")
        self.assertRegex(said, r"(?m)^ +42 steps ")

    def test_wrong_words_and_files(self):
        for status, said, *words in (
            (2, "KIND is one of packets", LINKS, "--json"),
            (2, "'nope' is none of packets", LINKS, "nope"),
            (2, "not allowed with", LINKS, "packets", "--json", "--csv"),
            (1, "nothing: not a folder", "nothing"),
            (1, "nothing.txt: No such file", LINKS, "packets", "--report", "nothing.txt"),
        ):
            ran = run_tool("mplsnet-report", *words)
            self.assertEqual((status, ""), (ran.returncode, ran.stdout))
            self.assertIn(said, ran.stderr)
            self.assertNotIn("Traceback", ran.stderr)


class Diff(unittest.TestCase):
    def setUp(self):
        self.folder = Path(tempfile.mkdtemp())
        self.addCleanup(shutil.rmtree, self.folder)

    def test_nothing_differs(self):
        ran = run_tool("mplsnet-diff", LOSS, LOSS)
        self.assertEqual((0, ""), (ran.returncode, ran.stderr))
        self.assertRegex(ran.stdout, r"^\d+ steps and 5 packets: nothing differs\n$")

    def test_what_differs_and_why(self):
        ran = run_tool("mplsnet-diff", "--topology", LOSS.parent / "topology.toml", LINKS, LOSS)
        self.assertEqual((1, ""), (ran.returncode, ran.stderr))
        self.assertIn("step 41: first 2 carry pe1 p 0; second 0 inject a 2\n", ran.stdout)
        self.assertIn("second dropped Lost at pe1 path pe1\n", ran.stdout)
        self.assertIn("because a line of the script loses the frame", ran.stdout)
        self.assertIn("4 packets end otherwise\n", ran.stdout)

    def test_another_end_of_the_same_packet(self):
        changed = self.folder / "run"
        shutil.copytree(LINKS, changed)
        report = changed / "report.txt"
        report.write_text(report.read_text().replace("delivered b ttl 61 copy 1", "delivered b ttl 60 copy 1"))
        ran = run_tool("mplsnet-diff", LINKS, changed)
        self.assertEqual(1, ran.returncode)
        self.assertIn("packet 1: first delivered b ttl 61 path pe1 p pe2\n          second delivered b ttl 60 path pe1 p pe2\n", ran.stdout)

    def test_wrong_files(self):
        ran = run_tool("mplsnet-diff", LINKS, self.folder)
        self.assertEqual((1, ""), (ran.returncode, ran.stdout))
        self.assertIn("journal.txt: No such file", ran.stderr)


if __name__ == "__main__":
    unittest.main()
