"""Tests of the examples: each is whole, a capture is what its script makes, and what is expected is what reference.py works out."""

import re
import shutil
import subprocess
import sys
import tempfile
import unittest
from pathlib import Path

EXAMPLES = Path(__file__).resolve().parents[2] / "examples"
RUNS = "first two-links overlap hub-and-spoke extranet micro-loop maintenance dual-homing ordered-control site-moves loss late labels-again damaged ring".split()
REPORTED = {"flood": "flood", "older-database": "flood", "reflectors": "reflect", "reach": "reach"}  # of a report alone, by example the command
JOINS = ["two-providers"]
OF_ALL = ["README.md", "topology.toml", "script.txt", "expected/report.txt"]
OF_RUNS = [*OF_ALL, "capture.py", "capture.pcap", "drawing.svg"]
OF_REPORTED = [*OF_ALL, "command.txt"]
OF_JOINS = ["README.md", "topology1.toml", "topology2.toml", "joints.txt", "script.txt", "capture.py", "capture.pcap", "command.txt", "expected/report.txt"]


def run(*words, **how):
    return subprocess.run([sys.executable, "-B", *map(str, words)], stdout=subprocess.PIPE, stderr=subprocess.STDOUT, text=True, **how)


class Examples(unittest.TestCase):
    def test_each_folder_is_an_example_with_all_its_parts(self):
        folders = {path.name for path in EXAMPLES.iterdir() if (path / "expected").is_dir()}
        self.assertEqual(folders, {*RUNS, *REPORTED, *JOINS})
        for names, parts in ((RUNS, OF_RUNS), (REPORTED, OF_REPORTED), (JOINS, OF_JOINS)):
            for name in names:
                for part in parts:
                    part = "failures.txt" if (name, part) == ("reach", "script.txt") else part
                    self.assertTrue((EXAMPLES / name / part).is_file(), f"{name}/{part}")

    def test_all_are_run(self):
        """By scripts/examples, which make examples calls."""
        listed = re.search(r'^ALL = "(.*)"\.split', (EXAMPLES.parent / "scripts/examples").read_text(), re.M)[1].split()
        self.assertEqual(sorted([*RUNS, *REPORTED, *JOINS]), sorted(listed))

    def test_one_of_another_command_has_a_report_alone(self):
        for name, command in REPORTED.items():
            self.assertEqual(f"{command}\n", (EXAMPLES / name / "command.txt").read_text())
            self.assertEqual(["report.txt"], [path.name for path in (EXAMPLES / name / "expected").iterdir()])

    def test_each_capture_is_what_its_script_makes(self):
        for name in RUNS + JOINS:
            with self.subTest(name), tempfile.TemporaryDirectory() as room:
                copy = Path(room) / name
                copy.mkdir()
                shutil.copy(EXAMPLES / "packets.py", room)
                shutil.copy(EXAMPLES / name / "capture.py", copy)
                made = run(copy / "capture.py")
                self.assertEqual(made.returncode, 0, made.stdout)
                self.assertEqual((copy / "capture.pcap").read_bytes(), (EXAMPLES / name / "capture.pcap").read_bytes())

    def test_what_is_expected_is_what_the_reference_works_out(self):
        inputs = ["topology.toml", "script.txt"]
        words = dict.fromkeys(RUNS, [*inputs, "capture.pcap"]) | {name: [command, *inputs] for name, command in REPORTED.items()}
        words["reach"] = ["reach", "topology.toml", "failures.txt"]
        words |= dict.fromkeys(JOINS, ["join", "topology1.toml", "topology2.toml", "joints.txt", "script.txt", "capture.pcap"])
        for name in words:
            with self.subTest(name):
                compared = run("../reference.py", *words[name], "expected", "--compare", cwd=EXAMPLES / name)
                self.assertEqual(compared.returncode, 0, compared.stdout)

    def test_each_page_tells_what_becomes_of_each_packet(self):
        """Every rule by which a packet is dropped in a report stands in the example's page."""
        for name in RUNS:
            page = (EXAMPLES / name / "README.md").read_text()
            for line in (EXAMPLES / name / "expected" / "report.txt").read_text().splitlines():
                words = line.split()
                if words[0] == "packet" and words[8] == "dropped":
                    self.assertIn(f"{words[9]} at {words[11]}", page, f"{name}: {line}")


if __name__ == "__main__":
    unittest.main()
