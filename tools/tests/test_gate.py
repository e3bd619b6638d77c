"""What the gate costs and a change proves anew: for what a command of the gate works, a run of a gate that a stand-in does, and the crates above."""

import importlib.machinery
import importlib.util
import os
import shutil
import subprocess
import sys
import tempfile
import unittest
from pathlib import Path

ROOT = Path(__file__).resolve().parents[2]
LOADER = importlib.machinery.SourceFileLoader("gate_time", str(ROOT / "scripts/gate-time"))
GATE = importlib.util.module_from_spec(importlib.util.spec_from_loader("gate_time", LOADER))
sys.modules["gate_time"] = GATE
LOADER.exec_module(GATE)

LISTING = "# Each crate.\n\n## Base: all\nmn_a:\nmn_b: mn_a thiserror\n\n## Tests: rows\nmn_rows: mn_b\nmn_tests staticlib: mn_a\n"

# A gate that waits a while for a process that has the words of a check of mn_a.
RT = """#!/bin/sh
"$RATTLE" check --crate-name mn_a src/lib.rt
echo "rt: $*"
exit "${STATUS:-0}"
"""
RATTLE = """#!/bin/sh
sleep 2
"""


class Kinds(unittest.TestCase):
    def kind(self, folder, *words):
        return GATE.kind_of(list(words), folder, {"mn_rows", "mn_tests"})

    def test_the_crates_of_the_layer_tests(self):
        self.assertEqual({"mn_rows", "mn_tests"}, GATE.tests_of(LISTING))
        self.assertIn("mn_stored_runs", GATE.tests_of((ROOT / "crates.txt").read_text()))
        self.assertNotIn("mplsnet", GATE.tests_of((ROOT / "crates.txt").read_text()))

    def test_by_its_words(self):
        here = "/tmp/clone/crates/mn_a"
        rattle = ("/opt/rattle/bin/rattle", "build", "--crate-name")
        self.assertEqual(("code", "mn_a"), self.kind(here, *rattle, "mn_a", "src/lib.rt"))
        self.assertEqual(("tests", "mn_a"), self.kind(here, *rattle, "mn_a", "--test"))
        self.assertEqual(("tests", "mn_rows"), self.kind(here, *rattle, "mn_rows", "src/main.rt"))
        self.assertEqual(("programs", "mn_rows"), self.kind(here, *rattle, "mn_rows", "--crate-checked", "/tmp/checked"))
        self.assertEqual(("edits", "mn_a"), self.kind("/tmp/rt-edit-12-ab_c", *rattle, "mn_a"))
        self.assertEqual(("programs", "mn_a"), self.kind(here, "/opt/rattle/bin/rattle-link", "-o", "out/mn_a"))
        self.assertEqual(("programs", "mn_rows"), self.kind("/tmp/rt-run-12-x/data", "setpriv", "/tmp/rt-run-12-x/bin/mn_rows", "a"))
        self.assertEqual(("programs", "mn_a"), self.kind("/tmp/rt-run-12-x/data", "rattle-test", "--seconds", "60", "/tmp/rt-run-12-x/bin/mn_a_tests"))

    def test_other_commands_tell_nothing(self):
        for words in (["python3", "/usr/local/bin/rt", "ci"], ["/opt/rattle/bin/rattle", "fmt", "--check"], ["sh", "-c", "read _"], [""]):
            self.assertIsNone(self.kind("/tmp/clone", *words))

    def test_what_a_command_starts_works_for_the_same(self):
        top, one = (1, "1"), (2, "1")
        known = {top: GATE.Process(None), one: GATE.Process(top, kind=("edits", "mn_a"))}
        self.assertEqual(("edits", "mn_a"), GATE.kind_above(GATE.Process(one), known))
        self.assertEqual(("rt", ""), GATE.kind_above(GATE.Process(top), known))

    def test_a_row_for_each_part_and_crate(self):
        found = {("code", "mn_a"): 60, ("edits", "mn_a"): 90, ("tests", "mn_rows"): 30, ("rt", ""): 6, ("", ""): 54}
        self.assertEqual("| edits | 1.5 | 38% |", GATE.by_part(found)[5])
        self.assertEqual(["| ended between two looks | 0.9 | 22% |", "| all | 4.0 | 100% |"], GATE.by_part(found)[-2:])
        self.assertEqual(["| `mn_a` | 1.0 |  |  | 1.5 | 2.5 |", "| `mn_rows` |  | 0.5 |  |  | 0.5 |"], GATE.by_crate(found)[2:])


class Copy(unittest.TestCase):
    def setUp(self):
        self.room = Path(tempfile.mkdtemp())
        self.addCleanup(shutil.rmtree, self.room)
        self.root = self.room / "copy"
        (self.root / "scripts").mkdir(parents=True)
        for name in ("above", "gate-time"):
            shutil.copy(ROOT / "scripts" / name, self.root / "scripts")
        (self.root / "crates.txt").write_text(LISTING)

    def script(self, name, *words, **env):
        env = {**os.environ, "PATH": f"{self.room}:{os.environ['PATH']}", "TMPDIR": str(self.room / "tmp"), "RATTLE": str(self.room / "rattle"), **env}
        return subprocess.run([sys.executable, "-B", self.root / "scripts" / name, *words], capture_output=True, text=True, env=env)


class Gate(Copy):
    def setUp(self):
        super().setUp()
        (self.room / "tmp").mkdir()
        for name, text in (("rt", RT), ("rattle", RATTLE)):
            (self.room / name).write_text(text)
            (self.room / name).chmod(0o755)
        for words in (["init", "-q"], ["add", "."], ["-c", "user.name=t", "-c", "user.email=t@t", "commit", "-qm", "all"]):
            subprocess.run(["git", "-C", self.root, *words], check=True, capture_output=True)

    def test_a_gate_is_measured_and_its_clone_removed(self):
        ran = self.script("gate-time")
        self.assertEqual((0, ""), (ran.returncode, ran.stderr))
        self.assertIn(": rt ci --anew\n", ran.stdout)
        self.assertIn("\nrt: ci --anew\n", ran.stdout)
        self.assertRegex(ran.stdout, r"(?m)^\| `mn_a` \|.*\|  \|  \|  \| 0\.0 \|$")
        self.assertEqual([], list((self.room / "tmp").iterdir()))

    def test_what_is_kept_may_be_used_and_crates_named(self):
        self.assertIn("\nrt: ci mn_a mn_b\n", self.script("gate-time", "--kept", "mn_a", "mn_b").stdout)

    def test_a_gate_that_fails(self):
        ran = self.script("gate-time", "--log", self.room / "log", STATUS="1")
        self.assertEqual(1, ran.returncode)
        self.assertEqual("rt: ci --anew\n", (self.room / "log").read_text())

    def test_a_file_that_is_not_in_the_commit_is_told(self):
        (self.root / "crates.txt").write_text("")
        self.assertIn("gate-time: 1 files here aren't as in ", self.script("gate-time").stderr)


class Above(Copy):
    TABLE = "| Change | Lowest crate | Crates above |\n|---|---|---|\n| a figure | mn_a | 7 |\n| a rule | mn_b | 1 |\n\n| Other | mn_b | 9 |\n"

    def setUp(self):
        super().setUp()
        self.page = self.root / "CONTRIBUTING.md"
        self.page.write_text(self.TABLE)

    def test_the_page_is_as_it_is_made(self):
        ran = subprocess.run([ROOT / "scripts/above", "--check"], capture_output=True, text=True)
        self.assertEqual((0, ""), (ran.returncode, ran.stderr))

    def test_the_last_column_is_made_and_nothing_else(self):
        ran = self.script("above", "--check")
        self.assertEqual((1, "CONTRIBUTING.md:3: not so many crates above as crates.txt has: run scripts/above --write\n"), (ran.returncode, ran.stderr))
        self.assertEqual(0, self.script("above", "--write").returncode)
        self.assertEqual(self.TABLE.replace("| mn_a | 7 |", "| mn_a | 3 |"), self.page.read_text())
        self.assertEqual(0, self.script("above", "--check").returncode)

    def test_a_row_of_no_crate(self):
        self.page.write_text(self.TABLE.replace("mn_b | 1", "mn_c | 1"))
        ran = self.script("above", "--check")
        self.assertEqual((1, "scripts/above: CONTRIBUTING.md:4: crates.txt names no crate mn_c\n"), (ran.returncode, ran.stderr))

    def test_the_names_above(self):
        self.assertEqual("mn_b\nmn_rows\nmn_tests\n", self.script("above", "--names", "mn_a").stdout)

    def test_wrong_words(self):
        for words in ([], ["--write", "mn_a"], ["--check", "--write"], ["mn_c"]):
            self.assertEqual(2, self.script("above", *words).returncode, words)


if __name__ == "__main__":
    unittest.main()
