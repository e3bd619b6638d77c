"""What mn_stored_runs does in the gate is what examples/ and the stored runs have, and what isn't so is told with its place."""

import importlib.machinery
import importlib.util
import io
import shutil
import subprocess
import tempfile
import unittest
from collections import Counter
from contextlib import redirect_stderr, redirect_stdout
from pathlib import Path

ROOT = Path(__file__).resolve().parents[2]
SCRIPT = ROOT / "scripts/stored-runs"
CRATE = "crates/mn_stored_runs"


def loaded():
    loader = importlib.machinery.SourceFileLoader("stored_runs", str(SCRIPT))
    module = importlib.util.module_from_spec(importlib.util.spec_from_loader("stored_runs", loader))
    loader.exec_module(module)
    return module


class StoredRuns(unittest.TestCase):
    @classmethod
    def setUpClass(cls):
        cls.script = loaded()

    def setUp(self):
        self.root = Path(tempfile.mkdtemp())
        self.addCleanup(shutil.rmtree, self.root)
        for name in ["first", "two-links", "flood"]:
            shutil.copytree(ROOT / "examples" / name, self.root / "examples" / name)
        run = f"{CRATE}/data/runs/an-unknown-word"
        shutil.copytree(ROOT / run, self.root / run)

    def called(self, *words):
        said, errors = io.StringIO(), io.StringIO()
        with redirect_stdout(said), redirect_stderr(errors):
            status = self.script.main(list(words), self.root)
        return status, errors.getvalue()

    def read(self, name):
        return (self.root / CRATE / name).read_text()

    def test_the_crate_has_what_the_examples_have(self):
        ran = subprocess.run([SCRIPT, "--check"], capture_output=True, text=True)
        self.assertEqual((0, ""), (ran.returncode, ran.stderr))

    def test_all_runs_are_rows(self):
        names = [f"examples/{path.parent.name}" for path in sorted(ROOT.glob("examples/*/expected"))]
        names += [f"runs/{path.parent.name}" for path in sorted((ROOT / CRATE / "data/runs").glob("*/expected"))]
        rows = [line.split() for line in (ROOT / CRATE / "stdin").read_text().splitlines()]
        self.assertEqual(names, [name for _, name in rows])
        self.assertEqual({"run": 57, "flood": 8, "reflect": 9, "reach": 21, "join": 16}, dict(Counter(command for command, _ in rows)))

    def test_rows_have_status_and_number_of_files(self):
        self.assertEqual((0, ""), self.called())
        self.assertEqual("run examples/first\nflood examples/flood\nrun examples/two-links\nrun runs/an-unknown-word\n", self.read("stdin"))
        self.assertEqual(
            "examples/first: status 0, 4 files as expected\n"
            "examples/flood: status 0, 1 files as expected\n"
            "examples/two-links: status 0, 12 files as expected\n"
            "runs/an-unknown-word: status 4, 1 files as expected\n",
            self.read("stdout"),
        )
        self.assertEqual((0, ""), self.called("--check"))

    def test_a_changed_byte_of_a_copy_is_told(self):
        self.called()
        path = self.root / CRATE / "data/examples/first/expected/journal.txt"
        path.write_bytes(b"1" + path.read_bytes()[1:])
        said = f"{CRATE}/data/examples/first/expected/journal.txt: isn't what scripts/stored-runs lays\n"
        self.assertEqual((1, said), self.called("--check"))

    def test_a_changed_example_is_told_and_laid_anew(self):
        self.called()
        (self.root / "examples/first/script.txt").write_text("inject a 1\n")
        said = f"{CRATE}/data/examples/first/script.txt: isn't what scripts/stored-runs lays\n"
        self.assertEqual((1, said), self.called("--check"))
        self.called()
        self.assertEqual((0, ""), self.called("--check"))

    def test_a_file_that_no_example_has_is_told_and_goes(self):
        self.called()
        (self.root / "examples/first/expected/labels.txt").unlink()
        status, said = self.called("--check")
        self.assertEqual(1, status)
        self.assertIn(f"{CRATE}/data/examples/first/expected/labels.txt: stands in no folder of examples/\n", said)
        self.called()
        self.assertFalse((self.root / CRATE / "data/examples/first/expected/labels.txt").exists())

    def test_a_run_without_a_capture_is_told_and_nothing_is_laid(self):
        (self.root / "examples/first/capture.pcap").unlink()
        self.assertEqual((1, f"{self.root}/examples/first/capture.pcap: isn't there\n"), self.called())
        self.assertFalse((self.root / CRATE / "stdin").exists())

    def test_a_flood_needs_no_capture_and_its_word_is_laid(self):
        self.called()
        self.assertEqual("flood\n", (self.root / CRATE / "data/examples/flood/command.txt").read_text())
        (self.root / "examples/flood/script.txt").unlink()
        self.assertEqual((1, f"{self.root}/examples/flood/script.txt: isn't there\n"), self.called())

    def test_a_command_whose_runs_are_not_kept_is_told(self):
        (self.root / "examples/flood/command.txt").write_text("generate\n")
        said = f"{self.root}/examples/flood/command.txt: runs of such a command aren't kept: generate\n"
        self.assertEqual((1, said), self.called())
        self.assertFalse((self.root / CRATE / "stdin").exists())

    def test_a_folder_of_ones_own_is_passed_over(self):
        self.called()
        (self.root / "examples/mine").mkdir()
        self.assertEqual((0, ""), self.called("--check"))

    def test_words(self):
        self.assertEqual(0, self.called("--help")[0])
        self.assertEqual(2, self.called("--chek")[0])


if __name__ == "__main__":
    unittest.main()
