"""docs/PROVED.md is as the crates' READMEs have it, the picture of crates/README.md as crates.txt has it, and the README's picture
as the player draws it; what isn't so is told."""

import shutil
import subprocess
import sys
import tempfile
import unittest
from pathlib import Path

ROOT = Path(__file__).resolve().parents[2]


class Proved(unittest.TestCase):
    def setUp(self):
        self.root = Path(tempfile.mkdtemp())
        self.addCleanup(shutil.rmtree, self.root)
        for name in ["scripts", "docs"]:
            shutil.copytree(ROOT / name, self.root / name)
        shutil.copy(ROOT / "crates.txt", self.root)
        for readme in ROOT.glob("crates/*/README.md"):
            copy = self.root / readme.relative_to(ROOT)
            copy.parent.mkdir(parents=True)
            shutil.copy(readme, copy)

    def run_proved(self, *words):
        ran = subprocess.run([sys.executable, self.root / "scripts/proved", *words], capture_output=True, text=True)
        return ran.returncode, ran.stderr

    def change(self, name, old, new):
        path = self.root / name
        self.assertIn(old, path.read_text())
        path.write_text(path.read_text().replace(old, new, 1))

    def test_the_page_is_as_it_is_made(self):
        self.assertEqual((0, ""), self.run_proved("--check"))

    def test_another_promise_makes_another_page(self):
        self.change("crates/mn_labels/README.md", "**Proved:** ", "**Proved:** much, and ")
        self.assertEqual((1, "docs/PROVED.md: not as the crates' READMEs have it: run scripts/proved\n"), self.run_proved("--check"))
        self.assertEqual((0, ""), self.run_proved())
        self.assertIn("| [`mn_labels`](../crates/mn_labels/README.md) | much, and ", (self.root / "docs/PROVED.md").read_text())
        self.assertEqual((0, ""), self.run_proved("--check"))

    def test_a_readme_without_its_promise(self):
        self.change("crates/mn_labels/README.md", "**Proved:** ", "")
        self.assertEqual((1, "crates/mn_labels/README.md: no line begins with '**Proved:**'\n"), self.run_proved())

    def test_wrong_words(self):
        self.assertEqual(2, self.run_proved("--cheque")[0])


class Layers(unittest.TestCase):
    """Over a crates.txt of two layers."""

    def setUp(self):
        self.root = Path(tempfile.mkdtemp())
        self.addCleanup(shutil.rmtree, self.root)
        for name in ["scripts", "crates"]:
            (self.root / name).mkdir()
        shutil.copy(ROOT / "scripts/layers", self.root / "scripts")
        shutil.copy(ROOT / "crates/README.md", self.root / "crates")
        self.listing = self.root / "crates.txt"
        self.listing.write_text("# Each crate.\n\n## Low: what is below\nmn_a:\nmn_b: mn_a thiserror\n## High: what is above\nmn_top staticlib: mn_b\n")

    def run_layers(self, *words):
        ran = subprocess.run([sys.executable, self.root / "scripts/layers", *words], capture_output=True, text=True)
        return ran.returncode, ran.stderr

    def test_the_page_is_as_it_is_made(self):
        ran = subprocess.run([ROOT / "scripts/layers", "--check"], capture_output=True, text=True)
        self.assertEqual((0, ""), (ran.returncode, ran.stderr))

    def test_the_highest_layer_stands_first(self):
        self.assertEqual((1, "crates/README.md: not as crates.txt has it: run scripts/layers\n"), self.run_layers("--check"))
        self.assertEqual((0, ""), self.run_layers())
        drawn = [line.strip("|+- ") for line in (self.root / "crates/README.md").read_text().split("```")[1].splitlines()[1:]]
        self.assertEqual(["High: what is above", "top", "Low: what is below", "a  b", ""], drawn)
        self.assertEqual((0, ""), self.run_layers("--check"))

    def test_a_crate_of_no_layer(self):
        self.listing.write_text("mn_loose:\n" + self.listing.read_text())
        self.assertEqual((1, "scripts/layers: crates.txt: no layer ('## NAME: WHAT') stands above loose\n"), self.run_layers())

    def test_wrong_words(self):
        self.assertEqual(2, self.run_layers("--cheque")[0])


class Picture(unittest.TestCase):
    def test_is_as_it_is_made(self):
        ran = subprocess.run([ROOT / "scripts/picture", "--check"], capture_output=True, text=True)
        self.assertEqual((0, ""), (ran.returncode, ran.stderr))


class Readme(unittest.TestCase):
    def test_is_one_page(self):
        self.assertLessEqual(len((ROOT / "README.md").read_text().splitlines()), 150)

    def test_its_lines_are_those_of_the_example(self):
        report = (ROOT / "examples/two-links/expected/report.txt").read_text().splitlines()
        shown = (ROOT / "README.md").read_text().split("$ make demo\n")[1].split("```")[0].splitlines()
        self.assertEqual(report[-2:], shown[:2])


if __name__ == "__main__":
    unittest.main()
