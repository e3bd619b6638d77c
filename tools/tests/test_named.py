"""scripts/named lists where something is named: every file that git finds, by crate and folder."""

import shutil
import subprocess
import tempfile
import unittest
from pathlib import Path

ROOT = Path(__file__).resolve().parents[2]
FILES = {
    "crates.txt": "mn_low:\nmn_high: mn_low\n",
    "crates/mn_high/src/lib.rt": "LinkCut\n\nlink_cut(x)\n",
    "crates/mn_low/specs/A.antt": "LinkCutter\n",
    "crates/mn_low/specs/B.antt": "-- LinkCut, and LinkCut\n",
    "docs/player.svg": "<!-- LinkCut -->\n",
    "tools/a.py": "linkcut LINK_CUT\n",
    "README.md": "LinkCut.\n",
    "ignored.txt": "LinkCut\n",
    ".gitignore": "ignored.txt\n",
}


@unittest.skipUnless(shutil.which("git"), "git isn't installed")
class Named(unittest.TestCase):
    def setUp(self):
        self.root = Path(tempfile.mkdtemp())
        self.addCleanup(shutil.rmtree, self.root)
        for name, text in FILES.items():
            (self.root / name).parent.mkdir(parents=True, exist_ok=True)
            (self.root / name).write_text(text)
        (self.root / "scripts").mkdir()
        shutil.copy(ROOT / "scripts/named", self.root / "scripts")
        subprocess.run(["git", "init", "-q", self.root], check=True)

    def ran(self, *words):
        ran = subprocess.run([self.root / "scripts/named", *words], capture_output=True, text=True)
        return ran.returncode, ran.stdout, ran.stderr

    def test_whole_words_in_the_order_of_the_crates(self):
        lines = ["crates/mn_low", "  crates/mn_low/specs/B.antt: 1", "crates/mn_high", "  crates/mn_high/src/lib.rt: 1 3"]
        lines += ["docs", "  docs/player.svg: 1  (made by scripts/picture)", "top", "  README.md: 1", "4 files, of 2 crates and 2 other places", ""]
        self.assertEqual((0, "\n".join(lines), ""), self.ran("LinkCut"))

    def test_what_is_named_nowhere_and_wrong_words(self):
        self.assertEqual((1, "", "named nowhere\n"), self.ran("LinkCutterX"))
        self.assertEqual(2, self.ran()[0])
        shutil.rmtree(self.root / ".git")
        self.assertIn("git can't list the files", self.ran("LinkCut")[2])

    @unittest.skipUnless((ROOT / ".git").exists(), "not in a clone")
    def test_a_drop_rule_of_this_repository_is_named_in_every_file_that_git_finds(self):
        wanted = subprocess.run(["git", "-C", ROOT, "grep", "-lwI", "Overdue"], capture_output=True, text=True).stdout.split()
        told = subprocess.run([ROOT / "scripts/named", "Overdue"], capture_output=True, text=True).stdout
        self.assertEqual(["scripts/named"], [name for name in wanted if f"  {name}: " not in told])


if __name__ == "__main__":
    unittest.main()
