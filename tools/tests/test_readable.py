"""scripts/readable counts what makes the repository hard to read, and says where each of it is."""

import shutil
import subprocess
import tempfile
import unittest
from pathlib import Path

ROOT = Path(__file__).resolve().parents[2]
FILES = {
    "crates/mn_low/src/lib.rt": "//! Low.\n//!\n//! - `named`: one\n\nmod named;\nmod other;\nmod third; // three\n",
    "crates/mn_low/src/named.rt": """\
/// After want of memory nothing is `heard`.
fn five<S: Low, O: Low>(a: u8, b: (u8, u8, u8), c: Map<u8, u8>, d: fn(u8, u8) -> u8, e: u8) -> u8 {
    unreachable!() // failed: bool
}

pub(crate) fn six<S: Low, O: Low>(
    &mut self, // one, two
    a: u8,
    b: u8,
    c: u8,
    d: &[u8],
    e: u8,
) -> u8 {
    failed: bool,
}
""",
    "crates/mn_low/specs/Low.antt": "-- what was heard\nlow : \u2115\n" + "x" * 161 + "\n" + "y" * 160 + "\n",
    "docs/PROVED.md": "| Crate | Says |\n|---|---|\n| `low` | one. " + "word " * 41 + "| " + "word " * 40 + "|\n",
    "docs/LEDGER.md": "# Words\n\nOne. " + "word " * 20 + "\n" + "word " * 21 + "\n\n```\n" + "word " * 41 + "\n```\n- " + "word " * 39 + "\n"
    + "- it. " + "word " * 41 + "\n\n| `low` | " + "word " * 40 + "| " + "word " * 41 + "|\n",
    "tools/one.js": "function bare() {}\n// What it does.\nfunction told() {\n  const inner = () => 1;\n}\n" + "z" * 161 + "\n",
}
WANTED = {
    "without-memory": ["crates/mn_low/src/named.rt:1"],
    "heard": ["crates/mn_low/specs/Low.antt:1"],
    "wide-proofs": ["crates/mn_low/specs/Low.antt:3"],
    "parameters": ["crates/mn_low/src/named.rt:6"],
    "unreachable": ["crates/mn_low/src/named.rt:3"],
    "failed": ["crates/mn_low/src/named.rt:14"],
    "modules": ["crates/mn_low/src/lib.rt:6"],
    "promises": ["docs/PROVED.md:3"],
    "definitions": ["docs/LEDGER.md:3", "docs/LEDGER.md:10", "docs/LEDGER.md:12"],
    "wide-scripts": ["tools/one.js:6"],
    "bare-functions": ["tools/one.js:1"],
}


class Readable(unittest.TestCase):
    def setUp(self):
        self.root = Path(tempfile.mkdtemp())
        self.addCleanup(shutil.rmtree, self.root)
        for name, text in FILES.items():
            (self.root / name).parent.mkdir(parents=True, exist_ok=True)
            (self.root / name).write_text(text)
        (self.root / "scripts").mkdir()
        shutil.copy(ROOT / "scripts/readable", self.root / "scripts")

    def ran(self, *words):
        return subprocess.run([self.root / "scripts/readable", *words], capture_output=True, text=True)

    def test_where_each_is(self):
        for name, places in WANTED.items():
            with self.subTest(name):
                self.assertEqual("".join(f"{place}\n" for place in places), self.ran(name).stdout)

    def test_what_is_over_its_limit(self):
        ran = self.ran()
        self.assertEqual(1, ran.returncode)
        over = ["without-memory", "modules", "promises", "definitions", "wide-scripts", "bare-functions"]
        self.assertEqual(over, [line.split(":")[0] for line in ran.stderr.splitlines()])
        self.assertEqual(len(WANTED) - len(over), len(ran.stdout.splitlines()))

    def test_wrong_words(self):
        self.assertEqual(2, self.ran("nothing").returncode)
        self.assertEqual(2, self.ran("heard", "failed").returncode)
        self.assertEqual(0, self.ran("--help").returncode)


if __name__ == "__main__":
    unittest.main()
