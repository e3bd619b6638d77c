"""Contracts of two trees are compared: what is gone, new, moved or changed; renamed crates are the same."""

import shutil
import subprocess
import sys
import tempfile
import unittest
from pathlib import Path

ROOT = Path(__file__).resolve().parents[2]

OLD = """\
/// The half of it, { or less.
pub fn half(n: u32) -> u32
    requires even { Even n }
    ensures { 2 * result ≡ n }
    ensures small {
        Below mn_old.limit result × (
            result ≡ result) }
{
    n / 2
}

fn hidden(n: u32) -> u32
    ensures { result ≡ n }
{
    n
}

impl Held {
    pub fn of<T>(
        one: u32,
        two: T,
    ) -> Held
        ensures { result ≡ one }
    {
        Held(one)
    }
}

#[cfg(test)]
mod tests {
    pub fn is_a_test() {}
}
"""


class Contracts(unittest.TestCase):
    def setUp(self):
        self.room = Path(tempfile.mkdtemp())
        self.addCleanup(shutil.rmtree, self.room)
        self.old = self.tree("old", {"mn_old": OLD})

    def tree(self, name, crates):
        tree = self.room / name
        (tree / "docs").mkdir(parents=True)
        (tree / "docs/DECISIONS.md").write_text("| Old | New | How |\n|---|---|---|\n| `mn_old` | `mn_now` | renamed |\n")
        for crate, text in crates.items():
            (tree / "crates" / crate / "src").mkdir(parents=True)
            (tree / "crates" / crate / "src/lib.rt").write_text(text)
        return tree

    def compared(self, crates, status):
        ran = subprocess.run([sys.executable, ROOT / "scripts/contracts", self.old, self.tree("new", crates)], capture_output=True, text=True)
        self.assertEqual((status, ""), (ran.returncode, ran.stderr))
        return ran.stdout.splitlines()

    def test_a_renamed_crate_laid_out_otherwise_is_the_same(self):
        new = OLD.replace("mn_old", "mn_now").replace("        one: u32,\n        two: T,\n    ", "one: u32, two: T")
        new = new.replace("        Below", "Below").replace("(\n            result", "(result")
        same = ["2 calls with 4 clauses before and 2 calls with 4 clauses after: 0 gone, 0 new, 0 moved, 0 changed"]
        self.assertEqual(same, self.compared({"mn_now": new}, 0))

    def test_a_clause_that_is_gone_and_one_that_is_new(self):
        told = self.compared({"mn_now": OLD.replace("2 * result ≡ n", "result ≡ result")}, 1)
        self.assertEqual(["gone mn_now::half: ensures { 2 * result ≡ n }", "new mn_now::half: ensures { result ≡ result }"], told[:2])

    def test_a_requires_that_is_new_is_told(self):
        new = OLD.replace("    ensures { 2", "    requires { Odd n }\n    ensures { 2")
        self.assertEqual(["new mn_now::half: requires { Odd n }"], self.compared({"mn_now": new}, 1)[:1])

    def test_another_type_of_a_parameter(self):
        told = self.compared({"mn_now": OLD.replace("two: T,", "two: &T,")}, 0)
        self.assertEqual("changed mn_now::Held::of: pub fn of<T>(one: u32, two: T) -> Held  ->  pub fn of<T>(one: u32, two: &T) -> Held", told[0])

    def test_a_call_in_another_crate(self):
        at = OLD.index("impl Held")
        self.assertEqual("moved mn_now::Held::of: to mn_other::Held::of", self.compared({"mn_now": OLD[:at], "mn_other": OLD[at:]}, 0)[0])

    def test_a_call_that_is_gone(self):
        self.assertEqual(["gone mn_now::Held::of"], self.compared({"mn_now": OLD.replace("pub fn of", "fn of")}, 1)[:1])

    def test_a_tree_without_crates(self):
        ran = subprocess.run([sys.executable, ROOT / "scripts/contracts", self.old, self.tree("none", {})], capture_output=True, text=True)
        self.assertEqual(1, ran.returncode)
        self.assertIn("no crates/*/src with a pub fn", ran.stderr)


if __name__ == "__main__":
    unittest.main()
