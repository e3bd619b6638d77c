"""scripts/free counts functions of whose answer no clause says anything, and says where each of them is."""

import shutil
import subprocess
import tempfile
import unittest
from pathlib import Path

ROOT = Path(__file__).resolve().parents[2]
FILES = {
    "crates.txt": "mn_low:\nmn_flight_pool: mn_low\nmplsnet: mn_flight_pool\nmn_tests: mplsnet\n",
    "crates/mn_low/src/lib.rt": """\
pub trait Disk {
    ghost files: { Self };

    fn free_call(&self) -> u8;

    fn told_call(&self) -> u8
        ensures { result ≡ 1 };
}

impl Disk for Low {
    ghost files = { 0 };

    fn free_call(&self) -> u8 {
        1
    }
}

impl Low {
    pub(crate) fn told(a: u8) -> u8
        requires { a < 2 }
        ensures last { result ≡ record {
          one = a;
        } }
    {
        a
    }

    pub fn free(
        a: u8,
    ) -> u8
        requires { a < 2 }
    {
        a
    }
}

fn law()
    ensures { 1 ≡ 1 }
{}
""",
    "crates/mn_flight_pool/src/node.rt": "pub fn nowhere() -> Link {\n    Link\n}\n",
    "crates/mplsnet/src/main.rt": "fn main(rt: HostRuntime) -> ExitCode {\n    ExitCode\n}\n\nfn tell() -> Result\n    ensures { result }\n{\n}\n",
    "crates/mn_tests/src/lib.rt": "fn untold() {\n}\n",
}


class Free(unittest.TestCase):
    def setUp(self):
        self.root = Path(tempfile.mkdtemp())
        self.addCleanup(shutil.rmtree, self.root)
        for name, text in FILES.items():
            (self.root / name).parent.mkdir(parents=True, exist_ok=True)
            (self.root / name).write_text(text)
        (self.root / "scripts").mkdir()
        for name in ("free", "sources.py"):
            shutil.copy(ROOT / "scripts" / name, self.root / "scripts")

    def ran(self, *words):
        return subprocess.run([self.root / "scripts/free", *words], capture_output=True, text=True)

    def test_where_each_is(self):
        ran = self.ran()
        self.assertEqual(1, ran.returncode)
        self.assertEqual("8 functions, 2 of them let without a clause\n", ran.stdout)
        free, gone = [[line for line in ran.stderr.splitlines() if ("is let" in line) == let] for let in (False, True)]
        self.assertEqual(
            ["crates/mn_low/src/lib.rt:4: free_call has no clause", "crates/mn_low/src/lib.rt:28: free has no clause"],
            free,
        )
        self.assertIn("mplsnet tell is let, and isn't there without a clause", gone)
        self.assertNotIn("mplsnet main is let, and isn't there without a clause", gone)

    def test_this_repository(self):
        ran = subprocess.run([ROOT / "scripts/free"], capture_output=True, text=True)
        self.assertEqual((0, ""), (ran.returncode, ran.stderr))

    def test_wrong_words(self):
        self.assertEqual(2, self.ran("nothing").returncode)
        self.assertEqual(0, self.ran("--help").returncode)


if __name__ == "__main__":
    unittest.main()
