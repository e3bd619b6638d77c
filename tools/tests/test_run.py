"""mplsnet-run: the folder that it makes, the older run that it replaces, and what it leaves alone."""

import subprocess
import tempfile
import unittest
from pathlib import Path

ROOT = Path(__file__).resolve().parents[2]
EXAMPLES = ROOT / "examples"

# A program in place of the real one: it leaves the files of an example, as the real one would, or ends as it is told to.
PROGRAM = """#!/bin/sh
[ ! -e "$5/../../ends" ] || { cat "$5/../../said"; exit "$(cat "$5/../../ends")"; }
example=$(dirname "$2")
for file in "$example"/expected/*; do
    case $file in
    */report.txt) cat "$file" ;;
    *) cp "$file" "$5" || exit 99 ;;
    esac
done
"""


def files(folder):
    return {path.name: path.read_bytes() for path in folder.iterdir()}


class Run(unittest.TestCase):
    def setUp(self):
        room = tempfile.TemporaryDirectory()
        self.addCleanup(room.cleanup)
        self.room = Path(room.name)
        self.program = self.room / "program"
        self.program.write_text(PROGRAM)
        self.program.chmod(0o755)
        self.out = self.room / "out"

    def run_it(self, example="first", folder=None, inputs=None):
        inputs = inputs or [EXAMPLES / example / name for name in ("topology.toml", "script.txt", "capture.pcap")]
        words = [ROOT / "tools/mplsnet-run", "--program", self.program, *inputs, folder or self.out]
        ran = subprocess.run(words, capture_output=True, text=True, cwd=self.room, stdin=subprocess.DEVNULL)
        self.assertEqual([], [path for path in self.room.iterdir() if path.name.startswith(".")])
        return ran.returncode, ran.stdout, ran.stderr

    def ends(self, status, said=""):
        (self.room / "ends").write_text(str(status))
        (self.room / "said").write_text(said)

    def test_makes_the_folder_and_keeps_the_report(self):
        expected = EXAMPLES / "first/expected"
        self.assertEqual((0, (expected / "report.txt").read_text(), ""), self.run_it())
        self.assertEqual(files(expected), files(self.out))

    def test_an_older_run_is_replaced(self):
        self.run_it("ring")
        self.assertEqual(0, self.run_it("two-links")[0])
        self.assertEqual(files(EXAMPLES / "two-links/expected"), files(self.out))

    def test_other_files_in_an_older_run_stay(self):
        self.run_it("ring")
        mine = {"notes.txt": b"mine", "x+y.pcap": b"no capture of a run", "a+b.ldp.old": b""}
        for name, content in mine.items():
            (self.out / name).write_bytes(content)
        status, _, err = self.run_it("two-links")
        self.assertEqual(0, status)
        self.assertIn("left as they were, since no run wrote them: a+b.ldp.old, notes.txt, x+y.pcap", err)
        self.assertEqual(files(EXAMPLES / "two-links/expected") | mine, files(self.out))

    def test_a_folder_with_other_files_is_left_alone(self):
        self.out.mkdir()
        for given in ({"letter": b"dear"}, {"letter": b"dear", "journal.txt": b"dear diary\n", "labels.txt": b""}):
            for name, content in given.items():
                (self.out / name).write_bytes(content)
            status, out, err = self.run_it()
            self.assertEqual((1, ""), (status, out))
            self.assertIn("is no run's folder", err)
            self.assertEqual(given, files(self.out))

    def test_a_refused_input_leaves_the_older_run(self):
        self.run_it("ring")
        before = files(self.out)
        for status, said in [(3, "topology refused T1 NotToml at top\n"), (5, "capture refused CutShort at byte 0\n"), (7, ""), (9, "too large script bytes\n")]:
            self.ends(status, said)
            found = self.run_it()
            self.assertEqual((status, said), found[:2])
            self.assertIn("is as it was", found[2])
            self.assertEqual(before, files(self.out))

    def test_a_refused_input_makes_no_folder(self):
        self.ends(5)
        self.assertEqual(5, self.run_it()[0])
        self.assertFalse(self.out.exists())

    def test_too_many_steps_leave_whole_files(self):
        self.ends(9, "too large steps\n")
        self.assertEqual(9, self.run_it()[0])
        self.assertEqual({"report.txt": b"too large steps\n"}, files(self.out))

    def test_what_is_wrong_with_the_inputs_is_told(self):
        first = EXAMPLES / "first"
        topology, script = self.room / "topology.toml", self.room / "script.txt"
        topology.write_text((first / "topology.toml").read_text().replace('vrf = "red"', 'vrf = "rad"', 1))
        script.write_text("inject a\ninjekt a 1\n")
        self.ends(3, "topology refused T7 NoSuchName at site 0\n")
        self.assertRegex(self.run_it(inputs=[topology, script, first / "capture.pcap"])[2], r"topology.toml:\d+:7: T7 NoSuchName at site 0 '\w+': vrf = \"rad\"")
        self.ends(4, "script refused S2 WrongCount at line 1\n")
        err = self.run_it(inputs=[first / "topology.toml", script, first / "capture.pcap"])[2]
        self.assertIn("script.txt:1:1: S2 WrongCount at line 1: the form is 'inject SITE K'", err)
        self.assertIn("script.txt:2:1: S1 UnknownWord at line 2: no line begins with 'injekt'; did you mean 'inject'?", err)

    def test_an_input_in_the_folder(self):
        self.run_it()
        inputs = [self.out / "journal.txt", self.out / "../out/journal.txt", self.out / "delivered.pcap"]
        status, _, err = self.run_it(inputs=inputs)
        self.assertEqual(1, status)
        self.assertIn("an input lies in", err)

    def test_where_nothing_can_be_made_or_run(self):
        self.assertIn("there is no folder", self.run_it(folder=self.room / "gone/out")[2])
        self.assertIn("not a folder", self.run_it(folder=self.program)[2])
        self.program.unlink()
        self.assertEqual((1, "", f"mplsnet-run: {self.program}: No such file or directory\n"), self.run_it())


if __name__ == "__main__":
    unittest.main()
