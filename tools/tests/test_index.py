"""The index names what is there; a wrong name, a rule that is cut and one that isn't there are told with their place, and words are looked up.

And docs/FORMATS.md shows a whole run as it stands in examples/two-links, docs/ARCHITECTURE.md every crate in its order.
"""

import re
import shutil
import subprocess
import sys
import tempfile
import unittest
from pathlib import Path

ROOT = Path(__file__).resolve().parents[2]


class Index(unittest.TestCase):
    def setUp(self):
        self.root = Path(tempfile.mkdtemp())
        self.addCleanup(shutil.rmtree, self.root)
        for name in ["scripts", "docs"]:
            shutil.copytree(ROOT / name, self.root / name)
        (self.root / "crates").symlink_to(ROOT / "crates")

    def run_index(self, *words):
        return subprocess.run([sys.executable, self.root / "scripts/index", *words], capture_output=True, text=True)

    def told(self, document, old, new, said):
        path = self.root / "docs" / document
        path.write_text(path.read_text().replace(old, new, 1))
        ran = self.run_index()
        self.assertEqual(1, ran.returncode)
        self.assertIn(said, ran.stderr)

    def test_all_is_there(self):
        ran = self.run_index()
        self.assertEqual((0, ""), (ran.returncode, ran.stderr))

    def test_a_definition_that_is_not_declared(self):
        self.told("INDEX.md", "`IsPdu`", "`IsPdq`", "no such definition: mn_ldp_wire/specs/Grammar.antt IsPdq")

    def test_a_clause_that_the_call_has_not(self):
        self.told("INDEX.md", "`first_fault`", "`last_fault`", "no such clause: mn_ipv4::check last_fault")

    def test_a_function_that_is_not_in_its_file(self):
        self.told("INDEX.md", "mn_ipv4/src/header.rt `check`", "mn_ipv4/src/header.rt `chek`", "no such code: mn_ipv4/src/header.rt chek")

    def test_a_rule_without_its_code(self):
        self.told("INDEX.md", "- done: mn_ipv4/src/header.rt `check`\n", "", "a rule has its RFC, its text and below them 'defined, proved, done'")

    def test_a_rule_without_a_row(self):
        self.told("FORMATS.md", "\n| T1 NotToml |", "\n| T17 NotNew |", "in no rule of docs/INDEX.md: T17 NotNew")

    def test_a_rule_is_looked_up(self):
        ran = self.run_index("NoLsp")
        self.assertEqual(0, ran.returncode)
        self.assertIn("crates/mn_ledger/specs/Packets.antt:", ran.stdout)
        self.assertIn("penultimate hop", self.run_index("RFC 3031, section 3.16").stdout)
        self.assertIn(": `hop_on`: ", self.run_index("hop_on").stdout.splitlines()[0])
        self.assertEqual(1, self.run_index("NoWordOfIt").returncode)

    def test_whole_words_come_first(self):
        told = self.run_index("RFC 4364 section 10").stdout
        self.assertIn("(option a)", told)
        self.assertNotIn("RFC 3031, 3.10", told)

    def test_the_words_of_the_field_are_known(self):
        for words, said in [
            ("PHP", "penultimate hop popping"), ("TTL propagate", "uniform model"), ("unknown label", "NoEntry"), ("metric", "T11 BadCost"),
            ("ECMP", "One next hop."), ("loop detection", "No loop check."), ("9.1.2.2", "Which route is best."), ("ICMP", "docs/COMPARED.md"),
            ("Hello", "Every edge to every edge."),
        ]:
            with self.subTest(words):
                ran = self.run_index(*words.split())
                self.assertEqual(0, ran.returncode)
                self.assertIn(said, ran.stdout)

    def test_what_is_looked_up_comes_first(self):
        for words, said in [
            ("split horizon", "it offers an edge others' routes"), ("duplicate site", "T6 TwiceNamed"), ("duplicate prefix", "PrefixTaken"),
            ("tie", "the longest prefix, and of these own"), ("keepalive", "KeepAlive"), ("keepalive 0", "hold time 0"), ("import", "an import set"),
            ("link down", "`link up A B`, `link down A B`"), ("drain", "`drain N`, `drain`"), ("show tree", "`show tree N`: "), ("UPDATE", "UPDATE, 2"),
            ("best route", "`best`: "), ("exit code", "each outcome has its status"), ("multicast", "NotUnicast"), ("link life", "Overdue: "),
            ("NoLsp", "NoLsp: "), ("labels_of", "an edge's label for an attachment"), ("RFC 3031, section 3.16", "penultimate hop popping"),
        ]:
            with self.subTest(words):
                self.assertIn(said, self.run_index(*words.split()).stdout.splitlines()[0])

    def test_a_synonym_stands_in_the_documents(self):
        documents = "\n".join(path.read_text() for path in sorted((ROOT / "docs").glob("*.md"))).lower()
        for line in (ROOT / "docs/synonyms.txt").read_text().splitlines():
            if line and not line.startswith("#"):
                for words in line.split(" = ")[1].split("; "):
                    self.assertTrue(words.lower() in documents, line)

    def test_the_table_of_rfcs_is_made(self):
        page = self.root / "docs/INDEX.md"
        rule = "[9999, 1] a rule that was added\n- defined: mn_ipv4/specs/Header.antt `good`\n- proved: mn_ipv4::check `passes`\n- done: mn_ipv4/src/header.rt `check`\n\n"
        page.write_text(page.read_text().replace("## Prefixes", rule + "## Prefixes", 1))
        self.assertIn("docs/INDEX.md: the table of RFCs isn't that of its rules", self.run_index().stderr)
        self.assertEqual(0, self.run_index("--write").returncode)
        self.assertIn("\n| 9999 | [IPv4 packets](#ipv4-packets) |\n", page.read_text())
        self.assertEqual("", self.run_index().stderr)


class Formats(unittest.TestCase):
    def test_shows_a_whole_run(self):
        formats = (ROOT / "docs/FORMATS.md").read_text()
        for name in ["topology.toml", "script.txt", "expected/report.txt"]:
            self.assertIn(f"\n{(ROOT / 'examples/two-links' / name).read_text()}```", formats)


class Architecture(unittest.TestCase):
    def test_has_every_crate_in_its_order(self):
        crates = re.findall(r"^(\w+)[^:#]*:", (ROOT / "crates.txt").read_text(), re.M)
        drawn = (ROOT / "docs/ARCHITECTURE.md").read_text().split("\n## All crates")[1].split("```")[1]
        self.assertEqual(crates, re.findall(r"^ (mn_\w+|mplsnet)", drawn, re.M))


if __name__ == "__main__":
    unittest.main()
