"""The man page says the statuses of docs/FORMATS.md and is well formed; the completions know what there is."""

import re
import shutil
import subprocess
import sys
import unittest
from pathlib import Path

ROOT = Path(__file__).resolve().parents[2]
PAGE = ROOT / "man/mplsnet.1"
BASH = ROOT / "completions/mplsnet.bash"
ZSH = ROOT / "completions/_mplsnet"
FORMATS = (ROOT / "docs/FORMATS.md").read_text()

TOOLS = ["mplsnet-draw", "mplsnet-wireshark", "mplsnet-play", "mplsnet-decode", "mplsnet-read", "mplsnet-lint", "mplsnet-run"]
TOOLS += ["mplsnet-whatif", "mplsnet-orders", "mplsnet-why", "mplsnet-report", "mplsnet-diff", "mplsnet-new"]
TOOLS += ["mplsnet-expect", "mplsnet-lab"]

# What bash would do at the end of the line, in a folder.
COMPLETE = """
source "$1"; cd "$2"; shift 2
COMP_WORDS=("$@"); COMP_CWORD=$((${#COMP_WORDS[@]} - 1))
function=$(complete -p "$1"); function=${function#*-F }; "${function%% *}"
printf '%s\\n' "${COMPREPLY[@]}"
"""


def section(name):
    """The lines of a section of the man page."""
    return PAGE.read_text().split(f".SH {name}\n")[1].split("\n.SH ")[0]


def commands():
    """The first words of the command lines that docs/FORMATS.md says something is done for."""
    table = FORMATS.split("## Command line")[1].split("##")[0]
    return set(re.findall(r"^\| `(\w+) [A-Z0-9 \[\]]+` \|", table, re.M))


class Page(unittest.TestCase):
    def test_has_its_sections(self):
        found = re.findall(r"^\.SH (.*)", PAGE.read_text(), re.M)
        self.assertEqual(["NAME", "SYNOPSIS", "DESCRIPTION", "FILES", "EXIT STATUS", "EXAMPLES", "SEE ALSO"], found)

    def test_has_the_statuses_of_the_formats(self):
        wanted = re.findall(r"^\| (\d+) \| \w+ \|", FORMATS, re.M)
        self.assertEqual(wanted, re.findall(r"^\.B (\d+)$", section("EXIT STATUS"), re.M))

    def test_has_the_commands_of_the_formats(self):
        self.assertEqual(commands(), set(re.findall(r"^\.B mplsnet (\w+)", section("SYNOPSIS"), re.M)))

    def test_shows_the_report_of_the_first_example(self):
        for line in (ROOT / "examples/first/expected/report.txt").read_text().splitlines():
            self.assertIn(line, section("EXAMPLES"))

    @unittest.skipUnless(shutil.which("groff"), "groff isn't installed")
    def test_is_set_without_a_warning(self):
        ran = subprocess.run(["groff", "-man", "-Tutf8", "-wall", PAGE], capture_output=True, text=True)
        self.assertEqual((0, ""), (ran.returncode, ran.stderr))


class Bash(unittest.TestCase):
    def completed(self, folder, *words):
        ran = subprocess.run(["bash", "-c", COMPLETE, "bash", BASH, ROOT / folder, *words], capture_output=True, text=True)
        self.assertEqual((0, ""), (ran.returncode, ran.stderr))
        return set(ran.stdout.split())

    def test_commands(self):
        self.assertEqual(commands(), self.completed("examples/first", "mplsnet", ""))
        self.assertEqual({"check"}, self.completed("examples/first", "mplsnet", "c"))
        self.assertEqual({"reflect", "reach"}, self.completed("examples/first", "mplsnet", "re"))

    def test_files_by_their_place(self):
        first = "examples/first"
        self.assertEqual({"topology.toml", "expected"}, self.completed(first, "mplsnet", "check", ""))
        self.assertEqual({"topology.toml", "expected"}, self.completed(first, "mplsnet", "run", ""))
        self.assertIn("script.txt", self.completed(first, "mplsnet", "run", "topology.toml", ""))
        self.assertEqual({"capture.pcap", "expected"}, self.completed(first, "mplsnet", "run", "topology.toml", "script.txt", ""))
        self.assertEqual({"expected"}, self.completed(first, "mplsnet", "run", "topology.toml", "script.txt", "capture.pcap", ""))
        self.assertEqual({"topology.toml", "expected"}, self.completed(first, "mplsnet", "flood", ""))
        self.assertIn("script.txt", self.completed(first, "mplsnet", "flood", "topology.toml", ""))
        self.assertEqual(set(), self.completed(first, "mplsnet", "flood", "topology.toml", "script.txt", ""))
        self.assertEqual({"topology.toml", "expected"}, self.completed(first, "mplsnet", "reflect", ""))
        self.assertEqual(set(), self.completed(first, "mplsnet", "reflect", "topology.toml", "script.txt", ""))
        self.assertEqual({"topology.toml", "expected"}, self.completed("examples/reach", "mplsnet", "reach", ""))
        self.assertIn("failures.txt", self.completed("examples/reach", "mplsnet", "reach", "topology.toml", ""))
        self.assertEqual(set(), self.completed("examples/reach", "mplsnet", "reach", "topology.toml", "failures.txt", ""))
        joined, given = "examples/two-providers", []
        for name in ("topology1.toml", "topology2.toml", "joints.txt", "script.txt", "capture.pcap"):
            self.assertIn(name, self.completed(joined, "mplsnet", "join", *given, ""))
            given.append(name)
        self.assertEqual({"expected"}, self.completed(joined, "mplsnet", "join", *given, ""))
        self.assertEqual(set(), self.completed(joined, "mplsnet", "join", *given, "expected", ""))
        self.assertEqual(set(), self.completed(first, "mplsnet", "check", "topology.toml", ""))

    def test_options_of_the_tools_are_those_of_their_help(self):
        for tool in TOOLS:
            with self.subTest(tool):
                said = subprocess.run([sys.executable, ROOT / "tools" / tool, "--help"], capture_output=True, text=True).stdout
                options = set(re.findall(r"^  (?:-\w, )?(--[a-z-]+)", said, re.M))
                self.assertEqual(options, self.completed("examples", tool, "-"))
                words = ZSH.read_text().split(f"_{tool.replace('-', '_')}_words() {{")[1].split("\n}")[0]
                self.assertEqual(options, set(re.findall(r"--[a-z-]+", words)))
        self.assertEqual({"neato"}, self.completed("examples", "mplsnet-draw", "--layout", "n"))
        self.assertEqual({"circle"}, self.completed("examples", "mplsnet-play", "--layout", "c"))

    def test_words_of_the_tools_by_their_place(self):
        first = "examples/first"
        self.assertEqual({"expected"}, self.completed(first, "mplsnet-wireshark", ""))
        self.assertEqual({"capture.pcap", "expected"}, self.completed(first, "mplsnet-wireshark", "--topology", "topology.toml", "expected", ""))
        self.assertEqual({"topology.toml", "expected"}, self.completed(first, "mplsnet-wireshark", "expected", "--topology", ""))
        self.assertEqual({"expected", "flood", "reflect", "join"}, self.completed(first, "mplsnet-play", "--layout", "circle", ""))
        self.assertEqual({"topology.toml", "expected"}, self.completed(first, "mplsnet-play", "flood", ""))
        self.assertIn("script.txt", self.completed(first, "mplsnet-play", "--layout", "circle", "reflect", "topology.toml", ""))
        self.assertEqual({"capture.pcap", "expected"}, self.completed(first, "mplsnet-play", "join", "topology.toml", "topology.toml", "script.txt", "script.txt", ""))
        self.assertEqual({"topology.toml", "expected"}, self.completed(first, "mplsnet-play", "expected", "--report", "report.txt", ""))
        self.assertEqual({"expected"}, self.completed(first, "mplsnet-decode", "expected", "expected", ""))
        self.assertEqual({"topology.toml", "expected"}, self.completed(first, "mplsnet-whatif", "--only", "p1", ""))
        self.assertEqual({"window"}, self.completed(first, "mplsnet-orders", "--ask", "w"))
        self.assertEqual({"topology.toml", "expected"}, self.completed(first, "mplsnet-why", "expected", ""))
        self.assertEqual({"packets"}, self.completed(first, "mplsnet-report", "expected", "--csv", "p"))
        self.assertEqual({"waxman"}, self.completed(first, "mplsnet-new", "--family", "w"))
        self.assertEqual({"topology.toml", "expected"}, self.completed(first, "mplsnet-expect", "--jobs", "2", ""))
        self.assertIn("script.txt", self.completed(first, "mplsnet-expect", "topology.toml", ""))
        self.assertEqual({"export"}, self.completed(first, "mplsnet-lab", "e"))
        self.assertEqual({"topology.toml", "expected"}, self.completed(first, "mplsnet-lab", "compare", "--down", "p1-p2", ""))
        self.assertEqual({"expected"}, self.completed(first, "mplsnet-lab", "export", "--form", "frr", "topology.toml", ""))
        self.assertEqual({"netlab"}, self.completed(first, "mplsnet-lab", "export", "--form", "n"))
        self.assertEqual({"--shell"}, self.completed(first, "mplsnet-lab", "collect", "--s"))


class Tools(unittest.TestCase):
    def test_all_are_told_of(self):
        found = sorted(file.name for file in (ROOT / "tools").glob("mplsnet-*"))
        self.assertEqual(sorted(TOOLS), found)
        readme = (ROOT / "tools/README.md").read_text()
        for tool in TOOLS:
            self.assertIn(f"| `{tool}` |", readme)
            said = subprocess.run([ROOT / "tools" / tool, "--help"], capture_output=True, text=True)
            self.assertEqual((0, ""), (said.returncode, said.stderr))
            self.assertRegex(said.stdout, r"(?m)^status: 0 .*; 1 .*; 2 ")
            self.assertLess(max(map(len, said.stdout.splitlines())), 125)


class Zsh(unittest.TestCase):
    def test_has_the_commands(self):
        self.assertEqual(commands(), set(re.findall(r"^        '(\w+):", ZSH.read_text(), re.M)))

    @unittest.skipUnless(shutil.which("zsh"), "zsh isn't installed")
    def test_is_read_by_zsh(self):
        ran = subprocess.run(["zsh", "-n", ZSH], capture_output=True, text=True)
        self.assertEqual((0, ""), (ran.returncode, ran.stderr))


if __name__ == "__main__":
    unittest.main()
