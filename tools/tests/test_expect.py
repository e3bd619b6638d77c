"""Expectations: what falls short by hand, forms that are refused, and random networks by graph search beside runs."""

import json
import os
import random
import shutil
import signal
import subprocess
import sys
import tempfile
import time
import unittest
import xml.etree.ElementTree as xml
from pathlib import Path

from runs import ROOT, random_runs, stand_in

import random_reach

import mplsnet.expect as expect
from mplsnet.files import read_topology
from mplsnet.knowledge import Net, prefix_of
from mplsnet.topology import topology_text

TOOL = ROOT / "tools/mplsnet-expect"
HUB = ROOT / "examples/hub-and-spoke/topology.toml"
DUAL = ROOT / "examples/dual-homing/topology.toml"
SEEDS = range(max(4, int(os.environ.get("MPLSNET_RANDOM", "40")) // 10))
# A head office with all the rest of the addresses, and a branch: without the branch's edge its packets come out at the head itself.
DEFAULT = """
[[node]]
name = "hub"
loopback = "192.0.2.1"
[[node]]
name = "p"
loopback = "192.0.2.2"
[[node]]
name = "spoke"
loopback = "192.0.2.3"
[[link]]
a = "hub"
b = "p"
loss = 2
[[link]]
a = "p"
b = "spoke"
[[vrf]]
name = "red1"
node = "hub"
rd = "65000:1"
import = ["65000:1"]
export = ["65000:1"]
[[vrf]]
name = "red2"
node = "spoke"
rd = "65000:2"
import = ["65000:1"]
export = ["65000:1"]
[[site]]
name = "head"
vrf = "red1"
prefixes = ["0.0.0.0/0"]
[[site]]
name = "branch"
vrf = "red2"
prefixes = ["10.7.0.0/16"]
"""
SAID = "{0}:{1}: {2}: {3}\n"


class Asked(unittest.TestCase):
    """The tool as its user meets it, with what is due worked out by hand."""

    def setUp(self):
        self.folder = Path(tempfile.mkdtemp())
        self.addCleanup(shutil.rmtree, self.folder)
        self.program = stand_in(self.folder)
        self.file = self.folder / "expect.txt"

    def run_tool(self, topology, text, *words):
        if text is not None:
            self.file.write_text(text)
        words = ["--quiet", "--program", self.program, *map(str, words), topology, self.file]
        return subprocess.run([sys.executable, TOOL, *words], capture_output=True, text=True)

    def check(self, topology, due):
        """Of each line why it falls short; nothing where it holds."""
        ran = self.run_tool(topology, "".join(f"{line}\n" for line in due))
        self.assertEqual((int(any(due.values())), ""), (ran.returncode, ran.stderr), ran.stdout)
        wanted = ""
        for number, (line, why) in enumerate(due.items(), 1):
            wanted += SAID.format(self.file, number, "falls short" if why else "holds", line) + "".join(f"  {one}\n" for one in why)
        self.assertEqual(wanted, "".join(line + "\n" for line in ran.stdout.splitlines()[:-1]))

    def test_hub_and_spoke(self):
        self.check(HUB, {
            "west reaches headquarters": (), "west reaches none but headquarters": (), "west reaches headquarters not via pe2": (), "west reaches 10.0.0.7": (),
            "headquarters reaches west east via hub p within 3 nodes": (), "all reach headquarters": (), "all of vpn spoke never reach each other": (),
            "west reaches headquarters after link p pe2 or node pe2 or ldp p-pe2": (),
            "west reaches headquarters after any 2 links or any node": (
                "link pe1-p: west to 10.0.0.1: dropped NoLsp at pe1: link pe1-p is down",
                "and by 5 failures more: link hub-p, node p, links pe1-p and pe2-p, links pe1-p and hub-p and 1 more",
            ),
            "west reaches headquarters after bgp hub-pe1": (
                "bgp pe1-hub: west to 10.0.0.1: dropped NoRoute at pe1: there is no BGP session between pe1 and hub",
            ),
            "west reaches headquarters after links p pe1 and hub p": ("links pe1-p and hub-p: west to 10.0.0.1: dropped NoLsp at pe1: link pe1-p is down",),
            "west reaches east after any link": (
                "without a failure: west to 10.2.0.1: dropped NoRoute at pe1: VRF spoke1 imports no target of spoke2",
                "and by 3 failures more: link pe1-p, link pe2-p, link hub-p",
            ),
            "west reaches headquarters via pe2": ("without a failure: west to 10.0.0.1: its path is pe1 p hub: it isn't via pe2",),
            "west reaches headquarters via hub p": ("without a failure: west to 10.0.0.1: its path is pe1 p hub: it isn't via hub and then p",),
            "west reaches headquarters not via p": ("without a failure: west to 10.0.0.1: its path is pe1 p hub: it is via p",),
            "west reaches headquarters within 2": ("without a failure: west to 10.0.0.1: its path is pe1 p hub: it has 3 nodes",),
        })  # fmt: skip

    def test_what_is_never_to_arrive(self):
        leak = "without a failure: west to 10.0.0.1: arrives at headquarters, by pe1 p hub: VRF spoke1 imports 65000:1, which VRF centre exports"
        lines = {"west never reaches east": (), "west never reaches 10.0.0.0/8": (leak,), "west reaches none": (leak,)}
        self.check(HUB, lines | {"headquarters reaches none but west, east": ()})

    def test_a_site_behind_two_edges(self):
        """10.2.0.0/16 is behind pe2 and pe3; 10.3.1.0/24 is at b alone, and without pe2 its packets come out at c, which has 10.3.0.0/16."""
        self.check(DUAL, {
            "b reaches a": (), "c reaches b": (), "a reaches 10.2.0.0/16 after link p-pe2 or node pe2 or node pe3": (), "a reaches c after node pe2": (),
            "a reaches b after link p-pe2": ("link p-pe2: a to 10.3.1.1: astray to c, by pe1 p pe3: it has 10.3.0.0/16",),
        })  # fmt: skip

    def test_what_comes_out_elsewhere_is_astray(self):
        topology = self.folder / "default.toml"
        topology.write_text(DEFAULT)
        self.check(topology, {
            "head reaches branch": (), "branch reaches 192.0.2.77": (), "head reaches 10.0.0.0/8": (),
            "head reaches branch after link p-spoke": ("link p-spoke: head to 10.7.0.1: astray to head, by hub: it has 0.0.0.0/0",),
        })  # fmt: skip
        topology.write_text("resolve = false\n" + DEFAULT)
        why = "ldp p-spoke: head to 10.7.0.1: dropped NoLsp at hub: LDP is off on p-spoke, 2 hops from hub"
        self.check(topology, {"head reaches branch after ldp p-spoke": (why,)})

    def test_never_is_asked_of_each_failure(self):
        """The branch's packets to the head come out at the head; those of the head to the branch come out at itself as the session ends."""
        topology = self.folder / "default.toml"
        topology.write_text(DEFAULT)
        ran = self.run_tool(topology, "head never reaches branch\nbranch reaches head after any link\n", "--json")
        first = json.loads(ran.stdout)["expectations"][0]
        self.assertEqual((2, [None]), (first["failures"], [one["failure"] for one in first["short"]]))

    def test_forms_for_cis(self):
        report = self.folder / "report.xml"
        ran = self.run_tool(HUB, "# two\nwest reaches headquarters\neast reaches headquarters after any link # <&>\n", "--junit", report)
        self.assertEqual((1, ""), (ran.returncode, ran.stderr))
        top = xml.parse(report).getroot()
        self.assertEqual(("2", "1"), (top[0].get("tests"), top[0].get("failures")))
        self.assertEqual(["west reaches headquarters (line 2)", "east reaches headquarters after any link (line 3)"], [test.get("name") for test in top[0]])
        self.assertEqual("link pe2-p: east to 10.0.0.1: dropped NoLsp at pe2: link pe2-p is down", top[0][1][0].get("message"))
        self.assertEqual(["link pe2-p", "link hub-p"], [line.partition(":")[0] for line in top[0][1][0].text.splitlines()])
        answer = json.loads(self.run_tool(HUB, None, "--json").stdout)
        self.assertEqual([(2, True, 0), (3, False, 2)], [(one["line"], one["holds"], len(one["short"])) for one in answer["expectations"]])
        self.assertEqual("NoLsp", answer["expectations"][1]["short"][0]["what"])

    def test_budget_and_jobs_change_nothing(self):
        text = "west reaches headquarters after any link\nwest never reaches east\n"
        self.assertEqual(self.run_tool(HUB, text).stdout, self.run_tool(HUB, text, "--budget", "100", "--jobs", "3").stdout)

    def test_wrong_lines_are_told_all_at_once_with_their_places(self):
        wrong = (
            ("a reaches", 10, "a site is missing"), ("a reach bb", 9, "there is no site 'bb'; did you mean 'b'?"),
            ("a b", 4, "'reaches' or 'reach' is missing"), ("a reaches b after any 3 links", 23, "'3': behind 'any' stands"),
            ("a reaches b after link p-pp", 24, "there is no link 'p-pp'"), ('a reaches "b', 11, "a quote isn't closed"),
            ("a never reaches none", 17, "'never reaches none' says nothing"), ("a reaches each other", 11, "one site alone has no other"),
            ("a reaches 10.2.0.1/16", 11, "'10.2.0.1/16' is no site and no prefix: the bits past the length aren't zero; did you mean '10.2.0.0/16'?"),
            ("a reaches 99.0.0.0/8", 11, "no other site has a prefix that contains 99.0.0.0/8"), ("a reaches b within x", 20, "'x' isn't a number of nodes"),
            ("all of vpn blue reach each other", 12, "no VPN with sites is named 'blue'; there is red"), ("a reaches a", 11, "there is nothing to send"),
            ("a reaches b via q", 17, "there is no node 'q'"), ("a reaches 127.0.0.1", 11, "no packet may go to"), ("a reaches none via p", 16, "'via' is asked"),
        )  # fmt: skip
        ran = self.run_tool(DUAL, "# first\n" + "".join(f"{line}\n" for line, _, _ in wrong))
        self.assertEqual((3, "", len(wrong)), (ran.returncode, ran.stdout, len(ran.stderr.splitlines())))
        for number, ((_, column, why), said) in enumerate(zip(wrong, ran.stderr.splitlines()), 2):
            self.assertTrue(said.startswith(f"mplsnet-expect: {self.file}:{number}:{column}: {why}"), said)

    def test_wrong_files(self):
        for topology, text, why in ((HUB, "# none\n", "has no line"), (self.folder / "no.toml", "a reaches b\n", "no.toml: No such file")):
            ran = self.run_tool(topology, text)
            self.assertEqual((3, ""), (ran.returncode, ran.stdout))
            self.assertIn(why, ran.stderr)
        self.program.write_text("#!/bin/sh\necho out of luck >&2\nexit 8\n")
        ran = self.run_tool(HUB, "west reaches headquarters\n")
        self.assertEqual((3, f"mplsnet-expect: {HUB}: out of luck\n"), (ran.returncode, ran.stderr))

    def test_an_ended_run_leaves_nothing(self):
        self.program.write_text(f"#!/bin/sh\necho $$ >{self.folder}/pid\nexec sleep 60\n")
        self.file.write_text("west reaches headquarters\n")
        rooms = {Path(room) for room in ("/dev/shm", tempfile.gettempdir()) if Path(room).is_dir()}
        before = {path for room in rooms for path in room.glob("mplsnet-expect-*")}
        tool = subprocess.Popen([sys.executable, TOOL, "--program", self.program, HUB, self.file], stderr=subprocess.PIPE, text=True)
        for _ in range(600):
            if (self.folder / "pid").exists() and (self.folder / "pid").read_text():
                break
            time.sleep(0.1)
        tool.send_signal(signal.SIGTERM)
        self.assertIn("interrupted", tool.communicate(timeout=60)[1])
        self.assertEqual(130, tool.returncode)
        process = Path(f"/proc/{(self.folder / 'pid').read_text().strip()}")
        for _ in range(300):
            if not process.exists() and not {path for room in rooms for path in room.glob("mplsnet-expect-*")} - before:
                break
            time.sleep(0.1)
        self.assertFalse(process.exists())
        self.assertEqual(set(), {path for room in rooms for path in room.glob("mplsnet-expect-*")} - before)


class Random(unittest.TestCase):
    """Of random networks the lines that hold by targets, prefixes and links alone hold by runs, and those that don't fall short."""

    def setUp(self):
        self.folder = Path(tempfile.mkdtemp())
        self.addCleanup(shutil.rmtree, self.folder)
        self.program = stand_in(self.folder)

    def asked(self, topology, text, *words):
        (self.folder / "expect.txt").write_text(text)
        words = [sys.executable, TOOL, "--quiet", "--json", "--jobs", "1", "--program", self.program, *words, topology, self.folder / "expect.txt"]
        ran = subprocess.run(words, capture_output=True, text=True)
        self.assertEqual("", ran.stderr, text)
        return json.loads(ran.stdout)["expectations"]

    def test_by_graph_search(self):
        held = fell = 0
        for seed in SEEDS:
            tables = random_runs.random_topology(random.Random(seed))
            tables["resolve"] = True
            path = self.folder / "net.toml"
            path.write_text(topology_text(tables))
            read = read_topology(path)
            first = expect.First(Net(path, read), read, True)
            said = [line.removeprefix("# not so as it is: ") for line in first.lines() if " after " not in line]
            lines = [line if " none" in line else f"{line} after any failure" for line in said][:8]
            if not lines or not first.reader.packets.found:
                continue
            with self.subTest(seed=seed):
                for line, found in zip(lines, self.asked(path, "\n".join(lines) + "\n")):
                    due = expect.Line(first.reader, 0, line).read()
                    short = {failure and (failure.kind, failure.name) for failure, _ in [(None, set()), *first.failures] if not first.is_so(due, failure)}
                    self.assertEqual(short, {one["failure"] and (one["failure"]["kind"], one["failure"]["name"]) for one in found["short"]}, line)
                    held, fell = held + found["holds"], fell + (not found["holds"])
        self.assertGreater(held, 0)
        self.assertGreater(fell, 0)

    def test_reach_says_what_runs_say(self):
        """Of what holds and what falls short, with each reason and path; of packets to what the sender knows no route to, too."""
        fell, wanted = set(), len(SEEDS)
        for seed in range(100):
            tables = random_reach.reach_topology(random.Random(f"expect {seed}"))
            prefixes = {site["name"]: [of for of in site.get("prefixes", []) if expect.whatif.first_address(prefix_of(of))] for site in tables["site"]}
            sites = [site for site in prefixes if prefixes[site]]
            others = [(site, of) for site in sites[:3] for other in sites for of in prefixes[other] if other != site and of not in prefixes[site]]
            if len(sites) < 3 or len(others) < 2:
                continue
            path = self.folder / "net.toml"
            path.write_text(topology_text(tables))
            (one, of), (other, never) = others[0], others[-1]
            text = f'all reach all after any ldp or any bgp\n"{sites[0]}" reaches none\n"{one}" reaches {of} after any failure\n"{other}" never reaches {never}\n'
            with self.subTest(seed=seed):
                found = self.asked(path, text)
                self.assertEqual(found, self.asked(path, text, "--simulate"))
                fell |= {short["what"] for one in found for short in one["short"]}
            wanted -= 1
            if not wanted:
                break
        self.assertLess({"NoRoute", "NoLsp", "Astray", "Arrives"}, fell | {"Path"})


if __name__ == "__main__":
    unittest.main()
