"""The page of a run: its data are the run's, it has no parts outside, and in a browser it steps through the journal."""

import json
import re
import shutil
import subprocess
import sys
import tempfile
import unittest
from pathlib import Path
from xml.etree import ElementTree

from browser import CHROMIUM, Browser
from provider import made

ROOT = Path(__file__).resolve().parents[2]
TOOL = ROOT / "tools/mplsnet-play"
LINKS = ROOT / "examples/two-links"
LATE = ROOT / "examples/late"
DAMAGED = ROOT / "examples/damaged"
RUNS = sorted(file.parents[1] for file in ROOT.glob("examples/*/expected/journal.txt"))

# What a reader of the page sees of each packet at the end, as the report says it.
ENDS = """(state => {
    const flying = Object.fromEntries(Object.entries(state.queues).flatMap(([key, queue]) => queue.map(flight => [flights[flight].p, key])));
    const named = numbers => numbers.map(n => nodes[n].name).join(" ");
    return state.ways.map((way, p) => [way.end ? `${way.end} ${way.words}` : `flying ${named(flying[p].split(" "))}`, named(way.path)]);
})(stateAfter(steps.length))"""


def ends_of(report):
    """The same of a report: how each packet ended, without the copy, and its path."""
    for line in report.splitlines():
        found = re.fullmatch(r"packet \d+ line \d+ site \S+ record \d+ (.*?)( copy \d+)? path (.*)", line)
        if found:
            yield [found[1].replace(" ttl ", " TTL "), found[3]]


class Play(unittest.TestCase):
    def setUp(self):
        self.folder = Path(tempfile.mkdtemp())
        self.addCleanup(shutil.rmtree, self.folder)
        self.out = self.folder / "run.html"

    def run_tool(self, *words):
        return subprocess.run([sys.executable, TOOL, *map(str, words)], capture_output=True, text=True)

    def made(self, run, topology, *words):
        ran = self.run_tool(run, topology, self.out, *words)
        self.assertEqual((0, "", ""), (ran.returncode, ran.stdout, ran.stderr))
        return self.out.read_text()

    def data(self, page):
        return json.loads(page.split('<script type="application/json" id="run">')[1].split("</script>")[0])

    def refused(self, status, said, *words):
        ran = self.run_tool(*words)
        self.assertEqual((status, ""), (ran.returncode, ran.stdout))
        self.assertIn(said, ran.stderr)
        self.assertNotIn("Traceback", ran.stderr)

    def test_the_page_has_no_parts_outside(self):
        page = self.made(LINKS / "expected", LINKS / "topology.toml")
        self.assertEqual({"http://www.w3.org/2000/svg"}, set(re.findall(r"\w+://[^\"' ]*", page)))
        self.assertNotRegex(page, r"<link|<img|<iframe|<object|<embed|\ssrc=|\shref=|@import|url\(|fetch\(|XMLHttpRequest|import\(|eval\(")

    def test_every_run_of_the_examples(self):
        self.assertIn(LINKS, RUNS)
        for run in RUNS:
            with self.subTest(run.name):
                data = self.data(self.made(run / "expected", run / "topology.toml"))
                self.assertEqual((run / "expected/journal.txt").read_text().splitlines(), [f"{step['t']} {step['w']}" for step in data["steps"]])
                self.assertEqual((run / "expected/report.txt").read_text().splitlines(), data["report"])
                self.assertEqual(run.name, data["title"])
                self.assertTrue(all(step["x"].endswith(".") for step in data["steps"]))

    def test_the_run_over_two_links(self):
        data = self.data(self.made(LINKS / "expected", LINKS / "topology.toml"))
        self.assertEqual([("pe1", True), ("p", False), ("pe2", True)], [(node["name"], node["edge"]) for node in data["nodes"]])
        self.assertEqual({0}, {node["y"] for node in data["nodes"]}, "the chain is drawn level")
        self.assertEqual(["red"], data["vpns"])
        self.assertEqual([[[16, 63], [16, 63]], [[16, 62]]], [flight["st"] for flight in data["flights"]])
        self.assertEqual([["ldp", 1, 0], ["ldp", 2, 1], ["bgp", 2, 0]], data["sessions"])
        self.assertEqual("10.1.0.1 to 10.2.0.1 UDP", data["packets"][0]["ip"])
        said = [step["x"] for step in data["steps"]]
        for words in (
            "pe1 hears from p by LDP, message 1 of the session: Initialization.",
            "pe1 hears from p by LDP, message 5 of the session: Label Mapping 192.0.2.3/32 label 16.",
            "pe1 hears from pe2 by BGP, message 3 of the session: UPDATE 65000:2 10.2.0.0/16 label 16 next hop 192.0.2.3 target 65000:100.",
            "Packet 1 enters at site a: pe1 pushes label 16 (pe2's for site b), and on it label 16 (p's for pe2), and sends it to p.",
            "p gets packet 1 from pe1, takes its label 16 off, being the last node but one, and sends it to pe2.",
            "pe2 gets packet 1 from p, takes off label 16 (pe2's for site b) and delivers it to site b with TTL 61, as delivery 1.",
        ):
            self.assertIn(words, said)

    def test_time_that_passes(self):
        data = self.data(self.made(LATE / "expected", LATE / "topology.toml"))
        steps = [step for step in data["steps"] if step["k"] == "tick"]
        self.assertEqual([(0, 10, []), (10, 1, [1]), (112, 4, [6])], [(step["t"], step["ticks"], step["cut"]) for step in steps])
        self.assertEqual("Time passes, 10 ticks up to tick 10, and nothing arrives.", steps[0]["x"])
        self.assertTrue(steps[1]["x"].endswith(" Overdue, each sent on its link longer ago than the link's life: packet 2."), steps[1]["x"])
        start = self.data(self.made(LATE / "expected", LATE / "topology.toml", "--from", 45))["start"]
        self.assertEqual((11, {"1 2": [0]}, 1), (start["tick"], start["queues"], start["dropped"]))

    def test_damaged_messages(self):
        steps = self.data(self.made(DAMAGED / "expected", DAMAGED / "topology.toml"))["steps"]
        ldp, bgp = (step for step in steps if step["w"].startswith("damage"))
        self.assertEqual(("ldp", False, "bgp", False), (ldp["k"], ldp["on"], bgp["k"], bgp["on"]))
        self.assertEqual("Record 4 comes to pe1 in place of a PDU from p, and can't be read. The LDP session ends, and 1 of its messages with it.", ldp["x"])
        self.assertTrue(bgp["x"].startswith("Record 6 comes to pe1 in place of a message of BGP from pe2, and can't be read. The BGP session ends"), bgp["x"])

    def test_names_that_look_like_marks_of_html(self):
        topology = self.folder / "<script><b>/net.toml"
        topology.parent.mkdir()
        shutil.copy(LINKS / "topology.toml", topology)
        page = self.made(LINKS / "expected", topology)
        self.assertEqual("<script><b>", self.data(page)["title"])
        self.assertNotIn("<script><b>", page)

    def test_a_part_of_the_steps_begins_with_the_state_before_it(self):
        whole = self.data(self.made(LINKS / "expected", LINKS / "topology.toml"))
        data = self.data(self.made(LINKS / "expected", LINKS / "topology.toml", "--from", 41, "--to", 41))
        self.assertEqual((40, 42, whole["steps"][40:41]), (data["first"], data["total"], data["steps"]))
        start = data["start"]
        self.assertEqual(([True, True], [1, 1], {"0 1": [0]}, [{"path": [0]}]), (start["up"], start["changes"], start["queues"], start["ways"]))
        self.assertEqual([[node * 2 + link, 1] for node in range(3) for link in range(2)], sorted(start["learned"]))
        self.assertEqual({"ldp 0 1": 0, "ldp 1 2": 1, "bgp 0 2": 2}, start["living"])
        self.assertEqual([1], [packet["n"] for packet in data["packets"]])
        self.assertEqual(["packet", "total"], [line.split()[0] for line in data["report"]])
        data = self.data(self.made(LINKS / "expected", LINKS / "topology.toml", "--packet", 1))
        self.assertEqual((39, 3, 0), (data["first"], len(data["steps"]), data["follow"]))

    def test_a_run_that_is_too_long_is_told_before_it_is_read(self):
        run = self.folder / "long"
        run.mkdir()
        (run / "journal.txt").write_text("0 link up pe1 p\n" * 100_001)
        said = "has 100001 steps: a page takes at most 100000: choose some by --from and --to, or a packet's by --packet"
        self.refused(1, said, run, LINKS / "topology.toml", self.out)
        self.refused(1, said, run, LINKS / "topology.toml", self.out, "--to", 100_001)
        self.refused(1, "labels.txt: No such file", run, LINKS / "topology.toml", self.out, "--from", 2)

    def test_steps_and_rules_that_are_not_known_are_shown_by_their_own_words(self):
        run = self.folder / "run"
        shutil.copytree(LINKS / "expected", run)
        journal = (run / "journal.txt").read_text().splitlines(keepends=True)
        (run / "journal.txt").write_text("".join([*journal[:40], "1 wait 7\n", "1 spoil ldp pe1 p 3\n"]))
        (run / "report.txt").write_text("packet 1 line 5 site a record 1 flying pe1 p path pe1\n")
        header = (run / "p+pe2.pcap").read_bytes()[:24]
        (run / "p+pe2.pcap").write_bytes(header)
        (run / "delivered.pcap").write_bytes((run / "delivered.pcap").read_bytes()[:24])
        data = self.data(self.made(run, LINKS / "topology.toml"))
        self.assertEqual(["wait 7.", "spoil ldp pe1 p 3."], [step["x"] for step in data["steps"][-2:]])
        (run / "journal.txt").write_text("".join([*journal[:39], "0 inject a 1\n"]))
        (run / "report.txt").write_text("packet 1 line 5 site a record 1 dropped Overslept at pe1 path pe1\n")
        (run / "pe1+p.pcap").write_bytes(header)
        self.assertEqual("Overslept", self.data(self.made(run, LINKS / "topology.toml"))["steps"][-1]["drop"])

    @unittest.skipUnless((ROOT / "tools/mplsnet/why.py").exists(), "mplsnet-why isn't there")
    def test_why_a_packet_fell(self):
        example = ROOT / "examples/ordered-control"
        words = ("--capture", example / "capture.pcap", "--script", example / "script.txt")
        packets = self.data(self.made(example / "expected", example / "topology.toml", *words))["packets"]
        dropped = {int(line.split()[1]) for line in (example / "expected/report.txt").read_text().splitlines() if line.startswith("packet ") and " dropped " in line}
        self.assertEqual(dropped, {packet["n"] for packet in packets if packet["why"]})
        self.assertTrue(all(packet["why"].startswith("Why: ") and packet["why"].endswith(".") for packet in packets if packet["why"]))

    def test_pictures(self):
        for run, topology, at, words in (
            (LINKS / "expected", LINKS / "topology.toml", 40, ["step 40, tick 0: inject a 1", ">16<", ">site a<", ">192.0.2.2<"]),
            (LINKS / "expected", LINKS / "topology.toml", 42, ["#1 delivered, TTL 61"]),
            (ROOT / "examples/loss/expected", ROOT / "examples/loss/topology.toml", 1, [">step 1, tick 0: link up"]),
            (LATE / "expected", LATE / "topology.toml", 51, ["step 51, tick 112: tick 4", "Overdue: #4"]),
        ):
            self.out = self.folder / "picture.svg"
            picture = self.made(run, topology, "--svg", "--at", at)
            ElementTree.fromstring(picture)
            for one in words:
                self.assertIn(one, picture)
            self.assertGreaterEqual(min(map(float, re.findall(r'font-size="([\d.]+)"', picture))), 9)

    def test_wrong_words_and_files(self):
        topology = LINKS / "topology.toml"
        self.refused(2, "usage:", LINKS / "expected", topology)
        for said, words in (
            ("--svg and --at go together", ["--svg"]), ("--svg and --at go together", ["--at", 3]), ("--from is past --to", ["--from", 3, "--to", 2]),
            ("'0' isn't a number from 1", ["--from", 0]), ("--packet and --svg choose for themselves", ["--packet", 1, "--to", 2]), ("--packet goes with a page", ["--svg", "--at", 1, "--packet", 1]),
        ):  # fmt: skip
            self.refused(2, said, LINKS / "expected", topology, self.out, *words)
        self.refused(1, "there is no step 43: it has 42", LINKS / "expected", topology, self.out, "--from", 43)
        self.refused(1, "there is no step 43: it has 42", LINKS / "expected", topology, self.out, "--svg", "--at", 43)
        self.refused(1, "packet 2: no step injects it", LINKS / "expected", topology, self.out, "--packet", 2)
        self.refused(1, "nothing: not a folder", self.folder / "nothing", topology, self.out)
        self.refused(1, "T1 NotToml", LINKS / "expected", TOOL, self.out)
        self.refused(1, "No such file", LINKS / "expected", topology, self.folder / "none/run.html")
        self.refused(1, "has no 'p', which the run has: another run's topology?", LINKS / "expected", ROOT / "examples/first/topology.toml", self.out)
        other = self.folder / "net.toml"
        other.write_text(topology.read_text() + '[[link]]\na = "pe1"\nb = "pe2"\n')
        self.refused(1, "has 3 links, and the run 2", LINKS / "expected", other, self.out)
        self.refused(1, "the report has 0 packets, and by the journal 1 were sent", LINKS / "expected", topology, self.out, "--report", LINKS / "script.txt")
        self.assertFalse(self.out.exists())


@unittest.skipUnless(CHROMIUM, "chromium isn't installed")
class InABrowser(unittest.TestCase):
    @classmethod
    def setUpClass(cls):
        cls.folder = Path(tempfile.mkdtemp())
        cls.addClassCleanup(shutil.rmtree, cls.folder)
        cls.browser = Browser()
        cls.addClassCleanup(cls.browser.close)

    def opened(self, run, *words, at=0):
        out = self.folder / f"{run.name}.html"
        subprocess.run([sys.executable, TOOL, run / "expected", run / "topology.toml", out, *words], check=True)
        self.browser.asked.clear()
        self.browser.open("about:blank")
        self.browser.open(f"{out.as_uri()}#{at}")
        return self.browser

    def tearDown(self):
        self.assertEqual([], self.browser.errors)
        self.assertLessEqual({url.split(":")[0] for url in self.browser.asked}, {"file", "about"}, "nothing is asked of a network")

    def seen(self, selector):
        return self.browser.value(f"[...document.querySelectorAll({json.dumps(selector)})].map(one => one.textContent)")

    def test_a_frame_on_its_link(self):
        browser = self.opened(LINKS, at=40)
        self.assertEqual(["16", "63", "16", "63", "IP #1", "63"], self.seen("#flying .chip text"))
        place, *nodes = browser.value("['#flying circle', '.node rect'].flatMap(all => [...document.querySelectorAll(all)].map(one => one.getBoundingClientRect().x))")
        self.assertTrue(nodes[0] < place < nodes[1], "between pe1 and p")
        self.assertEqual(["\u2713 #1 delivered, TTL 61"], self.opened(LINKS, at=42).value("go(42), [...document.querySelectorAll('.mark')].map(one => one.textContent)"))
        self.assertEqual([], self.seen("#flying .chip text"))

    def test_states_of_sessions_and_links_are_those_of_the_reports_tables(self):
        browser = self.opened(LINKS, at=40)
        browser.value("choose('Sessions')")
        rows = browser.value("[...document.querySelectorAll('#panel tbody tr')].map(row => [...row.cells].map(cell => cell.textContent).join(' '))")
        report = (LINKS / "expected/report.txt").read_text().splitlines()
        self.assertEqual([line.split(" ", 1)[1] for line in report if line.startswith(("ldp", "bgp"))], rows)
        for step, state in ((0, "none none"), (1, "initialized opensent"), (16, "openrec opensent"), (18, "openrec openrec"), (19, "openrec operational"), (22, "operational operational")):
            self.assertEqual(state, browser.value(f"ends(stateAfter({step}), 'ldp', 0, 1).join(' ')"), step)
        self.assertEqual([0, 1, 2], browser.value("[0, 1, 2].map(step => (go(step), document.querySelectorAll('.link:not(.down)').length))"))

    def test_buttons_keys_and_the_slider(self):
        browser = self.opened(LINKS)
        where = lambda: browser.value("(rest(), at)")
        for act, wanted in (
            (lambda: browser.click("#on"), 1), (lambda: browser.click("#last"), 42), (lambda: browser.click("#back"), 41),
            (lambda: browser.click("#hop-back"), 40), (lambda: browser.click("#first"), 0), (lambda: browser.click("#hop-on"), 40),
            (lambda: browser.key("ArrowRight", 39), 41), (lambda: browser.key("ArrowLeft", 37), 40), (lambda: browser.key("End", 35), 42),
            (lambda: browser.key("ArrowLeft", 37, shift=True), 41), (lambda: browser.key("Home", 36), 0),
            (lambda: browser.key("ArrowRight", 39, shift=True), 40),
        ):  # fmt: skip
            act()
            self.assertEqual(wanted, where())
        browser.value("$('slider').value = 20; $('slider').dispatchEvent(new Event('input'))")
        self.assertEqual([20, "#20"], [where(), browser.value("location.hash")])
        for number, tab in enumerate(("Packets", "Sessions", "Node", "Journal", "Report"), 1):
            browser.key(str(number), 48 + number)
            self.assertEqual([tab], self.seen("#tabs [aria-selected='true']"))

    def test_it_plays_to_the_end(self):
        browser = self.opened(LINKS, at=36)
        browser.value("$('pace').value = 8")
        browser.key(" ", 32, text=" ")
        done = "new Promise(ready => { const look = () => at === steps.length && !moving && !playing ? ready(at) : setTimeout(look, 20); look(); })"
        self.assertEqual(42, browser.value(done))
        self.assertEqual(["\u2713 #1 delivered, TTL 61"], self.seen(".mark"))

    def test_every_step_of_every_example_and_how_packets_end(self):
        for run in RUNS:
            with self.subTest(run.name):
                browser = self.opened(run)
                shown = browser.value("(() => { const every = Math.max(1, Math.floor(steps.length / 20)); for (let s = 0; s <= steps.length; s += every) go(s); return go(steps.length), at; })()")
                self.assertEqual(len((run / "expected/journal.txt").read_text().splitlines()), shown)
                report = (run / "expected/report.txt").read_text()
                self.assertEqual(list(ends_of(report)), browser.value(ENDS))
                total = report.splitlines()[-1].split()
                counts = browser.value("(state => [state.ways.length, state.delivered, state.dropped])(stateAfter(steps.length))")
                self.assertEqual([int(total[at]) for at in (2, 4, 6)], counts)


# What a reader of the drawing sees: the least height of a name in pixels; which sites lie on nodes, and names on names; and whether names pass their boxes.
DRAWN = """(() => {
    const box = element => element.firstChild.getBoundingClientRect();
    const touch = (a, b) => a.left < b.right && b.left < a.right && a.top < b.bottom && b.top < a.bottom;
    const texts = [...document.querySelectorAll("#net .node text, #net .site text, #net .chip text, #net .mark")].filter(text => text.getClientRects().length);
    const named = all.map((one, at) => [one, box((at < nodes.length ? drawn.nodes : drawn.sites)[at < nodes.length ? at : at - nodes.length])]);
    const onNodes = named.slice(nodes.length).filter(([, site]) => named.slice(0, nodes.length).some(([, one]) => touch(site, one))).map(([site]) => site.name);
    const shown = named.filter(([one]) => !one.bare), onNames = shown.filter(([, a], at) => shown.slice(at + 1).some(([, b]) => touch(a, b))).map(([one]) => one.name);
    const wide = texts.filter(text => text.closest(".node, .site")).filter(text => text.getBoundingClientRect().width > box(text.parentNode).width + 1).map(text => text.textContent);
    return {least: Math.min(...texts.map(text => parseFloat(getComputedStyle(text).fontSize) * text.getScreenCTM().a)), onNodes, onNames, wide, shown: shown.length};
})()"""


@unittest.skipUnless(CHROMIUM, "chromium isn't installed")
class LargeNetworks(unittest.TestCase):
    """Networks of a provider with 12, 38 and 64 nodes, as they are seen on a screen and on a phone, in light and dark."""

    @classmethod
    def setUpClass(cls):
        cls.folder = Path(tempfile.mkdtemp())
        cls.addClassCleanup(shutil.rmtree, cls.folder)
        cls.browser = Browser()
        cls.addClassCleanup(cls.browser.close)
        cls.pages = {}
        for nodes, cores, edges in ((12, 4, 8), (38, 8, 30), (64, 12, 52)):
            place = cls.folder / str(nodes)
            made(place, cores, edges, with_bgp=nodes < 64, most=40)
            cls.pages[nodes] = place / "run.html"
            subprocess.run([sys.executable, TOOL, place / "run", place / "topology.toml", cls.pages[nodes]], check=True)

    def tearDown(self):
        self.assertEqual([], self.browser.errors)

    def opened(self, nodes, width=1500, height=900, scheme="light", at=10**6):
        self.browser.call("Emulation.setDeviceMetricsOverride", width=width, height=height, deviceScaleFactor=1, mobile=False)
        self.browser.call("Emulation.setEmulatedMedia", features=[{"name": "prefers-color-scheme", "value": scheme}])
        self.browser.open("about:blank")
        self.browser.open(f"{self.pages[nodes].as_uri()}#{at}")
        return self.browser

    def test_every_name_can_be_read_and_none_lies_on_another(self):
        for nodes in self.pages:
            for width, height, scheme in ((1500, 900, "light"), (390, 844, "dark")):
                with self.subTest(f"{nodes} nodes, {width} pixels"):
                    seen = self.opened(nodes, width, height, scheme).value(DRAWN)
                    self.assertGreaterEqual(seen["least"], 9)
                    self.assertEqual(([], [], []), (seen["onNodes"], seen["onNames"], seen["wide"]))
                    if width == 1500:
                        self.assertEqual(nodes + self.browser.value("sites.length"), seen["shown"], "all names are shown")
                    self.assertLessEqual(self.browser.value("document.documentElement.scrollWidth"), width)
                    for key, count in (("]", 9), ("[", 16), ("0", 1)):
                        for _ in range(count):
                            self.browser.key(key)
                        seen = self.browser.value(DRAWN)
                        self.assertGreaterEqual(seen["least"], 9, f"after {count} times {key}")
                        self.assertEqual([], seen["onNames"])

    def test_a_phone_has_the_legend_folded_and_the_panel_as_high_as_the_drawing(self):
        browser = self.opened(38, 390, 844)
        self.assertEqual([False, True], browser.value("[$('legend').open, Math.abs($('stage').clientHeight - document.querySelector('aside').clientHeight) < 3]"))
        self.assertTrue(self.opened(38).value("$('legend').open"))

    def test_a_packet_is_found_by_site_vpn_or_verdict_in_two_keys(self):
        browser = self.opened(38, at=0)
        numbers = "[...document.querySelectorAll('.packets tbody tr')].map(row => row.cells[0].textContent)"
        for keys, wanted in (
            ("sc", "packets.filter((packet, p) => packet.site === offered.site[0] || finals[p].words?.startsWith(`${offered.site[0]} `)).length"), ("vv", "found({vpn: 'vpn1'}).length"),
            ("dN", "finals.filter(way => way.words?.startsWith('NoRoute')).length"), ("/d", "found({words: 'd'}).length"),
        ):  # fmt: skip
            for key in keys:
                browser.key(key, ord(key.upper()), text=key)
            self.assertEqual(browser.value(f"Math.min(MOST, {wanted})"), browser.value(f"{numbers}.length"), keys)
            self.assertGreater(browser.value(f"{numbers}.length"), 0, keys)
            browser.key("Enter", 13)
            self.assertEqual(browser.value(f"{numbers}[0]"), browser.value("`${packets[followed].n}`"), keys)
            self.assertTrue(browser.value("steps[at - 1].k === 'inject' && steps[at - 1].p === followed"), keys)
            browser.key("Escape", 27)
            self.assertEqual([None, False], browser.value("[followed, Object.values(sought).some(Boolean)]"))

    def test_a_packet_that_is_followed_leads_to_its_steps(self):
        browser = self.opened(38, at=0)
        browser.key("n")
        first = browser.value("stepsOf[followed]")
        self.assertEqual(first[0] + 1, browser.value("at"))
        for step in first[1:]:
            browser.key("ArrowRight", 39, shift=True)
            self.assertEqual(step + 1, browser.value("at"))
        self.assertEqual(len(first), browser.value("document.querySelectorAll('.followed .line').length"))
        self.assertEqual(browser.value("new Set(finals[followed].path).size - 1"), browser.value("document.querySelectorAll('.link.way').length"))

    def test_keys_for_nodes_and_help(self):
        browser = self.opened(38)
        self.assertEqual(0, browser.value("document.querySelectorAll('.arc').length"), "no session of many is drawn before a node is chosen")
        browser.value("drawn.nodes[9].focus()")
        browser.key("Tab", 9)
        browser.key("Enter", 13)
        self.assertEqual([10, "Node"], browser.value("[picked, tab]"))
        self.assertEqual(29, browser.value("document.querySelectorAll('.arc').length"), "those of the chosen edge")
        browser.key("?")
        self.assertTrue(browser.value("$('keys').open"))
        browser.key("Escape", 27)
        self.assertFalse(browser.value("$('keys').open"))

    def test_a_step_is_quick(self):
        browser = self.opened(64, at=4000)
        times = browser.value("[...Array(40)].map((_, turn) => { const begun = performance.now(); go(at + (turn < 20 ? 1 : -1)); return performance.now() - begun; }).sort((a, b) => a - b)")
        self.assertLess(times[0], 50, "the quickest of forty, since the machine may be busy")


if __name__ == "__main__":
    unittest.main()
