"""Pages of floods, reflected routes and joined networks: their data are those of the worked examples, their reports the program's, and in
a browser they show them, 1280 and 400 pixels wide."""

import base64
import json
import random
import re
import shutil
import subprocess
import sys
import tempfile
import unittest
from pathlib import Path

from browser import CHROMIUM, Browser
from runs import ROOT, random_runs, reference

from kept_runs import INPUTS, command_of, status_of  # noqa: E402

sys.path.insert(0, str(ROOT / "tools"))
from mplsnet.layout import cycle, drawing, joined, likely_edges  # noqa: E402

TOOL = ROOT / "tools/mplsnet-play"
STORED = ROOT / "crates/mn_stored_runs/data/runs"
EXAMPLES = {"flood": ROOT / "examples/flood", "older": ROOT / "examples/older-database", "reflect": ROOT / "examples/reflectors", "join": ROOT / "examples/two-providers"}


def capture_of(path):
    """The bytes that a file of hexadecimal with comments has."""
    return bytes.fromhex("".join(line.split("#")[0] for line in path.read_text().splitlines()))


class Pages(unittest.TestCase):
    def setUp(self):
        self.folder = Path(tempfile.mkdtemp())
        self.addCleanup(shutil.rmtree, self.folder)
        self.out = self.folder / "page.html"

    def ran(self, *words):
        return subprocess.run([sys.executable, TOOL, *map(str, words)], capture_output=True, text=True)

    def data(self, folder, *words):
        command = command_of(folder)
        ran = self.ran(command, *(folder / name for name in INPUTS[command]), self.out, *words)
        self.assertEqual((0, "", ""), (ran.returncode, ran.stdout, ran.stderr))
        page = self.out.read_text()
        self.assertEqual({"http://www.w3.org/2000/svg"}, set(re.findall(r"\w+://[^\"' ]*", page)))
        return json.loads(page.split('<script type="application/json" id="run">')[1].split("</script>")[0])

    def refused(self, status, said, *words):
        ran = self.ran(*words)
        self.assertEqual((status, ""), (ran.returncode, ran.stdout))
        self.assertIn(said, ran.stderr)
        self.assertNotIn("Traceback", ran.stderr)

    def is_as_reported(self, folder, report):
        """The folder's inputs make a page with this report, or are refused as it says; whether there is a page."""
        if status_of(report.encode("latin-1")):
            self.refused(1, report.splitlines()[0], command_of(folder), *(folder / name for name in INPUTS[command_of(folder)]), self.out)
            return False
        (folder / "report.txt").write_text(report, encoding="latin-1")
        self.data(folder, "--report", folder / "report.txt")
        return True

    def after(self, data, count):
        """What is in flight and each node's tables after so many steps, by the page's own changes."""
        flying, tables = [], [dict(rows) for rows in data["tables"]]
        for step in data["steps"][:count]:
            for flight in [*step.get("cut", ()), *([step["f"]] if "f" in step else [])]:
                flying.remove(flight)
            flying += step["send"]
            for node, changes in step.get("rows", {}).items():
                for key, row in changes.items():
                    tables[int(node)].pop(key, None) if row is None else tables[int(node)].update({key: row})
        return flying, tables

    def adverts(self, data, flights):
        names = [node["name"] for node in data["nodes"]]
        told = [data["flights"][flight] for flight in flights]
        return [f"{names[one['a']]} {names[one['b']]} {one['rows'][0]} {{{one['rows'][1]}}}" for one in told]

    def test_a_flood_has_in_flight_what_its_example_says(self):
        data = self.data(EXAMPLES["flood"], "--report", EXAMPLES["flood"] / "expected/report.txt")
        first = ["r1 r2 r1#1 {r2}", "r2 r1 r2#1 {r1}"]
        both = [*first, "r2 r3 r2#2 {r1 r3}", "r2 r1 r2#2 {r1 r3}", "r3 r2 r3#1 {r2}"]
        for count, wanted in (
            (0, []), (1, first), (2, both), (3, [*both[:4], "r2 r1 r3#1 {r2}"]), (6, [first[0], both[2]]), (9, []), (10, ["r2 r1 r2#3 {r1}"]),
        ):  # fmt: skip
            self.assertEqual(wanted, self.adverts(data, self.after(data, count)[0]), count)
        self.assertEqual(10, len(data["steps"]))
        self.assertEqual([1, 2, 3, 4, 5, 6, 9, 9, 9, 10], [step["t"] for step in data["steps"]])
        _, tables = self.after(data, 10)
        self.assertEqual([["r1", 1, "r2"], ["r2", 2, "r1 r3"], ["r3", 1, "r2"]], [tables[0][f"db 000{at}"] for at in range(3)])
        self.assertEqual([["r2", 10, "r2"], ["r3", 20, "r2"]], [tables[0][f"tree 000{at}"] for at in (1, 2)])
        self.assertEqual({"tree 0000"}, {key for key in tables[1] if key.startswith("tree")}, "r2 reaches r1 alone")

    def test_an_older_advert_is_passed_over(self):
        data = self.data(EXAMPLES["older"], "--report", EXAMPLES["older"] / "expected/report.txt")
        kept = [step["kept"] for step in data["steps"][23:]]
        self.assertEqual([False, True, True, False, True, False, False, False, True, True], kept)
        self.assertEqual("r3 receives r2#2 {r1 r3} from r4. It has r2#3 {r3}, which is newer: this one is passed over.", data["steps"][29]["x"])

    def test_reflected_routes_have_the_steps_of_their_example(self):
        data = self.data(EXAMPLES["reflect"], "--report", EXAMPLES["reflect"] / "expected/report.txt")
        names = [node["name"] for node in data["nodes"]]
        self.assertEqual((["pe1", "pe2", "pe3", "pe4", "rr1", "rr2"], [4, 5], 92), (names, data["reflectors"], len(data["steps"])))
        flying, tables = self.after(data, 55)
        self.assertEqual([], flying)
        self.assertEqual(
            [["red3", "10.1.0.0/16", "edge pe1 label 16"], ["red3", "10.2.0.0/16", "edge pe2 label 16"], ["red3", "10.3.0.0/16", "site c"], ["red3", "10.4.0.0/16", "edge pe4 label 16"]],
            [row for key, row in sorted(tables[2].items()) if key.startswith("table")],
        )
        self.assertIn(["rr2", "10.1.0.0/16", "red1", "16", "rr1 rr2"], tables[2].values(), "by way of two reflectors, the first one first")
        flying, tables = self.after(data, 56)
        self.assertEqual([("pe1", "rr1", ["10.9.0.0/16", "red1"])], [(names[one["a"]], names[one["b"]], one["rows"]) for one in (data["flights"][flight] for flight in flying)])
        self.assertEqual([57, 62, 63, 72, 73, 92], [at for at in (57, 62, 63, 72, 73, 92) if bool(self.after(data, at)[0]) == (at in (57, 63, 73))])
        picked = [row for key, row in self.after(data, 72)[1][5].items() if key.startswith("pick")]
        self.assertEqual([["10.3.0.0/16", "red3", "pe3"], ["10.4.0.0/16", "red4", "pe4"]], sorted(picked), "rr2 alone has what its own edges announce")

    def test_a_packet_over_two_networks(self):
        data = self.data(EXAMPLES["join"], "--report", EXAMPLES["join"] / "expected/report.txt")
        self.assertEqual(["topology1", "topology2"], data["nets"])
        joint = [data["sites"][at] for at in data["joints"][0]]
        self.assertEqual([("gate", 0), ("gate", 1)], [(site["name"], site["net"]) for site in joint])
        first = [step for step in data["steps"] if step.get("p") == 0]
        self.assertEqual(["1 inject paris 1", "1 carry w1 wp 0", "1 carry wp w2 0", "2 inject gate 1", "2 carry e1 ep 0", "2 carry ep e2 0"], [step["w"] for step in first])
        self.assertEqual([(None, None), (None, None), (True, 61), (None, None), (None, None), (None, 58)], [(step.get("over"), step.get("ttl")) for step in first])
        self.assertEqual(["wp", "w2", "ep", "e2"], [data["nodes"][data["flights"][step["send"]]["b"]]["name"] for step in first if "send" in step])
        self.assertEqual([0, 2, 4, 0, 2, 4], [step["t"] for step in first], "each network has its clock")
        self.assertTrue(first[-1]["x"].endswith("with TTL 58, as record 1 of delivered.pcap."), first[-1]["x"])
        self.assertEqual(list(range(1, 8)), [packet["n"] for packet in data["packets"]])
        x = {site["name"] + str(site["net"]): site["x"] for site in data["sites"]}
        self.assertTrue(x["paris0"] < x["gate0"] < x["gate1"] < x["rome1"], "the joined sites stand beside each other")
        tall = {site["name"] + str(site["net"]): (site["tall_x"], site["tall_y"]) for site in data["sites"]}
        self.assertEqual(tall["gate0"][0], tall["gate1"][0])
        self.assertLess(tall["gate0"][1], tall["gate1"][1])

    def test_each_stored_run_has_the_report_that_the_program_put(self):
        count = 0
        for folder in sorted(file.parent for file in STORED.glob("*/command.txt")):
            if command_of(folder) == "reach":  # of which there is nothing to step through
                continue
            report, place = folder / "expected/report.txt", self.folder / folder.name
            shutil.copytree(folder, place)
            if (folder / "capture.hex").exists():
                (place / "capture.pcap").write_bytes(capture_of(folder / "capture.hex"))
            count += self.is_as_reported(place, report.read_text())
        self.assertLessEqual(18, count)

    def test_random_ones_have_the_report_of_the_reference(self):
        makers = {"flood": random_runs.random_flood, "reflect": random_runs.random_reflection, "join": random_runs.random_join}
        for command, maker in makers.items():
            for seed in range(8):
                texts = maker(seed)
                report = reference.COMMANDS[command](*texts)[0]
                for name, text in zip(INPUTS[command], texts):
                    (self.folder / name).write_bytes(text)
                (self.folder / "command.txt").write_text(command)
                with self.subTest(f"{command} {seed}"):
                    self.is_as_reported(self.folder, report.decode("latin-1"))

    def test_another_report_and_inputs_that_are_refused(self):
        flood = EXAMPLES["flood"]
        given = [flood / "topology.toml", flood / "script.txt", self.out]
        self.refused(1, "line 1: not this script's report over this topology: due is 'line 7 refused Empty', found 'tree r1", "flood", *given, "--report", EXAMPLES["older"] / "expected/report.txt")
        script = self.folder / "script.txt"
        script.write_text("link up r1 r9\n")
        self.refused(1, f"{script}: script refused S4 NoSuchName at line 1", "flood", flood / "topology.toml", script, self.out)
        self.refused(1, "script refused S1 UnknownWord at line 1", "reflect", flood / "topology.toml", script, self.out)
        self.refused(1, "none.txt: No such file", "flood", flood / "topology.toml", self.folder / "none.txt", self.out)
        self.refused(1, "topology refused T1 NotToml at top", "reflect", flood / "script.txt", flood / "script.txt", self.out)
        self.refused(2, "flood has 2 inputs, and then OUT", "flood", *given[:2], given[1], given[2])
        self.refused(2, "join has 5 inputs, and then OUT", "join", *given[:2], given[2], given[2])
        self.refused(2, "--svg goes with a run's FOLDER", "flood", *given, "--svg", "--at", 3)
        self.refused(2, "--packet goes with a run's FOLDER", "flood", *given, "--packet", 3)
        self.assertFalse(self.out.exists())

    def test_a_folder_may_be_called_as_a_command(self):
        shutil.copytree(ROOT / "examples/first/expected", self.folder / "flood")
        ran = subprocess.run([sys.executable, TOOL, "flood", ROOT / "examples/first/topology.toml", self.out], cwd=self.folder, capture_output=True, text=True)
        self.assertEqual((0, ""), (ran.returncode, ran.stderr))


class Places(unittest.TestCase):
    def test_a_ring_is_drawn_as_one(self):
        links = [(at, (at + 1) % 8) for at in range(8)]
        shuffled = [3, 6, 0, 5, 1, 7, 2, 4]
        self.assertEqual(list(range(8)), cycle(8, links + [(0, 4)]), "a chord stays a chord")
        self.assertEqual(8, len(set(cycle(8, [(shuffled[a], shuffled[b]) for a, b in links]))))
        for some in (links[:-1], links[:-1] + [(0, 3)]):
            self.assertIsNone(cycle(8, some))
        nodes, _ = drawing("auto", [f"n{at}" for at in range(8)], set(), links, [])
        self.assertEqual(1, len({round((x / 1.2) ** 2 + y**2, -4) for x, y in nodes}), "each is as far from the middle, but for the width")

    def test_an_edge_without_a_vrf_stands_with_the_edges(self):
        """Two cores with an edge each, a third core between them with two nodes more, of one link and of two."""
        links = [(0, 1), (1, 2), (0, 3), (2, 4), (1, 5), (1, 6), (2, 6)]
        self.assertEqual({5}, likely_edges(7, {3, 4}, links), "an edge has one link here")
        self.assertEqual({5, 6}, likely_edges(7, {3, 4}, [*links, (0, 4)]), "or two")
        self.assertEqual(set(), likely_edges(5, {3, 4}, links[:4]), "a core that packets pass is none")

    def test_joined_networks_face_each_other(self):
        rng = random.Random(5)
        for axis in (0, 1):
            one, other = (([(rng.randint(-400, 400), rng.randint(-300, 300)) for _ in range(6)], [(rng.randint(-500, 500), rng.randint(-400, 400)) for _ in range(3)]) for _ in range(2))
            left, right = joined(one, other, [(0, 1)], axis)
            self.assertLess(max(place[axis] for part in left for place in part), min(place[axis] for part in right for place in part))
            middle = [sum(f(place[axis] for part in net for place in part) for f in (min, max)) / 2 for net in (left, right)]
            self.assertTrue(left[1][0][axis] >= middle[0] and right[1][1][axis] <= middle[1])


# How many pixels of a picture have each of some colours.
COLOURS = """new Promise(done => {
    const image = new Image(), wanted = %s;
    image.onload = () => {
        const canvas = document.createElement("canvas"), pen = canvas.getContext("2d");
        [canvas.width, canvas.height] = [image.width, image.height];
        pen.drawImage(image, 0, 0);
        const bytes = pen.getImageData(0, 0, image.width, image.height).data, counts = wanted.map(() => 0);
        for (let at = 0; at < bytes.length; at += 4) {
            const place = wanted.indexOf((bytes[at] << 16) + (bytes[at + 1] << 8) + bytes[at + 2]);
            if (place >= 0) counts[place] += 1;
        }
        done(counts);
    };
    image.src = "data:image/png;base64,%s";
})"""


# What is seen: the least height of a word in pixels, the boxes that lie on others or out of the drawing, and whether the page is wider than its window.
DRAWN = """(() => {
    const box = element => element.firstChild.getBoundingClientRect(), room = $("stage").getBoundingClientRect();
    const touch = (a, b) => a.left < b.right && b.left < a.right && a.top < b.bottom && b.top < a.bottom;
    const some = [...drawn.nodes, ...drawn.sites].map(one => [one.textContent, box(one)]);
    const out = some.filter(([, one]) => one.left < room.left - 1 || one.right > room.right + 1 || one.top < room.top - 1 || one.bottom > room.bottom + 1);
    const onOthers = some.filter(([, a], at) => some.slice(at + 1).some(([, b]) => touch(a, b)));
    const texts = [...document.querySelectorAll("#net .node text, #net .site text, #net .chip text, #net .mark, #net .net-name")].filter(text => text.getClientRects().length);
    const least = Math.min(...texts.map(text => parseFloat(getComputedStyle(text).fontSize) * text.getScreenCTM().a));
    return {least, out: out.map(([name]) => name), onOthers: onOthers.map(([name]) => name), wide: document.documentElement.scrollWidth > innerWidth};
})()"""


@unittest.skipUnless(CHROMIUM, "chromium isn't installed")
class InABrowser(unittest.TestCase):
    @classmethod
    def setUpClass(cls):
        cls.folder = Path(tempfile.mkdtemp())
        cls.addClassCleanup(shutil.rmtree, cls.folder)
        cls.browser = Browser()
        cls.addClassCleanup(cls.browser.close)
        cls.pages = {}
        for name, folder in EXAMPLES.items():
            command, cls.pages[name] = command_of(folder), cls.folder / f"{name}.html"
            subprocess.run([sys.executable, TOOL, command, *(folder / one for one in INPUTS[command]), cls.pages[name]], check=True)

    def opened(self, name, width=1280, height=800, at=0):
        self.browser.call("Emulation.setDeviceMetricsOverride", width=width, height=height, deviceScaleFactor=1, mobile=False)
        self.browser.asked.clear()
        self.browser.open("about:blank")
        self.browser.open(f"{self.pages[name].as_uri()}#{at}")
        return self.browser

    def tearDown(self):
        self.assertEqual([], self.browser.errors)
        self.assertLessEqual({url.split(":")[0] for url in self.browser.asked}, {"file", "about"}, "nothing is asked of a network")

    def seen(self, selector):
        return self.browser.value(f"[...document.querySelectorAll({json.dumps(selector)})].map(one => one.textContent)")

    def test_every_step_is_drawn_within_the_window_and_can_be_read(self):
        for name in self.pages:
            for width, height in ((1280, 800), (400, 844)):
                with self.subTest(f"{name}, {width} pixels"):
                    browser = self.opened(name, width, height)
                    count = browser.value("steps.length")
                    for step in sorted({0, 1, count // 3, count // 2, count - 1, count}):
                        browser.value(f"go({step})")
                        seen = browser.value(DRAWN)
                        self.assertEqual(([], [], False), (seen["out"], seen["onOthers"], seen["wide"]), step)
                        self.assertGreaterEqual(seen["least"], 9, step)
                    browser.value("for (let s = 0; s <= steps.length; s += innerWidth < 900 ? 9 : 1) go(s)")
                    for tab in range(browser.value("NAMES.length")):
                        browser.key(str(tab + 1), 49 + tab)
                        self.assertTrue(browser.value("$('panel').textContent.length > 0"), tab)

    def test_pictures_have_the_colours_of_their_legends(self):
        wanted = {
            ("flood", 2): ["2563eb", "db2777"], ("reflect", 33): ["2563eb", "e9defc", "dbe7fb", "15803d"], ("reflect", 64): ["c81e1e"], ("join", 79): ["0e7490", "2563eb", "c2570c", "15803d"],
        }  # fmt: skip
        for (name, at), colours in wanted.items():
            for width, height in ((1280, 800), (400, 844)):
                path = self.folder / f"{name}-{at}-{width}.png"
                self.opened(name, width, height, at).value("$('legend').style.visibility = 'hidden'")
                self.browser.picture(path)
                content = base64.b64encode(path.read_bytes()).decode()
                found = self.browser.value(COLOURS % (json.dumps([int(colour, 16) for colour in colours]), content))
                self.assertEqual([], [colour for colour, count in zip(colours, found) if count < 12], (name, at, width))
        self.browser.asked.clear()

    def test_a_flood(self):
        browser = self.opened("flood", at=2)
        self.assertEqual("links up 2 of 2 \u00b7 adverts in flight 5", browser.value("$('counts').textContent"))
        self.assertEqual(["r1#1", "r2", "r2#1", "r1", "r2#2", "r1 r3", "r2#2", "r1 r3", "r3#1", "r2"], self.seen("#flying .chip text"))
        self.assertEqual(["2", "2", "2"], self.seen(".stale text"), "each lacks what two nodes have made")
        browser.value("go(10); pick(0)")
        self.assertEqual(2, browser.value("document.querySelectorAll('.link.seen').length"), "r1 takes both links for up, and one is down")
        browser.value("pick(1)")
        self.assertEqual(1, browser.value("document.querySelectorAll('.link.seen').length"))
        browser.value("choose('Report')")
        self.assertEqual((EXAMPLES["flood"] / "expected/report.txt").read_text().splitlines(), self.seen("#panel .line"))

    def test_reflected_routes(self):
        browser = self.opened("reflect", at=30)
        browser.value("choose('Sessions')")
        self.assertEqual({"established"}, set(self.seen("#panel .state")))
        browser.value("go(6)")
        self.assertEqual({"opensent"}, set(self.seen("#panel .state")))
        browser.value("go(33); choose('Messages')")
        self.assertEqual(browser.value("stateAfter(33).flying"), len(self.seen("#panel tbody tr")))
        self.assertEqual([], self.seen("[data-run]"), "keys of packets aren't told")

    def test_two_networks(self):
        browser = self.opened("join", at=82)
        self.assertEqual("step 82 of 113 \u00b7 ticks 4 and 0", browser.value("$('where').textContent"))
        self.assertEqual(["16", "60", "16", "60", "IP #1", "60"], self.seen("#flying .chip text"))
        self.assertEqual(["network 1: topology1", "network 2: topology2"], self.seen(".net-name"))
        self.assertEqual(1, browser.value("document.querySelectorAll('.joint').length"))
        browser.value("go(81)")
        self.assertEqual(["\u2192 #1 over the joint, TTL 61"], self.seen(".mark"))
        browser.value("go(steps.length)")
        report = (EXAMPLES["join"] / "expected/report.txt").read_text().splitlines()
        ends = browser.value("stateAfter(steps.length).ways.map(way => way.end ? `${way.end} ${way.words}` : 'flying')")
        self.assertEqual(["delivered 2 rome TTL 58", "delivered 1 paris TTL 58", "dropped NoRoute at w1", "dropped NoRoute at e1", "dropped TtlExpired at e2", "dropped SiteDown at e1", "flying"], ends)
        total = report[-1].split()
        self.assertEqual([int(total[at]) for at in (2, 4, 6, 8)], browser.value("(s => [s.sent, s.delivered, s.dropped, s.sent - s.delivered - s.dropped])(stateAfter(steps.length))"))

    def test_networks_without_a_node(self):
        empty = self.folder / "empty"
        empty.write_text("")
        capture = EXAMPLES["join"] / "capture.pcap"
        for command, inputs in (("flood", [empty] * 2), ("reflect", [empty] * 2), ("join", [empty, EXAMPLES["join"] / "topology1.toml", empty, empty, capture])):
            self.pages["empty"] = self.folder / f"empty-{command}.html"
            subprocess.run([sys.executable, TOOL, command, *inputs, self.pages["empty"]], check=True)
            self.assertEqual(0, self.opened("empty").value("(act.on(), at)"), command)
        del self.pages["empty"]

    def test_it_plays_to_the_end(self):
        browser = self.opened("flood", at=7)
        browser.value("$('pace').value = 8")
        browser.key(" ", 32, text=" ")
        done = "new Promise(ready => { const look = () => at === steps.length && !moving && !playing ? ready(at) : setTimeout(look, 20); look(); })"
        self.assertEqual(10, browser.value(done))


if __name__ == "__main__":
    unittest.main()
