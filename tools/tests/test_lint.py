"""mplsnet-lint: its first fault is the program's rule and place, over the tables of refused files; places, hints, and TOML 1.1."""

import random
import re
import subprocess
import sys
import tempfile
import tomllib
import unittest
from pathlib import Path

ROOT = Path(__file__).resolve().parents[2]
sys.path[:0] = [str(ROOT / "tools"), str(ROOT / "tools/tests"), str(ROOT / "scripts"), str(ROOT / "examples")]
import mplsnet.rules  # noqa: E402
import mplsnet.toml  # noqa: E402
import random_runs  # noqa: E402
import reference_inputs  # noqa: E402
import test_schema  # noqa: E402

ROWS = ROOT / "crates/mn_reader_rows/data"
ESCAPES = {"\\n": "\n", "\\r": "\r", "\\t": "\t", "\\s": " "}


def rows_of(name):
    """The rows of a file of mn_reader_rows: the call, the text that stands before it, and the answer."""
    text = []
    for line in (ROWS / name).read_text().split("\n"):
        if line.startswith("| ") or line == "|":
            text.append(line[2:])
        elif line and not line.startswith("#"):
            call, _, answer = line.partition(" -> ")
            yield call, "".join(f"{one}\n" for one in text), answer
            text = []


def topologies(name):
    """Topologies of the rows of a file, each with the answer."""
    front = ""
    for call, text, answer in rows_of(name):
        if call == "topo front":
            front = text
        elif call == "topo read":
            yield front + text, answer


def first_of(topology, script=None):
    """The words with which the program refuses the inputs, by what mplsnet-lint says first."""
    rules = mplsnet.rules.TopologyRules(topology if isinstance(topology, bytes) else topology.encode())
    broken, what = rules.broken, "topology"
    if not broken and script is not None:
        broken, what = mplsnet.rules.ScriptRules(script, rules.net).broken, "script"
    if not broken:
        return None
    place = re.sub(" '.*", "", broken[0].place)
    return f"{what} refused {broken[0].rule} at {place}" if place else broken[0].rule


class First(unittest.TestCase):
    def refused(self, text, rule, place):
        number = next(number for number, name in mplsnet.rules.RULES.items() if name == rule)
        self.assertEqual(f"topology refused T{number} {rule} at {place}", first_of(text), text[-200:])

    def test_is_the_programs_over_the_rows_of_refused_topologies(self):
        count = 0
        for text, answer in [*topologies("topologies.rows"), *topologies("life.rows")]:
            refused = re.fullmatch(r"(\w+) at (Top|(\w+)\((\d+)\))", answer)
            if refused:
                self.refused(text, refused[1], "top" if refused[2] == "Top" else f"{refused[3].lower()} {refused[4]}")
                count += 1
            else:
                self.assertIsNone(first_of(text), text[-200:])
        self.assertLessEqual(78, count)
        self.refused(b"as = 1\n# \xff\n", "NotToml", "top")

    def test_is_the_programs_over_limits(self):
        nodes = "".join(f'[[node]]\nname = "n{i}"\nloopback = "10.0.{i // 256}.{i % 256}"\n' for i in range(257))
        self.refused(nodes, "TooMany", "top")
        self.refused("routers = 1\n" + nodes, "UnknownKey", "top")
        edges = "".join(f'[[vrf]]\nname = "v{i}"\nnode = "n{i}"\nrd = "1:{i}"\n' for i in range(65))
        self.refused("".join(nodes.partition('[[node]]\nname = "n256"')[:1]) + edges, "TooMany", "vrf 64")
        vrfs = '[[node]]\nname = "n0"\nloopback = "1.0.0.1"\n[[vrf]]\nname = "v"\nnode = "n0"\nrd = "1:1"\n'
        many = ",".join(f'"{i >> 12}.{i >> 8 & 15}.{i >> 4 & 15}.{i & 15}/32"' for i in range(65536))
        sites = f'[[site]]\nname = "s"\nvrf = "v"\nprefixes = [{many}]\n'
        self.assertIsNone(first_of(vrfs + sites))
        self.refused(vrfs + sites + '[[site]]\nname = "t"\nvrf = "v"\nprefixes = ["11.0.0.0/8"]\n', "TooMany", "site 1")
        self.assertEqual("too large topology bytes", first_of(b"#" * 1_048_577))
        self.assertEqual("too large script lines", first_of(b"", b"\n" * 3_000_001))

    def test_is_the_programs_over_the_rows_of_scripts(self):
        topology, count = "", 0
        for call, text, answer in rows_of("scripts.rows"):
            if call == "topo read":
                topology = text
            elif call.startswith("script ") or call == "script":
                script = re.sub(r"\\[nrts]", lambda found: ESCAPES[found[0]], call.removeprefix("script").removeprefix(" "))
                found = first_of(topology, script.encode())
                wanted = re.fullmatch(r"(\w+) at (\d+)", answer)
                self.assertEqual(f"{wanted[1]} at line {wanted[2]}" if wanted else None, found and found.split(" ", 3)[3], call)
                count += 1
        self.assertLessEqual(180, count)

    def test_is_that_of_the_schemas_wrong_files(self):
        for rule, what, before, after in test_schema.REFUSED + test_schema.BEYOND:
            with self.subTest(f"{rule}: {what}"):
                self.assertRegex(first_of(test_schema.wrong(before, after)), f"^topology refused {rule} at ")

    def test_is_the_references_over_random_inputs(self):
        refused = 0
        for seed in range(400):
            topology, script, _ = random_runs.random_run(seed)
            try:
                reference_inputs.read_script(reference_inputs.read_topology(topology), script)
                wanted = None
            except reference_inputs.Refused as error:
                wanted = str(error)
                refused += 1
            self.assertEqual(wanted, first_of(topology, script), f"seed {seed}")
        self.assertLess(30, refused)


class Places(unittest.TestCase):
    def told(self, text, script=None):
        with tempfile.TemporaryDirectory() as room:
            (Path(room) / "t").write_text(text)
            (Path(room) / "s").write_text(script or "")
            words = ["t", "s"] if script is not None else ["t"]
            ran = subprocess.run([ROOT / "tools/mplsnet-lint", *words], cwd=room, capture_output=True, text=True)
        return ran.returncode, ran.stdout.splitlines()

    def test_all_faults_are_told_with_line_column_and_what_may_be_meant(self):
        text = test_schema.GOOD.replace('b = "p"', 'b = "pe2"').replace("cost = 65535", "cots = 1").replace("192.0.2.2", "192.0.2.02")
        text = text.replace("10.1.0.0/16", "10.1.0.1/16")
        wanted = [
            "t:10:12: T4 WrongKind at node 1 'p': loopback = \"192.0.2.02\": a number has no leading zero; did you mean '192.0.2.2'?",
            "t:14:1: T2 UnknownKey at link 0: a link has no key 'cots'; did you mean 'cost'?",
            "t:13:5: T7 NoSuchName at link 0: b = \"pe2\": no node has this name; did you mean 'pe1'?",
            "t:27:13: T4 WrongKind at site 0 'a': prefixes: \"10.1.0.1/16\" is no prefix: the bits past the length aren't zero; did you mean '10.1.0.0/16'?",
        ]
        self.assertEqual((1, wanted), self.told(text))

    def test_a_script_is_looked_at_over_a_wrong_topology(self):
        text = test_schema.GOOD.replace("delay = 1000\nloss", "delay = 0\nloss")
        wanted = [
            "t:15:9: T12 BadDelay at link 0: delay = 0: it is from 1 to 1000",
            "s:1:13: S4 NoSuchName at line 1: no node has the name 'q'; there are pe1 and p",
            "s:3:13: S3 BadNumber at line 3: '10.1.0.1/16' is no prefix: the bits past the length aren't zero; did you mean '10.1.0.0/16'?",
        ]
        script = "link up pe1 q\ndrain # x\nroute add b 10.1.0.1/16\n"
        status, found = self.told(text, script)
        wanted.append("s:3:11: S4 NoSuchName at line 3: no site has the name 'b'; there is a")
        self.assertEqual((1, wanted), (status, found))

    def test_nothing_follows_from_an_entry_that_could_not_be_read(self):
        """The link, the edge and the site that are named may be those of the wrong entries."""
        for before, after, line in [
            ('b = "p"', 'b = "q"', "link up pe1 p"),
            ('b = "p"\n', "", "link up pe1 p"),
            ('name = "p"', "name = 7", "link up pe1 q"),
            ('node = "pe1"', 'node = "pe"', "bgp up pe1 p"),
            ('[[vrf]]\nname = "red"', "[[vrf]]\nname = 7", "show vrf blue"),
            ('name = "a"', "name = 7", "inject b 1"),
        ]:
            status, found = self.told(test_schema.GOOD.replace(before, after), line)
            self.assertEqual((1, "s: script ok commands 1"), (status, found[-1]), after)

    def test_what_is_lawful_is_counted(self):
        ring = ROOT / "examples/ring"
        ran = subprocess.run([ROOT / "tools/mplsnet-lint", "topology.toml", "script.txt"], cwd=ring, capture_output=True, text=True)
        commands = sum(1 for line in (ring / "script.txt").read_text().splitlines() if line.partition("#")[0].strip())
        lines = ["topology.toml: topology ok nodes 12 links 18 vrfs 4 sites 4 prefixes 4", f"script.txt: script ok commands {commands}"]
        self.assertEqual((0, lines, ""), (ran.returncode, ran.stdout.splitlines(), ran.stderr))

    def test_a_file_that_is_not_there(self):
        ran = subprocess.run([ROOT / "tools/mplsnet-lint", "/nosuch"], capture_output=True, text=True)
        self.assertEqual((1, "", "mplsnet-lint: /nosuch: No such file or directory\n"), (ran.returncode, ran.stdout, ran.stderr))

    def test_the_place_where_toml_ends(self):
        for text, place in [("as = 1\nas = 2", "2:1"), ('as = "1\n', "1:6"), ("as = 1 2", "1:6"), ("a = [1\n\n", "1:5"), ("= 1", "1:1"), ("é = 1", "1:1")]:
            self.assertRegex(self.told(text)[1][0], f"^t:{place}: T1 NotToml at top: ")


class Life(unittest.TestCase):

    def first(self, figures):
        text = test_schema.GOOD.replace("cost = 65535\ndelay = 1000\nloss = 0\nlife = 1000000", figures)
        return " ".join(one.rule for one in mplsnet.rules.TopologyRules(text.encode()).broken)

    def test_ranges(self):
        for figures, rule in [
            ("life = 1", ""), ("life = 1000000", ""), ("delay = 5\nlife = 5", ""), ("life = 0", "T12 BadDelay"), ("life = 1000001", "T12 BadDelay"),
            ("delay = 5\nlife = 4", "T12 BadDelay"), ('life = "5"', "T4 WrongKind"), ("life = 5.0", "T4 WrongKind"), ("life = -1", "T12 BadDelay"),
        ]:  # fmt: skip
            self.assertEqual(rule, self.first(figures), figures)


class Toml(unittest.TestCase):
    def value(self, text):
        try:
            return mplsnet.toml.read(text.encode())[0]
        except mplsnet.toml.NotToml:
            return None

    def test_reads_what_the_tests_of_the_reader_call_lawful(self):
        for text in [
            '"as" = 0x10\r\n# a comment\r\n\'notice_delay\' = +7',
            'node = [{\n  name = "\\x6E0", # the first\n  loopback = "192.0.2.1",\n}]',
            'a = """\n  x\\\n   y"""\nb = \'\'\'it\'s\'\'\'\nc = 1979-05-27 07:32\nd = 07:32',
            "a.b.c = 1\na.b.d = 2\n[e.f]\n[e]\ng = 1",
            "\ufeffas = 1",
        ]:
            self.assertIsNotNone(self.value(text), text)
        self.assertEqual({"a": "  xy", "b": "it's"}, self.value('a = """\n  x\\\n   y"""\nb = \'\'\'it\'s\'\'\''))

    def test_refuses(self):
        for text in [
            "a = 1\r", "a = 01", "a = 1__0", "a = _1", "a = 0x", "a = 1.", "a = .5", "a = 1e", "a = tru", "a = 2021-02-29", "a = 25:00", "a = 1 b = 2",
            "[a]\n[a]", "a = 1\n[a.b]", "[[a]]\n[a]", "[a]\n[[a]]", "a = []\n[[a]]", "a = {}\n[a.b]", "a.b = 1\n[a]", "[a.b]\n[a]\nb.c = 1", "[a] b", "[ [a] ]",
            'a = "\\z"', 'a = "\\ud800"', 'a = "\x07"', "# \x07", "a = '''", 'a = """""""""', "a = {b = 1,, }", "a = [1 2]", "a = 9223372036854775808", "a\n= 1",
        ]:  # fmt: skip
            self.assertIsNone(self.value(text), text)

    def test_is_one_with_tomllib_over_changed_texts(self):
        """But for what TOML 1.1 has beyond 1.0, and for what the program doesn't read: integers and numbers past 64 bits."""
        rng, sources = random.Random(1), [path.read_text() for path in sorted((ROOT / "examples").glob("*/topology.toml"))]
        same = 0
        for _ in range(1500):
            text = rng.choice(sources)[: rng.randrange(20, 400)]
            at = rng.randrange(len(text))
            text = text[:at] + rng.choice(["", '"', "'", "=", "[", "]", "[[", ".", "\n", "#", "1", "_", "{", "}", ",", "\\", "\r", " ", "a"]) + text[at + rng.randrange(3) :]
            try:
                wanted = tomllib.loads(text)
            except tomllib.TOMLDecodeError:
                wanted = None
            found = self.value(text)
            if found != wanted:
                self.assertTrue("{" in text, text)
            same += found == wanted
        self.assertLess(1400, same)


if __name__ == "__main__":
    unittest.main()
