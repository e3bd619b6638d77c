"""The schema takes the repository's topologies, and refuses a file for each rule that it can say.

Where the program is built (crates/mplsnet/out/mplsnet, or what MPLSNET names), each file is also given to its check,
which must name the rule.
"""

import json
import os
import re
import subprocess
import tempfile
import tomllib
import unittest
from pathlib import Path

ROOT = Path(__file__).resolve().parents[2]
SCHEMA = json.loads((ROOT / "tools/topology.schema.json").read_text())
PROGRAM = os.environ.get("MPLSNET", str(ROOT / "crates/mplsnet/out/mplsnet"))

# A small lawful network; each wrong file below is this one with one text changed, or a text added.
GOOD = """
as = 65000
notice_delay = 1
bgp_delay = 1000
[[node]]
name = "pe1"
loopback = "192.0.2.1"
[[node]]
name = "p"
loopback = "192.0.2.2"
[[link]]
a = "pe1"
b = "p"
cost = 65535
delay = 1000
loss = 0
life = 1000000
[[vrf]]
name = "red"
node = "pe1"
rd = "65000:4294967295"
import = ["65000:100", "192.0.2.1:65535"]
export = []
[[site]]
name = "a"
vrf = "red"
prefixes = ["10.1.0.0/16", "0.0.0.0/0", "10.2.0.1/32"]
"""

# Rule, what is wrong, what stands in the good file, and what stands there instead.
REFUSED = [
    ("T2 UnknownKey", "a key of the top that isn't listed", "as = 65000", "asn = 65000"),
    ("T2 UnknownKey", "a key of a node", 'name = "p"', 'name = "p"\nmtu = 1500'),
    ("T2 UnknownKey", "a key of a link", "loss = 0", "lost = 0"),
    ("T2 UnknownKey", "a key of a VRF", "export = []", "exports = []"),
    ("T2 UnknownKey", "a key of a site", "prefixes =", "prefix ="),
    ("T3 MissingKey", "a node without a loopback", 'loopback = "192.0.2.2"\n', ""),
    ("T3 MissingKey", "a link without an end", 'b = "p"\n', ""),
    ("T3 MissingKey", "a VRF without a distinguisher", 'rd = "65000:4294967295"\n', ""),
    ("T3 MissingKey", "a site without a VRF", 'vrf = "red"\n', ""),
    ("T4 WrongKind", "an AS number past its range", "as = 65000", "as = 65536"),
    ("T4 WrongKind", "an AS number of 0", "as = 65000", "as = 0"),
    ("T4 WrongKind", "a delay of notices of 0", "notice_delay = 1", "notice_delay = 0"),
    ("T4 WrongKind", "a delay of BGP past its range", "bgp_delay = 1000", "bgp_delay = 1001"),
    ("T4 WrongKind", "a boolean as a number", "bgp_delay = 1000", "resolve = 1"),
    ("T4 WrongKind", "a boolean as a text", "bgp_delay = 1000", 'resolve = "true"'),
    ("T4 WrongKind", "a number as a text", "as = 65000", 'as = "65000"'),
    ("T4 WrongKind", "a cost as a text", "cost = 65535", 'cost = "10"'),
    ("T4 WrongKind", "a name that is a number", 'name = "p"', "name = 7"),
    ("T4 WrongKind", "a target that is no array", "export = []", 'export = "65000:1"'),
    ("T4 WrongKind", "one table for an array of tables", '[[site]]\nname = "a"\nvrf = "red"', '[site]\nname = "a"\nvrf = "red"'),
    ("T4 WrongKind", "a loopback that is no address", "192.0.2.2", "192.0.2"),
    ("T4 WrongKind", "a loopback with a leading zero", "192.0.2.2", "192.0.2.02"),
    ("T4 WrongKind", "a loopback past 255", "192.0.2.2", "192.0.2.256"),
    ("T4 WrongKind", "a loopback in 0.0.0.0/8", "192.0.2.2", "0.0.2.2"),
    ("T4 WrongKind", "a loopback in 127.0.0.0/8", "192.0.2.2", "127.0.0.1"),
    ("T4 WrongKind", "a loopback in 224.0.0.0/4", "192.0.2.2", "224.0.0.5"),
    ("T4 WrongKind", "a loopback in 240.0.0.0/4", "192.0.2.2", "255.0.0.1"),
    ("T4 WrongKind", "a prefix without a length", "10.2.0.1/32", "10.2.0.1"),
    ("T4 WrongKind", "a prefix of length 33", "10.2.0.1/32", "10.2.0.1/33"),
    ("T5 BadName", "a name with a blank", 'name = "a"', 'name = "site a"'),
    ("T5 BadName", "an empty name", 'name = "a"', 'name = ""'),
    ("T5 BadName", "a name of 33 letters", 'name = "a"', f'name = "{"a" * 33}"'),
    ("T11 BadCost", "a cost of 0", "cost = 65535", "cost = 0"),
    ("T11 BadCost", "a cost past its range", "cost = 65535", "cost = 65536"),
    ("T12 BadDelay", "a delay of 0", "delay = 1000\nloss", "delay = 0\nloss"),
    ("T12 BadDelay", "a delay past its range", "delay = 1000\nloss", "delay = 1001\nloss"),
    ("T12 BadDelay", "a loss below 0", "loss = 0", "loss = -1"),
    ("T12 BadDelay", "a loss past its range", "loss = 0", "loss = 65536"),
    ("T12 BadDelay", "a life of 0", "life = 1000000", "life = 0"),
    ("T12 BadDelay", "a life past its range", "life = 1000000", "life = 1000001"),
    ("T4 WrongKind", "a life that is a text", "life = 1000000", 'life = "long"'),
    ("T14 BadTarget", "a distinguisher without a number", "65000:4294967295", "65000"),
    ("T14 BadTarget", "a distinguisher's number past its range", "65000:4294967295", "65000:4294967296"),
    ("T14 BadTarget", "a distinguisher's AS past its range", "65000:4294967295", "65536:1"),
    ("T14 BadTarget", "a number past its range after an address", "192.0.2.1:65535", "192.0.2.1:65536"),
    ("T14 BadTarget", "a target twice", "192.0.2.1:65535", "65000:100"),
    ("T14 BadTarget", "17 targets", "export = []", f"export = {[f'65000:{n}' for n in range(17)]}"),
    ("T15 PrefixTaken", "a prefix twice in one site", "10.2.0.1/32", "10.1.0.0/16"),
    ("T16 TooMany", "257 nodes", "[[link]]", "".join(f'[[node]]\nname = "n{n}"\nloopback = "10.0.{n % 255}.{n // 255}"\n' for n in range(255)) + "[[link]]"),
]

# What only the program can say: the schema takes these.
BEYOND = [
    ("T4 WrongKind", "a number with a fraction", "cost = 65535", "cost = 10.0"),
    ("T4 WrongKind", "a bit past a prefix's length", "10.1.0.0/16", "10.1.0.1/16"),
    ("T6 TwiceNamed", "a name twice", '[[link]]', '[[node]]\nname = "p"\nloopback = "192.0.2.3"\n[[link]]'),
    ("T7 NoSuchName", "a link to nothing", 'b = "p"', 'b = "q"'),
    ("T8 SelfLink", "a link of a node with itself", 'b = "p"', 'b = "pe1"'),
    ("T9 TwiceLinked", "two links of the same nodes", "[[vrf]]", '[[link]]\na = "p"\nb = "pe1"\n[[vrf]]'),
    ("T10 TwiceLoopback", "a loopback twice", "192.0.2.2", "192.0.2.1"),
    ("T13 TwiceRd", "a distinguisher twice", "[[site]]", '[[vrf]]\nname = "blue"\nnode = "p"\nrd = "65000:4294967295"\n[[site]]'),
    ("T15 PrefixTaken", "a prefix in two sites of a VRF", "[[site]]", '[[site]]\nname = "b"\nvrf = "red"\nprefixes = ["10.1.0.0/16"]\n[[site]]'),
]

KINDS = {"object": dict, "array": list, "string": str, "boolean": bool}
KNOWN = {
    "$schema", "$comment", "$ref", "title", "description", "default", "definitions", "type", "additionalProperties", "required",
    "properties", "items", "maxItems", "uniqueItems", "minimum", "maximum", "pattern",
}  # fmt: skip


def is_of(kind, value):
    """Whether the value is of the JSON type; a number such as 10.0 is an integer there."""
    if kind == "integer":
        return not isinstance(value, bool) and (isinstance(value, int) or isinstance(value, float) and value.is_integer())
    return isinstance(value, KINDS[kind])


def faults(schema, value, at="top"):
    """What a validator of JSON Schema says of the value, for the keywords in KNOWN."""
    assert set(schema) <= KNOWN, f"a keyword that this validator doesn't know: {set(schema) - KNOWN}"
    if "$ref" in schema:
        yield from faults(SCHEMA["definitions"][schema["$ref"].removeprefix("#/definitions/")], value, at)
        return
    if not is_of(schema["type"], value):
        yield f"{at}: not of type {schema['type']}"
        return
    if schema["type"] == "object":
        yield from (f"{at}: no '{key}'" for key in schema.get("required", []) if key not in value)
        for key, inner in value.items():
            if key in schema["properties"]:
                yield from faults(schema["properties"][key], inner, f"{at}.{key}")
            elif schema.get("additionalProperties") is False:
                yield f"{at}: '{key}' isn't listed"
    elif schema["type"] == "array":
        if len(value) > schema.get("maxItems", len(value)):
            yield f"{at}: more than {schema['maxItems']}"
        if schema.get("uniqueItems") and len(set(map(json.dumps, value))) < len(value):
            yield f"{at}: one stands twice"
        for number, inner in enumerate(value):
            yield from faults(schema["items"], inner, f"{at}[{number}]")
    elif schema["type"] == "integer":
        if not schema["minimum"] <= value <= schema["maximum"]:
            yield f"{at}: {value} isn't from {schema['minimum']} to {schema['maximum']}"
    elif "pattern" in schema and not re.search(schema["pattern"].removesuffix("$") + r"\Z", value):
        yield f"{at}: {value!r} isn't of its form"


def wrong(before, after):
    """The good file with a text changed."""
    assert GOOD.count(before) == 1, f"stands {GOOD.count(before)} times in the good file: {before!r}"
    return GOOD.replace(before, after)


def check(text):
    """What the built program says of the file: its status and line."""
    with tempfile.NamedTemporaryFile("w", suffix=".toml") as file:
        file.write(text)
        file.flush()
        ran = subprocess.run([PROGRAM, "check", file.name], capture_output=True, text=True)
    return ran.returncode, ran.stdout.strip()


class Schema(unittest.TestCase):
    def test_takes_the_topologies_of_the_repository(self):
        files = sorted([*ROOT.glob("examples/**/*.toml"), *ROOT.glob("crates/*/data/**/*.toml")])
        self.assertTrue(files)
        for file in files:
            with self.subTest(file.relative_to(ROOT)):
                self.assertEqual([], list(faults(SCHEMA, tomllib.loads(file.read_text()))))

    def test_takes_the_good_file_and_the_empty_one(self):
        for text in (GOOD, ""):
            self.assertEqual([], list(faults(SCHEMA, tomllib.loads(text))))

    def test_refuses_a_file_for_each_rule_that_it_can_say(self):
        for rule, what, before, after in REFUSED:
            with self.subTest(f"{rule}: {what}"):
                self.assertEqual(1, len(list(faults(SCHEMA, tomllib.loads(wrong(before, after))))))

    def test_takes_what_only_the_program_refuses(self):
        for rule, what, before, after in BEYOND:
            with self.subTest(f"{rule}: {what}"):
                self.assertEqual([], list(faults(SCHEMA, tomllib.loads(wrong(before, after)))))

    def test_says_which_rules_it_cannot(self):
        for rule in {rule.split()[0] for rule, *_ in BEYOND} | {"T1", "T16"}:
            self.assertRegex(SCHEMA["$comment"], rf"\b{rule}\b")

    @unittest.skipUnless(os.access(PROGRAM, os.X_OK), "the program isn't built")
    def test_is_one_with_the_program(self):
        self.assertEqual(0, check(GOOD)[0])
        for rule, what, before, after in REFUSED + BEYOND:
            with self.subTest(f"{rule}: {what}"):
                status, line = check(wrong(before, after))
                self.assertEqual(3, status)
                self.assertRegex(line, rf"^topology refused {rule} at ")


if __name__ == "__main__":
    unittest.main()
