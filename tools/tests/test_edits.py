"""Each must-fail edit and each wrong definition can be applied: its old text stands in its file exactly once, and no two edits are the same."""
import re
import unittest
from pathlib import Path

TOP = Path(__file__).resolve().parents[2]


def edits():
    for path in sorted([*TOP.glob("crates/*/must-fail/*.edit"), *TOP.glob("scripts/edits/*/*.edit")]):
        crate = path.parent.name if path.parent.name != "must-fail" else path.parents[1].name
        yield path, TOP / "crates" / crate
    for path in sorted(TOP.glob("scripts/definitions/*.edit")):
        yield path, TOP / "crates" / "mn_ledger"  # their files are named from its folder


def fault(path, crate):
    """Why the edit can't be applied, or nothing."""
    texts, source, old, changed = {}, None, None, False
    for line in path.read_text().splitlines():
        word, _, rest = line.partition(": ")
        if word == "file":
            source = crate / rest
            if not source.is_file():
                return f"there is no {source.relative_to(TOP)}"
            texts.setdefault(source, source.read_text())
        elif word == "old" and source:
            old = rest
            if texts[source].count(old) != 1:
                return f"old text stands {texts[source].count(old)} times"
        elif word == "new" and old is not None:
            texts[source] = texts[source].replace(old, rest)
            changed, old = True, None
        elif word != "crate" or path.parent.name != "definitions":
            return f"a line that isn't file, old or new: {line}"
    return "" if changed and any(text != path.read_text() for path, text in texts.items()) else "it changes nothing"


class Edits(unittest.TestCase):
    def test_each_applies(self):
        faults = [f"{path.relative_to(TOP)}: {why}" for path, crate in edits() if (why := fault(path, crate))]
        self.assertEqual([], faults)

    def test_none_stands_twice(self):
        seen, twice = {}, []
        for path, crate in edits():
            wrong = (crate, re.sub(r"[ ]+", " ", path.read_text().strip()))
            twice += [f"{path.name} is {seen[wrong]}"] if wrong in seen else []
            seen[wrong] = path.name
        self.assertEqual([], twice)

    def test_those_of_the_wrong_bodies_are_there(self):
        there = {f"{crate.name} {path.stem}" for path, crate in edits()}
        named = []
        for line in (TOP / "docs/PROVED.md").read_text().split("\n### Wrong bodies\n")[1].split("\n## ")[0].splitlines():
            for crate, names in re.findall(r"(mn_\w+) (`[^|]+?`)(?=, mn_| \|)", line):
                named += [f"{crate} {name}" for name in re.findall(r"`(\w+)`", names)]
        self.assertGreater(len(named), 20)
        self.assertEqual([], [name for name in named if name not in there])

    def test_there_are_some(self):
        self.assertGreater(len(list(edits())), 300)


if __name__ == "__main__":
    unittest.main()
