"""What the vectors say of a router's answer holds together, the sessions go by the tables of docs/WIRE.md, and the runners read every vector."""

import json
import re
import shutil
import subprocess
import sys
import tempfile
import unittest
from pathlib import Path

ROOT = Path(__file__).resolve().parents[2]
FOLDER = ROOT / "docs/vectors"
sys.path.insert(0, str(ROOT / "tools"))
from mplsnet.wire import READERS, Refused  # noqa: E402

sys.path.pop(0)
NAMES = ("ldp", "bgp", "bulk", "sessions")
FILES = {name: json.loads((FOLDER / f"{name}.json").read_text()) for name in NAMES}
VECTORS = [vector for name in NAMES[:3] for vector in FILES[name]]
SESSIONS = FILES["sessions"]
WIRE = (ROOT / "docs/WIRE.md").read_text()
ROWS = ROOT / "crates/mn_wire_rows/data"
ENDED = {"ldp": "NON EXISTENT", "bgp": "Idle"}
TAKEN = re.compile("nothing: (it takes|it says|no VRF|the bits)|nothing in a Withdraw or Release: it takes")


def read(protocol, digits):
    """What the bytes say, or the rule by which they are refused."""
    try:
        return READERS[protocol](bytes.fromhex(digits))[0], None
    except Refused as refused:
        return None, refused.rule


def kind_of(protocol, digits):
    """The name of the one message in the bytes."""
    kinds = {"0001": "Notification", "0200": "Initialization", "0201": "KeepAlive", "0300": "Address", "0400": "Mapping", "0402": "Withdraw", "0403": "Release"}
    names = {"01": "OPEN", "02": "UPDATE", "03": "NOTIFICATION", "04": "KEEPALIVE"}
    return kinds[digits[20:24]] if protocol == "ldp" else names[digits[36:38]]


class Answers(unittest.TestCase):
    def test_the_words_and_the_fields_say_the_same(self):
        for vector in VECTORS:
            with self.subTest(vector["name"]):
                answer, status = vector.get("answer", ""), vector.get("status")
                if "besides" in vector or "expects" in vector or "says" in vector:
                    self.assertTrue(vector["accept"] or status)
                elif status:
                    fatal = ", fatal" if vector["protocol"] == "ldp" and vector["fatal"] else ""
                    self.assertEqual(f"{status['code']} {status['name']}{fatal}", answer.split(";")[0])
                elif vector["accept"]:
                    self.assertRegex(answer, TAKEN)
                else:
                    self.assertRegex(answer, "it waits|comes by UDP|in a Mapping it may not stand")

    def test_what_differs_from_this_profile_says_so(self):
        for vector in VECTORS:
            with self.subTest(vector["name"]):
                taken = "says" in vector and "expects" not in vector
                self.assertTrue("profile" in vector or taken == vector["accept"] or "expects" in vector)
                if "profile" in vector:
                    self.assertEqual("says" in vector, vector["profile"].startswith("takes it"))
                    self.assertNotEqual("says" in vector, vector["accept"])

    def test_the_reply_is_read_as_the_status_about_the_message_at_fault(self):
        for vector in (one for one in VECTORS if "reply" in one):
            with self.subTest(vector["name"]):
                said, _ = read(vector["protocol"], vector["reply"])
                if vector["protocol"] == "ldp":
                    self.ldp_reply(vector, said)
                else:
                    self.assertEqual(vector["status"]["code"], f"{said['code']}/{said['subcode']}")
                    self.bgp_data(vector, bytes.fromhex(vector["reply"])[21:])

    def ldp_reply(self, vector, said):
        (message,), code = said["messages"], int(vector["status"]["code"], 16) | (1 << 31) * vector["fatal"]
        self.assertEqual(("192.0.2.1", "Notification", f"{code:08X}"), (said["lsr"], message["message"], message["status"]))
        whole = "says" not in vector and vector["status"]["code"] in ("00000002", "00000003") or vector["status"]["code"] == "00000001"
        header = message["kind"] + "|" + f"{message['about']:08X}"
        if whole or "bytes are left for a message" in vector.get("refused", {"cause": ""})["cause"]:
            self.assertEqual("0000|00000000", header)
        else:
            self.assertRegex(vector["hex"], f"{message['kind']}....{message['about']:08X}")

    def bgp_data(self, vector, data):
        """What RFC 4271, section 6, has behind the subcode."""
        code, sent = vector["status"]["code"], bytes.fromhex(vector["hex"])
        wanted = {"1/2": sent[16:18], "1/3": sent[18:19], "2/1": b"\0\4", "2/7": b"\1\4\0\1\0\x80"}.get(code, b"")
        if code in ("3/2", "3/4", "3/5", "3/6", "3/9"):
            at = sent.index(data, 23)
            self.assertEqual(len(data), 3 + data[2])
            self.assertTrue("refused" not in vector or at <= vector["refused"]["byte"] <= at + len(data), vector["name"])
        elif code == "3/3":
            self.assertIn(data, (b"\1", b"\2", b"\5"))
        else:
            self.assertEqual(wanted, data)
        self.assertEqual(code.startswith("3/"), "revised" in vector)

    @unittest.skipUnless(ROWS.is_dir(), "the layer's rows aren't there")
    def test_what_a_reflector_adds_is_refused_as_by_the_layer(self):
        marks = {vector["hex"][46:]: (vector.get("refused") or {"rule": None})["rule"] for vector in VECTORS if "80090" in vector["hex"] or "800A" in vector["hex"]}
        found = 0
        for row in re.findall(r"^reflected read update (.*) -> (\w+)", (ROWS / "reflected.rows").read_text(), re.M):
            digits = row[0].replace(" ", "")
            if digits in marks:
                found += 1
                self.assertEqual(marks[digits], row[1] if row[1] != "Update" else None)
        self.assertGreaterEqual(found, 3)


class Sessions(unittest.TestCase):
    def test_each_state_is_that_of_the_tables(self):
        rows = re.findall(r"^\| (\w+) \| ([\w, ]+) \| .* \| (\w+) \|$", WIRE.split("\n## Sessions\n")[1], re.M)
        then = {(state, message): after for state, messages, after in rows for message in messages.split(", ")}
        for session in SESSIONS:
            states = dict(session["begin"])
            for step in session["steps"]:
                with self.subTest(session["name"], hex=step["hex"]):
                    self.assertEqual(step["message"], kind_of(step["protocol"], step["hex"]))
                    ends = not step["accept"] or step["message"].upper() == "NOTIFICATION"
                    self.assertEqual(step["then"], ENDED[step["protocol"]] if ends else then[states[step["to"]], step["message"]])
                    states[step["to"]] = step["then"]

    def test_each_message_is_read_but_what_ends_a_session_by_its_bytes(self):
        for session in SESSIONS:
            for step in session["steps"]:
                with self.subTest(session["name"], hex=step["hex"]):
                    said, rule = read(step["protocol"], step["hex"])
                    by_bytes = not step["accept"] and step["status"]["code"] in ("00000008", "2/1", "3/1")
                    self.assertEqual(by_bytes, said is None, rule)
                    if said and step["protocol"] == "ldp":
                        self.assertEqual(step["from"], said["lsr"])

    def test_what_is_refused_is_answered_in_the_next_step(self):
        for session in SESSIONS:
            for step, reply in zip(session["steps"], session["steps"][1:]):
                if not step["accept"]:
                    said, _ = read(step["protocol"], reply["hex"])
                    self.assertEqual((step["to"], step["from"]), (reply["from"], reply["to"]))
                    told = f"{said['code']}/{said['subcode']}" if "code" in said else f"{int(said['messages'][0]['status'], 16) & 0x3FFFFFFF:08X}"
                    self.assertEqual(step["status"]["code"], told)

    def test_opening_mapping_and_announcements_are_what_the_program_sends(self):
        for protocol, names in (("ldp", ("opens: ", "mappings")), ("bgp", ("session opens", "both directions"))):
            steps = [step for one in SESSIONS if one["protocol"] == protocol and any(name in one["name"] for name in names) for step in one["steps"]]
            ends = {"192.0.2.1": "pe1+p.ldp", "192.0.2.2": "p+pe1.ldp"} if protocol == "ldp" else {"192.0.2.1": "pe1+pe2.bgp", "192.0.2.3": "pe2+pe1.bgp"}
            for end, file in ends.items():
                sent = "".join(step["hex"] for step in steps if step["from"] == end)
                run = (ROOT / "examples/two-links/expected" / file).read_bytes().hex().upper()
                self.assertTrue(sent.startswith(run) or run.startswith(sent), end)
                self.assertGreater(min(len(sent), len(run)), 150)

    @unittest.skipUnless(ROWS.is_dir(), "the layer's rows aren't there")
    def test_an_open_is_taken_or_refused_as_by_the_layer(self):
        rows = dict(re.findall(r"^peer open -> OpenSent\npeer hear body 1 (.*) -> (\w+)", (ROWS / "peers.rows").read_text(), re.M))
        rows = {body.replace(" ", ""): told for body, told in rows.items()}
        opens = {step["hex"][38:]: step for one in SESSIONS for step in one["steps"] if step["message"] == "OPEN" and step["to"] == "192.0.2.3"}
        self.assertGreaterEqual(len(set(rows) & set(opens)), 4)
        for body in set(rows) & set(opens):
            self.assertEqual("keep" if opens[body]["accept"] else "BadPeer", rows[body], body)


class Schema(unittest.TestCase):
    @unittest.skipUnless(__import__("importlib.util").util.find_spec("jsonschema"), "jsonschema isn't installed")
    def test_it_takes_the_files_and_refuses_others(self):
        import jsonschema

        schema = json.loads((FOLDER / "schema.json").read_text())
        jsonschema.Draft202012Validator.check_schema(schema)
        valid = jsonschema.Draft202012Validator(schema).is_valid
        for name, entries in FILES.items():
            self.assertTrue(valid(entries), name)
        first = next(one for one in VECTORS if "status" in one)
        wrong = [{key: value for key, value in first.items() if key != gone} for gone in ("accept", "hex", "protocol", "reply", "refused", "section")]
        wrong += [first | more for more in ({"accept": True}, {"hex": "F"}, {"protocol": "rip"}, {"more": 1}, {"revised": "ignored"})]
        for one in wrong:
            self.assertFalse(valid([one]), one)
        self.assertFalse(valid([SESSIONS[0] | {"steps": []}]))


class Runners(unittest.TestCase):
    def commands(self, folder):
        """Each runner whose language is there."""
        yield [sys.executable, "-B", FOLDER / "runners/vectors.py"]
        if shutil.which("rustc"):
            made = subprocess.run(["rustc", "-o", folder / "vectors", FOLDER / "runners/vectors.rs"], capture_output=True, text=True)
            self.assertEqual((0, ""), (made.returncode, made.stderr))
            yield [folder / "vectors"]
        if shutil.which("go"):
            yield ["go", "run", FOLDER / "runners/vectors.go"]

    def test_each_reads_every_vector_and_tells_one_that_is_otherwise(self):
        counts = [sum(len(entry.get("steps", [0])) for entry in FILES[name]) for name in NAMES]
        with tempfile.TemporaryDirectory() as name:
            folder = Path(name)
            for one in NAMES:
                text = (FOLDER / f"{one}.json").read_text()
                (folder / f"{one}.json").write_text(text.replace('"code": "00000002"', '"code": "00000003"', 1) if one == "ldp" else text)
            for words in self.commands(folder):
                with self.subTest(words[-1]):
                    ran = subprocess.run([*words, FOLDER], capture_output=True, text=True)
                    self.assertEqual((0, ""), (ran.returncode, ran.stderr))
                    self.assertEqual(counts, [int(count) for count in re.findall(r"(\d+) vectors", ran.stdout)])
                    ran = subprocess.run([*words, folder], capture_output=True, text=True)
                    self.assertEqual(1, ran.returncode)
                    self.assertIn("ldp: version 2", ran.stdout.replace("ldp version 2", "ldp: version 2"))

    def test_each_has_at_most_60_lines(self):
        for file in (FOLDER / "runners").iterdir():
            self.assertLessEqual(len(file.read_text().splitlines()), 60, file)


if __name__ == "__main__":
    unittest.main()
