"""The vectors of LDP and BGP: each is read as it says, or refused by its rule at its byte; tshark decodes all that are read."""

import json
import re
import shutil
import struct
import subprocess
import sys
import tempfile
import unittest
from pathlib import Path

ROOT = Path(__file__).resolve().parents[2]
TOOL = ROOT / "tools/mplsnet-read"
sys.path.insert(0, str(ROOT / "tools"))
from mplsnet.wire import READERS, Refused  # noqa: E402

sys.path.pop(0)
FILES = {name: json.loads((ROOT / f"docs/vectors/{name}.json").read_text()) for name in ("ldp", "bgp", "bulk")}
VECTORS = {protocol: [one for vectors in FILES.values() for one in vectors if one["protocol"] == protocol] for protocol in READERS}
WIRE = (ROOT / "docs/WIRE.md").read_text()
ROWS = ROOT / "crates/mn_wire_rows/data"
PORTS = {"ldp": 646, "bgp": 179}
MORE = {"source", "expects", "status", "fatal", "reply", "revised", "profile", "framed", "besides"}
MARKER = b"\xff" * 16


def bytes_of(vector):
    return bytes.fromhex(vector["hex"])


def rules_of(protocol):
    """The rules of docs/WIRE.md by which a message is refused."""
    chapter = WIRE.split(f"\n## {protocol.upper()}\n")[1].split("\n## ")[0]
    if protocol == "bgp":
        chapter += WIRE.split("## What a route reflector adds")[1].split("\n## ")[0]
    return set(re.findall(r"^\| ([A-Z]\w+[a-z]\w*) \| ", chapter.split("### What is refused")[1], re.M)) - {"Refusal", "Part", "Wire", "NotUpdate"}


class Vectors(unittest.TestCase):
    def test_each_has_its_parts_and_a_name_of_its_own(self):
        for protocol, vectors in VECTORS.items():
            self.assertEqual(len(vectors), len({vector["name"] for vector in vectors}))
            for vector in vectors:
                with self.subTest(vector["name"]):
                    wanted = {"name", "protocol", "hex", "accept", "section"} | ({"says"} if "says" in vector else {"refused", "answer"})
                    self.assertEqual(wanted, set(vector) - MORE)
                    self.assertRegex(vector["section"], r"^RFC \d+, \d")

    def test_each_is_read_as_it_says_or_refused_by_its_rule_at_its_byte(self):
        for protocol, vectors in VECTORS.items():
            for vector in vectors:
                with self.subTest(f"{protocol}: {vector['name']}"):
                    try:
                        said, _ = READERS[protocol](bytes_of(vector))
                        self.assertEqual(vector.get("says"), said)
                    except Refused as refused:
                        self.assertEqual(vector.get("refused"), {"rule": refused.rule, "byte": refused.byte, "cause": refused.cause})
                        self.assertEqual(vector["answer"], refused.answer)
                        self.assertTrue(vector["section"].endswith(refused.section))

    def test_there_is_one_of_each_rule_and_of_each_message(self):
        for protocol, vectors in VECTORS.items():
            self.assertEqual(rules_of(protocol), {vector["refused"]["rule"] for vector in vectors if "refused" in vector})
        found = {message["message"] for vector in VECTORS["ldp"] if "says" in vector for message in vector["says"]["messages"]}
        self.assertEqual({"Notification", "Initialization", "KeepAlive", "Address", "Mapping", "Withdraw", "Release"}, found)
        self.assertEqual({"OPEN", "UPDATE", "NOTIFICATION", "KEEPALIVE"}, {vector["says"]["message"] for vector in VECTORS["bgp"] if "says" in vector})

    def test_what_a_router_answers_is_that_of_the_tables(self):
        codes = {protocol: WIRE.split(f"\n## {protocol.upper()}\n")[1].split("\n## ")[0] for protocol in VECTORS}
        for protocol, vectors in VECTORS.items():
            for vector in vectors:
                code = re.match(r"[0-9A-F]{8}|\d/\d", vector.get("answer", ""))
                if code:
                    self.assertIn(f"{code[0]} ", codes[protocol] + WIRE.split("## Routes and targets")[1].split("## BGP")[0], vector["name"])

    def test_each_front_of_what_is_read_is_refused(self):
        for protocol, least in (("ldp", 10), ("bgp", 19)):
            for vector in VECTORS[protocol]:
                for end in range(len(bytes_of(vector))) if "says" in vector else ():
                    with self.assertRaises(Refused) as caught:
                        READERS[protocol](bytes_of(vector)[:end])
                    self.assertEqual("Short" if end < least else {"ldp": "BadPduLength", "bgp": "BadLength"}[protocol], caught.exception.rule)

    @unittest.skipUnless(ROWS.is_dir(), "the layer's rows aren't there")
    def test_each_row_of_the_layer_has_its_vector(self):
        for protocol in READERS:
            vectors = {vector["hex"]: vector for vector in VECTORS[protocol]}
            for file in (ROWS / f"{protocol}.rows", ROWS / f"{protocol}-frr.rows"):
                for line in file.read_text().splitlines():
                    row = re.fullmatch(rf"{protocol} read (.*) -> (.*)", line)
                    hexadecimal = spelled(row[1]).hex().upper() if row else ""
                    if row and len(hexadecimal) <= 600 and not hexadecimal.endswith(ODD):
                        vector = vectors.get(hexadecimal)
                        self.assertIsNotNone(vector, line)
                        self.assertEqual(vector["refused"]["rule"] if "refused" in vector else None, row[2] if row[2] in rules_of(protocol) else None, line)

    @unittest.skipUnless(shutil.which("tshark"), "tshark isn't installed")
    def test_tshark_finds_nothing_malformed_in_what_is_read(self):
        for protocol, vectors in VECTORS.items():
            read = [vector for vector in vectors if "says" in vector]
            with tempfile.TemporaryDirectory() as folder:
                capture = Path(folder) / "vectors.pcap"
                capture.write_bytes(captured(PORTS[protocol], map(bytes_of, read)))
                words = ["tshark", "-n", "-r", capture, "-T", "fields", "-E", "occurrence=a"]
                for name in ("_ws.malformed", "_ws.expert.severity", "_ws.expert.message", f"{protocol}.{'msg.type' if protocol == 'ldp' else 'type'}"):
                    words += ["-e", name]
                ran = subprocess.run(words, capture_output=True, text=True)
            self.assertEqual(0, ran.returncode, ran.stderr)
            lines = ran.stdout.splitlines()
            self.assertEqual(len(read), len(lines))
            for vector, line in zip(read, lines):
                with self.subTest(f"{protocol}: {vector['name']}"):
                    malformed, severity, message, kinds = line.split("\t")
                    self.assertEqual("", malformed, message)
                    self.assertTrue(all(int(one, 0) < ERROR for one in severity.split(",") if one), message)
                    self.assertGreaterEqual(len(kinds.split(",")), len(vector["says"].get("messages", [1])))


ERROR = 0x800000  # a severity of tshark's
# Rows of the layer that it reads although tshark calls what it passes over malformed: no examples for a router, so others like them stand in their place.
ODD = ("8300000400000000" "8200000400000002", "080206020400010080", "09020701050001008000", "0A02084000010400010080", "0EFF00020002084100010400010080", "1001000107")


def spelled(words):
    """The bytes of a row: hexadecimal digits, each with how often they stand; `body TYPE`, and `update`, for a message of BGP around them."""
    kind, *rest = words.split()
    if kind == "update":
        attributes = digits(rest)
        return message(2, b"\0\0" + struct.pack(">H", len(attributes)) + attributes)
    return message(int(rest[0]), digits(rest[1:])) if kind == "body" else digits(words.split())


def digits(words):
    parts = []
    for word in words:
        if word.startswith("*"):
            parts[-1] *= int(word[1:])
        elif word != "-":
            parts.append(bytes.fromhex(word))
    return b"".join(parts)


def message(kind, body):
    return MARKER + struct.pack(">HB", 19 + len(body), kind) + body


def captured(port, messages):
    """A capture with one TCP segment for each message, each of a conversation of its own."""
    records = [struct.pack("<IHHiIII", 0xA1B2C3D4, 2, 4, 0, 0, 0x40000, 228)]
    for number, data in enumerate(messages):
        tcp = struct.pack(">HHIIBBHHH", 40000 + number, port, 1, 1, 0x50, 0x18, 0xFFFF, 0, 0) + data
        packet = struct.pack(">BBHHHBBH4s4s", 0x45, 0, 20 + len(tcp), 0, 0x4000, 64, 6, 0, b"\xc0\0\2\2", b"\xc0\0\2\1") + tcp
        records.append(struct.pack("<4I", number, 0, len(packet), len(packet)) + packet)
    return b"".join(records)


class Read(unittest.TestCase):
    def run_tool(self, *words, **more):
        return subprocess.run([sys.executable, TOOL, *map(str, words)], capture_output=True, text=True, **more)

    def test_the_streams_of_a_run(self):
        expected = ROOT / "examples/two-links/expected"
        ran = self.run_tool("ldp", expected / "pe1+p.ldp")
        self.assertEqual((0, ""), (ran.returncode, ran.stderr))
        self.assertIn("byte 82: PDU of 38 bytes from 192.0.2.1:0\n  4 Mapping prefix 192.0.2.1/32, label 3\n", ran.stdout)
        ran = self.run_tool("bgp", expected / "pe1+pe2.bgp")
        self.assertIn("announced 65000:1 10.1.0.0/16 16, withdrawn none, targets 65000:100", ran.stdout)
        for run in sorted(ROOT.glob("examples/*/expected")):
            for protocol in READERS:
                for file in sorted(run.glob(f"*.{protocol}"))[:2]:
                    self.assertEqual(0, self.run_tool(protocol, file).returncode, file)

    def test_a_refusal_is_told_with_its_byte_in_the_file_and_what_a_router_answers(self):
        good, bad = (bytes_of(next(one for one in VECTORS["ldp"] if one["name"] == name)) for name in ("a KeepAlive as mplsnet writes it", "label 2"))
        ran = self.run_tool("--hex", "ldp", "-", input=good.hex(" ") + "\n" + bad.hex())
        self.assertEqual(1, ran.returncode)
        self.assertIn(f"byte {len(good)}: PDU refused BadTlv at byte {len(good) + 34}: label 2\n  a router answers: 00000008 Malformed TLV Value, fatal (RFC 5036, 3.4.2.1)\n", ran.stdout)
        told = json.loads(self.run_tool("--hex", "--json", "ldp", "-", input=good.hex() + bad.hex()).stdout)
        self.assertEqual([{"id": 2, "message": "KeepAlive"}], told[0]["says"]["messages"])
        self.assertEqual(("BadTlv", len(good) + 34), (told[1]["refused"]["rule"], told[1]["refused"]["byte"]))

    def test_every_vector_as_a_file(self):
        for protocol, vectors in VECTORS.items():
            for vector in vectors[:: len(vectors) // 6]:
                ran = self.run_tool("--hex", protocol, "-", input=vector["hex"])
                self.assertEqual((int("refused" in vector and bool(vector["hex"])), ""), (ran.returncode, ran.stderr), vector["name"])

    def test_wrong_words_and_files(self):
        for status, said, words in ((2, "usage:", []), (2, "invalid choice: 'rip'", ["rip", TOOL]), (1, "nothing: No such file", ["ldp", "nothing"]), (1, "not pairs of hexadecimal digits", ["--hex", "bgp", TOOL])):
            ran = self.run_tool(*words)
            self.assertEqual((status, ""), (ran.returncode, ran.stdout))
            self.assertIn(said, ran.stderr)
            self.assertNotIn("Traceback", ran.stderr)


if __name__ == "__main__":
    unittest.main()
