"""The capture of a whole run: its TCP streams are the run's files, its frames are the links', and all stands in order."""

import io
import shutil
import struct
import subprocess
import sys
import tempfile
import unittest
from contextlib import redirect_stderr
from importlib.machinery import SourceFileLoader
from importlib.util import module_from_spec, spec_from_loader
from pathlib import Path

from provider import made

ROOT = Path(__file__).resolve().parents[2]
TOOL = ROOT / "tools/mplsnet-wireshark"
DECODE = ROOT / "tools/mplsnet-decode"
LINKS = ROOT / "examples/two-links"
RUNS = sorted(file.parent for file in ROOT.glob("examples/*/expected/journal.txt"))
FIN, SYN, RST, ACK = 1, 2, 4, 16


def records(content):
    """The records of a capture of Ethernet: microseconds and bytes."""
    assert content[:24] == struct.pack("<IHHiIII", 0xA1B2C3D4, 2, 4, 0, 0, 0x40000, 1)
    at = 24
    while at < len(content):
        seconds, micros, size, whole = struct.unpack_from("<4I", content, at)
        assert size == whole
        yield seconds * 1000000 + micros, content[at + 16 : at + 16 + size]
        at += 16 + size


def total(data):
    """The one's complement sum of 16-bit words."""
    data += b"\0" * (len(data) % 2)
    found = sum(struct.unpack(f">{len(data) // 2}H", data))
    while found > 0xFFFF:
        found = found % 0x10000 + found // 0x10000
    return found


def dotted(address):
    return ".".join(map(str, address))


class Stream:
    """One direction of a TCP conversation: what was sent, and how much of it the other end has acknowledged."""

    def __init__(self):
        self.next = self.acknowledged = None
        self.data = b""


class Capture:
    """What a reader sees: of each conversation its two streams, the MPLS frames and other packets, in order."""

    def __init__(self, content):
        self.streams, self.order, self.frames, self.packets = {}, [], [], []
        last = 0
        for micros, frame in records(content):
            assert micros >= last
            last = micros
            ends, kind, rest = frame[:12], frame[12:14], frame[14:]
            if kind == b"\x88\x47":
                self.frames.append((micros, ends[11], ends[5], rest))
            elif ends[:6] == b"\2\0\0\0\xff\xff":
                self.packets.append((micros, ends[11], rest))
            else:
                self.segment(rest)

    def segment(self, packet):
        assert packet[0] == 0x45 and len(packet) == int.from_bytes(packet[2:4], "big")
        assert total(packet[:20]) == 0xFFFF
        addresses, tcp = packet[12:20], packet[20:]
        assert total(addresses + struct.pack(">HH", 6, len(tcp)) + tcp) == 0xFFFF
        start, end, sequence, acknowledged, size, flags = struct.unpack_from(">HHIIBB", tcp)
        data = tcp[size // 16 * 4 :]
        key, back = (addresses[:4], start, addresses[4:], end), (addresses[4:], end, addresses[:4], start)
        if flags & SYN:
            assert key not in self.streams and not data
            self.streams[key] = Stream()
            self.streams[key].next = sequence + 1
        stream = self.streams[key]
        assert sequence + bool(flags & SYN) == stream.next, "nothing is left out or sent twice"
        stream.next += len(data)
        stream.data += data
        if flags & ACK:
            assert (stream.acknowledged or 0) <= acknowledged <= self.streams[back].next, "only what was sent is acknowledged"
            stream.acknowledged = acknowledged
        else:
            assert flags == SYN
        self.order.append((key, flags, data))

    def said(self, port):
        """Of each two addresses what the first said to the second on the port, over all conversations."""
        found = {}
        for (start, one, end, other), stream in self.streams.items():
            if port in (one, other):
                found[dotted(start), dotted(end)] = found.get((dotted(start), dotted(end)), b"") + stream.data
        return found


class Wireshark(unittest.TestCase):
    def setUp(self):
        self.folder = Path(tempfile.mkdtemp())
        self.addCleanup(shutil.rmtree, self.folder)
        self.out = self.folder / "all.pcap"

    def run_tool(self, *words, tool=TOOL, **more):
        return subprocess.run([sys.executable, tool, *map(str, words)], capture_output=True, text=True, **more)

    def made(self, run, *words):
        ran = self.run_tool(run, self.out, *words)
        self.assertEqual((0, "", ""), (ran.returncode, ran.stdout, ran.stderr))
        return Capture(self.out.read_bytes())

    def refused(self, status, said, *words):
        ran = self.run_tool(*words)
        self.assertEqual((status, ""), (ran.returncode, ran.stdout))
        self.assertIn(said, ran.stderr)
        self.assertNotIn("Traceback", ran.stderr)

    def copy(self, **changed):
        """The run over two links, with files changed: a name's '_' stands for '+', and its '__' for '.'."""
        place = self.folder / "run"
        shutil.copytree(LINKS / "expected", place, dirs_exist_ok=True)
        for name, content in changed.items():
            name = name.replace("__", ".").replace("_", "+")
            (place / name).write_bytes(content) if content is not None else (place / name).unlink()
        return place

    def test_every_run_of_the_examples(self):
        self.assertIn(LINKS / "expected", RUNS)
        for run in RUNS:
            with self.subTest(run.relative_to(ROOT)):
                capture = self.made(run, "--topology", run.parent / "topology.toml")
                self.assert_has_the_files_of(capture, run)

    def assert_has_the_files_of(self, capture, run):
        """Its streams, frames and deliveries are the run's."""
        address = {}
        for file in run.glob("*+*.ldp"):
            speaker, hearer = file.stem.split("+")
            if file.stat().st_size:
                address[speaker] = dotted(file.read_bytes()[4:8])
        for port, ending in ((646, "ldp"), (179, "bgp")):
            said = capture.said(port)
            files = {file.stem: file.read_bytes() for file in run.glob(f"*+*.{ending}") if file.stat().st_size}
            self.assertEqual(sorted(files.values()), sorted(data for data in said.values() if data))
            for ends, content in files.items():
                speaker, hearer = ends.split("+")
                if speaker in address and hearer in address:
                    self.assertEqual(content, said[address[speaker], address[hearer]])
        link_frames = [record[18:] for file in run.glob("*+*.pcap") for record in self.records_of(file)]
        self.assertEqual(sorted(link_frames), sorted(frame for *_, frame in capture.frames))
        self.assertEqual([record[16:] for record in self.records_of(run / "delivered.pcap")], [packet for *_, packet in capture.packets])

    def records_of(self, file):
        """The records of one of the run's captures, each with its header of 16 bytes."""
        content, at = file.read_bytes(), 24
        while at < len(content):
            size = 16 + int.from_bytes(content[at + 8 : at + 12], "little")
            yield content[at : at + size]
            at += size

    def test_the_run_over_two_links(self):
        capture = self.made(LINKS / "expected")
        self.assertEqual(6, len(capture.streams))
        opened = [(dotted(key[0]), dotted(key[2]), key[3]) for key, flags, _ in capture.order if flags == SYN]
        self.assertEqual([("192.0.2.2", "192.0.2.1", 646), ("192.0.2.3", "192.0.2.2", 646), ("192.0.2.3", "192.0.2.1", 179)], opened)
        first, second = capture.frames
        self.assertEqual((69, 1, 2), first[:3])
        self.assertEqual((2000, 2, 3), second[:3])
        self.assertEqual("0001003f0001013f4500", first[3][:10].hex())
        self.assertEqual("0001013e4500", second[3][:6].hex())
        self.assertEqual([(4000, 3, 61)], [(when, node, packet[8]) for when, node, packet in capture.packets])

    def test_an_answer_stands_behind_what_it_answers(self):
        # A KeepAlive of LDP answers an Initialization, and one of BGP an OPEN.
        said = [(key, data) for key, _, data in self.made(LINKS / "expected").order if data]
        for at, (key, data) in enumerate(said):
            back = key[2:] + key[:2]
            if data[:2] == b"\0\1" and data[10:12] == b"\2\1":
                self.assertIn((back, b"\2\0"), [(one, other[10:12]) for one, other in said[:at]])
            elif data[0] == 255 and data[18] == 4:
                self.assertIn((back, 1), [(one, other[18]) for one, other in said[:at]])

    def test_sessions_that_end_and_what_nobody_hears(self):
        # p opens. Its first Initialization is heard and answered, the link goes down under the answers, and comes up again.
        opened, answers = [(LINKS / f"expected/{ends}.ldp").read_bytes() for ends in ("p+pe1", "pe1+p")]
        run = self.copy(
            journal__txt=b"0 link up pe1 p\n1 hear ldp p pe1\n2 link down pe1 p\n3 link up pe1 p\n", labels__txt=b"pe1 16 site a 1\npe2 16 site b 1\n",
            p_pe1__ldp=opened[:36] * 2, pe1_p__ldp=answers[:54], pe2_p__ldp=b"", p_pe2__ldp=b"", pe1_pe2__bgp=b"", pe2_pe1__bgp=b"",
            pe1_p__pcap=(LINKS / "expected/pe1+p.pcap").read_bytes()[:24], p_pe2__pcap=(LINKS / "expected/p+pe2.pcap").read_bytes()[:24],
            delivered__pcap=(LINKS / "expected/delivered.pcap").read_bytes()[:24], report__txt=None,
        )  # fmt: skip
        capture = self.made(run)
        by_port = {(key[1], key[3]): stream for key, stream in capture.streams.items()}
        self.assertEqual({(49152, 646): 36, (646, 49152): 54, (49153, 646): 36, (646, 49153): 0}, {key: len(one.data) for key, one in by_port.items()})
        self.assertEqual(1 + 36, by_port[646, 49152].acknowledged - 0x10000000, "pe1 heard p")
        self.assertEqual(1, by_port[49152, 646].acknowledged - 0x20000000, "p heard nothing")
        self.assertEqual([(49152, 646)], [(key[1], key[3]) for key, flags, _ in capture.order if flags & RST])
        self.assertEqual(b"\2\0", capture.order[-1][2][10:12], "what flies as the run ends stands last")

    def test_the_way_of_a_frame_without_a_report(self):
        # One link, and both sites' labels are 16: that the first packet was dropped shows only as the frame is carried.
        run = self.folder / "one-link"
        run.mkdir()
        header = struct.pack("<IHHiII", 0xA1B2C3D4, 2, 4, 0, 0, 0x40000)
        packet = (LINKS / "capture.pcap").read_bytes()[-28:]
        frame = b"\2\x81" + struct.pack(">I", 16 << 12 | 1 << 8 | 63) + packet
        files = {
            "journal.txt": b"5 inject a 1\n5 inject b 1\n7 carry pe2 pe1 0\n",
            "labels.txt": b"pe1 16 site a 1\npe2 16 site b 1\n",
            "pe1+pe2.pcap": header + b"\x09\0\0\0" + struct.pack("<4I", 0, 5000, len(frame), len(frame)) + frame,
            "delivered.pcap": header + b"\xe4\0\0\0",
        }
        for name, content in files.items():
            (run / name).write_bytes(content)
        self.assertEqual([(5000, 2, 1)], [frame[:3] for frame in self.made(run).frames])
        (run / "journal.txt").write_bytes(files["journal.txt"].replace(b"carry pe2 pe1", b"carry pe1 pe2"))
        self.assertEqual([(5000, 1, 2)], [frame[:3] for frame in self.made(run).frames])
        (run / "journal.txt").write_bytes(b"5 inject a 1\n6 inject a 1\n7 carry pe1 pe2 1\n")
        self.refused(1, "journal.txt: line 2: this step fits no frame of the links' captures (the report would help)", run, self.out)

    def test_which_frames_are_overdue(self):
        """By the lives of links where the topology is there; else as the report and the steps that follow have it."""
        sys.path.insert(0, str(TOOL.parent))
        self.addCleanup(sys.path.remove, str(TOOL.parent))
        from mplsnet.files import lives_of, read_report, read_run, read_topology
        from mplsnet.replay import Frames

        late = ROOT / "examples/late"
        ways, lives = read_report(late / "expected/report.txt")[1], lives_of(read_topology(late / "topology.toml"))
        self.assertEqual({("pe1", "p"): 10, ("p", "pe2"): 3}, lives)
        for known, overdue in (((ways, lives), [[], [2], [4]]), ((None, lives), [[], [2], [4]]), ((ways, None), [[], [2], [4]]), ((None, None), [[], [2], []])):
            moves = Frames(read_run(late / "expected"), *known).found()
            self.assertEqual(overdue, [[flight.packet for flight in move.took] for move in moves if move.words[0] == "tick"])

    def test_a_provider_with_and_without_its_report(self):
        # Links go down and come up: each time all packets go another way, and frames that fly are cut.
        made(self.folder, 4, 8, failures=6)
        capture = self.made(self.folder / "run", "--topology", self.folder / "topology.toml")
        self.assert_has_the_files_of(capture, self.folder / "run")
        (self.folder / "run/report.txt").unlink()
        self.assert_has_the_files_of(self.made(self.folder / "run"), self.folder / "run")

    def test_a_long_run_is_told_of(self):
        loader = SourceFileLoader("mplsnet_wireshark", str(TOOL))
        tool = module_from_spec(spec_from_loader("mplsnet_wireshark", loader))
        sys.path.insert(0, str(TOOL.parent))
        self.addCleanup(sys.path.remove, str(TOOL.parent))
        loader.exec_module(tool)
        for steps, wanted in ((99_999, []), (250_000, ["250000 steps: what each hears", "100000 of 250000 steps written", "200000 of 250000 steps written"])):
            said = io.StringIO()
            with redirect_stderr(said):
                progress = tool.Progress(steps)
                progress.tell("what each hears")
                for step in range(steps):
                    progress.at(step)
            self.assertEqual([f"mplsnet-wireshark: {line}" for line in wanted], said.getvalue().splitlines())

    def test_steps_of_kinds_that_are_not_known_are_passed_over(self):
        journal = (LINKS / "expected/journal.txt").read_bytes()
        first, rest = journal.split(b"\n", 1)
        capture = self.made(self.copy(journal__txt=first + b"\n0 wait 7\n0 spoil ldp pe1 p 3\n" + rest))
        self.assert_has_the_files_of(capture, self.folder / "run")

    def test_wrong_words(self):
        self.refused(2, "usage:")
        self.refused(2, "usage:", LINKS / "expected")

    def test_wrong_folders(self):
        expected = LINKS / "expected"
        self.refused(1, "nothing: not a folder", self.folder / "nothing", self.out)
        self.refused(1, "journal.txt: No such file", LINKS, self.out)
        self.refused(1, "No such file", expected, self.folder / "none/all.pcap")
        journal, labels, stream = ((expected / name).read_bytes() for name in ("journal.txt", "labels.txt", "p+pe1.ldp"))
        for said, changed in (
            ("journal.txt: line 2: not a step: 0 link upp p pe2", {"journal__txt": journal.replace(b"up p pe2", b"upp p pe2")}),
            ("journal.txt: line 41: before the tick of the line above", {"journal__txt": journal.replace(b"0 inject", b"3 inject")}),
            ("journal.txt: line 41: before the tick of the line above", {"journal__txt": journal.replace(b"0 inject", b"0 tick 1\n0 inject")}),
            ("journal.txt: line 1: not a step: 0 tick x", {"journal__txt": b"0 tick x\n"}),
            ("journal.txt: line 1: hears where no session lives", {"journal__txt": b"0 hear ldp p pe1\n"}),
            ("journal.txt: line 1: there is no pe1+pe2.pcap", {"journal__txt": b"0 learn p pe1 pe2\n"}),
            ("journal.txt: line 1: there is no pe1+q.bgp", {"journal__txt": b"0 bgp up pe1 q\n"}),
            ("journal.txt: line 1: labels.txt has no site 'c'", {"journal__txt": b"0 inject c 1\n"}),
            ("x+p.ldp: there is no p+x.pcap: the file may be an older run's", {"x_p__ldp": b""}),
            ("x+p.bgp: there is no p+x.bgp: the file may be an older run's", {"x_p__bgp": b""}),
            ("labels.txt: line 1: not a label", {"labels__txt": b"pe1 16\n"}),
            ("labels.txt: line 7: the label is an attachment's, which keeps it: pe2 16 fec 192.0.2.2/32", {"labels__txt": labels.replace(b"pe2 17 ", b"pe2 16 ")}),
            ("labels.txt: pe1 gave a label for 192.0.2.7, and no session tells", {"labels__txt": labels.replace(b"pe1 17 fec 192.0.2.2", b"pe1 17 fec 192.0.2.7")}),
            ("p+pe1.ldp: byte 158: not an LDP PDU", {"p_pe1__ldp": stream[:158] + stream[159:]}),
            ("p+pe1.ldp: a session has 5 messages, and by the journal 6 were heard", {"p_pe1__ldp": stream[:158]}),
            ("p+pe1.ldp: has 2 sessions, and by the journal there are 1", {"p_pe1__ldp": stream + stream}),
            ("pe1+pe2.bgp: byte 0: no OPEN", {"pe1_pe2__bgp": b"\xff" * 16 + b"\0\x13\4"}),
            ("pe1+p.pcap: byte 24: the record is cut short", {"pe1_p__pcap": (expected / "pe1+p.pcap").read_bytes()[:-1]}),
            ("delivered.pcap: doesn't begin as a capture of link type 228", {"delivered__pcap": (expected / "pe1+p.pcap").read_bytes()}),
            ("fits no frame", {"pe1_p__pcap": (expected / "pe1+p.pcap").read_bytes()[:24]}),
            ("report.txt: line 1: not a packet's line", {"report__txt": b"packet 1 line 5\n"}),
            ("the report has 0 packets, and by the journal 1 were sent", {"report__txt": b""}),
        ):
            with self.subTest(said):
                self.refused(1, said, self.copy(**changed), self.out)
                shutil.rmtree(self.folder / "run")
        other = self.folder / "other.toml"
        other.write_text((LINKS / "topology.toml").read_text().replace("192.0.2.1", "192.0.2.9"))
        self.refused(1, "node 'pe1' hasn't the address 192.0.2.1", expected, self.out, "--topology", other)


class Decode(unittest.TestCase):
    def decode(self, *words, **more):
        return subprocess.run([sys.executable, DECODE, *map(str, words)], capture_output=True, text=True, **more)

    def test_without_tshark_it_says_so(self):
        ran = self.decode(LINKS / "expected", env={"PATH": "/nowhere"})
        self.assertEqual((3, ""), (ran.returncode, ran.stdout))
        self.assertIn("tshark isn't installed, so nothing was decoded", ran.stderr)

    @unittest.skipUnless(shutil.which("tshark"), "tshark isn't installed")
    def test_finds_nothing_malformed_in_a_run_and_finds_what_is(self):
        ran = self.decode(LINKS / "expected")
        self.assertEqual((0, ""), (ran.returncode, ran.stderr))
        self.assertIn("24 messages of LDP, 6 of BGP, 3 label entries, 1 deliveries: nothing malformed", ran.stdout)
        with tempfile.TemporaryDirectory() as folder:
            run = Path(folder) / "run"
            shutil.copytree(LINKS / "expected", run)
            for name, right, wrong in (
                ("pe1+pe2.bgp", b"\x80\x0e\x1f", b"\x80\x0e\x2f"),  # the length of MP_REACH_NLRI
                ("pe1+p.ldp", b"\2\0\0\4", b"\2\0\0\3"),  # the length of three labels
                ("delivered.pcap", b"\x69\xcd", b"\x69\xce"),  # the checksum of the packet
                *((name, b"\x00\x35\x00\x08", b"\x00\x35\x00\x80") for name in ("pe1+p.pcap", "p+pe2.pcap", "delivered.pcap")),  # the customer's UDP
            ):
                content = (run / name).read_bytes()
                self.assertIn(right, content)
                (run / name).write_bytes(content.replace(right, wrong))
            ran = self.decode(run)
        self.assertEqual(1, ran.returncode)
        self.assertRegex(ran.stdout, r"all.pcap: .* UPDATE Message\[Malformed Packet\]")
        self.assertIn("all.pcap: ldp.msg.tlv.generic.label: tshark decodes 9 of 12", ran.stdout)
        self.assertRegex(ran.stdout, r"delivered.pcap: 1: .* the checksum of the IP header is wrong")
        self.assertIn("(2 records with a customer's malformed packet)", ran.stdout)


if __name__ == "__main__":
    unittest.main()
