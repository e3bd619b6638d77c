"""Two joined networks by examples/reference_join.py: the worked rows, what is promised of legs, and what is refused."""

import subprocess
import sys
import tempfile
import unittest
from pathlib import Path

sys.path.insert(0, str(Path(__file__).resolve().parent))
from runs import ROOT, random_runs, reference, reference_inputs, stand_in  # noqa: E402

import reference_join  # noqa: E402

ROW = ROOT / "crates/mn_stored_runs/data/runs/two-providers-are-joined"
NET = (ROW / "topology1.toml").read_bytes()
LINES = (ROW / "script.txt").read_text().splitlines()
SEEDS = 60


def packet(ttl, checksum):
    return bytes.fromhex(f"45 00 00 1C 00 00 00 00 {ttl:02X} 11 {checksum} 0A 01 00 01 0A 09 00 01 00 35 00 35 00 08 00 00")


def joined(lines, joints=b"b a\n", sent=packet(64, "66 C6"), second=NET):
    capture = reference.pcap(228, [(0, sent)])
    report, files = reference.join_of(NET, second, joints, "\n".join(lines).encode(), capture)
    return report.decode().splitlines(), files.get("delivered.pcap")


def pairs():
    """Random pairs of networks, played."""
    for seed in range(SEEDS):
        texts = random_runs.random_join(seed)
        try:
            tops = [reference_inputs.read_topology(text) for text in texts[:2]]
            joints = reference_join.read_joints(*tops, texts[2])
            commands = reference_join.read_pair_script(tops, texts[3])
            packets = reference_inputs.read_capture(texts[4])
        except reference_inputs.Refused:
            continue
        pair = reference_join.Pair([reference.Network(top) for top in tops], joints)
        reference_join.play(pair, commands, packets, reference.ARRIVALS, [])
        yield pair


class Rows(unittest.TestCase):
    def test_a_packet_crosses_both(self):
        report, delivered = joined(LINES)
        self.assertEqual(
            ["packet 1 line 11 record 1 net 1 site a net 2 site a delivered b ttl 58", "total packets 1 delivered 1 dropped 0 flying 0 refused 0"], report
        )
        self.assertEqual(packet(58, "6C C6"), delivered[40:])

    def test_ttl_7_is_enough_and_6_is_not(self):
        self.assertTrue(joined(LINES, sent=packet(7, "9F C6"))[0][0].endswith(" delivered b ttl 1"))
        self.assertTrue(joined(LINES, sent=packet(6, "A0 C6"))[0][0].endswith(" dropped TtlExpired at pe2"))

    def test_what_goes_on_is_what_was_delivered(self):
        """A joint that hands on the packet as it was first sent would deliver it with a greater TTL."""

        class Forgetful(reference_join.Pair):
            def inject(self, which, crossing, site, bytes_):
                return super().inject(which, crossing, site, packet(64, "66 C6"))

        tops = [reference_inputs.read_topology(NET)] * 2
        pair = Forgetful([reference.Network(top) for top in tops], reference_join.read_joints(*tops, b"b a\n"))
        commands = reference_join.read_pair_script(tops, "\n".join(LINES).encode())
        reference_join.play(pair, commands, [packet(64, "66 C6")], reference.ARRIVALS, [])
        self.assertFalse([*pair.lines()][0].endswith(" ttl 58"))


    def test_a_damaged_message_ends_a_session_of_its_network_alone(self):
        """The stored run with such a line: the same packet is dropped in the second network, and delivered once LDP is on there again."""
        run = ROW.parent / "a-message-of-one-of-two-networks-is-damaged"
        report, delivered = joined((run / "script.txt").read_text().splitlines())
        self.assertEqual((run / "expected/report.txt").read_text().splitlines(), report)
        self.assertEqual([["Empty"], ["NoRecord"]], [line.split()[3:] for line in report[:2]])
        self.assertTrue(report[2].endswith("net 2 site a dropped NoLsp at pe1"))
        self.assertEqual(packet(58, "6C C6"), delivered[40:])


class Laws(unittest.TestCase):
    def test_each_leg_begins_where_the_one_before_ended(self):
        legs = 0
        for pair in pairs():
            for crossing in pair.crossings:
                for (which, packet_), (other, later) in zip(crossing.legs, crossing.legs[1:]):
                    verdict = pair.networks[which].packets[packet_].verdict.split()
                    site = pair.networks[which].topology.named("site", verdict[1])
                    self.assertEqual("delivered", verdict[0])
                    self.assertEqual(1 - which, other)
                    self.assertEqual(pair.partners[which][site], pair.networks[other].packets[later].site)
                    legs += 1
        self.assertLess(100, legs)

    def test_each_entry_lowers_the_ttl(self):
        for pair in pairs():
            self.assertTrue(all(len(crossing.legs) <= 255 for crossing in pair.crossings))


class Refusals(unittest.TestCase):
    def test_joints(self):
        for joints, due in [
            (b"b\n", "joints refused J1 WrongCount at line 1"),
            (b"b a # why\n", "joints refused J1 WrongCount at line 1"),
            (b"b a\n\n", "joints refused J1 WrongCount at line 2"),
            (b"p a\n", "joints refused J2 NoSuchName at line 1"),
            (b"b a\r\nb b", "joints refused J3 TwiceJoined at line 2"),
            (b" " * 1_048_577, "too large joints bytes"),
        ]:
            self.assertEqual([due], joined(LINES, joints)[0])
        self.assertEqual(2, len(joined(LINES, b" b\ta\r\n")[0]))
        self.assertTrue(joined(LINES, b"")[0][0].endswith("net 1 site a delivered b ttl 61"))

    def test_lines(self):
        for line, due in [
            ("0 drain", "S1 UnknownWord"),
            ("drain", "S1 UnknownWord"),
            ("1 run 5", "S1 UnknownWord"),
            ("2 show links", "S1 UnknownWord"),
            ("1 run", "S1 UnknownWord"),
            ("2 link up pe1 p p", "S2 WrongCount"),
            ("1 inject p 1", "S4 NoSuchName"),
            ("1 damage ldp pe1 p 1 2", "S2 WrongCount"),
            ("2 damage ldp pe1 p 0", "S3 BadNumber"),
        ]:
            self.assertEqual([f"script refused {due} at line 1"], joined([line])[0])
        self.assertEqual(["total packets 0 delivered 0 dropped 0 flying 0 refused 0"], joined(["1", "2 # nothing", "", "# 3"])[0])

    def test_the_second_topology(self):
        self.assertEqual(["second topology refused T1 NotToml at top"], joined(LINES, second=b"?")[0])
        self.assertEqual(["too large topology bytes"], joined(LINES, second=b"#" * 1_048_577)[0])


class Compared(unittest.TestCase):
    def test_random_joins_and_the_stored_ones(self):
        with tempfile.TemporaryDirectory() as room:
            words = [sys.executable, "-B", ROOT / "scripts/compare", "--program", stand_in(room)]
            ran = subprocess.run([*words, "--random", "12", "--command", "join"], capture_output=True, text=True)
            self.assertIn("12 random runs of join, 0 differences", ran.stdout, ran.stderr)
            ran = subprocess.run([*words, ROW], capture_output=True, text=True)
            self.assertEqual("1 runs: program and reference leave what is expected\n", ran.stdout)


if __name__ == "__main__":
    unittest.main()
