"""Writes capture.pcap:

records 1 to 5 go from 10.1.0.1 to 10.2.0.1 with TTL 64, and record 6 goes back; the identification in each header is the record's number.
Record 7 is the frame of record 2 on its way to p: label 16, p's for pe2 at first, and below it label 16, pe2's for red-east; TTL 63
everywhere. Record 8 is what is left of it once p has taken off the upper label: label 16 with TTL 62.
"""

import sys
from pathlib import Path

sys.dont_write_bytecode = True
sys.path.insert(0, str(Path(__file__).resolve().parents[1]))
from packets import udp, write_beside

slow = udp("10.1.0.1", "10.2.0.1", ttl=63, identification=2)

write_beside(
    __file__,
    *(udp("10.1.0.1", "10.2.0.1", identification=number) for number in range(1, 6)),
    udp("10.2.0.1", "10.1.0.1", identification=6),
    bytes.fromhex("0001003F 0001013F") + slow,
    bytes.fromhex("0001013E") + slow,
)
