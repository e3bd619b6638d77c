"""Writes capture.pcap:

records 1 and 2 are packets, from 10.1.0.1 to 10.2.0.1 and back. Record 3 is the LDP PDU in which p takes back its label 17 for
192.0.2.4 from pe1, the eighth message of their session (RFC 5036, section 3.5.10), and record 4 the same with one bit
changed: the prefix's length is 36, and no prefix of IPv4 has so many bits. Record 5 is a frame with p's label for pe1 on top.
Record 6 is the UPDATE in which pe2 announces 10.3.0.0/16, with one bit changed: by its length the route has 120 bits, and
104 stand there.
"""

import sys
from pathlib import Path

sys.dont_write_bytecode = True
sys.path.insert(0, str(Path(__file__).resolve().parents[1]))
from packets import udp, write_beside

there, back = udp("10.1.0.1", "10.2.0.1"), udp("10.2.0.1", "10.1.0.1")
PDU = "0001 0022 C0000202 0000  0402 0018 00000008  0100 0008 02 0001 {length} C0000204  0200 0004 00000011"
FRAME = "00012040 00010140"  # label 18, and below it pe1's label 16 for site a
UPDATE = """
FFFFFFFF FFFFFFFF FFFFFFFF FFFFFFFF 0052 02  0000 003B  400101 00  400200  400504 00000064
800E1F 0001 80 0C 0000000000000000 C0000203 00  78 000101 0000FDE800000002 0A03  C01008 0002FDE800000064
"""

write_beside(
    __file__,
    there,
    back,
    bytes.fromhex(PDU.format(length="20")),
    bytes.fromhex(PDU.format(length="24")),
    bytes.fromhex(FRAME) + back,
    bytes.fromhex(UPDATE),
)
