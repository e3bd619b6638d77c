"""Writes capture.pcap:

record 1 goes from 10.1.0.1 (west) to 10.0.0.1 (headquarters), with TTL 64;
record 2 from 10.1.0.1 to 10.2.0.1 (east), with TTL 64;
record 3 is record 2 as headquarters sends it on: it came with TTL 61, and the router there took one.
"""

import sys
from pathlib import Path

sys.dont_write_bytecode = True
sys.path.insert(0, str(Path(__file__).resolve().parents[1]))
from packets import udp, write_beside

write_beside(
    __file__,
    udp("10.1.0.1", "10.0.0.1"),
    udp("10.1.0.1", "10.2.0.1"),
    udp("10.1.0.1", "10.2.0.1", ttl=60),
)
