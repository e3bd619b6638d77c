"""Writes capture.pcap:

record 1 goes from 10.1.0.1 to 10.2.0.1 with TTL 64,
record 2 with TTL 8,
record 3 from 10.2.0.1 to 10.1.0.1.
"""

import sys
from pathlib import Path

sys.dont_write_bytecode = True
sys.path.insert(0, str(Path(__file__).resolve().parents[1]))
from packets import udp, write_beside

write_beside(
    __file__,
    udp("10.1.0.1", "10.2.0.1"),
    udp("10.1.0.1", "10.2.0.1", ttl=8),
    udp("10.2.0.1", "10.1.0.1"),
)
