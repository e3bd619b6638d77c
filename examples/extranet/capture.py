"""Writes capture.pcap:

record 1 goes from 10.1.0.1 (red-west) to 10.9.0.1 (services), record 2 back;
record 3 goes from 10.2.0.1 (blue-west) to 10.9.0.1, record 4 back;
record 5 goes from 10.1.0.1 to 10.2.0.1, from red to blue;
record 6 goes from 10.3.0.1 (red-east) to 10.9.0.1; each with TTL 64.
"""

import sys
from pathlib import Path

sys.dont_write_bytecode = True
sys.path.insert(0, str(Path(__file__).resolve().parents[1]))
from packets import udp, write_beside

write_beside(
    __file__,
    udp("10.1.0.1", "10.9.0.1"),
    udp("10.9.0.1", "10.1.0.1"),
    udp("10.2.0.1", "10.9.0.1"),
    udp("10.9.0.1", "10.2.0.1"),
    udp("10.1.0.1", "10.2.0.1"),
    udp("10.3.0.1", "10.9.0.1"),
)
