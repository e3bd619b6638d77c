"""Writes capture.pcap: records 1 and 2 go from one site to the other and back, 3 to nobody, and 4 is 1 with TTL 6."""

import sys
from pathlib import Path

sys.dont_write_bytecode = True
sys.path.insert(0, str(Path(__file__).resolve().parents[1]))
from packets import udp, write_beside

there = udp("10.1.0.1", "10.2.0.1")
back = udp("10.2.0.1", "10.1.0.1")
nobody = udp("10.1.0.1", "10.3.0.1")
short = udp("10.1.0.1", "10.2.0.1", ttl=6)
write_beside(__file__, there, back, nobody, short)
