"""Writes capture.pcap:

records 1 to 4 go from 10.1.0.1 to 10.2.0.1 with TTL 64; the identification in each header is the record's number.
"""

import sys
from pathlib import Path

sys.dont_write_bytecode = True
sys.path.insert(0, str(Path(__file__).resolve().parents[1]))
from packets import udp, write_beside

write_beside(
    __file__,
    *(udp("10.1.0.1", "10.2.0.1", identification=number) for number in range(1, 5)),
)
