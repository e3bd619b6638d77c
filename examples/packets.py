"""What the examples' captures are made of: UDP packets over IPv4 (RFC 791, RFC 768) in a pcap file of link type 228, raw IPv4."""

import struct
from pathlib import Path

HEADER = struct.pack("<IHHiIII", 0xA1B2C3D4, 2, 4, 0, 0, 0x40000, 228)


def address(text):
    return bytes(int(number) for number in text.split("."))


def checksum(header):
    """The complement of the one's complement sum of the 16-bit words (RFC 1071)."""
    total = sum(struct.unpack(f">{len(header) // 2}H", header))
    while total >> 16:
        total = (total & 0xFFFF) + (total >> 16)
    return 0xFFFF - total


def udp(source, destination, ttl=64, identification=0):
    """28 bytes from port 53 to port 53, without data and without UDP's own checksum."""
    ports = struct.pack(">4H", 53, 53, 8, 0)
    fields = (0x45, 0, 20 + len(ports), identification, 0, ttl, 17, 0, address(source), address(destination))
    header = struct.pack(">BBHHHBBH4s4s", *fields)
    return header[:10] + struct.pack(">H", checksum(header)) + header[12:] + ports


def write_beside(script, *packets):
    """Writes the packets as the records 1, 2, .. of the capture.pcap that stands beside the script."""
    records = (struct.pack("<4I", 0, 0, len(packet), len(packet)) + packet for packet in packets)
    Path(script).with_name("capture.pcap").write_bytes(HEADER + b"".join(records))
