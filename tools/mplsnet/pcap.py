"""Captures of customer packets: their packets, and captures that the tools make (pcap-savefile(5))."""

import struct

from mplsnet.files import Fault, bytes_of

RAW_IPV4 = 228
ORDERS = {b"\xd4\xc3\xb2\xa1": "<", b"\x4d\x3c\xb2\xa1": "<", b"\xa1\xb2\xc3\xd4": ">", b"\xa1\xb2\x3c\x4d": ">"}


def packets_in(path):
    """The packets of a capture, by its link type."""
    content = bytes_of(path)
    order = ORDERS.get(content[:4])
    if order is None or len(content) < 24:
        raise Fault(f"{path}: byte 0: doesn't begin as a pcap capture")
    link_type = struct.unpack(order + "I", content[20:24])[0] & 0xFFFF
    if link_type not in (1, 101, RAW_IPV4):
        raise Fault(f"{path}: byte 20: link type {link_type} is none of 1, 101 and 228")
    packets, at = [], 24
    while at < len(content):
        size = struct.unpack(order + "I", content[at + 8 : at + 12])[0] if at + 16 <= len(content) else 0
        if at + 16 + size > len(content):
            raise Fault(f"{path}: byte {at}: the record is cut short")
        record = content[at + 16 : at + 16 + size]
        packets.append(record if link_type != 1 else record[14:] if record[12:14] == b"\x08\x00" else b"")
        at += 16 + size
    return packets


def capture_of(packets):
    """A capture of these packets, raw IPv4."""
    records = (struct.pack("<4I", 0, 0, len(packet), len(packet)) + packet for packet in packets)
    return struct.pack("<IHHiIII", 0xA1B2C3D4, 2, 4, 0, 0, 0x40000, RAW_IPV4) + b"".join(records)


def udp_packet(source, destination, ttl=64):
    """A UDP packet without data between two addresses of four bytes, from port 53 to port 53 (RFC 791, RFC 768)."""
    header = struct.pack(">BBHHHBBH", 0x45, 0, 28, 0, 0, ttl, 17, 0) + source + destination
    total = sum(struct.unpack(">10H", header))
    total = (total & 0xFFFF) + (total >> 16)
    total = (total & 0xFFFF) + (total >> 16)
    return header[:10] + struct.pack(">H", 0xFFFF - total) + header[12:] + struct.pack(">4H", 53, 53, 8, 0)
