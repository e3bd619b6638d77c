"""Which bytes a reader of LDP and of BGP takes, and which are a labelled packet, for reference.py: docs/WIRE.md and
docs/FORMATS.md, told again. Only whether a message is read counts here, and not by which rule it is refused."""

import struct


def number_of(bytes_):
    return int.from_bytes(bytes_, "big")


# LDP


def is_fec(value):
    """One element: a prefix in whole bytes, with no bit set past its length."""
    if len(value) < 4 or value[:3] != b"\2\0\1" or value[3] > 32:
        return False
    bits, whole = value[3], (value[3] + 7) // 8
    return len(value) == 4 + whole and is_clear(value[4:], bits)


def is_clear(prefix, bits):
    """No bit is set past so many."""
    return number_of(prefix) & (1 << 8 * len(prefix) - bits) - 1 == 0


def is_label(value):
    return len(value) == 4 and (number_of(value) == 3 or 16 <= number_of(value) <= 1_048_575)


def is_address_list(value):
    return len(value) >= 6 and value[:2] == b"\0\1" and len(value) % 4 == 2


MAPPED = [(0x0100, is_fec), (0x0200, is_label)]
MANDATORY = {
    0x0001: [(0x0300, lambda value: len(value) == 10)],
    0x0200: [(0x0500, lambda value: len(value) == 14)],
    0x0201: [],
    0x0300: [(0x0101, is_address_list)],
    0x0400: MAPPED,
    0x0402: MAPPED,
    0x0403: MAPPED,
}


def tlvs_of(bytes_):
    """Each TLV as its type and value; None where they don't fill the bytes."""
    found, at = [], 0
    while at < len(bytes_):
        end = at + 4 + number_of(bytes_[at + 2 : at + 4])
        if at + 4 > len(bytes_) or end > len(bytes_):
            return None
        found.append((number_of(bytes_[at : at + 2]), bytes_[at + 4 : end]))
        at = end
    return found


def reads_tlvs(bytes_, due):
    """The mandatory ones in their order, and behind them any with the U bit."""
    tlvs = tlvs_of(bytes_)
    if tlvs is None or len(tlvs) < len(due):
        return False
    first, others = tlvs[: len(due)], tlvs[len(due) :]
    are_due = all(type_ == wanted and is_good(value) for (type_, value), (wanted, is_good) in zip(first, due))
    return are_due and all(type_ & 0x8000 for type_, _ in others)


def reads_pdu(bytes_):
    if len(bytes_) <= 10 or bytes_[:2] != b"\0\1" or number_of(bytes_[2:4]) != len(bytes_) - 4:
        return False
    at = 10
    while at < len(bytes_):
        type_, length = number_of(bytes_[at : at + 2]), number_of(bytes_[at + 2 : at + 4])
        end = at + 4 + length
        if at + 8 > len(bytes_) or length < 4 or end > len(bytes_):
            return False
        due = MANDATORY.get(type_ & 0x7FFF)
        if not (reads_tlvs(bytes_[at + 8 : end], due) if due is not None else type_ & 0x8000):
            return False
        at = end
    return True


# BGP


def are_filled(bytes_, is_good=lambda type_, value: True):
    """Parts of a type and a length of one byte each fill the bytes, and each is good."""
    at = 0
    while at < len(bytes_):
        if at + 2 > len(bytes_) or at + 2 + bytes_[at + 1] > len(bytes_):
            return False
        end = at + 2 + bytes_[at + 1]
        if not is_good(bytes_[at], bytes_[at + 2 : end]):
            return False
        at = end
    return True


def reads_open(body):
    if body[0] != 4 or body[9] != len(body) - 10:
        return False
    return are_filled(body[10:], lambda type_, value: type_ != 2 or are_filled(value))


def are_routes(bytes_):
    """Labelled VPN-IPv4 routes, one after another."""
    at = 0
    while at < len(bytes_):
        bits = bytes_[at] - 88
        end = at + 12 + (bits + 7) // 8
        if not 0 <= bits <= 32 or end > len(bytes_):
            return False
        if number_of(bytes_[at + 4 : at + 6]) > 1 or not is_clear(bytes_[at + 12 : end], bits):
            return False
        at = end
    return True


def attributes_of(bytes_):
    """Each attribute as its flags, type and value; None where they don't fill the bytes."""
    found, at = [], 0
    while at < len(bytes_):
        size = 2 if bytes_[at] & 0x10 else 1
        start = at + 2 + size
        end = start + number_of(bytes_[at + 2 : start])
        if start > len(bytes_) or end > len(bytes_):
            return None
        found.append((bytes_[at], bytes_[at + 1], bytes_[start:end]))
        at = end
    return found


def is_attribute(flags, type_, value):
    if type_ in (1, 5):
        return len(value) == (1 if type_ == 1 else 4)
    if type_ == 14:
        return value[:4] == b"\0\1\x80\x0c" and len(value) > 17 and are_routes(value[17:])
    if type_ == 15:
        return value[:3] == b"\0\1\x80" and are_routes(value[3:])
    if type_ == 16:
        return len(value) % 8 == 0
    return type_ in (2, 3, 6) or flags & 0x80 != 0


def reads_update(body):
    attributes = attributes_of(body[4:])
    if body[:2] != b"\0\0" or number_of(body[2:4]) != len(body) - 4 or attributes is None:
        return False
    types = [type_ for _, type_, _ in attributes]
    if len({*types}) < len(types) or not all(is_attribute(*attribute) for attribute in attributes):
        return False
    return {1, 2, 5, 16} <= {*types} if 14 in types else 15 in types


def reads_bgp(bytes_):
    if len(bytes_) < 19 or bytes_[:16] != b"\xff" * 16 or number_of(bytes_[16:18]) != len(bytes_) or len(bytes_) > 4096:
        return False
    type_, body = bytes_[18], bytes_[19:]
    if type_ == 1:
        return len(bytes_) >= 29 and reads_open(body)
    if type_ == 2:
        return len(bytes_) >= 23 and reads_update(body)
    return type_ == 3 and len(bytes_) >= 21 or type_ == 4 and len(bytes_) == 19


# Frames


def stack_of(bytes_):
    """The entries of the stack at the front as numbers, the last of which has the S bit; None where none has it."""
    entries = struct.unpack(f">{len(bytes_) // 4}I", bytes_[: len(bytes_) // 4 * 4])
    bottom = next((at for at, entry in enumerate(entries) if entry & 0x100), None)
    return None if bottom is None else [*entries[: bottom + 1]]
