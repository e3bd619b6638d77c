"""Readers of LDP and BGP for writers of routers: what a message says by field, or why it is refused, at which byte, and what a router answers.

They are a second telling of docs/WIRE.md, written from it and not from the program's source.
"""

import struct
from dataclasses import dataclass

from mplsnet.words import address


@dataclass
class Refused(Exception):
    """Why bytes aren't a message: the rule, the byte, the cause, what a router answers, and where the RFC has it."""

    rule: str
    byte: int
    cause: str
    answer: str
    section: str


def number(data, at, size):
    return int.from_bytes(data[at : at + size], "big")


def has_host_bits(length, data):
    """A bit is set past the prefix's length in its whole bytes."""
    return bool(int.from_bytes(data, "big") & (1 << (8 * len(data) - length)) - 1) if length < 8 * len(data) else False


def prefix_text(length, data):
    return f"{address(bytes(data).ljust(4, bytes(1))[:4])}/{length}"


# LDP, RFC 5036.

WAITS = "nothing: it waits for the rest"
VERSION, PDU_LENGTH, MESSAGE_LENGTH = "00000002 Bad Protocol Version, fatal", "00000003 Bad PDU Length, fatal", "00000005 Bad Message Length, fatal"
UNKNOWN_MESSAGE, UNKNOWN_TLV, TLV_LENGTH = "00000004 Unknown Message Type", "00000006 Unknown TLV", "00000007 Bad TLV Length, fatal"
MALFORMED, MISSING, FAMILY = "00000008 Malformed TLV Value, fatal", "00000016 Missing Message Parameters", "00000017 Unsupported Address Family"
UNKNOWN_FEC, TAKEN = "0000000C Unknown FEC", "nothing: it takes it"

FEC, ADDRESSES, LABEL, STATUS, PARAMETERS = 0x0100, 0x0101, 0x0200, 0x0300, 0x0500
MESSAGES = {
    0x0001: ("Notification", [STATUS]), 0x0200: ("Initialization", [PARAMETERS]), 0x0201: ("KeepAlive", []), 0x0300: ("Address", [ADDRESSES]),
    0x0400: ("Mapping", [FEC, LABEL]), 0x0402: ("Withdraw", [FEC, LABEL]), 0x0403: ("Release", [FEC, LABEL]),
}  # fmt: skip
TAKEN_MESSAGES = {0x0100: "a Hello comes by UDP", 0x0301: TAKEN, 0x0401: TAKEN, 0x0404: TAKEN}
SECTIONS = {0x0100: "3.5.2", 0x0301: "3.5.6", 0x0401: "3.5.8", 0x0404: "3.5.9"}
TLVS = {0x0100, 0x0101, 0x0103, 0x0104, 0x0200, 0x0201, 0x0202, 0x0300, 0x0301, 0x0302, 0x0303, 0x0400, 0x0401, 0x0402, 0x0403}
TLVS |= {0x0500, 0x0501, 0x0502, 0x0600}
OPTIONAL = {0x0001: {0x0301, 0x0302, 0x0303}, 0x0200: {0x0501, 0x0502}, 0x0400: {0x0103, 0x0104, 0x0600}}  # by RFC 5036, section 3.5
U, F = 0x8000, 0x4000
LABEL_OPTIONAL = {"Withdraw": "3.5.10", "Release": "3.5.11"}
LEAST_PDU = 18  # bytes of a PDU with the least message: by RFC 5036, section 3.5.1.2.1, a length below 14 is wrong by itself


def read_ldp(data):
    """What a PDU says: its sender, and its messages; and the types of what is passed over."""
    if len(data) < 10:
        raise Refused("Short", len(data), f"{len(data)} bytes of a PDU's 10 at least", WAITS, "3.1")
    if number(data, 0, 2) != 1:
        raise Refused("BadVersion", 0, f"version {number(data, 0, 2)}", VERSION, "3.1")
    if number(data, 2, 2) != len(data) - 4:
        raise Refused("BadPduLength", 2, f"the length {number(data, 2, 2)}, and {len(data) - 4} bytes behind it", PDU_LENGTH, "3.1")
    if len(data) == 10:
        raise Refused("BadPduLength", 2, "no message", PDU_LENGTH, "3.1")
    said, passed, at = {"lsr": address(data[4:8]), "space": number(data, 8, 2), "messages": []}, [], 10
    while at < len(data):
        at = read_message(data, at, said["messages"], passed)
    return said, passed


def read_message(data, at, messages, passed):
    """Takes the message at the place; where it ends."""
    if len(data) - at < 8:
        answer = PDU_LENGTH if len(data) < LEAST_PDU else MESSAGE_LENGTH
        raise Refused("BadMessageLength", at, f"{len(data) - at} bytes are left for a message", answer, "3.5.1.2.1")
    kind, size = number(data, at, 2), number(data, at + 2, 2)
    if size < 4:
        raise Refused("BadMessageLength", at + 2, f"the length {size}, below 4", MESSAGE_LENGTH, "3.5")
    if at + 4 + size > len(data):
        raise Refused("BadMessageLength", at + 2, f"the length {size} passes the PDU", MESSAGE_LENGTH, "3.5")
    if kind & ~U not in MESSAGES:
        if not kind & U:
            answer = MISSING if TAKEN_MESSAGES.get(kind) == TAKEN and size == 4 else TAKEN_MESSAGES.get(kind, UNKNOWN_MESSAGE)
            raise Refused("UnknownMessage", at, f"the type {kind:04X} without the U bit", answer, SECTIONS.get(kind, "3.5"))
        passed.append(f"message {kind:04X}")
        return at + 4 + size
    name, due = MESSAGES[kind & ~U]
    message = {"id": number(data, at + 4, 4), "message": name}
    place, end = at + 8, at + 4 + size
    for wanted in due:
        place = read_tlv(data, place, end, wanted, message)
    while place < end:
        place = pass_tlv(data, place, end, kind & ~U, passed)
    messages.append(message)
    return end


def tlv_size(data, at, end):
    """The length of the TLV's value, which is within the message."""
    if end - at < 4:
        raise Refused("BadTlv", at, f"{end - at} bytes are left for a TLV", TLV_LENGTH, "3.3")
    size = number(data, at + 2, 2)
    if at + 4 + size > end:
        raise Refused("BadTlv", at + 2, f"the TLV's length {size} passes the message", TLV_LENGTH, "3.3")
    return size


def read_tlv(data, at, end, wanted, message):
    """Takes the TLV that is due; where it ends."""
    if at == end:
        answer, section = (TAKEN, LABEL_OPTIONAL[message["message"]]) if wanted == LABEL and message["message"] in LABEL_OPTIONAL else (MISSING, "3.5.1.2.1")
        raise Refused("MissingTlv", at, f"the message ends where the TLV {wanted:04X} is due", answer, section)
    size, kind = tlv_size(data, at, end), number(data, at, 2)
    if kind != wanted:
        passed = kind & 0x3FFF == wanted or kind & U and kind & 0x3FFF not in TLVS
        answer = TAKEN if passed else MISSING if kind & 0x3FFF in TLVS else UNKNOWN_TLV
        raise Refused("BadTlv", at, f"the TLV {kind:04X} where {wanted:04X} is due", answer, "3.3")
    value = data[at + 4 : at + 4 + size]
    {FEC: read_fec, LABEL: read_label, ADDRESSES: read_addresses, STATUS: read_status, PARAMETERS: read_parameters}[wanted](value, at + 4, message)
    return at + 4 + size


def pass_tlv(data, at, end, message, passed):
    """Passes over a further TLV; where it ends."""
    size, kind = tlv_size(data, at, end), number(data, at, 2)
    if not kind & U:
        answer = TAKEN if kind & 0x3FFF in OPTIONAL.get(message, ()) else UNKNOWN_TLV
        raise Refused("BadTlv", at, f"a further TLV, {kind:04X}, without the U bit", answer, "3.3")
    passed.append(f"TLV {kind:04X}")
    return at + 4 + size


def read_fec(value, at, message):
    section = "3.4.1"
    if not value:
        raise Refused("BadFec", at, "no element", MALFORMED, section)
    if value[0] == 1:
        raise Refused("BadFec", at, "the wildcard", "nothing in a Withdraw or Release: it takes it; in a Mapping it may not stand", section)
    if value[0] != 2:
        raise Refused("BadFec", at, f"an element of type {value[0]}", UNKNOWN_FEC, section)
    if len(value) < 4:
        raise Refused("BadFec", at + len(value), "the element is cut short", MALFORMED, section)
    if number(value, 1, 2) != 1:
        raise Refused("BadFec", at + 1, f"the address family {number(value, 1, 2)}", FAMILY, section)
    length = value[3]
    if length > 32:
        raise Refused("BadFec", at + 3, f"a length of {length} bits", MALFORMED, section)
    whole = 4 + (length + 7) // 8
    if len(value) < whole:
        raise Refused("BadFec", at + len(value), "the prefix is cut short", MALFORMED, section)
    if has_host_bits(length, value[4:whole]):
        raise Refused("BadFec", at + whole - 1, "a bit past the prefix's length", TAKEN, section)
    if len(value) > whole:
        answer = UNKNOWN_FEC if value[whole] not in (1, 2) else TAKEN if value[whole] == 2 and len(value) >= whole + 4 else MALFORMED
        raise Refused("BadFec", at + whole, "more than one element", answer, section)
    message["prefix"] = prefix_text(length, value[4:])


def read_label(value, at, message):
    if len(value) != 4:
        raise Refused("BadTlv", at, f"a label of {len(value)} bytes", MALFORMED, "3.4.2.1")
    label = number(value, 0, 4)
    if label != 3 and not 16 <= label < 1 << 20:
        raise Refused("BadTlv", at, f"label {label}", TAKEN if label == 0 else MALFORMED, "3.4.2.1")
    message["label"] = label


def read_addresses(value, at, message):
    if len(value) < 2:
        raise Refused("BadTlv", at, "no address family", MALFORMED, "3.4.3")
    if number(value, 0, 2) != 1:
        raise Refused("BadTlv", at, f"the address family {number(value, 0, 2)}", FAMILY, "3.4.3")
    if len(value) < 6 or len(value) % 4 != 2:
        raise Refused("BadTlv", at + 2, f"{len(value) - 2} bytes of addresses", MALFORMED, "3.4.3")
    message["addresses"] = [address(value[place : place + 4]) for place in range(2, len(value), 4)]


def read_status(value, at, message):
    if len(value) != 10:
        raise Refused("BadTlv", at, f"a status of {len(value)} bytes", MALFORMED, "3.4.6")
    message |= {"status": f"{number(value, 0, 4):08X}", "about": number(value, 4, 4), "kind": f"{number(value, 8, 2):04X}"}


def read_parameters(value, at, message):
    if len(value) != 14:
        raise Refused("BadTlv", at, f"session parameters of {len(value)} bytes", MALFORMED, "3.5.3")
    version, keepalive, flags, limit, greatest, receiver, space = struct.unpack(">HHBBH4sH", value)
    message |= {"version": version, "keepalive": keepalive, "flags": flags, "limit": limit, "greatest": greatest, "receiver": f"{address(receiver)}:{space}"}


# BGP, RFC 4271, with RFC 4760, RFC 4364 and RFC 8277; what RFC 7606 changes stands behind ';'.

LIST, TWICE = "3/1 Malformed Attribute List", "3/1 Malformed Attribute List; RFC 7606: "
UNFILLED = f"{LIST}; RFC 7606: treat as withdraw where the routes can be read, else the session ends"
PLAIN = "nothing: it takes plain IPv4 routes"
OPTIONAL_ERROR = "3/9 Optional Attribute Error; RFC 7606: the session ends, or the address family is given up"
LENGTH_ERROR = "3/5 Attribute Length Error; RFC 7606: treat as withdraw"
LEAST = {1: ("OPEN", 29), 2: ("UPDATE", 23), 3: ("NOTIFICATION", 21), 4: ("KEEPALIVE", 19)}
ORIGIN, AS_PATH, NEXT_HOP, LOCAL_PREF, AGGREGATE, REACH, UNREACH, COMMUNITIES = 1, 2, 3, 5, 6, 14, 15, 16
KNOWN = {ORIGIN, AS_PATH, NEXT_HOP, LOCAL_PREF, AGGREGATE, REACH, UNREACH, COMMUNITIES}
ORIGINATOR, CLUSTERS = 9, 10  # of a route reflector, RFC 4456: refused when all else is right


def read_bgp(data):
    """What a message says; and the types of the attributes and capabilities that are passed over."""
    if len(data) < 19:
        raise Refused("Short", len(data), f"{len(data)} bytes of a message's 19 at least", WAITS, "4.1")
    marker = next((at for at in range(16) if data[at] != 0xFF), None)
    if marker is not None:
        raise Refused("BadMarker", marker, f"{data[marker]:02X} in the marker", "1/1 Connection Not Synchronized", "6.1")
    size, kind = number(data, 16, 2), data[18]
    name, least = LEAST.get(kind, (None, 19))
    if size != len(data) or not least <= size <= 4096 or kind == 4 and size != 19:
        raise Refused("BadLength", 16, f"the length {size}, of {len(data)} bytes of {name or f'type {kind}'}", "1/2 Bad Message Length", "6.1")
    if name is None:
        raise Refused("BadType", 18, f"the type {kind}", "1/3 Bad Message Type", "6.1")
    said, passed = {"message": name}, []
    {1: read_open, 2: read_update, 3: read_notification, 4: lambda *_: None}[kind](data, said, passed)
    return said, passed


def read_notification(data, said, _):
    said |= {"code": data[19], "subcode": data[20]}


def read_open(data, said, passed):
    if data[19] != 4:
        raise Refused("BadOpen", 19, f"version {data[19]}", "2/1 Unsupported Version Number", "6.2")
    if data[28] != len(data) - 29:
        raise Refused("BadOpen", 28, f"the parameters' length {data[28]}, and {len(data) - 29} bytes", "2/0 Unspecific", "6.2")
    said |= {"version": 4, "as": number(data, 20, 2), "hold": number(data, 22, 2), "identifier": address(data[24:28]), "vpn_ipv4": False}
    for kind, at, end in parts(data, 29, len(data), "a parameter"):
        for code, value, behind in parts(data, at, end, "a capability") if kind == 2 else ():
            if code == 1 and behind - value == 4 and data[value : value + 2] == b"\0\1" and data[value + 3] == 0x80:
                said["vpn_ipv4"] = True
            else:
                passed.append(f"capability {code}")
        if kind != 2:
            passed.append(f"parameter {kind}")


def parts(data, at, end, what):
    """Parts of a type, a length and a value, which fill what they stand in: each one's type, and where its value begins and ends."""
    while at < end:
        if end - at < 2 or at + 2 + data[at + 1] > end:
            raise Refused("BadOpen", at, f"{what} is cut short", "2/0 Unspecific", "6.2")
        yield data[at], at + 2, at + 2 + data[at + 1]
        at += 2 + data[at + 1]


def read_update(data, said, passed):
    if number(data, 19, 2):
        raise Refused("BadAttribute", 19, "withdrawn IPv4 routes", f"{PLAIN}; 3/1 where their length passes the message", "6.3")
    size = number(data, 21, 2)
    if 23 + size > len(data):
        raise Refused("BadAttribute", 21, f"the attributes' length {size} passes the message", UNFILLED, "6.3")
    if 23 + size < len(data):
        raise Refused("BadAttribute", 23 + size, "IPv4 routes", PLAIN, "6.3")
    said |= {"next_hop": None, "announced": [], "withdrawn": [], "targets": []}
    found = attributes_of(data)
    for kind, (at, value) in found.items():
        read_attribute(kind, value, at, said)
        if kind not in (ORIGIN, AS_PATH, LOCAL_PREF, REACH, UNREACH, COMMUNITIES, ORIGINATOR, CLUSTERS):
            passed.append(f"attribute {kind}")
    missing(found, len(data))
    read_reflected(found, said)


def read_reflected(found, said):
    """What a route reflector adds, where it is there."""
    if ORIGINATOR in found:
        at, value = found[ORIGINATOR]
        if len(value) != 4:
            raise Refused("BadOriginator", at, f"{len(value)} bytes of ORIGINATOR_ID", LENGTH_ERROR, "RFC 4456, 8")
        said["originator"] = address(value)
    if CLUSTERS in found:
        at, value = found[CLUSTERS]
        if not value or len(value) % 4:
            raise Refused("BadClusters", at, f"{len(value)} bytes of CLUSTER_LIST", LENGTH_ERROR, "RFC 4456, 8")
        said["clusters"] = [address(value[place : place + 4]) for place in range(0, len(value), 4)]


def attributes_of(data):
    """Of each attribute where its value begins, and the value."""
    found, at = {}, 23
    while at < len(data):
        wide = 2 if data[at] & 0x10 else 1
        if len(data) - at < 2 + wide or at + 2 + wide + number(data, at + 2, wide) > len(data):
            raise Refused("BadAttribute", at, "an attribute is cut short", UNFILLED, "6.3")
        flags, kind, value = data[at], data[at + 1], at + 2 + wide
        end = value + number(data, at + 2, wide)
        if kind in found:
            answer = "the session ends" if kind in (REACH, UNREACH) else "all but the first are discarded"
            raise Refused("BadAttribute", at, f"the attribute {kind} a second time", TWICE + answer, "6.3")
        if kind not in KNOWN and not flags & 0x80:
            raise Refused("BadAttribute", at, f"the attribute {kind}, which isn't known, without the optional flag", "3/2 Unrecognized Well-known Attribute", "6.3")
        found[kind] = (value, data[value:end])
        at = end
    return found


def read_attribute(kind, value, at, said):
    if kind == ORIGIN and len(value) != 1 or kind == LOCAL_PREF and len(value) != 4:
        raise Refused("BadAttribute", at, f"{len(value)} bytes of {'ORIGIN' if kind == ORIGIN else 'LOCAL_PREF'}", LENGTH_ERROR, "6.3")
    if kind == REACH:
        if len(value) < 4 or value[:4] != b"\0\1\x80\x0c":
            raise Refused("BadAttribute", at, "MP_REACH_NLRI of another family, or next hop of another length", OPTIONAL_ERROR, "RFC 4760, 3")
        if len(value) <= 17:
            raise Refused("BadAttribute", at + len(value), "MP_REACH_NLRI without a route", OPTIONAL_ERROR, "RFC 4760, 3")
        said["next_hop"] = address(value[12:16])
        said["announced"] = routes(value, 17, at)
    elif kind == UNREACH:
        if value[:3] != b"\0\1\x80":
            raise Refused("BadAttribute", at, "MP_UNREACH_NLRI of another family", OPTIONAL_ERROR, "RFC 4760, 4")
        said["withdrawn"] = routes(value, 3, at)
    elif kind == COMMUNITIES:
        if len(value) % 8:
            raise Refused("BadAttribute", at, f"{len(value)} bytes of EXTENDED COMMUNITIES", LENGTH_ERROR, "RFC 4360, 2")
        some = [value[place : place + 8] for place in range(0, len(value), 8)]
        said["targets"] = [target(one[0], one[2:]) for one in some if one[:2] in (b"\0\2", b"\1\2")]


def target(kind, data):
    """A route distinguisher or a target: of kind 0 AS:N, of 1 ADDRESS:N."""
    return f"{address(data[:4])}:{number(data, 4, 2)}" if kind == 1 else f"{number(data, 0, 2)}:{number(data, 2, 4)}"


def routes(value, at, base):
    """Labelled VPN-IPv4 routes."""
    found = []
    while at < len(value):
        bits = value[at]
        if not 88 <= bits <= 120:
            raise Refused("BadAttribute", base + at, f"a route of {bits} bits", OPTIONAL_ERROR, "RFC 8277, 2.2")
        end = at + 1 + (bits + 7) // 8
        if end > len(value):
            raise Refused("BadAttribute", base + len(value), "a route is cut short", OPTIONAL_ERROR, "RFC 8277, 2.2")
        if number(value, at + 4, 2) > 1:
            raise Refused("BadAttribute", base + at + 4, f"a distinguisher of type {number(value, at + 4, 2)}", TAKEN if number(value, at + 4, 2) == 2 else "no RFC says", "RFC 4364, 4.2")
        if has_host_bits(bits - 88, value[at + 12 : end]):
            raise Refused("BadAttribute", base + end - 1, "a bit past the prefix's length", "nothing: the bits are irrelevant", "4.3")
        prefix = prefix_text(bits - 88, value[at + 12 : end])
        found.append({"rd": target(value[at + 5], value[at + 6 : at + 12]), "prefix": prefix, "label": number(value, at + 1, 3) >> 4})
        at = end
    return found


def missing(found, end):
    """The attributes that have to stand do."""
    if REACH in found:
        for kind, name in ((ORIGIN, "ORIGIN"), (AS_PATH, "AS_PATH"), (LOCAL_PREF, "LOCAL_PREF")):
            if kind not in found:
                raise Refused("MissingAttribute", end, f"{name} is missing", "3/3 Missing Well-known Attribute; RFC 7606: treat as withdraw", "6.3")
        if COMMUNITIES not in found:
            raise Refused("MissingAttribute", end, "EXTENDED COMMUNITIES are missing", "nothing: no VRF imports the route", "RFC 4364, 4.3.1")
    elif UNREACH not in found:
        raise Refused("MissingAttribute", end, "neither MP_REACH_NLRI nor MP_UNREACH_NLRI", "nothing: it says no VPN route", "RFC 4760, 3")


# Streams: PDUs or messages one behind the other.


def pieces(protocol, data):
    """Where each PDU or message begins, and its bytes: the last one may be cut short."""
    at = 0
    while at < len(data):
        size = 4 + number(data, at + 2, 2) if protocol == "ldp" else number(data, at + 16, 2)
        least = 10 if protocol == "ldp" else 19
        yield at, data[at:] if len(data) - at < least else data[at : at + max(size, least)]
        at += max(size, least)


READERS = {"ldp": read_ldp, "bgp": read_bgp}
