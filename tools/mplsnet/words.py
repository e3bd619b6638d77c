"""What is on the wire, in words: messages of LDP and BGP as mplsnet writes them, and IPv4 packets."""

import struct

LDP = {0x0001: "Notification", 0x0200: "Initialization", 0x0201: "KeepAlive", 0x0300: "Address"}
LABELS = {0x0400: "Label Mapping", 0x0402: "Label Withdraw", 0x0403: "Label Release"}
PROTOCOLS = {1: "ICMP", 6: "TCP", 17: "UDP"}

# The state of a session's end by how many messages it has received (RFC 5036, section 2.5.4; RFC 4271, section 8.2.2): of the end that
# opens the session, and of the other; and of an end that has none.
STATES = {
    "ldp": (("opensent", "openrec", "operational"), ("initialized", "openrec", "operational")),
    "bgp": (("opensent", "openconfirm", "established"), ("opensent", "openconfirm", "established")),
}
NO_SESSION = {"ldp": "none", "bgp": "idle"}
ENDED = {"link": "LinkCut", "tick": "Overdue"}  # by which rule frames fall that a step of this kind takes from their links


def state_of(protocol, is_opener, received):
    """The state of an end of a session that lives."""
    return STATES[protocol][0 if is_opener else 1][min(received, 2)]


def address(data):
    return ".".join(map(str, data))


def prefix(length, data):
    """A prefix from its length and its whole bytes."""
    return f"{address(data.ljust(4, bytes(1))[:4])}/{length}"


def ldp_words(pdu):
    """A PDU with one message (docs/FORMATS.md, "LDP")."""
    kind = int.from_bytes(pdu[10:12], "big") & 0x7FFF
    if kind == 0x0300:
        return f"Address {address(pdu[24:28])}"
    if kind not in LABELS:
        return LDP.get(kind, f"message {kind:04x}")
    size = int.from_bytes(pdu[20:22], "big")
    fec, label = pdu[22 : 22 + size], int.from_bytes(pdu[26 + size : 30 + size], "big")
    return f"{LABELS[kind]} {prefix(fec[3], fec[4:])} label {label}{' (implicit null)' if label == 3 else ''}"


def target(kind, data):
    """A route distinguisher or a target of type 0, AS:N, or 1, ADDRESS:N, in six bytes."""
    if kind == 1:
        return f"{address(data[:4])}:{int.from_bytes(data[4:], 'big')}"
    return "{}:{}".format(*struct.unpack(">HI", data))


def route(data):
    """A labelled VPN route: its label and its words."""
    label = int.from_bytes(data[1:4], "big") >> 4
    return label, f"{target(data[5], data[6:12])} {prefix(data[0] - 88, data[12:])}"


def bgp_words(message):
    """A message of BGP (docs/FORMATS.md, "BGP")."""
    kind, body = message[18], message[19:]
    if kind == 1:
        return f"OPEN AS {int.from_bytes(body[1:3], 'big')} identifier {address(body[5:9])}"
    if kind != 2:
        return {3: "NOTIFICATION", 4: "KEEPALIVE"}.get(kind, f"message {kind}")
    said, targets = "", []
    for kind, value in attributes(body[4:]):
        if kind == 14:
            label, words = route(value[17:])
            said = f"UPDATE {words} label {label} next hop {address(value[12:16])}"
        elif kind == 15:
            said = f"UPDATE withdraws {route(value[3:])[1]}"
        elif kind == 16:
            targets = [target(value[at], value[at + 2 : at + 8]) for at in range(0, len(value), 8)]
    return said + (f" target {' '.join(targets)}" if targets else "")


def attributes(data):
    """The attributes of an UPDATE: type and value."""
    while data:
        wide = 2 if data[0] & 0x10 else 1
        size = int.from_bytes(data[2 : 2 + wide], "big")
        yield data[1], data[2 + wide : 2 + wide + size]
        data = data[2 + wide + size :]


def packet_words(packet):
    """An IPv4 packet: its addresses and its protocol."""
    return f"{address(packet[12:16])} to {address(packet[16:20])} {PROTOCOLS.get(packet[9], f'protocol {packet[9]}')}"
