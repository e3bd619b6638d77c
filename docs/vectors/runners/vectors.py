#!/usr/bin/env python3
"""Gives each vector to `receive` and tells each that is answered otherwise: vectors.py FOLDER; status 1 where one is."""

import json
import sys
from pathlib import Path


def receive(protocol, data):
    """Your reader stands here: "taken", "refused", or the code of the status with which it refuses; None is no answer."""
    if protocol == "ldp":
        if len(data) < 10:
            return "refused"
        if data[:2] != b"\0\1":
            return "00000002"
        if len(data) < 18 or int.from_bytes(data[2:4], "big") != len(data) - 4:
            return "00000003"
        size = int.from_bytes(data[12:14], "big")
        return "00000005" if size < 4 or 14 + size > len(data) else None
    if len(data) < 19:
        return "refused"
    if data[:16] != b"\xff" * 16:
        return "1/1"
    least = {1: 29, 2: 23, 3: 21}.get(data[18], 19)
    size = int.from_bytes(data[16:18], "big")
    if size != len(data) or not least <= size <= 4096 or data[18] == 4 and size != 19:
        return "1/2"
    return "taken" if data[18] == 4 else None if data[18] in (1, 2, 3) else "1/3"


def reply_of(vector):
    """The status in the reply's bytes, as the vector has it: the E bit is apart."""
    reply = bytes.fromhex(vector["reply"])
    return f"{int.from_bytes(reply[22:26], 'big') & 0x3FFFFFFF:08X}" if vector["protocol"] == "ldp" else f"{reply[19]}/{reply[20]}"


def main(folder):
    wrong = 0
    for name in ("ldp", "bgp", "bulk", "sessions"):
        entries = json.loads((folder / f"{name}.json").read_text())
        vectors = [one for entry in entries for one in entry.get("steps", [entry])]
        answered = 0
        for vector in vectors:
            wanted = "taken" if vector["accept"] else vector["status"]["code"] if "status" in vector else "refused"
            told = receive(vector["protocol"], bytes.fromhex(vector["hex"]))
            answered += told is not None
            if told not in (None, wanted) or "reply" in vector and reply_of(vector) != wanted:
                wrong += 1
                print(f"{name}: {vector.get('name', vector['hex'])}: {told}, and not {wanted}")
        print(f"{name}: {len(vectors)} vectors, {answered} answered")
    return 1 if wrong else 0


if __name__ == "__main__":
    sys.exit(main(Path(sys.argv[1] if len(sys.argv) > 1 else ".")))
