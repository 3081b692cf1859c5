#!/usr/bin/env python3
"""Prints what `reencd status` has to say of an idle header on a disk: FILE ATOM. It reads the
primary copy by itself: the binary header's numbers, and the JSON area by Python's own reader."""
import json
import struct
import sys


def main(path, atom):
    with open(path, "rb") as disk:
        data = disk.read()
    size, seqid = struct.unpack(">QQ", data[8:24])
    uuid = data[168:208].split(b"\0")[0].decode()
    area = json.loads(data[4096:size].split(b"\0")[0])
    print(f"uuid: {uuid.lower()}")
    print(f"seqid: {seqid}")
    print("state: idle")
    (segment,) = area["segments"].values()
    offset = int(segment["offset"])
    length = len(data) - offset if segment["size"] == "dynamic" else int(segment["size"])
    how = "linear"
    if segment["type"] == "crypt":
        how = f"{segment['encryption']} sector {segment['sector_size']}"
    print(f"live: {how} offset {offset} blocks {length // atom}")
    known = ("pbkdf2", "argon2i", "argon2id")
    for number, slot in sorted((int(k), v) for k, v in area["keyslots"].items()):
        kind = slot["type"]
        if kind == "luks2":
            kdf = slot["kdf"]["type"]
            kind = "luks2 " + (kdf if kdf in known else "other")
        elif kind != "reencrypt":
            kind = "other"
        print(f"slot {number}: {kind}")


main(sys.argv[1], int(sys.argv[2]))
