#!/usr/bin/env python3
"""Prints the plain content of the LUKS2 volume in FILE under the passphrase that is all of KEY_FILE.

Another reading of the LUKS2 On-Disk Format Specification 1.1, over hashlib and the AES of `cryptography`:
for one crypt segment, keyslots by PBKDF2, aes-xts-plain64 and aes-cbc-essiv:sha256.
"""
import hashlib
import json
import sys
from base64 import b64decode

from cryptography.hazmat.primitives.ciphers import Cipher, algorithms, modes


def sectors(name, key, size, first, data):
    """What sectors of `size` bytes open to, the first of which has this number in units of 512 bytes."""
    out = []
    essiv = Cipher(algorithms.AES(hashlib.sha256(key).digest()), modes.ECB()) if "essiv" in name else None
    for at in range(0, len(data), size):
        number = (first + at // 512).to_bytes(16, "little")
        if essiv is None:
            mode = modes.XTS((int.from_bytes(number, "little")).to_bytes(16, "little"))
        else:
            mode = modes.CBC(essiv.encryptor().update(number))
        opening = Cipher(algorithms.AES(key), mode).decryptor()
        out.append(opening.update(data[at : at + size]) + opening.finalize())
    return b"".join(out)


def diffused(block, name):
    length = hashlib.new(name).digest_size
    parts = [block[i : i + length] for i in range(0, len(block), length)]
    return b"".join(
        hashlib.new(name, i.to_bytes(4, "big") + part).digest()[: len(part)] for i, part in enumerate(parts)
    )


def merged(stripes, size, name):
    block = bytes(size)
    count = len(stripes) // size
    for k in range(count):
        block = bytes(a ^ b for a, b in zip(block, stripes[k * size : (k + 1) * size]))
        if k + 1 < count:
            block = diffused(block, name)
    return block


def key_of(image, header, passphrase):
    digest = next(iter(header["digests"].values()))
    for number in digest["keyslots"]:
        slot = header["keyslots"][number]
        kdf, area, split = slot["kdf"], slot["area"], slot["af"]
        if kdf["type"] != "pbkdf2":
            continue
        area_key = hashlib.pbkdf2_hmac(
            kdf["hash"], passphrase, b64decode(kdf["salt"]), kdf["iterations"], area["key_size"]
        )
        length = slot["key_size"] * split["stripes"]
        begin = int(area["offset"])
        sealed = image[begin : begin + -(-length // 512) * 512]
        stripes = sectors(area["encryption"], area_key, 512, 0, sealed)[:length]
        key = merged(stripes, slot["key_size"], split["hash"])
        stored = b64decode(digest["digest"])
        salt = b64decode(digest["salt"])
        if hashlib.pbkdf2_hmac(digest["hash"], key, salt, digest["iterations"], len(stored)) == stored:
            return key
    sys.exit("no keyslot gives a key")


def header_of(image):
    """The objects of a header's text."""
    return json.loads(image[4096 : int.from_bytes(image[8:16], "big")].split(b"\0")[0])


def main(path, key_path):
    image = open(path, "rb").read()
    header = header_of(image)
    key = key_of(image, header, open(key_path, "rb").read())
    (segment,) = header["segments"].values()
    data = image[int(segment["offset"]) :]
    if segment["size"] != "dynamic":
        data = data[: int(segment["size"])]
    first = int(segment["iv_tweak"])
    sys.stdout.buffer.write(sectors(segment["encryption"], key, segment["sector_size"], first, data))


if __name__ == "__main__":
    main(*sys.argv[1:])
