"""Ciphers, hashes, derived keys and stripes, as standards have vectors of them."""

import hashlib
import hmac
import struct

from cryptography.hazmat.primitives.ciphers import Cipher, algorithms, modes

from .ciphers import Side, split


def block_cipher(key):
    return Cipher(algorithms.AES(key), modes.ECB()).encryptor()


def doubled(tweak):
    """A tweak times the primitive element (IEEE 1619, section 5.2)."""
    number = int.from_bytes(tweak, "little") << 1
    return ((number ^ (0x87 if number >> 128 else 0)) % 2**128).to_bytes(16, "little")


def xor(a, b):
    return bytes(x ^ y for x, y in zip(a, b))


def xts(body, tweak, number, data):
    """Whole blocks sealed as one sector (IEEE 1619, section 5.3), block by block."""
    cipher, found = block_cipher(body), b""
    mask = block_cipher(tweak).update(struct.pack("<QQ", number, 0))
    for at in range(0, len(data), 16):
        found += xor(cipher.update(xor(data[at : at + 16], mask)), mask)
        mask = doubled(mask)
    return found


def cbc(body, iv, number, data):
    """Whole blocks sealed as one sector, block by block (NIST SP 800-38A, section 6.2)."""
    cipher, found = block_cipher(body), b""
    last = block_cipher(iv).update(struct.pack("<QQ", number, 0))
    for at in range(0, len(data), 16):
        last = cipher.update(xor(data[at : at + 16], last))
        found += last
    return found


def value(what, words, spelt):
    """The bytes that words tell to be calculated."""
    if what == "seal":
        name, key, sector, number, data = words
        return Side(name, spelt(key), int(sector)).sealed(spelt(data), int(number))
    if what in ("xts", "cbc"):
        body, other, number, data = words
        return (xts if what == "xts" else cbc)(spelt(body), spelt(other), int(number), spelt(data))
    hash_name, one, other, *numbers = words
    one, other, numbers = spelt(one), spelt(other), [int(number) for number in numbers]
    if what == "hmac":
        return hmac.new(one, other, hash_name).digest()
    if what == "derive":
        return hashlib.pbkdf2_hmac(hash_name, one, other, *numbers)
    assert what == "split", what
    (stripes,), size = numbers, len(one)
    return split(one, other[: (stripes - 1) * size], hash_name)[(stripes - 1) * size :]
