"""Ciphers of sectors, the anti-forensic split and what is drawn, by hashlib and cryptography."""

import base64
import functools
import hashlib
import struct

from cryptography.hazmat.primitives.ciphers import Cipher, algorithms, modes

STRIPES = 4000
UNIT = 512


def by_64(data):
    return base64.b64encode(data).decode()


def sum_of(data):
    return hashlib.sha256(data).hexdigest()


def pages(length):
    """So many bytes in whole pages."""
    return -(-length // 4096) * 4096


def area_size(key_size):
    """The bytes of a keyslot's area: the stripes, in whole pages."""
    return pages(key_size * STRIPES)


def drawn(seed, length):
    """The key stream of ChaCha20 (RFC 8439), from its first block on."""
    return Cipher(algorithms.ChaCha20(seed, bytes(16)), None).encryptor().update(bytes(length))


# ---- sectors


def cipher_of(name, key, number):
    """The cipher of a sector with this number."""
    plain = struct.pack("<QQ", number, 0)
    if name == "aes-xts-plain64":
        return Cipher(algorithms.AES(key), modes.XTS(plain))
    assert name == "aes-cbc-essiv:sha256", name
    under = Cipher(algorithms.AES(hashlib.sha256(key).digest()), modes.ECB()).encryptor()
    return Cipher(algorithms.AES(key), modes.CBC(under.update(plain)))


@functools.lru_cache(1 << 14)
def sector_turned(name, key, number, data, how):
    """One sector, sealed (`encryptor`) or opened (`decryptor`)."""
    cipher = getattr(cipher_of(name, key, number), how)()
    return cipher.update(data) + cipher.finalize()


class Side:
    """A key with its cipher and its sectors, which are numbered in units of 512 bytes."""

    def __init__(self, name, key, sector, tweak=0):
        self.name, self.key, self.sector, self.tweak = name, key, sector, tweak

    def turned(self, data, first, how):
        """Whole sectors, sealed or opened, of which the first is so many units behind the
        segment's."""
        found, first = [], first + self.tweak
        for place in range(0, len(data), self.sector):
            one = data[place : place + self.sector]
            found.append(sector_turned(self.name, self.key, first + place // UNIT, one, how))
        return b"".join(found)

    def sealed(self, data, first):
        return self.turned(data, first, "encryptor")

    def opened(self, data, first):
        return self.turned(data, first, "decryptor")


# ---- the anti-forensic split


def xor(a, b):
    return (int.from_bytes(a, "big") ^ int.from_bytes(b, "big")).to_bytes(len(a), "big")


def diffuse(data, hash_name):
    """The diffusion of the anti-forensic split."""
    size, found = hashlib.new(hash_name).digest_size, b""
    for place in range(0, len(data), size):
        part = data[place : place + size]
        number = struct.pack(">I", place // size)
        found += hashlib.new(hash_name, number + part).digest()[: len(part)]
    return found


def mixed(stripes, size, hash_name="sha256"):
    """What the last stripe is added to."""
    found = bytes(size)
    for place in range(0, len(stripes), size):
        found = diffuse(xor(found, stripes[place : place + size]), hash_name)
    return found


def split(key, stripes, hash_name="sha256"):
    """The stripes of a key, of which all but the last are drawn."""
    return stripes + xor(mixed(stripes, len(key), hash_name), key)


def merged(stripes, size, hash_name):
    """The key that stripes merge to."""
    return xor(mixed(stripes[:-size], size, hash_name), stripes[-size:])


# ---- keyslots


@functools.lru_cache(64)
def sealed_stripes(key, drawn_stripes, passphrase, salt, iterations):
    """A key's stripes under a passphrase, in whole sectors."""
    area_key = hashlib.pbkdf2_hmac("sha256", passphrase, salt, iterations, 64)
    stripes = split(key, drawn_stripes)
    return Side("aes-xts-plain64", area_key, UNIT).sealed(stripes + bytes(-len(stripes) % UNIT), 0)


class KeyDraw:
    """A key and what is drawn with it, in this order: the key, the keyslot's salt, the stripes
    but the last, and the digest's salt; what a volume's making draws besides is left."""

    def __init__(self, key_size, data):
        self.left = data
        self.key = self.take(key_size)
        self.slot_salt = self.take(32)
        self.stripes = self.take(key_size * (STRIPES - 1))
        self.digest_salt = self.take(32)

    def take(self, count):
        taken, self.left = self.left[:count], self.left[count:]
        return taken

    def area(self, passphrase, iterations, atom):
        """The bytes of the keyslot's area, in whole atoms."""
        area = sealed_stripes(self.key, self.stripes, passphrase, self.slot_salt, iterations)
        return area + bytes(-len(area) % atom)

    def slot(self, place, iterations):
        """The keyslot's object, whose area is at this place."""
        return {
            "type": "luks2",
            "key_size": len(self.key),
            "area": {
                "type": "raw",
                "encryption": "aes-xts-plain64",
                "key_size": 64,
                "offset": str(place),
                "size": str(area_size(len(self.key))),
            },
            "kdf": {
                "type": "pbkdf2",
                "hash": "sha256",
                "iterations": iterations,
                "salt": by_64(self.slot_salt),
            },
            "af": {"type": "luks1", "stripes": STRIPES, "hash": "sha256"},
        }

    def digest(self):
        """The digest's object, without the keyslots and segments that it lists."""
        digest = hashlib.pbkdf2_hmac("sha256", self.key, self.digest_salt, 1000, 32)
        return {
            "type": "pbkdf2",
            "hash": "sha256",
            "iterations": 1000,
            "salt": by_64(self.digest_salt),
            "digest": by_64(digest),
        }
