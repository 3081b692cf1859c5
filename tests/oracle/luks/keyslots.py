"""Keys in keyslots (LUKS2 On-Disk Format Specification 1.1, section 3.3; docs/FORMATS.md)."""

import base64
import functools
import hashlib

from .ciphers import STRIPES, UNIT, Side, merged
from .header import numbered

HASHES = ("sha256", "sha512")
KEY_SIZES = {"aes-xts-plain64": (32, 64), "aes-cbc-essiv:sha256": (16, 32)}


def is_supported(slot, ciphers):
    """Whether a keyslot is one that is tried, for a volume under these ciphers."""
    if slot["type"] != "luks2" or slot.get("priority") == 0:
        return False
    kdf, af, area, size = slot["kdf"], slot["af"], slot["area"], slot["key_size"]
    if kdf["type"] != "pbkdf2" or kdf["hash"] not in HASHES:
        return False
    if af["hash"] not in HASHES or af["stripes"] != STRIPES:
        return False
    if any(size not in KEY_SIZES.get(cipher, ()) for cipher in ciphers):
        return False
    fits = size * STRIPES <= int(area["size"])
    return fits and area["key_size"] in KEY_SIZES.get(area["encryption"], ())


@functools.lru_cache(None)
def key_in(data, passphrase, kdf, af_hash, area, size):
    """The key of so many bytes that a passphrase unseals from the bytes of a keyslot's area:
    `kdf` are its hash, salt and iterations, and `area` its encryption and the bytes of its key."""
    hash_name, salt, iterations = kdf
    encryption, key_size = area
    area_key = hashlib.pbkdf2_hmac(hash_name, passphrase, salt, iterations, key_size)
    stripes = Side(encryption, area_key, UNIT).opened(data, 0)
    return merged(stripes[: size * STRIPES], size, af_hash)


@functools.lru_cache(None)
def digest_of(key, hash_name, salt, iterations, length):
    return hashlib.pbkdf2_hmac(hash_name, key, salt, iterations, length)


def is_of(key, digest):
    """Whether a key has this digest, which is of 20 to 64 bytes."""
    wanted, salt = base64.b64decode(digest["digest"]), base64.b64decode(digest["salt"])
    if not 20 <= len(wanted) <= 64 or digest["hash"] not in HASHES:
        return False
    return digest_of(key, digest["hash"], salt, digest["iterations"], len(wanted)) == wanted


def unlock(disk, objects, digests, passphrase):
    """Reads the areas of the keyslots that digests list, those that are preferred first and else
    by rising number, until one gives the passphrase the key of such a digest: that key."""
    segments = [objects["segments"][number] for digest in digests for number in digest["segments"]]
    ciphers = {segment["encryption"] for segment in segments if segment["type"] == "crypt"}
    slots = numbered(objects["keyslots"])
    for number, slot in sorted(slots, key=lambda entry: -entry[1].get("priority", 1)):
        listing = [digest for digest in digests if number in digest["keyslots"]]
        if not listing or not is_supported(slot, ciphers):
            continue
        area, kdf, size = slot["area"], slot["kdf"], slot["key_size"]
        whole = -(-size * STRIPES // UNIT) * UNIT
        read = -(-whole // disk.atom) * disk.atom
        data = disk.read(int(area["offset"]), read)[:whole]
        derived = kdf["hash"], base64.b64decode(kdf["salt"]), kdf["iterations"]
        sealed = area["encryption"], area["key_size"]
        key = key_in(data, passphrase, derived, slot["af"]["hash"], sealed, size)
        if any(is_of(key, digest) for digest in listing):
            return key
    return None
