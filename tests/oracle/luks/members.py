"""What the members of a header's objects are to be (LUKS2 On-Disk Format Specification 1.1, section 3;
docs/FORMATS.md)."""

import base64
import re

from .header import HEAD, LARGEST, REQUIREMENT, SIZES

CIPHERS = ("aes-xts-plain64", "aes-cbc-essiv:sha256")
HASHES = ("sha256", "sha512")
MOST_ROUNDS = 1 << 28


def wants(is_so):
    if not is_so:
        raise ValueError("a member isn't what it is to be")


def number_text(text):
    """A number of 64 bits in decimal digits, without a sign or a zero in front."""
    wants(isinstance(text, str) and re.fullmatch("0|[1-9][0-9]*", text))
    wants(int(text) <= LARGEST)


def number(found, lowest, highest):
    wants(type(found) is int and lowest <= found <= highest)


def bytes_text(text):
    wants(isinstance(text, str))
    base64.b64decode(text, validate=True)


def texts(found, each=lambda text: wants(isinstance(text, str))):
    wants(isinstance(found, list))
    for text in found:
        each(text)


def extent(found):
    number_text(found["offset"])
    number_text(found["size"])


def segment(found):
    wants(found["type"] in ("crypt", "linear") and "integrity" not in found)
    number_text(found["offset"])
    if found["size"] != "dynamic":
        number_text(found["size"])
    texts(found.get("flags", []))
    if found["type"] == "crypt":
        number_text(found["iv_tweak"])
        wants(found["encryption"] in CIPHERS and found["sector_size"] in (512, 1024, 2048, 4096))


def keyslot(found, is_own):
    wants(isinstance(found["type"], str))
    if found["type"] == "luks2":
        kdf, af, area = found["kdf"], found["af"], found["area"]
        number(found["key_size"], 1, LARGEST)
        wants(area["type"] == "raw" and isinstance(area["encryption"], str))
        number(area["key_size"], 1, LARGEST)
        wants(af["type"] == "luks1" and isinstance(af["hash"], str))
        number(af["stripes"], 1, LARGEST)
        wants(isinstance(kdf["type"], str))
        bytes_text(kdf["salt"])
        if kdf["type"] == "pbkdf2":
            number(kdf["iterations"], 1, MOST_ROUNDS)
        number(found.get("priority", 1), 0, 2)
    is_conversion = found["type"] == "reencrypt" and is_own
    if is_conversion:
        conversion(found)
    if found["type"] == "luks2" or is_conversion or "area" in found:
        extent(found["area"])


def conversion(found):
    number(found["key_size"], 1, 1)
    wants(found["mode"] in ("reencrypt", "encrypt", "decrypt"))
    wants(found["direction"] in ("forward", "backward"))
    area = found["area"]
    wants(area["type"] in ("journal", "checksum", "datashift"))
    if area["type"] == "checksum":
        wants(area["hash"] == "sha256")
        number(area["sector_size"], 1, LARGEST)
    if area["type"] == "datashift":
        number_text(area["shift_size"])


def digest(found):
    wants(found["type"] == "pbkdf2" and found["hash"] in HASHES)
    texts(found["keyslots"], number_text)
    texts(found["segments"], number_text)
    number(found["iterations"], 1, MOST_ROUNDS)
    bytes_text(found["salt"])
    bytes_text(found["digest"])


def token(found):
    wants(isinstance(found["type"], str))


def config(found):
    number_text(found["json_size"])
    number_text(found["keyslots_size"])
    wants(int(found["json_size"]) + HEAD in SIZES)
    if "requirements" in found:
        texts(found["requirements"]["mandatory"])


def owned(config):
    """Whether no program but ours has put a requirement there, whose keyslots only it could read."""
    mandatory = config.get("requirements", {}).get("mandatory", [])
    return all(text == REQUIREMENT for text in mandatory)


def check(objects):
    """Raises an error where a member lacks, or isn't what it is to be."""
    is_own = owned(objects["config"])
    parts = {
        "segments": segment,
        "keyslots": lambda found: keyslot(found, is_own),
        "digests": digest,
        "tokens": token,
    }
    for name, of_one in parts.items():
        for key, found in objects[name].items():
            number_text(key)
            of_one(found)
    config(objects["config"])
