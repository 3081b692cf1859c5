"""The two copies of a header, and which of them is used (LUKS2 On-Disk Format Specification 1.1,
sections 2 and 3; docs/FORMATS.md)."""

import hashlib
import json
import struct

MAGICS = [b"LUKS\xba\xbe", b"SKUL\xba\xbe"]
SIZES = [16384 << k for k in range(9)]
HEAD = 4096
REQUIREMENT = "reencd-online-reencrypt-v1"
LARGEST = 2**64 - 1


def text_of(objects):
    """Compact, with the keys of each object in byte order."""
    return json.dumps(objects, sort_keys=True, separators=(",", ":"), ensure_ascii=False)


def numbered(objects):
    """The entries of an object whose keys are numbers, by rising number."""
    return sorted(objects.items(), key=lambda entry: int(entry[0]))


def lowest(objects):
    """The lowest number that none has, as a text."""
    number = 0
    while str(number) in objects:
        number += 1
    return str(number)


def summed(data):
    """A copy with the checksum of all its bytes."""
    data = data[:448] + bytes(64) + data[512:]
    return data[:448] + hashlib.sha256(data).digest() + data[480:]


def copy_of(which, size, number, text, salt, identifier=""):
    """The primary copy (0) or the secondary (1) of a header."""
    head = MAGICS[which] + struct.pack(">HQQ", 2, size, number)
    head += bytes(48) + b"sha256".ljust(32, b"\0") + salt
    head += identifier.encode().ljust(40, b"\0") + bytes(48)
    head = (head + struct.pack(">Q", which * size)).ljust(HEAD, b"\0")
    return summed(head + text.ljust(size - HEAD, b"\0"))


class Copy:
    """One copy of a header, with its bytes."""

    def __init__(self, data):
        self.data = data
        self.size, self.number = struct.unpack(">QQ", data[8:24])
        self.identifier = data[168:208].partition(b"\0")[0].decode()
        self.text = data[HEAD:].partition(b"\0")[0]
        self.salt = data[104:168]

    def again(self, which, salt, number=None, text=None):
        """The same copy at another place, with this salt; or the next one, with another text."""
        data = bytearray(self.data)
        data[0:6] = MAGICS[which]
        data[104:168] = salt
        data[256:264] = struct.pack(">Q", which * self.size)
        if number is not None:
            data[16:24] = struct.pack(">Q", number)
            data[HEAD:] = text.ljust(self.size - HEAD, b"\0")
        return summed(bytes(data))


# where the label, the checksum's algorithm, the identifier and the subsystem stand
TEXTS = [(24, 72), (72, 104), (168, 208), (208, 256)]


def valid_copy(data, place):
    """The copy that bytes are, or none."""
    if data[:6] != MAGICS[0 if place == 0 else 1] or data[6:8] != b"\0\2":
        return None
    if data[72:79] != b"sha256\0" or any(b"\0" not in data[at:end] for at, end in TEXTS):
        return None
    if summed(data)[448:512] != data[448:512]:
        return None
    return Copy(data) if struct.unpack(">Q", data[256:264])[0] == place else None


def read_copy(disk, place):
    """The copy at a place: its head is read, and where this tells its size the whole."""
    there = disk.atom * len(disk.held) - place
    if there < HEAD:
        return None
    head = disk.read(place, HEAD)
    size = struct.unpack(">Q", head[8:16])[0]
    if head[:6] != MAGICS[0 if place == 0 else 1] or size not in SIZES or there < size:
        return None
    return valid_copy(disk.read(place, size), place)


class NoHeader(Exception):
    """Neither copy is right."""


class CopiesDiffer(Exception):
    """Both copies have one number, and are otherwise not the same."""


def meaning(copy):
    """The bytes that both copies have."""
    data = bytearray(copy.data)
    for start, end in [(0, 6), (104, 168), (256, 264), (448, 512)]:
        data[start:end] = bytes(end - start)
    return bytes(data)


def objects_in(text):
    """The objects of a header's text; none of one that is no JSON."""
    try:
        found = json.loads(text)
    except ValueError:
        return {}
    return found if isinstance(found, dict) else {}


class Header:
    """The header that a disk has: the copy that is used, the salts of both, and which one is to be
    written anew."""

    def __init__(self, disk):
        primary = read_copy(disk, 0)
        if primary:
            secondary = read_copy(disk, primary.size)
        else:
            found = (read_copy(disk, size) for size in SIZES)
            secondary = next((copy for copy in found if copy), None)
        copies = [primary, secondary]
        there = [copy for copy in copies if copy]
        if not there:
            raise NoHeader
        if len(there) == 2 and primary.number == secondary.number:
            if meaning(primary) != meaning(secondary):
                raise CopiesDiffer
        self.used = max(there, key=lambda copy: copy.number)
        self.salts = [(copy or self.used).salt for copy in copies]
        worse = [not copy or copy.number < self.used.number for copy in copies]
        self.repairs = worse.index(True) if True in worse else None
        self.objects = objects_in(self.used.text)

    def in_progress(self):
        required = self.objects["config"].get("requirements", {}).get("mandatory", [])
        return REQUIREMENT in required

    def limit(self):
        """The most bytes of a text."""
        return self.used.size - HEAD - 1

    def repair(self, disk):
        """Writes the copy anew that lacks or is older."""
        if self.repairs is not None:
            copy = self.used.again(self.repairs, self.salts[self.repairs])
            disk.put(self.repairs * self.used.size, copy)
            disk.settle()
