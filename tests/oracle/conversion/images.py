"""What an image of a volume in the middle of its conversion holds, by the header that it has."""

import hashlib

from ..luks.ciphers import UNIT
from ..luks.header import Header, numbered
from ..machine.disk import Disk
from .steps import FINAL, PREVIOUS, ZONE, digest_of


def content_of_zone(volume, image, place, first, count):
    """What the blocks of an open zone open to: by journal what was saved of them; by checksum
    what is in their places, under the old key where it has the digest that was saved."""
    atom, area = volume.atom, volume.found.area
    saved, units = int(area["offset"]), atom // UNIT
    if area["type"] == "journal":
        return volume.old.opened(image[saved : saved + count * atom], first * units)
    data = b""
    for k in range(count):
        found = image[place + k * atom :][:atom]
        is_old = hashlib.sha256(found).digest() == image[saved + 32 * k :][:32]
        side = volume.old if is_old else volume.new
        data += side.opened(found, (first + k) * units)
    return data


def content(volume, image):
    """What a volume's blocks are by the live segments of the header."""
    objects, found, first = Header(Disk(volume.atom, image)).objects, b"", 0
    for number, segment in numbered(objects["segments"]):
        flags = segment.get("flags", [])
        if flags in (PREVIOUS, FINAL):
            break
        count, place = int(segment["size"]) // volume.atom, int(segment["offset"])
        side = volume.new if digest_of(objects, number) == volume.found.new_digest else volume.old
        assert (segment["encryption"], segment["sector_size"]) == (side.name, side.sector)
        if flags == ZONE:
            found += content_of_zone(volume, image, place, first, count)
        else:
            data = image[place : place + count * volume.atom]
            found += side.opened(data, int(segment["iv_tweak"]) - side.tweak)
        first += count
    assert first == volume.blocks
    return found
