"""A zone that a stop left open, written again (docs/CONVERSION.md): what is saved of it is
opened under the old key, sealed under the new one and put where the zone is, part by part (by
checksum what is there of old atoms, as the digests tell, and new ones are put there again); and
the header gets the next number and the metadata with the boundary moved."""

import hashlib

from ..luks.ciphers import UNIT
from ..luks.header import LARGEST, text_of
from . import steps
from .zones import PART, Fault


class Mended:
    """A zone that is written again, by a header that is read."""

    def __init__(self, volume, header):
        self.volume, self.header = volume, header
        self.found = steps.Conversion(header.objects, volume.disks)
        self.zone = self.found.counts["zone"]
        self.text = b""
        if self.zone:
            self.text = text_of(steps.moved(header.objects, self.found, self.zone)).encode()
            if header.used.number == LARGEST:
                raise Fault("SeqEnd", 0, 1)
            if header.limit() < len(self.text):
                raise Fault("JsonFull", len(self.text), header.limit())

    def sealed_anew(self, old, at):
        """Old atoms from a block of the volume on, under the new key."""
        first = at * self.volume.atom // UNIT
        return self.volume.new.sealed(self.volume.old.opened(old, first), first)

    def part(self, disk, done, count, at):
        """Reads a part, and says what it is to be. By checksum an atom in the zone is an old one
        where it has the digest that was saved of it; all others are new."""
        volume, atom = self.volume, self.volume.atom
        saved = int(self.found.area["offset"])
        if self.found.area["type"] == "journal":
            return self.sealed_anew(disk.read(saved + done * atom, count * atom), at)
        digests = disk.read(saved + done * 32, -(-count * 32 // atom) * atom)
        here, new = disk.read(volume.offset + at * atom, count * atom), b""
        for k in range(count):
            one = here[k * atom :][:atom]
            is_old = hashlib.sha256(one).digest() == digests[32 * k :][:32]
            new += self.sealed_anew(one, at + k) if is_old else one
        return new

    def write(self, disk):
        """Its device calls."""
        volume, used = self.volume, self.header.used
        most = PART // volume.atom
        first = self.found.boundary - (0 if self.found.forward else self.zone)
        for done in range(0, self.zone, most):
            count, at = min(most, self.zone - done), first + done
            disk.put(volume.offset + at * volume.atom, self.part(disk, done, count, at))
        disk.settle()
        for which in range(2):
            copy = used.again(which, self.header.salts[which], used.number + 1, self.text)
            disk.put(which * used.size, copy)
            disk.settle()
