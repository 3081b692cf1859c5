"""Conversions that are led zone by zone: the device calls of each zone and of the finish, one
after the other (docs/CONVERSION.md), with the metadata of steps.py."""

import hashlib

from ..luks.ciphers import UNIT
from ..luks.header import LARGEST, REQUIREMENT, Header, numbered, text_of
from ..machine.disk import Disk
from . import steps

PART = 1048576


class Fault(Exception):
    """Why no step follows: `SeqEnd`, how many numbers are left and how many are wanted, or
    `JsonFull`, a text's length and the limit."""


class Led:
    """The conversion of a volume that is led on, on a disk whose header is read."""

    def __init__(self, volume, disk):
        header = Header(Disk(disk.atom, disk.bytes()))
        self.volume, self.disk, self.over = volume, disk, False
        self.used, self.salts, self.limit = header.used, header.salts, header.limit()
        self.disks = steps.Disks(disk.atom, "attached", len(disk.held))
        self.number, self.objects = header.used.number, header.objects
        self.found = steps.Conversion(self.objects, self.disks)

    def hold(self, objects):
        """This is the header now."""
        self.number, self.objects = self.number + 1, objects
        if REQUIREMENT in objects["config"].get("requirements", {}).get("mandatory", []):
            self.found = steps.Conversion(objects, self.disks)

    def range(self):
        """The first block of the next zone, and the one behind it; none where no block is old."""
        count = min(self.found.counts["old"], self.found.capacity)
        if not count:
            return None
        if self.found.forward:
            return self.found.boundary, self.found.boundary + count
        return self.found.boundary - count, self.found.boundary

    def texts(self, *objects):
        """The texts of headers to come, of which each has a number."""
        texts = [text_of(one).encode() for one in objects]
        left = LARGEST - self.number
        if left < len(texts):
            raise Fault("SeqEnd", left, len(texts))
        for text in texts:
            if self.limit < len(text):
                raise Fault("JsonFull", len(text), self.limit)
        return texts

    def commit(self, text, objects):
        """The four calls of a commit."""
        for which in range(2):
            copy = self.used.again(which, self.salts[which], self.number + 1, text)
            self.disk.put(which * self.used.size, copy)
            self.disk.settle()
        self.hold(objects)

    def saved(self, done, old):
        """What is saved of a part behind so many blocks, and how far behind the area's begin."""
        atom = self.volume.atom
        if self.found.area["type"] == "journal":
            return done * atom, old
        atoms = [old[at : at + atom] for at in range(0, len(old), atom)]
        text = b"".join(hashlib.sha256(one).digest() for one in atoms)
        return done * 32, text + bytes(-len(text) % atom)

    def zone(self, start, end):
        """The device calls of a zone."""
        volume, disk, count = self.volume, self.disk, end - start
        units, most = volume.atom // UNIT, PART // volume.atom
        parts = [(at, min(most, count - at)) for at in range(0, count, most)]
        own = lambda done: volume.offset + (start + done) * volume.atom
        store = int(self.found.area["offset"])
        disk.settle()
        for done, length in parts:
            old = disk.read(own(done), length * volume.atom)
            if done == 0:
                opened = steps.opened(self.objects, self.found, count)
                moved = steps.moved(opened, steps.Conversion(opened, self.disks), count)
                texts = self.texts(opened, moved)
            place, text = self.saved(done, old)
            disk.put(store + place, text)
        disk.settle()
        self.commit(texts[0], opened)
        for done, length in parts:
            if len(parts) > 1:
                old = disk.read(own(done), length * volume.atom)
            first = (start + done) * units
            disk.put(own(done), volume.new.sealed(volume.old.opened(old, first), first))
        disk.settle()
        self.commit(texts[1], moved)

    def finish(self):
        """The device calls of the end: of the keyslots that go, the areas of all but the
        conversion's are filled with zeros."""
        finished = steps.finished(self.objects, self.disks, self.found)
        (text,) = self.texts(finished)
        slots = numbered(self.objects["keyslots"])
        gone = [slot for number, slot in slots if number not in finished["keyslots"]]
        self.commit(text, finished)
        for slot in gone:
            if slot["type"] != "reencrypt":
                area = slot["area"]
                self.disk.put(int(area["offset"]), bytes(int(area["size"])))
        self.disk.settle()
        self.over = True

    def step_on(self):
        """Leads the zone at hand, or the finish."""
        found = self.range()
        if found:
            self.zone(*found)
        else:
            self.finish()

    def lead(self):
        while not self.over:
            self.step_on()
