"""`serve` for clients whose bytes are there: the volume is opened, the sessions follow one
another, and a conversion is led to its end behind them. What is read and written of the disk
goes by pieces of at most 1 MiB on one side (docs/CONVERSION.md)."""

from ..conversion.zones import Led
from ..luks.ciphers import UNIT
from ..luks.header import Header
from ..nbd import server as nbd
from .bay import Ended, device, failing, fault, no_fit, read_header
from .commands import (
    COMMANDS,
    checked,
    find_key,
    is_encrypted,
    led_to_its_end,
    side_of,
    taken_up,
)
from .disk import Failed

PIECE = 1048576


class Plain:
    """A side whose blocks aren't encrypted."""

    def sealed(self, data, _):
        return data

    opened = sealed


class Blocks:
    """A volume's blocks on a disk: where they begin, and how many in a row each side has."""

    def __init__(self, disk, offset, runs):
        self.disk, self.offset, self.runs = disk, offset, [run for run in runs if run[0]]
        self.broken = False

    def pieces(self, at, length):
        """The pieces of so many bytes, each with its side."""
        end, last = at + length, 0
        for count, side in self.runs:
            first, last = last, last + count * self.disk.atom
            while first <= at < min(last, end):
                size = min(last, end, at + PIECE) - at
                yield at, size, side
                at += size

    def call(self, made, *words):
        """A device call; what fails breaks the volume, unless it reads."""
        if self.broken:
            raise Failed("broken")
        try:
            return made(*words)
        except Failed as failed:
            self.broken = failed.args[0] != "read"
            raise

    def read_piece(self, place, size, side):
        return side.opened(self.call(self.disk.read, self.offset + place, size), place // UNIT)

    def write(self, at, data):
        for place, size, side in self.pieces(at, len(data)):
            sealed = side.sealed(data[place - at :][:size], place // UNIT)
            self.call(self.disk.put, self.offset + place, sealed)

    def content(self):
        """What all blocks hold."""
        found, at = [], 0
        image = self.disk.bytes()
        for count, side in self.runs:
            length = count * self.disk.atom
            found.append(side.opened(image[self.offset + at :][:length], at // UNIT))
            at += length
        return b"".join(found)


class OnDisk(nbd.Session):
    """A session whose requests are carried out on a disk."""

    def __init__(self, blocks, sent, room):
        self.blocks = blocks
        super().__init__(bytearray(blocks.content()), blocks.disk.atom, sent, room=room)

    def carried_out(self, kind, flags, offset, data):
        blocks, is_broken = self.blocks, self.blocks.broken
        try:
            if kind == nbd.READ:
                for place, size, side in blocks.pieces(offset, len(data)):
                    self.failed_at = None if is_broken else place
                    self.disk[place : place + size] = blocks.read_piece(place, size, side)
                self.failed_at = None
            elif kind == nbd.FLUSH:
                blocks.call(blocks.disk.settle)
            else:
                blocks.write(offset, data)
                if flags & nbd.FUA and data:
                    blocks.call(blocks.disk.settle)
            return super().carried_out(kind, flags, offset, data)
        except Failed:
            return nbd.EIO


def opened_idle(disk, header, passphrase):
    """Opens a volume of which nothing is being converted by the header that was read."""
    passphrase, key = checked(passphrase), None
    if is_encrypted(header.objects):
        key = find_key(disk, header.objects, header.objects["digests"].values(), passphrase)
    with failing("Starting", disk):
        disk.settle()
        header = Header(disk)
        header.repair(disk)
    (live,) = header.objects["segments"].values()
    blocks = (disk.atom * len(disk.held) - int(live["offset"])) // disk.atom
    if live["size"] != "dynamic":
        blocks = int(live["size"]) // disk.atom
    side = Plain()
    if key:
        side = side_of(live, key)
    return Blocks(disk, int(live["offset"]), [(blocks, side)])


def in_the_middle(disk, volume):
    """The blocks of a volume of which a conversion is under way."""
    found = Led(volume, disk).found
    new = found.counts["new"]
    runs = [(new, volume.new), (found.blocks - new, volume.old)]
    return Blocks(disk, volume.offset, runs if found.forward else runs[::-1])


def opened(bay, disk, wish):
    """The blocks that are served, and the volume that is led on, if there is one."""
    if wish.plain:
        if not disk.held:
            raise no_fit("Blocks", 0, 1)
        return Blocks(disk, 0, [(len(disk.held), Plain())]), None
    passphrase = bay.passphrase(wish.key_file)
    header = read_header(disk, "Reading")
    if not header.in_progress():
        return opened_idle(disk, header, passphrase), None
    volume = taken_up(disk, passphrase)
    return in_the_middle(disk, volume), None if wish.no_worker else volume


def served(bay, wish, blocks):
    """Serves the clients in the order of their numbers, each by its link, up to the call at
    which that fails; how many links fail."""
    clients, failed = bay.clients[: wish.sessions], 0
    lasts = []
    for link in range(wish.workers):
        asked = len(clients[link :: wish.workers]) + 1
        fails = [call for call in bay.fails_of(f"link{link}") if call < asked]
        lasts.append(min(fails, default=asked))
        failed += bool(fails)
    for number, sent in enumerate(clients):
        call, link = divmod(number, wish.workers)
        if call < lasts[link]:
            bay.sessions.append((link, number, OnDisk(blocks, sent, bay.room)))
    return failed


def serve(bay, wish):
    disk = bay.disk(wish.disk, wish.atom)
    blocks, volume = opened(bay, disk, wish)
    bay.listen(wish.listen)
    failed = served(bay, wish, blocks)
    if blocks.broken:
        raise device("Writing", disk.faults)
    if volume:
        failing_at = lambda: "Writing" if disk.is_broken else "Converting"
        led_to_its_end(bay, disk, volume, failing_at)
    if failed:
        raise fault(10, "Link", f"Link {{ failed: {failed}, faults: 1 }}")
    raise Ended(0, "Fine", f"served {len(bay.sessions)} sessions\n")


COMMANDS["serve"] = serve
