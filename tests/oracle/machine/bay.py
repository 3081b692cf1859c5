"""What commands find: disks and key files by their names, and seeds; and how a command ends."""

from ..conversion.begun import NoFit
from ..conversion.rules import first_broken
from ..conversion.steps import Disks
from ..conversion.zones import Fault
from ..luks import members
from ..luks.header import CopiesDiffer, Header, NoHeader
from .disk import Failed

class Ended(Exception):
    """A command ended: its status, its cause, and what it printed."""


def fault(number, name, cause=None):
    return Ended(number, cause or name, f"fault {number} {name}\n")


def told_as(ended, word):
    """An end of which people are told in words of which this is one."""
    ended.word = word
    return ended


def device(what, faults=1):
    return fault(2, "Device", f"Device {{ failing: {what}, faults: {faults} }}")


def no_fit(what, number, limit):
    return fault(8, "NoFit", f"NoFit {{ what: {what}, number: {number}, limit: {limit} }}")


def refused(found):
    """What ends a command where something doesn't fit, or headers to come have no number or no
    room."""
    what, first, second = found.args
    if isinstance(found, NoFit):
        return no_fit(what, first, second)
    return no_fit("Numbers", second, first) if what == "SeqEnd" else no_fit("Json", first, second)


class Bay:
    """Disks and key files by their names, the 32 bytes that are drawn, what clients at the
    address `A` send and how many bytes each takes at most, and the numbers of the calls that fail
    by whose they are. It keeps which disks were opened, the links' sessions, what a gate was told,
    and a word of what people are."""

    def __init__(self, disks, keys, seed, clients=(), room=None, fails_of=lambda _: ()):
        self.disks, self.keys, self.drawn_from = disks, keys, seed
        self.clients, self.room, self.fails_of = clients, room, fails_of
        self.asked = self.faults = 0
        self.opened, self.sessions, self.course = [], [], ""
        self.word = ""

    def answer(self, what, found):
        """What a call of the bay gives; None where it fails."""
        self.asked += 1
        if found is None or self.asked - 1 in self.fails_of("bay"):
            self.faults += 1
            raise device(what, self.faults)
        return found

    def disk(self, name, atom):
        disk = self.disks.get(name)
        is_there = disk is not None and disk not in self.opened and disk.atom == atom
        self.opened.append(self.answer("Opening", disk if is_there else None))
        return disk

    def passphrase(self, name):
        return self.answer("Keying", self.keys.get(name))[:513]

    def listen(self, address):
        self.answer("Listening", address == "A" or None)

    def seed(self):
        if 0 in self.fails_of("seeds"):
            raise fault(12, "Seeds", "Seeds { faults: 1 }")
        return self.drawn_from


class failing:
    """What device calls are made for: one that fails in here ends the command so, and so does a
    headers' text or number that doesn't fit."""

    def __init__(self, what, disk=None):
        self.what, self.disk = what, disk

    def __enter__(self):
        pass

    def __exit__(self, kind, found, _):
        if kind is Failed:
            raise device(self.what, self.disk.faults if self.disk else 1) from None
        if kind in (NoFit, Fault):
            raise refused(found) from None
        if kind is NoHeader:
            raise fault(3, "NoHeader") from None
        if kind is CopiesDiffer:
            raise fault(4, "Header") from None


def judge(disk, objects):
    """Whether a header's objects have all members, and keep the rules."""
    try:
        members.check(objects)
        rule = first_broken(objects, Disks(disk.atom, "attached", len(disk.held)))
    except (AttributeError, LookupError, TypeError, ValueError):
        raise told_as(fault(4, "Header"), "JSON fault") from None
    if rule == "Foreign":
        raise told_as(fault(7, "Foreign"), rule)
    if rule:
        raise told_as(fault(4, "Header"), rule)


def read_header(disk, what):
    with failing(what, disk):
        header = Header(disk)
    judge(disk, header.objects)
    return header
