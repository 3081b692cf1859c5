"""The metadata of a conversion, step by step: what they are, where they say that the volume's
blocks lie, and which rule they break."""

import json

from ..luks.ciphers import STRIPES, KeyDraw
from ..luks.header import REQUIREMENT, text_of
from . import begun
from .rules import first_broken, mandatory
from .steps import Conversion, Disks, Wish, finished, moved, opened, started

ROUNDS = 1000
# what stands in the way of a beginning, of a number and a limit
WANTS = {
    "Area": "Area {{ wanted: {0}, gap: {1} }}",
    "Json": "Json {{ len: {0}, limit: {1} }}",
    "Passphrase": "Passphrase {{ len: {0} }}",
}


def told_map(atom, blocks, forward, boundary, zone, old, new):
    direction = "Forward" if forward else "Backward"
    return (
        f"Map {{ atom: {atom}, blocks: {blocks}, boundary: {boundary}, direction: {direction}, "
        f"zone: {zone}, old_place: {old}, new_place: {new} }}"
    )


def told(header, disks):
    """Where the blocks of a volume lie, or the rule that its metadata break; and whether they break
    none."""
    broken = first_broken(header, disks)
    if broken:
        return broken, False
    if any(slot["type"] == "reencrypt" for slot in header["keyslots"].values()):
        found = Conversion(header, disks)
        numbers = found.blocks, found.forward, found.boundary, found.counts["zone"]
        places = disks.place(found.old), disks.place(found.new)
        return told_map(disks.atom, *numbers, *places), True
    (segment,) = header["segments"].values()
    blocks, place = disks.length(segment) // disks.atom, disks.place(segment)
    return told_map(disks.atom, blocks, True, blocks, 0, place, place), True


def drawn_key(header, disks, passphrase, key_size, sector_size, direction, guard, zone):
    """The header with which a conversion begins whose key is drawn, or else what stands in the
    way."""
    if REQUIREMENT in mandatory(header):
        return None, "InProgress"
    if any(segment["type"] == "linear" for segment in header["segments"].values()):
        return None, "Linear"
    wish = begun.Wish(
        atom=disks.atom,
        cipher="aes-xts-plain64",
        direction=direction,
        hotzone_size=int(zone),
        iterations=ROUNDS,
        key_size=int(key_size),
        resilience=guard,
        sector_size=int(sector_size),
    )
    data = bytes(place % 251 for place in range(wish.key_size * STRIPES + 64))
    try:
        begun.passphrase_fits(len(passphrase.encode()))
        return begun.Beginning(header, disks, wish, KeyDraw(wish.key_size, data)).objects, None
    except begun.NoFit as found:
        what, number, limit = found.args
        return None, WANTS[what].format(number, limit)


class Walk:
    """Where the steps so far have come to."""

    def __init__(self):
        self.header = self.disks = self.size = None

    def taken(self, what, words):
        self.size, *disks = words[:4]
        self.disks = Disks(*disks)
        if what == "header":
            return json.loads(words[4])
        return started(None, self.disks, Wish.of(*words[4:]))

    def step(self, what, words):
        """The next header of a conversion, or what stands in the way."""
        found = Conversion(self.header, self.disks)
        if what == "finish":
            made = finished(self.header, self.disks, found)
        else:
            made = {"open": opened, "move": moved}[what](self.header, found, int(words[0]))
        return made, None if made else "may not"

    def made(self, what, words):
        """The next header, or what stands in the way."""
        if what in ("header", "bare"):
            return self.taken(what, words), None
        if what == "start":
            self.size = words[0]
            return started(self.header, self.disks, Wish.of(*words[1:])), None
        if what == "begin":
            return drawn_key(self.header, self.disks, *words)
        return self.step(what, words)

    def lines(self, what, *words):
        """What a row comes to."""
        size = self.size
        made, why = self.made(what, words)
        if why:
            return [why]
        line, is_valid = told(made, self.disks)
        if is_valid:
            self.header = made
        else:
            self.size = size
        return [line] if what == "header" else [line, text_of(made)]
