"""The metadata of a conversion as another implementation makes them: the header with which one
begins, those with a zone opened or the boundary moved, and that with which it ends
(docs/CONVERSION.md).
"""

import copy
import json
from dataclasses import dataclass

from ..luks.header import REQUIREMENT, lowest, numbered

PREVIOUS, FINAL, ZONE = ["backup-previous"], ["backup-final"], ["in-reencryption"]


class Disks:
    """Atoms, and whether the header has a disk of its own."""

    def __init__(self, atom, header, main):
        self.atom, self.main = int(atom), int(main)
        self.detached = header != "attached"
        self.header = int(header) if self.detached else self.main

    def place(self, segment):
        """The atom of both disks at which a segment begins."""
        return (self.header if self.detached else 0) + int(segment["offset"]) // self.atom

    def length(self, segment):
        """The bytes of a segment; a dynamic one goes to the last whole atom."""
        if segment["size"] != "dynamic":
            return int(segment["size"])
        return max(0, self.main * self.atom - int(segment["offset"]))


def digest_of(header, segment):
    """The number of the digest that lists a segment, if one does."""
    digests = numbered(header["digests"])
    return next((n for n, digest in digests if str(segment) in digest["segments"]), None)


@dataclass
class Wholes:
    """The whole old and the whole new segment, their digests, and the order of the blocks."""

    atom: int
    forward: bool
    old: dict
    new: dict
    old_digest: str
    new_digest: str


class Conversion(Wholes):
    """What a header says of its conversion."""

    def __init__(self, header, disks):
        slots = [e for e in numbered(header["keyslots"]) if e[1]["type"] == "reencrypt"]
        self.number, slot = slots[0]
        self.mode, self.area = slot["mode"], slot["area"]
        *self.live, old, new = [segment for _, segment in numbered(header["segments"])]
        digests = (digest_of(header, len(self.live) + n) for n in (0, 1))
        super().__init__(disks.atom, slot["direction"] == "forward", old, new, *digests)
        self.counts = {"new": 0, "zone": 0, "old": 0}
        for number, segment in enumerate(self.live):
            self.counts[self.side(header, number, segment)] += disks.length(segment) // self.atom

    def side(self, header, number, segment):
        if segment.get("flags") == ZONE:
            return "zone"
        found = digest_of(header, number)
        if self.old_digest is None:
            return "new" if found == self.new_digest else "old"
        return "old" if found == self.old_digest else "new"

    @property
    def blocks(self):
        return sum(self.counts.values())

    @property
    def boundary(self):
        """The block that parts new from old; the zone's are old."""
        return self.counts["new"] if self.forward else self.blocks - self.counts["new"]

    @property
    def shifts(self):
        return self.area["type"] == "datashift"

    @property
    def capacity(self):
        """The most blocks of a zone, or of a move of the boundary."""
        if self.shifts:
            return int(self.area["shift_size"]) // self.atom
        size = int(self.area["size"])
        return size // self.atom if self.area["type"] == "journal" else size // 32

    def may_open(self, blocks):
        fits = 0 < blocks <= min(self.capacity, self.counts["old"])
        return fits and not self.shifts and not self.counts["zone"]

    def may_move(self, blocks):
        if self.shifts:
            return 0 < blocks <= min(self.capacity, self.counts["old"])
        return 0 < blocks == self.counts["zone"]

    def may_finish(self):
        return not self.counts["old"] and not self.counts["zone"]


def part(whole, atom, first, blocks, is_zone):
    """So many blocks of a whole segment, from one on."""
    found = {
        "type": whole["type"],
        "offset": str(int(whole["offset"]) + first * atom),
        "size": str(blocks * atom),
    }
    if whole["type"] == "crypt":
        found["encryption"] = whole["encryption"]
        found["sector_size"] = whole["sector_size"]
        found["iv_tweak"] = str(int(whole["iv_tweak"]) + first * atom // 512)
    if is_zone:
        found["flags"] = list(ZONE)
    return found


def laid_out(wholes, counts):
    """The live segments, each with its side, in the order of the volume's blocks."""
    first, parts = 0, []
    for side in ("new", "zone", "old") if wholes.forward else ("old", "zone", "new"):
        if counts[side]:
            whole = wholes.new if side == "new" else wholes.old
            parts.append((side, part(whole, wholes.atom, first, counts[side], side == "zone")))
            first += counts[side]
    return parts


def with_segments(header, wholes, counts):
    """The header with these live segments, and digests that list what is on their side."""
    parts = laid_out(wholes, counts)
    segments = [segment for _, segment in parts] + [wholes.old, wholes.new]
    sides = [side for side, _ in parts] + ["old", "new"]
    header = copy.deepcopy(header)
    header["segments"] = {str(n): segment for n, segment in enumerate(segments)}
    for number, digest in header["digests"].items():
        digest["segments"] = [
            str(n)
            for n, side in enumerate(sides)
            if number == (wholes.new_digest if side == "new" else wholes.old_digest)
        ]
    return header


@dataclass
class Wish:
    """What is wished for: the keyslot of the conversion, the new key's keyslot and digest, if there
    are both, how the new segment is encrypted, and the next header's sizes."""

    slot: dict
    key: tuple
    crypt: dict
    json_size: str
    keyslots_size: str

    @classmethod
    def of(cls, text, key):
        """What metadata wish for, and the key that others have, if there are any."""
        wish = json.loads(text)
        key = None if key == "-" else json.loads(key)
        return cls(
            slot=wish["keyslots"]["0"],
            key=key and (key["keyslots"]["0"], key["digests"]["0"]),
            crypt={k: wish["segments"]["0"][k] for k in ("encryption", "sector_size")},
            json_size=wish["config"]["json_size"],
            keyslots_size=wish["config"]["keyslots_size"],
        )

    def whole(self, old, length):
        """The whole new segment, for the old one and the bytes of all blocks."""
        area, offset = self.slot["area"], int(old["offset"])
        shifts = area["type"] == "datashift"
        if shifts:
            shift = int(area["shift_size"])
            offset += -shift if self.slot["direction"] == "forward" else shift
        whole = {"type": "linear"}
        if self.slot["mode"] != "decrypt":
            whole = dict(self.crypt, type="crypt", iv_tweak="0")
        whole["offset"] = str(offset)
        whole["size"] = "dynamic" if old["size"] == "dynamic" and not shifts else str(length)
        whole["flags"] = list(FINAL)
        return whole

    def config(self, config):
        """The next header's config."""
        config = copy.deepcopy(config)
        config["json_size"] = self.json_size
        config["keyslots_size"] = self.keyslots_size
        config.setdefault("requirements", {"mandatory": []})["mandatory"].append(REQUIREMENT)
        return config


def unencrypted():
    """A header for a whole disk without one."""
    whole = {"type": "linear", "offset": "0", "size": "dynamic"}
    return {"config": {}, "digests": {}, "keyslots": {}, "segments": {"0": whole}, "tokens": {}}


def started(header, disks, wish):
    """The metadata with which a conversion begins; all blocks are old."""
    header = copy.deepcopy(header or unencrypted())
    ((number, segment),) = header["segments"].items()
    blocks = disks.length(segment) // disks.atom
    new = wish.whole(segment, blocks * disks.atom)
    old_digest, new_digest = digest_of(header, number), None
    if wish.key:
        slot, new_digest = lowest(header["keyslots"]), lowest(header["digests"])
        header["keyslots"][slot] = wish.key[0]
        header["digests"][new_digest] = dict(wish.key[1], keyslots=[slot])
    header["keyslots"][lowest(header["keyslots"])] = wish.slot
    header["config"] = wish.config(header["config"])
    old, forward = dict(segment, flags=list(PREVIOUS)), wish.slot["direction"] == "forward"
    wholes = Wholes(disks.atom, forward, old, new, old_digest, new_digest)
    return with_segments(header, wholes, {"new": 0, "zone": 0, "old": blocks})


def opened(header, found, blocks):
    if not found.may_open(blocks):
        return None
    old = found.counts["old"] - blocks
    return with_segments(header, found, dict(found.counts, zone=blocks, old=old))


def moved(header, found, blocks):
    if not found.may_move(blocks):
        return None
    new = found.counts["new"] + blocks
    return with_segments(header, found, {"new": new, "zone": 0, "old": found.blocks - new})


def finished(header, disks, found):
    """The metadata of the volume that the new segment is."""
    if not found.may_finish():
        return None
    header = copy.deepcopy(header)
    length = found.blocks * disks.atom
    whole = {name: value for name, value in found.new.items() if name != "flags"}
    reaches = int(whole["offset"]) + length >= disks.main * disks.atom
    stays = found.old["size"] == "dynamic" and not found.shifts and reaches
    whole["size"] = "dynamic" if stays else str(length)
    header["segments"] = {"0": whole}
    old = header["digests"].pop(found.old_digest, {"keyslots": []})
    shared = [slot for digest in header["digests"].values() for slot in digest["keyslots"]]
    gone = {slot for slot in old["keyslots"] if slot not in shared} | {found.number}
    for slot in gone:
        header["keyslots"].pop(slot, None)
    for number, digest in header["digests"].items():
        digest["segments"] = ["0"] if number == found.new_digest else []
    for token in header["tokens"].values():
        if isinstance(token.get("keyslots"), list):
            token["keyslots"] = [slot for slot in token["keyslots"] if slot not in gone]
    requirements = header["config"]["requirements"]
    requirements["mandatory"] = [t for t in requirements["mandatory"] if t != REQUIREMENT]
    if requirements == {"mandatory": []}:
        del header["config"]["requirements"]
    return header
