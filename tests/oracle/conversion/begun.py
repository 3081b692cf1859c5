"""The header with which a conversion begins whose new key is drawn (docs/CONVERSION.md,
docs/FORMATS.md), and the new keyslot's area."""

from types import SimpleNamespace

from ..luks.ciphers import STRIPES, KeyDraw, area_size, drawn, pages
from ..luks.header import HEAD, text_of
from . import steps


class NoFit(Exception):
    """Something doesn't fit: what, and the number and the limit."""


class Wish(SimpleNamespace):
    """What the words of `init` ask for."""

    def guard(self, place):
        """The area that guards zones: their old atoms, or a digest of each, in whole pages."""
        if self.resilience == "journal":
            size, named = pages(self.hotzone_size), {}
        else:
            size = pages(32 * (self.hotzone_size // self.atom))
            named = {"hash": "sha256", "sector_size": self.atom}
        return {"type": self.resilience, "offset": str(place), "size": str(size)} | named

    def slot(self, place):
        """The keyslot of the conversion."""
        return {
            "type": "reencrypt",
            "key_size": 1,
            "mode": "reencrypt",
            "direction": self.direction,
            "area": self.guard(place),
        }


def areas_of(objects):
    """The places of all bytes of the keyslots' areas."""
    areas = [slot["area"] for slot in objects["keyslots"].values() if "area" in slot]
    return [range(int(a["offset"]), int(a["offset"]) + int(a["size"])) for a in areas]


def free_at(place, end, areas):
    """How many bytes from a place on are in no area."""
    if any(place in area for area in areas):
        return 0
    return min([end] + [area.start for area in areas if area and place < area.start]) - place


def lowest_place(objects, atom, besides, wanted):
    """The lowest whole atom from which on so many bytes are free."""
    begin = 2 * (int(objects["config"]["json_size"]) + HEAD)
    end = begin + int(objects["config"]["keyslots_size"])
    areas, most = areas_of(objects) + besides, 0
    for place in range(-(-begin // atom) * atom, end, atom):
        free = free_at(place, end, areas)
        if wanted <= free:
            return place
        most = max(most, free)
    raise NoFit("Area", wanted, most)


def passphrase_fits(length):
    if not 1 <= length <= 512:
        raise NoFit("Passphrase", length, 512 if length else 1)


class Beginning:
    """What a conversion of a header begins with, by its wish and what is drawn."""

    def __init__(self, objects, disks, wish, draw):
        self.place = lowest_place(objects, wish.atom, [], area_size(wish.key_size))
        taken = [range(self.place, self.place + area_size(wish.key_size))]
        guarded = lowest_place(objects, wish.atom, taken, int(wish.guard(0)["size"]))
        digest = draw.digest()
        stood = [one["digest"] for one in objects["digests"].values()]
        assert digest["digest"] not in stood, "the new key is the old one"
        wanted = steps.Wish(
            slot=wish.slot(guarded),
            key=(draw.slot(self.place, wish.iterations), digest),
            crypt={"encryption": wish.cipher, "sector_size": wish.sector_size},
            json_size=objects["config"]["json_size"],
            keyslots_size=objects["config"]["keyslots_size"],
        )
        self.objects = steps.started(objects, disks, wanted)
        self.text = text_of(self.objects).encode()
        limit = int(objects["config"]["json_size"]) - 1
        if limit < len(self.text):
            raise NoFit("Json", len(self.text), limit)


def draw_of(wish, seed):
    """What `init` draws."""
    draw = KeyDraw(wish.key_size, drawn(seed, wish.key_size * STRIPES + 64))
    assert not draw.left
    return draw
