"""New volumes: the header's two copies and the keyslot's area, all that is random of them from the
key stream of ChaCha20 under 32 drawn bytes."""

import uuid
from types import SimpleNamespace

from .ciphers import KeyDraw, STRIPES, area_size, drawn
from .header import HEAD, copy_of, text_of


class Wish(SimpleNamespace):
    """What the words of `format` ask for."""

    def keyslots_end(self):
        """Where the keyslots area ends: with the gap in front of the data, or at 16 MiB of a
        disk of its own."""
        return 16 << 20 if self.header is not None else self.data_offset

    def keyslots_size(self):
        return min(max(self.keyslots_end() - 2 * self.metadata_size, 0), 128 << 20)

    def unfit(self, length, atoms, header_atoms):
        """The first that doesn't fit of a volume with such a passphrase and disks; its text always
        does."""
        wanted = area_size(self.key_size)
        if self.keyslots_size() < wanted:
            return ("Area", wanted, self.keyslots_size())
        if self.header is not None and header_atoms * self.atom < self.keyslots_end():
            return ("Area", self.keyslots_end(), header_atoms * self.atom)
        if not 1 <= length <= 512:
            return ("Passphrase", length, 1 if length == 0 else 512)
        if atoms <= self.data_offset // self.atom:
            return ("Blocks", 0, 1)
        return None


class Volume:
    """A new volume, by its wish, the passphrase and the drawn bytes."""

    def __init__(self, wish, passphrase, seed):
        length = wish.key_size * STRIPES + 64 + (0 if wish.uuid else 16) + 128
        draw = KeyDraw(wish.key_size, drawn(seed, length))
        given = uuid.UUID(wish.uuid) if wish.uuid else uuid.UUID(bytes=draw.take(16), version=4)
        salts = draw.take(64), draw.take(64)
        assert not draw.left
        self.identifier = str(given)
        self.area = draw.area(passphrase, wish.iterations, wish.atom)
        text = text_of(objects_of(wish, draw)).encode()
        size = wish.metadata_size
        self.copies = [
            copy_of(which, size, 1, text, salts[which], self.identifier) for which in range(2)
        ]


def objects_of(wish, draw):
    """The objects of the header."""
    segment = {
        "type": "crypt",
        "offset": str(wish.data_offset),
        "size": "dynamic",
        "iv_tweak": "0",
        "encryption": wish.cipher,
        "sector_size": wish.sector_size,
    }
    sizes = {
        "json_size": str(wish.metadata_size - HEAD),
        "keyslots_size": str(wish.keyslots_size()),
    }
    return {
        "keyslots": {"0": draw.slot(2 * wish.metadata_size, wish.iterations)},
        "tokens": {},
        "segments": {"0": segment},
        "digests": {"0": draw.digest() | {"keyslots": ["0"], "segments": ["0"]}},
        "config": sizes,
    }
