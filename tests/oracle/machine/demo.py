"""`demo`: what its clients write and read back (docs/CLI.md, `demo`)."""

import hashlib

from .bay import Ended

BLOCK = 512


def block(seed, number):
    """What a client writes to the block of this number."""
    return bytes((seed + 7 * number + place) % 256 for place in range(BLOCK))


def content(seed, blocks):
    """What all of them write."""
    return b"".join(block(seed, number) for number in range(blocks))


def text(seed, blocks, workers):
    """What is printed."""
    digest = hashlib.sha256(content(seed, blocks)).hexdigest()
    return (
        f"demo seed {seed} blocks {blocks} workers {workers}\n"
        f"writes {blocks}\nreads {blocks}\nsha256 {digest}\nstate idle\n"
    )


def demo(_, wish):
    raise Ended(0, "Fine", text(wish.seed, wish.blocks, wish.workers))

