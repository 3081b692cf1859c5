"""What other programs do to a disk: headers with other numbers and texts."""

import json
import struct

from ..luks.header import text_of, valid_copy


def both_copies(data):
    size = struct.unpack(">Q", data[8:16])[0]
    return [valid_copy(data[k * size : (k + 1) * size], k * size) for k in range(2)]


def with_copies(data, changed):
    """Both copies of the header with the number and the text that come of those that are there."""
    copies, found = both_copies(data), b""
    for which, copy in enumerate(copies):
        number, text = changed(copy.number, copy.text)
        found += copy.again(which, copy.salt, number, text)
    return found + data[2 * copies[0].size :]


def numbered(data, number):
    """Both copies of the header with this number."""
    return with_copies(data, lambda _, text: (number, text))


def noted(data, length):
    """Both copies of the header with a token whose text has so many letters."""

    def changed(number, text):
        objects = json.loads(text)
        objects["tokens"]["0"] = {"keyslots": [], "text": "x" * length, "type": "note"}
        return number, text_of(objects).encode()

    return with_copies(data, changed)


CHANGES = {"number": numbered, "token": noted}
