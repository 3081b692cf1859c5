"""Scripts of the crate `rows` (crates/test_script/src/lines.rt): what their lines settle, and which
of them show something."""

import os

from ..conversion.walk import Walk
from ..luks.header import MAGICS, copy_of, summed
from .changes import noted

IDENTIFIER = "12345678-1234-4234-8234-123456789ABC"
SHOWN = ("run", "loose", "stops", "faults", "words", "value", "metadata")


def rising(length, first, modulus):
    """Bytes that rise from the first one, and from 0 again at the modulus."""
    return (bytes(range(modulus)) * (length // modulus + 2))[first : first + length]


class Draws:
    """Requests that are drawn, from a linear congruential generator."""

    TYPES = [0] * 6 + [1] * 4 + [6, 6, 3, 3, 4, 65535]
    FLAGS = [0] * 8 + [1, 1, 1, 2, 4, 3, 5, 32768]
    STRAYS = [0] * 14 + [1, 512]
    LENGTHS = [0, 1, 1, 1, 2, 2, 3, 4] * 2

    def __init__(self, seed):
        self.state = seed

    def word(self):
        self.state = (self.state * 6364136223846793005 + 1442695040888963407) % 2**64
        return self.state

    def byte(self):
        return self.word() >> 56

    def of(self, choices):
        return choices[self.byte() % 16]

    def bytes_of(self, blocks, atom):
        return blocks * atom + self.of(self.STRAYS)

    def request(self, atom):
        near = self.bytes_of(self.byte() % 18, atom)
        is_far = self.byte() == 0
        length = self.bytes_of(self.of(self.LENGTHS), atom)
        flags, kind = self.of(self.FLAGS), self.of(self.TYPES)
        cookie, offset = self.word(), 2**64 - 4096 if is_far else near
        sent = b"\x25\x60\x95\x13" + flags.to_bytes(2, "big") + kind.to_bytes(2, "big")
        sent += cookie.to_bytes(8, "big") + offset.to_bytes(8, "big") + length.to_bytes(4, "big")
        return sent + bytes(self.byte() for _ in range(length if kind == 1 else 0))


class Next:
    """How the next command is run."""

    def __init__(self):
        self.clients, self.room, self.taken = [], 4096, 1 << 25
        self.fails, self.stop, self.left, self.meet = {}, None, "held", None
        self.tried, self.again, self.reader = [], [], ""

    def fails_of(self, whose):
        return self.fails.get(whose, ())


class Shelf:
    """A disk between two commands; None in place of its bytes where they aren't known."""

    def __init__(self, atom, data):
        self.atom, self.bytes, self.tail = atom, data, 0


class World:
    """What a script has settled: bytes by their names, disks, key files, and what is drawn next."""

    def __init__(self, folder):
        self.folder, self.names, self.disks, self.keys = folder, {}, {}, {}
        self.first, self.step, self.next, self.walk = 0, 1, Next(), Walk()
        assert not list(self.read("names"))

    def read(self, name):
        """The lines of a script, of which those that show something are given."""
        with open(os.path.join(self.folder, name), encoding="utf-8") as file:
            lines = file.read().split("\n")
        for line in lines:
            if line.partition(" ")[0] in SHOWN:
                yield line
            elif line and not line.startswith("#"):
                self.settle(line)

    def seed(self):
        return bytes((self.first + k * self.step) % 256 for k in range(32))

    def spelt(self, spelling):
        """The bytes of words in turn, `WORD*N` being a word N times."""
        found = b""
        for one in spelling.split():
            word, _, times = one.partition("*")
            data = self.names[word] if word in self.names else bytes.fromhex(word)
            found += data * int(times or 1)
        return found

    def settle(self, line):
        """Does what a line says that shows nothing."""
        word, _, rest = line.partition(" ")
        getattr(self, f"settle_{word}")(*([rest] if word in WHOLE else rest.split(" ")))

    def columns(self, words):
        """The columns of a line on metadata, where the text of a header may have a name."""
        *columns, last = words.split("\t")
        return [*columns, self.names[last].decode().rstrip() if last in self.names else last]

    # bytes by their names

    def settle_bytes(self, rest):
        name, _, spelling = rest.partition(" ")
        self.names[name] = self.spelt(spelling)

    def settle_text(self, rest):
        name, _, text = rest.partition(" ")
        self.names[name] = text.encode()

    def settle_file(self, name, place):
        with open(os.path.join(self.folder, place), "rb") as file:
            self.names[name] = file.read()

    def settle_rising(self, name, *numbers):
        self.names[name] = rising(*map(int, numbers))

    def settle_drawn(self, name, seed, atom):
        draws = Draws(int(seed))
        self.names[name] = b"".join(draws.request(int(atom)) for _ in range(500))

    def settle_edited(self, rest):
        name, _, rest = rest.partition(" ")
        base, *pairs = rest.split("\t")
        text = self.names[base].decode().rstrip()
        for old, new in zip(pairs[::2], pairs[1::2]):
            assert old in text, old
            text = text.replace(old, new)
        self.names[name] = text.encode()

    # disks

    def settle_disk(self, name, atom, atoms, byte):
        if next(iter(self.disks), name) == name:
            self.disks.clear()
        self.disks[name] = Shelf(int(atom), bytes([int(byte)]) * (int(atom) * int(atoms)))

    def settle_tail(self, name, length):
        self.disks[name].tail = int(length)

    def put(self, name, at, data):
        shelf = self.disks[name]
        if shelf.bytes is not None:
            shelf.bytes = shelf.bytes[:at] + data + shelf.bytes[at + len(data) :]

    def settle_put(self, rest):
        name, at, spelling = rest.split(" ", 2)
        self.put(name, int(at), self.spelt(spelling))

    def settle_fill(self, name, at, length, byte):
        self.put(name, int(at), bytes([int(byte)]) * int(length))

    def settle_copy(self, name, at, size, number, letter, text):
        data = self.names[text].rstrip()
        which = 0 if at == "0" else 1
        found = bytearray(copy_of(which, int(size), int(number), data, bytes([7]) * 64, IDENTIFIER))
        found[0:6] = MAGICS[which]
        found[24:25] = letter.encode()[:1]
        found[256:264] = int(at).to_bytes(8, "big")
        self.put(name, int(at), summed(bytes(found)))

    def settle_sum(self, name, at, size):
        shelf, at, end = self.disks[name], int(at), int(at) + int(size)
        if shelf.bytes is not None:
            self.put(name, at, summed(shelf.bytes[at:end]))

    def settle_token(self, name, letters):
        shelf = self.disks[name]
        if shelf.bytes is not None:
            shelf.bytes = noted(shelf.bytes, int(letters))

    # the next command

    def settle_key(self, rest):
        name, _, spelling = rest.partition(" ")
        self.keys[name] = self.spelt(spelling)

    def settle_client(self, rest):
        self.next.clients.append(self.spelt(rest))

    def settle_cuts(self, rest):
        sent = self.spelt(rest)
        self.next.clients += [sent[:length] for length in range(len(sent))]

    def settle_limits(self, _, room):
        self.next.taken = int(room)

    def settle_room(self, room):
        self.next.room = int(room)

    def settle_seeds(self, first, step):
        self.first, self.step = int(first), int(step)

    def settle_fails(self, whose, *calls):
        self.next.fails.setdefault(whose, [int(call) for call in calls])

    def settle_stop(self, calls):
        self.next.stop = int(calls)

    def settle_left(self, left):
        self.next.left = left

    def settle_meet(self, step):
        self.next.meet = int(step)

    def settle_tried(self, *calls):
        self.next.tried = [int(call) for call in calls]

    def settle_again(self, *calls):
        self.next.again = [int(call) for call in calls]

    def settle_reader(self, rest):
        self.next.reader = rest


# the words whose line is read as a whole
WHOLE = ("bytes", "text", "edited", "put", "key", "client", "cuts", "reader")
