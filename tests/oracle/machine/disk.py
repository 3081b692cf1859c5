"""A disk in memory: what it holds, what a stop may leave of it, and calls that fail."""


class Failed(Exception):
    """A device call failed: what it was to do."""


class Disk:
    """Of each atom the bytes that it has and those that a stop may leave. The calls with these
    numbers fail; one that is stopped makes so many calls, and all behind them fail. The tail are
    bytes behind the last whole atom."""

    def __init__(self, atom, data, fails=(), stop=None, tail=0):
        self.atom, self.fails, self.stop, self.tail = atom, set(fails), stop, tail
        self.held = [data[at : at + atom] for at in range(0, len(data), atom)]
        self.candidates = [[one] for one in self.held]
        self.calls = self.faults = 0
        self.is_broken = False

    def call(self):
        """Counts a call, and whether it fails."""
        self.calls += 1
        is_stopped = self.stop is not None and self.stop < self.calls
        is_right = self.calls - 1 not in self.fails and not is_stopped
        self.faults += not is_right
        return is_right

    def read(self, place, length):
        if not self.call():
            raise Failed("read")
        first, end = place // self.atom, -(-(place + length) // self.atom)
        found = b"".join(self.held[first:end])
        return found[place - first * self.atom :][:length]

    def put(self, place, data):
        """Writes whole atoms; one that fails may have written any of them."""
        right = self.call()
        for k in range(0, len(data), self.atom):
            at = (place + k) // self.atom
            self.candidates[at].append(data[k : k + self.atom])
            if right:
                self.held[at] = data[k : k + self.atom]
        if not right:
            self.is_broken = True
            raise Failed("write")

    def settle(self):
        """Keeps for certain what was written."""
        if not self.call():
            self.is_broken = True
            raise Failed("sync")
        self.candidates = [[one] for one in self.held]

    def bytes(self):
        return b"".join(self.held)

    def image(self, which):
        """The bytes of one image: what is held, the oldest, the newest, or of each atom the
        candidate of a list of numbers that goes round."""
        if which == "held":
            return self.bytes()
        if which in ("oldest", "newest"):
            return b"".join(one[0 if which == "oldest" else -1] for one in self.candidates)
        numbers = [int(word) for word in which.split(",")]
        return b"".join(
            one[numbers[at % len(numbers)] % len(one)] for at, one in enumerate(self.candidates)
        )


class Both:
    """A header's disk and that of the data, which are written as one: all that is written lies on
    the first, and a sync is of both, the header's first."""

    def __init__(self, header, disk):
        self.header, self.disk = header, disk

    def put(self, place, data):
        self.header.put(place, data)

    def settle(self):
        self.header.settle()
        self.disk.settle()
