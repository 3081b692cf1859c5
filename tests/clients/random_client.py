"""Clients that send what is drawn, one after the other, for so many seconds: options and requests,
right and wrong ones, whole, cut, with other bytes somewhere, and some that go away. What they get
is what the model of the server says. After each half of the time come the largest requests, so
that what is kept of earlier sessions adds to their memory, and the second time they take as much.

    random_client.py PORT FILE ATOM PROCESS SEED SECONDS

FILE is what is served by PROCESS, and all zero.
"""

import os
import random
import select
import socket
import struct
import sys
import time
from collections import Counter

sys.path.insert(0, os.path.join(os.path.dirname(os.path.abspath(__file__)), ".."))
from oracle.nbd import server as nbd

# so many seconds without a byte of the server are a hang
PATIENCE = 30
# so many KiB more than in the first half are growth; of each session its end is kept
GROWTH = 512

OPTIONS = [nbd.LIST, nbd.STARTTLS, 10, 0, 2**32 - 1] + [nbd.INFO, nbd.STRUCTURED_REPLY] * 2
NAMES = [b"", b"", b"volume", b"volume", b"volumes", b"other", b"x" * 4096, b"x" * 4097]
OTHERS = [nbd.FLUSH, nbd.TRIM, 5, 7, 9, 65535]
KINDS = [nbd.READ] * 5 + [nbd.WRITE] * 4 + [nbd.WRITE_ZEROES] * 4 + OTHERS
HARMLESS = [nbd.READ] * 9 + OTHERS
FLAGS = [0] * 8 + [nbd.FUA, nbd.NO_HOLE, nbd.DF] * 2 + [3, 5, 6, 8, 16, 32768]


class Drawing:
    """What is drawn, all from one seed."""

    def __init__(self, seed, size, atom):
        self.random, self.atom, self.blocks = random.Random(seed), atom, size // atom

    def is_rare(self, of):
        return self.random.randrange(of) == 0

    def data(self, most):
        return self.random.randbytes(self.random.randrange(most + 1))

    def choice_of_export(self, names):
        return nbd.choice(self.random.choice(names), [3] * self.random.randrange(3))

    def option(self):
        number = self.random.choice(OPTIONS)
        if self.is_rare(50):
            return struct.pack(">QII", nbd.OPTION_MAGIC, number, nbd.MAX_OPTION + 1)
        if not self.is_rare(5):
            if number == nbd.INFO:
                return nbd.option(number, self.choice_of_export(NAMES))
            if number in (nbd.LIST, nbd.STRUCTURED_REPLY):
                return nbd.option(number)
        return nbd.option(number, self.data(65536 if self.is_rare(20) else 40))

    def last_option(self):
        """The option that begins the requests, mostly."""
        kind = self.random.randrange(20)
        if kind < 12:
            return nbd.option(nbd.GO, self.choice_of_export(NAMES[:4]))
        if kind < 18:
            return nbd.option(nbd.EXPORT_NAME, self.random.choice(NAMES[:4]))
        if kind < 19:
            return nbd.option(nbd.EXPORT_NAME, self.random.choice(NAMES[4:]))
        return nbd.option(nbd.ABORT, self.data(3))

    def length(self, kind):
        """Mostly a few blocks, at times more than a MiB, and rarely up to the whole disk."""
        large = self.is_rare(8 if kind == nbd.READ else 30)
        most = self.blocks if self.is_rare(200) else 4200 if large else 16
        length = self.random.randrange(most + 1) * self.atom + self.is_rare(20)
        return min(length, nbd.MAX_DATA + self.is_rare(100)) if kind == nbd.WRITE else length

    def offset(self):
        """Mostly a block, of which few are behind the end, and rarely any number."""
        offset = self.random.randrange(self.blocks + 20) * self.atom
        return offset + self.random.choice([1, 256, 2**63]) if self.is_rare(20) else offset

    def request(self, kinds=KINDS):
        """A request with its data."""
        kind = self.random.choice(kinds)
        length = self.length(kind)
        cookie, flags = self.random.getrandbits(64), self.random.choice(FLAGS)
        head = nbd.request(kind, cookie, self.offset(), length, flags)
        if kind != nbd.WRITE or length > nbd.MAX_DATA:
            return head
        return head + (self.random.randbytes(97) * (length // 97 + 1))[:length]

    def session(self, kinds=KINDS):
        """All that a client sends."""
        flags = 3 if not self.is_rare(5) else self.random.choice([0, 1, 2, 4, 2**31])
        sent = bytearray(struct.pack(">I", flags))
        for _ in range(self.random.randrange(5)):
            sent += self.option()
        sent += self.last_option()
        for _ in range(self.random.randrange(30)):
            sent += self.request(kinds)
        return sent if self.is_rare(4) else sent + nbd.request(nbd.DISC, 0)

    def changed(self, sent):
        """The same, at times cut, with other bytes somewhere, or with more of them."""
        kind, at = self.random.randrange(20), self.random.randrange(len(sent))
        if kind < 2:
            del sent[at:]
        elif kind < 4:
            sent[at] = self.random.randrange(256)
            sent[self.random.randrange(at + 1)] ^= 1 << self.random.randrange(8)
        elif kind < 5:
            sent[at:at] = self.data(100)
        return bytes(sent)


class Connection:
    """A client that sends bytes and keeps those that it gets."""

    def __init__(self, port, sent):
        self.socket = socket.create_connection(("127.0.0.1", port), timeout=PATIENCE)
        self.socket.setblocking(False)
        self.sent, self.at, self.got = sent, 0, bytearray()
        self.was_reset = False

    def go_on(self):
        """Sends and gets some bytes, and says whether the server has not ended yet."""
        unsent = [self.socket] if self.at <= len(self.sent) else []
        gets, sends, _ = select.select([self.socket], unsent, [], PATIENCE)
        if not gets and not sends:
            went = f"{self.at} of {len(self.sent)} bytes went"
            raise SystemExit(f"the server hangs: {went}, {len(self.got)} came")
        if sends:
            self.send()
        try:
            part = self.socket.recv(1 << 20) if gets else None
        except OSError:
            self.was_reset = True
            return False
        self.got += part or b""
        return part != b""

    def send(self):
        """Sends some bytes; none any more once the server takes none, which may have put some."""
        try:
            if self.at < len(self.sent):
                self.at += self.socket.send(self.sent[self.at : self.at + (1 << 18)])
                return
            self.socket.shutdown(socket.SHUT_WR)
        except OSError:
            pass
        self.at = len(self.sent) + 1

    def vanish(self):
        """Goes away by a reset."""
        self.socket.setsockopt(socket.SOL_SOCKET, socket.SO_LINGER, struct.pack("ii", 1, 0))
        self.socket.close()


class Server:
    """The server and its model."""

    def __init__(self, port, disk, atom):
        self.port, self.disk, self.atom, self.endings = port, disk, atom, Counter()

    def serve(self, sent):
        """A session that sends these bytes gets what the model says."""
        model = nbd.Session(self.disk, self.atom, sent)
        client = Connection(self.port, sent)
        while client.go_on():
            pass
        client.socket.close()
        self.endings[model.ending.split("(")[0]] += 1
        if client.got == model.put:
            return
        # a server that ends with bytes unread resets the connection, and what was under way is
        # lost; a client that sends no more than is read gets all
        if not (client.was_reset and model.taken < len(sent) and model.put.startswith(client.got)):
            raise SystemExit(differs(model, client.got))
        self.endings["again"] += 1
        self.serve(sent[: model.taken])

    def leave(self, sent, most):
        """A client that sends these bytes goes away once so many came."""
        client = Connection(self.port, sent)
        while len(client.got) < most and client.go_on():
            pass
        client.vanish()
        self.endings["vanished"] += 1


def differs(model, got):
    pairs = enumerate(zip(got, model.put))
    at = next((at for at, (one, other) in pairs if one != other), min(len(got), len(model.put)))
    came, wanted = got[at : at + 40].hex(), model.put[at : at + 40].hex()
    whole = f"{len(got)} bytes came and not {len(model.put)}, from {at} on {came} and not {wanted}"
    return f"a session that ends by {model.ending}: {whole}; it sent {model.sent[:2000].hex()}"


def largest(size):
    """A session of the largest option, reads, write and zeroes."""
    most = min(size, nbd.MAX_DATA)
    sent = struct.pack(">I", 3) + nbd.option(99, bytes(nbd.MAX_OPTION))
    sent += nbd.option(nbd.STRUCTURED_REPLY) + nbd.option(nbd.GO, nbd.choice(b""))
    sent += nbd.request(nbd.WRITE, 1, 0, most) + b"\xa5" * most
    sent += nbd.request(nbd.READ, 2, 0, most) + nbd.request(nbd.READ, 3, 0, most, nbd.DF)
    return sent + nbd.request(nbd.WRITE_ZEROES, 4, 0, size) + nbd.request(nbd.DISC, 5)


def reading(size):
    """A session that reads the whole disk."""
    sent = struct.pack(">I", 3) + nbd.option(nbd.EXPORT_NAME)
    for at in range(0, size, 1 << 20):
        sent += nbd.request(nbd.READ, at, at, min(size - at, 1 << 20))
    return sent + nbd.request(nbd.DISC, 0)


def peak(process):
    """The most memory that a process had so far, in KiB."""
    with open(f"/proc/{process}/status") as lines:
        return next(int(line.split()[1]) for line in lines if line.startswith("VmHWM:"))


def go_on(drawing, server, seconds):
    """Clients come for so many seconds; then the disk is read, and the largest requests come."""
    until = time.monotonic() + seconds
    while time.monotonic() < until:
        if drawing.is_rare(20):
            server.leave(bytes(drawing.session(HARMLESS)), drawing.random.randrange(100000))
        else:
            server.serve(drawing.changed(drawing.session()))
    server.serve(reading(len(server.disk)))
    server.serve(largest(len(server.disk)))


def main():
    port, atom, process, seed = (int(sys.argv[place]) for place in (1, 3, 4, 5))
    size = os.path.getsize(sys.argv[2]) // atom * atom
    drawing, server = Drawing(seed, size, atom), Server(port, bytearray(size), atom)
    peaks = []
    for part in ("first", "second"):
        go_on(drawing, server, float(sys.argv[6]) / 2)
        peaks.append(peak(process))
        print(f"peak of the {part} half: {peaks[-1]} KiB")
    endings = ", ".join(f"{ending} {count}" for ending, count in server.endings.items())
    print(f"seed {seed}, {server.endings.total()} sessions: {endings}")
    if peaks[1] > peaks[0] + GROWTH:
        raise SystemExit("the server's memory grows")


main()
