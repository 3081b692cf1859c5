"""A model of the server: what a session puts for the bytes that its client sends, how it ends,
and what is then on the disk. It says what the NBD protocol document and docs/FORMATS.md say, by
its own words, for a disk whose calls don't fail, or whose volume is broken from some request on,
and with memory for everything."""

import struct

GREETING = b"NBDMAGICIHAVEOPT" + struct.pack(">H", 3)
OPTION_MAGIC, REPLY_MAGIC = int.from_bytes(b"IHAVEOPT", "big"), 0x3E889045565A9
REQUEST_MAGIC, SIMPLE_MAGIC, CHUNK_MAGIC = 0x25609513, 0x67446698, 0x668E33EF

EXPORT_NAME, ABORT, LIST, STARTTLS, INFO, GO, STRUCTURED_REPLY = 1, 2, 3, 5, 6, 7, 8
ACK, SERVER, INFO_REPLY = 1, 2, 3
UNSUP, INVALID, UNKNOWN, TOO_BIG = (1 << 31 | number for number in (1, 3, 6, 9))

READ, WRITE, DISC, FLUSH, TRIM, WRITE_ZEROES = 0, 1, 2, 3, 4, 6
FUA, NO_HOLE, DF = 1, 2, 4
EIO, EINVAL, ENOSPC = 5, 22, 28

NONE, OFFSET_DATA, ERROR, ERROR_OFFSET = 0, 1, 1 << 15 | 1, 1 << 15 | 2
DONE = 1

NAME = b"volume"
MAX_OPTION, MAX_NAME, MAX_DATA, MAX_CHUNK = 65536, 4096, 32 << 20, 1 << 20
MAX_OPTIONS = 65536


def option(number, data=b""):
    """An option as a client sends it."""
    return struct.pack(">QII", OPTION_MAGIC, number, len(data)) + data


def choice(name, infos=()):
    """The data of INFO and GO."""
    return struct.pack(f">I{len(name)}sH{len(infos)}H", len(name), name, len(infos), *infos)


def request(kind, cookie, offset=0, length=0, flags=0):
    """A request as a client sends it, without the data of a write."""
    return struct.pack(">IHHQQI", REQUEST_MAGIC, flags, kind, cookie, offset, length)


def option_reply(number, kind, data=b""):
    """A reply to an option."""
    return struct.pack(">QIII", REPLY_MAGIC, number, kind, len(data)) + data


def simple_reply(cookie, error=0, data=b""):
    return struct.pack(">IIQ", SIMPLE_MAGIC, error, cookie) + data


def chunk(cookie, flags, kind, data=b""):
    return struct.pack(">IHHQI", CHUNK_MAGIC, flags, kind, cookie, len(data)) + data


def chosen_name(data):
    """The name in the data of INFO or GO; None where they are anything else."""
    if len(data) < 6:
        return None
    length = int.from_bytes(data[:4], "big")
    if len(data) < 6 + length:
        return None
    count = int.from_bytes(data[4 + length : 6 + length], "big")
    return data[4 : 4 + length] if len(data) == 6 + length + 2 * count else None


class Ended(Exception):
    """A session that ended so."""


class Session:
    """One session, from the bytes that the client sends, whose input then ends. Where `healthy`
    is a number, the volume is broken behind so many requests: each one from then on that isn't
    wrong is refused. Where `room` is one, the client takes no more bytes than that."""

    def __init__(self, disk, atom, sent, healthy=None, room=None):
        self.disk, self.atom, self.sent, self.healthy = disk, atom, sent, healthy
        self.room = room
        self.asked = 0
        self.put = bytearray()
        self.taken = 0
        self.no_zeroes = self.structured = False
        try:
            self.tell(GREETING)
            self.agree()
            while True:
                self.serve()
        except Ended as ended:
            self.ending = str(ended)

    def message(self):
        """A message begins here."""
        self.began = self.taken

    def take(self, length):
        """The next bytes of the message; the session ends where they don't come."""
        data = self.sent[self.taken : self.taken + length]
        self.taken += len(data)
        if len(data) < length:
            came = self.taken - self.began
            raise Ended(f"Truncated({came})" if came else "Closed")
        return data

    def tell(self, *parts):
        """Puts these parts, one after the other. The session ends where the client hasn't room for
        one, which isn't put then."""
        for part in parts:
            if self.room is not None and len(self.put) + len(part) > self.room:
                raise Ended("WriteFault")
            self.put += part

    # the handshake

    def agree(self):
        self.message()
        flags = int.from_bytes(self.take(4), "big")
        if flags & ~3:
            raise Ended(f"BadFlags({flags})")
        self.no_zeroes = bool(flags & 2)
        for _ in range(MAX_OPTIONS):
            if self.answer_option():
                return
        raise Ended(f"TooMany({MAX_OPTIONS})")

    def export(self):
        return struct.pack(">QH", len(self.disk), 0x1CD if self.structured else 0x14D)

    def answer_option(self):
        """Answers the next option, and says whether the requests begin."""
        self.message()
        magic, number, length = struct.unpack(">QII", self.take(16))
        if magic != OPTION_MAGIC:
            raise Ended(f"BadMagic({magic})")
        if length > MAX_OPTION:
            raise Ended(f"TooLong({length})")
        data = self.take(length)
        if number == EXPORT_NAME:
            if data not in (b"", NAME):
                raise Ended("UnknownExport")
            self.tell(self.export() + bytes(0 if self.no_zeroes else 124))
            return True
        if number in (INFO, GO):
            return self.inform(number, chosen_name(data))
        if number == ABORT:
            self.tell(option_reply(number, ACK))
            raise Ended("Aborted")
        if number not in (LIST, STRUCTURED_REPLY):
            self.tell(option_reply(number, UNSUP))
        elif data:
            self.tell(option_reply(number, INVALID))
        elif number == LIST:
            exports = option_reply(number, SERVER, struct.pack(">I", len(NAME)) + NAME)
            self.tell(exports + option_reply(number, ACK))
        else:
            self.structured = True
            self.tell(option_reply(number, ACK))
        return False

    def inform(self, number, name):
        if name is None or name not in (b"", NAME):
            error = INVALID if name is None else TOO_BIG if len(name) > MAX_NAME else UNKNOWN
            self.tell(option_reply(number, error))
            return False
        sizes = struct.pack(">HIII", 3, self.atom, 4096, MAX_DATA)
        export = option_reply(number, INFO_REPLY, struct.pack(">H", 0) + self.export())
        self.tell(export + option_reply(number, INFO_REPLY, sizes) + option_reply(number, ACK))
        return number == GO

    # the requests

    def serve(self):
        """Serves the next request."""
        self.message()
        magic, flags, kind, cookie, offset, length = struct.unpack(">IHHQQI", self.take(28))
        if magic != REQUEST_MAGIC:
            raise Ended(f"BadMagic({magic})")
        if kind == DISC:
            raise Ended("Disconnected")
        if kind == WRITE and length > MAX_DATA:
            raise Ended(f"TooLong({length})")
        data = self.take(length) if kind == WRITE else b""
        error, self.failed_at = self.refusal(flags, kind, offset, length), None
        if not error:
            data = data if kind == WRITE else bytes(length)
            error = self.carried_out(kind, flags, offset, data)
        self.asked += 1
        if kind == READ:
            self.answer_read(flags, cookie, offset, length, error)
        else:
            self.tell(simple_reply(cookie, error))

    def carried_out(self, kind, flags, offset, data):
        """Does what a request asks for, which has so many bytes, or these; the error that it is
        answered, 0 for none. Where a piece of a read fails, `failed_at` is that piece's first
        byte."""
        if self.healthy is not None and self.asked >= self.healthy:
            return EIO
        if kind in (WRITE, WRITE_ZEROES):
            self.disk[offset : offset + len(data)] = data
        return 0

    def refusal(self, flags, kind, offset, length):
        """The error that a request is answered, 0 for none."""
        allowed = FUA
        if kind == WRITE_ZEROES:
            allowed |= NO_HOLE
        if kind == READ and self.structured:
            allowed |= DF
        if flags & ~allowed or kind not in (READ, WRITE, FLUSH, WRITE_ZEROES):
            return EINVAL
        if kind == FLUSH:
            return 0
        if kind == READ and length > MAX_DATA or offset % self.atom or length % self.atom:
            return EINVAL
        if offset + length > len(self.disk):
            return EINVAL if kind == READ else ENOSPC
        return 0

    def answer_read(self, flags, cookie, offset, length, error):
        """The head of a reply or a chunk is a part, and so is its data."""
        if not self.structured:
            self.tell(simple_reply(cookie, error))
            if not error:
                self.tell(self.disk[offset : offset + length])
        elif self.failed_at is not None:
            data = struct.pack(">IHQ", error, 0, self.failed_at)
            self.tell(chunk(cookie, DONE, ERROR_OFFSET, data))
        elif error:
            self.tell(chunk(cookie, DONE, ERROR, struct.pack(">IH", error, 0)))
        elif not length:
            self.tell(chunk(cookie, DONE, NONE))
        else:
            most = length if flags & DF else MAX_CHUNK
            for at in range(offset, offset + length, most):
                end = min(at + most, offset + length)
                data = struct.pack(">Q", at) + self.disk[at:end]
                whole = chunk(cookie, DONE if end == offset + length else 0, OFFSET_DATA, data)
                self.tell(whole[: at - end], whole[at - end :])
