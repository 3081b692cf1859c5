"""A small client of the NBD protocol (fixed newstyle, simple replies), for tests that say by the byte
what is sent."""

import os
import socket
import struct
import time

REQUEST = 0x25609513
READ, WRITE, DISCONNECT, FLUSH, WRITE_ZEROES = 0, 1, 2, 3, 6
FUA, NO_HOLE = 1, 2
OPTION_GO, REPLY_ACK, REPLY_INFO = 7, 1, 3


def request(kind, cookie, offset=0, length=0, flags=0):
    return struct.pack(">IHHQQI", REQUEST, flags, kind, cookie, offset, length)


def connected(place, timeout=20):
    """A connection to a port of this machine, or to the socket of a path."""
    if isinstance(place, int):
        return socket.create_connection(("127.0.0.1", place), timeout=timeout)
    made = socket.socket(socket.AF_UNIX)
    made.settimeout(timeout)
    made.connect(place)
    return made


def is_running(process):
    try:
        os.kill(process, 0)
    except ProcessLookupError:
        return False
    return True


def visit(path, server):
    """Comes to the socket of this path as soon as the process of that number listens there, hears its
    greeting and goes. Where that process ends before, nobody comes."""
    while is_running(server):
        try:
            with connected(path) as visitor:
                if visitor.recv(18):
                    return
        except (FileNotFoundError, ConnectionRefusedError, ConnectionResetError):
            pass
        time.sleep(0.005)


class Client:
    """One connection that has agreed on the export."""

    def __init__(self, place, timeout=20):
        self.socket = connected(place, timeout)
        assert self.take(16) == b"NBDMAGICIHAVEOPT"
        self.take(2)
        self.socket.sendall(struct.pack(">I", 3) + b"IHAVEOPT" + struct.pack(">IIIH", OPTION_GO, 6, 0, 0))
        while True:
            magic, option, kind, length = struct.unpack(">QIII", self.take(20))
            data = self.take(length)
            assert magic == 0x3E889045565A9 and option == OPTION_GO, (magic, option)
            if kind == REPLY_ACK:
                break
            assert kind == REPLY_INFO, kind
            if data[:2] == b"\0\0":
                self.size = int.from_bytes(data[2:10], "big")

    def take(self, length):
        """The next bytes, or an error where the server ends before them."""
        parts = []
        while length:
            part = self.socket.recv(min(length, 1 << 20))
            if not part:
                raise EOFError("the server ended the connection")
            parts.append(part)
            length -= len(part)
        return b"".join(parts)

    def reply(self, cookie):
        magic, error, of = struct.unpack(">IIQ", self.take(16))
        assert magic == 0x67446698 and of == cookie, (magic, of)
        return error

    def read(self, offset, length):
        self.socket.sendall(request(READ, 1, offset, length))
        error = self.reply(1)
        return error or self.take(length)

    def write(self, offset, data):
        self.socket.sendall(request(WRITE, 2, offset, len(data)) + data)
        return self.reply(2)

    def zero(self, offset, length, flags=0):
        self.socket.sendall(request(WRITE_ZEROES, 5, offset, length, flags))
        return self.reply(5)

    def flush(self):
        self.socket.sendall(request(FLUSH, 3))
        return self.reply(3)

    def disconnect(self):
        self.socket.sendall(request(DISCONNECT, 4))
        self.socket.close()

    def vanish(self):
        """Ends the connection at once, by a reset."""
        self.socket.setsockopt(socket.SOL_SOCKET, socket.SO_LINGER, struct.pack("ii", 1, 0))
        self.socket.close()
