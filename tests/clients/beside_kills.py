"""Clients of a volume that is converted meanwhile, and whose server is killed at moments that are drawn.

    beside_kills.py PROGRAM VOLUME KEY_FILE SEED KILLS PLAIN

Each client has blocks of its own, writes values that tell the block and a number that rises, reads them
back, and flushes now and then. Of each block it is kept which value was flushed last, and those that were
written since, also where no reply came. Behind each kill each block is read, under a server that converts
nothing or, in turn, one that goes on with the conversion: it has one of these values, and that one counts as
written. A conversion that is at its end is followed by another one. The content at the end goes to PLAIN.
"""

import os
import random
import re
import signal
import struct
import subprocess
import sys
import threading
import time

from client import Client

PROGRAM, VOLUME, KEY, SEED, KILLS, PLAIN = sys.argv[1:]
BLOCK = 4096
CLIENTS = 8
# the ways in which conversions are begun, in turn
WAYS = [
    "--hotzone-size 65536",
    "--hotzone-size 262144 --direction backward --sector-size 4096",
    "--hotzone-size 65536 --resilience checksum",
    "--hotzone-size 1048576 --cipher aes-cbc-essiv:sha256",
]


def value(block, number):
    """The bytes of a block that is written as the number-th one; number 0 is none, whose bytes any are."""
    return struct.pack("<QQ", block, number) * (BLOCK // 16)


class Blocks:
    """Of each block the number that was flushed last, and those that were written since, in order; the last one
    of them that was answered."""

    def __init__(self, count):
        self.lock = threading.Lock()
        self.flushed = [0] * count
        self.since = [[] for _ in range(count)]
        self.answered = [0] * count
        self.number = 0

    def begin(self, blocks):
        """Numbers for blocks that are to be written."""
        with self.lock:
            numbers = []
            for block in blocks:
                self.number += 1
                self.since[block].append(self.number)
                numbers.append(self.number)
            return numbers

    def end(self, blocks, numbers):
        with self.lock:
            for block, number in zip(blocks, numbers):
                self.answered[block] = number

    def before_flush(self):
        """What was answered before a flush is sent: it covers that, whoever wrote it."""
        with self.lock:
            return list(self.answered)

    def after_flush(self, covered):
        """A flush was answered: older values than those it covers are gone."""
        with self.lock:
            for block, number in enumerate(covered):
                if number > self.flushed[block]:
                    self.flushed[block] = number
                    self.since[block] = [one for one in self.since[block] if one > number]

    def is_allowed(self, block, data):
        """Whether a block may have these bytes, by which number; that one is what was written last."""
        if data == bytes(BLOCK):
            number = 0
        else:
            of, number = struct.unpack("<QQ", data[:16])
            if of != block or data != value(block, number):
                return False
        if number != self.flushed[block] and number not in self.since[block]:
            return False
        self.since[block] = [number] if number != self.flushed[block] else []
        self.answered[block] = number
        return True


class Server:
    def __init__(self, *words):
        self.process = subprocess.Popen(
            [PROGRAM, "serve", VOLUME, "--key-file", KEY, "--listen", "127.0.0.1:0", "--workers", "8", *words],
            stdout=subprocess.PIPE,
            stderr=subprocess.PIPE,
            stdin=subprocess.DEVNULL,
            text=True,
        )
        self.port = None
        for line in self.process.stderr:
            found = re.fullmatch(r"reencd: listening on .*:(\d+)\n", line)
            if found:
                self.port = int(found[1])
                break
        if self.port is None:
            raise SystemExit(f"the server did not start: {self.process.stdout.read()}")
        # what else it says is read, so that it never waits for that
        self.said = []
        self.reader = threading.Thread(target=lambda: self.said.extend(self.process.stderr))
        self.reader.start()

    def kill(self):
        self.process.send_signal(signal.SIGKILL)
        self.process.wait()
        self.reader.join()


def status():
    """The state, and how many blocks are new of how many; of an idle volume none."""
    text = subprocess.run([PROGRAM, "status", VOLUME], capture_output=True, text=True, check=True).stdout
    state = re.search(r"^state: (.*)$", text, re.MULTILINE)[1]
    boundary = re.search(r"^boundary: (\d+) of (\d+)$", text, re.MULTILINE)
    return state, boundary and (int(boundary[1]), int(boundary[2]))


def load(port, blocks, own, seed, ending, errors):
    """A client on blocks of its own, until the server is killed."""
    draws = random.Random(seed)
    try:
        client = Client(port)
        while not ending.is_set():
            kind = draws.random()
            first = draws.randrange(len(own))
            run = own[first : first + draws.choice([1, 1, 2, 5, 16])]
            if kind < 0.6:
                numbers = blocks.begin(run)
                data = b"".join(map(value, run, numbers))
                if client.write(run[0] * BLOCK, data) != 0:
                    errors.append("a write fails")
                    return
                blocks.end(run, numbers)
            elif kind < 0.95:
                with blocks.lock:
                    wanted = b"".join(
                        value(one, blocks.answered[one]) if blocks.answered[one] else bytes(BLOCK) for one in run
                    )
                if client.read(run[0] * BLOCK, len(run) * BLOCK) != wanted:
                    errors.append(f"blocks from {run[0]} on are read otherwise than they were written")
                    return
            else:
                covered = blocks.before_flush()
                if client.flush() != 0:
                    errors.append("a flush fails")
                    return
                blocks.after_flush(covered)
    except (EOFError, ConnectionError):
        if not ending.is_set():
            errors.append("the server ended a connection")
    except Exception as error:  # what a thread raises is told by the main one
        errors.append(repr(error))


def check(port, blocks, count):
    """Each block has a value that it may have."""
    client = Client(port)
    for at in range(0, count, 256):
        data = client.read(at * BLOCK, min(256, count - at) * BLOCK)
        assert isinstance(data, bytes), f"a read fails by {data}"
        for place in range(0, len(data), BLOCK):
            block = at + place // BLOCK
            if not blocks.is_allowed(block, data[place : place + BLOCK]):
                one = struct.unpack("<QQ", data[place : place + 16])
                raise SystemExit(
                    f"block {block} has {one}, and not {blocks.flushed[block]} or one of {blocks.since[block][:9]}"
                )
    client.disconnect()


def begin_conversion(turn):
    words = WAYS[turn % len(WAYS)].split()
    subprocess.run(
        [PROGRAM, "init", VOLUME, "--key-file", KEY, "--iterations", "1000", *words],
        check=True,
        stdout=subprocess.DEVNULL,
    )


def main():
    draws = random.Random(int(SEED))
    server = Server()
    client = Client(server.port)
    count = client.size // BLOCK
    for at in range(0, client.size, 1 << 20):
        assert client.write(at, bytes(min(1 << 20, client.size - at))) == 0
    assert client.flush() == 0
    client.disconnect()
    server.kill()
    blocks = Blocks(count)
    # each eighth block is a client's own, by runs of 64
    own = [[one for one in range(count) if one // 64 % CLIENTS == number] for number in range(CLIENTS)]
    runs = [[one[at : at + 64] for at in range(0, len(one), 64)] for one in own]
    kills, turns, midway = 0, 0, 0
    attempts = 3 * int(KILLS)
    while kills < int(KILLS) or midway < int(KILLS) // 2:
        if kills >= attempts:
            raise SystemExit(f"of {kills} kills {midway} came in the middle of a conversion")
        if status()[0] == "idle":
            begin_conversion(turns)
            turns += 1
        # each second time the blocks are read before anything more is converted
        if kills % 2 == 0:
            server = Server("--no-worker")
            left = status()
            check(server.port, blocks, count)
            assert status() == left, f"without a worker {left} becomes {status()}"
            server.kill()
            server = Server()
        else:
            server = Server()
            check(server.port, blocks, count)
        ending, errors = threading.Event(), []
        threads = [
            threading.Thread(
                target=load,
                args=(server.port, blocks, draws.choice(runs[k]), draws.random(), ending, errors),
            )
            for k in range(CLIENTS)
        ]
        for thread in threads:
            thread.start()
        time.sleep(draws.random() * draws.choice([0.05, 0.3, 1.0]))
        ending.set()
        server.kill()
        for thread in threads:
            thread.join()
        if errors:
            raise SystemExit(errors[0])
        kills += 1
        state, boundary = status()
        if boundary and 0 < boundary[0] < boundary[1]:
            midway += 1
    print(f"of {kills} kills, in {turns} conversions, {midway} came in the middle of one")
    server = Server()
    check(server.port, blocks, count)
    for _ in range(6000):
        if status()[0] == "idle":
            break
        time.sleep(0.05)
    assert status()[0] == "idle", "the conversion isn't led to its end"
    check(server.port, blocks, count)
    client = Client(server.port)
    with open(PLAIN, "wb") as file:
        for at in range(0, client.size, 1 << 20):
            file.write(client.read(at, min(1 << 20, client.size - at)))
    client.disconnect()
    server.kill()
    print(f"each of {count} blocks has what was flushed there last, or what was written since")


main()
