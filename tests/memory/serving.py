"""Clients of a volume that is converted meanwhile, by a server that is short of memory.

    serving.py PROGRAM SHORT VOLUME KEY_FILE SEED

SHORT is the library that refuses memory. Each client has blocks of its own, writes, zeroes and reads them,
and flushes, by several connections one after the other. Each request is answered rightly or by error 12, for
want of memory, or the connection ends, also before it was made. A write that was answered by error 12 did
nothing; one that wasn't answered did all or nothing of each block. A server that has no memory for a client
turns it away, says so and waits for the next one: there has to be memory again before its sessions can end. It
ends by status 0, 10, where memory was wanted for a connection, or 13. Behind each run each block is read,
under a server that isn't short of memory, goes on with the conversion and leads it to its end.
"""

import errno
import multiprocessing
import os
import random
import re
import struct
import subprocess
import sys
import time
from collections import Counter

import nbd

PROGRAM, SHORT, VOLUME, KEY, SEED = sys.argv[1:]
BLOCK = 4096
CLIENTS, CONNECTIONS, REQUESTS = 4, 6, 40
# what is refused, once the server listens, and how the conversion is begun
RUNS = [
    ("one of a hundred", {"WANTING_PARTS": "10"}, "--hotzone-size 65536"),
    ("one of two of more than 64 KiB, of all but the worker",
     {"WANTING_PARTS": "500", "WANTING_ABOVE": "65536", "WANTING_OTHERS": "1"}, "--direction backward"),
    ("one of thirty, of all but the worker", {"WANTING_PARTS": "33", "WANTING_OTHERS": "1"}, "--resilience checksum"),
    ("the 5000th and each 999th behind it", {"WANTING_FIRST": "5000", "WANTING_EVERY": "999"}, "--hotzone-size 65536"),
    ("more than 64 KiB", {"WANTING_FIRST": "1", "WANTING_EVERY": "1", "WANTING_ABOVE": "65536"}, ""),
    ("all behind the hundredth", {"WANTING_FIRST": "100", "WANTING_EVERY": "0"}, "--hotzone-size 65536"),
]


def value(block, number):
    """The bytes of a block that is written as the number-th one; those of number 0 are zeros."""
    return struct.pack("<QQ", block, number) * (BLOCK // 16) if number else bytes(BLOCK)


def held(block, numbers, data):
    """The last of these values of a block that it has."""
    found = [one for one in numbers if value(block, one) == data]
    if not found:
        raise ValueError(f"block {block} has none of the values {numbers}")
    return found[-1]


class Server:
    """A server of the volume under these words, in an environment with more in it."""

    def __init__(self, *words, **more):
        self.process = subprocess.Popen(
            [PROGRAM, "serve", VOLUME, "--key-file", KEY, "--listen", "127.0.0.1:0", *words],
            stdout=subprocess.PIPE,
            stderr=open("said", "w"),
            stdin=subprocess.DEVNULL,
            text=True,
            env=os.environ | more,
        )
        self.port = None
        while self.port is None and self.process.poll() is None:
            time.sleep(0.01)
            with open("said") as file:
                found = re.search(r"^reencd: listening on .*:(\d+)$", file.read(), re.MULTILINE)
            self.port = found and int(found[1])

    def end(self, seconds):
        """How the server ended within so many seconds; None where it goes on, which is ended then."""
        try:
            return self.process.wait(seconds)
        except subprocess.TimeoutExpired:
            self.process.kill()
            self.process.wait()
            return None


def is_refused(call):
    """Whether a call of libnbd is answered by error 12. A connection that ended is an EOFError."""
    try:
        call()
        return False
    except nbd.Error as error:
        if error.errnum == errno.ENOMEM:
            return True
        raise


class Own:
    """What a client knows of its own blocks: the values of each that it may have, the last one of them last."""

    def __init__(self, values):
        self.values = {block: [number] for block, number in values.items()}
        self.counts = {"answered": 0, "refused": 0}

    def told(self, refused):
        self.counts["refused" if refused else "answered"] += 1

    def write(self, client, run, numbers):
        before = [list(self.values[block]) for block in run]
        for block, number in zip(run, numbers):
            self.values[block].append(number)
        place, data = run[0] * BLOCK, b"".join(map(value, run, numbers))
        if any(numbers):
            refused = is_refused(lambda: client.pwrite(data, place))
        else:
            refused = is_refused(lambda: client.zero(len(data), place))
        for at, block in enumerate(run):
            self.values[block] = before[at] if refused else [numbers[at]]
        self.told(refused)

    def read(self, client, run):
        found = []
        refused = is_refused(lambda: found.append(client.pread(len(run) * BLOCK, run[0] * BLOCK)))
        self.told(refused)
        for at, block in enumerate([] if refused else run):
            data = found[0][at * BLOCK : (at + 1) * BLOCK]
            self.values[block] = [held(block, self.values[block], data)]

    def flush(self, client):
        self.told(is_refused(client.flush))


def connected(port, number):
    """A connection, by structured replies or simple ones; None where it ended before it was made."""
    client = nbd.NBD()
    client.set_request_structured_replies(number % 2 == 0)
    try:
        client.connect_tcp("127.0.0.1", str(port))
    except nbd.Error:
        return None
    return client


def request(client, own, draws, name):
    """A request on some of a client's own blocks."""
    kind, first = draws.random(), draws.choice(sorted(own.values))
    run = range(first, min(first + draws.choice([1, 1, 2, 5, 16, 64]), first // 64 * 64 + 64))
    if kind < 0.5:
        own.write(client, run, [name] * len(run))
    elif kind < 0.55:
        own.write(client, run, [0] * len(run))
    elif kind < 0.95:
        own.read(client, run)
    else:
        own.flush(client)


def session(port, number, seed, own):
    """A client's connection: how it ended."""
    draws = random.Random(seed)
    client = connected(port, seed)
    if not client:
        return "not connected"
    try:
        for count in range(REQUESTS):
            request(client, own, draws, (seed * REQUESTS + count) * CLIENTS + number + 1)
        client.shutdown()
        return "left"
    except nbd.Error as error:
        return "ended" if client.aio_is_dead() or client.aio_is_closed() else f"another error: {error}"
    except ValueError as error:
        return str(error)


def load(port, number, seed, values, sender):
    """All connections of a client, one after the other."""
    own = Own(values)
    told = [session(port, number, seed * CONNECTIONS + turn, own) for turn in range(CONNECTIONS)]
    sender.send((told, own.values, own.counts))


def check(port, values):
    """Each block has a value that it may have, which it then has."""
    client = nbd.NBD()
    client.connect_tcp("127.0.0.1", str(port))
    runs, blocks = 256, sorted(values)
    for at in range(0, len(blocks), runs):
        data = client.pread(BLOCK * len(blocks[at : at + runs]), blocks[at] * BLOCK)
        for place, block in enumerate(blocks[at : at + runs]):
            found = data[place * BLOCK : (place + 1) * BLOCK]
            values[block] = [held(block, values[block], found)]
    client.shutdown()


def status():
    text = subprocess.run([PROGRAM, "status", VOLUME], capture_output=True, text=True, check=True).stdout
    state = re.search(r"^state: (.*)$", text, re.MULTILINE)[1]
    boundary = re.search(r"^boundary: (\d+) of \d+$", text, re.MULTILINE)
    return state, int(boundary[1]) if boundary else None


def clients(server, turn, values):
    """What all clients tell, which are served at once. The values of their blocks are kept."""
    told, counts = [], {"answered": 0, "refused": 0}
    shares = [{block: known[-1] for block, known in values.items() if block // 64 % CLIENTS == k} for k in range(CLIENTS)]
    pipes, processes = [], []
    for number in range(CLIENTS):
        receiver, sender = multiprocessing.Pipe(False)
        words = (server.port, number, int(SEED) * len(RUNS) + turn, shares[number], sender)
        processes.append(multiprocessing.Process(target=load, args=words))
        processes[-1].start()
        pipes.append(receiver)
    for receiver, process in zip(pipes, processes):
        how, own, own_counts = receiver.recv()
        process.join()
        values.update(own)
        told += how
        for kind, count in own_counts.items():
            counts[kind] += count
    return told, counts


def leave(server):
    """Sessions that no client had are taken up and left, so that the server comes to its end. Once a client
    was turned away there is memory again: a server that waits for it goes on then."""
    for _ in range(2 * CLIENTS * CONNECTIONS):
        if server.process.poll() is not None:
            break
        connection = connected(server.port, 0)
        if connection:
            connection.shutdown()
        else:
            give_memory()


def counted():
    with open("counts", "rb") as file:
        return struct.unpack("<QQ", file.read(16))


def give_memory():
    """From now on no call for memory is refused."""
    with open("counts", "r+b") as file:
        file.seek(16)
        file.write(struct.pack("<Q", 1))


def run(turn, values):
    """One run: how many calls for memory were refused, and how many requests answered, or by error 12."""
    name, short, words = RUNS[turn]
    if status()[0] == "idle":
        begin = [PROGRAM, "init", VOLUME, "--key-file", KEY, "--iterations", "1000", *words.split()]
        subprocess.run(begin, check=True, stdout=subprocess.DEVNULL)
    if os.path.exists("counts"):
        os.remove("counts")
    more = {"LD_PRELOAD": SHORT, "WANTING_SINCE": "listen", "WANTING_COUNTS": "counts", "WANTING_SEED": SEED}
    server = Server("--workers", str(CLIENTS), "--sessions", str(CLIENTS * CONNECTIONS), **more, **short)
    if server.port is None:
        raise SystemExit(f"failed: {name}: the server did not start: {server.process.poll()}")
    told, counts = clients(server, turn, values)
    leave(server)
    ended, (calls, refused) = server.end(60), counted()
    state, boundary = status()
    print(
        f"{name}: {refused} calls of {calls} refused; {counts['answered']} requests answered, and "
        f"{counts['refused']} by error 12; connections {Counter(told)}; status {ended}; {state}, boundary {boundary}",
        flush=True,
    )
    if not set(told) <= {"left", "ended", "not connected"}:
        raise SystemExit("failed: a client was answered wrongly")
    if ended not in (0, 10, 13):
        raise SystemExit(f"failed: status {ended}")
    if ended == 0 and state != "idle":
        raise SystemExit("failed: all was fine, and the conversion isn't at its end")
    return refused, counts["answered"], counts["refused"]


def resume_short():
    """`resume` says that memory is wanted where there is none from some call on, unless it is done by then."""
    for first in (1, 10, 50, 200, 1000, 5000):
        if status()[0] == "idle":
            return
        short = {"LD_PRELOAD": SHORT, "WANTING_FIRST": str(first), "WANTING_EVERY": "0"}
        ran = subprocess.run(
            [PROGRAM, "resume", VOLUME, "--key-file", KEY], capture_output=True, text=True, env=os.environ | short
        )
        if (ran.returncode, ran.stdout) != (13, "fault 13 Memory\n") and (ran.returncode, status()[0]) != (0, "idle"):
            raise SystemExit(f"failed: resume without memory from call {first} on: {ran.returncode}: {ran.stdout}")


def main():
    server = Server("--no-worker")
    client = nbd.NBD()
    client.connect_tcp("127.0.0.1", str(server.port))
    count = client.get_size() // BLOCK
    values = {block: [0] for block in range(count)}
    for at in range(0, count, 256):
        client.pwrite(bytes(min(256, count - at) * BLOCK), at * BLOCK)
    client.shutdown()
    server.process.kill()
    server.process.wait()
    sums = [0, 0, 0]
    for turn in range(len(RUNS)):
        sums = [one + two for one, two in zip(sums, run(turn, values))]
        resume_short()
        # the next server goes on with the conversion, and isn't short of memory
        server = Server()
        check(server.port, values)
        until = time.monotonic() + 300
        while status()[0] != "idle" and time.monotonic() < until:
            time.sleep(0.05)
        if status()[0] != "idle":
            raise SystemExit("failed: the conversion isn't led to its end")
        check(server.port, values)
        server.process.kill()
        server.process.wait()
    if 0 in sums:
        raise SystemExit(f"failed: nothing was refused, or nothing answered: {sums}")
    print(f"each of {count} blocks has the value that was written there last")


main()
