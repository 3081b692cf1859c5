#!/usr/bin/env python3
"""What stops leave of a conversion on a real file that goes on beside clients. The writes and syncs are
recorded that `serve` makes on the file, and what it sends to its clients between them, while two clients
write blocks of their own, read and flush, and the worker leads a conversion to its end. Images are made of
it as run.py makes them: at each moment the clients know of some replies, and each unit of 512 bytes, of the
volume's blocks each block, that was written since the last sync that had ended may be lost, kept, or torn
from the others. By another reading of the format each block of an image has what was flushed there last, as
the replies say that went out before, or a value that was written since; and `resume` takes the image up and
leaves just that content.

    tests/stops/beside.py [PROGRAM] [--images N] [--seed N]

Standard library, strace and the module `cryptography`.
"""

import argparse
import os
import random
import re
import subprocess
import sys
import tempfile
import threading
from dataclasses import dataclass

import run
from run import SYNCS, WRITES, OTHERS, Program, Stopped, Sync, Unlike, calls_on, key_file, read_anew, read_begun

from client import Client

SENDS = "sendto,sendmsg"
# how many operations each client asks for
OPERATIONS = 80
PLANS = [
    # atoms, blocks, what `init` is told besides
    (512, 264, "--key-size 32 --hotzone-size 4096"),
    (4096, 40, "--key-size 32 --hotzone-size 8192 --direction backward"),
    (4096, 48, "--key-size 16 --cipher aes-cbc-essiv:sha256 --hotzone-size 8192"),
    (512, 264, "--key-size 32 --hotzone-size 4096 --resilience checksum"),
]
FIRST = 303104


@dataclass
class Sent:
    """So many bytes went to the client of a port."""

    port: int
    count: int


@dataclass
class Operation:
    """What a client asked for: the blocks that it writes, with their bytes, or what a flush covers, which is
    how many operations of each client had been answered before; and how many bytes the client had got when
    its reply was there."""

    writes: dict
    covers: tuple
    got: int = 0


class Counting(Client):
    """A client that counts what it gets."""

    def __init__(self, port):
        self.got = 0
        super().__init__(port)
        self.port = self.socket.getsockname()[1]

    def take(self, length):
        data = super().take(length)
        self.got += len(data)
        return data


class Load:
    """Clients, each with blocks of its own, and what each of them asked for in order."""

    def __init__(self, port, content, atom, drawn):
        self.atom, self.plain, self.errors = atom, content, []
        self.clients = [Counting(port) for _ in range(2)]
        self.greeted = [client.got for client in self.clients]
        self.asked = [[] for _ in self.clients]
        self.answered = [0 for _ in self.clients]
        blocks = len(content) // atom
        # runs of three blocks, in turn
        self.own = [[one for one in range(blocks) if one // 3 % 2 == number] for number in range(2)]
        self.draws = [random.Random(drawn.random()) for _ in self.clients]

    def go(self):
        threads = [threading.Thread(target=self.ask, args=(number,)) for number in range(2)]
        for thread in threads:
            thread.start()
        for thread in threads:
            thread.join()
        if self.errors:
            raise Unlike(self.errors[0])

    def ask(self, number):
        try:
            client, draws, blocks = self.clients[number], self.draws[number], {}
            for count in range(OPERATIONS):
                first = draws.choice(self.own[number])
                run_of = [one for one in range(first, first + draws.randrange(1, 4)) if one in self.own[number]]
                kind = draws.random()
                operation = Operation({}, ())
                if kind < 0.6:
                    operation.writes = {one: draws.randbytes(self.atom) for one in run_of}
                elif kind < 0.75:
                    operation.covers = tuple(self.answered)
                self.asked[number].append(operation)
                if operation.writes:
                    right = client.write(first * self.atom, b"".join(operation.writes.values())) == 0
                    blocks.update(operation.writes)
                elif operation.covers:
                    right = client.flush() == 0
                else:
                    found = client.read(first * self.atom, len(run_of) * self.atom)
                    plain = lambda one: self.plain[one * self.atom : (one + 1) * self.atom]
                    right = found == b"".join(blocks.get(one, plain(one)) for one in run_of)
                operation.got = client.got
                self.answered[number] = count + 1
                if not right:
                    self.errors.append(f"operation {count} of client {number} isn't answered as it should be")
                    return
            client.disconnect()
        except Exception as error:  # what a thread raises is told by the main one
            self.errors.append(repr(error))


def allowed(load, sent):
    """Of each block the values that it may have once so many bytes went to each client: what was flushed last,
    or was written since; the next operation of a client may be under way."""
    done = [
        sum(operation.got <= sent.get(client.port, 0) for operation in asked)
        for client, asked in zip(load.clients, load.asked)
    ]
    flushed = [0, 0]
    for asked, count in zip(load.asked, done):
        for operation in asked[:count]:
            if operation.covers:
                flushed = [max(pair) for pair in zip(flushed, operation.covers)]
    values = {}
    for asked, count, sure in zip(load.asked, done, flushed):
        for place, operation in enumerate(asked[: count + 1]):
            for block, data in operation.writes.items():
                if place < sure:
                    values[block] = [data]
                else:
                    plain = load.plain[block * load.atom : (block + 1) * load.atom]
                    values.setdefault(block, [plain]).append(data)
    return values


class Plan:
    def __init__(self, program, room, drawn, number):
        self.atom, blocks, begins = PLANS[number]
        self.program, self.drawn = program, drawn
        self.disk = os.path.join(room, f"disk{number}.img")
        self.passphrase = b"a passphrase"
        with open(key_file(self.disk), "wb") as file:
            file.write(self.passphrase)
        self.write(drawn.randbytes(FIRST + blocks * self.atom))
        self.keyed = ["--key-file", key_file(self.disk), "--atom", str(self.atom)]
        drawing = [*self.keyed, "--iterations", "1000"]
        self.fine("format", self.disk, *drawing, "--data-offset", str(FIRST), "--key-size", "32")
        self.content = read_anew(self.read(), self.passphrase)
        self.fine("init", self.disk, *drawing, *begins.split())
        self.first = self.read()
        self.events = self.served()
        changes = sum(isinstance(event, run.Write) for event in self.events)
        sent = sum(isinstance(event, Sent) for event in self.events)
        self.told = f"{changes} writes, {len(self.events) - changes - sent} syncs and {sent} replies"
        state = self.program.ends("status", self.disk, "--atom", str(self.atom))[1]
        if "state: idle" not in state:
            raise Unlike(f"the conversion isn't at its end: {state}")

    def write(self, data):
        with open(self.disk, "wb") as file:
            file.write(data)

    def read(self):
        with open(self.disk, "rb") as file:
            return file.read()

    def fine(self, *words):
        status, text = self.program.ends(*words)
        if status != 0:
            raise Unlike(f"{words[0]} ends with {status}: {text}")

    def served(self):
        """Has a server lead the conversion beside clients: what it made on the file and sent, in order."""
        log = self.disk + ".calls"
        tracing = ["strace", "-D", "-f", "-yy", "-xx", "-s", str(1 << 24), "-o", log]
        traced = ",".join([WRITES, SYNCS, OTHERS, SENDS])
        words = ["serve", self.disk, *self.keyed, "--listen", "127.0.0.1:0", "--workers", "2", "--sessions", "2"]
        server = subprocess.Popen(
            [*tracing, "-e", f"trace={traced}", self.program.path, *words],
            stdin=subprocess.DEVNULL,
            stdout=subprocess.PIPE,
            stderr=subprocess.PIPE,
            text=True,
        )
        with server:
            said = server.stderr.readline()
            while re.match(r"reencd: the (primary|secondary) copy of the header ", said):
                said = server.stderr.readline()
            found = re.fullmatch(r"reencd: listening on .*:(\d+)\n", said)
            if not found:
                server.kill()
                raise Unlike(f"the volume isn't served: {said}")
            self.load = Load(int(found[1]), self.content, self.atom, self.drawn)
            try:
                self.load.go()
            except Unlike:
                server.kill()
                raise
            text, said = server.communicate(timeout=120)
        if (server.returncode, text) != (0, "served 2 sessions\n"):
            raise Unlike(f"the server ends with {server.returncode}: {text}{said}")
        wait_for(log)
        with open(log) as lines:
            return list(self.events_in(run.whole_lines(line for line in lines if "+++" not in line)))

    def events_in(self, lines):
        ports = {client.port for client in self.load.clients}
        for line in lines:
            found = re.match(r"(?:sendto|sendmsg|write|writev)\(\d+<TCP:\[[^]]*->[^]]*:(\d+)\]>.* = (\d+)$", line)
            if found and int(found[1]) in ports:
                yield Sent(int(found[1]), int(found[2]))
            else:
                yield from calls_on(os.path.realpath(self.disk), [line])

    def image(self):
        """An image that a stop leaves behind one of the events, and what went to the clients before."""
        disk, sent = Stopped(bytearray(self.first), FIRST, self.atom), {}
        stop = self.drawn.randrange(len(self.events) + 1)
        if stop and isinstance(self.events[stop - 1], Sync) and self.drawn.random() < 0.8:
            stop -= 1
        for event in self.events[:stop]:
            if isinstance(event, Sent):
                sent[event.port] = sent.get(event.port, 0) + event.count
            else:
                disk.make(event)
        return disk.image(self.drawn), sent

    def check(self, image, sent):
        """Each block of an image has a value that it may have, and the same once the image was taken up: whether a
        conversion was under way."""
        self.write(image)
        status, text = self.program.ends("status", self.disk, "--atom", str(self.atom))
        if status != 0:
            raise Unlike(f"status ends with {status}: {text}")
        is_begun = "state: idle" not in text
        content = (read_begun if is_begun else read_anew)(image, self.passphrase)
        values = allowed(self.load, sent)
        for block in range(len(self.content) // self.atom):
            place = slice(block * self.atom, (block + 1) * self.atom)
            if content[place] not in values.get(block, [self.content[place]]):
                raise Unlike(f"block {block} has none of the values that it may have")
        status, text = self.program.ends("resume", self.disk, *self.keyed)
        if status != (0 if is_begun else 6):
            raise Unlike(f"resume ends with {status}: {text}")
        if read_anew(self.read(), self.passphrase) != content:
            raise Unlike("the content is another one once the image was taken up")
        return is_begun


def wait_for(log):
    """Waits until the tracer, which isn't waited for, has told that the program ended."""
    for _ in range(1000):
        with open(log) as file:
            if "+++ exited with" in file.read()[-4096:]:
                return
        threading.Event().wait(0.01)
    raise Unlike("the tracer doesn't end")


def main():
    parser = argparse.ArgumentParser()
    parser.add_argument("program", nargs="?", default=os.environ.get("REENCD", run.PROGRAM))
    parser.add_argument("--images", type=int, default=200)
    parser.add_argument("--seed", type=int, default=1)
    asked = parser.parse_args()
    try:
        subprocess.run(["strace", "-o", os.devnull, "true"], check=True, capture_output=True)
    except (OSError, subprocess.CalledProcessError):
        print("skipped: there is no strace that works")
        return 77
    if not run.decoded:
        print("skipped: Python has no module cryptography")
        return 77
    memory = "/dev/shm" if os.access("/dev/shm", os.W_OK) else None
    with tempfile.TemporaryDirectory(dir=memory) as room:
        try:
            return try_images(Program(asked.program), room, asked.images, asked.seed)
        except Unlike as unlike:
            print(f"seed {asked.seed}: {unlike}")
            return 1


def try_images(program, room, images, seed):
    drawn = random.Random(seed)
    plans = [Plan(program, room, drawn, number) for number in range(len(PLANS))]
    for plan in plans:
        print(f"atoms of {plan.atom}: {plan.told}")
    begun = 0
    for count in range(images):
        plan = plans[count % len(plans)]
        image, sent = plan.image()
        try:
            begun += plan.check(image, sent)
        except Unlike as unlike:
            kept = f"stopped-beside-{seed}-{count}.img"
            with open(kept, "wb") as file:
                file.write(image)
            raise Unlike(f"image {count}, kept as {kept}: {unlike}") from None
    print(
        f"{images} images, seed {seed}: of {begun} the conversion was taken up; each block has what was flushed"
        " there last, or what was written since"
    )
    return 0


if __name__ == "__main__":
    sys.exit(main())
