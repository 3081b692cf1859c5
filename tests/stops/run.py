#!/usr/bin/env python3
"""What stops leave of a conversion on a real file. The writes and syncs are recorded that the program
makes on the file while `init` begins a conversion and `resume` leads it to its end; images are made of
it as a machine may leave it that stops: each unit of 512 bytes that was written since the last sync
that had ended has what it had then, or what any of the writes gave it since, as it is drawn, so that
writes are lost, torn and kept in any mixture. Each image is taken up by `resume`, and its content is
compared with that from before the first write. Some are stopped once more in that, and taken up again.

    tests/stops/run.py [PROGRAM] [--images N] [--seed N]

Standard library alone, and strace. The content is read by another reading of the format where there is
the module `cryptography`, before an image is taken up too; else by a client of `serve`; of some images by
both.
"""

import argparse
import hashlib
import os
import random
import re
import subprocess
import sys
import tempfile
from dataclasses import dataclass, field

HERE = os.path.dirname(os.path.abspath(__file__))
sys.path.insert(0, os.path.join(HERE, "../clients"))
sys.dont_write_bytecode = True

from client import Client

try:
    import decoded
except ImportError:
    decoded = None

PROGRAM = os.path.join(HERE, "../../crates/reencd/out/reencd")
UNIT = 512
WRITES = "pwrite64,write,pwritev,pwritev2,writev"
SYNCS = "fdatasync,fsync,sync_file_range,syncfs,sync"
OTHERS = "ftruncate,fallocate,copy_file_range,sendfile,splice"
PLANS = [
    # atoms, blocks, what `format` and `init` are told besides
    (512, 24, "--key-size 32", "--key-size 32 --hotzone-size 4096"),
    (4096, 7, "--key-size 32 --sector-size 4096", "--key-size 32 --hotzone-size 8192 --direction backward"),
    (4096, 5, "--key-size 32", "--key-size 16 --cipher aes-cbc-essiv:sha256 --hotzone-size 8192"),
    # by checksum a block that is torn itself can't be told, so that a block is a unit here
    (512, 132, "--key-size 32", "--key-size 32 --hotzone-size 4096 --resilience checksum"),
]
FIRST = 303104
LOST = [0.0, 0.1, 0.5, 0.9, 1.0]


class Unlike(Exception):
    """Something else came than is promised."""


# ---- the program


class Program:
    def __init__(self, path):
        self.path = path

    def ends(self, *words):
        """The status of a command, and what it printed."""
        done = subprocess.run(
            [self.path, *words], stdin=subprocess.DEVNULL, capture_output=True, timeout=120
        )
        return done.returncode, done.stdout.decode()

    def records(self, disk, *words):
        """The same, and what it made of writes and syncs on the disk, in their order."""
        log = disk + ".calls"
        tracing = ["strace", "-f", "-y", "-xx", "-s", str(1 << 24), "-o", log]
        traced = ",".join([WRITES, SYNCS, OTHERS])
        done = subprocess.run(
            [*tracing, "-e", f"trace={traced}", self.path, *words],
            stdin=subprocess.DEVNULL,
            capture_output=True,
            timeout=300,
        )
        with open(log) as lines:
            calls = list(calls_on(os.path.realpath(disk), whole_lines(lines)))
        os.remove(log)
        return done.returncode, done.stdout.decode(), calls

    def content(self, disk, atom):
        """The content of the volume as a client of `serve` reads it."""
        words = ["serve", disk, "--key-file", key_file(disk), "--atom", str(atom)]
        server = subprocess.Popen(
            [self.path, *words, "--listen", "127.0.0.1:0", "--sessions", "1"],
            stdin=subprocess.DEVNULL,
            stdout=subprocess.DEVNULL,
            stderr=subprocess.PIPE,
            text=True,
        )
        with server:
            said = server.stderr.readline()
            while re.match(r"reencd: the (primary|secondary) copy of the header ", said):
                said = server.stderr.readline()
            found = re.fullmatch(r"reencd: listening on .*:(\d+)\n", said)
            if not found:
                server.kill()
                raise Unlike(f"the volume isn't served: {said}")
            client = Client(int(found[1]))
            data = client.read(0, client.size)
            client.disconnect()
            server.wait(timeout=60)
        if not isinstance(data, bytes):
            raise Unlike(f"a read of the volume is answered by the error {data}")
        return data


def key_file(disk):
    return os.path.join(os.path.dirname(disk), "key")


# ---- what is recorded


@dataclass
class Write:
    at: int
    data: bytes


class Sync:
    pass


def whole_lines(lines):
    """Each call in one line, where another thread's came in between too: in the order in which the
    calls ended."""
    begun = {}
    for line in lines:
        thread, rest = line.rstrip("\n").split(maxsplit=1)
        if rest.endswith("<unfinished ...>"):
            begun[thread] = rest[: -len("<unfinished ...>")].rstrip()
        elif rest.startswith("<... "):
            yield begun.pop(thread) + rest.split(" resumed>", 1)[1]
        else:
            yield rest


def calls_on(path, lines):
    """The writes and syncs on a file; any other call on it that could change it is refused."""
    for line in lines:
        found = re.match(r"(\w+)\((?:\d+<([^>]*)>)?", line)
        if not found or found[2] is None or unescaped(found[2]) != path:
            continue
        write = re.fullmatch(r'pwrite64\([^"]*"((?:\\x..)*)", (\d+), (\d+)\) += (\d+)', line)
        if write:
            data = bytes.fromhex(write[1].replace("\\x", ""))
            if len(data) != int(write[2]) or int(write[4]) > len(data):
                raise Unlike(f"a write whose bytes aren't told: {line[:80]}")
            yield Write(int(write[3]), data[: int(write[4])])
        elif re.fullmatch(r"(fdatasync|fsync)\([^)]*\) += 0", line):
            yield Sync()
        else:
            raise Unlike(f"a call that isn't known: {line[:200]}")


def unescaped(name):
    return re.sub(r"\\x(..)", lambda found: chr(int(found[1], 16)), name)


# ---- what a stop may leave


@dataclass
class Stopped:
    """A disk that is written: what it has for certain, and of units written since the last sync all
    that they may have. Behind `whole` a unit is an atom of so many bytes, which isn't torn itself."""

    data: bytearray
    whole: int = 1 << 63
    atom: int = UNIT
    unsure: dict = field(default_factory=dict)

    def make(self, call):
        if isinstance(call, Sync):
            for at, values in self.unsure.items():
                self.data[at : at + len(values[-1])] = values[-1]
            self.unsure.clear()
            return
        unit = self.atom if call.at >= self.whole else UNIT
        if call.at % unit or len(call.data) % unit or call.at + len(call.data) > len(self.data):
            raise Unlike(f"a write of {len(call.data)} bytes at {call.at}")
        for place in range(0, len(call.data), unit):
            at = call.at + place
            before = self.unsure.setdefault(at, [bytes(self.data[at : at + unit])])
            before.append(call.data[place : place + unit])

    def image(self, drawn):
        """One image: how many of the units are lost is drawn first, then of each whether it is, and
        of one that isn't which of its writes it has."""
        lost = drawn.choice(LOST)
        data = bytearray(self.data)
        for at, values in self.unsure.items():
            if drawn.random() >= lost:
                data[at : at + len(values[-1])] = values[-1] if drawn.random() < 0.9 else drawn.choice(values)
        return bytes(data)


def stopped_in(first, calls, drawn):
    """An image that a stop leaves behind one of the calls; mostly where some are unsure."""
    stop = drawn.randrange(len(calls) + 1)
    if stop and isinstance(calls[stop - 1], Sync) and drawn.random() < 0.8:
        stop -= 1
    disk = Stopped(bytearray(first))
    for call in calls[:stop]:
        disk.make(call)
    return disk.image(drawn)


def whole_run(first, calls):
    disk = Stopped(bytearray(first))
    for call in calls:
        disk.make(call)
    if disk.unsure:
        raise Unlike("the last writes aren't synced")
    return bytes(disk.data)


# ---- what an image holds


def header_in(image):
    """The text of the header: of two copies with their sums that with the higher number."""
    found = []
    for at, magic in ((0, b"LUKS\xba\xbe"), (16384, b"SKUL\xba\xbe")):
        copy = image[at : at + 16384]
        summed = copy[:448] + bytes(64) + copy[512:]
        if copy[:6] == magic and hashlib.sha256(summed).digest() == copy[448:480]:
            found.append((int.from_bytes(copy[16:24], "big"), -at, copy))
    if not found:
        raise Unlike("no copy of the header has its sum")
    return max(found)[2]


def read_anew(image, passphrase):
    """The content of the volume by another reading."""
    header = decoded.header_of(header_in(image))
    key = decoded.key_of(image, header, passphrase)
    (segment,) = header["segments"].values()
    data = image[int(segment["offset"]) :]
    if segment["size"] != "dynamic":
        data = data[: int(segment["size"])]
    first = int(segment["iv_tweak"])
    return decoded.sectors(segment["encryption"], key, segment["sector_size"], first, data)


def opened(segment, key, first, data):
    """What bytes open to by a segment, from a byte of it on."""
    number = int(segment["iv_tweak"]) + first // UNIT
    return decoded.sectors(segment["encryption"], key, segment["sector_size"], number, data)


def zone_anew(image, segment, final, keys, area, begin):
    """The content of an open zone, which begins at a byte of the volume: by journal what was saved; by
    checksum each block where it is, an old one where it has the digest that was saved of it."""
    at, size, saved = int(segment["offset"]), int(segment["size"]), int(area["offset"])
    if area["type"] == "journal":
        return opened(segment, keys[0], 0, image[saved : saved + size])
    block, content = area["sector_size"], b""
    for place in range(0, size, block):
        data = image[at + place : at + place + block]
        digest = image[saved + place // block * 32 :][:32]
        if hashlib.sha256(data).digest() == digest:
            content += opened(segment, keys[0], place, data)
        else:
            content += opened(final, keys[1], begin + place, data)
    return content


def read_begun(image, passphrase):
    """The content of a volume of which a conversion is under way, by another reading."""
    header = decoded.header_of(header_in(image))
    (area,) = (slot["area"] for slot in header["keyslots"].values() if slot["type"] == "reencrypt")
    keys = {}
    for number, digest in header["digests"].items():
        key = decoded.key_of(image, {**header, "digests": {number: digest}}, passphrase)
        keys.update({segment: key for segment in digest["segments"]})
    *live, previous, final = sorted(header["segments"], key=int)
    sides, content = (keys[previous], keys[final]), b""
    for number in live:
        segment = header["segments"][number]
        if "in-reencryption" in segment.get("flags", []):
            whole = header["segments"][final]
            content += zone_anew(image, segment, whole, sides, area, len(content))
            continue
        data = image[int(segment["offset"]) :]
        if segment["size"] != "dynamic":
            data = data[: int(segment["size"])]
        content += opened(segment, keys[number], 0, data)
    return content


# ---- one plan: a volume, its conversion, and its images


class Plan:
    def __init__(self, program, room, drawn, number):
        atom, blocks, formats, begins = PLANS[number]
        self.program, self.drawn, self.atom = program, drawn, atom
        self.disk = os.path.join(room, f"disk{number}.img")
        self.passphrase = b"a passphrase"
        with open(key_file(self.disk), "wb") as file:
            file.write(self.passphrase)
        self.write(drawn.randbytes(FIRST + blocks * atom))
        keyed = ["--key-file", key_file(self.disk), "--atom", str(atom)]
        drawing = [*keyed, "--iterations", "1000"]
        sized = ["--data-offset", str(FIRST)]
        self.fine(program.ends("format", self.disk, *drawing, *sized, *formats.split()))
        self.first = self.read()
        self.content = self.content_of(self.first, True)
        self.resumes = ["resume", self.disk, *keyed]
        # what both commands make, from the idle volume to the idle volume
        self.calls = self.recorded("init", self.disk, *drawing, *begins.split())
        begun = len(self.calls)
        self.calls += self.recorded(*self.resumes)
        self.same(self.content_of(self.read(), True), "behind the whole conversion")
        self.told = f"{begun} writes and syncs of init, {len(self.calls) - begun} of resume"

    def write(self, data):
        with open(self.disk, "wb") as file:
            file.write(data)

    def read(self):
        with open(self.disk, "rb") as file:
            return file.read()

    @staticmethod
    def fine(ended):
        if ended[0] != 0:
            raise Unlike(f"a command ends with {ended}")

    def recorded(self, *words):
        """The calls of a command, which are all that it changes on the disk."""
        before = self.read()
        *ended, calls = self.program.records(self.disk, *words)
        self.fine(ended)
        if whole_run(before, calls) != self.read():
            raise Unlike(f"{words[0]} changes the disk by calls that weren't recorded")
        return calls

    def content_of(self, image, both=False):
        """The content of the volume of an image, of which nothing is being converted."""
        found = []
        if decoded:
            found.append(read_anew(image, self.passphrase))
        if both or not decoded:
            self.write(image)
            found.append(self.program.content(self.disk, self.atom))
        if found[0] != found[-1]:
            raise Unlike("a client of serve reads another content")
        return found[0]

    def same(self, content, where):
        if content != self.content:
            length = min(len(content), len(self.content))
            at = next((i for i in range(length) if content[i] != self.content[i]), length)
            raise Unlike(f"{where} the content differs from byte {at} on")

    def is_begun(self):
        """Whether a conversion is under way."""
        status, text = self.program.ends("status", self.disk, "--atom", str(self.atom))
        if status != 0:
            raise Unlike(f"status ends with {status}: {text}")
        return re.search(r"^state: (\w+)", text, re.M)[1] != "idle"

    def take_up(self, image, again, both):
        """Takes an image up, which is stopped once more in that where it is asked for: how it ended."""
        is_begun = self.puts(image)
        again = again and is_begun
        if again:
            *ended, calls = self.program.records(self.disk, *self.resumes)
            self.fine(ended)
            is_begun = self.puts(stopped_in(image, calls, self.drawn))
        status, text = self.program.ends(*self.resumes)
        if status != (0 if is_begun else 6):
            raise Unlike(f"resume ends with {status}: {text}")
        self.same(self.content_of(self.read(), both), f"behind a resume that ended with {status}")
        return "again" if again else "idle" if status == 6 else "open"

    def puts(self, image):
        """Puts an image on the disk: whether a conversion is under way; then its content is compared."""
        self.write(image)
        is_begun = self.is_begun()
        if is_begun and decoded:
            self.same(read_begun(image, self.passphrase), "by the header that a stop left")
        return is_begun


def main():
    parser = argparse.ArgumentParser()
    parser.add_argument("program", nargs="?", default=os.environ.get("REENCD", PROGRAM))
    parser.add_argument("--images", type=int, default=500)
    parser.add_argument("--seed", type=int, default=1)
    asked = parser.parse_args()
    try:
        subprocess.run(["strace", "-o", os.devnull, "true"], check=True, capture_output=True)
    except (OSError, subprocess.CalledProcessError):
        print("skipped: there is no strace that works")
        return 77
    memory = "/dev/shm" if os.access("/dev/shm", os.W_OK) else None
    with tempfile.TemporaryDirectory(dir=memory) as room:
        try:
            return try_images(Program(asked.program), room, asked.images, asked.seed)
        except Unlike as unlike:
            print(f"seed {asked.seed}: {unlike}")
            return 1


def try_images(program, room, images, seed):
    """Takes so many images up; one whose content is another is kept."""
    drawn = random.Random(seed)
    plans = [Plan(program, room, drawn, number) for number in range(len(PLANS))]
    for plan in plans:
        print(f"atoms of {plan.atom}: {plan.told}")
    ends = {"open": 0, "idle": 0, "again": 0}
    for count in range(images):
        plan = plans[count % len(plans)]
        image = stopped_in(plan.first, plan.calls, drawn)
        try:
            ends[plan.take_up(image, count % 10 == 9, count % 25 == 24)] += 1
        except Unlike as unlike:
            kept = f"stopped-{seed}-{count}.img"
            with open(kept, "wb") as file:
                file.write(image)
            raise Unlike(f"image {count}, kept as {kept}: {unlike}") from None
    how = "another reading" if decoded else "clients"
    print(
        f"{images} images, seed {seed}: of {ends['open'] + ends['again']} the conversion was taken up, of"
        f" {ends['again']} of these twice, and of {ends['idle']} none was under way; each has its content"
        f" by {how}"
    )
    return 0


if __name__ == "__main__":
    sys.exit(main())
