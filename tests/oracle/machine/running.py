"""What the lines of a script come to: a command that is run, one that is stopped within its
device calls, and one whose device calls fail; the latter two go on, and a client is served at
the end."""

import hashlib
import json
import re
from types import SimpleNamespace

from ..conversion.images import content
from ..luks.ciphers import sum_of
from ..luks.header import Header
from . import serving
from ..nbd import server as nbd
from ..words import NotJudged, asked
from .bay import Bay
from .commands import Volume, ended_by, find_keys
from .disk import Disk

IMAGES = ["oldest", "newest", "0,1", "1,0,1"]
# by how many places of their list the second stops of two images are apart
APART = 5
# what a line may be that isn't why nothing was opened
OTHERS = re.compile(r"says |\d+ told, |link \d+: |met$|missed$|(disk|header): \d+ calls, ")


def run_on(world, words, disks, clients=()):
    """A command's end, on these disks, for these clients, and the bay behind it."""
    after = world.next
    bay = Bay(disks, world.keys, world.seed(), clients, after.taken, after.fails_of)
    return put_out(ended_by(bay, words), after.room, after.fails_of("out")), bay


def put_out(ended, room, fails):
    """A command's end, whose text the output takes in one call and pushes out in another."""
    number, cause, text = ended
    is_put = 0 not in fails and len(text) <= room
    if number == 0 and (not is_put or 1 in fails):
        number, cause = 11, "Output { faults: 1 }"
    return number, cause, text if is_put else ""


def told(ended):
    number, cause, text = ended
    return f"{number} {cause} {json.dumps(text, ensure_ascii=False)}"


def spelt(data):
    """Few bytes, or the SHA-256 of many."""
    return data.hex() if len(data) <= 64 else sum_of(data)


def told_session(link, number, session):
    taken, put = session.taken, session.put
    return f"link {link}: {number} {session.ending}, taken {taken}, put {len(put)} {spelt(put)}"


def in_order(sessions):
    """Link by link."""
    return sorted(sessions, key=lambda one: one[:2])


def said(there):
    """What people are told besides, as it is there."""
    return [line for line in there if line.startswith("says ")]


def breaks_beside(world, words, there):
    """The lines of a command whose conversion a failing call breaks beside one client's
    requests: some of these come before that, and each behind it is refused, as it is there. Of
    the disk behind it the volume's content is known, and that its conversion isn't at its end."""
    if not there:
        raise NotJudged
    (name, shelf), (sent,) = next(iter(world.disks.items())), world.next.clients
    wish = SimpleNamespace(**asked(words.split(" ")))
    disk = Disk(shelf.atom, shelf.bytes)
    bay = Bay({name: disk}, world.keys, b"")
    blocks, _ = serving.opened(bay, bay.disk(name, wish.atom), wish)
    for healthy in range(sent.count(b"\x25\x60\x95\x13") + 1):
        session = nbd.Session(bytearray(blocks.content()), shelf.atom, sent, healthy)
        line = told_session(0, 0, session)
        if line in there:
            break
    blocks.write(0, bytes(session.disk))
    shelf.bytes = disk.bytes()
    ended = 2, "Device { failing: Writing, faults: 1 }", "fault 2 Device\n"
    return [told(ended), *said(there), line] + ["met"] * (world.next.meet is not None)


def disks_of(world):
    disks = {}
    for name, shelf in world.disks.items():
        if shelf.bytes is None:
            raise NotJudged
        stop = None if disks else world.next.stop
        fails = () if stop is not None else world.next.fails_of(name)
        disks[name] = Disk(shelf.atom, shelf.bytes, fails, stop, shelf.tail)
    return disks


def run(world, words, is_loose, there):
    """The lines of a command that is run; why nothing was opened, and what people are told
    besides, are taken as they are there."""
    disks = disks_of(world)
    if is_loose and world.next.clients and world.next.fails_of(next(iter(disks))):
        return breaks_beside(world, words, there)
    ended, bay = run_on(world, words, disks, world.next.clients)
    lines = [told(ended)]
    why = there[1] if ended[0] and len(there) > 1 and not OTHERS.match(there[1]) else ""
    if why or bay.word:
        lines.append(why if bay.word in why else f"{bay.word} ..")
    lines += said(there)
    if bay.course and not is_loose:
        lines.append(bay.course)
    lines += [told_session(*one) for one in in_order(bay.sessions)]
    if world.next.meet is not None:
        lines.append("met")
    for what, (name, shelf) in zip(("disk", "header"), world.disks.items()):
        disk = disks[name]
        if disk in bay.opened:
            shelf.bytes = disk.image(world.next.left)
            if not is_loose:
                lines.append(f"{what}: {disk.calls} calls, {sum_of(shelf.bytes)}")
    return lines


# ---- stops and faults


class Scene:
    """The first disk of a script, on which a command is stopped or fails and goes on; what comes
    of a disk is kept by its bytes."""

    def __init__(self, world, words):
        self.world, self.words, self.kept = world, words, {}
        (self.name, shelf), *others = world.disks.items()
        if others or shelf.bytes is None:
            raise NotJudged
        self.atom, self.bytes = shelf.atom, shelf.bytes
        self.content = self.content_of(self.bytes)

    def ran(self, words, data, fails=(), stop=None, clients=()):
        disk = Disk(self.atom, data, fails, stop)
        ended, bay = run_on(self.world, words, {self.name: disk}, clients)
        return ended, bay, disk

    def read(self, data):
        """What the script's client is put."""
        ended, bay, _ = self.ran(self.world.next.reader, data, clients=self.world.next.clients)
        return f"{ended[0]} {sum_of(bay.sessions[0][2].put)[:16]}"

    def state(self, data):
        """What `status` tells of the conversion."""
        (_, _, text), _, _ = self.ran(f"status {self.name} --atom {self.atom}", data)
        lines = [line.split(": ", 1) for line in text.split("\n")]
        return " ".join(line[1] for line in lines if line[0] in ("boundary", "zone")) or "idle"

    def content_of(self, data):
        """The content that an image holds by the header that it has, under the first key file
        that opens it."""
        disk = Disk(self.atom, data)
        (key_file,) = re.findall(r"--key-file (\S+)", self.words)
        header, passphrase = Header(disk), self.world.keys[key_file]
        if not header.in_progress():
            return serving.opened_idle(disk, header, passphrase).content()
        volume = Volume(disk, header.objects, find_keys(disk, header.objects, passphrase))
        return content(volume, data)

    def checked(self, data):
        assert self.content_of(data) == self.content, "an image of another content"
        return data

    def goes_on(self, image, second, left):
        """How an image goes on: the command is stopped once more, and then it isn't, and the
        client is served. What is told, and what stands on the disk behind either."""
        if (image, second, left) not in self.kept:
            ended, _, disk = self.ran(self.words, self.checked(image), stop=second)
            again = self.checked(disk.image(left))
            last, _, disk = self.ran(self.words, again)
            text = f"{ended[0]}, {self.state(again)}, {last[0]}, {self.read(disk.bytes())}"
            self.kept[image, second, left] = text, again, disk.bytes()
        return self.kept[image, second, left]

    def tried(self, more):
        if self.world.next.tried:
            return self.world.next.tried
        return range(self.ran(self.words, self.bytes)[2].calls + more)


def stops(world, words):
    scene, images, seconds = Scene(world, words), hashlib.sha256(), world.next.again
    for stop in scene.tried(1):
        ended, _, disk = scene.ran(words, scene.bytes, stop=stop)
        found = []
        for which, left in enumerate(IMAGES):
            image = disk.image(left)
            second = seconds[(stop + APART * which) % len(seconds)]
            text, *behind = scene.goes_on(image, second, left)
            found.append(text)
            for data in (image, *behind):
                images.update(data)
        yield f"{stop}: {ended[0]} {ended[1]}; " + " | ".join(found)
    yield images.hexdigest()


def faults(world, words):
    scene = Scene(world, words)
    for number in scene.tried(0):
        first, _, disk = scene.ran(words, scene.bytes, fails=[number])
        line = f"{number}: {told(first)} {disk.calls} {sum_of(disk.bytes())}"
        again, _, disk = scene.ran(words, scene.checked(disk.bytes()))
        yield f"{line}; again {told(again)} {disk.calls}, {scene.read(disk.bytes())}"
