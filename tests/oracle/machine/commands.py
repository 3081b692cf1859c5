"""The commands on disks in memory (docs/CLI.md): what each calls of the disk, one after the
other, and how it ends."""

import json
from types import SimpleNamespace

from ..conversion import begun, steps
from ..conversion.mending import Mended
from ..conversion.zones import Fault, Led
from ..luks import new_volume
from ..luks.ciphers import Side
from ..luks.keyslots import unlock
from ..luks.header import LARGEST, CopiesDiffer, Header, NoHeader, numbered
from ..words import Faulty, asked
from .bay import Ended, device, failing, fault, judge, no_fit, read_header, refused
from .demo import demo
from .disk import Both, Failed

# The bytes of the smallest sector of LUKS2.
SMALLEST_SECTOR = 512


# ---- keys


def find_key(disk, objects, digests, passphrase):
    with failing("Reading", disk):
        key = unlock(disk, objects, digests, passphrase)
    if key is None:
        raise fault(5, "NoKey")
    return key


def holds_all(disk, objects):
    """Refuses a disk behind whose last whole atom sectors of the volume may be."""
    if disk.tail >= SMALLEST_SECTOR and any(one["size"] == "dynamic" for one in objects["segments"].values()):
        raise no_fit("Tail", disk.tail, 0)


def is_encrypted(objects):
    """Whether the volume is, of which nothing is being converted (LUKS2 On-Disk Format, section 3.3)."""
    (live,) = objects["segments"].values()
    return live["type"] == "crypt"


def checked(passphrase):
    with failing("Reading"):
        begun.passphrase_fits(len(passphrase))
    return passphrase


# ---- format and init


def make(bay, asked):
    wish, seed = new_volume.Wish(**vars(asked)), bay.seed()
    target = disk = bay.disk(wish.disk, wish.atom)
    header_atoms = 0
    if wish.header is not None:
        header = bay.disk(wish.header, wish.atom)
        target, header_atoms = Both(header, disk), len(header.held)
    passphrase = bay.passphrase(wish.key_file)
    unfit = wish.unfit(len(passphrase), len(disk.held), header_atoms)
    if unfit:
        raise no_fit(*unfit)
    volume, size = new_volume.Volume(wish, passphrase, seed), wish.metadata_size
    with failing("Writing"):
        target.put(2 * size, volume.area)
        target.settle()
        for which in range(2):
            target.put(which * size, volume.copies[which])
            target.settle()
    raise Ended(0, "Fine", f"formatted {volume.identifier}\n")


def init(bay, asked):
    wish, seed = begun.Wish(**vars(asked)), bay.seed()
    disk = bay.disk(wish.disk, wish.atom)
    passphrase = bay.passphrase(wish.key_file)
    header = read_header(disk, "Reading")
    if header.in_progress() or not is_encrypted(header.objects):
        raise fault(6, "WrongState")
    find_key(disk, header.objects, header.objects["digests"].values(), checked(passphrase))
    with failing("Starting", disk):
        disk.settle()
    header = read_header(disk, "Starting")
    digests = header.objects["digests"].values()
    held = [slot for digest in digests if digest["segments"] for slot in digest["keyslots"]]
    if len(held) > 1 and not wish.drop_keyslots:
        raise fault(15, "Keyslots")
    holds_all(disk, header.objects)
    disks, used = steps.Disks(disk.atom, "attached", len(disk.held)), header.used
    draw = begun.draw_of(wish, seed)
    with failing("Starting", disk):
        made = begun.Beginning(header.objects, disks, wish, draw)
    if used.number == LARGEST:
        raise no_fit("Seqid", used.number, used.number - 1)
    with failing("Starting", disk):
        header.repair(disk)
    with failing("Writing", disk):
        disk.put(made.place, draw.area(passphrase, wish.iterations, wish.atom))
        disk.settle()
        for which in range(2):
            copy = used.again(which, header.salts[which], used.number + 1, made.text)
            disk.put(which * used.size, copy)
            disk.settle()
    raise Ended(0, "Fine", f"started reencrypt {wish.direction} {wish.resilience}\n")


# ---- status


def segment_text(segment):
    if segment["type"] == "linear":
        return f'linear offset {segment["offset"]}'
    return f'{segment["encryption"]} sector {segment["sector_size"]} offset {segment["offset"]}'


def slot_text(slot):
    return "reencrypt" if slot["type"] == "reencrypt" else f'luks2 {slot["kdf"]["type"]}'


def state_text(disk, objects):
    """Where a conversion is that is under way."""
    found = steps.Conversion(objects, steps.Disks(disk.atom, "attached", len(disk.held)))
    way, zone = ("forward" if found.forward else "backward"), found.counts["zone"]
    first = found.boundary - (0 if found.forward else zone)
    return [
        f'state: {found.mode} {way} {found.area["type"]}',
        f"old: {segment_text(found.old)}",
        f"new: {segment_text(found.new)}",
        f"boundary: {found.boundary} of {found.blocks}",
        f"zone: {first} + {zone}" if zone else "zone: none",
    ]


def status(bay, wish):
    disk = bay.disk(wish.disk, wish.atom)
    with failing("Reading", disk):
        try:
            header = Header(disk)
        except (NoHeader, CopiesDiffer):
            # a server may be in the middle of a commit: it is read once more
            header = Header(disk)
    objects = header.objects
    judge(disk, objects)
    lines = [f"uuid: {header.used.identifier.lower()}", f"seqid: {header.used.number}"]
    if header.in_progress():
        lines += state_text(disk, objects)
    else:
        (live,) = objects["segments"].values()
        disks = steps.Disks(disk.atom, "attached", len(disk.held))
        blocks = disks.length(live) // disk.atom
        lines += ["state: idle", f"live: {segment_text(live)} blocks {blocks}"]
    for number, slot in numbered(objects["keyslots"]):
        lines.append(f"slot {number}: {slot_text(slot)}")
    raise Ended(0, "Fine", "".join(line + "\n" for line in lines))


# ---- resume


def side_of(segment, key):
    """How the blocks of an encrypted segment are sealed."""
    return Side(segment["encryption"], key, segment["sector_size"], int(segment["iv_tweak"]))


class Volume:
    """The volume of a header by which a conversion is under way, under the keys of its sides."""

    def __init__(self, disk, objects, keys):
        self.atom = disk.atom
        self.disks = steps.Disks(disk.atom, "attached", len(disk.held))
        self.found = steps.Conversion(objects, self.disks)
        self.blocks, self.offset = self.found.blocks, int(self.found.old["offset"])
        wholes = zip((self.found.old, self.found.new), keys)
        self.old, self.new = (side_of(whole, key) for whole, key in wholes)


def find_keys(disk, objects, passphrase):
    """The keys of the old side and of the new one, each from the keyslots of its digest."""
    found = steps.Conversion(objects, steps.Disks(disk.atom, "attached", len(disk.held)))
    numbers, digests = (found.old_digest, found.new_digest), objects["digests"]
    return [find_key(disk, objects, [digests[number]], passphrase) for number in numbers]


def taken_up(disk, passphrase):
    """Opens the volume of a conversion that is under way: what is read and checked, and then
    what is written before the first zone."""
    header = read_header(disk, "Reading")
    if not header.in_progress():
        raise fault(6, "WrongState")
    keys = find_keys(disk, header.objects, checked(passphrase))
    holds_all(disk, header.objects)
    with failing("Starting", disk):
        disk.settle()
        header = Header(disk)
        volume = Volume(disk, header.objects, keys)
        # what writes the zone again is made of the header as it stands, and checked, before the
        # copy that lacks or is older is written anew
        mended = Mended(volume, header)
        header.repair(disk)
        if mended.zone:
            mended.write(disk)
    return volume


class Told(Led):
    """A conversion that is led on, and what a gate is told of it: how many blocks are new, before
    each step of its worker. A zone takes a step in which its blocks are asked for, one for each
    device call, and one in which they are left; behind the finish's calls there is one that answers
    that all is done. Headers are made in the step of the first save, or of the finish's first call,
    which makes none where they can't be."""

    def __init__(self, volume, disk):
        super().__init__(volume, disk)
        self.told = []

    def step_on(self):
        zone, new, calls = self.range(), self.found.counts["new"], self.disk.calls
        try:
            super().step_on()
            ends = [self.found.counts["new"]]
        except Fault:
            ends = [new]
            raise
        except Failed:
            ends = []
            raise
        finally:
            self.told += [new] * (self.disk.calls - calls + (zone is not None)) + ends

    def course(self):
        """What is told first, and last, how often, and how often it was another number."""
        first, last, volume = self.told[0], self.told[-1], self.volume
        changes = sum(one != other for one, other in zip(self.told, self.told[1:]))
        return (
            f"{len(self.told)} told, {first} to {last} of {volume.blocks} blocks"
            f" of {volume.atom} bytes, {changes} changes"
        )


def led_to_its_end(bay, disk, volume, failing_at):
    """The conversion is led on; where it ends before, the command does."""
    led = Told(volume, disk)
    try:
        led.lead()
    except Failed:
        raise device(failing_at(), disk.faults) from None
    except Fault as found:
        raise refused(found) from None
    finally:
        bay.course = led.course()


def resume(bay, wish):
    disk = bay.disk(wish.disk, wish.atom)
    passphrase = bay.passphrase(wish.key_file)
    volume = taken_up(disk, passphrase)
    led_to_its_end(bay, disk, volume, lambda: "Converting")
    raise Ended(0, "Fine", f"finished {volume.blocks} blocks\n")


COMMANDS = {"format": make, "init": init, "status": status, "resume": resume, "demo": demo}


def ended_by(bay, words):
    """How a command ends: the status, its cause, and what it prints."""
    words = words.split(" ") if words else []
    try:
        wish = SimpleNamespace(**asked(words))
        COMMANDS[wish.command](bay, wish)
    except Ended as ended:
        bay.word = getattr(ended, "word", "")
        return ended.args
    except Faulty:
        told = json.dumps(words, ensure_ascii=False)
        return fault(1, "Usage", f"Usage {{ words: {told} }}").args
    raise ValueError("a command without an end")
