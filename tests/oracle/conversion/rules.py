"""The rules that the metadata of a header keep, in the order of their tests (docs/FORMATS.md)."""

from ..luks.header import LARGEST, REQUIREMENT, numbered
from .steps import FINAL, PREVIOUS, Conversion, digest_of, laid_out


def areas_of(header):
    """Begin and end of each keyslot's area."""
    areas = [slot["area"] for slot in header["keyslots"].values() if "area" in slot]
    return [(int(a["offset"]), int(a["offset"]) + int(a["size"])) for a in areas]


def mandatory(header):
    return header["config"].get("requirements", {"mandatory": []})["mandatory"]


def is_foreign(header, disks):
    return any(text != REQUIREMENT for text in mandatory(header))


def breaks_bounds(header, disks):
    begin = 2 * (int(header["config"]["json_size"]) + 4096)
    end = begin + int(header["config"]["keyslots_size"])
    if any(first < begin or end < last for first, last in areas_of(header)):
        return True
    if disks.detached:
        return disks.header * disks.atom < end
    return any(int(segment["offset"]) < end for segment in header["segments"].values())


def overlap(header, disks):
    areas = sorted(area for area in areas_of(header) if area[0] < area[1])
    return any(b[0] < a[1] for a, b in zip(areas, areas[1:]))


def breaks_references(header, disks):
    digests = header["digests"].values()
    for digest in digests:
        if not set(digest["keyslots"]) <= set(header["keyslots"]):
            return True
        if not set(digest["segments"]) <= set(header["segments"]):
            return True
    return any(
        segment["type"] == "crypt" and sum(number in d["segments"] for d in digests) != 1
        for number, segment in header["segments"].items()
    )


def live_of(header):
    """The live segments."""
    segments = [segment for _, segment in numbered(header["segments"])]
    if REQUIREMENT not in mandatory(header):
        return segments
    kept = PREVIOUS + FINAL
    return [s for s in segments if not any(flag in kept for flag in s.get("flags", []))]


def breaks_segments(header, disks):
    if REQUIREMENT in mandatory(header):
        if any(segment["size"] == "dynamic" for segment in live_of(header)):
            return True
    elif len(header["segments"]) != 1:
        return True
    last = disks.main * disks.atom
    if any(last < int(s["offset"]) + disks.length(s) for s in header["segments"].values()):
        return True
    return not sum(disks.length(segment) // disks.atom for segment in live_of(header))


def breaks_sectors(header, disks):
    segments = header["segments"].values()
    return any(s["type"] == "crypt" and disks.atom % s["sector_size"] for s in segments)


def breaks_multiples(header, disks):
    bounds = [bound for area in areas_of(header) for bound in area]
    for segment in header["segments"].values():
        bounds.append(int(segment["offset"]))
        if segment["size"] != "dynamic":
            bounds.append(int(segment["size"]))
    return any(bound % disks.atom for bound in bounds)


def breaks_tweaks(header, disks):
    return any(
        segment["type"] == "crypt"
        and LARGEST < int(segment["iv_tweak"]) + disks.length(segment) // 512
        for segment in header["segments"].values()
    )


def has_members_of(segment, wanted):
    """Whether the members that have a name are these."""
    names = ("type", "offset", "size", "encryption", "sector_size", "flags")
    if wanted["type"] == "crypt":
        names += ("iv_tweak",)
    return all(segment.get(name) == wanted.get(name) for name in names)


def are_wholes(header, disks, found):
    kinds = (found.old["type"], found.new["type"])
    modes = {"reencrypt": ("crypt", "crypt"), "encrypt": ("linear", "crypt")}
    if kinds != modes.get(found.mode, ("crypt", "linear")):
        return False
    for kind, digest in zip(kinds, (found.old_digest, found.new_digest)):
        if (kind == "crypt") != (digest is not None):
            return False
    if found.old_digest == found.new_digest:
        return False
    if found.new["type"] == "crypt" and found.new["iv_tweak"] != "0":
        return False
    return found.shifts or found.new["offset"] == found.old["offset"]


def are_sizes(disks, found):
    length, old, new = found.blocks * disks.atom, found.old["size"], found.new["size"]
    if old not in ("dynamic", str(length)):
        return False
    return new == ("dynamic" if old == "dynamic" and not found.shifts else str(length))


def breaks_shape(header, disks):
    slots = [slot for slot in header["keyslots"].values() if slot["type"] == "reencrypt"]
    if REQUIREMENT not in mandatory(header):
        return bool(slots)
    segments = [segment for _, segment in numbered(header["segments"])]
    names = [number for number, _ in numbered(header["segments"])]
    if len(slots) != 1 or names != [str(n) for n in range(len(names))]:
        return True
    if not 3 <= len(segments) <= 5:
        return True
    if [s.get("flags") for s in segments[-2:]] != [PREVIOUS, FINAL]:
        return True
    found = Conversion(header, disks)
    if any(found.number in digest["keyslots"] for digest in header["digests"].values()):
        return True
    parts = laid_out(found, found.counts)
    if len(parts) != len(found.live):
        return True
    for number, (segment, (side, wanted)) in enumerate(zip(found.live, parts)):
        digest = found.new_digest if side == "new" else found.old_digest
        if not has_members_of(segment, wanted) or digest_of(header, number) != digest:
            return True
    if found.shifts and found.counts["zone"]:
        return True
    if found.area["type"] == "checksum" and found.area["sector_size"] != disks.atom:
        return True
    return not (are_wholes(header, disks, found) and are_sizes(disks, found))


def has_no_room(header, disks):
    if REQUIREMENT not in mandatory(header):
        return False
    found = Conversion(header, disks)
    return found.capacity < max(1, found.counts["zone"])


def has_no_shift(header, disks):
    if REQUIREMENT not in mandatory(header):
        return False
    found = Conversion(header, disks)
    if not found.shifts:
        return False
    shift, old = int(found.area["shift_size"]), int(found.old["offset"])
    return not shift or int(found.new["offset"]) != old + (-shift if found.forward else shift)


RULES = [
    ("Foreign", is_foreign),
    ("AreaBounds", breaks_bounds),
    ("AreaOverlap", overlap),
    ("DigestRef", breaks_references),
    ("SegmentGap", breaks_segments),
    ("SectorSize", breaks_sectors),
    ("NotAtomMultiple", breaks_multiples),
    ("TweakRange", breaks_tweaks),
    ("ReencryptShape", breaks_shape),
    ("ResilTooSmall", has_no_room),
    ("ShiftRoom", has_no_shift),
]


def first_broken(header, disks):
    """The first rule that is broken, if one is."""
    return next((name for name, breaks in RULES if breaks(header, disks)), None)
