"""Writes JSON texts of headers into a folder, each in a folder of its own with a script of `rows` that
reads and judges it, and with the line that this is to show: one that fits a copy of 16 KiB, and hostile ones that fill the largest, with as
many objects of a kind as fit. Prints of each its name and how often it is read."""
import os
import sys

SMALL, LARGEST = 16384, 4194304
AREA = '"area":{"type":"raw","offset":"32768","size":"258048","encryption":"aes-xts-plain64","key_size":64}'
KDF = '"kdf":{"type":"pbkdf2","hash":"sha256","iterations":1000,"salt":"%s="}' % ("A" * 43)
LUKS2 = '{"type":"luks2","key_size":64,"af":{"type":"luks1","stripes":4000,"hash":"sha256"},%s,%s}' % (AREA, KDF)
BOUNDS, LISTED, GAP = "AreaBounds", "DigestRef", "SegmentGap"
VALID = ("Map { atom: 4096, blocks: 268431360, boundary: 268431360, direction: Forward, zone: 0, old_place: 4096, "
         "new_place: 4096 }")
CRYPT = ('{"type":"crypt","offset":"16777216","size":"4096","iv_tweak":"0",'
         '"encryption":"aes-xts-plain64","sector_size":4096}')
DIGEST = '{"type":"pbkdf2","keyslots":%s,"segments":[],"hash":"sha256","iterations":1000,"salt":"","digest":""}'


def text(size, **objects):
    """The text of a copy of this size, with these maps of objects."""
    maps = [f'"{name}":{{{objects.get(name, "")}}}' for name in ("keyslots", "tokens", "segments", "digests")]
    return '{%s,"config":{"json_size":"%d","keyslots_size":"0"}}' % (",".join(maps), size - 4096)


def full(size, name, one):
    """The text with as many objects as fit."""
    room = size - 4097 - len(text(size))
    entries, number = [], 0
    while True:
        entry = f'"{number}":{one}'
        room -= len(entry) + 1
        if room < 0:
            return text(size, **{name: ",".join(entries)})
        entries.append(entry)
        number += 1


def filled(front, item, back):
    """As many items as fit between a front and a back."""
    return front + item * ((LARGEST - 4097 - len(front) - len(back)) // len(item)) + back


def areas(order):
    """The text with as many keyslots as fit whose areas lie apart, in some order."""
    def one(place):
        return '{"type":"x","area":{"offset":"%d","size":"4096"}}' % (2 * LARGEST + 4096 * place)

    count = (LARGEST - 4097 - len(text(LARGEST))) // len('"100000":%s,' % one(100000))
    entries = [f'"{number}":{one(place)}' for number, place in enumerate(order(count))]
    return text(LARGEST, keyslots=",".join(entries)).replace('"keyslots_size":"0"', '"keyslots_size":"%d"' % (4096 * count))


def listed():
    """The text with as many crypt segments as fit, each with a digest of its own."""
    count = (LARGEST - 4097) // (len(CRYPT) + len(DIGEST) + 30)
    segments = ",".join(f'"{n}":{CRYPT}' for n in range(count))
    digests = ",".join('"%d":%s' % (n, DIGEST.replace('"segments":[]', f'"segments":["{n}"]') % "[]") for n in range(count))
    return text(LARGEST, segments=segments, digests=digests).replace('"16777216"', '"1073741824"')


def valid():
    """A header of 12 KiB of JSON that breaks no rule."""
    slots = [LUKS2.replace("32768", str(32768 + 258048 * n)) for n in range(30)]
    crypt = CRYPT.replace('"4096"', '"dynamic"')
    whole = text(SMALL, keyslots=",".join(f'"{n}":{slot}' for n, slot in enumerate(slots)), segments='"0":' + crypt,
                 digests='"0":' + DIGEST.replace('"segments":[]', '"segments":["0"]') % "[]")
    return whole.replace('"keyslots_size":"0"', '"keyslots_size":"16744448"')


def texts():
    """Of each text its name, the size of its copy, its outcome and the text."""
    yield "valid", SMALL, VALID, valid()
    for name, kind, one, outcome in (
        ("other_keyslots", "keyslots", '{"type":"x"}', GAP),
        ("luks2_keyslots", "keyslots", LUKS2, BOUNDS),
        ("linear_segments", "segments", '{"type":"linear","offset":"0","size":"0"}', BOUNDS),
        ("crypt_segments", "segments", CRYPT, LISTED),
        ("digests", "digests", DIGEST % "[]", GAP),
        ("tokens", "tokens", "{}", GAP),
    ):
        yield name, LARGEST, outcome, full(LARGEST, kind, one)
    yield "rising_areas", LARGEST, GAP, areas(range)
    yield "falling_areas", LARGEST, GAP, areas(lambda count: range(count - 1, -1, -1))
    yield "mixed_areas", LARGEST, GAP, areas(lambda count: sorted(range(count), key=lambda n: n * 7919 % count))
    yield "listed_segments", LARGEST, GAP, listed()
    front, back = text(LARGEST, digests='"0":' + DIGEST % "[|]").split("|")
    yield "digest_entries", LARGEST, LISTED, filled(front, '"0",', '"0"' + back)
    for name, front, back in (
        ("number_under_a_long_key", '{"%s":[' % ("k" * (LARGEST // 2)), "1.5]}"),
        ("number_under_many_keys", '{"k":' * 100 + "[", "1.5]" + "}" * 100),
    ):
        content = filled(front, "0,", back)
        keys = front.replace('{"', "").replace('":', "/").rstrip("[")
        yield name, LARGEST, f"JSON fault 4 Number at {keys}{content.count('0,')}", content


for name, size, outcome, content in texts():
    folder = f"{sys.argv[1]}/{name}"
    os.mkdir(folder)
    times = 1 if size == LARGEST else 1000
    with open(f"{folder}/text.json", "w") as file:
        file.write(content)
    line = f"metadata header\t{size} 4096 attached 268435456".replace(" ", "\t").replace("metadata\t", "metadata ")
    with open(f"{folder}/texts.rows", "w") as file:
        file.write("file TEXT text.json\n" + f"{line}\tTEXT\n" * times)
    with open(f"{folder}/wanted", "w") as file:
        file.write(outcome)
    open(f"{folder}/names", "w").close()
    print(name, times)
