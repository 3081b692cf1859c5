# A conversion that `init` began: cryptsetup refuses its image and leaves it as it was, another reading of the
# volume finds the same content under the old key, and a keyslot of the new one; so it is with volumes that
# cryptsetup made. Each refusal has its status and its reason and leaves the disk as it was; and a kill at any
# moment leaves an idle volume or one whose conversion has begun. No device mapper is asked for.
. "$(dirname "$0")/common.sh"
needs python3 cryptsetup
python3 -c "import cryptography" 2>/dev/null || { echo "skipped: Python has no module cryptography"; exit 77; }
cd "$room" || exit 1
printf 'a passphrase' >key
printf 'another passphrase' >other
uuid=12345678-1234-4234-8234-123456789abc
head -c 17825792 /dev/urandom >before.img

# The volume on DISK is the one on OLD, whose content it has under its old key; its conversion is as wanted:
# DISK OLD DIRECTION RESILIENCE CIPHER KEY_SIZE SECTOR_SIZE ZONES, the last the bytes of the area that guards
# zones. Its new keyslot gives the passphrase, and no other, a key that the new digest has.
is_begun() {
    python3 - "$here" "$@" <<'PYTHON' || fail "the conversion that was begun on $1"
import sys

sys.path.insert(0, sys.argv[1])
from decoded import header_of, key_of

path, old_path, direction, resilience, cipher = sys.argv[2:7]
key_size, sector_size, zones_size = map(int, sys.argv[7:])
image, old = open(path, "rb").read(), open(old_path, "rb").read()
passphrase = open("key", "rb").read()
header, idle = header_of(image), header_of(old)
(segment,) = idle["segments"].values()
key = key_of(old, idle, passphrase)
assert key_of(image, header, passphrase) == key
begin = int(segment["offset"])
assert image[begin:] == old[begin:], "the data was written"
live, previous, final = (header["segments"][number] for number in "012")
assert live == {**segment, "size": str(len(image) - begin)}, live
assert previous == {**segment, "flags": ["backup-previous"]}, previous
assert final["offset"] == segment["offset"] and final["flags"] == ["backup-final"], final
assert (final["encryption"], final["sector_size"]) == (cipher, sector_size), final
number = max(header["digests"], key=int)
assert header["digests"][number]["segments"] == ["2"]
of_new = {**header, "digests": {number: header["digests"][number]}}
new = key_of(image, of_new, passphrase)
assert new != key and len(new) == key_size
try:
    key_of(image, of_new, b"another passphrase")
except SystemExit:
    pass
else:
    raise AssertionError("another passphrase opens the new key")
(zones,) = (slot for slot in header["keyslots"].values() if slot["type"] == "reencrypt")
assert (zones["direction"], zones["area"]["type"]) == (direction, resilience), zones
assert int(zones["area"]["size"]) == zones_size, zones
assert header["config"]["requirements"]["mandatory"] == ["reencd-online-reencrypt-v1"]
areas = sorted((int(s["area"]["offset"]), int(s["area"]["size"])) for s in header["keyslots"].values())
assert all(a + n <= b for (a, n), (b, _) in zip(areas, areas[1:])), areas
assert int.from_bytes(image[16:24], "big") == int.from_bytes(old[16:24], "big") + 1
PYTHON
}

# Both copies of the header on DISK have their sums, and say the same.
has_copies() {
    python3 - "$1" <<'PYTHON' || fail "the copies of the header on $1"
import hashlib
import sys

image = open(sys.argv[1], "rb").read()
size = int.from_bytes(image[8:16], "big")
for at in (0, size):
    copy = image[at : at + size]
    summed = copy[:448] + bytes(64) + copy[512:]
    assert hashlib.sha256(summed).digest() == copy[448:480], f"the sum of the copy at {at}"
for first, end in ((6, 104), (168, 256), (264, 448), (512, size)):
    assert image[first:end] == image[size + first : size + end], "the copies differ"
PYTHON
}

# cryptsetup takes DISK for no LUKS volume, and leaves it as it was; while it takes OLD by the same words.
is_foreign() {
    cp "$1" kept.img
    cp "$2" taken.img
    for words in luksDump isLuks "open --test-passphrase --key-file key" "repair --batch-mode"; do
        # shellcheck disable=SC2086
        cryptsetup $words taken.img >out 2>&1 </dev/null || fail "cryptsetup $words doesn't take $2: $(cat out)"
        # shellcheck disable=SC2086
        cryptsetup $words "$1" >out 2>&1 </dev/null && fail "cryptsetup $words takes $1"
        cmp "$1" kept.img || fail "cryptsetup $words wrote $1"
    done
    cryptsetup reencrypt --batch-mode --resume-only --key-file key "$1" >out 2>&1 </dev/null &&
        fail "cryptsetup goes on with $1"
    cmp "$1" kept.img || fail "cryptsetup reencrypt wrote $1"
}

# The state of DISK by its header.
state_of() {
    "$reencd" status "$1" --atom "${2:-4096}" | sed -n 's/^state: //p'
}

# the stated image: every default
cp before.img volume.img
"$reencd" format volume.img --key-file key --uuid "$uuid" >/dev/null || fail "format"
cp volume.img old.img
expect "init" "$("$reencd" init volume.img --key-file key 2>&1)" "started reencrypt forward journal"
expect "status" "$("$reencd" status volume.img | tr '\n' ';')" \
    "uuid: $uuid;seqid: 2;state: reencrypt forward journal;old: aes-xts-plain64 sector 512 offset 16777216;new: aes-xts-plain64 sector 512 offset 16777216;boundary: 0 of 256;zone: none;slot 0: luks2 pbkdf2;slot 1: luks2 pbkdf2;slot 2: reencrypt;"
is_begun volume.img old.img forward journal aes-xts-plain64 64 512 1048576
has_copies volume.img
is_foreign volume.img old.img
expect "luksDump" "$(cryptsetup luksDump volume.img 2>&1)" "Device volume.img is not a valid LUKS device."
cp volume.img begun.img
expect "a second init" "$("$reencd" init volume.img --key-file key 2>&1; echo $?)" \
    "fault 6 WrongState
reencd: a conversion is under way
6"
cmp volume.img begun.img || fail "the disk was written"

# every guard and direction, other ciphers, keys, sectors and atoms
while read -r atom direction resilience cipher key_size sector_size zones options; do
    cp before.img volume.img
    "$reencd" format volume.img --atom "$atom" --key-file key --iterations 1000 >/dev/null || fail "format"
    cp volume.img old.img
    # shellcheck disable=SC2086
    said=$("$reencd" init volume.img --atom "$atom" --key-file key --iterations 1000 --direction "$direction" \
        --resilience "$resilience" --cipher "$cipher" --key-size "$key_size" --sector-size "$sector_size" $options \
        2>changes) || fail "init $options: $said $(cat changes)"
    expect "what else is said" "$(grep -v -e ' changes from ' -e ' fall from ' changes)" ""
    expect "init --atom $atom $options" "$said" "started reencrypt $direction $resilience"
    expect "state" "$(state_of volume.img "$atom")" "reencrypt $direction $resilience"
    is_begun volume.img old.img "$direction" "$resilience" "$cipher" "$key_size" "$sector_size" "$zones"
    has_copies volume.img
    is_foreign volume.img old.img
done <<'OPTIONS'
4096 backward journal aes-xts-plain64 64 512 4096 --hotzone-size 4096
4096 forward checksum aes-xts-plain64 32 4096 8192 --hotzone-size 1048576
512 backward checksum aes-xts-plain64 64 512 4096 --hotzone-size 512
512 forward journal aes-cbc-essiv:sha256 32 512 1003520 --hotzone-size 1000448
4096 forward journal aes-cbc-essiv:sha256 16 2048 8388608 --hotzone-size 8388608
OPTIONS
echo "each begun conversion has the old content and the new key, and cryptsetup leaves it alone"

# a volume that cryptsetup made, with two passphrases, of which the given one alone opens the new key
cp before.img made.img
cryptsetup luksFormat --batch-mode --type luks2 --pbkdf pbkdf2 --pbkdf-force-iterations 1000 --key-file other \
    made.img || fail luksFormat
cryptsetup luksAddKey --batch-mode --pbkdf pbkdf2 --pbkdf-force-iterations 1000 --key-file other made.img key ||
    fail luksAddKey
cp made.img old.img
"$reencd" init made.img --key-file key --iterations 1000 >out 2>err
expect "init that would drop a keyslot" "$? $(cat out)" "15 fault 15 Keyslots"
cmp made.img old.img || fail "the disk was written"
expect "init" "$("$reencd" init made.img --key-file key --iterations 1000 --drop-keyslots 2>changes)" \
    "started reencrypt forward journal"
expect "state" "$(state_of made.img)" "reencrypt forward journal"
is_begun made.img old.img forward journal aes-xts-plain64 64 512 1048576
has_copies made.img
is_foreign made.img old.img

# Nothing is begun on a copy of OLD by these words: it ends with this status, line and reason.
refuses() {
    wanted=$1
    old=$2
    shift 2
    cp "$old" refused.img
    "$reencd" init refused.img "$@" >out 2>err
    expect "init $*" "$? $(cat out) $(cat err)" "$wanted"
    cmp refused.img "$old" || fail "the disk was written"
}

# what stands in the way
cp before.img idle.img
"$reencd" format idle.img --key-file key --iterations 1000 --data-offset 294912 >/dev/null || fail "format"
refuses "8 fault 8 NoFit reencd: no room in the header's keyslots area: 258048 bytes are wanted at one place, and there are 4096 (for the zones, of which a smaller --hotzone-size asks for less, or for the new keyslot, of which a smaller --key-size does)" idle.img --key-file key
refuses "5 fault 5 NoKey reencd: the passphrase opens no keyslot; slot 0: it holds no key of the volume under this passphrase" idle.img --key-file other
refuses "8 fault 8 NoFit reencd: the key file has no byte, and a passphrase has 1 to 512" idle.img --key-file /dev/null
refuses "2 fault 2 Device reencd: missing: No such file or directory" idle.img --key-file missing
refuses "3 fault 3 NoHeader reencd: no LUKS2 header is found (primary: Magic; secondary: Magic)" before.img --key-file key

# Both copies of the header on DISK are changed: a token of so many letters, or their number.
changed() {
    python3 - "$here" "$@" <<'PYTHON' || fail "the header of $1"
import sys

sys.path.insert(0, sys.argv[1] + "/..")
from oracle.machine.changes import CHANGES

path, change, number = sys.argv[2:]
with open(path, "rb") as file:
    data = file.read()
with open(path, "wb") as file:
    file.write(CHANGES[change](data, int(number)))
PYTHON
    cryptsetup open --test-passphrase --key-file key "$1" || fail "cryptsetup doesn't take $1"
}

# a header's text that has just room for the conversion's, or lacks a byte of it
cp before.img idle.img
"$reencd" format idle.img --key-file key --iterations 1000 >/dev/null || fail "format"
cp idle.img crowded.img
changed crowded.img token 10512
refuses "8 fault 8 NoFit reencd: a header's text of 12288 bytes, for which there are 12287" crowded.img --key-file key --iterations 1000
cp idle.img crowded.img
changed crowded.img token 10511
cp crowded.img old.img
expect "init" "$("$reencd" init crowded.img --key-file key --iterations 1000 2>&1)" "started reencrypt forward journal"
is_begun crowded.img old.img forward journal aes-xts-plain64 64 512 1048576
has_copies crowded.img

# the last number of a header, and the one before it
cp idle.img numbered.img
changed numbered.img number 18446744073709551615
refuses "8 fault 8 NoFit reencd: the header's number is 18446744073709551615, which no other follows" numbered.img --key-file key --iterations 1000
cp idle.img numbered.img
changed numbered.img number 18446744073709551614
cp numbered.img old.img
expect "init" "$("$reencd" init numbered.img --key-file key --iterations 1000 2>&1)" "started reencrypt forward journal"
expect "status" "$("$reencd" status numbered.img | sed -n 's/^seqid: //p')" 18446744073709551615
is_begun numbered.img old.img forward journal aes-xts-plain64 64 512 1048576
has_copies numbered.img

# a kill at each write and each sync
cp before.img old.img
"$reencd" format old.img --key-file key --iterations 1000 >/dev/null || fail "format"
begun=0
kills=0
# Whether the volume that a kill left is the idle one, or the one whose conversion has begun.
is_either() {
    kills=$((kills + 1))
    cmp -i 16777216 killed.img old.img || fail "the data was written"
    case $(state_of killed.img) in
    idle)
        "$reencd" init killed.img --key-file key --iterations 1000 >/dev/null || fail "no conversion begins"
        ;;
    "reencrypt forward journal") begun=$((begun + 1)) ;;
    *) fail "the header that a kill left" ;;
    esac
    expect "state behind kill $kills" "$(state_of killed.img)" "reencrypt forward journal"
    is_begun killed.img old.img forward journal aes-xts-plain64 64 512 1048576
}
# the kill comes before its call: the third write is that of the second copy, the third sync the first copy's
if strace -o probe true 2>/dev/null; then
    while read -r call number wanted; do
        cp old.img killed.img
        # in a shell of its own, which says nothing of the kill
        status=$(
            (
                strace -f -o probe -e trace="$call" -e inject="$call":signal=KILL:when="$number" \
                    "$reencd" init killed.img --key-file key --iterations 1000 >/dev/null 2>&1
                echo $?
            ) 2>/dev/null
        )
        expect "status and state behind a kill at $call $number" "$status $(state_of killed.img)" "137 $wanted"
        is_either
    done <<'KILLS'
pwrite64 1 idle
pwrite64 2 idle
pwrite64 3 reencrypt forward journal
fdatasync,fsync 1 idle
fdatasync,fsync 2 idle
fdatasync,fsync 3 reencrypt forward journal
fdatasync,fsync 4 reencrypt forward journal
KILLS
fi
for pause in 0.01 0.02 0.04 0.06 0.08 0.1 0.15 0.2; do
    cp old.img killed.img
    "$reencd" init killed.img --key-file key --iterations 1000 >/dev/null 2>&1 &
    killed=$!
    sleep "$pause"
    kill -KILL "$killed" 2>/dev/null
    wait "$killed" 2>/dev/null
    is_either
done
echo "of $kills kills $begun left a conversion that had begun, the others an idle volume"
