# Volumes that `format` made are taken by cryptsetup, with the key that another reading of the volume
# gives, those whose header has a disk of its own too, beside which the data's is untouched; they are served and read back by it; each refusal has its status and its reason and leaves the
# disk as it was; and a kill at any moment leaves no half volume. No device mapper is asked for.
. "$(dirname "$0")/common.sh"
needs python3 cryptsetup
python3 -c "import cryptography" 2>/dev/null || { echo "skipped: Python has no module cryptography"; exit 77; }
cd "$room" || exit 1
printf 'a passphrase\n' >key
printf 'a passphrase' >cut
uuid=12345678-1234-4234-8234-123456789abc
head -c 20971520 /dev/urandom >before.img

# Makes a volume on volume.img, over what stood there, with these words.
format() {
    cp before.img volume.img
    said=$("$reencd" format volume.img --key-file key --iterations 1000 "$@" 2>&1) || fail "format $*: $said"
}

# No volume is made on before.img by these words: it ends with this status, line and reason, and the disk
# is as it was.
refuses() {
    wanted=$1
    shift
    cp before.img refused.img
    "$reencd" format refused.img "$@" >out 2>err
    expect "format $*" "$? $(cat out) $(cat err)" "$wanted"
    cmp refused.img before.img || fail "the disk was written"
}

# each cipher and key, sector size and atom, size of a header's copy, place of the data
while read -r begin options; do
    # shellcheck disable=SC2086
    format $options --uuid "$uuid"
    expect "format $options" "$said" "formatted $uuid"
    cmp -i "$begin" volume.img before.img || fail "the data was written"
    cryptsetup luksDump volume.img >dump 2>&1 || fail "luksDump: $(cat dump)"
    rm -f volume.key
    cryptsetup luksDump --batch-mode --dump-volume-key --master-key-file volume.key --key-file key volume.img \
        >dump 2>&1 || fail "luksDump --dump-volume-key: $(cat dump)"
    cryptsetup open --test-passphrase --key-file key volume.img || fail "open --test-passphrase"
    cryptsetup open --test-passphrase --key-file cut volume.img 2>/dev/null && fail "cryptsetup takes another"
    python3 - "$here" <<'PYTHON' || fail "the key of a volume by '$options'"
import sys

sys.path.insert(0, sys.argv[1])
from decoded import header_of, key_of

image = open("volume.img", "rb").read()
found = key_of(image, header_of(image), open("key", "rb").read())
assert found == open("volume.key", "rb").read()
PYTHON
done <<'OPTIONS'
16777216
16777216 --key-size 32 --sector-size 1024
16777216 --cipher aes-cbc-essiv:sha256 --sector-size 4096
16777216 --cipher aes-cbc-essiv:sha256 --key-size 16 --sector-size 2048
16777216 --atom 512
16777216 --metadata-size 32768 --sector-size 4096
16777216 --metadata-size 4194304
290816 --data-offset 290816
98304 --data-offset 98304 --atom 512 --cipher aes-cbc-essiv:sha256 --key-size 16
OPTIONS
echo "cryptsetup takes each, with the key that another reading gives"

# A header on a disk of its own, by each size of its copies: what lies behind its keyslots area stays, and
# so does all of the other disk. The data begins at byte 0, or behind the length of that area.
head -c 17825792 /dev/urandom >blank.img
while read -r begin slots options; do
    cp before.img volume.img
    cp blank.img header.img
    # shellcheck disable=SC2086
    said=$("$reencd" format volume.img --header header.img --key-file key --iterations 1000 --uuid "$uuid" \
        $options 2>&1) || fail "format --header $options: $said"
    expect "format --header $options" "$said" "formatted $uuid"
    cmp volume.img before.img || fail "the data was written"
    cmp -i 16777216 header.img blank.img || fail "the disk of the header was written behind it"
    cryptsetup luksDump header.img >dump 2>&1 || fail "luksDump: $(cat dump)"
    grep -q "offset: $begin \[bytes\]" dump || fail "the data doesn't begin at $begin: $(cat dump)"
    grep -q "Keyslots area:.*	$slots \[bytes\]" dump || fail "the keyslots area isn't of $slots: $(cat dump)"
    cryptsetup open --test-passphrase --header header.img --key-file key volume.img ||
        fail "open --test-passphrase --header"
    cryptsetup open --test-passphrase --header header.img --key-file cut volume.img 2>/dev/null &&
        fail "cryptsetup takes another"
    rm -f volume.key
    cryptsetup luksDump --batch-mode --dump-volume-key --master-key-file volume.key --key-file key header.img \
        >dump 2>&1 || fail "luksDump --dump-volume-key: $(cat dump)"
    python3 - "$here" <<'PYTHON' || fail "the key of a volume by '--header $options'"
import sys

sys.path.insert(0, sys.argv[1])
from decoded import header_of, key_of

image = open("header.img", "rb").read()
found = key_of(image, header_of(image), open("key", "rb").read())
assert found == open("volume.key", "rb").read()
PYTHON
done <<'OPTIONS'
0 16744448
0 16744448 --atom 512 --cipher aes-cbc-essiv:sha256 --key-size 16 --sector-size 512
0 16646144 --metadata-size 65536 --sector-size 4096
0 8388608 --metadata-size 4194304
16777216 16744448 --data-offset 16777216
OPTIONS
echo "cryptsetup takes each with a header of its own, beside which the data stays"

# no header where there is none, and where it has no room; and none on the disk itself
refuses_header() {
    wanted=$1
    header=$2
    cp before.img refused.img
    "$reencd" format refused.img --key-file key --header "$header" >out 2>err
    expect "format --header $header" "$? $(cat out) $(cat err)" "$wanted"
    cmp refused.img before.img || fail "the disk was written"
}
refuses_header "2 fault 2 Device reencd: missing: No such file or directory" missing
truncate -s 16773120 short.img
refuses_header \
    "8 fault 8 NoFit reencd: no room in the header's keyslots area: 16777216 bytes are wanted at one place, and there are 16773120 (a larger --data-offset, or a longer disk of the header, gives more)" short.img
cmp -n 16773120 short.img /dev/zero || fail "the disk of the header was written"
refuses_header "2 fault 2 Device reencd: refused.img: locked by another process" refused.img
ln -sf refused.img same.img
refuses_header "2 fault 2 Device reencd: same.img: locked by another process" same.img

# an identifier that nobody gave, and a keyslots area of the most bytes
format
cryptsetup luksDump volume.img | grep -q "UUID:.*${said#formatted }" || fail "the identifier isn't $said"
truncate -s 300M large.img
"$reencd" format large.img --key-file key --iterations 1000 --data-offset 268435456 >/dev/null || fail "format"
cryptsetup luksDump --dump-json-metadata large.img | grep -q '"keyslots_size":"134217728"' ||
    fail "the keyslots area isn't of 128 MiB"
cryptsetup open --test-passphrase --key-file key large.img || fail "open --test-passphrase"

# what its header says, and what is written through a server is read by another reading
format --data-offset 524288 --cipher aes-cbc-essiv:sha256 --sector-size 4096 --uuid "$uuid"
expect "status" "$("$reencd" status volume.img | tr '\n' ';')" \
    "uuid: $uuid;seqid: 1;state: idle;live: aes-cbc-essiv:sha256 sector 4096 offset 524288 blocks 4992;slot 0: luks2 pbkdf2;"
serve_under volume.img key 4096 1
python3 - "$port" "$here" <<'PYTHON' || fail "the client of a new volume"
import sys

sys.path.insert(0, sys.argv[2])
from client import Client

client = Client(int(sys.argv[1]))
plain = bytes(range(251)) * (client.size // 251 + 1)
plain = plain[: client.size]
for at in range(0, len(plain), 1 << 20):
    assert client.write(at, plain[at : at + (1 << 20)]) == 0
assert client.flush() == 0
assert client.read(4096, 1 << 20) == plain[4096 : 4096 + (1 << 20)]
client.disconnect()
open("plain.bin", "wb").write(plain)
PYTHON
served 1
"$here/decoded.py" volume.img key >read.bin || fail "the volume isn't decoded"
cmp read.bin plain.bin || fail "what was written is read otherwise"
echo "a new volume is written through a server, and read by another"

# the stated image, and a header of another size whose first copy lacks: the second is found
truncate -s 17825792 image.img
expect "format" "$("$reencd" format image.img --key-file key --uuid "$uuid")" "formatted $uuid"
expect "status" "$("$reencd" status image.img | tr '\n' ';')" \
    "uuid: $uuid;seqid: 1;state: idle;live: aes-xts-plain64 sector 512 offset 16777216 blocks 256;slot 0: luks2 pbkdf2;"
format --metadata-size 65536 --uuid "$uuid"
cp volume.img whole.img
printf 'X' | dd of=volume.img bs=1 seek=0 conv=notrunc status=none
serve_under volume.img key 4096 1
stop TERM
python3 - <<'PYTHON' || fail "the first copy isn't that of the header"
wanted, found = open("whole.img", "rb").read(), open("volume.img", "rb").read()
assert found[104:168] == wanted[65536 + 104 : 65536 + 168], "it takes the second copy's salt"
for begin, end in [(0, 104), (168, 448), (512, len(wanted))]:
    assert found[begin:end] == wanted[begin:end], begin
PYTHON
echo "a header whose first copy lacks is found at its size, and mended"

# what doesn't fit, and what is not there
refuses "8 fault 8 NoFit reencd: no room in the header's keyslots area: 258048 bytes are wanted at one place, and there are 0 (a larger --data-offset, or a longer disk of the header, gives more)" \
    --key-file key --data-offset 32768
refuses "8 fault 8 NoFit reencd: the key file has no byte, and a passphrase has 1 to 512" --key-file /dev/null
head -c 600 /dev/zero >long
refuses "8 fault 8 NoFit reencd: long: 600 bytes, and a passphrase has 512 at most
reencd: the key file has more than 512 bytes, and a passphrase has 1 to 512" --key-file long
refuses "8 fault 8 NoFit reencd: the disk has no room for a block (format begins the data at --data-offset, by default byte 16777216)" --key-file key --data-offset 20971520
refuses "2 fault 2 Device reencd: missing: No such file or directory" --key-file missing

# Whether a volume that a kill left is none or the new one, whose header and keyslot are whole.
is_whole() {
    "$reencd" status killed.img >out 2>/dev/null
    status=$?
    [ "$status" = 3 ] && return
    [ "$status" = 0 ] || fail "the header that a kill left: $(cat out)"
    cryptsetup open --test-passphrase --key-file key killed.img || fail "the passphrase opens no volume"
    cmp -i 16777216 killed.img before.img || fail "the data was written"
    whole=$((whole + 1))
}

# a kill at each write and each sync, and a while after the start
kills=0
whole=0
if strace -o probe true 2>/dev/null; then
    for call in pwrite64 fdatasync,fsync; do
        for number in 1 2 3; do
            cp before.img killed.img
            # in a shell of its own, which says nothing of the kill
            (
                strace -f -o probe -e trace="$call" -e inject="$call":signal=KILL:when="$number" \
                    "$reencd" format killed.img --key-file key --iterations 1000
                true
            ) >/dev/null 2>&1
            kills=$((kills + 1))
            is_whole
        done
    done
    expect "volumes behind a kill at each of 3 writes and 3 syncs" "$whole of $kills" "3 of 6"

    # an older volume's header, whose number is higher, counts until the second copy is written
    printf 'another passphrase' >other
    cp before.img older.img
    cryptsetup luksFormat --batch-mode --type luks2 --luks2-metadata-size 16k --pbkdf pbkdf2 \
        --pbkdf-force-iterations 1000 --key-file other older.img || fail luksFormat
    for number in 1 2 3; do
        cp older.img killed.img
        (
            strace -f -o probe -e trace=fdatasync,fsync -e inject=fdatasync,fsync:signal=KILL:when="$number" \
                "$reencd" format killed.img --key-file key --iterations 1000 --uuid "$uuid"
            true
        ) >/dev/null 2>&1
        "$reencd" status killed.img >out || fail "the header that a kill left: $(cat out)"
        expect "new headers behind a kill at sync $number" "$(grep -c "^uuid: $uuid$" out)" "$((number == 3))"
        cmp -i 16777216 killed.img older.img || fail "the data was written"
    done
    cryptsetup open --test-passphrase --key-file key killed.img || fail "the passphrase opens no volume"
fi
for pause in 0.01 0.02 0.04 0.06 0.08 0.1 0.15 0.2; do
    cp before.img killed.img
    "$reencd" format killed.img --key-file key --iterations 1000 >/dev/null 2>&1 &
    killed=$!
    sleep "$pause"
    kill -KILL "$killed" 2>/dev/null
    wait "$killed" 2>/dev/null
    kills=$((kills + 1))
    is_whole
done
echo "of $kills kills each left none or a whole volume"
