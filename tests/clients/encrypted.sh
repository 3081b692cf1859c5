# Volumes that cryptsetup made are served under a passphrase: a plain file that it encrypted in place is
# read back byte by byte, what is written is read by another reading of the volume, and each refusal has
# its status and its reason and leaves the disk as it was. No device mapper is asked for.
. "$(dirname "$0")/common.sh"
needs python3 cryptsetup
python3 -c "import cryptography" 2>/dev/null || { echo "skipped: Python has no module cryptography"; exit 77; }
cd "$room" || exit 1
quick="--pbkdf pbkdf2 --pbkdf-force-iterations 1000"
printf 'a passphrase\n' >key
printf 'a passphrase' >cut

# The volume on DISK isn't served under KEY: it ends with this status, line and reason, and DISK is as it
# was.
refuses() {
    before=$(sha256sum <"$1")
    "$reencd" serve "$1" --key-file "$2" --listen unix:sock >out 2>err </dev/null
    expect "serve $1 --key-file $2" "$? $(cat out) $(cat err)" "$3"
    [ "$(sha256sum <"$1")" = "$before" ] || fail "$1 was written"
}

# Encrypts a file of known bytes in place with these options, to volume.img: its volume begins with these
# bytes, behind which 16 MiB are left over.
encrypt() {
    python3 - <<'PYTHON'
import hashlib

parts = (hashlib.sha256(n.to_bytes(8, "little")).digest() for n in range(1 << 17))
with open("plain.bin", "wb") as file:
    file.write(b"".join(parts))
PYTHON
    cp plain.bin volume.img
    truncate -s +32M volume.img
    # shellcheck disable=SC2086
    cryptsetup reencrypt --encrypt --reduce-device-size 32M --force-offline-reencrypt --batch-mode \
        --type luks2 $quick --key-file key "$@" volume.img || fail "cryptsetup reencrypt $*"
}

for options in "" "--cipher aes-cbc-essiv:sha256 --key-size 256" "--key-size 256 --sector-size 4096" \
    "--cipher aes-cbc-essiv:sha256 --key-size 128 --hash sha512"; do
    # shellcheck disable=SC2086
    encrypt $options
    serve_under volume.img key 4096 2
    python3 - "$port" "$here" <<'PYTHON' || fail "the client of a volume by '$options'"
import sys

sys.path.insert(0, sys.argv[2])
from client import Client

plain = bytearray(open("plain.bin", "rb").read())
client = Client(int(sys.argv[1]))
assert client.size == len(plain) + (16 << 20), client.size
step = 1 << 20
for at in range(0, len(plain), step):
    assert client.read(at, step) == plain[at : at + step], at
for at, length in [(4096, 4096), (2 << 20, (1 << 20) + 8192), (len(plain) - 4096, 4096)]:
    text = bytes(range(251)) * (length // 251 + 1)
    plain[at : at + length] = text[:length]
    assert client.write(at, text[:length]) == 0
assert client.flush() == 0
client.disconnect()
client = Client(int(sys.argv[1]))
assert client.read(0, len(plain)) == plain
client.disconnect()
open("plain.bin", "wb").write(plain)
PYTHON
    served 2
    "$here/decoded.py" volume.img key >read.bin || fail "the volume isn't decoded"
    cmp -n "$(stat -c %s plain.bin)" read.bin plain.bin || fail "what was written is read otherwise"
    echo "a volume by '$options' is read, written, and read by another"
done

# what is no passphrase of a volume, and what is no volume
refuses volume.img cut "5 fault 5 NoKey reencd: the passphrase opens no keyslot; slot 0: it holds no key of the volume under this passphrase"
refuses volume.img /dev/null "8 fault 8 NoFit reencd: the key file has no byte, and a passphrase has 1 to 512"
head -c 513 /dev/zero >long
refuses volume.img long "8 fault 8 NoFit reencd: long: 513 bytes, and a passphrase has 512 at most
reencd: the key file has more than 512 bytes, and a passphrase has 1 to 512"
refuses volume.img missing "2 fault 2 Device reencd: missing: No such file or directory"
truncate -s 20M zeros.img
refuses zeros.img key "3 fault 3 NoHeader reencd: no LUKS2 header is found (primary: Magic; secondary: Magic)"
truncate -s 32M slow.img
cryptsetup luksFormat --batch-mode --type luks2 --pbkdf argon2id --pbkdf-force-iterations 4 --pbkdf-memory 32 \
    --pbkdf-parallel 1 slow.img key || fail luksFormat
refuses slow.img key "5 fault 5 NoKey reencd: the passphrase opens no keyslot; slot 0: argon2id isn't supported: \`cryptsetup luksConvertKey --pbkdf pbkdf2\` makes it PBKDF2"

# a keyslot by PBKDF2 beside one by Argon2, and a passphrase whose line feed is cut off by nobody
# shellcheck disable=SC2086
cryptsetup luksAddKey $quick --key-file key slow.img cut || fail luksAddKey
serve_under slow.img cut 4096 1
python3 - "$port" "$here" <<'PYTHON' || fail "the client of a second keyslot"
import sys

sys.path.insert(0, sys.argv[2])
from client import Client

client = Client(int(sys.argv[1]))
assert client.size == 16 << 20, client.size
assert client.write(4096, bytes(range(256)) * 16) == 0
assert client.read(0, 12288)[4096:8192] == bytes(range(256)) * 16
client.disconnect()
PYTHON
served 1

# a copy of the header that lacks is written when the volume is opened, and not before
cp volume.img lacking.img
printf 'X' | dd of=lacking.img bs=1 seek=16384 conv=notrunc status=none
refuses lacking.img cut "5 fault 5 NoKey reencd: the passphrase opens no keyslot; slot 0: it holds no key of the volume under this passphrase"
serve_under lacking.img key 4096 1
stop TERM
python3 - <<'PYTHON' || fail "the copy isn't that of the header"
wanted, found = open("volume.img", "rb").read(), open("lacking.img", "rb").read()
assert found[16384 + 104 : 16384 + 168] == wanted[104:168], "it takes the primary's salt"
for begin, end in [(0, 16384 + 104), (16384 + 168, 16384 + 448), (16384 + 512, len(wanted))]:
    assert found[begin:end] == wanted[begin:end], begin
PYTHON
printf 'X' | dd of=lacking.img bs=1 seek=0 conv=notrunc status=none
cryptsetup open --test-passphrase --key-file key lacking.img || fail "cryptsetup doesn't take the copy"

# a conversion that cryptsetup began isn't served
cp volume.img begun.img
# shellcheck disable=SC2086
cryptsetup reencrypt --init-only --cipher aes-xts-plain64 --key-size 512 --resilience checksum \
    --key-file key $quick begun.img || fail "reencrypt --init-only"
refuses begun.img key "7 fault 7 Foreign reencd: header: rule 7 Foreign: another program's header, online-reencrypt-v2"
