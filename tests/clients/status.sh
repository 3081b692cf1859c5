# What `reencd status` says of headers that cryptsetup wrote, compared with what Python reads there:
# stored ones, and fresh ones of both ciphers, several key derivations and sizes of the header, with
# tokens, labels and members that nobody names; beside a server that has the disk locked, on a file
# that can't be written, with nothing written. What cryptsetup's own reencryption left is foreign.
. "$(dirname "$0")/common.sh"
needs python3 xxd
cd "$room" || exit 1
atom=4096

# `status` of DISK prints what is wanted, ends with 0, and leaves the disk as it is.
shows() {
    before=$(sha256sum <"$2")
    "$reencd" status "$2" --atom "$atom" >out 2>err </dev/null
    # standard error has at most what is said of a copy that isn't as the other one
    expect "status of $1" "$? $(grep -v "^reencd: the .* copy of the header " err)" "0 "
    "$here/wanted_status.py" "$2" "$atom" >wanted
    cmp -s out wanted || fail "$1: $(diff wanted out)"
    [ "$(sha256sum <"$2")" = "$before" ] || fail "the disk of $1 was written"
}

# `status` of DISK ends with this status, line and reason.
refuses() {
    "$reencd" status "$1" >out 2>err </dev/null
    expect "status of $1" "$? $(cat out) $(cat err)" "$2"
}

for header in "$here"/../data/headers/*.header; do
    rm -f stored.img
    truncate -s 32M stored.img
    dd if="$header" of=stored.img conv=notrunc status=none
    shows "$(basename "$header")" stored.img
done

truncate -s 20M zeros.img
refuses zeros.img "3 fault 3 NoHeader reencd: no LUKS2 header is found (primary: Magic; secondary: Magic)"
truncate -s 8192 short.img
refuses short.img "3 fault 3 NoHeader reencd: no LUKS2 header is found (primary: Magic; secondary: Size 0)"
refuses missing.img "2 fault 2 Device reencd: missing.img: No such file or directory"
printf 'X' | dd of=stored.img bs=1 seek=5000 conv=notrunc status=none
"$reencd" status stored.img >out 2>err </dev/null
expect "status of a changed byte" "$? $(cat out)" "3 fault 3 NoHeader"
grep -Eqx 'reencd: header: primary: Checksum \(stored [0-9a-f]{64}, computed [0-9a-f]{64}\); secondary: Magic' err ||
    fail "no checksum is told: $(cat err)"

command -v cryptsetup >/dev/null || exit 0
quick="--pbkdf pbkdf2 --pbkdf-force-iterations 1000"
slow="--pbkdf argon2id --pbkdf-force-iterations 4 --pbkdf-memory 32 --pbkdf-parallel 1"
printf passphrase >key

# Makes a fresh header with these options.
format() {
    rm -f fresh.img
    truncate -s 32M fresh.img
    cryptsetup luksFormat --batch-mode --type luks2 "$@" fresh.img key || fail "luksFormat $*"
}

for size in 16k 32k 64k 128k 256k 512k 1m 2m 4m; do
    # shellcheck disable=SC2086
    format $quick --luks2-metadata-size "$size"
    shows "a header of $size" fresh.img
done
# shellcheck disable=SC2086
format $slow --cipher aes-cbc-essiv:sha256 --key-size 256 --sector-size 512
shows "a cbc volume by argon2id" fresh.img
# shellcheck disable=SC2086
cryptsetup luksAddKey $quick --key-file key fresh.img key || fail "luksAddKey"
cryptsetup token add --key-description reencd:test --token-id 3 fresh.img || fail "token add"
cryptsetup config --label archive --subsystem backup --priority prefer --key-slot 1 fresh.img || fail config
shows "a volume with two slots, a token and labels" fresh.img
atom=512 shows "the same in atoms of 512 bytes" fresh.img
chmod 444 fresh.img
shows "a file that can't be written" fresh.img
chmod 644 fresh.img
serve fresh.img 512 1
shows "a disk that a server has locked" fresh.img
stop TERM
# shellcheck disable=SC2086
format $quick
cryptsetup reencrypt --init-only --cipher aes-cbc-essiv:sha256 --key-size 256 --resilience checksum \
    --key-file key $quick fresh.img || fail "reencrypt"
refuses fresh.img "7 fault 7 Foreign reencd: header: rule 7 Foreign: another program's header, online-reencrypt-v2"
