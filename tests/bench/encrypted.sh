#!/usr/bin/env bash
# Times one client with one request at a time on encrypted volumes, AES in XTS mode with keys of 512
# bits: the program on LUKS2 volumes in sectors of 512 and of 4096 bytes, beside nbdkit and qemu-nbd
# on a LUKS1 volume (they know no other; its sectors have 512 bytes), in turn, in one run. It prints
# microseconds a request, each figure the mean of one job of fio's NBD engine, and then how long each
# takes to unlock a keyslot of 1,000,000 rounds, in milliseconds, beside cryptsetup. TURNS (3) and
# SECONDS_EACH (3) may be set.
. "$(dirname "$0")/common.sh"
needs fio cryptsetup qemu-nbd qemu-img
fio --enghelp 2>/dev/null | grep -qw nbd || { echo "skipped: this fio has no NBD engine"; exit 77; }
size=64M
printf 'a passphrase' >key
common=(--batch-mode --cipher aes-xts-plain64 --key-size 512 --hash sha256 --key-file key)

# Makes a volume of $size bytes of plain text in a file: FILE ROUNDS OPTIONS..
make_volume() {
    file=$1 rounds=$2
    shift 2
    rm -f "$file" && truncate -s 80M "$file"
    cryptsetup luksFormat "${common[@]}" --pbkdf-force-iterations "$rounds" "$@" "$file" || fail "luksFormat $*"
}

make_luks2() {
    make_volume "$1" "$2" --type luks2 --pbkdf pbkdf2 --sector-size "$3"
}

# Microseconds a request of the server on $port: DIRECTION SIZE.
time_of() {
    fio --name=bench --ioengine=nbd --uri="nbd://127.0.0.1:$port" --rw="rand$1" --bs="$2" --size=32M --iodepth=1 \
        --time_based --runtime="${SECONDS_EACH:-3}" --output-format=json --output=seen.json >seen.err 2>&1 &&
        python3 -c 'import json, sys; print("%.0f" % (json.load(open("seen.json"))["jobs"][0][sys.argv[1]]["lat_ns"]["mean"] / 1000))' "$1" ||
        fail "fio: $(cat seen.err)" >&2
}

# Runs every job on the server that is up and keeps the figures in a file of this name.
time_all() {
    for bytes in 4k 64k 1m; do
        for direction in read write; do
            time_of "$direction" "$bytes" >>"$1.$bytes.$direction"
        done
    done
}

start_qemu() {
    free_port
    qemu-nbd --object secret,id=secret,file=key,format=raw --persistent --bind 127.0.0.1 --port "$port" \
        --image-opts driver=luks,key-secret=secret,file.filename="$1" &
    kit=$!
    wait_for_kit qemu-nbd
}

# Milliseconds until a command ends: WORDS..
milliseconds() {
    begun=$(date +%s%N)
    "$@" >/dev/null 2>seen.err || fail "$*: $(cat seen.err)"
    echo $((($(date +%s%N) - begun) / 1000000))
}

# Opens a volume for a client that goes again: FILE.
unlock() {
    "$reencd" serve "$1" --key-file key --listen unix:sock --sessions 1 </dev/null &
    end_of $!
}

for _ in $(seq "${TURNS:-3}"); do
    for sector in 512 4096; do
        make_luks2 disk.img 1000 $sector
        serve_under disk.img key 4096 1000
        time_all reencd$sector
        stop TERM
    done
    make_volume disk.img 1000 --type luks1
    start_kit --filter=luks file disk.img passphrase=+key
    time_all nbdkit
    end_kit
    start_qemu disk.img
    time_all qemu
    end_kit
    make_luks2 slow.img 1000000 512
    milliseconds unlock slow.img >>unlock.reencd
    milliseconds cryptsetup open --test-passphrase --key-file key slow.img >>unlock.cryptsetup
done
printf '%-12s %-20s %-20s %-20s %-20s\n' request 'reencd 512' 'reencd 4096' nbdkit qemu-nbd
for bytes in 4k 64k 1m; do
    for direction in read write; do
        printf '%-12s' "$bytes $direction"
        for server_name in reencd512 reencd4096 nbdkit qemu; do
            printf ' %-20s' "$(paste -sd ' ' "$server_name.$bytes.$direction")"
        done
        echo
    done
done
for peer in reencd cryptsetup; do
    echo "unlocks in milliseconds, $peer: $(paste -sd ' ' unlock.$peer)"
done
