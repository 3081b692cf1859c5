#!/usr/bin/env bash
# Compares the program with its peers on a file with the latency of a device (slow_disk.c): reads of 80
# microseconds, writes of 20 and syncs of 1000, calls of several threads side by side; and on the same
# file without it. All take turns in one run.
#
# First reads of 4 KiB at random places of a plain file, by 1, 4 and 16 clients at once, each with one
# request at a time: requests a second of all together, beside nbdkit's file plugin and qemu-nbd. Then
# conversions by zones of 1 MiB, by journal and by checksum, with no client: MiB a second of `resume`,
# beside `cryptsetup reencrypt`, offline.
# TURNS (2), SECONDS_EACH (3), MEBIBYTES (256), CLIENTS (1 4 16), GUARDS (journal checksum), and SLOW_READ,
# SLOW_WRITE and SLOW_SYNC in microseconds may be set.
sources=$(cd "$(dirname "$0")" && pwd)
. "$sources/common.sh"
needs cc fio qemu-nbd cryptsetup
fio --enghelp 2>/dev/null | grep -qw nbd || { echo "skipped: this fio has no NBD engine"; exit 77; }
cc -O2 -Wall -Wextra -shared -fPIC -o slow_disk.so "$sources/slow_disk.c" -ldl || fail "cc"
mebibytes=${MEBIBYTES:-256}
turns=${TURNS:-2}
numbers=${CLIENTS:-1 4 16}
printf 'a passphrase' >key
quick=(--batch-mode --pbkdf pbkdf2 --pbkdf-force-iterations 1000 --key-file key)
cipher=(--cipher aes-xts-plain64 --key-size 512 --sector-size 4096)

# What a command on disk.img is run under: DISK.
on_disk() {
    case $1 in
    slow) tracer=(env LD_PRELOAD="$room/slow_disk.so" SLOW_DISK="$room/disk.img") ;;
    cached) tracer=(env) ;;
    esac
}

# A file of so many MiB of random bytes, all of it on the disk: MEBIBYTES.
fresh() {
    rm -f disk.img
    head -c "$(($1 << 20))" /dev/urandom >disk.img
    sync disk.img
}

# ---- clients

# Requests a second of so many clients.
reads_of() {
    fio --name=bench --ioengine=nbd --uri="nbd://127.0.0.1:$port" --numjobs="$1" --rw=randread --bs=4k \
        --size="${mebibytes}M" --iodepth=1 --randrepeat=0 --time_based --runtime="${SECONDS_EACH:-3}" \
        --group_reporting --output-format=json --output=seen.json >seen.err 2>&1 || fail "fio: $(cat seen.err)" >&2
    python3 - <<'PYTHON'
import json

print("%.0f" % json.load(open("seen.json"))["jobs"][0]["read"]["iops"])
PYTHON
}

# Runs every job on the server that is up: PEER DISK.
time_clients() {
    for clients in $numbers; do
        reads_of "$clients" >>"$1.$2.$clients" || exit
    done
}

# Starts a peer in the foreground, and times it: NAME DISK WORDS..
time_peer() {
    name=$1 disk=$2
    shift 2
    "${tracer[@]}" "$name" --port "$port" "$@" &
    kit=$!
    wait_for_kit "$name"
    time_clients "$name" "$disk"
    end_kit
}

time_all() {
    serve_by disk.img --plain --workers 16
    time_clients reencd "$1"
    stop TERM
    free_port
    time_peer nbdkit "$1" --foreground --ipaddr 127.0.0.1 --threads=16 file disk.img
    free_port
    time_peer qemu-nbd "$1" --persistent --shared=16 --bind 127.0.0.1 --format raw disk.img
}

fresh "$mebibytes"
for _ in $(seq "$turns"); do
    for disk in slow cached; do
        on_disk $disk
        time_all $disk
    done
done
printf '%-28s' "reads a second"
for peer in reencd nbdkit qemu-nbd; do
    printf ' %-20s' "$peer"
done
echo
for disk in slow cached; do
    for clients in $numbers; do
        printf '%-28s' "$disk, $clients clients"
        for peer in reencd nbdkit qemu-nbd; do
            printf ' %-20s' "$(paste -sd ' ' "$peer.$disk.$clients")"
        done
        echo
    done
done

# ---- conversions

# MiB a second of a command on disk.img: WORDS..
speed_of() {
    begun=$(date +%s%N)
    "${tracer[@]}" "$@" >seen.out 2>seen.err || fail "$*: $(cat seen.out seen.err)" >&2
    echo "$begun $(date +%s%N) $mebibytes" | awk '{ printf "%.0f\n", $3 * 1e9 / ($2 - $1) }'
}

# GUARD.
convert_reencd() {
    fresh $((16 + mebibytes))
    "$reencd" format disk.img --key-file key --iterations 1000 --sector-size 4096 >/dev/null || fail format
    "$reencd" init disk.img --key-file key --iterations 1000 --sector-size 4096 --hotzone-size 1048576 \
        --resilience "$1" >/dev/null || fail init
    sync disk.img
    speed_of "$reencd" resume disk.img --key-file key
}

convert_cryptsetup() {
    fresh $((16 + mebibytes))
    cryptsetup luksFormat "${quick[@]}" --type luks2 "${cipher[@]}" disk.img || fail luksFormat
    asked=("${quick[@]}" --force-offline-reencrypt --resilience "$1" --hotzone-size 1024k)
    cryptsetup reencrypt "${asked[@]}" --init-only "${cipher[@]}" disk.img >/dev/null || fail "reencrypt --init-only"
    sync disk.img
    speed_of cryptsetup reencrypt "${asked[@]}" --resume-only disk.img
}

for _ in $(seq "$turns"); do
    for guard in ${GUARDS:-journal checksum}; do
        for disk in slow cached; do
            on_disk $disk
            convert_reencd "$guard" >>"convert.reencd.$guard.$disk" || exit
            convert_cryptsetup "$guard" >>"convert.cryptsetup.$guard.$disk" || exit
        done
    done
done
printf '%-28s %-20s %-20s\n' "MiB a second" reencd cryptsetup
for guard in ${GUARDS:-journal checksum}; do
    for disk in slow cached; do
        printf '%-28s' "$guard, $disk"
        for peer in reencd cryptsetup; do
            printf ' %-20s' "$(paste -sd ' ' "convert.$peer.$guard.$disk")"
        done
        echo
    done
done
