#!/usr/bin/env bash
# Times whole conversions of a file: `resume` of one that `init` began, beside cryptsetup's own
# reencryption, offline, with the same zones and what guards them, in turn, in one run: MiB a second of
# 256 MiB (MEBIBYTES), in sectors of 512 and of 4096 bytes, by zones of 1 MiB and of 8 MiB, guarded by a
# journal and by checksum (GUARDS). Both sync the file; TMPDIR=/dev/shm shows them where a sync costs
# nothing. cryptsetup takes the file as it is, without a device mapper and without a loop device; the
# ciphers of the kernel do its work. Its checksums are of sectors, ours of atoms of 4096 bytes.
#
# Then it times what takes up a conversion that was killed in a zone of 1 MiB and of 64 MiB, all of whose
# blocks were written but for the last sync: milliseconds from the start of the process until the keys are
# found and the first sync is made, and until the zone is written again and the header says so. `serve`
# answers the first client then, which is timed too.
# Keyslots have 1000 rounds. TURNS (3) may be set.
. "$(dirname "${BASH_SOURCE[0]}")/../clients/common.sh"
needs cryptsetup python3
cd "$room" || exit 1
printf 'a passphrase' >key
mebibytes=${MEBIBYTES:-256}
quick=(--batch-mode --pbkdf pbkdf2 --pbkdf-force-iterations 1000 --key-file key)

# Milliseconds until a command ends: WORDS..
milliseconds() {
    begun=$(date +%s%N)
    "$@" >/dev/null 2>seen.err || fail "$*: $(cat seen.err)"
    echo $((($(date +%s%N) - begun) / 1000000))
}

# MiB a second of so many milliseconds.
rate() {
    python3 -c 'import sys; print("%.0f" % (int(sys.argv[1]) * 1000 / max(1, int(sys.argv[2]))))' "$mebibytes" "$1"
}

# A file of random bytes, all of it on the disk: MEBIBYTES.
fresh() {
    rm -f disk.img
    head -c "$(($1 << 20))" /dev/urandom >disk.img
    sync disk.img
}

# ---- whole conversions: GUARD SECTOR ZONE

time_reencd() {
    fresh $((16 + mebibytes))
    "$reencd" format disk.img --key-file key --iterations 1000 --sector-size "$2" >/dev/null || fail format
    "$reencd" init disk.img --key-file key --iterations 1000 --sector-size "$2" --hotzone-size "$3" \
        --resilience "$1" >/dev/null || fail init
    rate "$(milliseconds "$reencd" resume disk.img --key-file key)"
}

time_cryptsetup() {
    fresh $((16 + mebibytes))
    cryptsetup luksFormat "${quick[@]}" --type luks2 --cipher aes-xts-plain64 --key-size 512 --sector-size "$2" \
        disk.img || fail luksFormat
    asked=("${quick[@]}" --force-offline-reencrypt --resilience "$1" --hotzone-size "$(($3 >> 10))k")
    cryptsetup reencrypt "${asked[@]}" --init-only --cipher aes-xts-plain64 --key-size 512 --sector-size "$2" \
        disk.img >/dev/null || fail "reencrypt --init-only"
    rate "$(milliseconds cryptsetup reencrypt "${asked[@]}" --resume-only disk.img)"
}

# What is timed, a line each.
kinds() {
    for guard in ${GUARDS:-journal checksum}; do
        for sector in 512 4096; do
            echo "$guard $sector 1048576"
            echo "$guard $sector 8388608"
        done
    done
}

for _ in $(seq "${TURNS:-3}"); do
    while read -r guard sector zone <&3; do
        time_reencd "$guard" "$sector" "$zone" >>"reencd.$guard.$sector.$zone" || exit
        time_cryptsetup "$guard" "$sector" "$zone" >>"cryptsetup.$guard.$sector.$zone" || exit
    done 3< <(kinds)
done
printf '%-36s %-20s %-20s\n' "MiB a second" reencd cryptsetup
while read -r guard sector zone; do
    printf '%-36s' "$guard, sectors $sector, zones $((zone >> 20)) MiB"
    for peer in reencd cryptsetup; do
        printf ' %-20s' "$(paste -sd ' ' "$peer.$guard.$sector.$zone")"
    done
    echo
done < <(kinds)

# ---- taken up again

strace -o probe true 2>/dev/null || {
    echo "no strace: what a kill in a zone leaves isn't timed"
    exit 0
}

# Milliseconds until the first sync of a command had ended, and until the fourth one: of `resume` these are the
# one before the header is read, and, where a zone is open, that of the second copy of the header behind it.
until_syncs() {
    begun=$(date +%s%N)
    strace -f -ttt -T -e trace=fdatasync,fsync -o calls "$@" >/dev/null 2>seen.err || fail "$*: $(cat seen.err)"
    python3 - "$begun" <<'PYTHON'
import re
import sys

found = re.findall(r"^\d+ +([\d.]+) (?:fdatasync|fsync)\(.*= 0 <([\d.]+)>$", open("calls").read(), re.M)
ends = [1000 * (float(at) + float(took)) - int(sys.argv[1]) / 1e6 for at, took in found]
print("%.0f %.0f" % (ends[0], ends[3]))
PYTHON
}

# Milliseconds until a client of `serve` is answered, or nothing where it doesn't take the volume.
until_answered() {
    begun=$(date +%s%N)
    "$reencd" serve disk.img --key-file key --listen 127.0.0.1:0 >seen.out 2>seen.err </dev/null &
    server=$!
    port=
    for _ in $(seq 12000); do
        port=$(sed -n 's/^reencd: listening on .*:\([0-9]*\)$/\1/p' seen.err)
        [ -n "$port" ] && break
        kill -0 "$server" 2>/dev/null || break
        sleep 0.005
    done
    [ -n "$port" ] || fail "the server did not start: $(cat seen.out seen.err)" >&2
    python3 - "$port" "$here" "$begun" <<'PYTHON'
import sys
import time

sys.path.insert(0, sys.argv[2])
from client import Client

client = Client(int(sys.argv[1]))
assert len(client.read(0, 4096)) == 4096
print("%.0f" % (time.time() * 1000 - int(sys.argv[3]) / 1e6))
client.disconnect()
PYTHON
    stop TERM
}

# The volume with an open zone of so many bytes, all written but for the sync behind.
open_zone() {
    fresh 256
    "$reencd" format disk.img --key-file key --iterations 1000 --data-offset $((128 << 20)) >/dev/null || fail format
    "$reencd" init disk.img --key-file key --iterations 1000 --hotzone-size "$1" >/dev/null || fail init
    # syncs: the first one, of the zone's begin, what is saved, the two copies, and what is written
    (
        strace -f -o probe -e trace=fdatasync,fsync -e inject=fdatasync,fsync:signal=KILL:when=6 \
            "$reencd" resume disk.img --key-file key >/dev/null 2>&1
        :
    ) 2>/dev/null
    [ "$("$reencd" status disk.img | sed -n 's/^zone: //p')" = "0 + $(($1 / 4096))" ] || fail "the zone isn't open"
    sync disk.img
    cp disk.img open.img
}

printf '%-24s %-20s %-20s %s\n' "milliseconds until" "the first sync" "the zone is written" "a client is answered"
for zone in 1048576 67108864; do
    open_zone $zone
    : >first
    : >again
    : >answered
    for _ in $(seq "${TURNS:-3}"); do
        cp open.img disk.img
        sync disk.img
        read -r begins ends < <(until_syncs "$reencd" resume disk.img --key-file key)
        echo "$begins" >>first
        echo "$ends" >>again
        cp open.img disk.img
        sync disk.img
        until_answered >>answered 2>seen.python
    done
    printf '%-24s %-20s %-20s %s\n' "a zone of $((zone >> 20)) MiB" "$(paste -sd ' ' first)" "$(paste -sd ' ' again)" \
        "$(paste -sd ' ' answered)"
done
