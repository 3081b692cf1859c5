#!/usr/bin/env bash
# Times 1, 4 and 16 clients at once: the program on a plain file beside nbdkit on a file and in memory, and on an
# encrypted volume beside nbdkit's LUKS filter and qemu-nbd on LUKS1 volumes (they know no other), by reads, writes
# and both, of 4 KiB and of 1 MiB, at random places of 256 MiB (MEBIBYTES): MiB a second of all clients together,
# each a job of fio's NBD engine with one request at a time.
#
# Then conversions of a volume of that size by zones of 1 MiB, guarded by a journal: MiB a second with no client, with
# four jobs beside them that read and write 4 KiB, and of `cryptsetup reencrypt`, offline; and how long a client's
# request takes meanwhile and without a conversion, microseconds in the median and at 99 of 100. TURNS (2), how often
# conversions are timed (CONVERSIONS, TURNS), SECONDS_EACH (2), how many CLIENTS there are (1 4 16) and the SIZES of
# their requests (4k 1m) may be set.
. "$(dirname "${BASH_SOURCE[0]}")/common.sh"
needs fio cryptsetup qemu-nbd
fio --enghelp 2>/dev/null | grep -qw nbd || { echo "skipped: this fio has no NBD engine"; exit 77; }
mebibytes=${MEBIBYTES:-256}
turns=${TURNS:-2}
seconds=${SECONDS_EACH:-2}
numbers=${CLIENTS:-1 4 16}
sizes=${SIZES:-4k 1m}
printf 'a passphrase' >key
quick=(--batch-mode --pbkdf pbkdf2 --pbkdf-force-iterations 1000 --key-file key)
cipher=(--cipher aes-xts-plain64 --key-size 512)

# A file of so many MiB of random bytes, all of it on the disk: FILE MEBIBYTES.
fresh() {
    rm -f "$1"
    head -c "$(($2 << 20))" /dev/urandom >"$1"
    sync "$1"
}

# Starts jobs of fio, $jobs, which tell in seen.json what they come to: CLIENTS KIND SIZE SECONDS.
start_jobs() {
    rm -f seen.json
    fio --name=bench --ioengine=nbd --uri="nbd://127.0.0.1:$port" --numjobs="$1" --rw="rand$2" --bs="$3" \
        --size="${mebibytes}M" --iodepth=1 --randrepeat=0 --time_based --runtime="$4" --group_reporting \
        --output-format=json --output=seen.json >seen.err 2>&1 &
    jobs=$!
}

# Runs them to their end.
run_jobs() {
    start_jobs "$@"
    wait "$jobs" || fail "fio: $(cat seen.err)" >&2
}

# What the jobs came to, by an expression over `job`, behind what fio says in front of it where it is ended: CODE.
told() {
    python3 - "$1" <<'PYTHON'
import json
import sys

text = open("seen.json").read()
job = json.loads(text[text.index("\n{") if text[:1] != "{" else 0 :])["jobs"][0]
print(eval(sys.argv[1]))
PYTHON
}

# MiB a second: CLIENTS KIND SIZE.
rate_of() {
    run_jobs "$1" "$2" "$3" "$seconds"
    told '"%.0f" % ((job["read"]["bw_bytes"] + job["write"]["bw_bytes"]) / (1 << 20))'
}

# Runs every job on the server that is up and keeps the figures in files of this name.
time_all() {
    for clients in $numbers; do
        for bytes in $sizes; do
            for kind in read write rw; do
                rate_of $clients $kind $bytes >>"$1.$clients.$bytes.$kind" || exit
            done
        done
    done
}

start_qemu() {
    free_port
    qemu-nbd --object secret,id=secret,file=key,format=raw --persistent --shared=16 --bind 127.0.0.1 --port "$port" \
        --image-opts driver=luks,key-secret=secret,file.filename="$1" 2>qemu.err &
    kit=$!
    wait_for_kit qemu-nbd
}

names="reencd file memory encrypted luks qemu"
for _ in $(seq "$turns"); do
    fresh disk.img "$mebibytes"
    serve_by disk.img --plain --workers 16
    time_all reencd
    stop TERM
    start_kit --threads=16 file disk.img
    time_all file
    end_kit
    start_kit --threads=16 memory "${mebibytes}M"
    time_all memory
    end_kit
    fresh disk.img $((mebibytes + 16))
    "$reencd" format disk.img --key-file key --iterations 1000 >/dev/null || fail format
    serve_by disk.img --key-file key --workers 16
    time_all encrypted
    stop TERM
    fresh disk.img $((mebibytes + 16))
    cryptsetup luksFormat --batch-mode --type luks1 "${cipher[@]}" --hash sha256 --pbkdf-force-iterations 1000 \
        --key-file key disk.img || fail luksFormat
    start_kit --threads=16 --filter=luks file disk.img passphrase=+key
    time_all luks
    end_kit
    start_qemu disk.img
    time_all qemu
    end_kit
done
printf '%-22s' "MiB a second"
for name in reencd "nbdkit file" "nbdkit memory" encrypted "nbdkit luks" qemu-nbd; do
    printf ' %-14s' "$name"
done
echo
for clients in $numbers; do
    for bytes in $sizes; do
        for kind in read write rw; do
            printf '%-22s' "$clients clients $bytes $kind"
            for name in $names; do
                printf ' %-14s' "$(paste -sd ' ' "$name.$clients.$bytes.$kind")"
            done
            echo
        done
    done
done

# ---- conversions

# A volume whose conversion has begun.
begin() {
    fresh disk.img $((16 + mebibytes))
    "$reencd" format disk.img --key-file key --iterations 1000 >/dev/null || fail format
    "$reencd" init disk.img --key-file key --iterations 1000 >/dev/null || fail init
}

# Waits until the server says that the conversion is at its end, and tells its speed as it does.
speed_of_server() {
    until grep -q ' 100.0 %' "$room/stderr"; do
        kill -0 "$server" 2>/dev/null || fail "the server ended: $(cat "$room/stderr")"
        sleep 0.1
    done
    sed -n 's/^reencd: .* 100.0 %, \([0-9.]*\) MiB.*/\1/p' "$room/stderr"
}

# Median and 99th percentile of the jobs' reads and writes in microseconds.
times() {
    told '" ".join("%.0f" % (job[kind]["clat_ns"]["percentile"][at] / 1000) for kind in ("read", "write")
        for at in ("50.000000", "99.000000"))'
}

for _ in $(seq "${CONVERSIONS:-$turns}"); do
    begin
    serve_by disk.img --key-file key --workers 4
    speed_of_server >>convert.alone
    stop TERM
    begin
    serve_by disk.img --key-file key --workers 8
    start_jobs 4 rw 4k 600
    speed_of_server >>convert.beside
    # it tells what it has when it is ended
    kill -TERM "$jobs"
    wait "$jobs"
    times >>times.beside
    run_jobs 4 rw 4k "$seconds"
    times >>times.idle
    stop TERM
    fresh disk.img $((16 + mebibytes))
    cryptsetup luksFormat "${quick[@]}" --type luks2 "${cipher[@]}" --sector-size 512 disk.img || fail luksFormat
    asked=("${quick[@]}" --force-offline-reencrypt --resilience journal --hotzone-size 1m)
    cryptsetup reencrypt "${asked[@]}" --init-only "${cipher[@]}" --sector-size 512 disk.img >/dev/null ||
        fail "reencrypt --init-only"
    begun=$(date +%s%N)
    cryptsetup reencrypt "${asked[@]}" --resume-only disk.img >/dev/null 2>&1 || fail "reencrypt --resume-only"
    echo "$begun $(date +%s%N) $mebibytes" | awk '{ printf "%.1f\n", $3 * 1e9 / ($2 - $1) }' >>convert.cryptsetup
done
[ -s convert.alone ] || exit 0
echo "conversions, MiB a second: with no client $(paste -sd ' ' convert.alone); beside four $(paste -sd ' ' convert.beside);" \
    "cryptsetup offline $(paste -sd ' ' convert.cryptsetup)"
echo "a client's read, median and 99th percentile in microseconds, and its write: beside a conversion" \
    "$(paste -sd ';' times.beside); without $(paste -sd ';' times.idle)"
