#!/usr/bin/env bash
# Times one client with one request at a time: the program on a file beside nbdkit on a file and in
# memory, in turn, in one run. It prints microseconds a request, each figure the mean of one job of
# fio's NBD engine. TURNS (3) and SECONDS_EACH (3) may be set.
. "$(dirname "$0")/common.sh"
needs fio
fio --enghelp 2>/dev/null | grep -qw nbd || { echo "skipped: this fio has no NBD engine"; exit 77; }
size=64M

# Microseconds a request of the server on $port: DIRECTION SIZE.
time_of() {
    fio --name=bench --ioengine=nbd --uri="nbd://127.0.0.1:$port" --rw="rand$1" --bs="$2" --size=$size --iodepth=1 \
        --time_based --runtime="${SECONDS_EACH:-3}" --output-format=json --output=seen.json >seen.err 2>&1 &&
        python3 -c 'import json, sys; print("%.0f" % (json.load(open("seen.json"))["jobs"][0][sys.argv[1]]["lat_ns"]["mean"] / 1000))' "$1" ||
        fail "fio: $(cat seen.err)" >&2
}

# Runs every job on the server that is up and keeps the figures in a file of this name.
time_all() {
    for bytes in 4k 64k 1m; do
        for direction in read write; do
            time_of "$direction" "$bytes" >>"$1.$bytes.$direction"
        done
    done
}

for _ in $(seq "${TURNS:-3}"); do
    truncate -s 0 disk.img && truncate -s $size disk.img
    serve "$room/disk.img" 512 1000
    time_all reencd
    stop TERM
    truncate -s 0 disk.img && truncate -s $size disk.img
    start_kit file disk.img
    time_all file
    end_kit
    start_kit memory $size
    time_all memory
    end_kit
done
printf '%-12s %-20s %-20s %-20s\n' request reencd 'nbdkit file' 'nbdkit memory'
for bytes in 4k 64k 1m; do
    for direction in read write; do
        printf '%-12s' "$bytes $direction"
        for server_name in reencd file memory; do
            printf ' %-20s' "$(paste -sd ' ' "$server_name.$bytes.$direction")"
        done
        echo
    done
done
