#!/usr/bin/env bash
# Times one client with one read at a time, with structured replies and without: the program on a
# file beside nbdkit on a file and in memory, in turn, in one run. It prints microseconds a read,
# each figure the mean of one job of reads.c. TURNS (3) and SECONDS_EACH (3) may be set.
sources=$(cd "$(dirname "$0")" && pwd)
. "$sources/common.sh"
needs cc
cc -O2 -Wall -Wextra -o reads "$sources/reads.c" || fail "cc"
size=64M

# Runs every job on the server that is up and keeps the figures in files of this name.
time_all() {
    for bytes in 4096 65536; do
        for kind in simple chunks; do
            ./reads "$port" $bytes $((${SECONDS_EACH:-3} * 1000)) $kind >>"$1.$bytes.$kind" ||
                fail "reads of $1"
        done
    done
}

for _ in $(seq "${TURNS:-3}"); do
    head -c $size /dev/urandom >disk.img
    serve "$room/disk.img" 512 1000
    time_all reencd
    stop TERM
    start_kit file disk.img
    time_all file
    end_kit
    start_kit memory $size
    time_all memory
    end_kit
done
printf '%-16s %-24s %-24s %-24s\n' 'microseconds' reencd 'nbdkit file' 'nbdkit memory'
for bytes in 4096 65536; do
    for kind in simple chunks; do
        printf '%-16s' "$bytes $kind"
        for server_name in reencd file memory; do
            printf ' %-24s' "$(paste -sd ' ' "$server_name.$bytes.$kind")"
        done
        echo
    done
done
