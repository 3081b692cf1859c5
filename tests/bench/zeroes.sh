#!/usr/bin/env bash
# Times one WRITE_ZEROES of 1 GiB: the program on a file beside nbdkit on a file and in memory, in
# turn, in one run. It prints MiB a second, each figure that of one request: first without flags,
# then with NO_HOLE, then with FUA, on a file that was written whole before. nbdkit asks the file
# system for zeroes, or frees its memory; the program writes them. TURNS (3) may be set.
. "$(dirname "$0")/common.sh"
needs cmp
size=1G

# Makes the file of the size, written whole.
write_file() {
    head -c $size /dev/zero | tr '\0' '\245' >disk.img
}

# Times the requests on the server on $port and keeps the figures in files of this name.
time_all() {
    python3 - "$port" "$here" "$1" <<'PYTHON' || fail "the client"
import sys
import time

sys.path.insert(0, sys.argv[2])
from client import FUA, NO_HOLE, Client

client = Client(int(sys.argv[1]))
client.socket.settimeout(600)
for name, flags in [("plain", 0), ("no_hole", NO_HOLE), ("forced", FUA)]:
    begun = time.monotonic()
    assert client.zero(0, client.size, flags) == 0
    rate = client.size / (1 << 20) / (time.monotonic() - begun)
    with open(f"{sys.argv[3]}.{name}", "a") as figures:
        print(f"{rate:.0f}", file=figures)
client.disconnect()
PYTHON
}

for _ in $(seq "${TURNS:-3}"); do
    write_file
    serve "$room/disk.img" 4096 1
    time_all reencd
    stop TERM
    cmp -n 1073741824 disk.img /dev/zero || fail "other bytes than zeroes"
    write_file
    start_kit file disk.img
    time_all file
    end_kit
    start_kit memory $size
    time_all memory
    end_kit
done
printf '%-12s %-20s %-20s %-20s\n' 'MiB/s' reencd 'nbdkit file' 'nbdkit memory'
for kind in plain no_hole forced; do
    printf '%-12s' "$kind"
    for server_name in reencd file memory; do
        printf ' %-20s' "$(paste -sd ' ' "$server_name.$kind")"
    done
    echo
done
