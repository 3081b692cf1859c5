#!/usr/bin/env bash
# Counts the instructions that the program executes for one request, under valgrind's callgrind, of a
# client at a socket that has a file: the difference between 2000 requests and 1000, so that what a
# session costs once is left out. Callgrind counts a string instruction once for each byte or word that
# it moves, so the zeroing of a buffer counts with its length; the second figure leaves out the C
# library's memset.
. "$(dirname "$0")/../clients/common.sh"
needs valgrind callgrind_annotate python3
truncate -s 64K "$room/disk.img"
tracer=(valgrind --tool=callgrind --callgrind-out-file="$room/counts")

# A client that makes COUNT requests of SIZE bytes, where chunks are reads that are answered so, and takes
# all answers: KIND SIZE COUNT.
asks() {
    python3 - "$room/sock" "$@" <<'PYTHON'
import socket, struct, sys, threading

kind, size, count = sys.argv[2], int(sys.argv[3]), int(sys.argv[4])
text = bytearray(struct.pack(">I", 3))
if kind == "chunks":
    text += b"IHAVEOPT" + struct.pack(">II", 8, 0)
text += b"IHAVEOPT" + struct.pack(">II", 1, 0)
body = bytes(range(256)) * (size // 256) if kind == "write" else b""
number = {"read": 0, "chunks": 0, "write": 1, "zeroes": 6}[kind]
for cookie in range(count):
    offset = cookie * size % 65536
    text += struct.pack(">IHHQQI", 0x25609513, 0, number, cookie, offset, size) + body
text += struct.pack(">IHHQQI", 0x25609513, 0, 2, count, 0, 0)
with socket.socket(socket.AF_UNIX) as client:
    client.connect(sys.argv[1])
    sender = threading.Thread(target=lambda: (client.sendall(text), client.shutdown(socket.SHUT_WR)))
    sender.start()
    while client.recv(1 << 20):
        pass
    sender.join()
PYTHON
}

# All instructions of one session, and those of memset, in $all and $zeroed: KIND SIZE COUNT.
count_all() {
    serve_at "$room/sock" "$room/disk.img" --plain --atom 4096 --sessions 1
    asks "$@" || fail "the client of $*"
    served 1 >/dev/null
    read -r all zeroed < <(callgrind_annotate --threshold=100 "$room/counts" | tr -d , |
        awk '/PROGRAM TOTALS/ { all = $1 } /memset/ { zeroed += $1 } END { print all + 0, zeroed + 0 }')
}

echo "instructions a request, and without memset"
for kind in read chunks write zeroes; do
    for size in 4096 65536; do
        count_all "$kind" "$size" 1000
        few=$all few_zeroed=$zeroed
        count_all "$kind" "$size" 2000
        each=$(((all - few) / 1000))
        echo "$kind of $size bytes: $each $((each - (zeroed - few_zeroed) / 1000))"
    done
done
