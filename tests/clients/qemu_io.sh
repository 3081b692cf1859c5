# qemu-io: write, read, flush, and zeroes with and without FUA and NO_HOLE.
. "$(dirname "$0")/common.sh"
needs qemu-io
truncate -s 16M "$room/disk.img"
serve "$room/disk.img" 512 100
uri=nbd://127.0.0.1:$port
qemu-io -f raw -c "write -P 0xa5 4096 65536" -c "read -P 0xa5 4096 65536" -c "read -P 0 0 4096" \
    -c "write -f -P 0x5a 16773120 4096" -c flush -c "read -P 0x5a 16773120 4096" "$uri" >"$room/seen" 2>&1
status=$?
cat "$room/seen"
expect "status of qemu-io" "$status" 0
grep -qi "failed\|error" "$room/seen" && fail "qemu-io saw another content"
qemu-io -f raw -c "read -P 0xa5 4096 65536" "$uri" || fail "the next client"
qemu-io -f raw -t writeback -T nbd_send_request -c "write -P 0xa5 0 1048576" \
    -c "write -z 0 65536" -c "write -z -u 131072 65536" -c "write -z -f 262144 65536" \
    -c "write -z -f -u 393216 65536" -c "read -P 0 0 65536" -c "read -P 0xa5 65536 65536" \
    -c "read -P 0 131072 65536" -c "read -P 0 262144 65536" -c "read -P 0 393216 65536" \
    -c "read -P 0xa5 458752 589824" "$uri" >"$room/seen" 2>&1 || fail "qemu-io -z"
grep -v nbd_send_request "$room/seen"
grep -qi "failed\|error" "$room/seen" && fail "qemu-io saw another content"
flags=$(sed -n 's/.*\.flags = \(0x[0-9a-f]*\), \.type = 6 .*/\1/p' "$room/seen" | tr '\n' ' ')
expect "flags of the requests of zeroes" "$flags" "0x2 0x0 0x3 0x1 "
stop TERM
