# nbdinfo: the size, what the export can do, its block sizes, and the list of exports; qemu-nbd's list.
. "$(dirname "$0")/common.sh"
needs nbdinfo
truncate -s 3M "$room/disk.img"
serve "$room/disk.img" 512 100
uri=nbd://127.0.0.1:$port
expect size "$(nbdinfo --size "$uri")" 3145728
for can in flush fua multi-conn zero structured-reply df; do
    nbdinfo --can "$can" "$uri"
    expect "status of --can $can" "$?" 0
done
for can in trim fast-zero cache; do
    nbdinfo --can "$can" "$uri"
    expect "status of --can $can" "$?" 2
done
nbdinfo --is readonly "$uri"
expect "status of --is readonly" "$?" 2
nbdinfo "$uri" >"$room/all" || fail "nbdinfo"
cat "$room/all"
expect "block sizes" "$(sed -n 's/.*block_size_\(.*\): \([0-9]*\).*/\1 \2/p' "$room/all" | tr '\n' ' ')" \
    "minimum 512 preferred 4096 maximum 33554432 "
expect protocol "$(sed -n 's/^protocol: //p' "$room/all")" "newstyle-fixed without TLS, using structured packets"
expect "zeroes" "$(sed -n 's/^[[:space:]]*can_zero: //p' "$room/all")" true
nbdinfo --list "$uri" >"$room/list" || fail "nbdinfo --list"
cat "$room/list"
expect "exports in the list" "$(grep -c '^export=' "$room/list") $(sed -n 's/^export="\(.*\)":$/\1/p' "$room/list")" \
    "1 volume"
expect "size in the list" "$(sed -n 's/.*export-size: \([0-9]*\).*/\1/p' "$room/list")" 3145728
nbdinfo --size "$uri/other" >"$room/seen" 2>&1 && fail "another export has a size"
cat "$room/seen"
expect "size after that" "$(nbdinfo --size "$uri")" 3145728
if command -v qemu-nbd >/dev/null; then
    qemu-nbd --list --bind 127.0.0.1 --port "$port" >"$room/list" || fail "qemu-nbd --list"
    cat "$room/list"
    expect "exports that qemu-nbd lists" "$(sed -n "s/^ export: '\(.*\)'$/\1/p;s/^  size:  *\([0-9]*\)$/\1/p" \
        "$room/list" | tr '\n' ' ')" "volume 3145728 "
fi
stop TERM
