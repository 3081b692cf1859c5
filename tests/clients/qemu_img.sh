# qemu-img: what it says of the export, and a copy out of it and into it.
. "$(dirname "$0")/common.sh"
needs qemu-img
truncate -s 16M "$room/disk.img"
printf 'reencd' | dd of="$room/disk.img" bs=1 seek=1048576 conv=notrunc status=none
serve "$room/disk.img" 512 100
for uri in "nbd://127.0.0.1:$port" "nbd://127.0.0.1:$port/volume"; do
    qemu-img info --output json "$uri" >"$room/info" || fail "qemu-img info"
    expect "size and format of $uri" \
        "$(tr -d ' ,"' <"$room/info" | sed -n 's/^virtual-size:\(.*\)$/\1/p;s/^format:\(raw\)$/\1/p' | sort -u | tr '\n' ' ')" \
        "16777216 raw "
done
qemu-img info "nbd://127.0.0.1:$port/other" >"$room/seen" 2>&1 && fail "another export is there"
cat "$room/seen"
qemu-img convert -f raw -O raw "nbd://127.0.0.1:$port" "$room/out.img" || fail "qemu-img convert"
cmp "$room/disk.img" "$room/out.img" || fail "the copy is another"
echo "the copy is the disk"
head -c 16777216 /dev/urandom >"$room/disk.img"
truncate -s 16M "$room/in.img"
printf 'reencd' | dd of="$room/in.img" bs=1 seek=8388608 conv=notrunc status=none
qemu-img -T nbd_send_request convert -n -f raw -O raw "$room/in.img" "nbd://127.0.0.1:$port" \
    2>"$room/trace" || fail "qemu-img convert into the export"
cmp "$room/in.img" "$room/disk.img" || fail "the disk is another"
grep -q 'type = 6 ' "$room/trace" || fail "qemu-img asked for no zeroes"
echo "the disk is the copy"
stop TERM
