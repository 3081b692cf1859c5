# nbdcopy in and out again over one connection, as many.sh has it over four: the content is the same, also that of a file with
# holes, which it asks to be zeroes.
. "$(dirname "$0")/common.sh"
needs nbdcopy cmp
head -c 20000256 /dev/urandom >"$room/wanted"
truncate -s 20000256 "$room/disk.img"
serve "$room/disk.img" 512 100
uri=nbd://127.0.0.1:$port
nbdcopy --connections=1 --flush "$room/wanted" "$uri" || fail "nbdcopy in"
cmp "$room/wanted" "$room/disk.img" || fail "the file has other content"
echo "copied $(stat -c %s "$room/wanted") bytes in"
nbdcopy --connections=1 "$uri" "$room/seen" || fail "nbdcopy out"
cmp "$room/wanted" "$room/seen" || fail "other content came out"
echo "copied them out again"
truncate -s 20000256 "$room/holes"
printf 'reencd' | dd of="$room/holes" bs=1 seek=9000000 conv=notrunc status=none
nbdcopy -v --connections=1 --flush "$room/holes" "$uri" 2>"$room/calls" || fail "nbdcopy of holes"
cmp "$room/holes" "$room/disk.img" || fail "the file has other content than the holes"
grep -q 'nbd_aio_zero: enter' "$room/calls" || fail "nbdcopy asked for no zeroes"
echo "copied a file with holes in"
stop TERM
