# fio by its NBD engine: random writes of several sizes, then each of them verified.
. "$(dirname "$0")/common.sh"
needs fio
fio --enghelp 2>/dev/null | grep -qw nbd || { echo "skipped: this fio has no NBD engine"; exit 77; }
truncate -s 64M "$room/disk.img"
serve "$room/disk.img" 512 100
cd "$room" || exit 1
fio --name=verify --ioengine=nbd --uri="nbd://127.0.0.1:$port" --rw=randwrite --bsrange=512-256k --bs_unaligned=0 \
    --size=64M --iodepth=8 --verify=crc32c --verify_fatal=1 --fsync=64 --output-format=terse --terse-version=3 >seen 2>&1
status=$?
expect "status of fio" "$status" 0
grep ';' seen >figures
cut -d ';' -f 3,5,6,7,8,47,48,49 figures
[ "$(cut -d ';' -f 6 figures)" -gt 0 ] || fail "fio read nothing to verify"
stop TERM
