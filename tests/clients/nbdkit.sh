# nbdkit's NBD plugin in front: what it passes on of the export, and the requests of its clients,
# many at a time over one connection; a copy, zeroes with and without FUA, and a flush. It would
# write zeroes itself for a server that takes none, so what it asks the server for is looked at.
. "$(dirname "$0")/common.sh"
needs nbdkit nbdinfo nbdcopy cmp
needs_libnbd
if ! nbdkit nbd --dump-plugin >/dev/null 2>&1; then
    echo "skipped: this nbdkit has no NBD plugin"
    exit 77
fi
head -c 20000256 /dev/urandom >"$room/wanted"
truncate -s 20000256 "$room/disk.img"
serve "$room/disk.img" 512 1
cat >"$room/clients" <<'CLIENTS'
unset LIBNBD_DEBUG
[ "$(nbdinfo --size "$uri")" = 20000256 ] || exit 1
for can in flush fua multi-conn; do
    nbdinfo --can "$can" "$uri" || exit 2
done
nbdinfo --can trim "$uri" && exit 3
echo "the proxy tells the size, that it flushes and forces, and that it doesn't trim"
nbdcopy --connections=4 --flush "$room/wanted" "$uri" || exit 4
cmp "$room/wanted" "$room/disk.img" || exit 5
echo "four connections at a time copied a file in"
"$python" -m nbd -u "$uri" -c - <<'PYTHON' || exit 6
import os

with open(os.environ["room"] + "/wanted", "rb") as file:
    wanted = file.read()
h.zero(1 << 20, 512)
h.zero(512, 4 << 20, nbd.CMD_FLAG_FUA)
h.zero(8192, 8 << 20, nbd.CMD_FLAG_FUA | nbd.CMD_FLAG_NO_HOLE)
h.flush()
for at, length in [(512, 1 << 20), (4 << 20, 512), (8 << 20, 8192)]:
    wanted = wanted[:at] + bytes(length) + wanted[at + length :]
assert h.pread(16 << 20, 0) == wanted[: 16 << 20]
with open(os.environ["room"] + "/disk.img", "rb") as file:
    assert file.read() == wanted
print("zeroes go through")
PYTHON
CLIENTS
export room python
LIBNBD_DEBUG=1 nbdkit -U - nbd "uri=nbd://127.0.0.1:$port" shared=true --run ". '$room/clients'" 2>"$room/calls"
expect "status of the clients" "$?" 0
expect "zeroes that nbdkit asked for" "$(grep -c 'nbd_aio_zero: enter' "$room/calls")" 3
served 1
