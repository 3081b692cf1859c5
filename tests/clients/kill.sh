# A flush, and zeroes with FUA, are answered once the file was synced, which is seen where strace is
# there; and what was written outlives a kill of the server: a second one on the same file reads it.
. "$(dirname "$0")/common.sh"
needs python3 cmp
calls=$room/calls
if strace -D -o "$room/probe" true 2>/dev/null; then
    # -D leaves the server the child of this script, so that it is the server that is killed
    tracer=(strace -D -f -e "trace=fdatasync,fsync" -o "$calls")
else
    echo "no strace: that a flush syncs isn't looked at"
    calls=
fi
truncate -s 8M "$room/disk.img"
head -c 8388608 /dev/urandom >"$room/wanted"
serve "$room/disk.img" 512 9
python3 - "$port" "$room/wanted" "$here" "$calls" <<'PYTHON' || fail "the client"
import sys

sys.path.insert(0, sys.argv[3])
from client import FUA, Client

calls = sys.argv[4]


def syncs():
    """How many syncs have succeeded so far."""
    with open(calls) as lines:
        return sum("sync" in line and line.endswith(" = 0\n") for line in lines)


def asks(what, call, *words):
    """What is asked is done, and the file was synced before that was answered."""
    before = syncs() if calls else 0
    assert call(*words) == 0, what
    if calls:
        made = syncs() - before
        assert made > 0, f"{what} answered without a sync"
        print(f"syncs before {what} answered:", made)


client = Client(int(sys.argv[1]))
wanted = open(sys.argv[2], "rb").read()
for at in range(0, len(wanted), 65536):
    assert client.write(at, wanted[at : at + 65536]) == 0
asks("the flush is", client.flush)
print("wrote and flushed", len(wanted), "bytes")
asks("zeroes with FUA are", client.zero, 1 << 20, 3 << 20, FUA)
print("wrote", 3 << 20, "zeroes")
PYTHON
head -c 3145728 /dev/zero | dd of="$room/wanted" bs=1M seek=1 conv=notrunc status=none
stop KILL
tracer=()
echo "killed the server"
cmp "$room/disk.img" "$room/wanted" || fail "the file has other content"
serve "$room/disk.img" 4096 1
python3 - "$port" "$room/wanted" "$here" <<'PYTHON' || fail "the second client"
import sys

sys.path.insert(0, sys.argv[3])
from client import Client

client = Client(int(sys.argv[1]))
wanted = open(sys.argv[2], "rb").read()
assert client.read(0, len(wanted)) == wanted
client.disconnect()
print("a second server reads them back")
PYTHON
served 1
