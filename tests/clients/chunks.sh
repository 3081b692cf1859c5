# libnbd in Python: reads in chunks, one for each MiB and one with DF, and those that are refused;
# the same content in simple replies for a client that didn't ask for chunks. Then a file that was
# cut behind the server, so that a read fails at a place of its own; and that the head and the data
# of a chunk are sent at once, which is seen where strace is there.
. "$(dirname "$0")/common.sh"
needs_libnbd
head -c 67108864 /dev/urandom >"$room/disk.img"
serve "$room/disk.img" 512 2
DISK=$room/disk.img "$python" -m nbd -u "nbd://127.0.0.1:$port" -c - <<'PYTHON' || fail "libnbd"
import errno
import os

DF = nbd.CMD_FLAG_DF
MIB = 1 << 20
with open(os.environ["DISK"], "rb") as file:
    disk = file.read()
assert h.get_structured_replies_negotiated() and h.can_df()


def read(length, at, flags=0):
    """The chunks that a read is answered: where each begins and how long it is."""
    chunks = []

    def note(data, place, status, error):
        assert status == nbd.READ_DATA and bytes(data) == disk[place : place + len(data)]
        chunks.append((place, len(data)))

    assert h.pread_structured(length, at, note, flags) == disk[at : at + length]
    print(f"{length} bytes at {at}" + (" with DF" if flags else "") + f": {len(chunks)} chunks")
    return chunks


END = len(disk)
assert read(512, 0) == [(0, 512)]
assert read(512, END - 512, DF) == [(END - 512, 512)]
assert read(MIB, 1536) == [(1536, MIB)]
assert read(MIB + 512, 0) == [(0, MIB), (MIB, 512)]
assert read(MIB + 512, 0, DF) == [(0, MIB + 512)]
assert read(32 * MIB, 512) == [(512 + at, MIB) for at in range(0, 32 * MIB, MIB)]
assert read(32 * MIB, 512, DF) == [(512, 32 * MIB)]

h.set_strict_mode(0)


def fails(what, call, *words):
    try:
        call(*words)
    except nbd.Error as error:
        assert error.errnum == errno.EINVAL, error
        print(what, "fails by", errno.errorcode[error.errnum])
    else:
        raise AssertionError(f"{what} succeeds")


def never(data, place, status, error):
    raise AssertionError("a chunk of data")


fails("a read at no block", h.pread_structured, 512, 1, never)
fails("a read of no block", h.pread_structured, 511, 0, never, DF)
fails("a read past the end", h.pread_structured, 1024, END - 512, never)
fails("a read with NO_HOLE", h.pread_structured, 512, 0, never, nbd.CMD_FLAG_NO_HOLE)
fails("a write with DF", h.pwrite, bytes(512), 0, DF)
assert read(512, 0) == [(0, 512)], "the session goes on"
h.shutdown()
PYTHON
DISK=$room/disk.img PORT=$port "$python" -m nbd -c - <<'PYTHON' || fail "libnbd without chunks"
import errno
import os

h.set_request_structured_replies(False)
h.connect_tcp("127.0.0.1", os.environ["PORT"])
assert not h.get_structured_replies_negotiated() and not h.can_df()
with open(os.environ["DISK"], "rb") as file:
    disk = file.read(33 << 20)
for length, at in [(512, 0), ((1 << 20) + 512, 512), (32 << 20, 1024)]:
    assert h.pread(length, at) == disk[at : at + length]
h.set_strict_mode(0)
try:
    h.pread(512, 0, nbd.CMD_FLAG_DF)
except nbd.Error as error:
    assert error.errnum == errno.EINVAL, error
else:
    raise AssertionError("a read with DF succeeds")
assert h.pread(512, 0) == disk[:512]
print("simple replies have the same content, and DF is refused")
h.shutdown()
PYTHON
served 2

serve "$room/disk.img" 512 1
IMAGE=$room/disk.img PORT=$port "$python" -m nbd -c - <<'PYTHON' || fail "libnbd on a file that was cut"
import errno
import os

MIB = 1 << 20
h.connect_tcp("127.0.0.1", os.environ["PORT"])
os.truncate(os.environ["IMAGE"], MIB + 512)
seen = []


def note(data, place, status, error):
    seen.append((place, len(data), status))


try:
    h.pread_structured(2 * MIB, 512, note)
except nbd.Error as error:
    assert error.errnum == errno.EIO, error
else:
    raise AssertionError("a read of what isn't there succeeds")
assert seen == [(MIB + 512, 0, nbd.READ_ERROR)], seen
with open(os.environ["IMAGE"], "rb") as file:
    assert h.pread(MIB, 512) == file.read()[512:]
print("a read that fails tells the place of the piece that failed, and the session goes on")
h.shutdown()
PYTHON
served 1

calls=$room/calls
if ! strace -D -o "$room/probe" true 2>/dev/null; then
    echo "no strace: how a chunk is sent isn't looked at"
    exit
fi
truncate -s 4M "$room/disk.img"
tracer=(strace -D -f -e "trace=write,writev,sendto,sendmsg" -o "$calls")
serve "$room/disk.img" 512 1
"$python" -m nbd -u "nbd://127.0.0.1:$port" -c - <<'PYTHON' || fail "libnbd under strace"
for length, flags in [(65536, 0), (2 << 20, 0), (2 << 20, nbd.CMD_FLAG_DF)]:
    h.pread_structured(length, 0, lambda data, place, status, error: None, flags)
h.shutdown()
PYTHON
served 1
tracer=()
# a chunk begins with its magic
sent=$(grep -F 'f\2163\357' "$calls" | sed -n 's/.*sendmsg(.* = \([0-9]*\)$/\1/p' | tr '\n' ' ')
expect "bytes of the calls that send a chunk's head" "$sent" "65564 1048604 1048604 2097180 "
