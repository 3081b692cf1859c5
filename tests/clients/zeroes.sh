# libnbd in Python: zeroes with and without FUA and NO_HOLE, as many as the disk has, those that are
# refused, and of a client that didn't ask for structured replies.
. "$(dirname "$0")/common.sh"
needs_libnbd
truncate -s 64M "$room/disk.img"
serve "$room/disk.img" 512 2
"$python" -m nbd -u "nbd://127.0.0.1:$port" -c - <<'PYTHON' || fail "libnbd"
import errno

END = 64 << 20
BLOCKS = bytes(at % 255 + 1 for at in range(8192))
FUA, NO_HOLE = nbd.CMD_FLAG_FUA, nbd.CMD_FLAG_NO_HOLE
assert h.can_zero()
for flags in [0, FUA, NO_HOLE, FUA | NO_HOLE]:
    for at in [0, 1 << 20, END - len(BLOCKS)]:
        h.pwrite(BLOCKS, at)
        h.zero(4096, at + 512, flags)
        assert h.pread(len(BLOCKS), at) == BLOCKS[:512] + bytes(4096) + BLOCKS[4608:], (flags, at)
print("4096 zeroes between other blocks, with and without FUA and NO_HOLE")

for at in range(0, END, 32 << 20):
    h.pwrite(b"\xa5" * (32 << 20), at)
h.zero(33 << 20, 512)
assert h.pread(1024, 0) == b"\xa5" * 512 + bytes(512)
assert h.pread(1024, 33 << 20) == bytes(512) + b"\xa5" * 512
print("33 MiB of zeroes in one request")
h.zero(END, 0, NO_HOLE)
assert all(h.pread(1 << 20, at) == bytes(1 << 20) for at in range(0, END, 1 << 20))
print("all of the disk in one request")

h.set_strict_mode(0)


def fails(number, what, call, *words):
    try:
        call(*words)
    except nbd.Error as error:
        assert error.errnum == number, error
        print(what, "fail by", errno.errorcode[number])
    else:
        raise AssertionError(f"{what} are written")


h.pwrite(b"\x5a" * 1024, 0)
fails(errno.ENOSPC, "zeroes behind the end", h.zero, 512, END)
fails(errno.ENOSPC, "zeroes past the end", h.zero, 1024, END - 512)
fails(errno.EINVAL, "zeroes at no block", h.zero, 512, 1)
fails(errno.EINVAL, "zeroes of no block", h.zero, 513, 0)
fails(errno.EINVAL, "zeroes that have to be fast", h.zero, 512, 0, nbd.CMD_FLAG_FAST_ZERO)
fails(errno.EINVAL, "zeroes with DF", h.zero, 512, 0, nbd.CMD_FLAG_DF)
fails(errno.EINVAL, "bytes with NO_HOLE", h.pwrite, bytes(512), 0, NO_HOLE)
assert h.pread(1024, 0) == b"\x5a" * 1024, "none of these has written"
h.zero(0, 0)
h.zero(0, END)
assert h.pread(1024, 0) == b"\x5a" * 1024
print("no zeroes at all are fine")
h.shutdown()
PYTHON
PORT=$port "$python" -m nbd -c - <<'PYTHON' || fail "libnbd without structured replies"
import os

h.set_request_structured_replies(False)
h.connect_tcp("127.0.0.1", os.environ["PORT"])
assert h.can_zero() and not h.get_structured_replies_negotiated()
h.pwrite(b"\xa5" * 1024, 0)
h.zero(512, 0, nbd.CMD_FLAG_FUA | nbd.CMD_FLAG_NO_HOLE)
assert h.pread(1024, 0) == bytes(512) + b"\xa5" * 512
print("zeroes without structured replies")
h.shutdown()
PYTHON
served 2
cmp -n 512 "$room/disk.img" /dev/zero || fail "the file has no zeroes"
