# libnbd in Python: each request, what is out of range, and a session over a socket that has a file.
. "$(dirname "$0")/common.sh"
needs_libnbd
truncate -s 64M "$room/disk.img"
serve "$room/disk.img" 512 1
"$python" -m nbd -u "nbd://127.0.0.1:$port" -c - <<'PYTHON' || fail "libnbd"
import errno

BLOCK = bytes(range(256)) * 2
assert h.get_size() == 64 << 20, h.get_size()
assert h.can_flush() and h.can_fua() and h.can_multi_conn() and not h.is_read_only()
assert h.can_zero() and h.can_df() and not h.can_trim() and not h.can_fast_zero() and not h.can_cache()
print("size and flags")
assert h.pread(512, 0) == bytes(512)
h.pwrite(BLOCK, 512)
assert h.pread(1536, 0) == bytes(512) + BLOCK + bytes(512)
h.pwrite(BLOCK, (64 << 20) - 512, nbd.CMD_FLAG_FUA)
h.flush()
assert h.pread(512, (64 << 20) - 512) == BLOCK
print("write, read, flush")
big = BLOCK * 65536
h.pwrite(big, 0)
assert h.pread(len(big), 0) == big
print("32 MiB in one request")

h.set_strict_mode(0)


def fails(errors, call, *words):
    try:
        call(*words)
    except nbd.Error as error:
        assert error.errnum in errors, error
        print(call.__name__, words[-1], "fails by", errno.errorcode[error.errnum])
    else:
        raise AssertionError("it succeeds")


end = 64 << 20
fails([errno.EINVAL], h.pread, 512, end)
fails([errno.EINVAL], h.pread, 1024, end - 512)
fails([errno.EINVAL], h.pread, 512, 1)
fails([errno.EINVAL], h.pread, 100, 0)
fails([errno.ENOSPC], h.pwrite, BLOCK, end)
fails([errno.EINVAL], h.pwrite, BLOCK, 1)
fails([errno.EINVAL], h.trim, 512, 0)
assert h.pread(512, 0) == BLOCK, "the session goes on"
h.shutdown()
PYTHON
served 1

# the options of a handshake, which the client asks one by one
serve "$room/disk.img" 512 3
PORT=$port "$python" -m nbd -c - <<'PYTHON' || fail "libnbd's options"
import errno
import os


def refused(error_number, call, *words):
    try:
        call(*words)
    except nbd.Error as error:
        assert error.errnum == error_number, error
        print(call.__name__, *words, "is refused by", errno.errorcode[error.errnum])
    else:
        raise AssertionError("it is granted")


def connected():
    handle = nbd.NBD()
    handle.set_opt_mode(True)
    handle.set_request_structured_replies(False)
    handle.connect_tcp("127.0.0.1", os.environ["PORT"])
    assert handle.get_protocol() == "newstyle-fixed"
    return handle


client = connected()
names = []
assert client.opt_list(lambda name, description: names.append((name, description))) == 1
assert names == [("volume", "")], names
for name in ["", "volume"]:
    client.set_export_name(name)
    client.opt_info()
    assert client.get_size() == 64 << 20 and client.get_block_size(nbd.SIZE_PREFERRED) == 4096
client.set_export_name("other")
refused(errno.ENOENT, client.opt_info)
refused(errno.ENOENT, client.opt_go)
client.set_export_name("x" * 4096)
refused(errno.ENOENT, client.opt_info)
if hasattr(client, "opt_starttls"):  # libnbd from 1.20 on
    refused(errno.ENOTSUP, client.opt_starttls)
client.set_export_name("volume")
client.opt_go()
assert client.pread(512, 0) == bytes(range(256)) * 2
client.shutdown()
print("list, info, refusals and go in one handshake")

client = connected()
client.opt_info()
client.opt_abort()
print("abort behind info")

client = nbd.NBD()
client.set_handshake_flags(0)
client.connect_tcp("127.0.0.1", os.environ["PORT"])
assert client.get_protocol() == "newstyle" and client.get_size() == 64 << 20
client.shutdown()
print("an export by its name alone")
PYTHON
served 3

serve_at "$room/sock" "$room/disk.img" --plain --atom 4096 --sessions 1
SOCKET=$room/sock "$python" -m nbd -c - <<'PYTHON' || fail "libnbd over a socket that has a file"
import os

h.connect_unix(os.environ["SOCKET"])
assert h.get_size() == 64 << 20
assert h.get_block_size(nbd.SIZE_MINIMUM) == 4096
assert h.pread(4096, 0) == bytes(range(256)) * 16
h.pwrite(bytes(4096), 0)
h.flush()
assert h.pread(4096, 0) == bytes(4096)
h.shutdown()
print("write, read, flush over a socket that has a file")
PYTHON
served 1
