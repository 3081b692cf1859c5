# Many clients at once: nbdcopy over four connections, in and out, of a plain disk and of an encrypted volume; four
# clients are served while none of them has gone, and a fifth one once the first went.
. "$(dirname "$0")/common.sh"
needs nbdcopy cmp python3
cd "$room" || exit 1
printf 'a passphrase' >key
head -c 50331648 /dev/urandom >wanted.img

# Copies over four connections to the server and back: WHAT.
copy_twice() {
    nbdcopy --connections=4 --requests=16 --flush wanted.img "nbd://127.0.0.1:$port" || fail "nbdcopy into $1"
    rm -f seen.img
    nbdcopy --connections=4 --requests=16 "nbd://127.0.0.1:$port" seen.img || fail "nbdcopy out of $1"
    cmp wanted.img seen.img || fail "other content came out of $1"
    echo "copied $(stat -c %s wanted.img) bytes into $1 and out again over four connections"
}

truncate -s 50331648 disk.img
serve_by disk.img --plain --atom 512 --workers 4 --sessions 8
copy_twice "a plain disk"
served 8
cmp wanted.img disk.img || fail "the file has other content"
truncate -s 67108864 volume.img
"$reencd" format volume.img --key-file key --iterations 1000 >/dev/null || fail "format"
serve_by volume.img --key-file key --workers 4 --sessions 8
copy_twice "an encrypted volume"
served 8

serve_by disk.img --plain --atom 512 --workers 4 --sessions 16
python3 - "$port" "$here" <<'PYTHON' || fail "clients at once"
import socket
import sys

sys.path.insert(0, sys.argv[2])
from client import Client

port = int(sys.argv[1])
clients = [Client(port) for _ in range(4)]
for number, client in enumerate(clients):
    assert client.write(number * 4096, bytes([number]) * 4096) == 0
for client in clients:
    assert client.read(0, 4 * 4096) == b"".join(bytes([number]) * 4096 for number in range(4))
print("four clients read what each of them wrote while none has gone")
waiting = socket.create_connection(("127.0.0.1", port), timeout=1)
try:
    waiting.recv(1)
    raise SystemExit("a fifth client is greeted")
except TimeoutError:
    print("a fifth one waits")
clients.pop().disconnect()
waiting.settimeout(20)
assert waiting.recv(8) == b"NBDMAGIC"
print("it is greeted once another one has gone")
PYTHON
stop TERM
