# A socket that has a file: who may connect to it, which clients come, what is told of them, and what
# stands at its path before the server and behind it.
. "$(dirname "$0")/common.sh"
needs python3
cd "$room" || exit 1
truncate -s 8M disk.img
truncate -s 8M other.img

# What was told since the server's start, with one number for the descriptor of each client.
told() {
    sed 's/unix client [0-9]*/unix client N/' stderr
}

# A client writes a block and goes.
visits() {
    PYTHONPATH=$here python3 -c "
import client
client = client.Client('$1')
assert client.write(0, bytes([7]) * 512) == 0 and client.read(0, 512) == bytes([7]) * 512
print(client.size)
client.disconnect()"
}

# The server isn't started at this path, for this reason: PATH REASON.
refuses() {
    timeout 60 "$reencd" serve other.img --plain --atom 512 --listen "unix:$1" >out 2>err </dev/null
    expect "serve at $1" "$? $(cat out) $(cat err)" "2 fault 2 Device reencd: unix:$1: $2"
}

echo "== the file"
strace -o probe true 2>/dev/null && tracer=(strace -f -o calls -e "trace=fchmod,bind,listen")
umask 0
serve_at sock disk.img --plain --atom 512 --sessions 2 --workers 1 --verbose
umask 22
expect "what stands there" "$(stat -c '%F %a' sock)" "socket 600"
expect "a client" "$(visits sock)" 8388608
chmod 755 "$room"
other=(setpriv --reuid=65534 --regid=65534 --clear-groups)
if command -v nbdinfo >/dev/null && "${other[@]}" true 2>/dev/null; then
    "${other[@]}" nbdinfo --size "nbd+unix:///?socket=$room/sock" >out 2>err
    expect "another user's client" "$? $(grep -o 'Permission denied' err)" "1 Permission denied"
else
    echo "skipped: no other user can be asked"
fi
expect "the next client" "$(visits sock)" 8388608
served 2
if [ ${#tracer[@]} != 0 ]; then
    expect "calls that make it" "$(grep -o '[a-z]*(\|, 0[0-7]*)' calls | paste -sd ' ')" "fchmod( , 0600) bind( listen("
else
    echo "skipped: strace traces nothing here"
fi
tracer=()
expect "what is told" "$(told)" "reencd: listening on unix:sock
reencd: unix client N: connected
reencd: unix client N: gone
reencd: unix client N: connected
reencd: unix client N: gone"
[ -e sock ] && fail "the socket stays"

echo "== clients"
serve_at "$room/sock" disk.img --plain --atom 512
uri="nbd+unix:///?socket=$room/sock"
head -c 8388608 /dev/urandom >wanted
if command -v nbdcopy >/dev/null; then
    nbdcopy --flush wanted "$uri" || fail "nbdcopy in"
    cmp wanted disk.img || fail "the file has other content"
    nbdcopy "$uri" seen || fail "nbdcopy out"
    cmp wanted seen || fail "other content came out"
    echo "nbdcopy copied in and out"
else
    echo "skipped: there is no nbdcopy"
fi
if command -v nbdinfo >/dev/null; then
    expect "nbdinfo --size" "$(nbdinfo --size "$uri")" 8388608
else
    echo "skipped: there is no nbdinfo"
fi
if command -v qemu-img >/dev/null; then
    qemu-img convert -f raw -O raw "$uri" seen.img || fail "qemu-img convert"
    cmp disk.img seen.img || fail "qemu-img's copy is another"
    echo "qemu-img copied out"
else
    echo "skipped: there is no qemu-img"
fi
if fio --enghelp 2>/dev/null | grep -qw nbd; then
    fio --name=verify --ioengine=nbd --uri="$uri" --rw=randwrite --bsrange=512-256k --bs_unaligned=0 --size=8M \
        --iodepth=8 --verify=crc32c --verify_fatal=1 --fsync=64 --output-format=terse --terse-version=3 >seen 2>&1 ||
        fail "fio: $(cat seen)"
    [ "$(grep ';' seen | cut -d ';' -f 6)" -gt 0 ] || fail "fio read nothing to verify"
    echo "fio wrote and verified"
else
    echo "skipped: there is no fio with an NBD engine"
fi
stop TERM
expect "what a signal leaves" "$(stat -c %F sock)" socket

echo "== a socket at which nobody listens"
serve_at sock disk.img --plain --atom 512 --sessions 1
expect "a client" "$(visits sock)" 8388608
served 1
serve_at sock disk.img --plain --atom 512
stop KILL
serve_at sock disk.img --plain --atom 512 --sessions 2
made=$(stat -c %i sock)

echo "== a socket in use"
refuses sock "Address already in use"
expect "the socket" "$(stat -c %i sock)" "$made"
expect "the session that the server has left" "$(visits sock)" 8388608
served 2

echo "== something else"
printf 'content' >file
refuses file "something else than a socket stands there"
expect "the file" "$(cat file)" content
mkdir folder
refuses folder "something else than a socket stands there"
ln -s nowhere link
refuses link "something else than a socket stands there"
expect "the link" "$(readlink link)" nowhere
refuses missing/sock "No such file or directory"
refuses "" "no path stands behind unix:"
name=$(head -c 107 /dev/zero | tr '\0' x)
refuses "${name}x" "the path of a socket has 107 bytes at most"
serve_at "$name" disk.img --plain --atom 512 --sessions 1
expect "a client of the longest path" "$(visits "$name")" 8388608
served 1
printf 'a passphrase' >key
timeout 60 "$reencd" serve disk.img --key-file key --listen unix:sock >out 2>err </dev/null
expect "serve of no volume" "$? $(cat out)" "3 fault 3 NoHeader"
[ -e sock ] && fail "a socket is left of it"

echo "== a path that another took meanwhile"
serve_at sock disk.img --plain --atom 512 --sessions 1
mv sock there
printf 'content' >sock
expect "a client" "$(visits there)" 8388608
served 1
expect "the file" "$(cat sock)" content
rm sock there

echo "== clients that say nothing"
truncate -s 0 disk.img
truncate -s 8M disk.img
serve_at sock disk.img --plain --atom 512 --workers 5
expect "clients that don't negotiate" "$(python3 "$here/silent.py" negotiation sock)" \
    "four were dropped, a sixth was met, and the one that was through is served on"
expect "lines of them" "$(told | sort | uniq -c | sed 's/^ *//')" "1 reencd: listening on unix:sock
1 reencd: unix client N: dropped, it takes no answers
3 reencd: unix client N: dropped, not through the negotiation within 30 seconds"
stop TERM
serve_at sock disk.img --plain --atom 512 --idle-timeout 1 --workers 1
expect "a client that is silent for too long" "$(python3 "$here/silent.py" idle sock)" dropped
expect "a client that takes nothing" "$(python3 "$here/silent.py" unread sock)" dropped
stop TERM
expect "lines of them" "$(told)" "reencd: listening on unix:sock
reencd: unix client N: dropped, silent for 1 seconds
reencd: unix client N: dropped, it takes no answers"
if command -v prlimit >/dev/null; then
    tracer=(prlimit --nofile=14)
    serve_at sock disk.img --plain --atom 512
    expect "few descriptors" "$(python3 "$here/silent.py" crowd sock)" "one was met behind the crowd"
    grep -q '^reencd: unix:sock: Too many open files$' stderr || fail "nothing is said of descriptors: $(cat stderr)"
    stop TERM
else
    echo "skipped: there is no prlimit"
fi
