# A conversion goes on beside the clients that people use: fio writes, reads and verifies by four jobs, nbdcopy and
# qemu-img copy the volume out, and what nobody wrote stays as it was. At the end nothing is being converted, another
# reading of the format finds the same content, and cryptsetup takes the volume, which has another key. Where a
# conversion ended before its clients came, it is tried again on a volume of twice the size. Clients that stand still
# hold it up nowhere; and where a sync fails, clients are refused, the status tells, and `resume` goes on.
. "$(dirname "$0")/common.sh"
needs python3 cmp nbdcopy
cd "$room" || exit 1
printf 'a passphrase' >key
decodes=
python3 -c "import cryptography" 2>/dev/null && decodes=1

# What `status` says of the volume behind this word: WORD.
says() {
    "$reencd" status volume.img | sed -n "s/^$1: //p"
}

# How many blocks are new, or "idle".
progress() {
    if [ "$(says state)" = idle ]; then
        echo idle
    else
        says boundary | sed 's/ of .*//'
    fi
}

# A volume of SIZE MiB, known bytes in it, and a conversion of it that has begun by these words: SIZE WORDS..
begin() {
    size=$1
    shift
    rm -f volume.img
    truncate -s $((size + 16))M volume.img
    head -c $((size << 20)) /dev/urandom >wanted.img
    "$reencd" format volume.img --key-file key --iterations 1000 >/dev/null || fail "format"
    serve_by volume.img --key-file key --sessions 4
    nbdcopy --connections=4 --flush wanted.img "nbd://127.0.0.1:$port" || fail "nbdcopy in"
    served 4
    cp volume.img old.img
    "$reencd" init volume.img --key-file key --iterations 1000 "$@" >/dev/null || fail "init $*"
}

# Waits until nothing is being converted, and ends the server.
end() {
    for _ in $(seq 6000); do
        [ "$(says state)" = idle ] && break
        kill -0 "$server" 2>/dev/null || fail "the server ended: $(cat "$room/stdout" "$room/stderr")"
        sleep 0.05
    done
    expect "state behind clients" "$(says state)" idle
    stop TERM 2>/dev/null
    expect "resume of what is converted" "$("$reencd" resume volume.img --key-file key 2>&1; echo $?)" \
        "fault 6 WrongState
reencd: nothing is being converted
6"
}

# The volume has the wanted content, by a client and by another reading, and cryptsetup takes it, with another key.
is_converted() {
    serve_by volume.img --key-file key --sessions 4
    rm -f seen.img
    nbdcopy --connections=4 "nbd://127.0.0.1:$port" seen.img || fail "nbdcopy out"
    served 4
    cmp wanted.img seen.img || fail "the content is another one"
    if [ -n "$decodes" ]; then
        "$here/decoded.py" volume.img key >decoded.bin || fail "the volume isn't decoded"
        cmp wanted.img decoded.bin || fail "another reading finds another content"
    fi
    if command -v cryptsetup >/dev/null; then
        cryptsetup open --test-passphrase --key-file key volume.img || fail "cryptsetup doesn't open the volume"
        cryptsetup luksDump volume.img >dump || fail "cryptsetup doesn't show the volume"
        grep -q "online-reencrypt" dump && fail "luksDump shows a conversion"
        for image in old volume; do
            cryptsetup luksDump --dump-volume-key --batch-mode --key-file key $image.img |
                sed -n '/^MK dump:/,$p' | tr -d ' \n\t' >$image.key
            [ -s $image.key ] || fail "cryptsetup shows no key"
        done
        cmp -s old.key volume.key && fail "the key is the old one"
        echo "cryptsetup takes the volume, which has another key"
    fi
}

# ---- four jobs of fio, of which each verifies what it wrote; behind them a quarter of the volume that none touches

with_fio() {
    quarter=$((size / 5))
    serve_by volume.img --key-file key --workers 8
    fio --name=load --ioengine=nbd --uri="nbd://127.0.0.1:$port" --numjobs=4 --size=${quarter}M \
        --offset_increment=${quarter}M --rw=randrw --bsrange=4k-64k --bs_unaligned=0 --blockalign=4k --iodepth=4 \
        --verify=crc32c --verify_backlog=64 --verify_fatal=1 --fsync=256 --group_reporting \
        --output-format=terse --terse-version=3 >seen 2>&1 &
    load=$!
    # blocks that it has come to since fio was seen to be at work
    met=
    first=
    while kill -0 "$load" 2>/dev/null; do
        at=$(progress)
        [ "$at" = idle ] && break
        [ -n "$first" ] || first=$at
        [ "$at" != "$first" ] && met="$first to $at"
        sleep 0.05
    done
    wait "$load"
    expect "status of fio" "$?" 0
    grep ';' seen >figures
    [ "$(cut -d ';' -f 6 figures)" -gt 0 ] || fail "fio read nothing to verify"
    [ -n "$met" ]
}

if command -v fio >/dev/null && fio --enghelp 2>/dev/null | grep -qw nbd; then
    for words in "--hotzone-size 65536" "--direction backward --hotzone-size 262144 --sector-size 4096" \
        "--resilience checksum --hotzone-size 65536 --cipher aes-cbc-essiv:sha256"; do
        for tries in 40 80 160 320 640; do
            # shellcheck disable=SC2086
            begin "$tries" $words
            with_fio && break
            stop TERM 2>/dev/null
            met=
        done
        [ -n "$met" ] || fail "no conversion was under way while fio was at work"
        echo "fio verified all by four jobs; the conversion went from block $met meanwhile, by $words"
        # what fio wrote is what a client reads from now on; what it didn't write is as it was
        tail=$((size / 5 * 4 << 20))
        rm -f seen.img
        nbdcopy --connections=4 "nbd://127.0.0.1:$port" seen.img || fail "nbdcopy out"
        cmp -i "$tail" wanted.img seen.img || fail "what nobody wrote is another one"
        mv seen.img wanted.img
        end
        is_converted
    done
else
    echo "no fio with an NBD engine: its jobs aren't tried"
fi

# ---- copies out of a volume while it is converted, and into it

copies() {
    serve_by volume.img --key-file key --workers 8
    met=
    for copy in $(seq 3); do
        rm -f seen.img
        first=$(progress)
        nbdcopy --connections=4 --requests=8 "nbd://127.0.0.1:$port" seen.img || fail "nbdcopy out"
        last=$(progress)
        cmp wanted.img seen.img || fail "the content that nbdcopy reads meanwhile is another one"
        [ "$first" != "$last" ] && met="$first to $last"
        if command -v qemu-img >/dev/null; then
            rm -f seen.img
            qemu-img convert -m 8 -W -f raw -O raw "nbd://127.0.0.1:$port" seen.img || fail "qemu-img convert"
            cmp wanted.img seen.img || fail "the content that qemu-img reads meanwhile is another one"
        fi
    done
    [ -n "$met" ]
}

for tries in 32 64 128 256 512; do
    begin "$tries" --hotzone-size 65536
    copies && break
    stop TERM 2>/dev/null
done
[ -n "$met" ] || fail "no conversion went on while the volume was copied"
echo "nbdcopy and qemu-img read the content as it was, also from block $met of the conversion"
head -c $((size << 20)) /dev/urandom >wanted.img
if command -v qemu-img >/dev/null; then
    qemu-img convert -n -m 8 -W -f raw -O raw wanted.img "nbd://127.0.0.1:$port" || fail "qemu-img convert into it"
else
    nbdcopy --connections=4 --flush wanted.img "nbd://127.0.0.1:$port" || fail "nbdcopy into it"
fi
end
is_converted

# ---- a server whose sessions are few ends by itself, once its conversion is at its end

begin 32 --hotzone-size 65536
serve_by volume.img --key-file key --workers 4 --sessions 4
nbdcopy --connections=4 "nbd://127.0.0.1:$port" seen2.img || fail "nbdcopy out"
served 4
cmp wanted.img seen2.img || fail "the content is another one"
expect "state behind four sessions" "$(says state)" idle
tail -n 1 "$room/stderr" | grep -q "^reencd: 8192 of 8192 blocks, 100.0 %, " ||
    fail "the last line is $(tail -n 1 "$room/stderr")"
begin 16 --hotzone-size 65536
serve_by volume.img --key-file key --no-worker --sessions 4
nbdcopy --connections=4 "nbd://127.0.0.1:$port" seen2.img || fail "nbdcopy out"
served 4
cmp wanted.img seen2.img || fail "the content is another one"
expect "boundary without a worker" "$(says boundary)" "0 of 4096"

# ---- clients that stand still hold nothing up: one of whose write a half came, and one that takes no reply

begin 16 --hotzone-size 65536
serve_by volume.img --key-file key --workers 2 --sessions 2
python3 - "$port" "$here" "$reencd" <<'PYTHON' || fail "clients that stand still"
import subprocess
import sys
import time

sys.path.insert(0, sys.argv[2])
from client import READ, WRITE, Client, request

port, program = int(sys.argv[1]), sys.argv[3]
half, full = Client(port), Client(port)
half.socket.sendall(request(WRITE, 1, 0, 65536) + bytes([7]) * 32768)
full.socket.sendall(b"".join(request(READ, number, 1 << 20, 1 << 20) for number in range(64)))
for _ in range(6000):
    if "state: idle" in subprocess.run([program, "status", "volume.img"], capture_output=True, text=True).stdout:
        break
    time.sleep(0.05)
else:
    raise SystemExit("the conversion waits for clients that stand still")
half.socket.sendall(bytes([7]) * 32768)
assert half.reply(1) == 0
wanted = open("wanted.img", "rb").read()[1 << 20 : 2 << 20]
for number in range(64):
    assert full.reply(number) == 0 and full.take(1 << 20) == wanted
half.disconnect()
full.disconnect()
with open("wanted.img", "r+b") as file:
    file.write(bytes([7]) * 65536)
print("the conversion went to its end while clients stood still, which are served then")
PYTHON
served 2
is_converted

# ---- a sync that fails while the worker converts: each request that isn't wrong is refused from then on, the server
# ---- says so by its status once its clients have gone, and `resume` goes on from what it left

if strace -o probe true 2>/dev/null; then
    begin 16 --hotzone-size 65536
    tracer=(strace -f -o probe -e trace=fdatasync,fsync -e inject=fdatasync,fsync:error=EIO:when=9)
    serve_by volume.img --key-file key --workers 1 --sessions 1
    tracer=()
    python3 - "$port" "$here" <<'PYTHON' || fail "a client of a disk that failed"
import sys

sys.path.insert(0, sys.argv[2])
from client import Client

client = Client(int(sys.argv[1]))
answered = refused = None
for number in range(1 << 20):
    data = number.to_bytes(4, "big") * 1024
    error = client.write(0, data)
    if error:
        refused = data
        break
    answered = data
assert error == 5, error
assert (client.read(0, 4096), client.read(1 << 20, 4096), client.flush(), client.zero(0, 4096)) == (5, 5, 5, 5)
assert client.write(1, bytes(4096)) == 22 and client.read(1 << 40, 4096) == 22
client.disconnect()
open("either.bin", "wb").write((answered or b"") + refused)
PYTHON
    wait "$server"
    expect "status and line of a server whose disk failed" "$? $(cat "$room/stdout")" "2 fault 2 Device"
    server=
    grep -qx "reencd: failed calls of the disk: 1" "$room/stderr" || fail "the reason is $(cat "$room/stderr")"
    expect "resume behind it" "$("$reencd" resume volume.img --key-file key 2>/dev/null; echo $?)" "finished 4096 blocks
0"
    serve_by volume.img --key-file key --sessions 4
    rm -f seen.img
    nbdcopy --connections=4 "nbd://127.0.0.1:$port" seen.img || fail "nbdcopy out"
    served 4
    cmp -i 4096 wanted.img seen.img || fail "the content is another one"
    python3 - <<'PYTHON' || fail "the block that was written is another one"
either, found = open("either.bin", "rb").read(), open("seen.img", "rb").read(4096)
first = open("wanted.img", "rb").read(4096)
assert found in (either[:4096], either[4096:]) or len(either) == 4096 and found == first
PYTHON
fi
