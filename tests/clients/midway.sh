# A volume in the middle of its conversion is served: `resume` is killed at moments that are drawn, clients read
# and write on both sides of the boundary, the server is killed behind a flush, and `resume` goes on, at last to
# the end. Behind each kill, under each server and at the end the content is what the clients wrote, also as
# another reading of the format has it, and while clients are served without a worker the boundary stays where it
# is. What stands in the way has its status and its reason, and leaves the disk as it was.
. "$(dirname "$0")/common.sh"
needs python3 nbdcopy qemu-io cmp
cd "$room" || exit 1
printf 'a passphrase' >key
printf 'another passphrase' >other
decodes=
python3 -c "import cryptography" 2>/dev/null && decodes=1
RANDOM=${SEED:-21}

# What `status` says of the volume behind this word: WORD.
says() {
    "$reencd" status volume.img --atom "$atom" | sed -n "s/^$1: //p"
}

# The content, as a client reads it, into a file.
copy_content() {
    rm -f "$1"
    nbdcopy --connections=1 "nbd://127.0.0.1:$port" "$1" || fail "nbdcopy"
}

# How many thousandths of a second `resume` takes to its end, in took; it is tried on a copy.
time_resume() {
    cp volume.img timed.img
    began=$(date +%s%N)
    "$reencd" resume timed.img --key-file key --atom "$atom" >/dev/null 2>&1 || fail "resume of a copy"
    took=$((($(date +%s%N) - began) / 1000000 + 1))
}

# `resume` is killed once it has moved the boundary, and before its end, the first time before its last zone too:
# at a moment that is drawn from those at which it may be so. Where it was further by then, it is begun again from
# the disk as it was, and killed earlier; where it had moved nothing, it goes on, and is killed later. Each eighth
# time all moments are drawn from again, since no two runs take the same time.
kill_resume() {
    cp volume.img kept.img
    before=$(says boundary)
    for attempt in $(seq 200); do
        [ $((attempt % 8)) != 1 ] || early=0 late=$((took + took / 2))
        moment=$((early + RANDOM % (late - early + 1)))
        "$reencd" resume volume.img --key-file key --atom "$atom" >out 2>err &
        killed=$!
        sleep "$((moment / 1000)).$(printf '%03d' $((moment % 1000)))"
        kill -KILL "$killed" 2>/dev/null
        wait "$killed" 2>/dev/null
        reached=$(says boundary)
        if [ "$(says state)" = idle ] || { [ "$rounds" = 1 ] && [ "$reached" = "$end of $blocks" ]; }; then
            cp kept.img volume.img
            late=$moment
        elif [ "$reached" = "$before" ]; then
            early=$moment
        else
            return
        fi
        [ "$late" -ge "$early" ] || early=0
    done
    fail "no kill of resume came between its first zone and its end"
}

# Writes a pattern over so many blocks from BLOCK on, by a client and into wanted.bin: BLOCK COUNT PATTERN.
write() {
    qemu-io -f raw -c "write -P $3 $(($1 * atom)) $(($2 * atom))" -c flush "nbd://127.0.0.1:$port" >seen 2>&1 ||
        fail "qemu-io writes at $1: $(cat seen)"
    grep -qi "failed\|error" seen && fail "qemu-io: $(cat seen)"
    python3 - "$(($1 * atom))" "$(($2 * atom))" "$3" <<'PYTHON'
import sys

at, length, pattern = (int(word, 0) for word in sys.argv[1:])
with open("wanted.bin", "r+b") as file:
    file.seek(at)
    file.write(bytes([pattern]) * length)
PYTHON
}

while read -r atom blocks direction zone options; do
    head -c $((16777216 + blocks * atom)) /dev/urandom >volume.img
    "$reencd" format volume.img --atom "$atom" --key-file key --iterations 1000 >/dev/null || fail "format"
    serve_under volume.img key "$atom" 1
    copy_content wanted.bin
    served 1
    # shellcheck disable=SC2086
    "$reencd" init volume.img --drop-keyslots --atom "$atom" --key-file key --iterations 1000 --direction "$direction" \
        --hotzone-size "$zone" $options >/dev/null || fail "init"
    time_resume
    rounds=0
    opened=0
    at=
    end=$blocks
    [ "$direction" = forward ] || end=0
    while [ "$rounds" -lt 4 ] && [ "$at" != "$end" ]; do
        if [ "$rounds" -gt 0 ]; then
            kill_resume 2>/dev/null
            [ "$(says zone)" = none ] || opened=$((opened + 1))
        fi
        rounds=$((rounds + 1))
        serve_by volume.img --key-file key --atom "$atom" --sessions 100 --no-worker
        # the open zone is written again before clients are met
        expect "zone under clients" "$(says zone)" none
        boundary=$(says boundary)
        at=${boundary% of *}
        copy_content seen.bin
        cmp wanted.bin seen.bin || fail "the content behind round $rounds is another one"
        pattern=$((16 + rounds))
        # the first blocks and the last ones, and those on both sides of the boundary
        write 0 2 "$pattern"
        write $((blocks - 3)) 3 $((pattern + 32))
        [ "$at" -ge 4 ] && [ $((at + 4)) -le "$blocks" ] && write $((at - 4)) 8 $((pattern + 64))
        write $((RANDOM % (blocks - 40))) 40 $((pattern + 96))
        copy_content seen.bin
        cmp wanted.bin seen.bin || fail "what was written in round $rounds is read otherwise"
        stop KILL 2>/dev/null
        expect "boundary behind clients" "$(says boundary)" "$boundary"
    done
    echo "$rounds rounds $direction in blocks of $atom, $opened of which a zone was open before"
    expect "resume" "$("$reencd" resume volume.img --key-file key --atom "$atom" 2>err; echo $?)" \
        "finished $blocks blocks
0"
    expect "state" "$(says state)" idle
    serve_under volume.img key "$atom" 1
    copy_content seen.bin
    served 1
    cmp wanted.bin seen.bin || fail "the content at the end is another one"
    if [ -n "$decodes" ]; then
        "$here/decoded.py" volume.img key >decoded.bin || fail "the volume isn't decoded"
        cmp -n "$((blocks * atom))" wanted.bin decoded.bin || fail "another reading finds another content"
    fi
done <<'ROUNDS'
4096 2048 forward 65536
4096 700 backward 131072
512 6000 forward 32768 --cipher aes-cbc-essiv:sha256
512 6000 backward 65536 --sector-size 512
512 5000 forward 65536 --resilience checksum
ROUNDS

# ---- what stands in the way

atom=4096
head -c 17825792 /dev/urandom >volume.img
"$reencd" format volume.img --key-file other --iterations 1000 >/dev/null || fail "format"
if command -v cryptsetup >/dev/null; then
    cryptsetup luksAddKey --batch-mode --pbkdf pbkdf2 --pbkdf-force-iterations 1000 --key-file other volume.img key ||
        fail luksAddKey
    "$reencd" init volume.img --drop-keyslots --key-file key --iterations 1000 >/dev/null || fail "init"
    cp volume.img begun.img
    printf 'none' >none
    for case in "other new" "none old"; do
        read -r file side <<<"$case"
        expect "serve under a passphrase without the $side key" \
            "$("$reencd" serve volume.img --key-file "$file" --listen unix:sock 2>err </dev/null; echo $?)" "fault 5 NoKey
5"
        grep -q "^reencd: the $side key: the passphrase opens no keyslot" err || fail "the reason is $(cat err)"
        cmp volume.img begun.img || fail "the disk was written"
    done
    expect "serve under no passphrase" \
        "$("$reencd" serve volume.img --key-file /dev/null --listen unix:sock 2>&1 </dev/null; echo $?)" "fault 8 NoFit
reencd: the key file has no byte, and a passphrase has 1 to 512
8"
    cmp volume.img begun.img || fail "the disk was written"
fi
