# A conversion that `init` began is killed at moments that are drawn, and each time `resume` takes it up
# again, until it ends: then nothing is under way, the content is as before, read by a client of `serve` and
# by another reading of the format, and cryptsetup opens the volume, which has another key. So it is with a
# volume that cryptsetup made, of which another passphrase opens the old key alone, and with other ciphers,
# directions and atoms. What stands in the way has its status and its reason, and leaves the disk as it was. No
# device mapper is asked for.
. "$(dirname "$0")/common.sh"
needs python3 cryptsetup nbdcopy cmp
cd "$room" || exit 1
printf 'a passphrase' >key
printf 'another passphrase' >other
quick="--pbkdf pbkdf2 --pbkdf-force-iterations 1000"
decodes=
python3 -c "import cryptography" 2>/dev/null && decodes=1
RANDOM=${SEED:-20}

# The content of the volume on DISK into a file, as a client reads it: DISK ATOM FILE.
copy_content() {
    serve_under "$1" key "$2" 100
    rm -f "$3"
    nbdcopy --connections=1 "nbd://127.0.0.1:$port" "$3" || fail "nbdcopy from $1"
    stop TERM
}

# What `status` says of DISK behind this word: DISK ATOM WORD.
says() {
    "$reencd" status "$1" --atom "$2" | sed -n "s/^$3: //p"
}

# The key of the volume on DISK, in hexadecimal, as cryptsetup opens it.
volume_key() {
    cryptsetup luksDump --dump-volume-key --batch-mode --key-file key "$1" | sed -n '/^MK dump:/,$p' | tr -d ' \n\t'
}

# The last line on standard error, in err, says that all of so many blocks are new: BLOCKS.
is_told() {
    tail -n 1 err | grep -q "^reencd: $1 of $1 blocks, 100.0 %, " || fail "the last line is $(tail -n 1 err)"
}

# The conversion of DISK ends, and the volume is as it was, under another key and by the wanted cipher: DISK
# ATOM CIPHER SECTOR, with what the client read before in before.bin.
is_finished() {
    expect "state of $1" "$(says "$1" "$2" state)" idle
    case $(says "$1" "$2" live) in
    "$3 sector $4 "*) ;;
    *) fail "the volume is $(says "$1" "$2" live)" ;;
    esac
    expect "a second resume" "$("$reencd" resume "$1" --key-file key --atom "$2" 2>&1; echo $?)" \
        "fault 6 WrongState
reencd: nothing is being converted
6"
    copy_content "$1" "$2" after.bin
    cmp before.bin after.bin || fail "the content is another one"
    if [ -n "$decodes" ]; then
        "$here/decoded.py" "$1" key >decoded.bin || fail "the volume isn't decoded"
        cmp before.bin decoded.bin || fail "another reading finds another content"
    fi
    cryptsetup open --test-passphrase --key-file key "$1" || fail "cryptsetup doesn't open the volume"
    cryptsetup luksDump "$1" >dump || fail "cryptsetup doesn't show the volume"
    expect "cipher by luksDump" "$(sed -n 's/^\t*cipher: //p' dump | head -n 1)" "$3"
    expect "sectors by luksDump" "$(sed -n 's/^\t*sector: \([0-9]*\) .*/\1/p' dump)" "$4"
    grep -q "online-reencrypt" dump && fail "luksDump shows a conversion"
    [ "$(volume_key "$1")" != "$(volume_key old.img)" ] || fail "the key is the old one"
}

# `resume` of a copy of a disk ends with this status and line, and leaves it as it was: STATUS LINE DISK WORDS..
refuses() {
    wanted=$1
    kept=$2
    shift 2
    cp "$kept" refused.img
    "$reencd" resume refused.img "$@" >out 2>err
    expect "resume $*" "$? $(cat out) $(cat err)" "$wanted"
    cmp refused.img "$kept" || fail "the disk was written"
}

# ---- killed again and again

# Thousandths of a second.
now() {
    echo $(($(date +%s%N) / 1000000))
}

# A volume of SIZE bytes whose conversion is killed until it ends: how many kills there were, how many of them came
# behind a zone, and how many left one open, in kills, moved and zones: GUARD SIZE.
kill_often() {
    head -c $((16777216 + $2)) /dev/urandom >volume.img
    "$reencd" format volume.img --key-file key --iterations 1000 >/dev/null || fail "format"
    cp volume.img old.img
    copy_content volume.img 4096 before.bin
    "$reencd" init volume.img --key-file key --iterations 1000 --hotzone-size 65536 --resilience "$1" >/dev/null ||
        fail "init"
    # how long it takes to its end, by which moments are drawn; it is tried on a copy
    cp volume.img timed.img
    began=$(now)
    "$reencd" resume timed.img --key-file key >/dev/null 2>&1 || fail "resume of a copy"
    took=$(($(now) - began + 1))
    kills=0
    zones=0
    moved=0
    status=137
    while [ "$status" = 137 ]; do
        before=$(says volume.img 4096 seqid)
        "$reencd" resume volume.img --key-file key >out 2>err &
        killed=$!
        # every second one is killed within a tenth of that time, the others within a third; behind the 40th none
        # is
        moment=$((RANDOM % (took / (kills % 2 == 1 ? 3 : 10) + 1)))
        sleep "$((moment / 1000)).$(printf '%03d' $((moment % 1000)))"
        [ "$kills" -ge 40 ] || kill -KILL "$killed" 2>/dev/null
        wait "$killed" 2>/dev/null
        status=$?
        [ "$status" = 137 ] || break
        kills=$((kills + 1))
        case $(says volume.img 4096 state) in
        "reencrypt forward $1")
            [ "$(says volume.img 4096 zone)" = none ] || zones=$((zones + 1))
            [ "$(says volume.img 4096 seqid)" = "$before" ] || moved=$((moved + 1))
            ;;
        idle) break ;;
        *) fail "the header that a kill left" ;;
        esac
    done 2>/dev/null
    [ "$status" = 137 ] || expect "the last resume" "$status $(cat out)" "0 finished $(($2 / 4096)) blocks"
    echo "of $kills kills in $took thousandths of a second, by $1, $moved came behind a zone, and $zones left one open"
    is_finished volume.img 4096 aes-xts-plain64 512
}

# where none comes behind a zone, or with one open, it is tried again, at last on larger volumes, whose conversions
# take longer
for guard in journal checksum; do
    for size in 16777216 16777216 33554432 67108864 134217728; do
        kill_often "$guard" "$size"
        [ "$moved" -ge 1 ] && [ "$zones" -ge 1 ] && break
    done
    [ "$moved" -ge 1 ] || fail "no kill came behind a zone"
    [ "$zones" -ge 1 ] || fail "no kill left a zone open"
done

# ---- a kill at calls that are known, and another one at the same call of what takes it up: the first sync; that
# ---- of the second copy of the header that opens a zone; the write of the first copy; that of the zone's blocks

if strace -o probe true 2>/dev/null; then
    while IFS='|' read -r guard hotzone blocks call number first second; do
        head -c $((16777216 + blocks * 4096)) /dev/urandom >volume.img
        "$reencd" format volume.img --key-file key --iterations 1000 >/dev/null || fail "format"
        cp volume.img old.img
        copy_content volume.img 4096 before.bin
        "$reencd" init volume.img --key-file key --iterations 1000 --hotzone-size "$hotzone" --resilience "$guard" \
            >/dev/null || fail "init"
        for zone in "$first" "$second"; do
            # in a shell of its own, which says nothing of the kill
            status=$(
                (
                    strace -f -o probe -e trace="$call" -e inject="$call":signal=KILL:when="$number" \
                        "$reencd" resume volume.img --key-file key >/dev/null 2>&1
                    echo $?
                ) 2>/dev/null
            )
            expect "status and zone behind a kill at $call $number" "$status $(says volume.img 4096 zone)" "137 $zone"
        done
        expect "resume" "$("$reencd" resume volume.img --key-file key 2>err; echo $?)" "finished $blocks blocks
0"
        is_told "$blocks"
        is_finished volume.img 4096 aes-xts-plain64 512
    done <<'KILLS'
journal|65536|128|fdatasync,fsync|1|none|none
journal|65536|128|fdatasync,fsync|5|0 + 16|none
journal|65536|128|pwrite64|2|none|none
journal|65536|128|pwrite64|4|0 + 16|none
checksum|4096|200|fdatasync,fsync|1|none|none
checksum|4096|200|pwrite64|1|none|none
checksum|4096|200|pwrite64|2|none|none
checksum|4096|200|fdatasync,fsync|5|0 + 128|none
checksum|4096|200|pwrite64|4|0 + 128|none
KILLS
else
    echo "no strace: no kill comes at a known call"
fi

# ---- a volume that cryptsetup made; other ciphers, directions and atoms

while read -r atom blocks direction cipher key_size sector options; do
    head -c $((16777216 + blocks * atom)) /dev/urandom >volume.img
    # shellcheck disable=SC2086
    cryptsetup luksFormat --batch-mode --type luks2 --sector-size 512 $quick --key-file other volume.img || fail luksFormat
    # shellcheck disable=SC2086
    cryptsetup luksAddKey --batch-mode $quick --key-file other volume.img key || fail luksAddKey
    cp volume.img old.img
    copy_content volume.img "$atom" before.bin
    # shellcheck disable=SC2086
    "$reencd" init volume.img --drop-keyslots --atom "$atom" --key-file key --iterations 1000 --direction "$direction" \
        --cipher "$cipher" --key-size "$key_size" --sector-size "$sector" $options >/dev/null || fail "init"
    cp volume.img begun.img
    expect "a passphrase of the old key alone" \
        "$("$reencd" resume volume.img --key-file other --atom "$atom" 2>err; echo $?)" "fault 5 NoKey
5"
    grep -q "^reencd: the new key: the passphrase opens no keyslot" err || fail "the reason is $(cat err)"
    cmp volume.img begun.img || fail "the disk was written"
    expect "resume" "$("$reencd" resume volume.img --key-file key --atom "$atom" 2>err; echo $?)" \
        "finished $blocks blocks
0"
    is_told "$blocks"
    is_finished volume.img "$atom" "$cipher" "$sector"
    cryptsetup open --test-passphrase --key-file other volume.img 2>/dev/null && fail "the other passphrase opens it"
done <<'OPTIONS'
4096 700 backward aes-xts-plain64 64 4096 --hotzone-size 1048576
512 3001 forward aes-xts-plain64 32 512 --hotzone-size 65536
4096 513 forward aes-cbc-essiv:sha256 32 512 --hotzone-size 2097152
512 1000 backward aes-cbc-essiv:sha256 16 512 --hotzone-size 4096
4096 700 backward aes-xts-plain64 64 4096 --hotzone-size 8192 --resilience checksum
512 3001 forward aes-cbc-essiv:sha256 32 512 --resilience checksum
OPTIONS

# ---- what stands in the way

head -c 17825792 /dev/urandom >random.img
cp random.img idle.img
"$reencd" format idle.img --key-file key --iterations 1000 >/dev/null || fail "format"
cp idle.img begun.img
"$reencd" init begun.img --key-file key --iterations 1000 >/dev/null || fail "init"
refuses "3 fault 3 NoHeader reencd: no LUKS2 header is found (primary: Magic; secondary: Magic)" random.img --key-file key
refuses "6 fault 6 WrongState reencd: nothing is being converted" idle.img --key-file /dev/null
refuses "8 fault 8 NoFit reencd: the key file has no byte, and a passphrase has 1 to 512" begun.img --key-file /dev/null
refuses "2 fault 2 Device reencd: missing: No such file or directory" begun.img --key-file missing
cp begun.img refused.img
expect "a wrong key file" "$("$reencd" resume refused.img --key-file other 2>err; echo $?)" "fault 5 NoKey
5"
grep -q "^reencd: the old key: the passphrase opens no keyslot" err || fail "the reason is $(cat err)"
cmp refused.img begun.img || fail "the disk was written"
# cryptsetup's own conversion isn't taken up
cp idle.img foreign.img
# shellcheck disable=SC2086
cryptsetup reencrypt --init-only --batch-mode --cipher aes-xts-plain64 --key-size 512 --resilience checksum \
    --key-file key $quick foreign.img || fail "reencrypt --init-only"
refuses "7 fault 7 Foreign reencd: header: rule 7 Foreign: another program's header, online-reencrypt-v2" \
    foreign.img --key-file key
# a disk that another one has
flock begun.img sleep 60 &
holder=$!
for _ in $(seq 100); do
    flock --nonblock begun.img true || break
    sleep 0.05
done
expect "a locked disk" "$("$reencd" resume begun.img --key-file key 2>&1; echo $?)" "reencd: begun.img: locked by another process
fault 2 Device
2"
kill "$holder"
