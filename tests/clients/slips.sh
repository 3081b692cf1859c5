# What the program makes of an operator's slips: descriptors that are closed, ends of disks, devices in
# use, passphrases that would be lost, clients that say nothing, disks that are full, words that are wrong.
. "$(dirname "$0")/common.sh"
cd "$room" || exit 1

# What a script of this one has to undo before the folder goes.
undo=()
at_end() {
    for step in "${undo[@]}"; do
        eval "$step" 2>/dev/null
    done
    clean_up
}
trap at_end EXIT

# The program with these words, which may serve one session, ends with this status and line, and says this
# among others: STATUS LINE TEXT WORD...
says() {
    local status=$1 line=$2 text=$3
    shift 3
    "$reencd" "$@" >out 2>err </dev/null &
    end_of $!
    expect "$*" "$? $(cat out)" "$status $line"
    grep -qF -- "$text" err || fail "$* doesn't say '$text': $(cat err)"
}

# Likewise, and none of the bytes of FILE changes: FILE STATUS LINE TEXT WORD...
keeps() {
    local file=$1 before
    shift
    before=$(sha256sum <"$file")
    says "$@"
    [ "$(sha256sum <"$file")" = "$before" ] || fail "${*:4} changed $file"
}

printf 'a passphrase' >key
printf 'another one' >key2
: >empty
head -c 4096 /dev/zero >long
size=$((16777216 + 64 * 4096))

echo "== closed descriptors"
truncate -s $size volume.img
"$reencd" format volume.img --key-file key --iterations 1000 >/dev/null || fail "format"
cp volume.img begun.img
"$reencd" init begun.img --key-file key --iterations 1000 >/dev/null 2>&1 || fail "init"
cp begun.img led.img
"$reencd" resume led.img --key-file key >/dev/null 2>&1 || fail "resume"
# The program with one of its descriptors closed.
without() {
    local closed=$1
    shift
    case $closed in
    0) "$reencd" "$@" >out 2>err <&- & ;;
    1) "$reencd" "$@" 2>err </dev/null >&- & ;;
    2) "$reencd" "$@" >out </dev/null 2>&- & ;;
    esac
    end_of $!
}
for closed in 0 1 2; do
    wanted=0
    [ $closed = 1 ] && wanted=11
    truncate -s $size made.img
    without $closed format made.img --key-file key --iterations 1000
    expect "format without $closed" "$? $(stat -c %s made.img)" "$wanted $size"
    "$reencd" status made.img >/dev/null || fail "format without $closed made no volume"
    cp volume.img copy.img
    without $closed init copy.img --key-file key --iterations 1000
    expect "init without $closed" "$? $(stat -c %s copy.img)" "$wanted $size"
    "$reencd" status copy.img | grep -q 'state: reencrypt' || fail "init without $closed began nothing"
    for words in "status volume.img" "serve volume.img --key-file key --listen unix:sock --sessions 1"; do
        cp volume.img copy.img
        # shellcheck disable=SC2086
        without $closed ${words/volume/copy}
        expect "$words without $closed" "$?" $wanted
        cmp volume.img copy.img || fail "$words without $closed changed the disk"
    done
    cp begun.img copy.img
    without $closed resume copy.img --key-file key
    expect "resume without $closed" "$?" $wanted
    cmp led.img copy.img || fail "resume without $closed left another disk than with it"
    rm -f made.img copy.img
done

echo "== the end of a volume"
truncate -s $((size + 1536)) tailed.img
"$reencd" format tailed.img --key-file key --iterations 1000 --atom 512 >/dev/null 2>&1 || fail "format by 512"
tail_cure="lengthen the disk to whole atoms, or take --atom 512, where sectors have 512 bytes and the disk writes 512 bytes whole"
keeps tailed.img 8 "fault 8 NoFit" "tail: the disk has 1536 bytes behind its last whole atom, which a conversion wouldn't reach: $tail_cure" \
    init tailed.img --key-file key --iterations 1000
# (100 bytes more are no sector, so that the cure is the same)
cp tailed.img ragged.img
truncate -s $((size + 1636)) ragged.img
keeps ragged.img 8 "fault 8 NoFit" "tail: the disk has 1636 bytes behind its last whole atom, which a conversion wouldn't reach: $tail_cure" \
    init ragged.img --key-file key --iterations 1000
"$reencd" init ragged.img --key-file key --iterations 1000 --atom 512 >out 2>err || fail "init by 512: $(cat err)"
# (fewer than 512 bytes hold no sector)
cp volume.img frayed.img
truncate -s $((size + 511)) frayed.img
"$reencd" init frayed.img --key-file key --iterations 1000 >out 2>err || fail "init beside 511 bytes: $(cat err)"
"$reencd" resume frayed.img --key-file key >out 2>err || fail "resume beside 511 bytes: $(cat err)"
# (a disk that was lengthened under a conversion)
cp begun.img grown.img
truncate -s $((size + 1536)) grown.img
for words in "resume grown.img" "serve grown.img --listen unix:sock" "serve grown.img --listen unix:sock --no-worker"; do
    # shellcheck disable=SC2086
    keeps grown.img 8 "fault 8 NoFit" "tail: the disk has 1536 bytes behind its last whole atom, which a conversion wouldn't reach: give it the size that it had when the conversion was begun, or whole atoms by a loop device (\`losetup --sizelimit\`)" \
        $words --key-file key
done
truncate -s $size grown.img
"$reencd" resume grown.img --key-file key >out 2>err || fail "resume of the disk as it was: $(cat err)"
cp tailed.img begun_by_512.img
"$reencd" init begun_by_512.img --key-file key --iterations 1000 --atom 512 >/dev/null 2>&1 || fail "init by 512"
# (by atoms of 4096 bytes the volume that is being converted passes the last whole one)
keeps begun_by_512.img 4 "fault 4 Header" "another --atom" resume begun_by_512.img --key-file key
keeps begun_by_512.img 4 "fault 4 Header" "another --atom" serve begun_by_512.img --key-file key --listen unix:sock
keeps tailed.img 0 "served 1 sessions" 1536 serve tailed.img --key-file key --listen unix:sock --sessions 1
truncate -s 5000 short.img
says 0 "served 1 sessions" 904 serve short.img --plain --listen unix:sock --sessions 1
says 0 "served 1 sessions" 392 serve short.img --plain --atom 512 --listen unix:sock --sessions 1
truncate -s $((size + 1000)) made.img
"$reencd" format made.img --key-file key --iterations 1000 >/dev/null 2>err || fail "format"
grep -q 1000 err || fail "format doesn't say how many bytes aren't served: $(cat err)"

echo "== passphrases that would be lost"
if command -v cryptsetup >/dev/null; then
    cp volume.img shared.img
    cryptsetup -q luksAddKey --pbkdf pbkdf2 --pbkdf-force-iterations 1000 --key-file key shared.img key2 ||
        fail "cryptsetup adds no key"
    keeps shared.img 15 "fault 15 Keyslots" "slot 1" init shared.img --key-file key --iterations 1000
    "$reencd" serve shared.img --key-file key2 --listen unix:sock --sessions 1 >/dev/null 2>&1 </dev/null &
    end_of $! || fail "the other passphrase is lost"
    "$reencd" init shared.img --key-file key --iterations 1000 --drop-keyslots >out 2>err || fail "init --drop-keyslots: $(cat err)"
    says 5 "fault 5 NoKey" "the passphrase opens no keyslot" serve shared.img --key-file key2 --listen unix:sock

    echo "== what init changes"
    cryptsetup -q luksFormat --type luks2 --pbkdf pbkdf2 --pbkdf-force-iterations 2000 --sector-size 4096 \
        --cipher aes-cbc-essiv:sha256 --key-size 256 volume.img key || fail "cryptsetup makes no volume"
    "$reencd" init volume.img --key-file key --iterations 1000 >out 2>err || fail "init: $(cat err)"
    for part in aes-cbc-essiv:sha256 aes-xts-plain64 4096 512 2000 1000; do
        grep -q -- "$part" err || fail "init doesn't say $part: $(cat err)"
    done

    echo "== cryptsetup beside a server"
    serve_by led.img --key-file key
    timeout 2 cryptsetup luksDump led.img >out 2>err
    expect "luksDump of a file that is served, for two seconds" "$?" 124
    cryptsetup --disable-locks luksDump led.img >out 2>err || fail "luksDump --disable-locks: $(cat err)"
    "$reencd" status led.img >out 2>err || fail "status of a file that is served: $(cat err)"
    stop TERM
else
    echo "skipped: there is no cryptsetup"
fi

echo "== a header on a disk of its own"
truncate -s $size apart.img
truncate -s 16M header.img
"$reencd" format apart.img --header header.img --key-file key --iterations 1000 >out 2>err || fail "format --header: $(cat err)"
keeps header.img 4 "fault 4 Header" "a detached header, a header backup" status header.img
keeps apart.img 3 "fault 3 NoHeader" "primary: Magic; secondary: Magic" status apart.img

echo "== devices in use"
truncate -s $size whole.img
if device=$(losetup -f --show whole.img 2>/dev/null); then
    undo=("losetup -d $device" "${undo[@]}")
    mkdir mounted
    if command -v mke2fs >/dev/null && mke2fs -q "$device" && mount -o ro "$device" mounted 2>/dev/null; then
        undo=("umount mounted" "${undo[@]}")
        for words in "format $device --key-file key" "init $device --key-file key" \
            "resume $device --key-file key" "serve $device --plain --listen unix:sock"; do
            # shellcheck disable=SC2086
            keeps "$device" 2 "fault 2 Device" "reencd: $device: device in use, mounted at $room/mounted" $words
        done
        says 3 "fault 3 NoHeader" "reencd: no LUKS2 header is found (primary: Magic" status "$device"
        umount mounted
    else
        echo "skipped: nothing can be mounted"
    fi
    if command -v mkswap >/dev/null && mkswap "$device" >/dev/null 2>&1 && swapon "$device" 2>/dev/null; then
        undo=("swapoff $device" "${undo[@]}")
        keeps "$device" 2 "fault 2 Device" "reencd: $device: device in use, as swap space" \
            format "$device" --key-file key
        swapoff "$device"
    else
        echo "skipped: nothing can be used as swap space"
    fi
    "$reencd" format "$device" --key-file key --iterations 1000 >/dev/null || fail "format of a free device"
    "$reencd" status "$device" >/dev/null || fail "status of a free device"
    losetup -d "$device"
    # one partition, from the 2048th sector on, as a table of the old kind has it
    printf '\0\0\0\0\203\0\0\0\0\010\0\0\040\116\0\0' | dd of=whole.img bs=1 seek=446 conv=notrunc status=none
    printf '\125\252' | dd of=whole.img bs=1 seek=510 conv=notrunc status=none
    if device=$(losetup -P -f --show whole.img) && [ -b "${device}p1" ]; then
        undo=("losetup -d $device" "${undo[@]}")
        if mke2fs -q "${device}p1" && mount -o ro "${device}p1" mounted 2>/dev/null; then
            undo=("umount mounted" "${undo[@]}")
            keeps "$device" 2 "fault 2 Device" "device in use, mounted at $room/mounted" \
                format "$device" --key-file key
            keeps "${device}p1" 2 "fault 2 Device" "device in use, mounted at $room/mounted" \
                format "${device}p1" --key-file key
            umount mounted
        fi
    else
        echo "skipped: no disk with a partition can be made"
    fi
else
    echo "skipped: there is no loop device"
fi
mkfifo pipe
for words in "status pipe" "serve pipe --plain --listen unix:sock" "format pipe --key-file key"; do
    # shellcheck disable=SC2086
    says 2 "fault 2 Device" "reencd: pipe: neither a regular file nor a block device" $words
done

echo "== clients that say nothing"
truncate -s 1M plain.img
serve_by plain.img --plain --atom 512 --workers 5
expect "clients that don't negotiate" "$(python3 "$here/silent.py" negotiation "$port")" \
    "four were dropped, a sixth was met, and the one that was through is served on"
expect "lines of it" "$(grep -c ': dropped, not through the negotiation within 30 seconds$' stderr)" 3
expect "lines of one that takes no answers" "$(grep -c ': dropped, it takes no answers$' stderr)" 1
expect "a client that is silent" "$(python3 "$here/silent.py" idle "$port")" served
expect "lines of clients without --verbose" "$(grep -c 'connected\|gone' stderr)" 0
stop TERM
serve_by plain.img --plain --atom 512 --idle-timeout 1 --verbose
expect "a client that is silent for too long" "$(python3 "$here/silent.py" idle "$port")" dropped
stop TERM
expect "lines of it" "$(sed -n 's/^reencd: 127.0.0.1:[0-9]*: //p' stderr)" "connected
dropped, silent for 1 seconds
gone"
truncate -s 8M unread.img
serve_by unread.img --plain --atom 512 --idle-timeout 1 --workers 1
expect "a client that takes nothing" "$(python3 "$here/silent.py" unread "$port")" dropped
expect "and the next one" "$(python3 "$here/silent.py" idle "$port")" dropped
stop TERM
expect "lines of them" "$(sed -n 's/^reencd: 127.0.0.1:[0-9]*: //p' stderr)" "dropped, it takes no answers
dropped, silent for 1 seconds"
serve_by plain.img --plain --atom 512 --workers 4
expect "many clients beside one that stays" "$(python3 "$here/silent.py" many "$port")" "41 were met"
stop TERM
tracer=(prlimit --nofile=14)
if command -v prlimit >/dev/null && serve_by plain.img --plain --atom 512 --workers 4; then
    expect "few descriptors" "$(python3 "$here/silent.py" crowd "$port")" "one was met behind the crowd"
    grep -q '^reencd: 127.0.0.1:0: Too many open files$' stderr || fail "nothing is said of descriptors: $(cat stderr)"
    stop TERM
fi
tracer=()
if command -v prlimit >/dev/null; then
    prlimit --nofile=6 "$reencd" serve plain.img --plain --atom 512 --listen 127.0.0.1:0 >out 2>err </dev/null
    expect "too few descriptors to begin" "$? $(cat out) $(cat err)" \
        "2 fault 2 Device reencd: 127.0.0.1:0: Too many open files"
fi

echo "== a disk that is full"
mkdir small
if mount -t tmpfs -o size=2M none small 2>/dev/null; then
    undo=("umount small" "${undo[@]}")
    truncate -s 8M small/plain.img
    serve_by small/plain.img --plain --atom 512
    head -c 4194304 /dev/urandom >written.img
    if command -v nbdcopy >/dev/null; then
        nbdcopy written.img "nbd://127.0.0.1:$port" 2>/dev/null && fail "a full disk took all"
        grep -q '^reencd: small/plain.img: No space left on device$' stderr || fail "nothing is said of the full disk: $(cat stderr)"
        grep -qi 'start.* again' stderr || fail "nothing is said of starting again: $(cat stderr)"
    else
        echo "skipped: there is no nbdcopy"
    fi
    stop TERM
    umount small
else
    echo "skipped: no small file system can be mounted"
fi

echo "== help and version"
for words in --help -h help "serve --help" "help init" --version -V; do
    # shellcheck disable=SC2086
    "$reencd" $words >out 2>err </dev/null
    expect "$words" "$? $(wc -c <err)" "0 0"
    [ -s out ] || fail "$words prints nothing"
done
expect "version" "$("$reencd" --version)" "reencd 0.3.0"
grep -q '^\.TH REENCD 8 .*0\.3\.0' "$here/../../docs/reencd.8" || fail "the man page has another version"
"$reencd" --help >/dev/full 2>err </dev/null
expect "help that can't be put" "$?" 11

echo "== wrong words"
truncate -s $size disk.img
cp led.img good.img
fault1="fault 1 Usage"
no_hint() {
    grep -qi 'similar\|tip:' err && fail "it gives a hint: $(cat err)"
}
says 1 "$fault1" "frmat" frmat disk.img
no_hint
says 1 "$fault1" "--resilience-hash" init disk.img --key-file key --resilience-hash sha256
no_hint
says 1 "$fault1" "--read-only" serve disk.img --plain --listen unix:sock --read-only
no_hint
says 1 "$fault1" "reencd format" format disk.img --key-file key --key-size 512
says 1 "$fault1" "bytes" format disk.img --key-file key --data-offset 16M
says 1 "$fault1" "bytes" init disk.img --key-file key --hotzone-size 1M
says 1 "$fault1" "512 or 4096" serve disk.img --plain --listen unix:sock --atom 1024
says 1 "$fault1" "1 to 16" serve disk.img --plain --listen unix:sock --workers 17
says 1 "$fault1" "1 to 4294967295" serve disk.img --plain --listen unix:sock --sessions 0
says 1 "$fault1" "--idle-timeout" serve disk.img --plain --listen unix:sock --idle-timeout 0
says 1 "$fault1" "--key-file or --plain" serve disk.img --listen unix:sock
says 1 "$fault1" "--key-file or --plain, not both" serve disk.img --plain --key-file key --listen unix:sock
says 1 "$fault1" "--listen <ADDRESS>" serve disk.img --plain
device="fault 2 Device"
says 2 "$device" "reencd: missing.img: No such file or directory" status missing.img
says 2 "$device" "reencd: missing: No such file or directory" serve good.img --key-file missing --listen unix:sock
mkdir folder
says 2 "$device" "reencd: folder: Is a directory" format folder --key-file key
says 2 "$device" "HOST:PORT" serve disk.img --plain --listen nowhere
says 2 "$device" "HOST:PORT" serve disk.img --plain --listen 10809
says 2 "$device" "reencd: unix:missing/x: No such file or directory" serve disk.img --plain --listen unix:missing/x
serve_by good.img --key-file key --atom 4096
keeps good.img 2 "$device" "reencd: good.img: locked by another process" init good.img --key-file key
says 2 "$device" "reencd: 127.0.0.1:$port: Address already in use" serve disk.img --plain --listen "127.0.0.1:$port"
stop TERM
says 3 "fault 3 NoHeader" "reencd: no LUKS2 header is found (primary: Magic; secondary: Magic)" status disk.img
keeps good.img 5 "fault 5 NoKey" "the passphrase opens no keyslot" init good.img --key-file key2
grep -q 'line feed' err && fail "a line feed is seen where there is none: $(cat err)"
printf 'a passphrase\n' >fed
fed="reencd: fed: it ends with a line feed, which is part of the passphrase"
keeps good.img 5 "fault 5 NoKey" "$fed" init good.img --key-file fed
keeps begun.img 5 "fault 5 NoKey" "$fed" serve begun.img --key-file fed --listen unix:sock
keeps begun.img 5 "fault 5 NoKey" "reencd: the old key: the passphrase opens no keyslot; slot 0: it holds no key of the volume under this passphrase; slot 1: it isn't bound to this key" \
    resume begun.img --key-file key2
# (a pipe is read once)
keeps good.img 5 "fault 5 NoKey" "the passphrase opens no keyslot" init good.img --key-file <(cat fed)
grep -q 'line feed' err && fail "a pipe is read once more: $(cat err)"
keeps good.img 6 "fault 6 WrongState" "nothing is being converted" resume good.img --key-file key
keeps begun.img 6 "fault 6 WrongState" "a conversion is under way" init begun.img --key-file key
keeps good.img 8 "fault 8 NoFit" "512" serve good.img --key-file empty --listen unix:sock
keeps good.img 8 "fault 8 NoFit" "512" serve good.img --key-file long --listen unix:sock
truncate -s 1M small.img
keeps small.img 8 "fault 8 NoFit" "reencd" format small.img --key-file key --iterations 1000
if command -v cryptsetup >/dev/null; then
    luks() {
        truncate -s $size other.img
        cryptsetup -q luksFormat --key-file key "$@" other.img || fail "cryptsetup luksFormat $*"
    }
    luks --type luks1 --iter-time 10
    keeps other.img 3 "fault 3 NoHeader" "LUKS1" status other.img
    luks --type luks2 --pbkdf argon2id --pbkdf-force-iterations 4 --pbkdf-memory 64 --pbkdf-parallel 1
    keeps other.img 5 "fault 5 NoKey" "luksConvertKey --pbkdf pbkdf2" serve other.img --key-file key --listen unix:sock
    luks --type luks2 --pbkdf pbkdf2 --pbkdf-force-iterations 1000 --cipher aes-xts-plain
    keeps other.img 4 "fault 4 Header" "segments/0/encryption of its first copy is aes-xts-plain" status other.img
    for words in "init other.img" "resume other.img" "serve other.img --listen 127.0.0.1:0"; do
        # shellcheck disable=SC2086
        keeps other.img 4 "fault 4 Header" "segments/0/encryption of its first copy is aes-xts-plain" $words --key-file key
    done
    luks --type luks2 --pbkdf pbkdf2 --pbkdf-force-iterations 1000 --sector-size 4096
    keeps other.img 4 "fault 4 Header" "another --atom" serve other.img --key-file key --atom 512 --listen unix:sock
    rm -f backup.img
    cryptsetup luksHeaderBackup other.img --header-backup-file backup.img
    says 4 "fault 4 Header" "header backup" status backup.img
fi
dd if=/dev/zero of=good.img bs=4096 count=1 conv=notrunc status=none
"$reencd" status good.img >out 2>err || fail "status with one copy"
grep -q 'copy' err || fail "status doesn't say that a copy is damaged: $(cat err)"
"$reencd" serve good.img --key-file key --listen unix:sock --sessions 1 >out 2>err </dev/null &
end_of $! || fail "serve with one copy"
grep -q 'copy' err || fail "serve doesn't say that it rewrote a copy: $(cat err)"
"$reencd" status good.img >out 2>err || fail "status of a copy that was rewritten"
[ -s err ] && fail "status says of a sound header: $(cat err)"
exit 0
