# What the program says where it can't do what it is asked: one line on standard output with the status
# and its name, and one on standard error with the reason.
. "$(dirname "$0")/common.sh"
needs python3
cd "$room" || exit 1

# The program with these words ends with this status, line and reason.
refuses() {
    status=$1 line=$2 reason=$3
    shift 3
    "$reencd" "$@" >out 2>err </dev/null
    expect "$*" "$? $(cat out) $(cat err)" "$status $line $reason"
}

plain() {
    echo "serve $1 --plain --atom 512 --listen $2 --sessions 1"
}

# These words are a faulty command line, and standard error says so.
explains() {
    reason=$1
    shift
    "$reencd" "$@" >out 2>err </dev/null
    expect "$*" "$? $(cat out)" "1 fault 1 Usage"
    grep -q -- "$reason" err || fail "it doesn't say '$reason': $(cat err)"
}

# These words ask for help, which is printed.
helps() {
    text=$1
    shift
    "$reencd" "$@" >out 2>err </dev/null
    expect "$*" "$? $(cat err)" "0 "
    grep -q -- "$text" out || fail "it doesn't say '$text': $(cat out)"
}

truncate -s 1M disk.img
truncate -s 511 small.img
mkdir folder
# shellcheck disable=SC2046
{
    explains "Usage: reencd <COMMAND>"
    helps "Usage: reencd <COMMAND>" --help
    explains "error: the following required arguments were not provided" serve
    helps "--listen <ADDRESS>" serve --help
    explains "error: unrecognized subcommand 'open'" open
    explains "error: unexpected argument '--size' found" status disk.img --size 1
    explains "error: the argument '--plain' cannot be used multiple times" $(plain disk.img unix:sock) --plain
    explains "error: --atom takes 512 or 4096" status disk.img --atom 1024
    explains "error: --workers takes a number from 1 to 16" $(plain disk.img unix:sock) --workers 17
    explains "error: --blocks takes a number from 1 to 16384" demo --seed 1 --blocks 16385 --workers 1
    helps "Convert a volume in memory while clients use it" demo --help
    explains "error: resume takes no --header yet" resume disk.img --key-file key --header other.img
    explains "--key-file <FILE>" resume disk.img
    helps "Convert a volume to the end of its conversion" resume --help
    refuses 2 "fault 2 Device" "reencd: missing.img: No such file or directory" resume missing.img --key-file key
    refuses 2 "fault 2 Device" "reencd: missing: No such file or directory" resume disk.img --key-file missing
    refuses 3 "fault 3 NoHeader" "reencd: no LUKS2 header is found (primary: Magic; secondary: Magic)" resume disk.img --key-file /dev/null
    refuses 2 "fault 2 Device" "reencd: missing.img: No such file or directory" $(plain missing.img unix:sock)
    refuses 2 "fault 2 Device" "reencd: folder: Is a directory" $(plain folder unix:sock)
    refuses 8 "fault 8 NoFit" "reencd: small.img: the last 511 bytes aren't used: no whole atom of 512 bytes
reencd: the disk has no room for a block" $(plain small.img unix:sock)
    for address in nowhere stdio 127.0.0.1:65536; do
        refuses 2 "fault 2 Device" "reencd: $address: no address: HOST:PORT, as 127.0.0.1:10809, or unix:PATH" $(plain disk.img $address)
    done
    refuses 2 "fault 2 Device" "reencd: 192.0.2.1:10809: Cannot assign requested address" $(plain disk.img 192.0.2.1:10809)
    serve disk.img 512 1
    refuses 2 "fault 2 Device" "reencd: disk.img: locked by another process" $(plain disk.img unix:sock)
    cp disk.img other.img
    refuses 2 "fault 2 Device" "reencd: 127.0.0.1:$port: Address already in use" $(plain other.img "127.0.0.1:$port")
}
"$reencd" serve $'\377' >out 2>err </dev/null
expect "a word that isn't UTF-8" "$? $(cat out) $(cat err)" "1 fault 1 Usage reencd: a word isn't UTF-8"
if [ "$(id -u)" != 0 ]; then
    chmod 0 other.img
    # shellcheck disable=SC2046
    refuses 2 "fault 2 Device" "reencd: other.img: Permission denied" $(plain other.img unix:sock)
fi
stop TERM
"$reencd" serve disk.img --plain --atom 512 --listen unix:sock --sessions 1 </dev/null >/dev/full 2>err &
end_of $!
expect "output that is full" "$? $(cat err)" "11 reencd: listening on unix:sock
reencd: failed calls of standard output: 1"
