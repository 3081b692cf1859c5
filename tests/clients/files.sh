# Files as disks and as keys: a disk has the whole atoms of its file, and keeps what was written; a key
# file is taken whole, and one of more than 512 bytes is no passphrase.
. "$(dirname "$0")/common.sh"
needs python3
cd "$room" || exit 1

# A file of so many bytes has an export of so many, in these atoms: BYTES ATOM EXPORT.
has() {
    rm -f disk.img
    truncate -s "$1" disk.img
    serve disk.img "$2" 1
    found=$(PYTHONPATH=$here python3 -c "
import client
client = client.Client($port)
data = bytes([7]) * $2
assert client.write(client.size - $2, data) == 0 and client.flush() == 0
assert client.read(client.size - $2, $2) == data
print(client.size)
client.disconnect()")
    expect "$1 bytes in atoms of $2" "$found" "$3"
    served 1
    expect "the last atom" "$(tail -c +$(($3 - $2 + 1)) disk.img | head -c "$2" | tr -d '\7' | wc -c)" 0
    expect "the file's length" "$(stat -c %s disk.img)" "$1"
}
has 512 512 512
has 1023 512 512
has 8192 512 8192
has 12388 4096 12288

for length in 0 511; do
    truncate -s $length disk.img
    "$reencd" serve disk.img --plain --atom 512 --listen unix:sock >out 2>err </dev/null
    expect "a disk of $length bytes" "$? $(cat out)" "8 fault 8 NoFit"
done

# A passphrase of so many bytes makes a volume and opens it, or ends so: BYTES STATUS LINE.
keys() {
    rm -f volume.img
    truncate -s 400K volume.img
    head -c "$1" /dev/zero | tr '\0' k >key
    "$reencd" format volume.img --key-file key --key-size 32 --data-offset 303104 --iterations 1000 \
        --uuid 12345678-1234-4234-8234-123456789abc >out 2>err </dev/null
    expect "a key file of $1 bytes" "$? $(cat out)" "$2 $3"
    [ "$2" = 0 ] || return 0
    "$reencd" serve volume.img --key-file key --listen unix:sock --sessions 1 >/dev/null 2>err </dev/null &
    end_of $!
    expect "it opens" "$?" 0
    head -c $(($1 - 1)) key >shorter
    "$reencd" serve volume.img --key-file shorter --listen unix:sock >out 2>err </dev/null
    [ $? != 0 ] || fail "a shorter one opens it"
}
made="formatted 12345678-1234-4234-8234-123456789abc"
keys 0 8 "fault 8 NoFit"
keys 1 0 "$made"
keys 512 0 "$made"
keys 513 8 "fault 8 NoFit"
keys 9000 8 "fault 8 NoFit"
