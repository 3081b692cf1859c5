#!/usr/bin/env bash
# Kills a conversion once its first zone is done, goes on with it, and compares the content.
. "$(dirname "$0")/common.sh"
needs nbdcopy cmp

printf 'a passphrase' >key && truncate -s $VOLUME volume.img && head -c $PART /dev/urandom >plain.img

# Copies to or from a server of the volume, which ends with its one session: FROM TO.
copy() {
    reencd serve volume.img --key-file key --listen unix:nbd --workers 1 --sessions 1 2>said &
    while kill -0 $! && ! grep -qs listening said; do sleep 0.1; done
    nbdcopy --connections=1 --flush "$1" "$2" || kill $!
    wait $! && rm said
}

reencd format volume.img --key-file key
copy plain.img "nbd+unix:///?socket=nbd"

reencd init volume.img --key-file key
reencd resume volume.img --key-file key &
while kill -0 $! && ! reencd status volume.img | grep -q 'boundary: [1-9]'; do sleep 0.1; done
kill -9 $!; wait $! || true; reencd status volume.img | grep -e boundary -e zone
reencd resume volume.img --key-file key
reencd status volume.img | grep state

copy "nbd+unix:///?socket=nbd" back.img
cmp -n $PART plain.img back.img && echo same
