#!/usr/bin/env bash
# Makes an encrypted volume, serves it, copies a file into it and reads it back.
. "$(dirname "$0")/common.sh"
needs nbdcopy cmp

printf 'a passphrase' >key && truncate -s $VOLUME volume.img
reencd format volume.img --key-file key
reencd serve volume.img --key-file key --listen unix:nbd 2>said &
while kill -0 $! && ! grep -qs listening said; do sleep 0.1; done
head -c 1M /dev/urandom >plain.img
nbdcopy --flush plain.img "nbd+unix:///?socket=nbd"
nbdcopy "nbd+unix:///?socket=nbd" back.img
cmp -n 1048576 plain.img back.img && echo same
kill $!; wait $! || true
reencd status volume.img
