#!/usr/bin/env bash
# Changes the key of a volume while four clients write, read and verify it.
. "$(dirname "$0")/common.sh"
needs fio
fio --enghelp 2>/dev/null | grep -qw nbd || { echo "skipped: fio has no nbd"; exit 77; }

printf 'a passphrase' >key && truncate -s $VOLUME volume.img
reencd format volume.img --key-file key
reencd init volume.img --key-file key
reencd serve volume.img --key-file key --listen unix:nbd --workers 8 --sessions 8 >done 2>said &
while kill -0 $! && ! grep -qs listening said; do sleep 0.1; done
fio --name=load --ioengine=nbd --uri="nbd+unix:///?socket=nbd" --numjobs=4 \
    --size=$PART --offset_increment=$PART --rw=randrw --bs=64k --iodepth=4 --verify=crc32c \
    --verify_state_save=0 >load && echo verified || kill $!
wait $!; tail -n 1 said
cat done
reencd status volume.img | grep -e state -e live
