# Random options and requests, right and wrong ones, whole and cut, for a while: each session is
# answered as the model of tests/oracle says, the server never hangs, and its memory doesn't grow.
# SEED (1) and SECONDS_EACH (20) may be set.
. "$(dirname "$0")/common.sh"
needs python3
# large buffers come and go whole, so the peak doesn't depend on where the C library finds room
export MALLOC_MMAP_THRESHOLD_=65536 MALLOC_TRIM_THRESHOLD_=65536
truncate -s 40M "$room/disk.img"
# one worker, whose buffers one client after the other uses
serve_by "$room/disk.img" --plain --atom 512 --sessions 65535 --workers 1
python3 "$here/random_client.py" "$port" "$room/disk.img" 512 "$server" \
    "${SEED:-1}" "${SECONDS_EACH:-20}" || fail "the clients"
stop TERM
