# What every example begins with: a folder of its own, the program on the path as `reencd`, and an end
# that leaves nothing behind. It is sourced.
set -eu
VOLUME=${VOLUME:-272M}
PART=${PART:-64M}

root=$(cd "$(dirname "${BASH_SOURCE[0]}")/.." && pwd)
program=$(realpath -m "${REENCD:-$root/crates/reencd/out/reencd}")
[ -x "$program" ] || { echo "there is no program $program: make build makes it"; exit 1; }
room=$(mktemp -d)

clean_up() {
    status=$?
    # the jobs that still run are servers of this script
    for job in $(jobs -p); do
        kill "$job" 2>/dev/null || true
        wait "$job" 2>/dev/null || true
    done
    rm -rf "$room"
    exit "$status"
}
trap clean_up EXIT

# Ends the script as skipped where one of these commands is not there.
needs() {
    for tool in "$@"; do
        command -v "$tool" >/dev/null || { echo "skipped: there is no $tool"; exit 77; }
    done
}

mkdir "$room/bin"
ln -s "$program" "$room/bin/reencd"
PATH=$room/bin:$PATH
cd "$room"
