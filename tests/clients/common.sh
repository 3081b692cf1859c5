# What every script of this folder begins with: a folder of its own, a server on a free port, and the
# words by which it ends. It is sourced.
set -u
export PYTHONDONTWRITEBYTECODE=1

here=$(cd "$(dirname "${BASH_SOURCE[0]}")" && pwd)
reencd=${REENCD:-$here/../../crates/reencd/out/reencd}
# what the server is run under: nothing, or a tracer with its words
tracer=()
room=$(mktemp -d)
: >"$room/stdout"
: >"$room/stderr"
server=
port=

clean_up() {
    if [ -n "$server" ]; then
        kill "$server" 2>/dev/null
        wait "$server" 2>/dev/null
    fi
    rm -rf "$room"
}
trap clean_up EXIT

# Ends the script as failed.
fail() {
    echo "failed: $*"
    exit 1
}

# Ends the script as skipped where one of these commands is not there.
needs() {
    for tool in "$@"; do
        if ! command -v "$tool" >/dev/null; then
            echo "skipped: there is no $tool"
            exit 77
        fi
    done
}

# Ends the script as skipped where no Python has libnbd; $python is one that does.
needs_libnbd() {
    for python in python3 /usr/bin/python3; do
        "$python" -c "import nbd" 2>/dev/null && return
    done
    echo "skipped: Python has no module nbd"
    exit 77
}

# Says what was seen, and fails where it isn't what was wanted: WHAT SEEN WANTED.
expect() {
    echo "$1: $2"
    [ "$2" = "$3" ] || fail "$1 is not $3"
}

# Starts a server of DISK as it is, in atoms of ATOM bytes, for so many SESSIONS on a free port. Its process
# is $server, its port $port, and what it prints is in $room/stdout and $room/stderr.
serve() {
    serve_by "$1" --plain --atom "$2" --sessions "$3"
}

# Starts a server of the volume on DISK under the passphrase in KEY_FILE: DISK KEY_FILE ATOM SESSIONS.
serve_under() {
    serve_by "$1" --key-file "$2" --atom "$3" --sessions "$4"
}

# Starts a server by these words on a free port.
serve_by() {
    start "$@" --listen 127.0.0.1:0
    port=$(sed -n 's/^reencd: listening on .*:\([0-9]*\)$/\1/p' "$room/stderr")
}

# Starts a server at the socket of this path by these words: PATH WORD...
serve_at() {
    local path=$1
    shift
    start "$@" --listen "unix:$path"
}

# Starts a server by all its words, and waits until it says where it listens.
start() {
    : >"$room/stdout"
    : >"$room/stderr"
    "${tracer[@]}" "$reencd" serve "$@" >"$room/stdout" 2>"$room/stderr" </dev/null &
    server=$!
    for _ in $(seq 1200); do
        grep -q '^reencd: listening on .' "$room/stderr" && return
        kill -0 "$server" 2>/dev/null || break
        sleep 0.05
    done
    fail "the server did not start: $(cat "$room/stdout" "$room/stderr")"
}

# Waits for the server's own end, ten minutes at most, and expects it to be fine after so many sessions.
served() {
    for _ in $(seq 12000); do
        kill -0 "$server" 2>/dev/null || break
        sleep 0.05
    done
    kill -KILL "$server" 2>/dev/null
    wait "$server"
    expect "status of the server" "$?" 0
    server=
    expect "line of the server" "$(cat "$room/stdout")" "served $1 sessions"
}

# Waits for the end of the program of this number, which may serve one session at the socket `sock`: a client
# comes there, hears the greeting and goes. The status is the program's: PROCESS.
end_of() {
    PYTHONPATH=$here python3 -c "import client; client.visit('sock', $1)" || fail "no client came"
    wait "$1"
}

# Ends the server by the signal.
stop() {
    kill -"$1" "$server"
    wait "$server" 2>/dev/null
    server=
}

[ -x "$reencd" ] || fail "there is no program $reencd: make build makes it"
