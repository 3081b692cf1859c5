# What the benches that serve a disk begin with: what the clients' scripts begin with, a folder of
# its own, and nbdkit beside the program. It is sourced.
. "$(dirname "${BASH_SOURCE[0]}")/../clients/common.sh"
needs nbdkit python3
cd "$room" || exit 1
kit=

end_kit() {
    [ -z "$kit" ] || kill "$kit"
    wait "$kit" 2>/dev/null
    kit=
}
trap 'end_kit; clean_up' EXIT

# Finds a free port of the machine, $port.
free_port() {
    port=$(python3 -c 'import socket
s = socket.socket()
s.bind(("127.0.0.1", 0))
print(s.getsockname()[1])')
}

# Waits for a server on $port, whose process is $kit: NAME.
wait_for_kit() {
    for _ in $(seq 200); do
        (exec 3<>"/dev/tcp/127.0.0.1/$port") 2>/dev/null && return
        sleep 0.05
    done
    fail "$1 did not start"
}

# Starts nbdkit with the plugin and its words, in the foreground on a free port.
start_kit() {
    free_port
    nbdkit --foreground --ipaddr 127.0.0.1 --port "$port" "$@" &
    kit=$!
    wait_for_kit nbdkit
}
