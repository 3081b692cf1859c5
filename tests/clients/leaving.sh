# Clients that go away in the middle of a request or a reply end their own sessions and nothing else:
# the next client is served, and the server ends as if nothing had been.
. "$(dirname "$0")/common.sh"
needs python3
truncate -s 64M "$room/disk.img"
serve "$room/disk.img" 4096 7
python3 "$here/leaving.py" "$port" || fail "the clients"
served 7
