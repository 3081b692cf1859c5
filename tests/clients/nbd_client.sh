# nbd-client: the list of exports, in one session.
. "$(dirname "$0")/common.sh"
PATH=$PATH:/usr/sbin
needs nbd-client
truncate -s 1M "$room/disk.img"
serve "$room/disk.img" 512 1
nbd-client -l 127.0.0.1 "$port" >"$room/list" || fail "nbd-client -l"
cat "$room/list"
expect "exports in the list" "$(sed '/^Negotiation/d;/^$/d' "$room/list")" volume
served 1
