#!/usr/bin/env bash
# Times the cell beside a mutex around the same machine: turns a second with one, two and four threads,
# in one run. Then two threads ask a cell whose machine sleeps a millisecond at each turn. Both must
# finish, and the program must use less than a fifth of a processor while they wait. TURNS (10000000) of
# each thread, SLEEPS (2000) of each thread and BENCH, the program, may be set.
set -u
bench=${BENCH:-$(cd "$(dirname "$0")/../.." && pwd)/crates/bench/out/bench}
sleeps=${SLEEPS:-2000}
seen=$(mktemp)
trap 'rm -f "$seen"' EXIT

# Ends the script as failed.
fail() {
    echo "failed: $*"
    exit 1
}

[ -x "$bench" ] || fail "there is no program $bench: rt run in crates/bench builds it"
"$bench" cell "${TURNS:-10000000}" || fail "status $? of the turns"

# seconds that passed, and those of a processor in the program and in the system
TIMEFORMAT='%R %U %S'
took=$({ time "$bench" cell sleep "$sleeps" >"$seen" 2>&1; } 2>&1) || fail "the sleepers: $(cat "$seen")"
grep -q "^two threads slept $sleeps times each" "$seen" || fail "the sleepers: $(cat "$seen")"
cat "$seen"
echo "$took" | awk -v sleeps="$sleeps" '{
    printf "of a processor while they wait: %.3f\n", ($2 + $3) / $1
    if ($1 < 2 * sleeps / 1000) { print "failed: two turns slept at once"; exit 1 }
    if (($2 + $3) * 5 >= $1) { print "failed: that is a fifth or more"; exit 1 }
}'
