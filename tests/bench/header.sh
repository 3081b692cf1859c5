#!/usr/bin/env bash
# Times reading and judging the JSON text of a header by a script of rows: a valid one of
# 12 KiB, a thousand times, and hostile ones that fill 4 MiB, of which each must come to its outcome in
# less than two seconds of a processor. Prints the milliseconds and the most memory of each.
# ROWS, the program, may be set.
set -u
here=$(cd "$(dirname "$0")" && pwd)
rows=${ROWS:-$here/../../crates/rows/out/rows}
folder=$(mktemp -d)
trap 'rm -rf "$folder"' EXIT

# Ends the script as failed.
fail() {
    echo "failed: $*"
    exit 1
}

[ -x "$rows" ] || fail "there is no program $rows: rt run in crates/rows builds it"
rows=$(realpath "$rows")
python3 "$here/header_texts.py" "$folder" >"$folder/names" || fail "the texts"
while read -r name times; do
    cd "$folder/$name" || fail "$name"
    # a text that has a fault ends the program, which says it
    /usr/bin/time -q -f '%U %S %M' -o took "$rows" texts.rows >told 2>&1
    [ "$(grep -cF -- "$(cat wanted)" told)" = "$times" ] || fail "$name: $(tail -n 1 told | cut -c1-200)"
    awk -v name="$name" -v times="$times" '{
        printf "%s: %.2f ms, %d MiB\n", name, ($1 + $2) * 1000 / times, $3 / 1024
        exit $1 + $2 >= 2 * times
    }' took || fail "$name takes two seconds or more"
done <"$folder/names"
