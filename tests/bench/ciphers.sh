#!/usr/bin/env bash
# Times the ciphers of sectors beside OpenSSL's, in turn, in short bursts in one run: OpenSSL with
# AES instructions masked (bit planes by SSSE3), without SSSE3 besides (tables), and with all. It
# prints MiB a second, the best burst of each: 32 KiB at a time in one thread, and a MiB in one part
# and in PARTS. OpenSSL's CBC has the IV given, ours makes it. TURNS (5), BURSTS (40) and PARTS (4)
# may be set; other builds of bench, named in OTHERS, are timed in the same turns. Build
# bench first: `make bench`.
set -u
here=$(cd "$(dirname "${BASH_SOURCE[0]}")" && pwd)
ours=${BENCH:-$here/../../crates/bench/out/bench}
turns=${TURNS:-5} bursts=${BURSTS:-40} parts=${PARTS:-4}
for tool in gcc python3; do
    command -v "$tool" >/dev/null || { echo "skipped: there is no $tool"; exit 77; }
done
[ -x "$ours" ] || { echo "skipped: bench is not built"; exit 77; }
room=$(mktemp -d)
trap 'rm -rf "$room"' EXIT
gcc -O2 -o "$room/openssl_bursts" "$here/openssl_bursts.c" -lcrypto 2>"$room/gcc" ||
    { echo "skipped: OpenSSL's headers are not there (libssl-dev)"; exit 77; }

for _ in $(seq "$turns"); do
    "$ours" ciphers "$bursts" "$parts" >>"$room/ours" || exit 1
    for other in ${OTHERS:-}; do
        "$other" ciphers "$bursts" >>"$room/$(basename "$other")" || exit 1
    done
    # bit 57 is AES, bit 33 carry-less multiplication, bit 41 SSSE3, bit 60 AVX; the second word's
    # bits 41 and 42 are the vector forms of the first two
    OPENSSL_ia32cap='~0x1200000200000000:~0x0000060000000000' "$room/openssl_bursts" "$bursts" >>"$room/masked" || exit 1
    OPENSSL_ia32cap='~0x1200020200000000:~0x0000060000000000' "$room/openssl_bursts" "$bursts" >>"$room/tables" || exit 1
    "$room/openssl_bursts" "$bursts" >>"$room/all" || exit 1
done

python3 - "$room" ${OTHERS:-} <<'END'
import os, sys

# the best of each row in a file: cipher, key, sector, bytes, parts
def best(name):
    rates = {}
    for line in open(f"{sys.argv[1]}/{name}"):
        *row, seal, unseal = line.replace("(MiB/s)", "").split()
        if seal.isdigit():
            old = rates.get(tuple(row), (0, 0))
            rates[tuple(row)] = (max(old[0], int(seal)), max(old[1], int(unseal)))
    return rates

others = [os.path.basename(path) for path in sys.argv[2:]]
columns = ["ours", *others, "masked", "tables", "all"]
rates = {name: best(name) for name in columns}
print(f"{'cipher':21}{'key':>4}{'sector':>7}{'bytes':>8}{'parts':>6}",
      *(f"{name:>12}" for name in columns), "   ours to masked")
for row, ours in rates["ours"].items():
    cells = [rates[name].get(row) for name in columns]
    line = "{:21}{:>4}{:>7}{:>8}{:>6}".format(*row)
    line += "".join(f" {c[0]:>6}{c[1]:>6}" if c else " " * 13 for c in cells)
    masked = rates["masked"].get(row)
    print(line + (f"    {ours[0] / masked[0]:.2f} {ours[1] / masked[1]:.2f}" if masked else ""))
END
