#!/usr/bin/env bash
# What the gate costs from nothing: processor minutes, the clock, the first proof, the longest chain of
# proofs, and a table by crate. `rt ci --anew` takes nothing that earlier runs kept; what it passes is
# kept as ever. Nothing else should prove beside it. RT_JOBS is heeded, as by `rt ci`; names of crates
# time those alone. The whole takes an hour or more.
set -u
cd "$(dirname "$0")/../.." || exit 1
exec python3 tests/bench/gate.py "$@"
