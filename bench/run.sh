#!/bin/sh
# Runs the benchmarks: bench/run.sh [--quick] [--rounds N] [--only need|judge|sums|reader]
# Builds the proved library first if it isn't there. STRAGUMELLA_LIB may name the folder of another libcapi.a.
# Status 2: the library cannot be linked on this machine, or the arguments are wrong.
set -eu

here=$(CDPATH='' cd -- "$(dirname -- "$0")" && pwd)
root=$(dirname -- "$here")

if [ "$(uname -m)" != x86_64 ]; then
    echo "bench: the proved library is for x86-64 and cannot be linked here; see docs/BENCHMARKS.md" >&2
    exit 2
fi

if [ -z "${STRAGUMELLA_LIB:-}" ]; then
    [ -f "$root/target/staticlib/libcapi.a" ] || make -C "$root" target/staticlib/libcapi.a
    STRAGUMELLA_LIB=$root/target/staticlib
fi
STRAGUMELLA_LIB=$(CDPATH='' cd -- "$STRAGUMELLA_LIB" && pwd)
export STRAGUMELLA_LIB

cd "$here"
cargo build --quiet --release --offline
exec target/release/bench "$@"
