#!/usr/bin/env bash
# Builds the library for this machine where it is an Arm one: host/native.sh ARCHIVE. For tests alone: what needs a library that is
# loaded into a program of this machine (the compiler's checks, valgrind, Python) runs with it. The product is for x86-64.
#
# The code is that of the proved crates, and `rt` proves capi once more on the way; but the compiler makes Arm code of it, which
# nobody promises.
set -eu

archive=$1
if [ "$(uname -m)" != aarch64 ]; then
    echo "host/native.sh: for Arm machines alone" >&2
    exit 1
fi

mkdir -p "$(dirname "$archive")"
(cd crates/capi && rt lib --target aarch64-unknown-linux-gnu) >"$archive.log" 2>&1 || { tail -n 5 "$archive.log" >&2; exit 1; }
cp crates/capi/out/libcapi.a "$archive"
