#!/usr/bin/env bash
# Makes the shared library of the archive: packaging/shared.sh SHARED ARCHIVE NAMES LINKER LIBC. Its SONAME is its file's name; of its
# names only stragumella_* are seen from outside, and they bear the version NAMES (include/stragumella.h says what that is for).
# LIBC is a shared C library: all that is needed of it is memcpy and memset.
set -eu

shared=$1
archive=$2
names=$3
linker=$4
libc=$5

mkdir -p "$(dirname "$shared")"
printf '%s { global: stragumella_*; local: *; };\n' "$names" >"$shared.map"
"$linker" -shared -soname "$(basename "$shared")" --version-script="$shared.map" --no-undefined --gc-sections -z now -z relro \
    -z noexecstack -o "$shared" --whole-archive "$archive" --no-whole-archive "$libc"
rm "$shared.map"
