#!/usr/bin/env bash
# Builds the tool, or second/answer.c, for x86-64 with clang and the kit alone: host/bare.sh TOOL LIBRARY SOURCE..
#
# For machines that are not x86-64. TOOL.x86-64 is the program and TOOL a script that runs it, as host/x86-64/run does but
# wherever the two of them stand: under the kit's emulator where the kit has one, by the kit's loader alone where the
# machine is x86-64.
set -eu

here=$(dirname "$0")/x86-64
tool=$1
library=$2
shift 2

chain=$("$here/toolchain")
emulator=
if [ -x "$chain/bin/qemu-x86_64" ]; then
    emulator="\"$chain/bin/qemu-x86_64\" -cpu qemu64 "
elif [ "$(uname -m)" != x86_64 ]; then
    echo "host/bare.sh: the kit has no emulator for this machine, so nothing for x86-64 can run here" >&2
    exit 1
fi

mkdir -p "$(dirname "$tool")"
"$here/cc" -std=c11 -Wall -Wextra -Wpedantic -Werror -Iinclude -o "$tool.x86-64" "$@" "$library"

cat >"$tool" <<END
#!/bin/sh
exec $emulator"$chain/lib/ld-linux-x86-64.so.2" --library-path "$chain/lib" "\$0.x86-64" "\$@"
END
chmod +x "$tool"
