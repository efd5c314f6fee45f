#!/usr/bin/env bash
# The proved library against the second program: every answer, table word, measure and sum. Ends with 'No disagreement.' and status 0, or
# with both answers to the first file on which they differ and status 1.
#   second/run.sh          the long run: at least 200,000 damages, and files of the largest size
#   second/run.sh short    the one of the gate, about a minute
#
# The library is for x86-64, and there it is linked. On another machine second/answer.c is built with it, for x86-64; it runs under
# the kit's emulator and answers over pipes. The long run then compares the same and takes much longer. The short run leaves out three of
# four further calls about each file, and says so. A run that cannot be made ends with a word and status 2.
set -euo pipefail
cd "$(dirname "${BASH_SOURCE[0]}")/.."

case "${1:-long}" in
  short) asked=(--quick) spared=(--sparing) ;;
  long) asked=(--damages 200000 --large) spared=() ;;
  *) echo "usage: second/run.sh [short]" >&2; exit 2 ;;
esac

make -s target/staticlib/libcapi.a
if [ "$(uname -m)" = x86_64 ]; then
  export STRAGUMELLA_LIB=$PWD/target/staticlib
else
  make -s target/host/answer
  asked+=(--through target/host/answer "${spared[@]}")
fi
cargo build -q --release --offline --manifest-path second/Cargo.toml --bin compare
second/target/release/compare "${asked[@]}" --sheets samples --write target/disagreement.dat
