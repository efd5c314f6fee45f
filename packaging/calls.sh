#!/bin/sh
# Prints the names of the library's calls, a line each, from the header: what stands before the bracket of each declaration.
set -eu
sed -n 's/^[a-z].* \**\(stragumella_[a-z_]*\)(.*/\1/p' "$(dirname "$0")/../include/stragumella.h"
