#!/usr/bin/env bash
# The tests of the examples: those in C are compiled with the compiler's checks and run, also under valgrind; those in Python are run with
# the package under target/python. Both print the same, and their figures are the tool's. A line a test, a count at the end.
set -u
cd "$(dirname "${BASH_SOURCE[0]}")/.." || exit 1
. host/testing.sh

work=$(mktemp -d)
trap 'rm -rf "$work"' EXIT
smallest=samples/smallest.dat
refused=samples/refused-16-loop-walked-backwards.dat
coasts=(samples/kasumigaura-5440.dat samples/kyushu-4830.dat)
unstructured=(samples/unstructured.dat samples/kasumigaura-5440-h1.dat samples/kyushu-4830-h1.dat)
export PYTHONPATH=$PWD/target/python

# ---- C

# compile FOLDER COMPILER WORD..: all examples, with the library's code for this machine.
compile() {
    local folder=$1 name
    shift
    mkdir -p "$folder"
    for name in line_points area_rings layer_figures; do
        "$@" -Wall -Wextra -Wpedantic -Werror -Iinclude -o "$folder/$name" examples/$name.c examples/sheet.c "$archive" 2>"$work/err" || return 1
    done
}

compiles() {
    if compile "$@"; then
        pass "compiled: ${*:2}"
    else
        fail "compiled: ${*:2}" "$(head -n 5 "$work/err")"
    fi
}

# says NAME STATUS OUTPUT WORD..: what a program prints, and its status.
says() {
    local name=$1 want=$2 text=$3 status
    shift 3
    "$@" >"$work/out" 2>"$work/err"
    status=$?
    if [ $status -eq "$want" ] && [ "$(cat "$work/out")" = "$text" ]; then
        pass "$name"
    else
        fail "$name" "status $status, not $want" "$(head -n 5 "$work/out")" "$(head -n 3 "$work/err")"
    fi
}

# complains NAME STATUS TEXT WORD..: no output, and TEXT on standard error.
complains() {
    local name=$1 text=$3
    says "$name" "$2" "" "${@:4}"
    grep -qF -- "$text" "$work/err" || fail "$name" "standard error without '$text':" "$(head -n 3 "$work/err")"
}

frame='0 0
0 10000
10000 10000
10000 0
0 0'

# by_smallest FOLDER WORD..: perhaps with words before each program.
by_smallest() {
    local folder=$1
    shift
    says "the points of the line of S" 0 "$frame" "$@" "$folder/line_points" $smallest 533945 1 1
    says "the ring of the area of S" 0 "ring 1"$'\n'"$frame" "$@" "$folder/area_rings" $smallest 533945 1 1
    says "the figures of S" 0 "mesh=533945 layer=1 nodes=1 lines=1 areas=1 sum=200000000 outside=200000000
  area=1 code=13101 measure=200000000" "$@" "$folder/layer_figures" $smallest
}

# An unstructured layer: a line as of S, and no area.
by_unstructured() {
    local folder=$1
    shift
    says "the points of a line of an unstructured layer" 0 "$frame" "$@" "$folder/line_points" "${unstructured[0]}" 533945 1 1
    complains "the rings of no area" 2 "no such area" "$@" "$folder/area_rings" "${unstructured[0]}" 533945 1 1
    says "the figures of an unstructured layer" 0 "mesh=533945 layer=1 nodes=1 lines=1 areas=0 sum=0 outside=0" \
        "$@" "$folder/layer_figures" "${unstructured[0]}"
}

by_misuse() {
    local folder=$1
    complains "area 0 is nobody" 2 "no such area" "$folder/area_rings" $smallest 533945 1 0
    complains "no line 2" 2 "no such line" "$folder/line_points" $smallest 533945 1 2
    complains "no layer 5" 2 "no such line" "$folder/line_points" $smallest 533945 5 1
    complains "no number" 2 "no such line" "$folder/line_points" $smallest 533945 1 x
    complains "no file" 2 "No such file" "$folder/layer_figures" no-such-file
    complains "a folder" 2 "directory" "$folder/layer_figures" samples
    complains "no word" 2 "usage" "$folder/layer_figures"
    complains "a refused sheet" 1 "refused: 16 at 7,1" "$folder/layer_figures" $refused
}

# The figures of the coast sheets, and of those with unstructured layers, are the tool's.
by_tool() {
    local file
    for file in "${coasts[@]}" "${unstructured[@]}"; do
        "$1/layer_figures" "$file" >"$work/figures"
        sed -n 's/ nodes=.* sum=\(.*\)/ areas=\1/p' "$work/figures" >"$work/sums"
        sed -n 's/.*measure=//p' "$work/figures" >"$work/measures"
        if [ -s "$work/sums" ] && target/host/stragumella sums "$file" | cmp -s - "$work/sums" &&
            target/host/stragumella measure "$file" | sed 's/.*measure=//' | cmp -s - "$work/measures"; then
            pass "the tool's figures of $file"
        else
            fail "the tool's figures of $file" "$(head -n 2 "$work/sums")"
        fi
    done
}

# ---- Python beside C

# Python and C print the same of every file here, and of every line and area of a sheet with holes.
same() {
    local name=$1
    shift
    if "$folder/$name" "$@" >"$work/c" && python3 "examples/$name.py" "$@" >"$work/python" 2>"$work/err" && cmp -s "$work/c" "$work/python"; then
        return 0
    fi
    fail "Python and C: $name $*" "$(diff "$work/c" "$work/python" | head -n 4)" "$(tail -n 1 "$work/err")"
    return 1
}

# same_things FILE FEWEST: each line and area of the file's layers that have more lines than that.
same_things() {
    local mesh layer lines areas n shown=0
    while read -r mesh layer lines areas; do
        for ((n = 1; n <= lines; n++)); do same line_points "$1" "$mesh" "$layer" $n && shown=$((shown + 1)); done
        for ((n = 1; n <= areas; n++)); do same area_rings "$1" "$mesh" "$layer" $n && shown=$((shown + 1)); done
    done < <("$folder/layer_figures" "$1" | sed -n 's/mesh=\(.*\) layer=\(.*\) nodes=.* lines=\(.*\) areas=\(.*\) sum=.*/\1 \2 \3 \4/p' |
        awk -v fewest="$2" '$3 > fewest')
    if [ $shown -gt 30 ]; then
        pass "Python and C: $shown lines and areas of $1"
    else
        fail "Python and C" "only $shown lines and areas of $1 were compared"
    fi
}

by_python() {
    local folder=$1 file n
    for file in $smallest "${coasts[@]}" "${unstructured[@]}"; do
        same layer_figures "$file" && pass "Python and C: the figures of $file"
    done
    same_things "${coasts[0]}" 3
    same_things "${unstructured[1]}" 2
    for n in 12 13 40; do
        python3 python/tests/made.py $n >"$work/made.dat"
        same area_rings "$work/made.dat" 533945 1 1 && same line_points "$work/made.dat" 533945 1 $((n + 1)) &&
            pass "Python and C: a loop of $n entries, a hole, a line of three records"
    done
    if python3 examples/layer_figures.py $refused >"$work/out" 2>"$work/err"; then
        fail "Python, a refused sheet" "no status"
    elif [ "$(cat "$work/err")" = "$refused: refused: 16 at 7,1: the loop measures 0 or runs the wrong way round" ]; then
        pass "Python, a refused sheet"
    else
        fail "Python, a refused sheet" "$(tail -n 1 "$work/err")"
    fi
}

# The GeoJSON of a sheet: each ring closed, the first counterclockwise and the others clockwise, as many features as areas. geojson FILE AREAS
geojson() {
    if python3 examples/areas_geojson.py "$1" >"$work/geojson" 2>"$work/err" && python3 - "$work/geojson" >"$work/out" 2>"$work/err" <<'END'; then
import json, sys
features = json.load(open(sys.argv[1]))["features"]
for feature in features:
    for i, ring in enumerate(feature["geometry"]["coordinates"]):
        around = sum(a[0] * b[1] - b[0] * a[1] for a, b in zip(ring, ring[1:]))
        assert ring[0] == ring[-1] and len(ring) > 3 and (around > 0) == (i == 0), feature["properties"]
print(len(features), "areas")
END
        says "GeoJSON of $1" 0 "$2" echo "$(cat "$work/out")"
    else
        fail "GeoJSON of $1" "$(tail -n 1 "$work/err")"
    fi
}

by_geojson() {
    geojson "${coasts[1]}" "349 areas"
    geojson "${unstructured[0]}" "0 areas"
    geojson "${unstructured[1]}" "6 areas"
}

# ---- all of it

make -s tool || exit 1
if make -s own-library 2>"$work/err"; then
    archive=target/lib/libstragumella.a
    [ "$(uname -m)" = x86_64 ] || archive=target/native/libstragumella.a
    compiles "$work/plain" cc -std=c11
    by_smallest "$work/plain"
    by_unstructured "$work/plain"
    by_misuse "$work/plain"
    by_tool "$work/plain"
    if has_check address,undefined; then
        way="sanitized: "
        # On Arm the check for leaks takes seconds at each program's end; valgrind, below, looks for them.
        [ "$(uname -m)" = x86_64 ] || export ASAN_OPTIONS=detect_leaks=0
        compiles "$work/sanitized" cc -std=c11 -g -fsanitize=address,undefined -fno-sanitize-recover=all
        by_smallest "$work/sanitized"
        by_unstructured "$work/sanitized"
        by_misuse "$work/sanitized"
        by_tool "$work/sanitized"
        way=
    else
        skip "sanitizers" "the compiler has none, or they do not run here"
    fi
    if command -v valgrind >/dev/null; then
        way="valgrind: "
        by_smallest "$work/plain" valgrind -q --error-exitcode=99 --leak-check=full
        by_unstructured "$work/plain" valgrind -q --error-exitcode=99 --leak-check=full
        way=
    else
        skip "valgrind" "not here"
    fi
    if make -s python 2>"$work/err"; then
        by_python "$work/plain"
        by_geojson
    else
        skip "the examples in Python" "the package cannot be installed here: $(tail -n 1 "$work/err")"
    fi
else
    skip "the examples" "the library cannot be compiled for this machine: $(tail -n 1 "$work/err")"
fi
counts examples
