#!/usr/bin/env bash
# The tests of the C side: the tool on the sample sheets, on files made here, and on what is no sheet at all. One
# line a test, a count at the end; the status is not 0 where a test failed. Expected output stands in host/expected.
#
# The answers are the library's, so what is tried here is that the tool hands over the right bytes and buffers,
# prints what it was answered, and ends with the right status.
set -u
cd "$(dirname "${BASH_SOURCE[0]}")/.." || exit 1
. host/testing.sh

make -s tool || exit 1
work=$(mktemp -d)
trap 'rm -rf "$work"' EXIT
machine=$(uname -m)
samples=samples
smallest=$samples/smallest.dat
unstructured=("$samples/unstructured.dat" "$samples/kasumigaura-5440-h1.dat" "$samples/kyushu-4830-h1.dat")
made=target/host/made
most=473595264
version=$(make -s version)

# What is run: the tool, perhaps with something before it. Names as text need the C library's tables of
# CP932; the kit's C library, which machines that are not x86-64 run, has none, so there the lines are left out (host/test_names.c
# tries the conversion on every machine).
run=("$PWD/target/host/stragumella")
names=left-out
if [ "$machine" = x86_64 ]; then
    names=held
fi

# Runs the tool; standard output, standard error and the status are kept.
tool() {
    "${run[@]}" "$@" >"$work/out" 2>"$work/err"
    status=$?
}

# Names as text, where they are left out.
without_names() {
    sed -E -e '/^name_text(_missing)?=/d' -e 's/,"name_text":("[^"]*"|null,"name_text_missing":"[^"]*")//' "$1"
}

# Whether standard output is that file's.
same() {
    if [ $names = held ]; then
        cmp -s "$1" "$work/out"
    else
        [ "$(without_names "$1")" = "$(without_names "$work/out")" ]
    fi
}

# Holds the status to $2 and standard output to the file $3. Standard error has $4 lines; without $4, one with
# status 2, else none.
hold() {
    local lines=${4:-$(($2 / 2))}
    if [ "$status" -ne "$2" ]; then
        fail "$1" "status $status, not $2" "$(head -n 3 "$work/err")"
    elif ! same "$3"; then
        fail "$1" "output unlike $3:" "$(diff "$3" "$work/out" | head -n 6)"
    elif [ "$(wc -l <"$work/err")" -ne "$lines" ]; then
        fail "$1" "standard error has not $lines lines" "$(head -n 3 "$work/err")"
    else
        pass "$1"
    fi
}

# expect NAME STATUS WORD..: the output is host/expected/NAME.
expect() {
    local name=$1 want=$2
    shift 2
    tool "$@"
    hold "$name" "$want" "host/expected/$name"
}

# says NAME STATUS TEXT WORD..: the output is TEXT.
says() {
    local name=$1 want=$2
    printf '%s' "$3" >"$work/text"
    shift 3
    tool "$@"
    hold "$name" "$want" "$work/text"
}

# complains NAME TEXT WORD..: no output, status 2, and TEXT on standard error.
complains() {
    local name=$1 text=$2
    shift 2
    tool "$@"
    if grep -qF -- "$text" "$work/err"; then
        hold "$name" 2 /dev/null
    else
        fail "$name" "standard error without '$text':" "$(head -n 3 "$work/err")"
    fi
}

refused() {
    printf 'status=refused\nnumber=%s\nrecord=%s\ncolumn=%s\n.' "$1" "$2" "$3"
}

# says_refused NAME NUMBER RECORD COLUMN WORD..
says_refused() {
    local name=$1 text
    text=$(refused "$2" "$3" "$4")
    shift 4
    says "$name" 1 "${text%.}" "$@"
}

# ---- the samples, by every command; other builds run these too

# One of each way through the tool.
by_few() {
    expect check-all 1 check $samples/kasumigaura-5440.dat $samples/kyushu-4830.dat $samples/refused-*.dat $smallest
    expect measure-two 1 measure $smallest $samples/refused-16-loop-walked-backwards.dat
    expect sums-smallest 0 sums $smallest
    expect sums-unstructured 0 sums "${unstructured[@]}"
    expect record-1 0 record 1 $smallest
    expect record-taken-out 1 record 26 $made/taken-out
    expect record-behind-the-end 1 record 7 $samples/refused-04-ends-too-early.dat
    expect explain-taken-out 1 explain $made/taken-out
    expect explain-many 1 explain $smallest $samples/refused-*.dat 16
    expect explain-json 1 explain --json $made/taken-out $samples/refused-10-wrong-total.dat $made/stripped
    expect find-line 0 find $samples/kasumigaura-5440.dat 544001 5 line 2
    expect sums-json 1 sums --json $smallest $samples/refused-10-wrong-total.dat
    expect check-many 1 check -j 4 $samples/kasumigaura-5440.dat $samples/kyushu-4830.dat $samples/refused-*.dat $smallest
    expect record-cut 1 record 2 $made/cut
    expect where 0 where 533945 10000 10000
    says_refused "empty file" 1 1 1 check $made/empty
    expect check-smallest 0 check - <$smallest
    complains "directory" "samples: Is a directory" check samples
}

by_samples() {
    by_few
    expect check-smallest 0 check $smallest
    expect check-refused 1 check $samples/refused-10-wrong-total.dat
    expect measure-smallest 0 measure $smallest
    expect measure-kasumigaura 0 measure $samples/kasumigaura-5440.dat
    expect sums-kasumigaura 0 sums $samples/kasumigaura-5440.dat
    expect sums-refused 1 sums $samples/refused-06-areas-under-h1.dat
    for n in 2 3 4 5 6 7; do
        expect record-$n 0 record $n $smallest
    done
    expect record-land 0 record 4 $samples/land-0000.dat
    expect record-land-json 0 record 4 $samples/land-0000.dat --json
    says "land is accepted" 0 $'status=ok\nmeshes=1\nlayers=1\nnodes=1\nlines=1\nareas=1\nrecords=7\n' check $samples/land-0000.dat
    says_refused "land as 00000" 5 4 40 check $made/land-00000
    says_refused "land printed so in layer 1" 5 4 40 check $made/land-layer-1
    by_totals
    by_unstructured
    expect record-late-refusal 0 record 7 $samples/refused-16-loop-walked-backwards.dat
    expect record-by-caller 1 record 1 $smallest N
    expect record-other-letters 1 record 6 $made/letters
    expect record-line-end 1 record 1 $made/line-feeds
    says_refused "a coordinate record taken out" 5 26 1 check $made/taken-out
    says_refused "a small m" 3 1 1 check $made/small-m
    says_refused "a small h" 3 2 1 check $made/small-h
    says_refused "eight points of five" 5 6 1 check $made/eight-points
    expect find-node 0 find $samples/kasumigaura-5440.dat 544001 5 node 1
    expect find-area 0 find $samples/kasumigaura-5440.dat 544001 5 area 2
    says_refused "find in a file without a table" 4 7 1 find $samples/refused-04-ends-too-early.dat 533945 1 line 1
    expect find-late-refusal 0 find $samples/refused-16-loop-walked-backwards.dat 533945 1 area 1
    by_bytes
    by_forms
    expect where-digits 0 where 533945 1 1
    says where-refused 1 $'number=6\n' where 533985 0 0
    says where-negative 1 $'number=6\n' where 533945 -1 0
}

# ---- standard input, several files, what cannot be read

by_inputs() {
    cat $smallest | "${run[@]}" check - >"$work/out" 2>"$work/err"
    status=$?
    hold "check from a pipe" 0 host/expected/check-smallest
    says_refused "empty standard input" 1 1 1 check - </dev/null
    expect check-input-and-file 1 check - $samples/refused-04-ends-too-early.dat <$smallest
    expect record-4 0 record 4 - <$smallest
    tool check <(cat $smallest)
    hold "check of a pipe with a name" 0 host/expected/check-smallest
    complains "missing file" "no-such-file: No such file or directory" check no-such-file
    tool check no-such-file $smallest samples $samples/refused-10-wrong-total.dat
    hold "the others are judged where two cannot be read" 2 host/expected/check-some-missing 2
    "${run[@]}" check $smallest >/dev/full 2>"$work/err"
    status=$?
    : >"$work/out"
    hold "full disk" 2 /dev/null
    no_permission
}

# Root reads every file, so somebody else has to try.
no_permission() {
    local name="file without permission" as=()
    cp $smallest "$work/closed" && chmod 000 "$work/closed" && chmod 755 "$work"
    if [ "$(id -u)" -eq 0 ]; then
        as=(setpriv --reuid=65534 --regid=65534 --clear-groups)
        cp target/host/stragumella* "$work/" && chmod 755 "$work"/stragumella*
    fi
    if ! "${as[@]}" "$work/stragumella" --version >/dev/null 2>&1; then
        skip "$name" "nobody to try it as"
        return
    fi
    "${as[@]}" "$work/stragumella" check "$work/closed" >"$work/out" 2>"$work/err"
    status=$?
    grep -qF 'closed: Permission denied' "$work/err" || status=none
    hold "$name" 2 /dev/null
}

# ---- misuse

by_misuse() {
    complains "no command" "no command"
    complains "no such command" "no such command" judge $smallest
    complains "no file" "no file" check
    complains "no such option" "no such option" check --quick $smallest
    complains "record without a file" "record takes" record 1
    complains "record with a word too many" "record takes" record 1 $smallest M M
    complains "record 0" "whole number from 1" record 0 $smallest
    complains "record x" "whole number from 1" record 1x $smallest
    complains "record past the last" "no record 8, the last one is 7" record 8 $smallest
    complains "record of no kind" "KIND is" record 1 $smallest B
    complains "record past a cut one" "no record 3, the last one is 2" record 3 $made/cut
    complains "find without a number" "find takes" find $smallest 533945 1 line
    complains "find of a thing that there isn't" "find takes" find $smallest 533945 1 point 1
    complains "find with a word too many" "find takes" find $smallest 533945 1 line 1 1
    complains "find in no such layer" "no layer 5 of a mesh 533945" find $smallest 533945 5 line 1
    complains "find of no such line" "no line 2 in layer 1 of mesh 533945, the last one is 1" find $smallest 533945 1 line 2
    complains "find of line 0" "no line 0" find $smallest 533945 1 line 0
    complains "find of an area in an unstructured layer" "no area 1 in layer 1 of mesh 533945, the layer is unstructured (H1)" \
        find "${unstructured[0]}" 533945 1 area 1
    complains "standard input twice" "one - at most" check - - <$smallest
    complains "explain of no refusal's number" "no refusal has that number" explain 23
    complains "two forms" "not two" check --json --quiet $smallest
    complains "no such form" "no such option" check --format=xml $smallest
    complains "-j without a number" "-j takes" check $smallest -j
    complains "-j 0" "-j takes" check -j 0 $smallest
    complains "-j with record" "-j is for" record -j 2 1 $smallest
    complains "where with a word too many" "where takes" where 533945 1 1 1
    complains "where by line" "has nothing to say" where --format=line 533945 1 1
    complains "where without Y" "where takes" where 533945 1
    complains "where with a word" "where takes" where 533945 1 y
    complains "where beyond 32 bits" "where takes" where 533945 1 2147483648
    says "version" 0 "stragumella $version"$'\n' --version
    says "version behind a command" 0 "stragumella $version"$'\n' check -V
    says "version, short" 0 "stragumella $version"$'\n' -V
    expect help 0 --help
    expect help 0 -h
    expect help 0 record --help
    expect help 0 check $smallest -h
}

# ---- files of several hundred megabytes

# Record $1 of sheet S.
record() {
    tail -c +$((($1 - 1) * 74 + 1)) $smallest | head -c 74
}

# A sheet as long as sheets can be, in meshes of 99,999 records: S with a line of 699,951 points, 99,993 times
# round the frame. $1: how many meshes, up to 64.
longest() {
    local meshes=$1 turn q v
    turn=$(printf '%5d%5d' 0 0 0 5000 0 10000 10000 10000 10000 0 5000 0 0 0)
    {
        record 2 | sed 's/    5\(.....\)/99997\1/'
        record 3
        record 4 | sed 's/     5 0  0/699951 0  0/'
        yes "$turn  "$'\r' 2>/dev/null | head -n 99993
        record 6
        record 7
    } >"$work/body"
    for ((q = 0; q < 8; q++)); do
        for ((v = 0; v < 8; v++)); do
            if [ $((q * 8 + v)) -lt "$meshes" ]; then
                record 1 | LC_ALL=C sed "s/533945/5339$q$v/; s/    6  /99998  /"
                cat "$work/body"
            fi
        done
    done
}

by_size() {
    local meshes=64 v
    if [ "$(df -Pk "$work" | awk 'NR == 2 { print $4 }')" -lt 1048576 ]; then
        skip "files of several hundred megabytes" "less than a gigabyte is free for them"
        return
    fi
    head -c 469999974 /dev/zero | tr '\0' ' ' >"$work/big"
    says_refused "470 MB of spaces" 2 1 73 check "$work/big"
    truncate -s 0 "$work/big" && truncate -s $most "$work/big"
    says_refused "as many zeros as a sheet has bytes" 2 1 73 check "$work/big"
    says_refused "a device without an end" 2 1 73 check /dev/zero
    if [ "$machine" != x86_64 ]; then
        meshes=4
    fi
    longest $meshes >"$work/big"
    printf 'status=ok\n' >"$work/counts"
    printf '%s=%d\n' meshes $meshes layers $meshes nodes $meshes lines $meshes areas $meshes \
        records $((meshes * 99999)) >>"$work/counts"
    tool check "$work/big"
    hold "a sheet of $meshes meshes, $(wc -c <"$work/big") bytes, mapped" 0 "$work/counts"
    by_time "$work/big"
    if [ $meshes -eq 64 ]; then
        record 7 >>"$work/big"
        says_refused "a record too many" 1 6399937 1 check "$work/big"
        cp "$work/out" "$work/text"
        cat "$work/big" $smallest 2>/dev/null | "${run[@]}" check - >"$work/out" 2>"$work/err"
        status=$?
        hold "eight records too many, from a pipe" 1 "$work/text"
    fi
    for v in 0 1 2 3; do
        echo "mesh=53390$v layer=1 area=1 code=13101 measure=19998600000000"
    done >"$work/measures"
    longest 4 | "${run[@]}" measure - >"$work/out" 2>"$work/err"
    status=$?
    hold "a sheet of 4 meshes, 29599704 bytes, from a pipe" 0 "$work/measures"
    rm "$work/big" "$work/body"
}

# ---- other builds

by_warnings() {
    local compiler
    for compiler in gcc clang; do
        if ! command -v $compiler >/dev/null; then
            skip "$compiler" "not here"
        elif $compiler -std=c11 -D_POSIX_C_SOURCE=200809L -Wall -Wextra -Wpedantic -Wshadow -Wconversion -Werror \
            -Iinclude -fsyntax-only host/*.c second/answer.c 2>"$work/err"; then
            pass "$compiler has nothing to say"
        else
            fail "$compiler has nothing to say" "$(head -n 5 "$work/err")"
        fi
    done
}

# The library's calls one by one, by a program of their own; perhaps with a word before it.
by_calls() {
    if "$@" >"$work/out" 2>"$work/err"; then
        pass "calls: $(cat "$work/out")"
    else
        fail "calls" "$(cat "$work/out")" "$(head -n 5 "$work/err")"
    fi
}

# Builds for this machine, with the C side's checks. Where it is not x86-64 they are linked with the library's code compiled for it
# (host/native.sh): the checks are of the C side, and names as text are held there too.
by_checked_builds() {
    local held=$names
    if ! make -s own-library 2>"$work/err"; then
        skip "sanitizers, the check of threads, valgrind" "the library cannot be compiled for this machine: $(tail -n 1 "$work/err")"
        return
    fi
    names=held
    # On Arm the check for leaks takes seconds at each program's end; there valgrind, below, looks for them alone.
    [ "$machine" = x86_64 ] || export ASAN_OPTIONS=detect_leaks=0
    if has_check address,undefined; then
        make -s target/host/sanitized target/host/test_api-sanitized || exit 1
        run=("$PWD/target/host/sanitized")
        way="sanitized: "
        by_calls target/host/test_api-sanitized
        by_samples
        by_misuse
        by_names
        by_many
    else
        skip "sanitizers" "the compiler has none, or they do not run here"
    fi
    if has_check thread; then
        make -s target/host/threads || exit 1
        run=("$PWD/target/host/threads")
        way="threads: "
        by_many
    else
        skip "the check of threads" "the compiler has none, or it does not run here"
    fi
    if command -v valgrind >/dev/null; then
        make -s target/host/own target/host/test_api-own || exit 1
        run=(valgrind -q --error-exitcode=99 --leak-check=full "$PWD/target/host/own")
        way="valgrind: "
        by_calls valgrind -q --error-exitcode=99 --leak-check=full target/host/test_api-own
        by_few
    else
        skip "valgrind" "not here"
    fi
    way=
    names=$held
}

# As on a machine that is not x86-64.
by_bare_build() {
    if [ "$machine" != x86_64 ]; then
        return # it is what all the tests above were of
    fi
    if ! command -v clang >/dev/null; then
        skip "bare" "no clang"
        return
    fi
    make -s target/host/bare 2>"$work/err" || cat "$work/err"
    run=("$PWD/target/host/bare")
    names=left-out
    way="bare: "
    by_samples
    names=held
    way=
}

by_other_builds() {
    make -s target/host/test_api || exit 1
    by_calls target/host/test_api
    by_checked_builds
    by_bare_build
}

. host/test_forms.sh
make_files
by_made_samples
by_samples
by_inputs
by_misuse
by_names
by_many
by_size
by_own_programs
by_small_programs
by_readme
by_warnings
by_other_builds
counts host
