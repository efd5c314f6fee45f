# Further tests of the tool, for host/test.sh: records totals, unstructured layers, files with faults of their bytes, the forms of output, names,
# many files at a time, the programs that try a part of the C side alone, the two small programs, and the README's program.

# ---- files that are made here

make_files() {
    rm -rf $made && mkdir -p $made
    : >$made/empty
    head -c 100 $smallest >$made/cut
    # the Kyushu sample without its 25th record, a coordinate record
    { head -c $((24 * 74)) $samples/kyushu-4830.dat; tail -c +$((25 * 74 + 1)) $samples/kyushu-4830.dat; } >$made/taken-out
    # S with an L where the A is due, with small letters, with eight points
    LC_ALL=C sed 's/^A /L /' $smallest >$made/letters
    LC_ALL=C sed 's/^M /m /' $smallest >$made/small-m
    LC_ALL=C sed 's/^H2/h2/' $smallest >$made/small-h
    LC_ALL=C sed 's/     5 0  0/     8 0  0/' $smallest >$made/eight-points
    # land with a zero too many, and in layer 1
    LC_ALL=C sed '4s/ 0000    1/00000    1/' $samples/land-0000.dat >$made/land-00000
    LC_ALL=C sed '4s/13101    1/ 0000    1/' $smallest >$made/land-layer-1
    # S with records totals that count the H, or the M and the H; an M with an H alone
    with_text $smallest 2 25 '    6' >$made/total-counts-h
    with_text $made/total-counts-h 1 52 '    7' >$made/total-counts-both
    head -c 148 $smallest | LC_ALL=C sed 's/    1    1    1    0    6/    0    0    0    0    1/; s/    1    1    1    0    5/    0    0    0    0    0/' >$made/h-alone
    # S as an unstructured layer: with a code, with an area number, with areas and a field behind them that is ill formed, with a node that
    # lists one end of the line alone; with other letters; with the areas of S
    with_text "${unstructured[0]}" 4 30 88888 >$made/h1-left-code
    with_text "${unstructured[0]}" 4 45 '    1' >$made/h1-right-area
    with_text "${unstructured[0]}" 2 15 '    1   00' >$made/h1-areas
    with_text "${unstructured[0]}" 3 24 ' 1    1    0' >$made/h1-end-not-listed
    with_text "${unstructured[0]}" 2 1 H3 >$made/h3
    with_text "${unstructured[0]}" 2 1 H2 >$made/h2-without-areas
    { cat "${unstructured[0]}"; tail -c 148 $smallest; } >$made/areas-left
    # a code in an unstructured layer behind a structured one, and an area number 0 in a structured layer behind an unstructured one
    with_text "${unstructured[1]}" 36 40 88888 >$made/h1-behind-h2
    with_text "${unstructured[1]}" 11 45 '    0' >$made/h2-behind-h1
    # S as it comes out of a transfer that means well
    tr -d '\r' <$smallest >$made/line-feeds
    LC_ALL=C sed 's/ *\r$/\r/' $smallest >$made/stripped
    { printf '\357\273\277'; cat $smallest; } >$made/marked
    { cat $smallest; printf '\032'; } >$made/ended
    gzip -nc $smallest >$made/packed
    iconv -f CP932 -t UTF-8 $smallest >$made/unicode
}

# with_text FILE RECORD COLUMN TEXT: the file with that text from a column of a record on.
with_text() {
    local before=$((($2 - 1) * 74 + $3 - 1))
    head -c $before "$1"
    printf '%s' "$4"
    tail -c +$((before + ${#4} + 1)) "$1"
}

# ---- records totals

by_totals() {
    expect explain-records-total 1 explain $made/total-counts-h
    says_refused "M's total counts the M, H's the H" 10 1 52 check $made/total-counts-both
    says "an H alone has 0 records" 0 $'status=ok\nmeshes=1\nlayers=1\nnodes=0\nlines=0\nareas=0\nrecords=2\n' check $made/h-alone
}

# ---- unstructured layers

# samples/unstructured.py makes these of others.
by_made_samples() {
    local sheet
    for sheet in "${unstructured[@]}"; do
        if ! command -v python3 >/dev/null; then
            skip "$sheet, as it is made" "no python3"
        elif python3 $samples/unstructured.py "${sheet##*/}" 2>"$work/err" | cmp - "$sheet" >"$work/out" 2>&1; then
            pass "$sheet, as it is made"
        else
            fail "$sheet, as it is made" "$(cat "$work/out" "$work/err")"
        fi
    done
}

by_unstructured() {
    expect check-unstructured 0 check "${unstructured[@]}"
    expect measure-unstructured 0 measure "${unstructured[@]}"
    expect record-h1 0 record 2 "${unstructured[0]}"
    expect record-h1-json 0 record 2 "${unstructured[0]}" --json
    expect record-h1-areas 0 record 2 $samples/refused-06-areas-under-h1.dat
    expect find-unstructured 0 find "${unstructured[1]}" 544002 5 line 2
    expect find-area-behind 0 find "${unstructured[1]}" 544012 5 area 2
    expect explain-unstructured 1 explain $made/h1-*
    expect explain-structured 1 explain $made/h2-*
    expect explain-unstructured-json 1 explain --json $made/h1-left-code
    expect explain-7 0 explain 7
    says_refused "H3" 3 2 1 check $made/h3
    says_refused "H2 where nothing tells of areas" 6 4 30 check $made/h2-without-areas
    says_refused "H1 with its areas left behind it" 3 6 1 check $made/areas-left
    expect record-other-digit 1 record 2 $made/h3
}

# ---- a first look at the bytes

# guesses NAME CAUSE FILE: the first guess is that cause; the page tells it as a guess.
guesses() {
    tool explain --json "$3"
    if [ $status -ne 1 ] || ! grep -q "\"guesses\":\[{\"cause\":\"$2\"" "$work/out"; then
        fail "$1" "status $status, not the cause $2:" "$(cut -c 1-300 "$work/out")"
        return
    fi
    tool explain "$3"
    if [ $status -eq 1 ] && grep -q 'as a guess' "$work/out"; then
        pass "$1"
    else
        fail "$1" "the page has no guess"
    fi
}

by_bytes() {
    guesses "a byte order mark" byte-order-mark $made/marked
    guesses "LF alone" lf-alone $made/line-feeds
    guesses "UTF-8" utf-8 $made/unicode
    guesses "a packed file" packed $made/packed
    guesses "stripped blanks" stripped-blanks $made/stripped
    guesses "an end mark 1A" end-mark $made/ended
    guesses "an empty file" empty $made/empty
    guesses "a cut transfer" cut $made/cut
}

# ---- forms of output

# Each line is one JSON object, and all of them have the key $2.
is_json() {
    if ! command -v python3 >/dev/null; then
        skip "$1" "no python3"
    elif python3 -c 'import json, sys
for line in open(sys.argv[1], "rb"):
    assert sys.argv[2] in json.loads(line.decode("utf-8")), line' "$work/out" "$2" 2>"$work/err"; then
        pass "$1"
    else
        fail "$1" "$(tail -n 1 "$work/err")" "$(cut -c 1-300 "$work/out")"
    fi
}

by_forms() {
    local command
    expect check-json 2 check --json $smallest no-such-file $samples/refused-16-loop-walked-backwards.dat
    expect measure-json 0 --json measure $smallest
    expect record-json 0 record 6 $smallest --json
    expect record-json-refused 1 record 26 $made/taken-out --format=json
    expect find-json 0 find --json $samples/kasumigaura-5440.dat 544001 5 line 2
    expect where-json 0 where --json 533945 10000 10000
    says "where refused, as JSON" 1 $'{"status":"refused","number":6}\n' where --json 533985 0 0
    expect explain-16-json 0 explain --json 16
    for command in check explain measure sums; do
        tool $command --json $samples/*.dat $made/*
        is_json "$command as JSON, of every file here" file
    done
    expect check-line 1 check --format=line $samples/*.dat
    expect measure-line 1 measure --format=line $smallest $samples/refused-16-loop-walked-backwards.dat
    expect sums-line 0 sums --format=line $samples/kasumigaura-5440.dat
    expect record-line 1 record 26 $made/taken-out --format=line
    says "explain as lines" 1 "$samples/refused-10-wrong-total.dat:1:52: 10 the total is not what was counted"$'\n' \
        explain --format=line $smallest $samples/refused-10-wrong-total.dat
    says "quiet, accepted" 0 "" check --quiet $smallest
    says "quiet, refused" 1 "" check -q $samples/refused-*.dat
    says "quiet, a record" 0 "" record -q 1 $smallest
    says "quiet, figures" 0 "" sums -q $samples/kasumigaura-5440.dat
    complains "quiet, missing" "No such file" check -q no-such-file
}

# ---- names that would be taken for something else

by_names() {
    local odd=$'odd\nstatus=ok\033[2J\\' bad=$'bad\377\233name'
    cp $smallest "$work/$odd" && cp $smallest "$work/$bad" && cp $smallest "$work/-7" && : >"$work/empty-here"
    (cd "$work" && "${run[@]}" check "$odd" empty-here) >"$work/out" 2>"$work/err"
    status=$?
    hold "a name with a line feed" 1 host/expected/name-odd
    (cd "$work" && "${run[@]}" check --json "$odd" "$bad") >"$work/out" 2>"$work/err"
    status=$?
    hold "names in JSON" 0 host/expected/name-json
    is_json "names in JSON, read back" file
    (cd "$work" && "${run[@]}" check --format=line "$odd"x) >"$work/out" 2>"$work/err"
    status=$?
    if [ "$(wc -l <"$work/err")" -eq 1 ] && grep -qF 'odd\nstatus=ok\x1B[2J\\x: No such file' "$work/err"; then
        pass "a name with a line feed in a message"
    else
        fail "a name with a line feed in a message" "$(cat "$work/err")"
    fi
    (cd "$work" && "${run[@]}" check -q -- -7) >"$work/out" 2>"$work/err"
    status=$?
    hold "a name behind --" 0 /dev/null
    complains "the same name before it" "no such option" check -7
    rm "$work/$odd" "$work/$bad" "$work/-7"
}

# ---- many files at a time

by_many() {
    local files=($samples/*.dat no-such-file $samples/*.dat $made/empty $made/taken-out $samples/*.dat) way_of
    for way_of in check measure sums explain; do
        "${run[@]}" $way_of "${files[@]}" >"$work/one" 2>"$work/one-err"
        tool $way_of -j 3 "${files[@]}"
        cp "$work/err" "$work/many-err"
        hold "$way_of, three at a time as one by one" 2 "$work/one"
        cmp -s "$work/one-err" "$work/many-err" || fail "messages of $way_of -j 3" "$(cat "$work/many-err")"
    done
    by_progress
}

# On a terminal, which `script` makes: work of over a second tells how far it is, shorter work and work without a terminal don't.
by_progress() {
    local name="progress on a terminal"
    if ! command -v script >/dev/null; then
        skip "$name" "no program to make a terminal"
        return
    fi
    script -qec "(sleep 2; cat $smallest) | ${run[*]} check - $smallest" /dev/null </dev/null >"$work/out" 2>&1
    if grep -qa 'stragumella: 0 of 2 files, [12] s' "$work/out" && grep -qa 'records=7' "$work/out"; then
        pass "$name"
    else
        fail "$name" "$(head -c 300 "$work/out")"
    fi
    script -qec "${run[*]} check $smallest" /dev/null </dev/null >"$work/out" 2>&1
    if grep -qa ' s' "$work/out"; then
        fail "no progress of short work" "$(head -c 300 "$work/out")"
    else
        pass "no progress of short work"
    fi
    (sleep 2; cat $smallest) | "${run[@]}" check - >"$work/out" 2>"$work/err"
    status=$?
    hold "no progress without a terminal" 0 host/expected/check-smallest
}

# Seconds that a command takes, the least of three.
least_seconds() {
    local least=999999 start end
    for _ in 1 2 3; do
        start=$(date +%s%N)
        "${run[@]}" "$@" >/dev/null 2>&1
        end=$(date +%s%N)
        [ $(((end - start) / 1000000)) -lt $least ] && least=$(((end - start) / 1000000))
    done
    echo $least
}

# The sums of a file of many layers take no longer than twice its check.
by_time() {
    local check sums
    check=$(least_seconds check "$1")
    sums=$(least_seconds sums "$1")
    if [ "$sums" -le $((2 * check)) ]; then
        pass "sums take $sums ms, check $check ms"
    else
        fail "sums take longer than twice check" "sums $sums ms, check $check ms"
    fi
}

# ---- parts of the C side, each with a program of its own that needs no library: on every machine, with the compiler's checks

by_own_programs() {
    local name sanitize=
    if has_check address,undefined; then
        sanitize="-g -fsanitize=address,undefined -fno-sanitize-recover=all"
    fi
    for name in "look: host/look.c" "names: host/names.c" "layout: host/layout.c"; do
        # shellcheck disable=SC2086
        if cc -std=c11 -D_POSIX_C_SOURCE=200809L -Wall -Wextra -Werror $sanitize -o "$work/program" "host/test_${name%%:*}.c" ${name#*:} 2>"$work/err" &&
            "$work/program" >"$work/out" 2>"$work/err"; then
            pass "${name%%:*}: $(cat "$work/out")"
        else
            fail "${name%%:*}" "$(cat "$work/out")" "$(head -n 5 "$work/err")"
        fi
    done
}

# ---- the two small programs, where `rt ci` or `rt run` has built them: they print what the tool prints, and tell what they cannot read or write

# small PROGRAM: runs it.
small() {
    host/x86-64/run "crates/$1/out/$1"
}

# Standard error is that line.
told() {
    if [ "$(cat "$work/err")" = "$2" ]; then
        pass "$1"
    else
        fail "$1" "$(head -n 3 "$work/err")"
    fi
}

by_small_programs() {
    local name sheet
    for name in check measure; do
        if [ ! -x crates/${name}_sheet/out/${name}_sheet ]; then
            skip "the program $name" "rt run in crates/${name}_sheet builds it"
            continue
        fi
        small ${name}_sheet <$smallest >"$work/out" 2>"$work/err"
        status=$?
        hold "the program $name" 0 host/expected/$name-smallest
        for sheet in "${unstructured[@]}" $samples/refused-06-areas-under-h1.dat; do
            "${run[@]}" $name "$sheet" >"$work/text" 2>"$work/err"
            small ${name}_sheet <"$sheet" >"$work/out" 2>"$work/err"
            status=$?
            hold "the program $name on $sheet" 0 "$work/text"
        done
        small ${name}_sheet <$smallest >/dev/full 2>"$work/err"
        told "the program $name on a full disk" "$name: standard output: not everything could be written: No space left on device"
        small ${name}_sheet <samples >"$work/out" 2>"$work/err"
        told "the program $name on a directory" "$name: standard input: not everything could be read: Is a directory"
    done
}

# ---- the README's program: it compiles as C and as C++ by the lines that stand beside it, and runs; where the machine is not x86-64 by the
# compiler that host/x86-64 has

by_readme() {
    local compiler line elsewhere=
    [ "$machine" = x86_64 ] || elsewhere=yes
    sed -n '/^```c$/,/^```$/p' README.md | sed '/^```/d' >"$work/judge.c"
    for compiler in "cc -std=c11" "c++ -std=c++11 -x c++"; do
        if $compiler -Wall -Wextra -Wpedantic -Werror -Iinclude -fsyntax-only "$work/judge.c" 2>"$work/err"; then
            pass "README's program, ${compiler%% *}"
        else
            fail "README's program, ${compiler%% *}" "$(head -n 5 "$work/err")"
        fi
    done
    for line in cc c++; do
        line=$(sed -n "s/^    \($line .*judge\.c.*\)/\1/p" README.md | head -n 1)
        line=${line//judge.c/$work/judge.c}
        if ${elsewhere:+host/x86-64/}$line -o "$work/judge" 2>"$work/err" && ${elsewhere:+host/x86-64/run} "$work/judge" <$smallest >"$work/out" 2>"$work/err" &&
            [ "$(cat "$work/out")" = "number 0 at 0,0; 1 areas" ]; then
            pass "README: ${line%% *}"
        else
            fail "README: ${line%% *}" "$(cat "$work/out")" "$(head -n 5 "$work/err")"
        fi
    done
}
