# What the tests of the outside share: a line a test, a count at the end. host/test.sh, packaging/test.sh, examples/test.sh
# and python/test.sh source it.

passed=0
failed=0
skipped=0
way= # a word before a test's name: which build it is of

pass() {
    passed=$((passed + 1))
    echo "ok      $way$1"
}

# fail NAME LINE..: what is wrong, in lines.
fail() {
    failed=$((failed + 1))
    echo "FAILED  $way$1"
    shift
    printf '        %s\n' "$@"
}

# skip NAME WHY: what could not be run here.
skip() {
    skipped=$((skipped + 1))
    echo "skipped $way$1: $2"
}

# counts NAME: the last line; the status is not 0 where a test failed.
counts() {
    echo "$1: $passed passed, $failed failed, $skipped skipped"
    [ $failed -eq 0 ]
}

# has_check CHECK: whether the compiler has it, and what it makes runs here. $work is a folder for what is made.
has_check() {
    echo 'int main(void) { return 0; }' | cc -fsanitize="$1" -x c -o "$work/probe" - 2>/dev/null && "$work/probe" 2>/dev/null
}
