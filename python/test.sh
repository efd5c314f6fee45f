#!/usr/bin/env bash
# The tests of the Python package, as pip installs it, without a network: python/tests with every Python that is here, the types by mypy,
# and the backend that makes the wheel. A line a test, a count at the end.
set -u
cd "$(dirname "${BASH_SOURCE[0]}")/.." || exit 1
. host/testing.sh

work=$(mktemp -d)
trap 'rm -rf "$work"' EXIT
site=$work/site

# Where the system lets us, the command runs with no network at all; else pip is told to ask none.
alone=()
no_network() {
    if unshare -rn true 2>/dev/null; then
        alone=(unshare -rn)
    else
        export PIP_NO_INDEX=1
    fi
}

# Installs by the command that the README gives, but into a folder of its own.
install() {
    if "${alone[@]}" python3 -m pip install --target "$site" ./python >"$work/out" 2>"$work/err"; then
        pass "pip install ./python, ${alone[*]:-no index}"
    else
        fail "pip install ./python" "$(tail -n 5 "$work/err")"
        counts python
        exit 1
    fi
}

# What is installed: the package, its library and nothing else; nothing was left in the project's folder.
by_files() {
    local major
    major=$(make -s version | cut -d . -f 1)
    (cd "$site/stragumella" && find . -type f -not -name '*.pyc' | sort) >"$work/files"
    { printf './%s\n' __init__.py _facts.py _library.py "libstragumella.so.$major" py.typed records.py refused.py sheet.py; } | sort >"$work/expected"
    if cmp -s "$work/files" "$work/expected"; then
        pass "what is installed"
    else
        fail "what is installed" "$(diff "$work/expected" "$work/files")"
    fi
    if [ -e python/build ] || [ -n "$(find python -name '*.egg-info')" ]; then
        fail "the project's folder is left as it was" "$(ls python)"
    else
        pass "the project's folder is left as it was"
    fi
}

# The same wheel of the same files, and a word where the library is missing.
by_wheel() {
    local n
    for n in 1 2; do
        mkdir -p "$work/wheel$n"
        "${alone[@]}" python3 -m pip wheel --quiet --wheel-dir "$work/wheel$n" ./python 2>"$work/err" || break
        sleep 1
    done
    if cmp -s "$work"/wheel1/*.whl "$work"/wheel2/*.whl; then
        pass "the same wheel twice"
    else
        fail "the same wheel twice" "$(tail -n 3 "$work/err")"
    fi
    if STRAGUMELLA_LIBRARY=no-such-library python3 -m pip wheel --quiet --wheel-dir "$work/wheel1" ./python >"$work/out" 2>&1; then
        fail "a wheel without the library"
    elif grep -q 'no no-such-library; build it with `make' "$work/out"; then
        pass "a wheel without the library is not made"
    else
        fail "a wheel without the library" "$(tail -n 3 "$work/out")"
    fi
}

has_numpy() {
    "$1" -c 'import numpy' 2>/dev/null
}

# Every Python once, though it may have several names.
pythons() {
    local name
    for name in python3 /usr/bin/python3; do
        if command -v "$name" >/dev/null; then
            "$name" -c 'import os, sys; print(os.path.realpath(sys.executable))'
        fi
    done | sort -u
}

by_pythons() {
    local python arrays=no known
    for python in $(pythons); do
        known="Python $("$python" -c 'import platform; print(platform.python_version())')"
        if has_numpy "$python"; then
            known="$known with numpy"
            arrays=yes
        fi
        if PYTHONPATH=$site "$python" -W error -m unittest discover -s python/tests >"$work/out" 2>&1; then
            pass "$known: $(sed -n 's/^Ran \(.*\) in .*/\1/p' "$work/out")"
        else
            fail "$known" "$(tail -n 25 "$work/out")"
        fi
    done
    [ $arrays = yes ] || skip "arrays" "no Python here has numpy"
}

by_types() {
    if command -v mypy >/dev/null; then
        if MYPYPATH=$site mypy --strict --ignore-missing-imports --cache-dir "$work/types" "$site/stragumella" python/backend.py >"$work/out" 2>&1 &&
            MYPYPATH=$site mypy --strict --ignore-missing-imports --cache-dir "$work/types" --scripts-are-modules examples/*.py >>"$work/out" 2>&1; then
            pass "types: $(tail -n 1 "$work/out")"
        else
            fail "types" "$(head -n 10 "$work/out")"
        fi
    else
        skip "types" "no mypy"
    fi
}

make -s tool || exit 1
if ! python3 -m pip --version >/dev/null 2>&1; then
    skip "the Python package" "no pip"
elif make -s own-library 2>"$work/err"; then
    no_network
    install
    by_files
    by_wheel
    by_pythons
    by_types
else
    skip "the Python package" "the library cannot be compiled for this machine: $(tail -n 1 "$work/err")"
fi
counts python
