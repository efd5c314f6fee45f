#!/usr/bin/env bash
# The tests of what `make install` installs: the files, the library's names, the version, programs that are compiled by pkg-config alone,
# the manual pages, the completions, and `make uninstall`. One line a test, a count at the end; the status is not 0 where a test failed.
#
# All of it goes into a folder that is made here and taken away again. Nothing needs root or a network.
set -u
cd "$(dirname "${BASH_SOURCE[0]}")/.." || exit 1
. host/testing.sh
export LC_ALL=C
# What a make around this one was told is not meant for these, and no other pkg-config file is to be found.
unset MAKEFLAGS DESTDIR PKG_CONFIG_PATH PKG_CONFIG_SYSROOT_DIR

make -s tool library man || exit 1
work=$(mktemp -d)
trap 'rm -rf "$work"' EXIT
chmod 755 "$work" # man, called by root, reads as somebody else
machine=$(uname -m)
header=include/stragumella.h
smallest=samples/smallest.dat
version=$(make -s version)
major=${version%%.*}
names=STRAGUMELLA_${version%.*}
shared=libstragumella.so.$major
folder=$work/plain
export PKG_CONFIG_LIBDIR=$folder/lib/pkgconfig

# How programs for x86-64 are compiled and run on this machine.
if [ "$machine" = x86_64 ]; then
    compilers=
    start=()
else
    compilers=host/x86-64/
    start=(host/x86-64/run)
fi

# same NAME WANTED FOUND: two texts are the same.
same() {
    if [ "$2" = "$3" ]; then
        pass "$1"
    else
        fail "$1" "wanted (<) and found (>):" "$(diff <(echo "$2") <(echo "$3") | head -n 12)"
    fi
}

# holds NAME COMMAND..: the command ends with status 0.
holds() {
    local name=$1
    shift
    if "$@" >"$work/out" 2>&1; then
        pass "$name"
    else
        fail "$name" "$(head -n 6 "$work/out")"
    fi
}

# here NAME COMMAND..: whether the machine has each of these commands; else the test NAME is skipped.
here() {
    local name=$1 command
    shift
    for command; do
        if ! command -v "$command" >/dev/null; then
            skip "$name" "no $command"
            return 1
        fi
    done
}

# ---- the header, read by the compiler and not by the scripts that are tried here

# The header's declarations without comments, a line each, a blank between any two signs.
declared() {
    sed '/^#include/d' $header | cc -E -P -x c - | one_each
}

one_each() {
    sed 's/[^A-Za-z0-9_]/ & /g' | tr -s ' \t\n' ' ' | sed 's/; \([a-z]* stragumella_\|typedef\)/;\n\1/g; s/^ //; s/ *$//'
}

declared_calls() {
    declared | grep -o 'stragumella_[a-z_]* (' | tr -d ' (' | sort
}

# The numbers of its table of refusals.
refusal_numbers() {
    sed -n '/^ \*   No\. Stage/,/^ \*$/p' $header | grep -oE '^ \* +[0-9]+  ' | grep -oE '[0-9]+'
}

# ---- files

# All that stands in a folder: mode, kind, name, and where a link leads.
listing() {
    (cd "$1" && find . -mindepth 1 -printf '%m %y %P %l\n' | sed 's/ $//' | sort -k 3)
}

# What an installation is, to the last file.
wanted_listing() {
    local call
    {
        printf '755 d %s\n' bin include lib lib/pkgconfig share share/bash-completion share/bash-completion/completions share/doc \
            share/doc/stragumella share/man share/man/man1 share/man/man3 share/zsh share/zsh/site-functions
        printf '755 f %s\n' bin/stragumella "lib/$shared"
        [ "$machine" = x86_64 ] || echo '755 f bin/stragumella.x86-64'
        echo "777 l lib/libstragumella.so $shared"
        printf '644 f %s\n' include/stragumella.h lib/libstragumella.a lib/pkgconfig/stragumella.pc \
            lib/pkgconfig/stragumella-static.pc share/bash-completion/completions/stragumella share/doc/stragumella/LICENSE \
            share/man/man1/stragumella.1 share/man/man3/stragumella.3 share/zsh/site-functions/_stragumella
        for call in $(declared_calls); do
            echo "644 f share/man/man3/$call.3"
        done
    } | sort -k 3
}

# install NAME UMASK VARIABLE=..: make install with them.
install() {
    local name=$1 mask=$2
    shift 2
    if ! (umask "$mask" && make -s install "$@") >"$work/out" 2>&1; then
        fail "$name" "$(head -n 6 "$work/out")"
    fi
}

by_files() {
    local wanted
    wanted=$(wanted_listing)
    same "install runs its script and nothing else" "packaging/install.sh install" "$(make -n install | sed '1s/.* packaging/packaging/')"
    install "install" 077 PREFIX="$folder"
    same "the files and their modes, with a umask of 077" "$wanted" "$(listing "$folder")"
    install "install once more" 000 PREFIX="$folder"
    same "the files and their modes, installed twice, with a umask of 000" "$wanted" "$(listing "$folder")"
    holds "what is installed is what was built" built_is_installed
    same "the tool runs, found by the path" "status=ok" "$(PATH=$folder/bin:$PATH && stragumella check $smallest 2>&1 | head -n 1)"
    install "install in parts" 022 PREFIX="$work/parts" LIBDIR="$work/parts/lib64" MANDIR="$work/pages" BINDIR="$work/programs"
    same "places of their own" "$(find "$folder" -type f | wc -l)" \
        "$(find "$work/parts/lib64" "$work/parts/include" "$work/parts/share" "$work/pages/man"[13] "$work/programs" -type f | wc -l)"
    same "pkg-config file: a place of its own" "libdir=\${prefix}/lib64" "$(grep ^libdir "$work/parts/lib64/pkgconfig/stragumella.pc")"
}

built_is_installed() {
    cmp target/host/stragumella "$folder/bin/stragumella" && cmp "target/lib/$shared" "$folder/lib/$shared" &&
        cmp target/lib/libstragumella.a "$folder/lib/libstragumella.a" && cmp $header "$folder/include/stragumella.h" &&
        cmp LICENSE "$folder/share/doc/stragumella/LICENSE"
}

# A package is put together below DESTDIR; its files know nothing of that.
by_staging() {
    local stage="$work/the stage" prefix="/srv/somewhere else"
    install "install below DESTDIR" 022 DESTDIR="$stage" PREFIX="$prefix"
    same "DESTDIR: the files and their modes" "$(wanted_listing)" "$(listing "$stage$prefix")"
    same "DESTDIR: nothing beside them" "$stage/srv $stage$prefix" "$(echo "$stage"/* "$stage"/srv/*)"
    same "DESTDIR: stands in no file" "" "$(grep -rlF "$stage" "$stage")"
    same "DESTDIR: the pkg-config files say the prefix" "prefix=$prefix prefix=$prefix" \
        "$(cat "$stage$prefix"/lib/pkgconfig/*.pc | grep ^prefix= | tr '\n' ' ' | sed 's/ $//')"
    holds "DESTDIR: uninstall" make -s uninstall DESTDIR="$stage" PREFIX="$prefix"
    same "DESTDIR: uninstall leaves no file" "" "$(find "$stage" -not -type d)"
    install "install with an empty prefix" 022 DESTDIR="$work/root" PREFIX=
    same "an empty prefix: the files and their modes" "$(wanted_listing)" "$(listing "$work/root")"
}

by_refused_places() {
    local place
    for place in relative '/a"quote' '/a#mark'; do
        # shellcheck disable=SC2016
        holds "PREFIX $place is refused, and nothing is written" sh -c \
            '! make -s install DESTDIR="$1" PREFIX="$2" 2>&1 && [ ! -e "$1" ]' sh "$work/nothing" "$place"
    done
}

by_uninstall() {
    local strangers="bin/other lib/libstragumella.so.99 lib/pkgconfig/other.pc share/doc/stragumella/NOTES share/man/man3/other.3" file
    for file in $strangers; do
        echo "somebody else's" >"$folder/$file"
    done
    holds "uninstall" make -s uninstall PREFIX="$folder"
    same "uninstall leaves what is somebody else's, and that alone" "$strangers" \
        "$(cd "$folder" && find . -not -type d | sed 's,^\./,,' | sort | tr '\n' ' ' | sed 's/ $//')"
    rm "$folder/share/doc/stragumella/NOTES"
    holds "uninstall where nothing is installed" make -s uninstall PREFIX="$folder"
    same "uninstall takes away the folder that is ours alone" "doc" "$(cd "$folder/share" && find doc)"
}

# ---- the shared library

# dynamic FILE TAG: what the file says there, NEEDED or SONAME.
dynamic() {
    readelf -dW "$1" | sed -n "s/.*($2).*\[\(.*\)\]/\1/p"
}

by_names() {
    local library=$folder/lib/$shared
    here "the shared library's names" readelf || return
    same "SONAME" "$shared" "$(dynamic "$library" SONAME)"
    same "needed libraries" libc.so.6 "$(dynamic "$library" NEEDED)"
    same "exported: the header's calls and nothing else, with the version" "$(declared_calls | sed "s/\$/@@$names/")" \
        "$(readelf --dyn-syms -W "$library" | awk '$5 ~ /GLOBAL|WEAK|UNIQUE/ && $7 != "UND" { print $8 }' | sort)"
    same "asked of others: memcpy and memset" "memcpy memset" \
        "$(readelf --dyn-syms -W "$library" | awk '$7 == "UND" && $8 != "" { sub(/@.*/, "", $8); print $8 }' | sort | xargs)"
}

# ---- the version

# The version that a manual page bears.
page_version() {
    sed -n 's/^\.TH .* "stragumella \([^"]*\)" .*/\1/p' "$1"
}

by_version() {
    local page module
    same "version: the tool" "stragumella $version" "$("$folder/bin/stragumella" --version)"
    for page in man1/stragumella.1 man3/stragumella.3; do
        same "version: $page" "$version" "$(page_version "$folder/share/man/$page")"
        same "$page has no place left to fill" "" "$(grep -n '@[A-Z]*@' "$folder/share/man/$page")"
    done
    if here "version: pkg-config" pkg-config; then
        for module in stragumella stragumella-static; do
            same "version: $module.pc" "$version" "$(pkg-config --modversion $module)"
            holds "pkg-config finds no fault with $module.pc" pkg-config --validate $module
        done
    fi
}

# The header with another version, and nothing else changed: everything that is installed follows. What would have to be compiled is empty.
by_next_version() {
    local next=$work/next
    mkdir -p "$next/crates" "$next/target/host" "$next/target/lib" "$next/host" "$next/include"
    cp -r Makefile LICENSE packaging "$next/" && cp host/stragumella.1 "$next/host/"
    sed 's/\(VERSION_MAJOR\) .*/\1 7/; s/\(VERSION_MINOR\) .*/\1 8/; s/\(VERSION_PATCH\) .*/\1 9/' $header >"$next/$header"
    touch "$next/target/host/stragumella" "$next/target/host/stragumella.x86-64" "$next/target/lib/libstragumella."{a,so.7}
    (cd "$next" && make -s install -o tool -o library PREFIX="$next/there") >"$work/out" 2>&1
    same "the next version, from the header alone" "7.8.9 7.8.9 7.8.9 7.8.9 libstragumella.so.7" "$({
        page_version "$next/there/share/man/man1/stragumella.1"
        page_version "$next/there/share/man/man3/stragumella.3"
        cat "$next/there/lib/pkgconfig/"*.pc | sed -n 's/^Version: //p'
        readlink "$next/there/lib/libstragumella.so"
    } | xargs)"
}

# ---- programs

# build NAME LANGUAGE MODULE PROGRAM SOURCE..: compiles by pkg-config's words alone. They come quoted for the shell, as in a makefile.
build() {
    local name=$1 language=$2 module=$3 program=$4 words compiler
    shift 4
    case $language in
    C) compiler="${compilers}cc -std=c11" ;;
    C++) compiler="${compilers}c++ -std=c++11 -x c++" ;;
    esac
    words="-x none $(pkg-config --cflags --libs "$module" 2>&1)"
    if ! eval "$compiler -Wall -Werror -MD -MF \"\$work/read\" -o \"\$program\" \"\$@\" $words" 2>"$work/err"; then
        fail "$name" "$(head -n 5 "$work/err")"
        return 1
    fi
}

# run PROGRAM WORD..: runs it with what was installed. run_with FOLDER PROGRAM WORD..: with the shared library that stands in a folder.
run() {
    run_with "$folder/lib" "$@"
}

run_with() {
    LD_LIBRARY_PATH=$1 "${start[@]}" "${@:2}" 2>&1
}

# The README's program, and an example of two files. As C++ too: the header is for both.
by_programs() {
    local language module program name
    here "programs by pkg-config" pkg-config || return
    [ "$machine" = x86_64 ] || here "programs by pkg-config" clang || return
    # shellcheck disable=SC2016
    sed -n '/^```c$/,/^```$/p' README.md | sed '/^```/d' >"$work/judge.c"
    for language in C C++; do
        if [ "$language" = C++ ] && [ "$machine" = x86_64 ]; then
            here "programs in C++" c++ || continue
        fi
        for module in stragumella stragumella-static; do
            name="$language, $module"
            program=$work/judge-$language-$module
            build "$name: README's program" "$language" $module "$program" "$work/judge.c" || continue
            same "$name: README's program" "number 0 at 0,0; 1 areas" "$(run "$program" <$smallest)"
            holds "$name: the header is the installed one" grep -qF "$folder/include/stragumella.h" "$work/read"
            needs_library "$name" "$program" $module
            build "$name: an example" "$language" $module "$program-2" examples/layer_figures.c examples/sheet.c || continue
            same "$name: an example" "$(printf '%s\n' 'mesh=533945 layer=1 nodes=1 lines=1 areas=1 sum=200000000 outside=200000000' \
                '  area=1 code=13101 measure=200000000')" "$(run "$program-2" $smallest)"
        done
    done
    by_macros
    by_spaces
    by_other_library
}

# A program with the archive in it needs no library of ours, the other one needs it by its SONAME.
needs_library() {
    local wanted=$shared
    here "$1: what the program needs" readelf || return
    [ "$3" = stragumella ] || wanted=
    same "$1: what the program needs of ours" "$wanted" "$(dynamic "$2" NEEDED | grep stragumella)"
}

# What a program sees of the version.
by_macros() {
    cat >"$work/macros.c" <<'PROGRAM'
#include <stdio.h>
#include <stragumella.h>
int main(void)
{
    printf("%s %d\n", STRAGUMELLA_VERSION, STRAGUMELLA_VERSION_NUMBER);
    return 0;
}
PROGRAM
    build "version: the header" C stragumella "$work/macros" "$work/macros.c" || return
    same "version: the header" "$version $(echo "$version" | awk -F . '{ print $1 * 1000000 + $2 * 1000 + $3 }')" "$(run "$work/macros")"
}

# A prefix with a blank, through pkg-config to the compiler.
by_spaces() {
    local folder="$work/two words" PKG_CONFIG_LIBDIR="$work/two words/lib/pkgconfig" module
    install "a prefix with a blank" 022 PREFIX="$folder"
    for module in stragumella stragumella-static; do
        build "a prefix with a blank: $module" C $module "$work/spaced" "$work/judge.c" || continue
        same "a prefix with a blank: $module" "number 0 at 0,0; 1 areas" "$(run "$work/spaced" <$smallest)"
    done
}

# other_library NAMES: the shared library made once more, in a folder of its own, with other names or the same.
other_library() {
    local chain
    chain=$(host/x86-64/toolchain)
    packaging/shared.sh "$work/other/$shared" target/lib/libstragumella.a "$1" "$chain/bin/ld.lld" "$chain/lib/libc.so.6"
}

# A program starts with a library whose names have its own version, and with no other one.
by_other_library() {
    local program=$work/judge-C-stragumella
    other_library "$names"
    same "a library of the same version is taken" "number 0 at 0,0; 1 areas" "$(run_with "$work/other" "$program" <$smallest)"
    other_library "${names}9"
    if ! run_with "$work/other" "$program" <$smallest >"$work/out" && grep -q "version .$names' not found" "$work/out"; then
        pass "a library of another version is not taken"
    else
        fail "a library of another version is not taken" "$(head -n 3 "$work/out")"
    fi
}

# ---- manual pages

by_pages() {
    local page pages=("$folder/share/man/man1/stragumella.1" "$folder/share/man/man3/stragumella.3")
    same "the library's page has the header's declarations" "$(declared)" "$(page_declarations)"
    same "the library's page has the header's refusals" "$(refusal_numbers)" \
        "$(sed -n '/^\.SH RETURN VALUE/,/^\.SH THREADS/s/^\.B \([0-9]*\)$/\1/p' "${pages[1]}")"
    same "the library's page tells of each call" "$(declared_calls)" \
        "$(sed -n '/^\.TP/{n;s/^\.BR \(stragumella_[a-z_]*\) ()$/\1/p}' "${pages[1]}" | sort)"
    same "the library's page names each call, for whatis" "$(declared_calls)" \
        "$(sed -n '/^\.SH NAME/{n;s/ \\- .*//p}' "${pages[1]}" | grep -o 'stragumella_[a-z_]*' | sort)"
    for page in "${pages[@]}"; do
        page_is_sound "$page"
    done
    if here "man finds the page of a call" man; then
        man_finds "man finds the page of a call" stragumella_judge
    fi
    by_page_example "${pages[1]}"
}

page_declarations() {
    sed -n "/^\.\\\\\" The header's declarations/,/^\.fi/p" "$folder/share/man/man3/stragumella.3" | sed '/^\./d' | one_each
}

# No formatter has anything to say. A page without a date is meant: the header has none.
page_is_sound() {
    local page=$1 name=${1##*/}
    here "$name: groff" groff && same "$name: groff" "" "$(groff -man -ww -z "$page" 2>&1)"
    here "$name: mandoc" mandoc && same "$name: mandoc" "" "$(mandoc -T lint -W warning "$page" 2>&1 | grep -v 'missing date')"
    here "$name: man" man && has_man "$name: man" && same "$name: man" "" "$(man --warnings -l "$page" 2>&1 >/dev/null)"
}

# Some machines have a man that only tells that there is none.
has_man() {
    man --version 2>/dev/null | grep -q '^man ' || { skip "$1" "no man that works" && return 1; }
}

man_finds() {
    has_man "$1" || return
    man -M "$folder/share/man" 3 "$2" >"$work/page" 2>&1
    holds "$1" grep -q "stragumella_outcome $2" "$work/page"
}

# The page's example, taken out of it, compiled by the lines that the page gives, and run.
by_page_example() {
    local line name
    here "the page's example" pkg-config || return
    [ "$machine" = x86_64 ] || here "the page's example" clang || return
    sed -n '/^\.EX/,/^\.EE/p' "$1" | sed '/^\./d; s/\\e/\\/g; s/\\-/-/g' >"$work/prog.c"
    same "the page has two lines to compile by" 2 "$(grep -c '^cc .*prog\.c' "$1")"
    while read -r line; do
        name="the page's example: $line"
        if ! eval "$compilers${line/prog.c/-o \"\$work/prog\" \"\$work/prog.c\"}" 2>"$work/err"; then
            fail "$name" "$(head -n 5 "$work/err")"
            continue
        fi
        same "$name: a sheet" 200000000 "$(run "$work/prog" <$smallest)"
        same "$name: a sheet without areas" "" "$(run "$work/prog" <samples/unstructured.dat)"
        same "$name: a refused one" "refused: 16 at 7,1" "$(run "$work/prog" <samples/refused-16-loop-walked-backwards.dat)"
        same "$name: no sheet" "too long, or cannot be read" "$(head -c 74001 /dev/zero | run "$work/prog")"
    done < <(sed -n '/^cc .*prog\.c/s/\\-/-/gp' "$1")
}

. packaging/test_completion.sh
by_files
by_staging
by_refused_places
by_names
by_version
by_next_version
by_programs
by_pages
by_completion
by_uninstall
counts packaging
