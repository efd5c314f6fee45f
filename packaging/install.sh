#!/usr/bin/env bash
# Installs what make built, or takes it away again: packaging/install.sh install|uninstall. For `make install` and `make uninstall`,
# which build first and hand over in the environment where things go (DESTDIR, PREFIX, BINDIR, ..) and what they are (TOOL,
# ARCHIVE, SHARED, PAGES, VERSION, MACHINE). Nothing is compiled here.
set -eu
cd "$(dirname "${BASH_SOURCE[0]}")/.."

# All that is installed, in one list for both ways: $1 is called with TARGET MODE COMMAND.., where the command prints the file; or
# with TARGET link NAME.
each() {
    local calls call name=${SHARED##*/}
    calls=$(packaging/calls.sh)
    "$1" "$BINDIR/stragumella" 755 cat "$TOOL"
    # Elsewhere the tool is a script, which runs the program beside it.
    [ "$MACHINE" = x86_64 ] || "$1" "$BINDIR/stragumella.x86-64" 755 cat "$TOOL.x86-64"
    "$1" "$LIBDIR/libstragumella.a" 644 cat "$ARCHIVE"
    "$1" "$LIBDIR/$name" 755 cat "$SHARED"
    "$1" "$LIBDIR/${name%.*}" link "$name"
    "$1" "$INCLUDEDIR/stragumella.h" 644 cat include/stragumella.h
    "$1" "$PKGCONFIGDIR/stragumella.pc" 644 described packaging/stragumella.pc.in
    "$1" "$PKGCONFIGDIR/stragumella-static.pc" 644 described packaging/stragumella-static.pc.in
    "$1" "$MANDIR/man1/stragumella.1" 644 cat "$PAGES/stragumella.1"
    "$1" "$MANDIR/man3/stragumella.3" 644 cat "$PAGES/stragumella.3"
    for call in $calls; do
        "$1" "$MANDIR/man3/$call.3" 644 echo '.so man3/stragumella.3'
    done
    "$1" "$BASHDIR/stragumella" 644 cat packaging/completion.bash
    "$1" "$ZSHDIR/_stragumella" 644 cat packaging/completion.zsh
    "$1" "$DOCDIR/LICENSE" 644 cat LICENSE
}

# A place as the pkg-config files say it: from ${prefix} on where it is below it, so that whoever moves the prefix moves all.
below_prefix() {
    case $1 in
    "$PREFIX"/*) printf '%s' "\${prefix}${1#"$PREFIX"}" ;;
    *) printf '%s' "$1" ;;
    esac
}

# A pkg-config file: its template with the version and the places. DESTDIR is no part of them.
described() {
    local text
    text=$(cat "$1")
    text=${text//@VERSION@/"$VERSION"}
    text=${text//@PREFIX@/"$PREFIX"}
    text=${text//@LIBDIR@/"$(below_prefix "$LIBDIR")"}
    text=${text//@INCLUDEDIR@/"$(below_prefix "$INCLUDEDIR")"}
    printf '%s\n' "$text"
}

# Puts a file beside its place and then moves it there: a program that runs keeps the library that it was started with.
put() {
    local target=$DESTDIR$1 mode=$2
    shift 2
    mkdir -p "$(dirname "$target")"
    if [ "$mode" = link ]; then
        ln -sfT "$1" "$target"
        return
    fi
    "$@" >"$target.new"
    chmod "$mode" "$target.new"
    mv -fT "$target.new" "$target"
}

take_away() {
    rm -f "$DESTDIR$1"
}

# What pkg-config cannot say is refused before anything is written: it reads these files line by line, with marks of its own.
judge_places() {
    local place
    for place in "$PREFIX/" "$BINDIR" "$LIBDIR" "$INCLUDEDIR" "$MANDIR" "$DOCDIR" "$PKGCONFIGDIR" "$BASHDIR" "$ZSHDIR"; do
        case $place in
        *[\"\'\\\$#@]* | *$'\n'*)
            echo "install: no quotes, \\, \$, #, @ or line breaks in a place: $place" >&2
            exit 2
            ;;
        /*) ;;
        *)
            echo "install: a place begins with /: $place" >&2
            exit 2
            ;;
        esac
    done
}

# Modes are those of the list, and folders that are made are for everybody, whatever the caller's umask.
umask 022
judge_places
case ${1-} in
install)
    each put
    ;;
uninstall)
    each take_away
    # The one folder that is ours alone. Somebody else's file in it stays, and then so does the folder.
    [ ! -d "$DESTDIR$DOCDIR" ] || rmdir --ignore-fail-on-non-empty "$DESTDIR$DOCDIR"
    ;;
*)
    echo "usage: packaging/install.sh install|uninstall" >&2
    exit 2
    ;;
esac
