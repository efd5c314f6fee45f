# bash completion for stragumella(1). It needs no other file: bash alone is enough. packaging/test.sh holds its lists to the tool.

# Offers what begins with the word: _stragumella_offer WORD LIST.
_stragumella_offer() {
    mapfile -t COMPREPLY < <(compgen -W "$2" -- "$1")
}

# Offers files. A folder is gone into.
_stragumella_files() {
    mapfile -t COMPREPLY < <(compgen -f -- "$1")
    compopt -o filenames 2>/dev/null
}

# Offers options: _stragumella_options WORD COMMAND. -j is for commands on many files; behind --format= stands its value, and no blank.
_stragumella_options() {
    local options="--json --format= -q --quiet -h --help -V --version"
    case $2 in
    record | find | where) ;;
    *) options+=" -j" ;;
    esac
    _stragumella_offer "$1" "$options"
    [ "${COMPREPLY[*]}" != --format= ] || compopt -o nospace 2>/dev/null
}

# Offers what stands at a place behind a command: _stragumella_word WORD COMMAND PLACE.
_stragumella_word() {
    case $2:$3 in
    :*) _stragumella_offer "$1" "check explain measure sums record find where" ;;
    explain:*)
        _stragumella_files "$1"
        mapfile -t -O ${#COMPREPLY[@]} COMPREPLY < <(compgen -W "$(echo {1..22} 48)" -- "$1")
        ;;
    check:* | measure:* | sums:* | record:2 | find:1) _stragumella_files "$1" ;;
    record:3) _stragumella_offer "$1" "M H N L coordinates A loop" ;;
    find:4) _stragumella_offer "$1" "node line area" ;;
    esac
}

_stragumella() {
    local word=${COMP_WORDS[COMP_CWORD]} before=${COMP_WORDS[COMP_CWORD - 1]} forms="text json line"
    local command='' place=0 plain='' i
    # The command, and how many words stand behind it. bash takes --format=line for three words.
    for ((i = 1; i < COMP_CWORD; i++)); do
        case $plain${COMP_WORDS[i]} in
        --) plain="plain " ;;
        -j | =) ((++i)) ;;
        -?*) ;;
        *)
            [ -n "$command" ] || command=${COMP_WORDS[i]}
            ((++place))
            ;;
        esac
    done
    [ "$before" != = ] || before=${COMP_WORDS[COMP_CWORD - 2]}=
    COMPREPLY=()
    case "$plain$before $word" in
    "--format =") _stragumella_offer '' "$forms" ;;
    "--format= "*) _stragumella_offer "$word" "$forms" ;;
    *" --format="*) _stragumella_offer "$word" "--format=${forms// / --format=}" ;;
    "-j "*) ;;
    "plain "*) _stragumella_word "$word" "$command" "$place" ;;
    *" -"*) _stragumella_options "$word" "$command" ;;
    *) _stragumella_word "$word" "$command" "$place" ;;
    esac
}

complete -F _stragumella stragumella
