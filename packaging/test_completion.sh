# Tests of the completions, for packaging/test.sh: what bash and zsh offer is what the tool takes.
# shellcheck shell=bash disable=SC2154

# ---- what the tool says of itself

tool_says() {
    "$folder/bin/stragumella" "$@" 2>&1
}

# Each of these prints words, a line each.
tool_commands() {
    tool_says --help | sed -n 's/^.* stragumella \([a-z]*\) .*/\1/p' | sort -u
}

# -- itself is no option, and nothing is gained by completing it.
tool_options() {
    tool_says --help | sed -n '/^Options/,/^$/s/^  \(-[^ ].*\)/\1/p' | sed 's/  .*//' | grep -oE -- '--?[A-Za-z]+' | sort -u
}

tool_forms() {
    grep -oE -- '"--format=[a-z]+"' host/options.c | sed 's/.*=//; s/"//' | sort -u
}

tool_kinds() {
    tool_says record 1 "$smallest" "no kind" | sed 's/.*KIND is //; s/;.*//; s/, \| or /\n/g'
}

tool_sought() {
    tool_says --help | sed -n 's/.* stragumella find .* \([a-z|]*\) N$/\1/p' | tr '|' '\n'
}

# ---- what the shells offer

lines=()
wanted=()

# offers LINE WORD..: behind the line these words are offered, in whatever order.
offers() {
    lines+=("$1")
    shift
    wanted+=("$(in_order "$@")")
}

# Words in one line, without what one shell says and the other one doesn't: a file's folder, a form's option, hidden files.
in_order() {
    printf '%s\n' "$@" | sed 's,.*/,,; s/^--format=\(.\)/\1/; s/=$//; /^\./d' | sort | xargs
}

# Lists of the tool have no blanks in their words.
# shellcheck disable=SC2046
ask_for_lists() {
    offers "stragumella " $(tool_commands)
    offers "stragumella --json " $(tool_commands)
    offers "stragumella -" $(tool_options)
    offers "stragumella check -" $(tool_options)
    offers "stragumella check $smallest -" $(tool_options)
    offers "stragumella where -" $(tool_options | grep -v '^-j$')
    offers "stragumella check --format=" $(tool_forms)
    offers "stragumella record 1 $smallest " $(tool_kinds)
    offers "stragumella find $smallest 533945 1 " $(tool_sought)
    offers "stragumella explain 1" $(refusal_numbers | grep ^1)
    offers "stragumella explain 2" $(refusal_numbers | grep ^2)
    offers "stragumella explain 4" $(refusal_numbers | grep ^4)
    offers "stragumella explain " $(refusal_numbers) $(ls)
}

# S is the one sample that begins with an s.
ask_for_words() {
    local command
    offers "stragumella m" measure
    offers "stragumella check --v" --version
    offers "stragumella check --format=l" line
    for command in check explain measure sums find "record 1" "check --json" "--json check" "check -j 4" "-j 4 check" "check -j4" \
        "--format=line sums" "sums --format=line" "check --" "check $smallest" "record --json 1" "find -q"; do
        offers "stragumella $command samples/s" "$smallest"
    done
    offers "stragumella record "
    offers "stragumella record 1 $smallest c" coordinates
    offers "stragumella find --json $smallest 533945 1 l" line
    offers "stragumella find $smallest "
    offers "stragumella find $smallest 533945 "
    offers "stragumella find $smallest 533945 1 line "
    offers "stragumella where "
    offers "stragumella check -j "
    offers "stragumella judge "
}

# by_shell SHELL COMMAND..: the command is asked for all lines at once, and answers a line each.
by_shell() {
    local shell=$1 i answers
    shift
    timeout 60 "$@" "${lines[@]}" >"$work/offered" 2>"$work/err"
    mapfile -t answers <"$work/offered"
    for i in "${!lines[@]}"; do
        # shellcheck disable=SC2086
        same "$shell: ${lines[i]}" "${wanted[i]}" "$(in_order ${answers[i]-no answer: $(head -n 1 "$work/err")})"
    done
}

by_completion() {
    local none
    # shellcheck disable=SC2046
    holds "the tool explains each number that is offered" "$folder/bin/stragumella" explain $(refusal_numbers)
    ask_for_lists
    ask_for_words
    by_shell bash bash --norc packaging/offers.bash "$folder/share/bash-completion/completions"
    none=$(bash --norc -c '. "$1" && complete -p stragumella' bash "$folder/share/bash-completion/completions/stragumella")
    same "bash: the completion is the tool's" "complete -F _stragumella stragumella" "$none"
    if ! here "zsh's completion" zsh; then
        return
    elif ! zsh -fc 'zmodload zsh/zpty' 2>/dev/null; then
        skip "zsh's completion" "zsh has no terminals of its own here (zsh/zpty)"
    else
        by_shell zsh zsh -f packaging/offers.zsh "$folder/share/zsh/site-functions"
    fi
}
