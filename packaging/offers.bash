# What bash offers behind a line: bash --norc packaging/offers.bash FOLDER LINE.. prints for each line what is offered, in one line.
# FOLDER has the completion, stragumella. For packaging/test.sh.
# shellcheck source=packaging/completion.bash
. "$1/stragumella" || exit 1
shift

# The words of a line as bash parts them: = is a word of its own, and the last word may be empty.
ask() {
    local line=${1//=/ = }
    read -ra COMP_WORDS <<<"$line"
    case $1 in
    *' ') COMP_WORDS+=('') ;;
    esac
    COMP_CWORD=$((${#COMP_WORDS[@]} - 1))
    _stragumella
    echo "${COMPREPLY[*]}"
}

for line; do
    ask "$line"
done
