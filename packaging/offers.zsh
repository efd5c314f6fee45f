# What zsh offers behind a line, as at a terminal: zsh -f packaging/offers.zsh FOLDER LINE.. prints for each line what is offered,
# in one line. FOLDER has the completion, _stragumella. For packaging/test.sh.
zmodload zsh/zpty || exit 3
completions=$1
shift
folder=$(mktemp -d) || exit 1
trap 'rm -rf $folder' EXIT

# The shell that is asked. What compadd is called with is matched by zsh itself, and kept in a file instead of shown.
cat >$folder/asked <<'ASKED'
PROMPT=
fpath=($COMPLETIONS $fpath)
autoload -U compinit
compinit -u -d $FOLDER/dump
zstyle ':completion:*' insert-tab false
compadd() {
    if [[ ${@[1,(i)(-|--)]} == *-(O|A|D)\ * ]]; then
        builtin compadd "$@"
        return
    fi
    local -a hits
    builtin compadd -A hits "$@"
    print -rn -- ${hits/#/$IPREFIX}' ' >>$FOLDER/offered
    builtin compadd "$@"
}
ended() { print >>$FOLDER/offered; exit }
comppostfuncs=(ended)
bindkey '^I' complete-word
print ready
ASKED

# Asks for one line. The shell ends behind its first answer.
ask() {
    local said
    zpty asked "TERM=dumb FOLDER=${(q)folder} COMPLETIONS=${(q)completions} zsh -f -i"
    zpty -w asked "source ${(q)folder}/asked"
    while zpty -r asked said && [[ $said != *ready* ]]; do :; done
    zpty -w -n asked "$1"$'\t'
    while zpty -r asked said; do :; done
    zpty -d asked
}

: >$folder/offered
for line; do
    ask $line
done
cat $folder/offered
