#compdef stragumella
# zsh completion for stragumella(1). packaging/test.sh holds its lists to the tool.

_stragumella() {
    local -a commands=(
        'check:is the file accepted, and what is in it'
        'explain:a page for people, or what a number means'
        'measure:a line an area, its doubled measure'
        'sums:a line a layer, the areas'\'' sum and the outside sum'
        'record:a record, a line a field'
        'find:the record of a node, line or area'
        'where:latitude and longitude in degrees'
    )
    local -a options=(
        '(--format -q --quiet)--json[one JSON object a file]'
        '(--json -q --quiet)--format=[the form of the output]:form:(text json line)'
        '(--json --format -q --quiet)'{-q,--quiet}'[nothing on standard output]'
        '(- *)'{-h,--help}'[tell the use]'
        '(- *)'{-V,--version}'[tell the version]'
    )
    local -a many=('-j+[so many files at a time]:N: ')
    local curcontext=$curcontext state line
    typeset -A opt_args

    _arguments -C -S -A '-*' $options $many '1: :->command' '*:: :->words'
    # Options stand behind the command too. A number has no list: there its name alone is told.
    case $state:$line[1] in
    command:*) _describe command commands ;;
    words:(check|measure|sums)) _arguments -S $options $many '*:FILE:_files' ;;
    words:explain) _arguments -S $options $many '*: :_alternative "files:FILE:_files" "numbers:NUMBER:({1..22} 48)"' ;;
    words:record) _arguments -S $options '1:N: ' '2:FILE:_files' '3:KIND:(M H N L coordinates A loop)' ;;
    words:find) _arguments -S $options '1:FILE:_files' '2:MESH: ' '3:LAYER: ' '4:what is sought:(node line area)' '5:N: ' ;;
    words:where) _arguments -S $options '1:MESH: ' '2:X: ' '3:Y: ' ;;
    esac
}

_stragumella "$@"
