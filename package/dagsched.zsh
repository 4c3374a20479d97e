#compdef dagsched
# What may follow `dagsched` at a tab, in zsh: made from what `dagsched --help` prints.

# Adds the graphs or the pools of the record that the words name, if that is cheap.
_dagsched_names() {
    local -a names
    test -z "$record" || names=(${(f)"$(@lib@/names ${~${(Q)record}} $1 2> /dev/null)"})
    compadd -a names
}

_dagsched() {
    local curcontext=$curcontext context state line record
    typeset -A opt_args
    _arguments -C \
@whole@
        '1:command:->command' \
        '*:: :->words' && return
    record=$opt_args[--record]
    case $state in
        command)
            local -a commands=(
@commands@
            )
            _describe command commands ;;
        words)
            case $words[1] in
@cases@
            esac ;;
    esac
}

_dagsched "$@"
