# What may follow `dagsched` at a tab, in bash: made from what `dagsched --help` prints.

# Prints the graphs or the pools of the record that the words name, if that is cheap.
_dagsched_names() {
    test -z "$record" || @lib@/names "${record/#\~/$HOME}" "$1" 2> /dev/null
}

_dagsched() {
    local current=${COMP_WORDS[COMP_CWORD]} record='' command='' awaits='' ended='' place=0 kind='' words='' word at
    for ((at = 1; at < COMP_CWORD; at++)); do
        word=${COMP_WORDS[at]}
        case ${awaits:+value}${ended:+end}:$word in
            value:=) ;;
            value:*)
                test "$awaits" != --record || record=$word
                awaits='' ;;
            :--) ended=yes ;;
            :--record=*) record=${word#*=} ;;
@awaiting@) awaits=$word ;;
            :-*) ;;
            *) if test -z "$command"; then command=$word; else ((place += 1)); fi ;;
        esac
    done
    if test "$current" = =; then current=''; fi
    case $command:${awaits:-$place} in
@places@
    esac
    case $command${awaits:+:}${ended:+:}:$current in
@options@
    esac
    case $kind in
        files) compopt -o filenames && mapfile -t COMPREPLY < <(compgen -f -- "$current") ;;
        folders) compopt -o filenames && mapfile -t COMPREPLY < <(compgen -d -- "$current") ;;
        dags | pools) mapfile -t COMPREPLY < <(compgen -W "$(_dagsched_names "$kind")" -- "$current") ;;
        *) mapfile -t COMPREPLY < <(compgen -W "$words" -- "$current") ;;
    esac
}

complete -F _dagsched dagsched
