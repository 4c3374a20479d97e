# What may follow `dagsched` at a tab, in fish: made from what `dagsched --help` prints.

# Whether the words so far are COMMAND and so many words of its own, as `list:0`; or only whether they are of COMMAND, as `list`.
function __dagsched_at
    set -l command ''
    set -l place 0
    set -l awaits ''
    for word in (commandline -opc)[2..-1]
        if test -n "$awaits"
            set awaits ''
        else if contains -- $word @awaiting@
            set awaits $word
        else if string match -q -- '-*' $word
            continue
        else if test -z "$command"
            set command $word
        else
            set place (math $place + 1)
        end
    end
    contains -- $argv[1] $command $command:$place
end

# Prints the graphs or the pools of the record that the words name, if that is cheap.
function __dagsched_names
    set -l words (commandline -opc)
    for at in (seq (count $words))
        set -l record ''
        if test "$words[$at]" = --record -a $at -lt (count $words)
            set record $words[(math $at + 1)]
        else if string match -q -- '--record=*' $words[$at]
            set record (string replace -- --record= '' $words[$at])
        end
        if test -n "$record"
            @lib@/names (string replace -r '^~' $HOME -- $record) $argv[1] 2>/dev/null
            return
        end
    end
end

complete -c dagsched -f
@lines@
