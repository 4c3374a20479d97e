# What the program does with records in files: sh files.sh CHECK, as a task of the stored run, by the program that performs it. It fails unless each answer and
# each status is what stands here.
program=/proc/$PPID/exe

# answers STATUS WORDS ..: the program, which reads the file script, answers these words so (standard input), with this status
answers() {
    wanted=$1
    shift
    cat > wanted
    "$program" "$@" < script > said 2> told
    status=$?
    if [ $status != "$wanted" ] || ! cmp -s said wanted; then
        echo "$program $* answered with status $status:"
        cat said told
        exit 1
    fi
}

# tells LINE: this was a line of what it told a person
tells() {
    grep -Fqx "$1" told || { echo "it did not tell: $1"; cat told; exit 1; }
}

case $1 in
# a record that is not there is made; one worker and one lane; the status is that of the refused command; the folders are those that are named
opens)
    cat > script <<'END'
load inline
dag_id = "daily"
schedule = "@daily"
start_date = "2024-03-01"
task = [
    { task_id = "one", operator = "noop" },
    { task_id = "two", operator = "noop" },
    { task_id = "write", operator = "command", argv = ["echo", "@scratch"] },
]
.
tick 2024-03-02
drain
pause nightly
drain
END
    answers 1 --record new.db run --workers 1 --lanes 1 --scratch new-tries --logs new-logs <<'END'
ok
made daily scheduled__2024-03-01T00:00:00+00:00
try 1 daily 2024-03-01T00:00:00+00:00 one 1
ok
ok
refused 6 UnknownGraph
ok
END
    tells 'dagsched: new.db was not there, so a new record was made'
    [ "$(cat new-logs/dag_id=daily/run_id=scheduled__2024-03-01T00:00:00+00:00/task_id=write/attempt=1.log)" = "$(pwd -P)/new-tries/try-3" ]
    ;;
# what it answered is there at the next start, and what a command does at the next but one
goes-on)
    : > script
    answers 0 --record new.db list tasks <<'END'
daily scheduled__2024-03-01T00:00:00+00:00 one success 1
daily scheduled__2024-03-01T00:00:00+00:00 two success 1
daily scheduled__2024-03-01T00:00:00+00:00 write success 1
ok
END
    answers 0 --record new.db trigger daily <<'END'
made daily manual__2024-03-02T00:00:00+00:00
ok
END
    answers 1 --record new.db trigger daily <<'END'
refused 10 RunExists
END
    answers 0 --record new.db explain daily 2024-03-02 one <<'END'
lanes 0
ok
END
    # without lanes nothing is handed out, and with one one try at a time
    printf 'explain daily 2024-03-02 one\ndrain\n' > script
    answers 0 --record new.db run --lanes 0 --scratch new-tries <<'END'
lanes 0
ok
ok
END
    printf 'explain daily 2024-03-02 two\nresize etl 2\ndrain\n' > script
    answers 0 --record new.db run --lanes 1 --scratch new-tries <<'END'
lanes 1
ok
ok
ok
END
    # what a script did that ends with the status 4 is there too
    printf 'resize etl 3\nload no-such-file\n' > script
    answers 4 --record new.db run --scratch new-tries <<'END'
ok
source 1 Unreadable
END
    answers 0 --record new.db list tasks <<'END'
daily scheduled__2024-03-01T00:00:00+00:00 one success 1
daily scheduled__2024-03-01T00:00:00+00:00 two success 1
daily scheduled__2024-03-01T00:00:00+00:00 write success 1
daily manual__2024-03-02T00:00:00+00:00 one success 1
daily manual__2024-03-02T00:00:00+00:00 two success 1
daily manual__2024-03-02T00:00:00+00:00 write success 1
ok
END
    answers 0 --record new.db list pools <<'END'
default_pool 128 0 128
etl 3 0 3
ok
END
    # the folder of the logs is made before the record
    answers 4 --record none.db run --logs new.db/logs <<'END'
END
    [ ! -e none.db ]
    ;;
# a program that has its tries in the folder, as the one that performs this has, holds others back: they make their records, and read no line
is-held-back)
    echo 'resize etl 2' > script
    answers 4 --record held.db run <<'END'
END
    tells 'dagsched: another dagsched has its tries in the folder dagsched-scratch, so no script is run: give each a folder of its own, by --scratch DIR'
    answers 0 --record held.db list pools <<'END'
default_pool 128 0 128
ok
END
    ;;
# a file that is no database, and the database of another program, are refused, and stay as they are
is-refused)
    echo 'a letter' > letter
    cp notes.db notes
    echo 'tick 2024-03-02' > script
    answers 3 --record letter run --scratch new-tries <<'END'
store 1 Refused
END
    answers 3 --record letter list dags <<'END'
store 1 Refused
END
    answers 3 --record notes run --scratch new-tries <<'END'
store 2 NotOurs
END
    answers 3 --record notes pause daily <<'END'
store 2 NotOurs
END
    [ "$(cat letter)" = 'a letter' ] && cmp notes notes.db
    ;;
# without --record nothing is kept, and no file is made
keeps-nothing)
    mkdir empty && cd empty || exit 1
    : > script
    answers 0 resize etl 2 <<'END'
ok
END
    tells 'dagsched: there is no --record PATH before the command, so it was done on a new record in memory, and nothing is kept'
    answers 0 list pools <<'END'
default_pool 128 0 128
ok
END
    echo 'resize etl 2' > script
    answers 0 run --scratch tries <<'END'
ok
END
    # commands that only scripts have, words that are none, and help: no record is made
    answers 2 --record none.db drain <<'END'
END
    tells 'usage 4 NotHere'
    answers 2 --record none.db frob <<'END'
END
    tells "error: unrecognized subcommand 'frob'"
    answers 0 --record none.db list --help <<'END'
Prints the graphs, the runs, the task instances or the pools

Usage: dagsched list <ROWS>

Arguments:
  <ROWS>  What is printed, a line each [possible values: dags, runs, tasks, pools]

Options:
  -h, --help  Print help
END
    answers 0 help list < said
    [ "$(ls)" = "$(printf 'said\nscript\ntold\ntries\nwanted')" ]
    ;;
# `tick now` is at the system's time, which the refusal of an earlier moment shows
tells-the-time)
    printf 'tick now\ntick 2024-03-02\n' > script
    before=$(date +%s)
    "$program" run --scratch new-tries < script > said 2> told
    after=$(date +%s)
    moment=$(sed -n 's/^refused 8 ClockBack //p' said)
    second=$(date -d "$moment" +%s) && [ "$(head -n 1 said)" = ok ] && [ "$before" -le "$second" ] && [ "$second" -le "$after" ]
    ;;
# an answer that cannot be written: the status is 4, of a script and of a command
is-not-written)
    echo 'list runs' > script
    "$program" run --scratch new-tries < script > /dev/full 2> told
    [ $? = 4 ] || exit 1
    "$program" --record new.db list runs > /dev/full 2> told
    [ $? = 4 ] || exit 1
    tells 'dagsched: the answer could not be written, so look whether the command was done: No space left on device (os error 28)'
    ;;
*)
    exit 2
    ;;
esac
