"""What `try` tries of the service: each point gets one on a folder of its own, and says what there is to say beside that all was well."""
import contextlib
import os
import pathlib
import re
import signal
import sqlite3
import subprocess
import sys
import time

import night
import programs
import service
import snapshot
from trial import HERE, expect, graph, until

# tests of look, whose modules service has put on the path
sys.path.append(os.path.join(os.path.dirname(HERE), "look", "tests"))
import paged

HANGS = "trap '' TERM; sleep 1000 & while :; do wait; done"
# a copy for which the scheduler is held still at once
HELD_STILL = """import service
names = {"__name__": "copy_of_service"}
exec(open("copy").read(), names)
names["SECONDS"] = 0
service.run(names["main"])"""
WAYS = ("plain", "into a pipe", "held still")
ENDS = (signal.SIGTERM, signal.SIGINT, signal.SIGHUP, signal.SIGKILL)
TELLS = """#!/bin/sh
echo "$AIRFLOW_CTX_DAG_ID $AIRFLOW_CTX_DAG_RUN_ID $DAGSCHED_RUN_TYPE" >> told.out
test "$AIRFLOW_CTX_DAG_ID" != slow || { echo $$ >> slow.out; exec sleep 1000; }
"""
WRITES = """dag_id = "wide"
schedule = "@daily"
start_date = "2023-01-01"
catchup = false
max_active_runs = 1000
"""


def signals(trial, _):
    """TERM, INT and HUP end it in order, and so does a file; one of before does not."""
    trial.begin()
    trial.load("short", "sleep 3")
    for number in ENDS[:3]:
        trial.ask("trigger", "short")
        until(10, lambda: programs.programs(trial.folder), "the try began")
        expect(trial.end(number) == 0, lambda: f"the status after {number!r}:\n{trial.said()}")
        trial.touch("stop")
        trial.begin()
        expect("is removed, and the service begins" in trial.said(), "a stop of before is told")
    expect(trial.outcomes() == ["success"] * 3, f"tries in flight were waited for: {trial.outcomes()}")
    trial.touch("stop")
    expect(trial.serve.wait(20) == 0 and not os.path.exists(trial.folder.at("stop")), "a file stop ends it")
    trial.begin()
    second = subprocess.run([f"{HERE}/serve", trial.program, trial.path], capture_output=True, text=True)
    expect(second.returncode == 3 and "another serve is at work" in second.stderr, f"a second serve: {second}")
    expect(trial.end() == 0, "the end")


def second_signals(trial, _):
    """A second signal ends the programs of the tries, also behind a file; two at once are one."""
    trial.begin()
    trial.load("hang", HANGS)
    for serial in (1, 2):
        trial.ask("trigger", "hang")
        until(10, lambda: len(programs.programs(trial.folder).get(serial, [])) == 2, "the try hangs")
        if serial == 1:
            trial.serve.send_signal(signal.SIGTERM)
            time.sleep(0.3)
            trial.serve.send_signal(signal.SIGTERM)
        else:
            trial.touch("stop")
        until(5, lambda: f"waits for try {serial} hang" in trial.said(), "it says what it waits for")
        time.sleep(1)
        expect(trial.serve.poll() is None, "it is one request")
        expect(trial.end() == 0, lambda: f"a second signal ends it:\n{trial.said()}")
        trial.begin()
        until(10, lambda: trial.outcomes()[-1] == "lost", lambda: f"the try is lost: {trial.outcomes()}")
    expect(trial.end() == 0, "the end")


def check_copy(words, goal):
    expect(subprocess.run(words, cwd=HERE).returncode == 0, f"a copy: {words}")
    with contextlib.closing(sqlite3.connect(goal)) as rows:
        expect(rows.execute("PRAGMA integrity_check").fetchone()[0] == "ok", "the copy is whole")
        expect(rows.execute("SELECT count(*) FROM run").fetchone()[0] > 0, "the copy has the runs")


def copies(trial, options):
    """Copies that are ended at random moments leave the scheduler at work."""
    trial.begin()
    trial.load("busy", "sleep 0.2", "sleep 0.2")
    goal, pipe = trial.beside("copy.out"), trial.beside("pipe.out")
    os.mkfifo(pipe)
    plain, forced = [f"{HERE}/copy", trial.path], [sys.executable, "-B", "-c", HELD_STILL, trial.path]
    for number in range(options.rounds):
        trial.ask("trigger", "busy")
        way = options.random.choice(WAYS)
        words = {"plain": [*plain, goal], "into a pipe": [*plain, pipe], "held still": [*forced, goal]}[way]
        it = subprocess.Popen(words, cwd=HERE, stderr=subprocess.DEVNULL)
        time.sleep(options.random.uniform(0, 0.6))
        it.send_signal(options.random.choice(ENDS))
        it.wait(10)
        until(5, lambda: service.state_of(trial.folder.scheduler()) not in ("T", "t"), f"the scheduler goes on after round {number}, {way}")
    trial.touch("copy.out-wal", goal)  # as copies of before had one
    for words in ([*plain, goal], [*forced, goal]):
        check_copy(words, goal)
    expect(not any(os.path.exists(f"{goal}{it}") for it in ("-wal", "-shm", ".new")), "a copy is one file")
    for place in ("/dev/full", trial.path, trial.folder.record, "/nowhere/copy"):
        expect(trial.run("copy", trial.path, place).returncode in (1, 2), f"no copy goes to {place}")
    left = [trial.folder.at(it) for it in os.listdir(trial.path) if it.startswith(snapshot.PREFIX)]
    for it in left:
        os.utime(it, (0, 0))
    check_copy([*plain, goal], goal)
    expect(not any(map(os.path.exists, left)), "what a copy that was killed left is removed")
    os.kill(trial.folder.scheduler(), signal.SIGSTOP)
    status, _, said = trial.ask("list", "pools")
    expect(status == 0 and "was left stopped" in said, f"ask wakes a scheduler that was left stopped: {said}")
    expect(trial.end() == 0, "the end")
    listed = [subprocess.run([trial.program, "--record", it, "list", "tasks"], capture_output=True) for it in (goal, trial.folder.record)]
    expect(listed[0].returncode == 0 and listed[0].stdout.count(b"busy") <= listed[1].stdout.count(b"busy"), "dagsched opens a copy")
    return f"{len(left)} copies were killed in the middle" if left else None


def copies_of_busy(trial, _):
    """Copies beside a scheduler that writes without a pause."""
    trial.begin("--lanes", "16")
    with open(trial.folder.at("wide.toml"), "w") as it:
        it.write(WRITES + "".join(f'[[task]]\ntask_id = "t{number}"\noperator = "noop"\n' for number in range(20)))
    expect(trial.ask("load", "wide.toml")[0] == 0, "load")
    trial.put("wide", "backfill wide 2023-01-01 2023-06-30\ndrain\n")
    until(20, lambda: trial.rows("SELECT count(*) FROM attempt")[0][0] > 10, "it writes")
    count, before, goal = 0, trial.rows("SELECT count(*) FROM attempt WHERE outcome IS NOT NULL")[0][0], trial.beside("busy.out")
    while not os.path.exists(trial.folder.at("done", "wide")) and count < 8:
        check_copy([f"{HERE}/copy", trial.path, goal] if count % 2 else [sys.executable, "-B", "-c", HELD_STILL, trial.path, goal], goal)
        count += 1
        with contextlib.closing(sqlite3.connect(goal)) as rows:
            after = rows.execute("SELECT count(*) FROM attempt WHERE outcome IS NOT NULL").fetchone()[0]
        expect(after >= before, f"a copy is no older than one of before: {before}, {after}")
        before = after
    expect(trial.end(seconds=60) == 0, "the end")
    done = trial.rows("SELECT count(*), sum(outcome = 0), sum(logical < 1704067200) FROM attempt")[0]
    expect(done[0] == done[1] and done[2] == 20 * 181, f"each try was done: {done}")
    return f"{count} copies while it wrote"


def asks(trial, _):
    """Answers, statuses and filters."""
    expect(trial.ask("list", "runs")[0] == 3 and not os.listdir(trial.path), "without a service nothing is asked")
    trial.begin()
    trial.load("a", "true")
    trial.load("b", "false")
    expect(trial.ask("load", "a.toml")[0] == 0, "load again")
    expect(trial.ask("pause", "nobody")[:2] == (1, "refused 6 UnknownGraph\n"), "1 is refused")
    expect(trial.ask("paus", "a")[0] == 2 and trial.ask("load", "nowhere.toml")[0] == 4, "2 is no command, 4 no file")
    expect(trial.ask("tick", "2199-01-01")[0] == trial.ask("drain")[0] == 2 and "2199" not in trial.said(), "the time is told by the service alone")
    expect(trial.ask("resize x 1\nresize y 1")[0] == 2 and " x " not in trial.ask("list", "pools")[1], "a command is one line")
    for name in "ab":
        trial.ask("trigger", name)
    until(10, lambda: trial.ask("list", "runs", "--failed")[1].startswith("b manual__"), "a filter of what failed")
    expect(trial.ask("list", "tasks", "a", "--failed")[1] == "ok\n" and trial.ask("list", "tasks", "a")[1].startswith("a manual__"), "a filter by graph")
    expect(trial.ask("list", "runs", "--until", "2024-01-01")[1:] == ("ok\n", ""), "a filter by date")
    expect("no run of a graph c;" in trial.ask("list", "runs", "c")[2] and not trial.ask("list", "runs", "a")[2], "a graph without a run is told")
    expect(trial.ask("list", "runs", "a", "--since=2024-01-01")[1].count("\n") == 2, "a filter by graph and date")
    expect(trial.ask("list", "runs", "--later")[0] == trial.ask("list", "runs", "--since", "2024-02-30")[0] == 2, "no filter of this name, no such day")
    expect(not [it for it in os.listdir(trial.folder.at("answers")) if "> list" in trial.text("answers", it)], "what only looks is not kept")
    said = trial.folder.at("asked.out")
    trial.load("asks", f"{HERE}/ask {trial.path} pause a; echo $? >> {said}; sleep 4; {HERE}/ask {trial.path} pause a; echo $? >> {said}")
    trial.ask("trigger", "asks")
    until(10, lambda: os.path.exists(said), "a task asks")
    expect(trial.end() == 0, "the end, with a task that asks meanwhile")
    expect(trial.text("asked.out") == "0\n3\n", lambda: f"what a task is answered, before the end and in it:\n{trial.said()}")
    expect(trial.run("ask", "--no-wait", trial.path, "pause", "a").returncode == 0 and os.listdir(trial.folder.at("inbox")), "--no-wait leaves it")
    trial.begin()
    until(10, lambda: re.search("> pause a\n.* ok\n", trial.said()), "the next service does it")
    expect(trial.end() == 0, "the end")


def edits(trial, _):
    """A graph that has runs takes another text where that may be, and what has finished stays so until it is cleared."""
    trial.begin()
    trial.load("a", "false", "true")
    trial.ask("trigger", "a")
    until(10, lambda: trial.ask("list", "runs", "a", "--failed")[1].startswith("a manual__"), "a run fails")
    date = trial.ask("list", "runs", "a")[1].split()[1].removeprefix("manual__")

    def tasks():
        return [it.split()[2:4] for it in trial.ask("list", "tasks", "a")[1].splitlines()[:-1]]

    def replace(text, answer="ok"):
        trial.write("a", text)
        expect(trial.ask("load", "a.toml")[:2] == (1, "refused 5 GraphDiffers\n"), "a load leaves the text of a graph that has runs")
        expect(trial.ask("replace", "a.toml")[:2] == (int(answer != "ok"), f"{answer}\n"), lambda: f"{text}\nis not answered {answer}:\n{trial.said()}")

    replace("# a comment\n" + graph("a", "false", "true"))
    expect(tasks() == [["t0", "failed"], ["t1", "upstream_failed"]], tasks)
    replace(graph("a", "true", "true"))
    trial.ask("clear", "a", date, date, "--only-failed")
    until(10, lambda: tasks() == [["t0", "success"], ["t1", "success"]], "the mended program does the run")
    replace(graph("a", "true", "true", retries=2))
    replace(graph("a", "true", "true", "true"))
    expect(tasks()[2] == ["t2", "skipped"], tasks)
    trial.ask("clear", "a", date, date, "--task", "t2")
    until(10, lambda: tasks()[2] == ["t2", "success"], "a new task is done where it is cleared")
    replace(graph("a", "true", "true"), "refused 18 OtherTasks t2")
    daily = graph("a", "true", "true", "true").replace('"None"', '"@daily"')
    replace(daily, f"refused 20 Redoes {date}")
    replace(daily.replace("2024-01-01", "2199-01-01"))
    expect(trial.ask("replace", "a.toml")[:2] == (0, "ok\n"), "the same text again")
    expect(trial.rows("SELECT body FROM dag")[0][0] == trial.text("a.toml"), "the record has the last text")
    expect(trial.ask("replace", "inline")[0] == 2, "a text is no command")
    expect(trial.end() == 0, "the end")


def ended_asks(trial, options):
    """Commands whose `ask` is ended at random moments are done once or not at all."""
    trial.begin()
    for number in range(options.rounds):
        it = subprocess.Popen([f"{HERE}/ask", trial.path, "resize", f"pool{number}", "1"], stdout=subprocess.DEVNULL, stderr=subprocess.DEVNULL)
        time.sleep(options.random.uniform(0, 1.5))
        it.send_signal(options.random.choice((signal.SIGTERM, signal.SIGINT, signal.SIGKILL)))
        it.wait(10)
    until(20, lambda: not [it for it in os.listdir(trial.folder.at("inbox"))], "all is done, and what was killed leaves nothing")
    pools, asked = trial.ask("list", "pools")[1], 0
    for number in range(options.rounds):
        times = len(re.findall(f"> resize pool{number} 1\n", trial.said()))
        expect(times == len(re.findall(f"(?m)^pool{number} 1 ", pools)), f"pool{number} was asked {times} times:\n{trial.said()}")
        asked += times
    expect(trial.end() == 0, "the end")
    return f"{asked} of {options.rounds} commands were done"


def kills(trial, options):
    """Graphs that are loaded and triggered once each while serve or its scheduler is killed: each has one run at the end, and it has ended."""
    trial.begin()
    count = max(6, options.rounds)
    for name in map("g{}".format, range(count)):
        with open(trial.folder.at(f"{name}.toml"), "w") as it:
            it.write(graph(name, f"sleep 0.{options.random.randrange(9)}", "true", retries=20))
        trial.put(name, f"load {name}.toml\n# a comment\n\ntrigger {name}\nresize {name} 3\n")
        time.sleep(options.random.uniform(0, 0.5))
        which = options.random.choice(("serve", "scheduler", "both", "later"))
        if which in ("serve", "both"):
            trial.serve.kill()
        if which in ("scheduler", "both"):
            with contextlib.suppress(OSError, TypeError):
                os.kill(trial.folder.scheduler(), signal.SIGKILL)
        if which != "later":
            trial.serve.wait(20)
            trial.begin()
    def phases():
        it = trial.ask("list", "runs")[1].splitlines()[:-1]
        return sorted((row.split()[0], row.split()[-1]) for row in it)
    wanted = sorted((f"g{it}", "success") for it in range(count))
    until(60, lambda: phases() == wanted, lambda: f"each graph has one run, a success: {phases()}\n{trial.said()}")
    expect(trial.ask("list", "pools")[1].count(" 3 0 3\n") == count, "each resize is done")
    check_again(trial, phases()[0][0])
    programs.end(trial.folder)  # of tries that a kill cut off


def check_again(trial, name):
    """A kill before and after a clear, or a mark, was done: it is done once. Leaves no service."""
    date = trial.ask("list", "runs", name)[1].split("__")[1].split("+")[0] + "Z"
    clear, mark = f"clear {name} {date} {date}", f"mark {name} {date} t1 skipped"
    def becomes(*states):
        until(20, lambda: [it.split()[3] for it in trial.ask("list", "tasks", name)[1].splitlines()[:-1]] == [*states], f"the tasks are {states}")
    def set_back():
        return trial.rows("SELECT sum(since) FROM instance")[0][0]
    for number, (command, state, done) in enumerate(((clear, "success", False), (clear, "success", True), (mark, "skipped", False), (mark, "skipped", True))):
        expect(trial.ask(*clear.split())[0] == 0, "a clear")
        becomes("success", "success")
        before = set_back()
        if done:
            expect(trial.ask(*command.split())[0] == 0, command)
            becomes("success", state)
        expect(trial.end() == 0, "the end")
        once = set_back()
        # what a kill leaves between the answer of the scheduler and the note that it came
        for file, text in ((f"0,again{number}", f"{command}\n"), (".set-back", f"{before} 0,again{number}")):
            with open(trial.folder.at("doing", file), "w") as it:
                it.write(text)
        trial.begin()
        until(10, lambda: os.path.exists(trial.folder.at("done", f"again{number}")), "it is done")
        after = set_back()
        expect((after > once) is not done, f"{command}, which was {'' if done else 'not '}done: {before}, {once}, {after}")
        becomes("success", state)
    expect(trial.end() == 0, "the end")


def hung(trial, _):
    """What hangs is told and ended, and nothing else is."""
    trial.begin("--workers", "2")
    trial.load("hang", HANGS)
    trial.load("other", "sleep 1000")
    trial.ask("trigger", "hang")
    trial.ask("trigger", "other")
    until(10, lambda: {*programs.programs(trial.folder)} == {1, 2} and len(programs.programs(trial.folder)[1]) == 2, "both hang")
    told = trial.run("tries", trial.path).stdout.splitlines()
    expect(re.fullmatch(r"try 1 hang [^ ]+ t0 1, since [^ ]+, process [0-9]+ [0-9]+", told[0]) and len(told) == 2, f"tries: {told}")
    expect(trial.run("end", trial.path, "77").returncode == 1, "there is no such try")
    expect(trial.run("end", trial.path, "--left").returncode == 1, "a scheduler is at work")
    ended = trial.run("end", trial.path, "1")
    expect(ended.returncode == 0 and ended.stdout.startswith("ended try 1 hang"), f"end: {ended}")
    until(10, lambda: trial.outcomes() == ["failed", None], lambda: f"one has failed, the other goes on: {trial.outcomes()}")
    expect(list(programs.programs(trial.folder)) == [2], "no other program got a signal")
    trial.serve.kill()
    trial.serve.wait()
    trial.begin(at_work=False)
    until(10, lambda: "of a serve that was killed" in trial.said() and "waits for try 2 other" in trial.said(), "the next serve waits for the tries")
    expect(trial.run("end", trial.path, "2").returncode == 0, "end of the other")
    until(20, trial.began, "the next serve begins")
    expect(trial.ask("list", "runs")[0] == 0, "it takes commands")
    expect(trial.outcomes() == ["failed", "failed"], f"both have failed: {trial.outcomes()}")
    expect(trial.end() == 0, "the end")


# hourly runs that wait
LATE = """resize closed 0
load inline
dag_id = "late"
schedule = "@hourly"
start_date = "%s"
task = [{ task_id = "t", operator = "noop", pool = "closed" }]
.
tick now
"""


def checks(trial, _):
    """What is wrong is told in a line, and old scripts and answers are removed."""
    expect(trial.run("check").returncode == 3 and trial.run("check", trial.path).returncode == 2, "unknown, and no service")
    gone = trial.run("check", f"{trial.path}/gone")
    expect(gone.returncode == 2 and gone.stdout.startswith(f"DAGSCHED CRITICAL - there is no folder {os.path.realpath(trial.path)}/gone | "), f"no folder: {gone}")
    wide = ("--disk=99.9", "--clock=60")
    subprocess.run([trial.program, "--record", trial.folder.record, "run"], input=LATE % service.stamp(time.time() - 4 * 3600), text=True, capture_output=True, check=True)
    trial.begin()
    until(10, lambda: re.search("CRITICAL - unfinished: late scheduled__[^ ]+ and [234] later of its runs [|].* unfinished=[345];", trial.run("check", trial.path, "--unfinished=0", *wide).stdout),
          lambda: trial.run("check", trial.path, "--unfinished=0", *wide).stdout)
    trial.load("bad", "exit 3")
    until(10, lambda: trial.run("check", trial.path, *wide).returncode == 0, lambda: trial.run("check", trial.path, *wide).stdout)
    trial.write("bad", graph("bad", "exit 4"))
    os.utime(trial.folder.at("bad.toml"), (0, 0))
    changed = trial.run("check", trial.path, *wide)
    expect(changed.returncode == 1 and f"bad.toml is not the text by which bad goes: ask {trial.path} replace bad.toml" in changed.stdout, f"a changed file: {changed}")
    expect(trial.ask("replace", "bad.toml")[0] == 0 and trial.run("check", trial.path, *wide).returncode == 0, lambda: f"it is replaced:\n{trial.said()}")
    trial.ask("trigger", "bad")
    until(10, lambda: trial.outcomes() == ["failed"], "a run fails")
    line = trial.run("check", trial.path, *wide, "--all")
    told = re.fullmatch(r"DAGSCHED CRITICAL - failed: .* \| disk=.* failed=1;.*\n.*\n", line.stdout)
    expect(line.returncode == 2 and told, f"check: {line}")
    with open("/dev/full", "w") as full:
        expect(subprocess.run([f"{HERE}/check", trial.path], stdout=full, stderr=subprocess.DEVNULL).returncode == 4, "a line that is not taken")
    expect(trial.end() == 0, "the end")
    for place in ("done", "refused", "answers"):
        trial.touch("old", trial.folder.at(place, "old"))
    trial.begin("--keep=0")
    until(5, lambda: not os.listdir(trial.folder.at("done")) and not os.path.exists(trial.folder.at("answers", "old")), "what is older than --keep is removed")
    expect(trial.end() == 0, "the end")


def failures(trial, _):
    """A program is called once for each end of a run that fails."""
    with open(trial.folder.at("tell.sh"), "w") as it:
        it.write(TELLS)
    os.chmod(trial.folder.at("tell.sh"), 0o755)
    trial.begin()
    for name in ("before", "bad", "slow"):
        trial.load(name, "exit 3")
    trial.ask("trigger", "before")
    until(10, lambda: trial.outcomes() == ["failed"], "a run fails while nobody is to be told")
    expect(trial.end() == 0, "the end")
    tell = f"--on-failure={trial.folder.at('tell.sh')}"
    trial.begin(tell)
    for name in ("bad", "slow"):
        trial.ask("trigger", name)
    def told():
        return trial.text("told.out").splitlines() if os.path.exists(trial.folder.at("told.out")) else []
    until(15, lambda: len(told()) == 2 and " manual__" in told()[0], lambda: f"each end is told: {told()}")
    trial.serve.kill()
    trial.serve.wait()
    trial.begin(tell)
    date = told()[0].split("__")[1].split("+")[0] + "Z"
    expect(trial.ask("clear", told()[0].split()[0], date, date)[0] == 0, "clear")
    until(15, lambda: len(told()) == 3, lambda: f"an end after a clear is another end: {told()}\n{trial.said()}")
    time.sleep(2)
    expect(len(told()) == 3, f"no end is told twice: {told()}")
    expect(trial.end() == 0, "the end, with a program of --on-failure that hangs")
    for process in map(int, trial.text("slow.out").split()):  # that of the serve that was killed has a minute
        with contextlib.suppress(OSError):
            os.kill(process, signal.SIGKILL)


def pages(trial, _):
    """The page of a night is whole while it is written, and is written once more at the end; where it cannot be, that is said, and all goes on."""
    site = pathlib.Path(trial.beside("page.out"))
    front = site / "index.html"
    night.make(trial, f"--page={site}", "--page-each=1")
    until(60, lambda: front.exists() and "pool scales needs 1 open 0" in front.read_text(), lambda: f"the page tells what waits:\n{trial.said()}")
    count = len(paged.check_site(site))
    expect("run-queued 1 limit 1" in front.read_text() and ">paused<" in front.read_text(), "it tells of the queue and the pause")
    night.end(trial)
    after = paged.check_site(site)
    expect(time.strftime("%Y-%m-%d %H:%M:%S", time.gmtime(trial.now())) in front.read_text(), "the page is that of the end")
    trial.begin("--page-each=1", environment={"PAGE": trial.beside("nowhere/page")})
    until(60, lambda: "the page in " in trial.said() and "No such file" in trial.said(), lambda: f"a page that cannot be written is told:\n{trial.said()}")
    expect(trial.ask("list", "runs")[0] == 0, "the service goes on")
    night.end(trial)
    return f"{count} pages, {len(after)} at the end"


def chain(trial, _):
    """A chain of short tasks takes a second a link, and the log has each try once."""
    trial.begin(seconds="5")
    trial.load("chain", *["true"] * 6)
    begun = time.monotonic()
    trial.ask("trigger", "chain")
    until(20, lambda: trial.outcomes() == ["success"] * 6, lambda: f"{trial.outcomes()}")
    took = time.monotonic() - begun
    expect(took < 15, f"six short tasks took {took} s")
    until(5, lambda: "ended 6 " in trial.said(), "the last end is said")
    lines = trial.said().splitlines()
    expect(all(re.match(r"[0-9-]{10}T[0-9:]{8}Z ", it) for it in lines), "each line has its time")
    for serial, word in ((serial, word) for serial in range(1, 7) for word in ("try", "ended")):
        expect(len([it for it in lines if re.match(f"[^ ]+ {word} {serial} chain ", it)]) == 1, f"{word} {serial} is said once")
    expect(trial.end() == 0, "the end")
    return f"six tasks of a chain took {took:.0f} s"


POINTS = (signals, second_signals, copies, copies_of_busy, asks, edits, ended_asks, kills, hung, checks, failures, pages, chain)
