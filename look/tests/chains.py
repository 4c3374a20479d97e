"""What `try` asks of `why`: that its chains are those of `explain`, whole and quick, what it advises, its faults, terminals and signals."""
import os
import random
import re
import signal
import subprocess
import time

import made
from asked import copies_of
from beside import Scheduler
from calling import LOOK, answers_of, is_made, look, measured, on_terminal
from chain import READY
from record import Record, opened, text_of

HEAD = 'dag_id = "{0}"\nschedule = "@daily"\nstart_date = "2024-03-01"\n{1}'
TASK = '[[task]]\ntask_id = "{0}"\n{1}'
FAILS, PASSES, PAST = 'operator = "exit"\nargv = ["1"]\n', 'operator = "noop"\n', "depends_on_past = true\n"
MORE = f"\nIf this record is a copy, give such a command to the one that it was made of, to that of a service by `ask FOLDER`.\nMore: {LOOK.parent}/docs/EXPLAIN.md#what-to-do"
# what waits for a try in flight, and how a script tells it
IN_FLIGHT, HANDED_BACK = (re.compile(f"^((?:upstream|past) .*) (?:{it})$") for it in ("queued|running", "scheduled|up_for_retry"))
CHAIN = """\
orders 2024-03-09T00:00:00Z report  none             upstream load none
orders 2024-03-09T00:00:00Z load    none             past 2024-03-08T00:00:00+00:00 none
orders 2024-03-08T00:00:00Z load    none             past 2024-03-07T00:00:00+00:00 none
    .. 5 more runs of which the same is so
orders 2024-03-02T00:00:00Z load    none             past 2024-03-01T00:00:00+00:00 upstream_failed
orders 2024-03-01T00:00:00Z load    upstream_failed  finished upstream_failed, run-finished failed, upstream extract failed
orders 2024-03-01T00:00:00Z extract failed           finished failed, run-finished failed
    Read the log of its last try: --logs says in which folder logs are.
    When the cause is gone, let it and what failed by it be done again:
        dagsched --record past.db clear --only-failed orders 2024-03-01T00:00:00Z 2024-03-01T00:00:00Z
"""


def upstream(*names):
    return f"upstream = {[*names]}\n".replace("'", '"')


def orders(fails, more="", past=PAST):
    """A graph of which one task may fail, and another waits for the run before."""
    tasks = ("extract", FAILS if fails else PASSES), ("load", PASSES + upstream("extract") + past), ("report", PASSES + upstream("load"))
    return HEAD.format("orders", more) + "".join(TASK.format(*it) for it in tasks)


def load(path, text, word="load"):
    file = path.with_suffix(".toml")
    file.write_text(text)
    return f"{word} {file}"


def why(program, *words, **more):
    return look("why", *words, "--program", program, **more)


def check_answers(program, path):
    """What a script tells of instances without a verdict is what a command tells, but for the states of what is in flight, and so of those that are finished."""
    asked = 0
    with opened(path) as record:
        graphs = record.dags
    for dag in graphs:
        with copies_of(program, path, dag) as copies:
            record, keys = Record(copies.rows), []
            for run in record.latest_runs(dag):
                states = record.states(dag, run.logical)
                keys += [(run.logical, task) for task, state in states.items() if state not in READY]
            keys = random.sample(keys, min(len(keys), 40))
            told = copies.explain(keys) if keys else []
            for key, found in zip(keys, told):
                wanted = [IN_FLIGHT.sub(r"\1 in flight", it) for it in copies.explain_as_it_is(*key)]
                is_same = len(wanted) == len(found) and all(it in (other, HANDED_BACK.sub(r"\1 in flight", other)) for it, other in zip(wanted, found))
                assert is_same, (path, dag, key, wanted, found)
            asked += len(keys)
    return asked


def check_past(program, work):
    """A chain of days, as it is printed, and the standstill that comes of it."""
    path = work / "past.db"
    script = [load(path, orders(True)), "tick 2024-03-02", "drain"]
    answers_of(program, path, *script)
    answers_of(program, path, load(path, orders(False), "replace"), "tick 2024-03-10", "drain")
    assert why(program, "past.db", "orders", "2024-03-09", "report") == CHAIN + MORE + "\n", why(program, "past.db", "orders", "2024-03-09", "report")
    whole = why(program, "past.db", "orders", "2024-03-09", "report", "--whole")
    assert len(re.findall("^orders [^ ]+ load ", whole, re.M)) == 9 and "more runs" not in whole, whole
    assert check_answers(program, path) == 27
    answers_of(program, path, "tick 2024-03-20", "drain", "tick 2024-03-30", "drain")
    told = why(program, "past.db", "orders", "2024-03-20", "report")
    assert "finished failed, run-finished failed\n    16 of its runs are running, no more may be" in told and "finished failed" in told.split("\n\n")[0], told
    answers_of(program, path, "clear orders 2024-03-01 2024-03-01 --only-failed")
    for day in ("2024-03-20", "2024-03-02"):
        told = why(program, "past.db", "orders", day, "report")
        assert "extract none  run-queued 16 limit 16\n    16 of its runs are running, no more may be" in told and told.endswith(" and #a-standstill\n"), told
    answers_of(program, path, load(path, orders(False, "max_active_runs = 1000000\n"), "replace"), "drain")
    assert "finished success" in why(program, "past.db", "orders", "2024-03-20", "report")
    print("why follows days to the one that failed, and tells of a standstill")


WAITS = HEAD.format("waits", 'end_date = "2024-03-02"\nmax_active_runs = 1\n') + "".join(TASK.format(*it) for it in (
    ("runs", 'operator = "command"\nargv = ["sleep", "600"]\n'), ("after", PASSES + upstream("runs")),
    ("wide", PASSES + 'pool = "small"\npool_slots = 2\n'),
    ("again", FAILS + "retries = 1\n"), ("fails", 'operator = "command"\nargv = ["false"]\n'), ("barred", PASSES + upstream("fails")),
    ("last", PASSES + upstream("after", "wide", "again", "barred") + 'trigger_rule = "all_done"\n'),
    ("skips", 'operator = "exit"\nargv = ["99"]\n'), ("passed", PASSES + upstream("skips")), ("alarm", PASSES + upstream("skips") + 'trigger_rule = "one_failed"\n'),
))
# of a task the words that the answer has, in this order
TOLD = {
    "last": ["last none  upstream wide scheduled", "wide scheduled  pool small needs 2 open 1", "it has 1 slot in all, and this takes 2", "resize small 2",
             "last none  upstream again up_for_retry", "retry-at 20", "clear --task=again waits", "upstream after none", "upstream runs running", "handed-out "],
    "barred": ["barred upstream_failed  finished upstream_failed, upstream fails failed", "fails failed  finished failed", "Read its log: ",
               "/task_id=fails/attempt=1.log", "clear --only-failed waits "],
    "after": ["after none  upstream runs running", "runs running  handed-out ", "Wait for its program"],
    "passed": ["passed skipped  finished skipped, upstream skips skipped", "skips skipped  finished skipped", "by status 99", "clear --task=skips waits"],
    "alarm": ["alarm skipped  finished skipped, upstream skips skipped"],
    "wide": ["wide scheduled  pool small needs 2 open 1\n"],
}


def check_kinds(program, work):
    """A try in flight, a full pool, a retry, skips and a queued run, beside a scheduler at work."""
    folder = work / "kinds"
    folder.mkdir()
    (folder / "waits.toml").write_text(WAITS)
    scheduler = Scheduler(program, folder, "--workers", "4", "--lanes", "8", "--logs", "logs")
    try:
        scheduler.ask("resize small 1", "load waits.toml", "tick now")
        until = time.time() + 60
        while not is_made(folder) or "running" not in look("grid", folder) or "y up_for_retry" not in look("grid", folder):
            assert time.time() < until, "no retry is due, or no task runs"
            scheduler.ask("tick now")
            time.sleep(0.2)
        for task, words in TOLD.items():
            told, at = re.sub(" +", " ", why(program, folder, "waits", "2024-03-01", task)), 0
            for it in words:
                at = told.index(re.sub(" +", " ", it), at)
        told = why(program, folder, "waits", "2024-03-02", "passed")
        assert "skips  none  run-queued 1 limit 1\n    Wait until a run of the graph ends: 1 are running" in told, told
        asked = check_answers(program, folder)
    finally:
        scheduler.kill()
    print(f"why tells of what is in flight, waits and was skipped; {asked} answers of scripts are those of commands")


def counting(program, work):
    """A program that notes each call of another one."""
    file = work / "counting"
    file.write_text(f'#!/bin/sh\necho "$3" >> {work}/calls\nexec {program} "$@"\n')
    file.chmod(0o755)
    return file


def check_long(program, work):
    """A thousand days that wait for the first, in ten tasks, are told within seconds, by one script."""
    path, names = work / "long_past.db", [f"t{it}" for it in range(10)]
    tasks = "".join(TASK.format(it, (PASSES if at else FAILS) + PAST + (upstream(names[at - 1]) if at else "")) for at, it in enumerate(names))
    ticks = [f"tick {text_of(1709337600 + 10 * at * made.DAY)}" for at in range(101)]
    answers_of(program, path, load(path, HEAD.format("orders", "max_active_runs = 1000000\n") + tasks), *ticks, "drain")
    program = counting(program, work)
    used, took, memory = min(measured("why", path, "orders", "2026-11-20", "t9", "--program", program) for _ in range(3))
    assert used < 10 and memory < 200, (used, took, memory)
    calls = (work / "calls").read_text().split("\n")
    told = why(program, path, "orders", "2026-11-20", "t9")
    assert calls[:-1] == ["", "run"] * 3 and "t0 failed" in re.sub(" +", " ", told) and ".. 991 more runs" in told, (calls, told)
    print(f"why of a thousand days in ten tasks: {took:.2f} s, {used:.2f} s of a processor, {memory} MB, one script")


def check_faults(program, work):
    """What is not there is told, with what is, the nearest first, and nothing is left."""
    for words, status, told in (
        (["nothing.db", "orders", "2024-03-01", "load"], 3, "nothing.db: No such file or directory\n"),
        (["past.db", "order", "2024-03-01", "load"], 1, "order: no graph of this record; it has orders\n"),
        (["past.db", "orders", "2024-03-01T02:00:00Z", "load"], 1, "2024-03-01T02:00:00Z: no run of orders has this date; it has 2024-03-01T00:00:00Z, 2024-03-02T00:00:00Z, "),
        (["past.db", "orders", "2024-03-01", "lod"], 1, "lod: no task of orders; it has load, "),
        (["past.db", "orders", "yesterday", "load"], 2, "yesterday is no moment: write a day"),
        (["past.db", "orders", "2024-03-01"], 2, "required: TASK"),
        (["past.db", "orders", "2024-03-01", "load", "--most", "0"], 2, "0 is no number from 1"),
    ):
        found = why(program, *words, status=status)
        assert told in found and "Traceback" not in found, found
    words = ["past.db", "orders", "2024-03-01", "load"]
    for other in ("/bin/true", "/nothing", str(work)):
        found = why(other, *words, status=5)
        assert found.startswith(f"{other}: this is no dagsched that could explain: ") and found.count("\n") == 1, found
    with open("/dev/full", "wb") as full:
        assert subprocess.run([LOOK / "why", *words, "--program", program], stdout=full, stderr=subprocess.DEVNULL).returncode == 4
    with subprocess.Popen([LOOK / "why", *words, "--program", program], stdout=subprocess.PIPE, stderr=subprocess.PIPE) as it:
        it.stdout.close()
        assert it.stderr.read() == b"" and it.wait() == 0
    assert all(it in look("why", "--help") for it in "RECORD DAG DATE TASK --most --whole --width --program --logs".split())
    made.make("odd_verdict.db", "orders", ["load"], 2)
    subprocess.run(["sqlite3", "odd_verdict.db", "UPDATE instance SET since = 7"], check=True)
    before = [(it, it.stat().st_mtime_ns, it.read_bytes()) for it in sorted(work.glob("past*"))]
    why(program, *words)
    assert before == [(it, it.stat().st_mtime_ns, it.read_bytes()) for it in sorted(work.glob("past*"))], "a record is left as it is"
    found = why(program, "odd_verdict.db", "orders", "2000-01-01", "load", status=3)
    assert "odd_verdict.db: dagsched does not explain it: store 3 Inconsistent instance 0\n" == found, found
    print("why tells its faults")


def check_widths(program):
    """Names of 250 bytes on terminals of all widths."""
    task = "a" * 120 + "y" + "a" * 129
    made.make("wide.db", "d" * 250, ["a" * 250, task], 30, version=2, in_flight=1)
    for columns in (16, 40, 80, 250):
        plain = on_terminal(columns, "why", "wide.db", "d" * 250, "2000-01-30", task, "--program", program)
        lines = [it for it in plain.splitlines() if not it.startswith((" " * 8, "More: "))]
        assert max(map(len, lines)) <= columns, plain
        assert "handed-out" in plain, plain


def check_signals(program, work, rounds):
    """Signals leave no copy and no script."""
    ended = 0
    for _ in range(rounds):
        number = random.choice((signal.SIGTERM, signal.SIGINT, signal.SIGHUP))
        it = subprocess.Popen([LOOK / "why", work / "long_past.db", "orders", "2026-11-20", "t9", "--program", program], stdout=subprocess.DEVNULL, stderr=subprocess.DEVNULL)
        time.sleep(random.uniform(0.1, 1))
        it.send_signal(number)
        ended += it.wait() == 128 + number
        assert not os.listdir(os.environ["TMPDIR"])
    print(f"{rounds} signals left no copy, of which {ended} came while why was at work")


def check_page():
    """Each reason has its advice, and its words on the page."""
    from advice import OF_REASONS
    from asked import REASONS
    page = (LOOK.parent / "docs" / "EXPLAIN.md").read_text()
    told = set(re.findall(r"`([a-z-]+)[ `]", "".join(re.findall("^- (`[^:]*):", page.split("## What to do")[1], re.M))))
    assert told == {*REASONS} == {*OF_REASONS, "upstream", "past"}, told


def check(program, work):
    """All of this, of records that are made here."""
    check_page()
    check_past(program, work)
    check_kinds(program, work)
    check_long(program, work)
    check_faults(program, work)
    check_widths(program)
    check_signals(program, work, 10)
