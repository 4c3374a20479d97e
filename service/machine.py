"""What `try` tries of the machine: a full disk, folders that cannot be written, closed streams, odd files, a clock that leaps."""
import contextlib
import os
import re
import shutil
import subprocess
import sys
import tempfile
import time

import service
from trial import HERE, expect, until

NO_DISK = "skipped: no tmpfs may be mounted here"
NOBODY = 65534
AS_NOBODY = ["setpriv", f"--reuid={NOBODY}", f"--regid={NOBODY}", "--clear-groups"]
LIBRARIES = (os.environ.get("FAKETIME_LIBRARY", ""), "/usr/lib/x86_64-linux-gnu/faketime/libfaketime.so.1")
# a scheduler that can write nothing any more
STANDSTILL = """#!/bin/sh
while read -r line; do
    case $line in
        "tick now") echo "store 1 Refused" ;;
        "list pools") echo "default_pool 128 0 128"; echo ok ;;
    esac
done
exit 3
"""
SOON_STUCK = """import working
working.STUCK = 2
exec(open("serve").read())"""


@contextlib.contextmanager
def small_disk(trial, place, options):
    """A disk of its own at a place, on which no service is at work at the end; gives whether there is one."""
    if os.getuid() or subprocess.run(["mount", "-t", "tmpfs", "-o", options, "none", place], capture_output=True).returncode:
        yield False
        return
    try:
        yield True
    finally:
        if trial.serve and trial.serve.poll() is None:
            trial.serve.kill()
            trial.serve.wait()
            until(10, lambda: not trial.folder.scheduler(), "the scheduler ends")
        subprocess.run(["umount", place], check=True)


def fill(path):
    """Writes a file until its disk takes no more."""
    with contextlib.suppress(OSError), open(path, "wb") as it:
        while True:
            it.write(b"x" * 512)
            it.flush()


def full_disk(trial, _):
    with small_disk(trial, trial.path, "size=2m") as is_there:
        if not is_there:
            return NO_DISK
        trial.begin()
        trial.load("long", "sleep 4", retries=3)
        trial.ask("trigger", "long")
        fill(trial.folder.at("fill.out"))
        until(20, lambda: re.search("store 1 Refused|conduct 3 StoreThrice", trial.said()), lambda: f"it says that nothing can be written:\n{trial.said()}")
        expect(trial.run("copy", trial.path, trial.beside("full.out")).returncode == 0, "a copy to another disk")
        status, printed, _ = trial.ask("resize", "late", "2")
        time.sleep(8)
        check_end_on_full_disk(trial)
        done = "late 2 0 2" in trial.ask("list", "pools")[1]
        expect((status, done) in ((3, False), (4, False), (4, True), (0, True)), f"what was answered is so: {status}, {printed}, {done}")
        expect(trial.end() == 0, lambda: f"the end:\n{trial.said()}")
    return None


def check_end_on_full_disk(trial):
    """Where the end of a try was refused three times, the scheduler has ended, and none begins before there is room."""
    if trial.serve.poll() is not None:
        expect(trial.serve.returncode == 3 and "conduct 3 StoreThrice" in trial.said(), lambda: f"the end on a full disk:\n{trial.said()}")
        trial.begin(at_work=False)
        expect(trial.serve.wait(20) in (3, 4), "it does not begin on a full disk")
    os.unlink(trial.folder.at("fill.out"))
    if trial.serve.poll() is not None:
        trial.begin()
    def is_well():
        return trial.outcomes()[-1] == "success" and "lost" not in trial.outcomes()[1:]
    until(20, is_well, lambda: f"the task has ended well: {trial.outcomes()}\n{trial.said()}")


def full_logs(trial, _):
    """A disk of the logs alone that has room for bytes and for no file: check tells it before a try fails by it."""
    logs = trial.folder.at("logs")
    os.makedirs(logs)
    with small_disk(trial, logs, "size=1m,nr_inodes=9") as is_there:
        if not is_there:
            return NO_DISK
        trial.begin()
        trial.load("short", "true", retries=9)
        wide = ("--disk=99.9", "--clock=60")
        until(10, lambda: trial.run("check", trial.path, *wide).returncode == 0, lambda: trial.run("check", trial.path, *wide).stdout)
        for number in range(8):
            trial.touch("", f"{logs}/fill{number}")
        it = trial.run("check", trial.path, *wide)
        expect(it.returncode == 2 and "CRITICAL - the disk of the logs is 100 % full | " in it.stdout and " logs=100.0%;" in it.stdout, f"check: {it}")
        trial.ask("trigger", "short")
        until(10, lambda: trial.outcomes()[:1] == ["failed"], "a try without room for its log fails")
        for number in range(8):
            os.unlink(f"{logs}/fill{number}")
        until(10, lambda: trial.outcomes()[-1] == "success", "it is tried again, and there is room")
        expect(trial.end() == 0, "the end")
    return None


def full_temporary(trial, _):
    """Where TMPDIR is full, what is looked at lies in FOLDER: tries and failed runs are told all the same."""
    place = trial.beside("temporary.out")
    os.makedirs(place)
    with small_disk(trial, place, "size=2m") as is_there:
        if not is_there:
            return NO_DISK
        with open(trial.folder.at("tell.sh"), "w") as it:
            it.write('#!/bin/sh\necho "$AIRFLOW_CTX_DAG_ID" >> told.out\n')
        os.chmod(trial.folder.at("tell.sh"), 0o755)
        trial.begin(f"--on-failure={trial.folder.at('tell.sh')}", environment={"TMPDIR": place})
        until(10, lambda: trial.now() > 0, "the time is told")
        fill(f"{place}/fill")
        trial.load("bad", "exit 3")
        trial.ask("trigger", "bad")
        until(20, lambda: os.path.exists(trial.folder.at("told.out")), lambda: f"the failed run is told:\n{trial.said()}")
        expect(trial.text("told.out") == "bad\n" and "ended 1 bad" in trial.said(), lambda: f"a try is told:\n{trial.said()}")
        expect(trial.end() == 0, "the end")
    return None


def standstill(trial, _):
    """A scheduler that refuses all, though there is room on the disk, is begun anew."""
    with open(trial.folder.at("standstill.sh"), "w") as it:
        it.write(STANDSTILL)
    os.chmod(trial.folder.at("standstill.sh"), 0o755)
    words = [sys.executable, "-B", "-c", SOON_STUCK, trial.folder.at("standstill.sh"), trial.path, "0.5"]
    it = subprocess.run(words, cwd=HERE, capture_output=True, text=True, timeout=30)
    expect(it.returncode == 3 and "could write nothing to the record" in it.stderr, f"a scheduler that stands still: {it}")
    expect(it.stdout.count("store 1 Refused") == 1, "the same refusal is said once a minute")


def unwritable(trial, _):
    if os.getuid() or not shutil.which("setpriv"):
        return "skipped: this is for root with setpriv"
    os.chown(trial.path, NOBODY, NOBODY)
    for place in ("inbox", "logs", "done"):
        os.makedirs(trial.folder.at(place), exist_ok=True)
        os.chown(trial.folder.at(place), 0, 0)
        it = subprocess.run([*AS_NOBODY, f"{HERE}/serve", trial.program, trial.path], capture_output=True, text=True, timeout=20)
        expect(it.returncode == 4 and f"{trial.folder.at(place)} cannot be written" in it.stderr, f"{place}: {it}")
        expect(not os.path.exists(trial.folder.record), "nothing is begun")
        os.chown(trial.folder.at(place), NOBODY, NOBODY)
    trial.begin(before=AS_NOBODY)
    trial.put("hidden", "resize x 1\n", mode=0o600)
    trial.put("endless", "load inline\ndag_id\n")
    until(5, lambda: "inbox/hidden cannot be read" in trial.said() and "a graph in refused/endless does not end" in trial.said(), lambda: trial.said())
    expect(os.listdir(trial.folder.at("inbox")) == ["hidden"], "what cannot be read stays")
    os.chmod(trial.folder.at("inbox", "hidden"), 0o644)
    until(5, lambda: "> resize x 1" in trial.said(), "it is done once it can be read")
    expect(trial.ask("resize", "z", "1")[0] == 0, "root asks")
    os.chown(trial.folder.at("inbox"), 0, 0)
    trial.run("ask", "--no-wait", trial.path, "resize", "y", "1")
    until(5, lambda: "cannot be moved to doing" in trial.said(), "an inbox that cannot be written any more is told")
    os.chown(trial.folder.at("inbox"), NOBODY, NOBODY)
    until(5, lambda: "> resize y 1" in trial.said(), "and done once it can")
    expect(trial.end() == 0, "the end")
    return None


def odd_files(trial, _):
    """Names of any bytes and files of all kinds in the inbox, in a folder with a blank and a new line in its name; streams that are closed."""
    trial.begin(before=["sh", "-c", 'exec "$@" 0<&- 1>&- 2>&-', "sh"])
    trial.put(os.fsdecode(b"a b\n\xfe"), "resize p1 1\n")
    trial.put("x" * 199, "resize p2 1\n" * 12)
    trial.put("x" * 230, "resize p3 1\n")
    trial.put("last", "resize p4 1\n\n# no new line at the end\nresize p5 1")
    os.symlink("/etc/passwd", trial.folder.at("inbox", "link"))
    os.mkdir(trial.folder.at("inbox", "folder"))
    os.mkfifo(trial.folder.at("inbox", "pipe"))
    trial.put("big", "")
    os.truncate(trial.folder.at("inbox", "big"), 10 << 30)
    until(20, lambda: os.path.exists(trial.folder.at("done", "x" * 199)) and os.path.exists(trial.folder.at("done", "last")), "scripts are done")
    pools = trial.ask("list", "pools")[1]
    expect([it.split()[0] for it in pools.splitlines()] == ["default_pool", "p1", "p2", "p4", "p5", "ok"], f"scripts are done, and no others: {pools}")
    left = {"link", "folder", "pipe", "big", "x" * 230}
    expect({*os.listdir(trial.folder.at("inbox"))} == left, "what is no script stays")
    expect(trial.text("lock") == "taking", "no line of the log went into another file")
    expect(trial.end() == 0, "the end")
    os.rmdir(trial.folder.at("inbox", "folder"))
    for it in left - {"folder"}:
        os.unlink(trial.folder.at("inbox", it))


def clock(trial, _):
    """A clock that goes more than a day ahead is told, and waits until it is confirmed."""
    old = f"{service.stamp(time.time() - 30 * 3600)}"
    script = f"resize x 1\ntick {old}\n"
    subprocess.run([trial.program, "--record", trial.folder.record, "run"], input=script.encode(), cwd=trial.path, capture_output=True, check=True)
    trial.touch("clock-is-right")  # one of before confirms nothing
    trial.begin()
    until(10, lambda: "30 hours ahead of the record's" in trial.said(), "a clock a day ahead is told")
    expect(trial.ask("resize", "y", "1")[0] == 0, "commands are done")
    time.sleep(2)
    expect(time.time() - trial.now() > 100000, "the time is not told")
    it = trial.run("check", trial.path)
    expect(it.returncode == 2 and f"30 hours behind the system's: if that is right, touch {trial.folder.at('clock-is-right')} |" in it.stdout, f"check: {it}")
    trial.touch("clock-is-right")
    until(10, lambda: time.time() - trial.now() < 100, "it is told once it is confirmed")
    expect(trial.end() == 0, "the end")


def leaping_clock(trial, _):
    """The system's clock goes two days ahead, and back, and an hour back."""
    library = next((it for it in LIBRARIES if os.path.exists(it)), None)
    if not library:
        return "skipped: libfaketime is not installed"
    rate = trial.folder.at("faketime.out")
    def go(text):
        with open(f"{rate}.out", "w") as it:
            it.write(text)
        os.rename(f"{rate}.out", rate)
    go("+0")
    trial.begin(environment={"LD_PRELOAD": library, "FAKETIME_TIMESTAMP_FILE": rate, "FAKETIME_NO_CACHE": "1", "FAKETIME_DONT_FAKE_MONOTONIC": "1"})
    until(10, lambda: trial.now() > 0, "the time is told")
    go("+2d")
    until(20, lambda: "48 hours ahead" in trial.said(), lambda: f"a clock that goes ahead meanwhile is told:\n{trial.said()}")
    go("+0")
    until(20, lambda: "no more so far ahead" in trial.said(), "it is right again")
    expect(abs(trial.now() - time.time()) < 60, "nothing was told of it")
    go("-1h")
    until(20, lambda: "the record's clock is ahead of the system's until" in trial.said(), "a clock that was set back is told")
    go("+0")
    until(20, lambda: abs(trial.now() - time.time()) < 5, "the time is told again")
    expect(trial.end() == 0, "the end")
    return None


def unit(*_):
    if not shutil.which("systemd-analyze"):
        return "skipped: there is no systemd-analyze here"
    with tempfile.TemporaryDirectory() as place:
        for name in ("dagsched.service", "dagsched-check.service", "dagsched-check.timer"):
            with open(f"{HERE}/{name}") as it, open(f"{place}/{name}", "w") as goal:
                # what it starts is not installed here
                goal.write(re.sub(r"/usr/local/(?:lib/dagsched|bin)/\w+", "/bin/true", it.read()).replace("User=dagsched", "User=daemon"))
        it = subprocess.run(["systemd-analyze", "verify", "--man=no", *(f"{place}/{name}" for name in os.listdir(place))], capture_output=True, text=True)
        faults = [line for line in (it.stdout + it.stderr).splitlines() if "dagsched" in line]
    expect(not faults, f"systemd-analyze: {faults}")
    return "by systemd-analyze verify; package/try has systemd run one"


POINTS = (full_disk, full_logs, full_temporary, standstill, unwritable, odd_files, clock, leaping_clock, unit)
