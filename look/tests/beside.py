"""What `try` asks of `grid` and `gantt` beside schedulers at work, of which some are killed."""
import contextlib
import os
import random
import re
import shutil
import subprocess
import threading
import time
from unittest import mock

import made
import record as records
import snapshot
from calling import LOOK, is_made, look

PAGE = LOOK.parent / "docs" / "IN_USE.md"
LOG = "night/logs/dag_id=night/run_id=scheduled__2024-03-01T00:00:00+00:00/task_id=check/attempt=1.log"


def rows_below(printed, word):
    """The lines of a grid from the row of this name on."""
    lines = printed.splitlines()
    return lines[next(number for number, it in enumerate(lines) if it.startswith(word)) :]


class Scheduler:
    """A scheduler at work on the record of a folder, which reads its script from here."""

    def __init__(self, program, folder, *options):
        self.answers = open(folder / "answers", "ab")
        command = [program, "--record", folder / "record.db", "run", *options]
        self.process = subprocess.Popen(command, stdin=subprocess.PIPE, stdout=subprocess.PIPE, stderr=self.answers, text=True, cwd=folder)

    def ask(self, *lines):
        self.process.stdin.writelines(f"{it}\n" for it in lines)
        self.process.stdin.flush()

    def end(self):
        self.process.stdin.close()
        self.process.stdout.read()
        assert self.process.wait() == 0

    def kill(self):
        self.process.kill()
        self.process.wait()
        with contextlib.suppress(OSError):
            self.process.stdin.close()
        self.answers.close()


class Night(threading.Thread):
    """A night of half a minute."""

    def __init__(self, program, folder):
        super().__init__(daemon=True)
        folder.mkdir()
        shutil.copy(LOOK / "night.toml", folder)
        self.folder, self.first = folder, int(time.time())
        self.scheduler = Scheduler(program, folder, "--workers", "8", "--lanes", "16", "--logs", "logs")

    def run(self):
        self.scheduler.ask("resize loads 2", "load night.toml")
        for _ in range(32):
            self.scheduler.ask("tick now")
            time.sleep(1)
        self.scheduler.end()


class Busy(threading.Thread):
    """A scheduler that writes as fast as it can, and that is killed and started again."""

    TASKS = 30

    def __init__(self, program, folder):
        super().__init__(daemon=True)
        folder.mkdir()
        (folder / "busy.toml").write_text(made.text_of_graph("busy", [f"t{it}" for it in range(self.TASKS)]).replace("start_date", "max_active_runs = 64\nstart_date"))
        self.program, self.folder, self.answered, self.kills, self.ending = program, folder, 0, 0, False
        self.scheduler = None

    def run(self):
        moment = made.FIRST
        while not self.ending:
            self.scheduler = it = Scheduler(self.program, self.folder, "--lanes", "16")
            with contextlib.suppress(BrokenPipeError):
                it.ask("load busy.toml")
                told = self.until_told(it, 1)
                while told and not self.ending:
                    moment += 5 * made.DAY
                    it.ask(f"tick {records.text_of(moment)}")
                    told = self.until_told(it, 1)
                    self.answered = moment if told else self.answered
                    it.ask("drain", "resize told 1")
                    told = told and self.until_told(it, 2)
            it.kill()

    @staticmethod
    def until_told(scheduler, answers):
        """Whether so many commands were answered; one that was killed answers no more."""
        for line in scheduler.process.stdout:
            answers -= line == "ok\n"
            if not answers:
                return True
        return False

    def kill(self):
        if self.scheduler:
            self.scheduler.process.kill()
            self.kills += 1


def states_told(program, record):
    """The states that `list tasks` prints, by run and task. It refuses a record that breaks a rule of docs/RECORD.md."""
    listed = subprocess.run([program, "--record", record, "list", "tasks"], capture_output=True, text=True)
    assert listed.returncode == 0, listed.stdout
    return {(run.split("__")[1], task): state for _, run, task, state, _ in (it.split() for it in listed.stdout.splitlines() if it != "ok")}


def copied_slowly(source, to):
    """Copies a file in two halves, with time for some events or for a checkpoint before each."""
    with open(source, "rb") as it, open(to, "wb") as out:
        for size in (os.fstat(it.fileno()).st_size // 2, -1):
            time.sleep(random.uniform(0, 0.1))
            out.write(it.read(size))


def copy_beside(record, copy, slowly):
    """Copies a record until no checkpoint falls into it, and tells at which time that was."""
    for number in range(1, 41):
        slow = mock.patch.object(snapshot.shutil, "copyfile", copied_slowly) if slowly and number < 20 else contextlib.nullcontext()
        with slow:
            if snapshot.copied_once(record, copy):
                return number
    raise AssertionError("no copy could be made")


def check_copy(program, busy, work, slowly):
    """A copy beside the scheduler is a record as after some whole event, with all that was answered before."""
    answered = busy.answered
    with snapshot.temporary_folder() as folder:
        times = copy_beside(busy.folder / "record.db", folder / "record.db", slowly)
        kept = work / "kept"
        shutil.rmtree(kept, ignore_errors=True)
        shutil.copytree(folder, kept)
        with records.opened(folder) as it:
            assert it.now >= answered, f"the copy is older than an answer: {it.now}, {answered}"
            assert it.rows.execute("PRAGMA integrity_check").fetchall() == [("ok",)]
            runs = [found.logical for found in it.latest_runs("busy")] if it.dags else []
            seen = {(records.text_of(run, "%Y-%m-%dT%H:%M:%S+00:00"), task): state for run in runs for task, state in it.states("busy", run).items()}
    assert seen == states_told(program, kept / "record.db"), "grid sees other states than list tasks"
    return times


def check_busy(program, work, seconds):
    """Copies beside a scheduler that writes as fast as it can, and is killed."""
    busy, until, times, looks = Busy(program, work / "busy"), time.time() + seconds, [], 0
    busy.start()
    while not busy.answered:
        time.sleep(0.05)
    while time.time() < until:
        times.append(check_copy(program, busy, work, looks % 2))
        look("grid", busy.folder, "--last", 5)
        look("gantt", busy.folder, "--last", 5)
        look("why", busy.folder, "busy", records.text_of(made.FIRST), "t0", "--program", program)
        looks += 1
        if random.random() < 0.4:
            busy.kill()
    busy.ending = True
    busy.join()
    beside = sorted(it.name for it in busy.folder.iterdir() if it.name.startswith("record.db"))
    assert beside == ["record.db", "record.db-wal"], beside
    copies = f"{len(times)} copies that dagsched opens, {times.count(1)} of them made at the first time, all at time {max(times)} at the latest"
    print(f"beside a scheduler killed {busy.kills} times: {looks} looks, and {copies}")


def check_night_under_way(night):
    """The night while it lasts: what was said stands there, and a program at work is told as running."""
    while not is_made("night") or "night:" not in look("grid", "night"):
        time.sleep(0.3)
    seen = set()
    while "r running" not in seen:
        seen.update(rows_below(look("grid", "night", "--logs", "night"), "tasks")[0].replace("tasks: ", "").split("  "))
    assert ": in flight, " in look("gantt", "night")
    print("a night under way is seen")


def check_night(night, picture):
    """The night at its end."""
    night.join()
    printed = look("grid", "night")
    assert printed == PAGE.read_text().split("## A look")[1].split("```\n")[1], printed
    assert look("grid", "night", "--logs", "night/logs") == printed.replace("\n\ntasks:", f"\n{LOG}\n\ntasks:")
    drawn = look("gantt", "night", records.text_of(night.first), "--logs", "night/logs")
    assert len(re.findall(r"<rect .*<title>", drawn)) == 8, drawn
    assert len(re.findall(r'<a href="file:.*/attempt%3D[12].log"><rect', drawn)) == 8, drawn
    assert drawn.count(">03-01</text>") == 7, "each of seven rows has its date"
    if picture:
        # without links into a folder that is gone then
        picture.write_text(look("gantt", "night", records.text_of(night.first)))
    print("the night is as it should be")
