"""A service that `try` puts on a folder of its own, to see what becomes of it."""
import contextlib
import os
import signal
import sqlite3
import subprocess
import time

import programs
import service
import snapshot

HERE = os.path.dirname(os.path.realpath(__file__))
KNOWN = {"answers", "dagsched-scratch", "doing", "done", "inbox", "lock", "logs", "record.db", "record.db-wal", "refused", "told"}
GRAPH = 'dag_id = "{0}"\nschedule = "None"\nstart_date = "2024-01-01"\n'
TASK = '[[task]]\ntask_id = "{0}"\noperator = "command"\nargv = ["sh", "-c", "{1}"]\nupstream = [{2}]\nretries = {3}\nretry_delay = 1\n'


def graph(name, *programs, retries=0):
    """A graph of tasks one after another."""
    return GRAPH.format(name) + "".join(TASK.format(f"t{at}", it, f'"t{at - 1}"' if at else "", retries) for at, it in enumerate(programs))


def expect(held, what):
    if not held:
        raise AssertionError(what() if callable(what) else what)


def until(seconds, test, what):
    end = time.monotonic() + seconds
    while not test():
        expect(time.monotonic() < end, what)
        time.sleep(0.05)


class Trial:
    """A folder, and the service on it. Files whose names end with .toml, .out and .sh are those of the trial."""

    def __init__(self, program, work, name):
        self.program, self.work, self.path = program, work, os.path.join(work, name)
        os.makedirs(self.path, exist_ok=True)
        self.folder, self.serve, self.log = service.Folder(self.path), None, f"{self.path}.log"

    def beside(self, name):
        return os.path.join(self.work, name)

    def touch(self, name, path=None):
        with open(path or self.folder.at(name), "w"):
            pass

    def text(self, *names):
        with open(self.folder.at(*names), errors="replace") as it:
            return it.read()

    def put(self, name, text, mode=0o644):
        """Puts a script into the inbox."""
        with open(self.folder.at("inbox", ".put"), "w") as it:
            os.fchmod(it.fileno(), mode)
            it.write(text)
        os.rename(self.folder.at("inbox", ".put"), self.folder.at("inbox", name))

    def begin(self, *options, seconds="1", before=(), at_work=True, environment=None):
        words = [*before, f"{HERE}/serve", self.program, self.path, seconds, *options]
        with open(self.log, "ab") as log:
            environment = {**os.environ, **(environment or {})}
            self.serve = subprocess.Popen(words, stdin=subprocess.DEVNULL, stdout=log, stderr=log, env=environment, start_new_session=True)
        if at_work:
            until(20, lambda: self.began() or self.serve.poll() is not None, lambda: f"no service began:\n{self.said()}")

    def began(self):
        """Whether the scheduler is one of this serve, and of none that was killed."""
        with contextlib.suppress(OSError), open(f"/proc/{self.folder.scheduler()}/stat") as it:
            return int(it.read().rsplit(") ", 1)[1].split()[1]) == self.serve.pid
        return False

    def end(self, number=signal.SIGTERM, seconds=30):
        self.serve.send_signal(number)
        return self.serve.wait(seconds)

    def run(self, name, *words, **options):
        return subprocess.run([f"{HERE}/{name}", *words], capture_output=True, text=True, timeout=60, **options)

    def ask(self, *words):
        it = self.run("ask", self.path, *words)
        return it.returncode, it.stdout, it.stderr

    def write(self, name, text):
        """Writes the file of a graph."""
        with open(self.folder.at(f"{name}.toml"), "w") as it:
            it.write(text)

    def load(self, name, *programs, retries=0):
        self.write(name, graph(name, *programs, retries=retries))
        expect(self.ask("load", f"{name}.toml")[:2] == (0, "ok\n"), lambda: f"load of {name}:\n{self.said()}")

    def said(self):
        with open(self.log, errors="replace") as it:
            return it.read()

    def rows(self, query):
        with snapshot.rows_of(self.folder.record) as rows:
            return rows.execute(query).fetchall()

    def now(self):
        """The record's clock, 0 where there is no record yet, or none with tables."""
        with contextlib.suppress(sqlite3.OperationalError, snapshot.NoRecord):
            return self.rows("SELECT now FROM meta")[0][0]
        return 0

    def outcomes(self):
        return [service.OUTCOMES[it[0]] if it[0] is not None else None for it in self.rows("SELECT outcome FROM attempt ORDER BY serial")]

    def check_gone(self):
        """Nothing of the service is left: no process, no file that is not its own."""
        until(20, lambda: not self.folder.scheduler() and not programs.programs(self.folder), "a process is left")
        left = [f"{place}/{it}" for place in ("inbox", "doing") for it in os.listdir(self.folder.at(place))]
        left += [it for it in os.listdir(self.path) if it not in KNOWN and not it.endswith((".toml", ".out", ".sh"))]
        expect(not left, f"left is {left}")
