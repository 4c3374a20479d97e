"""Reads what a record of dagsched says, for the looks: of one run, or of so many as are asked for, so that the memory it takes does not grow with the record."""
import contextlib
import functools
import os
import sqlite3
import time
from typing import NamedTuple, Optional

import files
from snapshot import NoRecord, rows_of

VERSIONS = (1, 2)
UNBOUND = 1_000_000
TABLES = ("meta", "pool", "dag", "run", "instance", "attempt")
OUTCOMES = ("success", "failed", "skipped", "lost")
VERDICTS = ("none", "scheduled", "skipped", "upstream_failed")
KINDS = ("scheduled", "manual", "backfill")
PHASES = ("queued", "running", "success", "failed")
RUNNING, SUCCESS, FAILED = (PHASES.index(it) for it in ("running", "success", "failed"))


class Graph(NamedTuple):
    """A graph by its file. `bound` is how many of its tries may be in flight."""

    name: str
    text: str
    keys: dict
    tasks: list[files.Task]
    paused: bool
    bound: int


class Run(NamedTuple):
    logical: int
    end: int
    kind: int
    phase: int
    start: int


class Try(NamedTuple):
    serial: int
    number: int
    started: Optional[int]
    ended: Optional[int]
    outcome: Optional[int]


class Flying(NamedTuple):
    """A try in flight."""

    serial: int
    dag: str
    logical: int
    task: str
    number: int
    slots: int
    started: Optional[int]


class Instance(NamedTuple):
    """A task instance: its state, and its last try since the last clearing, if there is one."""

    state: str
    serial: Optional[int]
    number: Optional[int]
    ended: Optional[int]


class Counted(NamedTuple):
    """So many runs, and how many of them failed."""

    runs: int
    failed: int


@contextlib.contextmanager
def opened(path):
    """The record at a path, a file or the folder of a service, as it is at this moment."""
    with rows_of(path) as rows:
        try:
            yield Record(rows)
        except (sqlite3.DatabaseError, NoRecord) as error:
            raise NoRecord(f"{path}: {error}") from None


class Record:
    """The rows of a record, by graph and run."""

    def __init__(self, rows):
        self.rows = rows
        self.tables = {it[0] for it in rows.execute("SELECT name FROM sqlite_schema WHERE type = 'table'")}
        if not self.tables:
            raise NoRecord("this is no record: it is empty")
        lacking = [it for it in TABLES if it not in self.tables]
        if lacking:
            raise NoRecord(f"this is no record, but a database of another program: it has no table {lacking[0]}")
        version, self.now, self.next_serial, self.lanes = rows.execute("SELECT version, now, next_serial, lanes FROM meta").fetchone() or [None] * 4
        if version not in VERSIONS:
            known = " and ".join(map(str, VERSIONS))
            raise NoRecord(f"this is a record of version {version}, and this program reads the versions {known}: take the `look` of the dagsched that made it")
        self.dags = [it[0] for it in rows.execute("SELECT dag_id FROM dag ORDER BY dag_id")]

    @functools.lru_cache(maxsize=256)
    def graph(self, dag):
        text, paused = self.rows.execute("SELECT body, paused FROM dag WHERE dag_id = ?", (dag,)).fetchone()
        try:
            keys, tasks = files.read(text)
        except ValueError as fault:
            raise no_graph_file(dag, fault) from None
        return Graph(dag, text, keys, tasks, bool(paused), self.bound(dag))

    def bound(self, dag):
        """How many tries of a graph may be in flight; a record of version 1 becomes one of version 2 with the number that is here."""
        asked = "SELECT max_active_tasks FROM dag_limit WHERE dag_id = ?"
        return self.rows.execute(asked, (dag,)).fetchone()[0] if "dag_limit" in self.tables else UNBOUND

    def tasks(self, dag):
        """The tasks of a graph, in the order of its file."""
        return self.graph(dag).tasks

    def slots(self):
        """The size of each pool."""
        return dict(self.rows.execute("SELECT name, size FROM pool"))

    def full(self, dag):
        """How many tries of a graph are in flight, where it may have no more: else None, and of a record of version 1, which has no bounds."""
        if "dag_limit" not in self.tables:
            return None
        bound = self.bound(dag)
        # a run that has ended has no try in flight
        asked = f"SELECT count(*) FROM run r CROSS JOIN attempt a USING (dag_id, logical) WHERE r.dag_id = ? AND r.phase < {SUCCESS} AND a.ended IS NULL"
        active = self.rows.execute(asked, (dag,)).fetchone()[0]
        return active if active >= bound else None

    def latest_runs(self, dag, since=0, failed=False):
        """The runs of a graph from a date on, latest first; where only those that failed are asked for, also those under way in which a task has."""
        asked = f"SELECT logical, data_end, kind, phase, data_start FROM run WHERE dag_id = ? AND logical >= ? AND (phase <> {SUCCESS} OR ?) ORDER BY logical DESC"
        for it in map(Run._make, self.rows.execute(asked, (dag, since, not failed))):
            if not failed or it.phase == FAILED or "failed" in self.states(dag, it.logical).values():
                yield it

    def nearest_runs(self, dag, logical, most):
        """The dates of the runs of a graph that are nearest to a moment, and how many runs it has."""
        asked = "SELECT logical FROM run WHERE dag_id = ? ORDER BY abs(logical - ?), logical LIMIT ?"
        count = self.rows.execute("SELECT count(*) FROM run WHERE dag_id = ?", (dag,)).fetchone()[0]
        return [it[0] for it in self.rows.execute(asked, (dag, logical, most))], count

    def runs_before(self, dag, logical):
        """How many runs of a graph lie before a date."""
        asked = f"SELECT count(*), coalesce(sum(phase = {FAILED}), 0) FROM run WHERE dag_id = ? AND logical < ?"
        return Counted(*self.rows.execute(asked, (dag, logical)).fetchone())

    def run(self, dag, logical):
        asked = "SELECT logical, data_end, kind, phase, data_start FROM run WHERE dag_id = ? AND logical = ?"
        return Run(*self.rows.execute(asked, (dag, logical)).fetchone())

    def tries(self, dag, logical):
        """The tries of a run by task, each list by their numbers."""
        asked = "SELECT task_id, serial, try_number, started, ended, outcome FROM attempt WHERE dag_id = ? AND logical = ? ORDER BY serial"
        found = {}
        for task, *rest in self.rows.execute(asked, (dag, logical)):
            found.setdefault(task, []).append(Try(*rest))
        return found

    def states(self, dag, logical):
        """The state of each task of a run, as `list tasks` prints it."""
        return {task: it.state for task, it in self.instances(dag, "i.logical = ?", logical).get(logical, {}).items()}

    def running_instances(self, dag):
        """The instances of the running runs of a graph, by date and task."""
        return self.instances(dag, f"i.logical IN (SELECT logical FROM run WHERE dag_id = ? AND phase = {RUNNING})", dag)

    def instances(self, dag, which, *given):
        """The instances of some runs of a graph, by date and task."""
        # beside the greatest number stand the values of its try
        asked = f"""SELECT i.logical, i.task_id, i.verdict, max(a.try_number), i.since, a.started IS NOT NULL, a.outcome, a.serial, a.ended
            FROM instance i LEFT JOIN attempt a ON a.dag_id = i.dag_id AND a.logical = i.logical AND a.task_id = i.task_id AND a.try_number > i.since
            WHERE i.dag_id = ? AND {which} GROUP BY i.logical, i.task_id"""
        retries, found = {it.name: it.retries for it in self.tasks(dag)}, {}
        for logical, task, verdict, number, since, started, outcome, serial, ended in self.rows.execute(asked, (dag, *given)):
            state = state_of(retries.get(task, 0), verdict, number - since if number else 0, started, outcome)
            found.setdefault(logical, {})[task] = Instance(state, serial, number, ended)
        return found

    def flying(self):
        """The tries in flight, by serial."""
        asked = "SELECT serial, dag_id, logical, task_id, try_number, slots, started FROM attempt WHERE ended IS NULL ORDER BY serial"
        return [Flying(*it) for it in self.rows.execute(asked)]

    def phases(self):
        """How many runs of each graph are in each phase."""
        found = {dag: [0] * len(PHASES) for dag in self.dags}
        for dag, phase, count in self.rows.execute("SELECT dag_id, phase, count(*) FROM run GROUP BY dag_id, phase"):
            found[dag][phase] = count
        return found

    def runs_in(self, dag, phase, most):
        """The first runs of a graph that are in a phase."""
        asked = "SELECT logical, data_end, kind, phase, data_start FROM run WHERE dag_id = ? AND phase = ? ORDER BY logical LIMIT ?"
        return [Run(*it) for it in self.rows.execute(asked, (dag, PHASES.index(phase), most))]

    def run_before(self, dag, logical):
        """The date of the last run of a graph before a date, or None."""
        return self.rows.execute("SELECT max(logical) FROM run WHERE dag_id = ? AND logical < ?", (dag, logical)).fetchone()[0]

    def failed_since(self, moment):
        """The runs that have failed since a moment, and when: each the graph, the run and the end of its last try, the latest first."""
        asked = f"""SELECT r.dag_id, max(a.ended), r.logical, r.data_end, r.kind, r.phase, r.data_start FROM run r CROSS JOIN attempt a USING (dag_id, logical)
            WHERE r.phase = {FAILED} GROUP BY r.dag_id, r.logical HAVING max(a.ended) >= ? ORDER BY 2 DESC, r.dag_id, r.logical DESC"""
        return [(dag, Run(*rest), ended) for dag, ended, *rest in self.rows.execute(asked, (moment,))]

    def tries_within(self, first, last, most, dag=None, only=None):
        """The graphs, dates and serials of the tries that meet a span of time, of which None is open, latest serials first, at most so many; and how many they all are.

        They are those of one graph, where it is named, and of these dates alone, where there are some, by graph."""
        asked = "FROM attempt WHERE coalesce(started, ended, :now) <= :last AND coalesce(ended, :now) >= :first AND (:dag IS NULL OR dag_id = :dag)"
        bounds = {"now": self.now, "first": -1 if first is None else first, "last": 1 << 62 if last is None else last, "dag": dag}
        if only is not None:
            self.rows.execute("CREATE TEMP TABLE chosen (dag_id TEXT, logical INTEGER, PRIMARY KEY (dag_id, logical)) WITHOUT ROWID")
            self.rows.executemany("INSERT INTO temp.chosen VALUES (?, ?)", ((dag, it) for dag, dates in only.items() for it in dates))
            asked = asked.replace("FROM attempt", "FROM temp.chosen CROSS JOIN attempt USING (dag_id, logical)")
        count = self.rows.execute(f"SELECT count(*) {asked}", bounds).fetchone()[0]
        found = self.rows.execute(f"SELECT dag_id, logical, serial {asked} ORDER BY serial DESC LIMIT {most}", bounds).fetchall()
        return found, count


def no_graph_file(dag, fault):
    return NoRecord(f"the text of the graph {dag} is no graph file: {fault}")


@functools.cache
def state_of(retries, verdict, tried, started, outcome):
    """The state that `list tasks` prints: of the verdict, of so many tries since the last clearing, and of the last of them."""
    if tried == 0:
        return VERDICTS[verdict]
    if outcome is None:
        return "running" if started else "queued"
    if OUTCOMES[outcome] in ("success", "skipped"):
        return OUTCOMES[outcome]
    return "failed" if tried > retries else "up_for_retry"


def log_of(logs, dag, run, task, number):
    """The path of the log of a try under the folder of `dagsched run --logs`, or None where there is none."""
    name = f"{KINDS[run.kind]}__{text_of(run.logical, '%Y-%m-%dT%H:%M:%S+00:00')}"
    path = os.path.join(logs, f"dag_id={dag}", f"run_id={name}", f"task_id={task}", f"attempt={number}.log")
    return path if os.path.isfile(path) else None


def text_of(moment, form="%Y-%m-%dT%H:%M:%SZ"):
    return time.strftime(form, time.gmtime(moment))
