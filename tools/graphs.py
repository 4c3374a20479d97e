"""Graphs and their intervals, by the rules of docs/GRAPH_FILES.md and crontab(5), for `bounded_days`: nothing here is the scheduler's own. A file's faults are not looked for."""
import calendar
import os
import re
import sys
import time
import tomllib

# what looks go by is not the scheduler's own either
sys.path.append(os.path.join(os.path.dirname(os.path.dirname(os.path.realpath(__file__))), "look"))
from rules import END, Cron

USUAL_BOUND = 16
KEYS = "dag_id schedule start_date end_date catchup max_active_runs max_active_tasks task timetable".split()


class LeftOut(Exception):
    """What is not answered here."""


def leave(what):
    raise LeftOut(what)


def moment_of(word):
    found = re.fullmatch(r"(\d{4})-(\d\d)-(\d\d)(?:T(\d\d):(\d\d):(\d\d)(?:Z|\+00:00))?", word) or leave(word)
    numbers = tuple(int(it or 0) for it in found.groups())
    at = calendar.timegm((*numbers, 0, 0, 0))
    return at if time.gmtime(at)[:6] == numbers and 0 <= at < END else leave(word)


def cron_of(text):
    try:
        return Cron(text)
    except ValueError:
        return leave(text)


def text_of(moment):
    return time.strftime("%Y-%m-%dT%H:%M:%S+00:00", time.gmtime(moment))


class Task:
    def __init__(self, row):
        self.name, self.upstream, self.rule = row["task_id"], row.get("upstream", []), row.get("trigger_rule", "all_success")
        self.retries, self.delay, self.past = row.get("retries", 0), row.get("retry_delay", 300), row.get("depends_on_past", False)
        self.pool, self.slots = row.get("pool", "default_pool"), row.get("pool_slots", 1)
        self.weight, self.weight_rule = row.get("priority_weight", 1), row.get("weight_rule", "downstream")
        self.statuses = row.get("argv", []) if row["operator"] == "exit" else ["0"]

    def outcome(self, number):
        """How the try of this number ends."""
        return {"0": "success", "99": "skipped"}.get(self.statuses[min(number, len(self.statuses)) - 1], "failed")


class Graph:
    def __init__(self, text):
        try:
            row = tomllib.loads(text)
        except tomllib.TOMLDecodeError:
            leave("no TOML")
        if not set(row) <= set(KEYS) or not row.get("task"):
            leave("a file with a fault")
        self.text, self.name, self.paused, self.catchup = text, row["dag_id"], False, row.get("catchup", True)
        self.start, self.end = moment_of(row["start_date"]), moment_of(row["end_date"]) if "end_date" in row else None
        self.active_runs, self.bound = row.get("max_active_runs", 16), row.get("max_active_tasks", USUAL_BOUND)
        self.cron = None if row["schedule"] in ("None", "@once") else cron_of(row["schedule"])
        self.is_once, self.is_trigger = row["schedule"] == "@once", row.get("timetable") == "trigger"
        self.in_file = [Task(it) for it in row["task"]]
        self.tasks = self.by_place()
        self.below = {name: [it.name for it in self.in_file if name in it.upstream] for name in self.tasks}
        self.weights = {it.name: self.weight(it) for it in self.in_file}

    def by_place(self):
        """The tasks by name: at each place the first of the file whose upstreams all stand before."""
        names = {it.name for it in self.in_file}
        if len(names) < len(self.in_file) or any(len(names & {*it.upstream}) < len(it.upstream) for it in self.in_file):
            leave("tasks that are no graph")
        found = {}
        while len(found) < len(names):
            task = next((it for it in self.in_file if it.name not in found and {*it.upstream} <= {*found}), None) or leave("a cycle")
            found[task.name] = task
        return found

    def reach(self, name, is_up):
        found, left = set(), [name]
        while left:
            at = left.pop()
            more = {*(self.tasks[at].upstream if is_up else self.below[at])} - found
            found |= more
            left += more
        return found

    def weight(self, task):
        others = set() if task.weight_rule == "absolute" else self.reach(task.name, task.weight_rule == "upstream")
        return sum(self.tasks[it].weight for it in others | {task.name})

    def intervals(self, first, last):
        """The intervals whose starts lie between these moments, both included."""
        if self.is_once and first <= self.start <= last:
            yield self.start, self.start
        if self.cron:
            ticks = self.cron.ticks_from(first)
            start = next(ticks, None)
            while start is not None and start <= last:
                end = next(ticks, None)
                if end is None and not self.is_trigger:
                    return
                yield (start, start) if self.is_trigger else (start, end)
                start = end

    def due(self, now):
        """Those that are over, from the start date to the end date."""
        return [it for it in self.intervals(self.start, now if self.end is None else min(self.end, now)) if it[1] <= now]

    def by_hand(self, now):
        """The interval of a run by hand at this moment, if there is one."""
        if not self.cron or self.is_trigger:
            return now, now
        ticks = self.cron.ticks_back(now)
        end, start = next(ticks, None), next(ticks, None)
        return None if start is None else (start, end)
