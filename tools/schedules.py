"""A schedule, by the rules of docs/SCRIPTS.md, docs/GRAPH_FILES.md and docs/EXPLAIN.md, for `bounded_days`: nothing here is the scheduler's own. All is counted anew from the
runs and their tries at each question: states, taken slots, tries without an end, what is due."""
import collections

from graphs import END, Graph, text_of
from rules import verdict

FINISHED = ("success", "failed", "skipped", "upstream_failed")
BAD = ("failed", "upstream_failed")
SERIALS = 2**62
RULES = "all_success all_failed all_done all_skipped one_failed one_success one_done none_failed none_failed_min_one_success none_skipped always".split()


class Refused(Exception):
    """Why an event is refused."""


class Try:
    """A try, with its task as it was when it was handed out."""

    def __init__(self, serial, task):
        self.serial, self.task, self.slots, self.started, self.ended, self.outcome = serial, task, task.slots, None, None, None


class Instance:
    def __init__(self):
        self.verdict, self.since, self.tries = None, 0, []

    def state(self, task):
        tries = self.tries[self.since :]
        if not tries:
            return {None: "none", "run": "scheduled", "skip": "skipped"}.get(self.verdict, self.verdict)
        last = tries[-1]
        if last.outcome is None:
            return "queued" if last.started is None else "running"
        return last.outcome if last.outcome in ("success", "skipped") else "up_for_retry" if len(tries) <= task.retries else "failed"


class Run:
    def __init__(self, graph, logical, interval, kind):
        self.graph, self.logical, self.interval, self.kind, self.phase = graph, logical, interval, kind, "queued"
        self.instances = collections.defaultdict(Instance)

    def word(self):
        return f"{self.kind}__{text_of(self.logical)}"

    def state(self, dag, name):
        return self.instances[name].state(dag.tasks[name])


class Schedule:
    def __init__(self):
        self.graphs, self.pools, self.runs = {}, {"default_pool": 128}, {}
        self.now, self.lanes, self.next = 0, 0, 1

    # ---- what there is
    def runs_of(self, name):
        return [run for (graph, _), run in sorted(self.runs.items()) if graph == name]

    def instances(self):
        """Each instance with its graph, its run and its task, by graph, date and place."""
        for _, run in sorted(self.runs.items()):
            dag = self.graphs[run.graph]
            yield from ((dag, run, task, run.instances[name]) for name, task in dag.tasks.items())

    def open_tries(self):
        return [(dag, task, it) for dag, _, task, one in self.instances() for it in one.tries if it.ended is None]

    def occupied(self, pool):
        return sum(it.slots for _, task, it in self.open_tries() if task.pool == pool)

    def active(self, name):
        """How many tries of a graph are without an end, over all its runs."""
        return sum(dag.name == name for dag, _, _ in self.open_tries())

    def running(self, name):
        return sum(run.phase == "running" for run in self.runs_of(name))

    def retry_at(self, task, instance):
        return instance.tries[-1].ended + task.delay

    def before(self, run):
        """The run of the same graph before it, of whatever kind."""
        return max((it for it in self.runs_of(run.graph) if it.logical < run.logical), key=lambda it: it.logical, default=None)

    def is_past_open(self, run, task):
        before = self.before(run) if task.past else None
        return before is None or before.state(self.graphs[run.graph], task.name) in ("success", "skipped")

    def is_ready(self, task, instance):
        state = instance.state(task)
        return state == "scheduled" or state == "up_for_retry" and self.retry_at(task, instance) <= self.now

    # ---- what follows an event
    def decide(self):
        for dag, run, task, instance in self.instances():
            if run.phase == "running" and instance.state(task) == "none":
                made = verdict(task.rule, [run.state(dag, it) for it in task.upstream])
                if made and (made != "run" or self.is_past_open(run, task)):
                    instance.verdict = made
                    return True
        return False

    def finish(self):
        for _, run in sorted(self.runs.items()):
            dag = self.graphs[run.graph]
            if run.phase == "running" and all(run.state(dag, it) in FINISHED for it in dag.tasks):
                run.phase = "failed" if any(run.state(dag, it) in BAD and not dag.below[it] for it in dag.tasks) else "success"
                return True
        return False

    def start(self):
        for _, run in sorted(self.runs.items()):
            dag = self.graphs[run.graph]
            if run.phase == "queued" and not dag.paused and self.running(run.graph) < dag.active_runs:
                run.phase = "running"
                return True
        return False

    def fits(self, dag, task):
        has_slots = self.occupied(task.pool) + task.slots <= self.pools[task.pool]
        return has_slots and len(self.open_tries()) < self.lanes and self.next <= SERIALS and self.active(dag.name) < dag.bound

    def hand_out(self):
        """The first in rank that is ready and fits gets a try, until there is none: the lines of these tries."""
        told = []
        while True:
            ranked = [
                (-dag.weights[task.name], run.logical, run.graph, task.name)
                for dag, run, task, instance in self.instances()
                if run.phase == "running" and not dag.paused and self.is_ready(task, instance) and self.fits(dag, task)
            ]
            if not ranked:
                return told
            _, logical, graph, name = min(ranked)
            tries = self.runs[graph, logical].instances[name].tries
            tries.append(Try(self.next, self.graphs[graph].tasks[name]))
            told.append(f"try {self.next} {graph} {text_of(logical)} {name} {len(tries)}")
            self.next += 1

    def step(self, event, *given):
        """The lines of an event's answer."""
        try:
            made, told = event(self, *given)
        except Refused as why:
            return [f"refused {why}"]
        made.sort(key=lambda it: (it.graph, it.logical))
        self.runs.update(((it.graph, it.logical), it) for it in made)
        while self.decide() or self.finish() or self.start():
            pass
        return [*(f"made {it.graph} {it.word()}" for it in made), *told, *self.hand_out(), "ok"]

    # ---- events: each makes its own change, and gives the runs that are made and lines of its answer
    def graph(self, name):
        if name not in self.graphs:
            raise Refused("6 UnknownGraph")
        return self.graphs[name]

    def graph_of(self, text):
        """The graph of a text, whose pools are there."""
        new = Graph(text)
        for task in new.in_file:
            if task.pool not in self.pools:
                raise Refused(f"3 UnknownPool {task.pool}")
        return new

    def load(self, text):
        new = self.graph_of(text)
        old = self.graphs.get(new.name)
        if old and old.text != text and self.runs_of(new.name):
            raise Refused("5 GraphDiffers")
        if not old or old.text != text:
            new.paused = bool(old and old.paused)
            self.graphs[new.name] = new
        return [], []

    def replace(self, text):
        new = self.graph_of(text)
        old = self.graph(new.name)
        if old.text != text:
            if self.runs_of(new.name):
                self.refuse_change(old, new)
            for run in self.runs_of(new.name):
                self.go_on(run, old, new)
            new.paused = old.paused
            self.graphs[new.name] = new
        return [], []

    def refuse_change(self, old, new):
        """What the runs of a graph have against another text of it. Of tries in flight only those of tasks that stay are asked, and of these the pool alone: for a task that goes, or takes another number of slots, it is no help to wait."""
        runs = self.runs_of(old.name)
        takes = [(task, new.tasks.get(task.name), one) for run in runs for task in old.tasks.values() for one in run.instances[task.name].tries]
        moved = [one.serial for was, its, one in takes if one.ended is None and its and its.pool != was.pool]
        if moved:
            raise Refused(f"12 InFlight {min(moved)}")
        gone = [name for name in old.tasks if name not in new.tasks]
        if gone:
            raise Refused(f"18 OtherTasks {gone[0]}")
        resized = [was.name for was, its, _ in takes if its.slots != was.slots]
        if resized:
            raise Refused(f"19 OtherSlots {resized[0]}")
        reached = max(run.interval[1] for run in runs)
        if {it[0] for it in self.wanted(new, reached)} - {it[0] for it in self.wanted(old, reached)}:
            raise Refused(f"20 Redoes {text_of(reached)}")

    @staticmethod
    def go_on(run, old, new):
        """A task that is new is skipped in a run that was a success, and upstream_failed in one that failed. What failed for good, and has fewer tries than its task may have now,
        is set aside. Of any other no more tries count than its task may have now."""
        for name, task in new.tasks.items():
            one = run.instances[name]
            if name not in old.tasks:
                one.verdict = {"success": "skip", "failed": "upstream_failed"}.get(run.phase)
            elif one.state(old.tasks[name]) == "failed" and len(one.tries) - one.since < 1 + task.retries:
                one.verdict, one.since = "upstream_failed", len(one.tries)
            else:
                one.since = max(one.since, len(one.tries) - 1 - task.retries)

    def wanted(self, dag, moment):
        """The intervals that are due, of which no run is there."""
        due = dag.due(moment) if dag.catchup else dag.due(moment)[-1:]
        return [it for it in due if (dag.name, it[0]) not in self.runs]

    def tick(self, moment):
        if moment < self.now:
            raise Refused(f"8 ClockBack {text_of(self.now)}")
        made, is_more = [], False
        for name, dag in self.graphs.items():
            if not dag.paused:
                due = self.wanted(dag, moment)
                made += [Run(name, it[0], it, "scheduled") for it in due[:10]]
                is_more |= len(due) > 10
        self.now = moment
        return made, ["more"] * is_more

    def trigger(self, name):
        interval = self.graph(name).by_hand(self.now)
        if (name, self.now) in self.runs:
            raise Refused("10 RunExists")
        if interval is None:
            raise Refused("11 NoInterval")
        return [Run(name, self.now, interval, "manual")], []

    def backfill(self, name, first, last, is_reset):
        dag = self.graph(name)
        if first > last:
            raise Refused("9 BadSpan")
        found = [it for it in dag.intervals(first, last) if it[1] <= self.now]
        there = [self.runs[name, it[0]] for it in found if (name, it[0]) in self.runs]
        told = self.set_back(dag, [(run, it) for run in there for it in dag.tasks]) if is_reset else []
        return [Run(name, it[0], it, "backfill") for it in found if (name, it[0]) not in self.runs], told

    def clear(self, name, first, last, task, is_up, is_down, is_failed):
        dag = self.graph(name)
        if task and task not in dag.tasks:
            raise Refused("7 UnknownTask")
        if first > last:
            raise Refused("9 BadSpan")
        names = {task} | (dag.reach(task, True) if is_up else set()) | (dag.reach(task, False) if is_down else set()) if task else {*dag.tasks}
        named = [(run, it) for run in self.runs_of(name) if first <= run.logical <= last for it in dag.tasks if it in names]
        return [], self.set_back(dag, [(run, it) for run, it in named if not is_failed or run.state(dag, it) in BAD])

    def mark(self, name, logical, task):
        dag = self.graph(name)
        if task not in dag.tasks:
            raise Refused("7 UnknownTask")
        run = self.runs.get((name, logical))
        in_flight = [it.serial for it in run.instances[task].tries if it.ended is None] if run else []
        if in_flight:
            raise Refused(f"12 InFlight {min(in_flight)}")
        if not run:
            raise Refused("21 UnknownRun")
        run.instances[task].verdict, run.instances[task].since = "skip", len(run.instances[task].tries)
        run.phase = "running" if run.phase == "running" else "queued"
        self.set_back(dag, [(run, it) for it in dag.tasks if it in dag.reach(task, False) and run.state(dag, it) in BAD])
        return [], []

    def set_back(self, dag, named):
        in_flight = [it.serial for run, name in named for it in run.instances[name].tries if it.ended is None]
        if in_flight:
            raise Refused(f"12 InFlight {min(in_flight)}")
        count = sum(run.state(dag, name) != "none" for run, name in named)
        for run, name in named:
            run.instances[name].verdict, run.instances[name].since = None, len(run.instances[name].tries)
            run.phase = "running" if run.phase == "running" else "queued"
        return [f"cleared {count}"]

    def pause(self, name, is_paused):
        self.graph(name).paused = is_paused
        return [], []

    def resize(self, pool, size):
        if pool not in self.pools and len(self.pools) == 64:
            raise Refused("15 PoolFault 1 TooManyPools")
        self.pools[pool] = size
        return [], []

    def report(self, serial, stage):
        found = next((it for _, _, it in self.open_tries() if it.serial == serial), None)
        if not found:
            raise Refused(f"13 NotInFlight {serial}")
        if (found.started is not None) == (stage == "started") or stage == "lost":
            raise Refused(f"14 OutOfTurn {serial}")
        if stage == "started":
            found.started = self.now
        else:
            found.ended, found.outcome = self.now, stage
        return [], []

    def restart(self, lanes):
        if lanes > 64:
            raise Refused("16 LanesTooMany")
        for _, _, it in self.open_tries():
            it.ended, it.outcome = self.now, "lost"
        self.lanes = lanes
        return [], []

    # ---- questions
    def explain(self, name, logical, task_id):
        dag, run = self.graphs.get(name), self.runs.get((name, logical))
        for place, (what, is_there) in enumerate((("Graph", dag), ("Run", run), ("Task", dag and task_id in dag.tasks)), 1):
            if not is_there:
                return [f"explain {place} Unknown{what}"]
        return [*self.reasons(dag, run, dag.tasks[task_id], run.instances[task_id]), "ok"]

    def reasons(self, dag, run, task, instance):
        state, is_ready = instance.state(task), self.is_ready(task, instance)
        if state in FINISHED:
            yield f"finished {state}"
        if state in ("queued", "running"):
            yield f"handed-out {instance.tries[-1].serial}"
        if state in ("none", "scheduled", "up_for_retry"):
            yield from [f"run-queued {self.running(dag.name)} limit {dag.active_runs}"] * (run.phase == "queued") + ["paused"] * dag.paused
        if run.phase in ("success", "failed"):
            yield f"run-finished {run.phase}"
        if state == "none":
            yield from self.waits_for(dag, run, task)
        if state == "up_for_retry" and not is_ready:
            at = self.retry_at(task, instance)
            yield f"retry-at {text_of(at) if at < END else 'never'}"
        slots, active, flying = self.pools[task.pool] - self.occupied(task.pool), self.active(dag.name), len(self.open_tries())
        if is_ready and task.slots > slots:
            yield f"pool {task.pool} needs {task.slots} open {slots}"
        if is_ready and active >= dag.bound:
            yield f"graph-full {active} limit {dag.bound}"
        if is_ready and (flying >= self.lanes or self.next > SERIALS):
            yield f"lanes {flying}"

    def waits_for(self, dag, run, task):
        ups = [(it, run.state(dag, it)) for it in task.upstream]
        if verdict(task.rule, [it for _, it in ups]) is None:
            yield from (f"upstream {it} {its}" for it, its in ups if its not in FINISHED)
        if not self.is_past_open(run, task):
            yield f"past {text_of(self.before(run).logical)} {self.before(run).state(dag, task.name)}"

    def listing(self, what):
        if what == "dags":
            rows = [f"{it.name} {'paused' if it.paused else 'unpaused'} {self.running(it.name)} {it.active_runs}" for _, it in sorted(self.graphs.items())]
        elif what == "runs":
            rows = [f"{run.graph} {run.word()} {text_of(run.interval[0])} {text_of(run.interval[1])} {run.phase}" for _, run in sorted(self.runs.items())]
        elif what == "tasks":
            found = sorted((run.graph, run.logical, task.name, run.word(), one.state(task), len(one.tries)) for _, run, task, one in self.instances())
            rows = [f"{graph} {word} {name} {state} {tries}" for graph, _, name, word, state, tries in found]
        else:
            rows = [f"{name} {size} {self.occupied(name)} {size - self.occupied(name)}" for name, size in sorted(self.pools.items())]
        return [*rows, "ok"]

    def left(self):
        """The line of what an event leaves."""
        line = f"= {text_of(self.now)}, {len(self.open_tries())} of {self.lanes} in flight, next {self.next}"
        for _, run in sorted(self.runs.items()):
            dag = self.graphs[run.graph]
            line += f" | {run.phase}" + "".join(f" {it}={run.state(dag, it)}" for it in dag.tasks)
        return line
