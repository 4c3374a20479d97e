"""What a record says of all graphs at its moment, and why a task instance waits: the lines of `explain`, by docs/EXPLAIN.md."""
import collections

from record import PHASES, RUNNING, text_of
from rules import END, verdict

FINISHED = ("success", "failed", "skipped", "upstream_failed")
WAITING = ("none", "scheduled", "up_for_retry")
SERIALS = 2**62
USUAL_RUNS = 16


def upstreams_without_success(task, instances):
    """The upstreams of a task that are no success, each with its state: where the task has ended without a try, what made it end."""
    return [(name, instances[name].state) for name in task.upstream if name in instances and instances[name].state != "success"]


def moment_of(moment):
    return text_of(moment, "%Y-%m-%dT%H:%M:%S+00:00")


class Situation:
    """What takes room: the tries in flight, by pool and graph, and the runs of each graph."""

    def __init__(self, record):
        self.record, self.flying, self.sizes, self.phases = record, record.flying(), record.slots(), record.phases()
        self.active = collections.Counter(it.dag for it in self.flying)
        self.taken = collections.Counter()
        pools = {dag: {it.name: it.pool for it in record.tasks(dag)} for dag in self.active}
        for it in self.flying:
            self.taken[pools[it.dag].get(it.task)] += it.slots
        self.is_full = len(self.flying) >= record.lanes or record.next_serial > SERIALS

    def most_runs(self, dag):
        return self.record.graph(dag).keys.get("max_active_runs", USUAL_RUNS)

    def running(self, dag):
        return self.phases[dag][RUNNING]

    def waits_of_run(self, dag, run, instances, names=None):
        """The reasons of each instance of a run that waits, by task, or of these tasks alone."""
        before, found = {}, {}
        for task in self.record.tasks(dag):
            it = instances.get(task.name)
            if it is not None and it.state in WAITING and (names is None or task.name in names):
                if task.past and not before:
                    before = self.run_before(dag, run.logical)
                found[task.name] = [*self.reasons(dag, run, task, instances, before)]
        return found

    def run_before(self, dag, logical):
        """The date of the run before, and its states."""
        date = self.record.run_before(dag, logical)
        return {"date": date, "states": {} if date is None else self.record.states(dag, date)}

    def reasons(self, dag, run, task, instances, before):
        """Each reason of an instance that waits, as `explain` prints it."""
        it, phase, graph = instances[task.name], PHASES[run.phase], self.record.graph(dag)
        if phase == "queued":
            yield f"run-queued {self.running(dag)} limit {self.most_runs(dag)}"
        if graph.paused:
            yield "paused"
        if phase in ("success", "failed"):
            yield f"run-finished {phase}"
        if it.state == "none":
            yield from self.of_others(task, instances, before)
        at = it.ended + task.delay if it.state == "up_for_retry" else 0
        if at > self.record.now:
            yield f"retry-at {moment_of(at) if at < END else 'never'}"
        elif it.state != "none":
            yield from self.of_room(dag, task)

    @staticmethod
    def of_others(task, instances, before):
        """The upstreams that the rule waits for, and the run before."""
        states = [(name, instances[name].state if name in instances else "none") for name in task.upstream]
        if verdict(task.rule, [state for _, state in states]) is None:
            yield from (f"upstream {name} {state}" for name, state in states if state not in FINISHED)
        if task.past and before["date"] is not None:
            state = before["states"].get(task.name, "none")
            if state not in ("success", "skipped"):
                yield f"past {moment_of(before['date'])} {state}"

    def of_room(self, dag, task):
        """What has no room for an instance that could be handed out."""
        left, bound = self.sizes.get(task.pool, 0) - self.taken[task.pool], self.record.graph(dag).bound
        if left < task.slots:
            yield f"pool {task.pool} needs {task.slots} open {left}"
        if self.active[dag] >= bound:
            yield f"graph-full {self.active[dag]} limit {bound}"
        if self.is_full:
            yield f"lanes {len(self.flying)}"
