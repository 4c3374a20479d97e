"""The tries of a run as bars over time, for `gantt` and `page`."""
from typing import NamedTuple, Optional

from record import KINDS, OUTCOMES, Try, log_of, text_of

STEPS = (1, 5, 10, 30, 60, 300, 600, 1800, 3600, 3 * 3600, 6 * 3600, 86400, 7 * 86400, 30 * 86400)


def step_of(span, most):
    """The seconds between the lines of an axis, so that it has few."""
    return next((it for it in STEPS if span / it <= most), STEPS[-1] * max(span // (most * STEPS[-1]), 1))


class Bar(NamedTuple):
    """A try as it is drawn: what it waited from, its start and its end. How long it waited is not known of each."""

    ready: int
    start: int
    end: int
    outcome: str
    logical: int
    waited: Optional[int]
    log: Optional[str]
    one: Try

    def words(self, dag, task):
        """What is said of it."""
        said = f"{dag} {text_of(self.logical)} {task}, try {self.one.number}: {self.outcome}, {text_of(self.start)} to {text_of(self.end)}"
        return said if self.waited is None else f"{said}, waited {self.waited} s"


def ready_at(this, before, upstream_ends, of_run):
    """Since when the try waited, or None where the record does not say it: after a clearing, and of the first tasks of runs by hand."""
    if before:
        return before.ended if OUTCOMES[before.outcome] in ("failed", "lost") else None
    since = [it for it in upstream_ends if this.started is None or it <= this.started]
    if KINDS[of_run.kind] == "scheduled":
        since.append(of_run.end)
    return max(since, default=None)


def bar_of(record, dag, of_run, task, this, before, upstream_ends, logs):
    """The bar of a try, of the one before it and of the ends of its upstream tasks."""
    outcome = "in flight" if this.outcome is None else OUTCOMES[this.outcome]
    ready = ready_at(this, before, upstream_ends, of_run)
    end = record.now if this.ended is None else this.ended
    start = end if this.started is None else this.started
    log = logs and log_of(logs, dag, of_run, task.name, this.number)
    waited = None if ready is None else max(start - ready, 0)
    return Bar(start - (waited or 0), start, end, outcome, of_run.logical, waited, log, this)


def bars_of_run(record, dag, logical, serials=None, logs=None):
    """The bars of these tries of a run, or of all, each with its task."""
    tries, of_run = record.tries(dag, logical), record.run(dag, logical)
    for task in record.tasks(dag):
        ends = None
        before = None
        for it in tries.get(task.name, []):
            if serials is None or it.serial in serials:
                if ends is None:
                    ends = [above.ended for name in task.upstream for above in tries.get(name, []) if above.ended is not None]
                yield task, bar_of(record, dag, of_run, task, it, before, ends, logs)
            before = it
