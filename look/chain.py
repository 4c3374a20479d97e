"""What holds a task instance back: the reasons of `explain`, followed through upstreams and runs before to instances that nothing else holds."""
import itertools
from dataclasses import dataclass, field
from typing import Optional

from asked import TOGETHER
from command import moment
from reasons import FINISHED, upstreams_without_success
from record import PHASES, log_of

# so many are looked at at most
MOST = 20_000
# an instance in one of these states waits for no other
READY = ("scheduled", "queued", "running", "up_for_retry")


@dataclass
class Step:
    """A task instance: its reasons, and those of them that lead to another one, each with the date and the task of that."""

    logical: int
    task: str
    state: str
    phase: str
    is_tried: bool
    log: Optional[str]
    reasons: list[str] = field(default_factory=list)
    ways: dict[str, tuple[int, str]] = field(default_factory=dict)

    @property
    def holds(self):
        """The reasons that lead nowhere."""
        return [it for it in self.reasons if it not in self.ways]


class Walk:
    """The instances of a graph from which one can come to what holds an instance back."""

    def __init__(self, record, dag, logs, explain):
        self.record, self.dag, self.logs, self.explain = record, dag, logs, explain
        self.tasks = {it.name: it for it in record.tasks(dag)}
        self.runs, self.steps, self.answers = {}, {}, {}

    def run(self, logical):
        """A run, and its instances."""
        if logical not in self.runs:
            self.runs[logical] = self.record.run(self.dag, logical), self.record.instances(self.dag, "i.logical = ?", logical).get(logical, {})
        return self.runs[logical]

    def state(self, logical, task):
        return self.run(logical)[1][task].state

    def go(self, start):
        """Looks at an instance, and at all that its reasons lead to. Gives whether that is all."""
        waiting = [start]
        while waiting and len(self.steps) < MOST:
            key = waiting.pop()
            if key not in self.steps:
                self.ask(key, waiting)
                self.steps[key] = self.step(*key)
                waiting += [it for it in reversed(self.steps[key].ways.values()) if it not in self.steps]
        return all(it in self.steps for it in waiting)

    def ask(self, key, others):
        """Has an instance explained, where it is not, and with it some of which that may be asked next: answers that come together come fast."""
        if key not in self.answers:
            likely = itertools.islice(itertools.chain(self.before(*key), reversed(others)), TOGETHER)
            keys = [it for it in dict.fromkeys([key, *likely]) if it not in self.answers and self.state(*it) not in READY][:TOGETHER]
            self.answers.update(zip(keys, self.explain(keys) if keys else []))

    def before(self, logical, task):
        """The same task in the runs before, as long as it has no verdict there, where it waits for them."""
        while self.tasks[task].past and logical is not None and self.state(logical, task) == "none":
            yield logical, task
            logical = self.record.run_before(self.dag, logical)

    def step(self, logical, task):
        run, instances = self.run(logical)
        it = instances[task]
        log = self.logs and it.number and log_of(self.logs, self.dag, run, task, it.number)
        found = Step(logical, task, it.state, PHASES[run.phase], it.number is not None, log)
        if it.state not in READY:
            self.follow(found, self.answers[logical, task])
            if it.state in ("upstream_failed", "skipped") and not found.is_tried:
                # of these explain names no upstream
                ended = {name: state for name, state in upstreams_without_success(self.tasks[task], instances) if state in FINISHED}
                self.follow(found, [f"upstream {name} {state}" for name, state in ended.items()])
        return found

    def follow(self, step, lines):
        """Takes reasons in, each with what it leads to; the states are those of the record."""
        for line in lines:
            kind, *rest = line.split(" ")
            if kind in ("upstream", "past"):
                key = (step.logical, rest[0]) if kind == "upstream" else (moment(rest[0]), step.task)
                line = f"{kind} {rest[0]} {self.state(*key)}"
                step.ways[line] = key
            step.reasons.append(line)

    def chains(self, start):
        """The shortest ways to instances that no other holds back, as the instances on each: first to those that have ended, then the nearest. Of those that wait
        for the same it is the one of the earliest run."""
        reached, order = {start: None}, [start]
        for key in order:
            for it in self.steps[key].ways.values():
                if it in self.steps and it not in reached:
                    reached[it] = key
                    order.append(it)
        ends = {}
        for key in order:
            if not self.steps[key].ways:
                ends.setdefault(self.cause(key), []).append(key)
        first = [min(them, key=lambda it: it[0]) for them in ends.values()]
        return [[*way_to(it, reached)][::-1] for it in sorted(first, key=lambda it: self.steps[it].state not in FINISHED)]

    def cause(self, key):
        """What is the same of instances that wait for the same."""
        step, task = self.steps[key], self.tasks[key[1]]
        if step.state == "none":
            return tuple(step.reasons)
        return (step.phase, task.pool, task.slots) if step.state == "scheduled" else key


def way_to(key, reached):
    """The instances from this one back to where all began."""
    while key is not None:
        yield key
        key = reached[key]
