"""What a person can do about each reason that `explain` tells, in short. docs/EXPLAIN.md has the same reasons under "What to do", and says more."""
import shlex
from typing import NamedTuple, Optional

from record import text_of
from words import counted


class Command(str):
    """Words for a shell: they stand on a line of their own."""


class Case(NamedTuple):
    """A task instance that nothing else holds back: its graph, the words that begin a command, its folder where that is a service's, and what waits for it."""

    step: object
    dag: str
    begins: tuple[str, ...]
    folder: Optional[str]
    logs: Optional[str]
    rule: str
    sizes: dict
    running: int
    most_runs: int
    is_waited_for: bool

    def command(self, *words):
        return Command(shlex.join([*self.begins, *words]))

    def clear(self, *options):
        """The command that sets the instance back, or what these options say of its run."""
        date = text_of(self.step.logical)
        dash = ("--",) if self.dag.startswith("-") else ()
        return self.command("clear", *options, *dash, self.dag, date, date)

    def alone(self):
        return self.clear(f"--task={self.step.task}")

    @property
    def is_full(self):
        """Whether as many runs are running as may be, and some of them wait for this run, which is none of them."""
        return self.is_waited_for and self.step.phase != "running" and self.running >= self.most_runs


FULL = "{0} of its runs are running, no more may be, and they wait for this one, which finds no place: first give the graph max_active_runs = 1000000 by `replace`."


def of_failed(case):
    if case.is_full:
        yield FULL.format(case.running)
    if case.step.log:
        yield f"Read its log: {case.step.log}"
    else:
        yield f"Its last try has no log in {case.logs}." if case.logs else "Read the log of its last try: --logs says in which folder logs are."
    yield "When the cause is gone, let it and what failed by it be done again:"
    yield case.clear("--only-failed")


def of_upstream_failed(case):
    if case.step.is_tried:
        yield "It failed itself, and another text gave it more retries. Let it be done again:"
    else:
        yield "None of its upstreams has failed by now: what was decided of it stays until it is cleared. Let it be done:"
    yield case.clear("--only-failed")


def of_skipped(case):
    if case.step.is_tried:
        yield "Its program asked for this, by status 99, or a mark passed it over. To have it tried again all the same:"
    else:
        yield f"Its trigger rule {case.rule} skips it, a mark passed it over, or another text added it to a run that had been a success. To have it decided again:"
    yield case.alone()


def of_success(case):
    yield "It is done. To have it done again, and what comes after it:"
    yield case.clear(f"--task={case.step.task}", "--downstream")


OF_ENDS = {"failed": of_failed, "upstream_failed": of_upstream_failed, "skipped": of_skipped, "success": of_success}


def finished(case, state):
    return OF_ENDS[state](case)


def handed_out(case, serial):
    yield "Wait for its program. If the scheduler was killed, none is at work, and the next start says that the try is lost."
    if case.folder is not None:
        yield "What its processes are, and how they are ended:"
        yield Command(shlex.join(["tries", case.folder]))
        yield Command(shlex.join(["end", case.folder, serial]))


def run_queued(case, active, _limit, limit):
    if case.is_full:
        yield FULL.format(active)
    elif int(active) < int(limit):
        yield "Its run can start as soon as the graph is unpaused."
    else:
        yield f"Wait until a run of the graph ends: {active} are running, and no more may be. max_active_runs in its file, given by `replace`, lets more of them."


def paused(case):
    yield "Let the graph go on:"
    yield case.command("unpause", *(("--",) if case.dag.startswith("-") else ()), case.dag)


def run_finished(case, phase):
    yield f"Its run has ended, as a {phase}. To have it done:"
    yield case.alone()


def retry_at(case, moment):
    yield "Wait until a tick says this moment or a later one." if moment != "never" else "This moment never comes."
    if case.folder is None:
        yield "Or clear it in a script, and it is tried at once; cleared by a command, it is tried by the next `run`:"
    else:
        yield "Or clear it, and it is tried at once:"
    yield case.alone()


def pool(case, name, _needs, needs, *_):
    size = case.sizes.get(name, 0)
    if size < int(needs):
        yield f"The pool never has room for it: it has {counted(size, 'slot')} in all, and this takes {needs}."
        yield case.command("resize", name, needs)
    else:
        yield f"Wait until tries in the pool end, or make it larger than the {counted(size, 'slot')} that it has:"
        yield case.command("resize", name, "SIZE")


def graph_full(case, active, *_):
    yield f"Wait until one of the {active} tries of the graph that are in flight ends. max_active_tasks in its file, given by `replace`, lets more of them."


def lanes(case, count):
    if count == "0":
        yield "The record was last opened without lanes. The next `run` hands it out."
    else:
        yield "Wait until tries end, or begin `run` with more --lanes."


OF_REASONS = {
    "finished": finished, "handed-out": handed_out, "run-queued": run_queued, "paused": paused, "run-finished": run_finished, "retry-at": retry_at, "pool": pool,
    "graph-full": graph_full, "lanes": lanes,
}


def advice(case, reason):
    """What to do about a reason: sentences and commands."""
    kind, *words = reason.split(" ")
    return OF_REASONS[kind](case, *words)
