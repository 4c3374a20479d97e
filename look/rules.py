"""Rules of a graph file, by docs/GRAPH_FILES.md and crontab(5): when a cron text fires, and what a trigger rule makes of states. None of it is the scheduler's own."""
import calendar
import collections
import time

END = 7_258_118_400  # 2200-01-01
DAY = 86_400
PRESETS = {
    "@hourly": "0 * * * *", "@daily": "0 0 * * *", "@weekly": "0 0 * * 0", "@monthly": "0 0 1 * *", "@quarterly": "0 0 1 */3 *", "@yearly": "0 0 1 1 *",
}
MONTHS = "jan feb mar apr may jun jul aug sep oct nov dec".split()
WEEKDAYS = "sun mon tue wed thu fri sat".split()
FIELDS = [(0, 59, {}), (0, 23, {}), (1, 31, {}), (1, 12, {it: at for at, it in enumerate(MONTHS, 1)}), (0, 6, {it: at for at, it in enumerate(WEEKDAYS)})]


class Cron:
    """The moments at which a cron text fires."""

    def __init__(self, text):
        fields = PRESETS.get(text.strip(), text).split()
        if len(fields) != 5:
            raise ValueError(f"{text} is no cron text")
        self.sets = [self.field(it, *FIELDS[at]) for at, it in enumerate(fields)]

    @staticmethod
    def field(text, low, high, names):
        found = set()
        for part in text.lower().split(","):
            base, _, step = part.partition("/")
            first, _, last = (f"{low}-{high}" if base == "*" else base).partition("-")
            first, last = (int(names.get(it, it)) for it in (first, last or (str(high) if step else first)))
            # a weekday 7 is Sunday, and as the end of a range Sunday comes last
            last = 7 if high == 6 and "-" in base and last == 0 else last
            found |= {it % 7 if high == 6 else it for it in range(first, last + 1, int(step or 1))}
        return found

    def fires_on(self, day):
        """Whether it fires on a day: where both day fields are restricted, one of them is enough."""
        at = time.gmtime(day * DAY)
        by_date, by_weekday = at.tm_mday in self.sets[2], (day + 4) % 7 in self.sets[4]
        are_both = len(self.sets[2]) < 31 and len(self.sets[4]) < 7
        return at.tm_mon in self.sets[3] and (by_date or by_weekday if are_both else by_date and by_weekday)

    def ticks_of(self, day):
        return [day * DAY + hour * 3600 + minute * 60 for hour in sorted(self.sets[1]) for minute in sorted(self.sets[0])] if self.fires_on(day) else []

    def ticks_from(self, moment):
        """The ticks at this moment and after it."""
        for day in range(moment // DAY, END // DAY):
            yield from (it for it in self.ticks_of(day) if it >= moment)

    def ticks_back(self, moment):
        """The ticks at this moment and before it, the last one first."""
        for day in range(moment // DAY, -1, -1):
            yield from (it for it in reversed(self.ticks_of(day)) if it <= moment)


def columns_of(states):
    """Of each trigger rule, as Airflow 2 has it in its page "DAGs", whether a task runs by these states of upstreams, has failed by them, and is skipped."""
    count, all_ = collections.Counter(states), len(states)
    success, skipped, failed = count["success"], count["skipped"], count["failed"] + count["upstream_failed"]
    is_done = success + skipped + failed == all_
    return {
        "all_success": (success == all_, failed, skipped),
        "all_failed": (failed == all_, 0, success or skipped),
        "all_done": (is_done, 0, 0),
        "all_skipped": (skipped == all_, 0, success or failed),
        "one_failed": (failed, 0, is_done),
        "one_success": (success, is_done and skipped < all_, skipped == all_),
        "one_done": (success or count["failed"], 0, is_done),
        "none_failed": (success + skipped == all_, failed, 0),
        "none_failed_min_one_success": (is_done and success and not failed, failed, skipped == all_),
        "none_skipped": (success + failed == all_, 0, skipped),
        "always": (1, 0, 0),
    }


TRIGGER_RULES = frozenset(columns_of([]))


def verdict(rule, states):
    """What a trigger rule makes of the states of upstreams: the first that holds; none where it waits."""
    columns = columns_of(states)[rule]
    return next((word for word, holds in zip(("run", "upstream_failed", "skip"), columns) if holds), None) if states else "run"


def moment_of(word):
    """A moment as a graph's file has it."""
    return calendar.timegm(time.strptime(word[:19], "%Y-%m-%d" if len(word) == 10 else "%Y-%m-%dT%H:%M:%S"))


def next_tick(keys, now):
    """The first moment after this one at which a run of a graph becomes due, by the keys of its file: from its start date on, of an interval that begins no later
    than its end date. None where there is none."""
    start, end, word = moment_of(keys["start_date"]), moment_of(keys["end_date"]) if "end_date" in keys else END, keys["schedule"]
    if word in ("None", "@once"):
        return start if word == "@once" and now < start <= end else None
    cron, is_trigger = Cron(word), keys.get("timetable") == "trigger"
    ticks = cron.ticks_from(start)
    first = next(ticks, END)
    if first > now:
        tick, begins = first if is_trigger else next(ticks, None), first
    else:
        tick = next(cron.ticks_from(now + 1), None)
        begins = tick if is_trigger or tick is None else next(cron.ticks_back(tick - 1))
    return tick if tick is not None and begins <= end else None
