"""What stands on the pages of a record: the front page, a page for each graph, and one for each run that these link to."""
import os
from itertools import islice
from types import SimpleNamespace as Row

from bars import bars_of_run
from command import cut, shortened
from drawn import Line, cells_of, row_of, square, try_of
from layered import CURVES, reduced
from letters import LETTERS, heads
from markupsafe import Markup, escape
from reasons import Situation, upstreams_without_success
from record import KINDS, PHASES, log_of, no_graph_file, text_of
from rules import next_tick
from words import address_of, counted, date_of, day_of, file_of, length_of, time_of

DAY = 86400
LEGEND = [(letter, state) for state, letter in LETTERS.items()]
# names in so many letters on a page, and rows of a list
NAME, ROWS, SQUARES, NAMED = 32, 60, 14, 3
BEHIND = 120
# the last so many runs of a graph have a page, fewer where there are so many graphs that they would be more than so many in all
LAST, RUNS, FEWEST = 30, 3000, 7
TRIES, TEXT, UPSTREAMS, SHOWN_RUNS = 12, 60_000, 8, 14


class Book:
    """What all pages go by: the record, where its logs are, and which runs have a page."""

    def __init__(self, record, call):
        self.record, self.logs, self.logs_at = record, call.logs, call.logs_at
        self.last = call.last or max(min(LAST, RUNS // max(len(record.dags), 1)), FEWEST)
        self.title, self.now, self.written, self.out = call.title, record.now, call.written, os.path.realpath(call.out)
        self.situation = Situation(record)
        self.folders = {dag: f"graphs/{file_of(dag)}" for dag in record.dags}
        self.short = shortened(record.dags, NAME)
        self.runs = {dag: {} for dag in record.dags}
        self.since = max(day_of(self.now) - DAY, 0)
        self.names, self.as_text = {}, {}

    def tasks(self, dag):
        """The tasks of a graph: names as a page has room for, by name, and places."""
        if dag not in self.names:
            names = [it.name for it in self.record.tasks(dag)]
            self.names[dag] = shortened(names, NAME), {it: number for number, it in enumerate(names)}
        return self.names[dag]

    def escaped(self, dag):
        """The names of the tasks of a graph as a page has them, whole and short."""
        if dag not in self.as_text:
            short, _ = self.tasks(dag)
            self.as_text[dag] = [(escape(it.name), escape(short[it.name])) for it in self.record.tasks(dag)]
        return self.as_text[dag]

    def run(self, dag, it):
        """The name of the page of a run, which is then one of the site."""
        self.runs[dag][it.logical] = it
        return f"{text_of(it.logical, '%Y%m%dT%H%M%SZ')}.html"

    def run_link(self, dag, it, task=None):
        """A link from the front page to a run, or to a task of it."""
        place = "" if task is None else f"#t{self.tasks(dag)[1].get(task, '')}"
        return f"{self.folders[dag]}/{self.run(dag, it)}{place}"

    def log_link(self, dag, run, task, number, page):
        """A link to the log of a try, from a page in this folder of the site, or nothing."""
        found = self.logs and log_of(self.logs, dag, run, task, number)
        return found and self.link_to(found, page)

    def link_to(self, log, page):
        if self.logs_at is not None:
            # one that is not whole is meant from the front page
            up = f"{os.path.relpath(self.out, page)}/" if self.logs_at.startswith(".") else ""
            return f"{up}{self.logs_at.rstrip('/')}/{address_of(os.path.relpath(log, self.logs))}"
        return address_of(os.path.relpath(os.path.realpath(log), page))


def next_of(graph, now):
    """When the next run of a graph becomes due, in words, and how far off that is."""
    if graph.keys["schedule"] == "None":
        return "by hand", ""
    try:
        tick = next_tick(graph.keys, now)
    except ValueError as fault:
        raise no_graph_file(graph.name, fault) from None
    return ("none", "") if tick is None else (date_of(tick), f"in {length_of(tick - now)}")


class Waits:
    """The task instances of a graph that wait for something else than an upstream, in groups that have the same reasons."""

    def __init__(self, book, dag):
        self.book, self.dag, self.groups, self.behind, self.failing = book, dag, {}, 0, []
        record, graph = book.record, book.record.graph(dag)
        self.queued, self.running = (book.situation.phases[dag][it] for it in (0, 1))
        if self.running:
            found = record.running_instances(dag)
            for logical, instances in found.items():
                self.take(record.run(dag, logical), instances)
        if self.queued:
            why = [f"run-queued {self.running} limit {book.situation.most_runs(dag)}"] + ["paused"] * graph.paused
            self.groups["queued"] = why, [(it, None) for it in record.runs_in(dag, "queued", NAMED)]

    def take(self, run, instances):
        if any(it.state == "failed" for it in instances.values()):
            self.failing.append(run)
        for task, reasons in self.book.situation.waits_of_run(self.dag, run, instances).items():
            if all(it.startswith("upstream ") for it in reasons):
                self.behind += 1
            else:
                why = [it for it in reasons if not it.startswith("upstream ")]
                self.groups.setdefault(tuple(why), (why, []))[1].append((run, task))

    def rows(self):
        """Each group with its first tasks, as links."""
        for key, (why, found) in self.groups.items():
            links = [{"href": self.book.run_link(self.dag, run, task), "run": date_of(run.logical), "task": task and self.book.tasks(self.dag)[0][task]}
                     for run, task in found[:NAMED]]
            count = self.queued if key == "queued" else len(found)
            yield {"dag": self.dag, "why": why, "links": links, "more": count - len(links), "is_queued": key == "queued", "count": count}

    def words(self):
        """In few words, for the row of the graph."""
        kinds = {}
        for key, (why, found) in self.groups.items():
            if key != "queued":
                kinds[why[0].split()[0]] = kinds.get(why[0].split()[0], 0) + len(found)
        said = [f"{count:,} {kind}" for kind, count in kinds.items()]
        said += [f"{self.behind:,} behind others"] * bool(self.behind) + [counted(self.queued, "run", " queued")] * bool(self.queued)
        return ", ".join(said)


class Front:
    """The front page. Its lists are made once, and shown as far as there is room."""

    def __init__(self, book):
        self.book, self.record = book, book.record
        self.waits = {dag: Waits(book, dag) for dag in self.record.dags}
        self.failed = self.record.failed_since(book.since)
        self.under_way = [(dag, it, None) for dag, waits in self.waits.items() for it in waits.failing]
        self.failures = {}
        for dag, *_ in self.failed + self.under_way:
            self.failures[dag] = self.failures.get(dag, 0) + 1

    def failed_rows(self, most):
        for dag, run, ended in (self.under_way + self.failed)[:most]:
            found = self.record.instances(dag, "i.logical = ?", run.logical).get(run.logical, {})
            bad = [it for it in self.record.tasks(dag) if it.name in found and found[it.name].state == "failed"]
            tasks = []
            for it in bad[:NAMED]:
                log = self.book.log_link(dag, run, it.name, found[it.name].number, self.book.out)
                tasks.append({"name": self.book.tasks(dag)[0][it.name], "href": self.book.run_link(dag, run, it.name), "log": log})
            after = sum(it.state == "upstream_failed" for it in found.values())
            yield {"dag": dag, "run": date_of(run.logical), "href": self.book.run_link(dag, run), "ended": None if ended is None else date_of(ended),
                   "tasks": tasks, "more": len(bad) - len(tasks), "after": after}

    def running_rows(self, most):
        for it in self.book.situation.flying[:most]:
            run, since = self.record.run(it.dag, it.logical), it.started
            log, words = self.book.log_link(it.dag, run, it.task, it.number, self.book.out), self.book.tasks(it.dag)[0]
            yield {"dag": it.dag, "run": date_of(it.logical), "task": words.get(it.task, it.task), "number": it.number, "serial": it.serial, "log": log,
                   "href": self.book.run_link(it.dag, run, it.task), "since": None if since is None else time_of(since, day_of(self.book.now)),
                   "for": None if since is None else length_of(max(self.book.now - since, 0)), "square": square("queued" if since is None else "running")}

    def graph_rows(self, squares):
        for dag in self.record.dags:
            graph, phases = self.record.graph(dag), self.book.situation.phases[dag]
            latest = [*islice(self.record.latest_runs(dag), squares)][::-1]
            runs = [Row(**square(PHASES[it.phase]), href=self.book.run_link(dag, it), date=date_of(it.logical)) for it in latest]
            tick, away = next_of(graph, self.book.now)
            yield {"dag": dag, "paused": graph.paused, "runs": runs, "tick": tick, "away": away, "waits": self.waits[dag].words(),
                   "running": phases[1], "flying": self.book.situation.active[dag], "failed": self.failures.get(dag, 0)}

    def pool_rows(self):
        for name, size in sorted(self.book.situation.sizes.items()):
            taken = self.book.situation.taken[name]
            waiting = sum(len(found) for it in self.waits.values() for why, found in it.groups.values() if any(line.startswith(f"pool {name} ") for line in why))
            yield {"name": name, "short": cut(name, 2 * NAME, "~"), "size": size, "taken": taken, "open": size - taken,
                   "share": 100 if taken >= size > 0 else round(100 * taken / max(size, 1)), "waiting": waiting}

    def context(self, level):
        rows, flying = max(ROWS >> level, 3), len(self.book.situation.flying)
        waits = [row for it in self.waits.values() for row in it.rows()]
        behind = self.book.written - self.book.now
        return {
            "failed": [*self.failed_rows(rows)], "failed_count": len(self.failed) + len(self.under_way), "since": date_of(self.book.since),
            "graphs": [*self.graph_rows(max(min(SQUARES, self.book.last) >> level, 1))], "running": [*self.running_rows(rows)], "running_count": flying,
            "waits": waits[:rows], "waits_count": sum(it["count"] for it in waits), "waits_shown": sum(it["count"] for it in waits[:rows]),
            "behind_count": sum(it.behind for it in self.waits.values()), "pools": [*self.pool_rows()], "lanes": self.record.lanes, "flying": flying,
            "behind": length_of(abs(behind)) if abs(behind) > BEHIND else None, "is_ahead": behind < 0, "titled": level < 2, "folders": self.book.folders,
            "short": self.book.short,
        }


def columns_of(runs):
    """The lines above a grid: of each the word, and its parts with how many columns each has."""
    above = []
    for word, parts in heads(runs):
        keys = [*zip(*above, parts)] if above else [(it,) for it in parts]
        above.append(parts)
        spans = []
        for key, part in zip(keys, parts):
            if spans and spans[-1]["key"] == key:
                spans[-1]["span"] += 1
            else:
                spans.append({"key": key, "part": part, "span": 1})
        yield {"word": word, "spans": spans}


class GraphPage:
    def __init__(self, book, dag, layout, fault):
        self.book, self.dag, self.layout, self.fault = book, dag, layout, fault
        self.record, self.graph = book.record, book.record.graph(dag)
        self.runs = [*islice(self.record.latest_runs(dag), book.last)][::-1]
        first = self.runs[0].logical if self.runs else 0
        self.instances = self.record.instances(dag, "i.logical >= ?", first) if self.runs else {}
        self.latest = next((it for it in reversed(self.runs) if PHASES[it.phase] != "queued"), self.runs[-1] if self.runs else None)
        self.bars = {}
        if self.latest:
            for task, bar in bars_of_run(self.record, dag, self.latest.logical):
                self.bars.setdefault(task.name, []).append(bar)

    def before(self, runs):
        """A sentence on the runs before those that are shown."""
        found = self.record.runs_before(self.dag, runs[0].logical) if runs else None
        return found and found.runs and f"{counted(found.runs, 'earlier run')}, {found.failed:,} of them failed"

    def grid(self, level):
        runs = self.runs[-max(self.book.last >> level, 1) :]
        columns = [(self.book.run(self.dag, it), self.instances.get(it.logical, {}), date_of(it.logical)) for it in runs]
        short, places = self.book.tasks(self.dag)
        rows = [Row(name=it.name, short=short[it.name], cells=Markup(cells_of(it.name, places[it.name], columns, level == 0))) for it in self.graph.tasks]
        tops = [Row(**square(PHASES[it.phase]), kind=KINDS[it.kind], href=page, date=date) for it, (page, _, date) in zip(runs, columns)]
        span = dict.fromkeys(date_of(it.logical) for it in runs[:1] + runs[-1:])
        return {"heads": [*columns_of(runs)] if runs else [], "runs": tops, "rows": rows, "before": self.before(runs), "span": " to ".join(span)}

    def picture(self):
        """The boxes of the graph where dot has put them, with the states of the latest run."""
        short, places = self.book.tasks(self.dag)
        states = self.instances.get(self.latest.logical, {}) if self.latest else {}
        page = self.latest and self.book.run(self.dag, self.latest)
        boxes = []
        for it, (x, y), width in zip(self.graph.tasks, self.layout["boxes"], widths_of(self.book, self.dag)):
            state = states[it.name].state if it.name in states else "none"
            href = page and f"{page}#t{places[it.name]}"
            boxes.append(Row(x=x - width // 2, y=y - 11, width=width, name=it.name, short=short[it.name], **square(state), href=href))
        is_reduced = sum(len(it.upstream) for it in self.graph.tasks) > CURVES
        return {"is_reduced": is_reduced, "width": self.layout["width"] + 2, "height": self.layout["height"] + 2, "lines": self.layout["lines"], "boxes": boxes}

    def tasks(self):
        short, _ = self.book.tasks(self.dag)
        for it in self.graph.tasks:
            above = [short.get(name, name) for name in it.upstream[:UPSTREAMS]]
            yield Row(name=it.name, short=short[it.name], above=above, more=len(it.upstream) - len(above), rule=it.rule, operator=it.operator,
                      pool=cut(it.pool, NAME, "~"), slots=it.slots, retries=it.retries, delay=length_of(it.delay), past=it.past)

    def gantt(self):
        line = Line([bar for bars in self.bars.values() for bar in bars])
        short, _ = self.book.tasks(self.dag)
        states = self.instances.get(self.latest.logical, {})
        rows = [Row(name=it.name, short=short[it.name], bars=Markup(line.drawn(self.bars[it.name])), **square(states[it.name].state))
                for it in self.graph.tasks if it.name in self.bars and it.name in states]
        chosen = [{"href": self.book.run(self.dag, it), "date": date_of(it.logical), **square(PHASES[it.phase])} for it in self.runs[: -SHOWN_RUNS - 1 : -1]]
        return {"axis": [*line.axis()], "rows": rows, "chosen": chosen, "date": date_of(self.latest.logical), "href": self.book.run(self.dag, self.latest)}

    def context(self, level):
        keys, situation, text = self.graph.keys, self.book.situation, self.graph.text
        shown = text[: TEXT >> level] if level else text[:TEXT]
        tick, away = next_of(self.graph, self.book.now)
        return {
            "dag": self.dag, "short_dag": self.book.short[self.dag], "paused": self.graph.paused, "schedule": keys["schedule"],
            "timetable": keys.get("timetable", "interval"), "tick": tick, "away": away, "running_runs": situation.running(self.dag),
            "queued_runs": situation.phases[self.dag][0], "most_runs": situation.most_runs(self.dag), "flying": situation.active[self.dag],
            "bound": self.graph.bound, "grid": self.grid(level), "picture": self.picture() if self.layout and self.graph.tasks and level < 5 else None,
            "fault": self.fault or ("the graph is not drawn: the page would be too large" if self.layout else None),
            "tasks": [*self.tasks()] if level < 4 else None, "gantt": self.gantt() if self.bars and level < 4 else None, "text": shown,
            "is_cut": len(shown) < len(text), "titled": level < 2, "latest": self.latest and date_of(self.latest.logical),
            "latest_href": self.latest and self.book.run(self.dag, self.latest),
        }


def widths_of(book, dag):
    """How wide the box of each task is."""
    short, _ = book.tasks(dag)
    return [max(30 + 7 * len(short[it.name]), 60) for it in book.record.tasks(dag)]


def edges_of(book, dag):
    places = book.tasks(dag)[1]
    return reduced([[places[name], number] for number, it in enumerate(book.record.tasks(dag)) for name in it.upstream if name in places])


class RunPage:
    def __init__(self, book, dag, run, beside):
        self.book, self.dag, self.of_run, self.beside = book, dag, run, beside
        self.record, self.page = book.record, f"{book.out}/{book.folders[dag]}"
        self.bars = {}
        for task, bar in bars_of_run(self.record, dag, run.logical, None, book.logs):
            self.bars.setdefault(task.name, []).append(bar)
        self.instances = self.record.instances(dag, "i.logical = ?", run.logical).get(run.logical, {})
        self.waits = book.situation.waits_of_run(dag, run, self.instances) if PHASES[run.phase] in ("queued", "running") else {}
        every = [bar for bars in self.bars.values() for bar in bars]
        self.line, self.began = Line(every), min((it.start for it in every if it.one.started is not None), default=None)
        self.ended = max((it.end for it in every), default=None)
        self.day = day_of(self.began if self.began is not None else run.end)

    def why(self, task, state):
        """The reasons of one that waits, and what made a task end that was not tried."""
        if state in ("upstream_failed", "skipped") and task.name not in self.bars:
            return [f"upstream {name} {it}" for name, it in upstreams_without_success(task, self.instances)]
        return self.waits.get(task.name, [])

    def rows(self, level):
        """The rows of the tasks, as text."""
        names = self.book.escaped(self.dag)
        most = max(TRIES >> level, 1)
        for place, task in enumerate(self.record.tasks(self.dag)):
            bars, state = self.bars.get(task.name, ()), self.instances[task.name].state if task.name in self.instances else "none"
            name, short = names[place]
            tries = [try_of(it, self.day, it.log and escape(self.book.link_to(it.log, self.page)), short) for it in bars[-most:]]
            why = self.why(task, state)
            line = self.line.drawn(bars[-TRIES:]) if bars and level < 4 else ""
            titled = name if level < 2 else short
            yield row_of(place, state, titled, short, tries, len(bars) - len(tries), why[:UPSTREAMS], max(len(why) - UPSTREAMS, 0), line)

    def context(self, level):
        of_run, counts = self.of_run, {}
        for it in self.instances.values():
            counts[it.state] = counts.get(it.state, 0) + 1
        before, after = self.beside
        is_over = PHASES[of_run.phase] in ("success", "failed")
        took = None if self.began is None else length_of((self.ended if is_over else self.book.now) - self.began)
        return {
            "dag": self.dag, "short_dag": self.book.short[self.dag], "date": date_of(of_run.logical), "kind": KINDS[of_run.kind], **square(PHASES[of_run.phase]),
            "start": date_of(of_run.start), "end": date_of(of_run.end), "began": None if self.began is None else date_of(self.began), "took": took,
            "ended": date_of(self.ended) if is_over and self.ended is not None else None, "is_over": is_over,
            "run_id": f"{KINDS[of_run.kind]}__{text_of(of_run.logical, '%Y-%m-%dT%H:%M:%S+00:00')}", "day": date_of(self.day), "rows": Markup("".join(self.rows(level))),
            "counts": [(square(it), counts[it]) for it in LETTERS if it in counts], "axis_marks": [*self.line.axis()] if self.bars else [],
            "before": before and self.book.run(self.dag, before), "after": after and self.book.run(self.dag, after), "titled": level < 2,
        }
