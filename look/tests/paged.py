"""What `try` asks of `page`: pages of a real night in a browser, names that would break out, sizes, readers and kills beside a writing, and faults."""
import collections
import contextlib
import html.parser
import os
import random
import re
import resource
import shutil
import signal
import sqlite3
import subprocess
import sys
import threading
import time
import urllib.parse

import browser
import made
from browsed import look_at
from calling import LOOK, answers_of, measured, written
from made import ODD
from reasons import Situation
from record import opened, text_of
from rules import END, next_tick

SERVICE = LOOK.parent / "service"
LIMIT = 300_000
TIMED = 'dag_id = "d"\nschedule = "{0}"\nstart_date = "2024-02-28T01:00:00Z"\nend_date = "2032-03-01"\ncatchup = false\n{1}[[task]]\ntask_id = "t"\noperator = "noop"\n'
CRON = ("@daily", "30 2 * * *", "*/15 * * * *", "0 6 * * MON-FRI", "0 0 29 2 *", "0 3 1 * 5", "5/20 4 * 1-3 *")
TIMETABLES = [(it, trigger) for it in CRON for trigger in (False, True)] + [("@once", False), ("None", False)]
# tidy knows no links in pictures
UNKNOWN = ('proprietary attribute "href"', 'proprietary attribute "tabindex"')


class Parts(html.parser.HTMLParser):
    """The links and the names of places of a page, and its elements."""

    def __init__(self, text):
        super().__init__()
        self.links, self.places, self.kinds = [], set(), collections.Counter()
        self.feed(text)

    def handle_starttag(self, tag, attrs):
        given = dict(attrs)
        self.kinds[tag] += 1
        self.links += filter(None, [given.get("href")])
        self.places.add(given.get("id"))


def whole(path):
    """The parts of a page, which has its end."""
    text = path.read_text(encoding="utf-8")
    assert text.rstrip().endswith("</html>"), f"{path} is half a page"
    assert len(text.encode()) <= LIMIT, f"{path} has {len(text.encode())} bytes"
    return Parts(text)


def check_site(folder, logs=True):
    """Each page is whole and within its limit, and each link leads to a file and a place in it. Gives the pages."""
    pages = {it.resolve(): whole(it) for it in (*folder.glob("*.html"), *folder.glob("graphs/*/*.html"))}
    assert folder.resolve() / "index.html" in pages
    for page, parts in pages.items():
        assert not parts.kinds["script"], page
        for link in parts.links:
            if link.startswith(("data:", "http:", "https:", "/")):
                continue
            name, _, place = link.partition("#")
            goal = (page.parent / urllib.parse.unquote(name)).resolve() if name else page
            assert goal.is_file() or not logs and goal.name.startswith("attempt="), f"{page} links to {link}"
            assert not place or place in pages[goal].places, f"{page} links to {link}, where there is no such place"
    return pages


def check_tidy(pages):
    if not shutil.which("tidy"):
        return "tidy is not installed, so it has not looked at them"
    for page in pages:
        said = subprocess.run(["tidy", "-q", "-e", "-utf8", page], capture_output=True, text=True, errors="replace").stderr
        faults = [it for it in said.splitlines() if not it.endswith(UNKNOWN)]
        assert not faults, f"{page}: {faults[:5]}"
    return f"tidy has nothing against {len(pages)} of them"


def check_reasons(program, path):
    """What a page says of what waits is what `explain` says."""
    told = {}
    with opened(path) as record:
        situation = Situation(record)
        for dag in record.dags:
            for run in record.latest_runs(dag):
                instances = record.instances(dag, "i.logical = ?", run.logical)[run.logical]
                for task, why in situation.waits_of_run(dag, run, instances).items():
                    told[dag, text_of(run.logical), task] = why
    for words, why in told.items():
        found = subprocess.run([program, "--record", path, "explain", *words], capture_output=True, text=True).stdout.splitlines()
        assert found == [*why, "ok"], (words, found, why)
    return {it.split()[0] for why in told.values() for it in why}


class Night:
    """A night of the service, which is made beside all else, with copies in a place of its own. `serve` writes its page."""

    def __init__(self, program, work):
        self.work, self.folder = work, work / "shop"
        (work / "copies").mkdir(parents=True)
        words = [sys.executable, "-B", SERVICE / "night.py", program, work, f"--page={work / 'page'}", "--page-each=2"]
        environment = {**os.environ, "TMPDIR": str(work / "copies")}
        self.process = subprocess.Popen(words, stdin=subprocess.PIPE, stdout=subprocess.PIPE, stderr=subprocess.STDOUT, text=True, env=environment)

    def wait(self):
        said = self.process.stdout.readline()
        assert said == "made\n", said + self.process.stdout.read()

    def end(self):
        said, _ = self.process.communicate()
        assert self.process.returncode == 0, said
        check_site(self.work / "page")


def check_night(program, night, work, pictures):
    """The pages of a night of the service, which is at work in this folder."""
    kept = work / "kept"
    shutil.copytree(night, kept, ignore=shutil.ignore_patterns("dagsched-scratch", "record.db*"))
    subprocess.run([SERVICE / "copy", night, kept / "record.db"], check=True)
    said = written(kept, work / "site", "--title", "shop")
    assert not said or not shutil.which("dot") and said.count("install graphviz") == 1, said
    pages = check_site(work / "site")
    words = check_tidy(pages)
    reasons = check_reasons(program, kept / "record.db")
    assert {"pool", "run-queued", "retry-at", "paused", "upstream"} <= reasons, reasons
    front = (work / "site" / "index.html").read_text()
    for it in ("pool scales needs 1 open 0", "run-queued 1 limit 1", "retry-at ", ">paused<", "Failed since", " full", "by hand"):
        assert it in front, it
    slow = next((work / "site" / "graphs" / "slow").glob("2*.html")).read_text()
    assert ">lost<" in slow and ">in flight<" in slow and "upstream copy running" in slow, slow
    print(f"a night of the service has {len(pages)} pages, of which each link leads somewhere; {words}")
    look_at(work / "site", pictures)


def check_ticks(program, work):
    """The next tick that a page tells is the next moment at which a tick makes a run."""
    for number, (schedule, trigger) in enumerate(TIMETABLES):
        now, path = made.FIRST + random.randrange(23 * 366 * made.DAY, 27 * 366 * made.DAY), work / f"ticks{number}.db"
        (work / "d.toml").write_text(TIMED.format(schedule, 'timetable = "trigger"\n' * trigger))
        answers_of(program, path, f"load {work}/d.toml", f"tick {text_of(now)}")
        with opened(path) as record:
            tick = next_tick(record.graph("d").keys, record.now)
        before, after = answers_of(program, path, f"tick {text_of((tick or END) - 1)}", f"tick {text_of(tick or END - 1)}").split("ok\n")[:2]
        assert "made " not in before and ("made " in after) == (tick is not None), (schedule, trigger, text_of(now), tick, before, after)
    print(f"the next tick is right in {len(TIMETABLES)} timetables")


def check_added(program, work):
    """A run of which another text added tasks later."""
    path = work / "added.db"
    made.make(path, "orders", ["load", "tell"], 3, failed={1}, version=2, in_flight=1)
    with contextlib.closing(sqlite3.connect(path)) as rows:
        rows.execute("UPDATE dag SET body = ?", (made.text_of_graph("orders", ["load", "check", "tell"]),))
        rows.executemany("INSERT INTO instance VALUES ('orders', ?, 'check', ?, 0)", ((made.FIRST + day * made.DAY, verdict) for day, verdict in enumerate((2, 3, 0))))
        rows.commit()
    assert subprocess.run([program, "--record", path, "list", "tasks"], capture_output=True).returncode == 0, "a record that dagsched opens"
    written(path, work / "added")
    texts = [it.read_text() for it in sorted((work / "added" / "graphs" / "orders").glob("2*.html"))]
    for text, state in zip(texts, ("skipped", "upstream_failed", "none")):
        assert f'check <span class="state">{state}</span>' in text, text
    check_tidy(check_site(work / "added"))
    print("tasks that came later are shown")


def check_odd(work):
    """Names and texts that would break out of a page are shown as they are."""
    made.odd(work / "odd.db")
    written(work / "odd.db", work / "odd", "--title", ODD[0])
    pages = check_site(work / "odd")
    check_tidy(pages)
    assert len(pages) == 1 + 2 * len(ODD), sorted(pages)
    assert not any(parts.kinds["img"] for parts in pages.values())
    if browser.program():
        with browser.Browser() as it:
            for page in pages:
                seen = it.load(str(page), 390)
                assert seen["ran"] is None and not seen["scripts"] and not seen["errors"], (page, seen)
                assert seen["wide"] <= seen["room"] and not seen["past"], (page, seen["past"])
            assert ODD[0] in it.load(str(work / "odd" / "index.html"))["text"]
    print("names and texts that would break out do not")


def check_sizes(work):
    """Pages stay small, and are made fast: thousand.db and million.db are there."""
    made.dense(work / "dense.db")
    written(work / "dense.db", work / "dense", "--last", "40")
    print(f"of 256 graphs with long names {len(check_site(work / 'dense'))} pages stay below {LIMIT:,} bytes")
    for name, seconds, memory in (("thousand", 2, 500), ("million", 60, 500)):
        used, took, most = min(measured("page", f"{name}.db", work / name) for _ in range(3))
        assert used < seconds and most < memory, (name, used, took, most)
        pages = check_site(work / name)
        front = (work / name / "graphs" / "orders" / "index.html").read_text()
        assert re.search("[0-9,]+ earlier runs, [0-9]+ of them failed", front), front[:3000]
        print(f"page {name}.db: {len(pages)} pages in {took:.2f} s, {used:.2f} s of a processor, {most} MB")


def check_beside(work, rounds):
    """A reader beside writings, of which some are killed, sees whole pages alone, and each link leads somewhere."""
    path, site, ending, seen = work / "beside.db", work / "beside", threading.Event(), collections.Counter()
    made.make(path, "orders", ["load", "tell"], 40, failed={38}, version=2)
    written(path, site)
    faults = []
    def reads():
        while not ending.is_set():
            try:
                seen["pages"] += len(check_links_of(site / "index.html") + check_links_of(site / "graphs" / "orders" / "index.html"))
            except BaseException as fault:
                faults.append(fault)
                return
    reader = threading.Thread(target=reads)
    reader.start()
    for number in range(rounds):
        with contextlib.closing(sqlite3.connect(path)) as rows:
            day = made.FIRST + (100 + number) * made.DAY
            rows.execute("INSERT INTO run VALUES ('orders', ?, ?, ?, 0, ?)", (day, day, day + made.DAY, number % 4))
            rows.execute("UPDATE meta SET now = ?", (day + 2 * made.DAY,))
            rows.commit()
        process = subprocess.Popen([LOOK / "page", path, site, "--last", "9"], stderr=subprocess.DEVNULL)
        if number % 2:
            time.sleep(random.uniform(0.1, 0.8))
            process.send_signal(random.choice((signal.SIGKILL, signal.SIGTERM)))
        seen["kills"] += process.wait() != 0
    ending.set()
    reader.join()
    assert not faults, faults
    written(path, site, "--last", "9")
    written(path, site, "--last", "9")
    pages = check_site(site)
    linked = {goal for page in pages for goal in check_links_of(page)}
    assert linked == {*pages} and not [*site.glob(".dagsched-new-*")], {*pages} - linked
    print(f"a reader beside {rounds} writings, {seen['kills']} of them killed, saw {seen['pages']} whole pages")


def check_links_of(page):
    """The pages that a page links to, each whole."""
    found = []
    for link in whole(page).links:
        goal = (page.parent / urllib.parse.unquote(link.partition("#")[0])).resolve()
        if goal.suffix == ".html":
            whole(goal)
            found.append(goal)
    return found


def check_logs_at(work):
    """Links to logs lead where a web server shows them, also by an address that is meant from the front page."""
    path, site, logs, day = work / "logged.db", work / "logged", work / "logs", text_of(made.FIRST, "%Y-%m-%d")
    made.make(path, "orders", ["load"], 1, failed={0})
    log = logs / "dag_id=orders" / f"run_id=scheduled__{day}T00:00:00+00:00" / "task_id=load" / "attempt=1.log"
    log.parent.mkdir(parents=True)
    log.touch()
    for at, begins in (("../logs/", "."), ("/logs", "/logs/dag")):
        written(path, site, "--logs", logs, "--logs-at", at)
        found = [it for parts in check_site(site).values() for it in parts.links if it.endswith(".log")]
        assert len(found) == 2 and all(it.startswith(begins) for it in found), found


def check_full_disk(path, site):
    """Where the pages cannot be written, as here where no file may be larger than the copy of the record, that is said."""
    def limit():
        resource.setrlimit(resource.RLIMIT_FSIZE, (70_000, 70_000))
    full = subprocess.run([LOOK / "page", path, site, "--title", "x" * 80_000], capture_output=True, text=True, preexec_fn=limit)
    assert full.returncode == 4 and "the site stays as it was" in full.stderr, full


def check_faults(work):
    """What cannot be done is said, and leaves what was there."""
    path, other, site = work / "beside.db", work / "other", work / "fault"
    other.mkdir()
    (other / "index.html").write_text("mine")
    assert "has files that no page wrote" in written(path, other, status=4) and (other / "index.html").read_text() == "mine"
    assert "No such file" in written(path, work / "nowhere" / "site", status=4)
    assert "No such file" in written(work / "nothing.db", site, status=3)
    assert "is no address" in written(path, site, "--logs-at", "javascript:x", status=2)
    written(path, site)
    before = {it: it.read_bytes() for it in site.rglob("*.html")}
    check_full_disk(path, site)
    assert before == {it: it.read_bytes() for it in site.rglob("*.html")}, "the site stays as it was"
    (work / "lacking").mkdir(exist_ok=True)
    (work / "lacking" / "jinja2.py").write_text("raise ImportError")
    assert "install Debian's package python3-jinja2" in written(path, site, status=5, PYTHONPATH=str(work / "lacking"))
    bare = work / "bare"
    bare.mkdir()
    for it in ("python3", "env"):
        (bare / it).symlink_to(shutil.which(it))
    said = written(path, work / "undrawn", PATH=str(bare))
    assert said.count("install graphviz") == 1 and "install graphviz" in (work / "undrawn" / "graphs" / "orders" / "index.html").read_text(), said
    check_site(work / "undrawn")
    check_logs_at(work)
    print("page tells what it cannot do")


def check_other_texts(work):
    """A text that is no graph file, in a record that was made by hand, is told in a sentence, and nothing is written."""
    for at, (before, after, told) in enumerate((
        ('operator = "noop"', 'operator = "noop"\ntrigger_rule = "all_succes"', "task 0: there is no trigger_rule 'all_succes'"),
        ('operator = "noop"', 'operator = "noop"\nretries = "two"', "task 0: retries is no whole number"),
        ('operator = "noop"', 'operator = "noop"\nupstream = [1]', "task 0: upstream is no list of texts"),
        ('task_id = "load"', "", "task 0: it lacks task_id"),
        ("[[task]]", "[task]", "task is no list"),
        ('schedule = "@daily"', "", "it lacks schedule"),
        ('schedule = "@daily"', 'schedule = "daily"', "daily is no cron text"),
        ('start_date = "2000-01-01"', 'start_date = "2000-13-01"', "'2000-13-01'"),
    )):
        path, site = work / f"text{at}.db", work / f"text{at}"
        made.make(path, "orders", ["load"], 1)
        with contextlib.closing(sqlite3.connect(path)) as rows:
            rows.execute("UPDATE dag SET body = replace(body, ?, ?)", (before, after))
            rows.commit()
        said = written(path, site, status=3)
        assert "the text of the graph orders is no graph file: " in said and told in said and not [*site.glob("*")], said
    print("texts that are no graph files are told")
