"""Records that `try` makes by SQL, of any size and version."""
import json
import sqlite3

DAY, FIRST = 86400, 946684800
# names that no graph file may have, and that a record may be made to
ODD = ["<script>window.ran = 1</script>", "\"><img src=x onerror=\"window.ran = 2\">", "a&amp;b 'c' \"d\"", "</pre></title><b>", "{{ title }}{% x %}", "é" * 125]
ODD += ["../../x", "n" * 250]
CREATING = """
CREATE TABLE meta (one INTEGER PRIMARY KEY, version INTEGER NOT NULL, now INTEGER NOT NULL, next_serial INTEGER NOT NULL, lanes INTEGER NOT NULL) STRICT;
CREATE TABLE pool (name TEXT NOT NULL PRIMARY KEY, size INTEGER NOT NULL) STRICT;
CREATE TABLE dag (dag_id TEXT NOT NULL PRIMARY KEY, body TEXT NOT NULL, paused INTEGER NOT NULL) STRICT;
CREATE TABLE run (dag_id TEXT NOT NULL REFERENCES dag, logical INTEGER NOT NULL, data_start INTEGER NOT NULL, data_end INTEGER NOT NULL, kind INTEGER NOT NULL, phase INTEGER NOT NULL, PRIMARY KEY (dag_id, logical)) STRICT;
CREATE TABLE instance (dag_id TEXT NOT NULL, logical INTEGER NOT NULL, task_id TEXT NOT NULL, verdict INTEGER NOT NULL, since INTEGER NOT NULL, PRIMARY KEY (dag_id, logical, task_id), FOREIGN KEY (dag_id, logical) REFERENCES run) STRICT;
CREATE TABLE attempt (serial INTEGER PRIMARY KEY, dag_id TEXT NOT NULL, logical INTEGER NOT NULL, task_id TEXT NOT NULL, try_number INTEGER NOT NULL, slots INTEGER NOT NULL, started INTEGER, ended INTEGER, outcome INTEGER, FOREIGN KEY (dag_id, logical, task_id) REFERENCES instance) STRICT;
CREATE INDEX by_instance ON attempt (dag_id, logical, task_id);
"""
LIMITS = "CREATE TABLE dag_limit (dag_id TEXT NOT NULL PRIMARY KEY REFERENCES dag, max_active_tasks INTEGER NOT NULL) STRICT"


def text_of_graph(dag, tasks):
    """The file of a graph whose tasks follow one another."""
    text = f'dag_id = "{dag}"\nschedule = "@daily"\nstart_date = "2000-01-01"\n'
    for number, it in enumerate(tasks):
        above = f'upstream = ["{tasks[number - 1]}"]\n' if number else ""
        text += f'[[task]]\ntask_id = "{it}"\noperator = "noop"\n{above}'
    return text


def make(path, dag, tasks, runs, failed=(), version=1, in_flight=0):
    """Makes a record of a graph with a run for each day since 2000, each task tried once; the last task of some runs failed, by number, and the last tries have no end."""
    rows = sqlite3.connect(path)
    rows.executescript("PRAGMA journal_mode = WAL; PRAGMA synchronous = OFF;" + CREATING)
    rows.execute("INSERT INTO dag VALUES (?, ?, 0)", (dag, text_of_graph(dag, tasks)))
    rows.execute("INSERT INTO pool VALUES ('default_pool', 128)")
    serial = 1
    for number in range(runs):
        logical = FIRST + number * DAY
        end = logical + DAY
        phase = 3 if number in failed else 2 if number < runs - bool(in_flight) else 1
        rows.execute("INSERT INTO run VALUES (?, ?, ?, ?, 0, ?)", (dag, logical, logical, end, phase))
        rows.executemany("INSERT INTO instance VALUES (?, ?, ?, 1, 0)", ((dag, logical, it) for it in tasks))
        tries = ((serial + at, dag, logical, it, end + at, end + at + 30, int(number in failed and at == len(tasks) - 1)) for at, it in enumerate(tasks))
        rows.executemany("INSERT INTO attempt VALUES (?, ?, ?, ?, 1, 1, ?, ?, ?)", tries)
        serial += len(tasks)
    rows.execute("UPDATE attempt SET ended = NULL, outcome = NULL WHERE serial >= ?", (serial - in_flight,))
    rows.execute("INSERT INTO meta VALUES (1, ?, ?, ?, 0)", (version, FIRST + (runs + 1) * DAY, serial))
    if version > 1:
        rows.execute(LIMITS)
        rows.execute("INSERT INTO dag_limit VALUES (?, 16)", (dag,))
    rows.commit()
    rows.close()


def odd(path):
    """A record of names and texts that would break out of a page: each graph has all of them as tasks."""
    rows, tried = sqlite3.connect(path), "INSERT INTO attempt (dag_id, logical, task_id, try_number, slots, started, ended, outcome) VALUES (?, 946684800, ?, 1, 1, 946771200, ?, ?)"
    rows.executescript(CREATING)
    task = "[[task]]\ntask_id = {}\noperator = {}\npool = {}\nupstream = {}\n"
    for name in ODD:
        text = f'dag_id = {json.dumps(name)}\nschedule = "@daily"\nstart_date = "2000-01-01"\n# {ODD[0]} {ODD[3]}\n'
        text += "".join(task.format(*map(json.dumps, (it, ODD[0], ODD[1], ODD[:at]))) for at, it in enumerate(ODD))
        rows.execute("INSERT INTO dag VALUES (?, ?, 0)", (name, text))
        rows.execute("INSERT INTO run VALUES (?, 946684800, 946684800, 946771200, 0, 1)", (name,))
        rows.executemany("INSERT INTO instance VALUES (?, 946684800, ?, 1, 0)", ((name, it) for it in ODD))
        rows.executemany(tried, ((name, ODD[0], 946771201, 1), (name, ODD[1], None, None)))
    rows.executemany("INSERT INTO pool VALUES (?, 1)", ((it,) for it in ODD))
    rows.execute("INSERT INTO meta VALUES (1, 1, 946771300, 100, 4)")
    rows.commit()
    rows.close()


def dense(path):
    """A record of graphs as large as they may be, with names as long as they may be."""
    rows = sqlite3.connect(path)
    rows.executescript("PRAGMA synchronous = OFF;" + CREATING + LIMITS)
    tasks = [f"{it:03}".rjust(250, "t") for it in range(256)]
    for number in range(256):
        dag = f"{number:03}".rjust(250, "d")
        few = tasks if number == 0 else tasks[:2]
        body = "".join(f'[[task]]\ntask_id = "{it}"\noperator = "noop"\nupstream = {json.dumps(few[max(at - 16, 0) : at])}\n' for at, it in enumerate(few))
        rows.execute("INSERT INTO dag VALUES (?, ?, 0)", (dag, f'dag_id = "{dag}"\nschedule = "@daily"\nstart_date = "2000-01-01"\n{body}'))
        rows.execute("INSERT INTO dag_limit VALUES (?, 16)", (dag,))
        for day in range(30 if few is tasks else 14):
            logical = FIRST + day * DAY
            rows.execute("INSERT INTO run VALUES (?, ?, ?, ?, 0, 3)", (dag, logical, logical, logical + DAY))
            rows.executemany("INSERT INTO instance VALUES (?, ?, ?, 1, 0)", ((dag, logical, it) for it in few))
            tries = ((dag, logical, it, number, FIRST + 31 * DAY) for it in few for number in range(1, 4 if few is tasks else 2))
            rows.executemany("INSERT INTO attempt (dag_id, logical, task_id, try_number, slots, started, ended, outcome) VALUES (?, ?, ?, ?, 1, ?5, ?5, 1)", tries)
    rows.executemany("INSERT INTO pool VALUES (?, 1)", ((f"{it:03}".rjust(250, "p"),) for it in range(63)))
    rows.execute("INSERT INTO pool VALUES ('default_pool', 128)")
    rows.execute("INSERT INTO meta VALUES (1, 2, ?, 1000000, 4)", (FIRST + 31 * DAY + 60,))
    rows.commit()
    rows.close()
