"""What `try` asks of `grid`, `gantt` and `names` of records that nobody writes: what they leave out, faults, narrow terminals, signals, kills and sizes."""
import contextlib
import os
import pathlib
import random
import re
import shutil
import signal
import sqlite3
import subprocess
import tempfile
import time

import made
import snapshot
from calling import LOOK, look, measured, on_terminal, written

SIGNALS = (signal.SIGTERM, signal.SIGINT, signal.SIGHUP)


def check_runs_left_out():
    """How many earlier runs are left out, and how many of them failed."""
    made.make("left.db", "orders", ["load", "tell"], 39, failed={3, 14, 38})
    printed = look("grid", "left.db")
    assert printed.startswith("orders: 2000-01-16 to 2000-02-08\n15 earlier runs, 2 of them failed: --last 39\n"), printed
    assert "\ntell     S" in printed and printed.split("\ntell ")[1].split("\n")[0].endswith(" F")
    whole = look("grid", "left.db", "--last", 39)
    assert "earlier" not in whole and whole.count("\nload ") == 2, whole
    assert look("grid", "left.db", "--last", 3).startswith("orders: 2000-02-06 to 2000-02-08\n36 earlier runs, 2 of them failed: --last 39\n")
    since = look("grid", "left.db", "--since", "2000-02-07")
    assert since.startswith("orders: 2000-02-07 to 2000-02-08\n37 earlier runs, 2 of them failed\n"), since
    failed = look("grid", "left.db", "--failed")
    assert failed.startswith("orders: 2000-01-04 to 2000-02-08, those that failed\nmonth   01 01 02\nday     04 15 08\n"), failed
    assert look("grid", "left.db", "--failed", "--last", 1).splitlines()[1] == "2 earlier runs that failed: --failed --last 3"
    assert look("grid", "left.db", "--since", "2001-01-01").startswith("orders: no such runs\n39 earlier runs, 3 of them failed\n")
    print("grid says what it leaves out")


def check_dates_of_rows():
    """Rows of a catchup that begins at one moment each bear a date, and more tries than are drawn are told."""
    drawn = look("gantt", "left.db", "--last", 14)
    assert re.findall(r'fill="#666">(\d\d-\d\d\S*)</text>', drawn) == ["01-26..02-08"] * 2, drawn
    with contextlib.closing(sqlite3.connect("left.db")) as rows:
        rows.execute("UPDATE attempt SET started = 950000000, ended = 950000000")
        rows.commit()
    drawn = look("gantt", "left.db", "--last", 14)
    dates = re.findall(r'fill="#666">(\d\d-\d\d)</text>', drawn)
    assert len(dates) == 28 and set(dates) == {f"0{1 + (day > 31)}-{day - 31 * (day > 31):02}" for day in range(26, 40)}, dates
    assert "; 68 earlier ones are left out" in look("gantt", "left.db", "--most", 10)
    print("rows of gantt bear their dates")


def check_faults(work):
    """Each fault has its status and its words."""
    (work / "text").write_text("no database at all, but a text that is long enough to be looked at\n" * 50)
    (work / "empty").touch()
    (work / "folder").mkdir()
    with contextlib.closing(sqlite3.connect("other.db")) as rows:
        rows.execute("CREATE TABLE meta (a)")
    made.make("later.db", "orders", ["load"], 2, version=3)
    os.mkfifo("pipe")
    for words, status, told in (
        (["nothing.db"], 3, "nothing.db: No such file or directory"),
        (["folder"], 3, "folder: this folder has no record.db"),
        (["text"], 3, "this is no record: file is not a database"),
        (["empty"], 3, "empty: this is no record: it is empty"),
        (["other.db"], 3, "a database of another program: it has no table pool"),
        (["later.db"], 3, "a record of version 3, and this program reads the versions 1 and 2"),
        (["pipe"], 3, "pipe: this is no file"),
        (["left.db", "--last", "0"], 2, "0 is no number from 1"),
        (["left.db", "--logs", "nowhere"], 2, "nowhere is no folder"),
        ([], 2, "required: RECORD"),
    ):
        for name in ("grid", "gantt"):
            found = look(name, *words, status=status)
            assert told in found and "Traceback" not in found, found
    assert "order: no graph of this record; it has orders\n" == look("grid", "left.db", "order", status=1)
    assert "x: no graph of this record; it has orders\n" == look("gantt", "left.db", "--dag", "x", status=1)
    assert "2000 is no moment: write a day" in look("grid", "left.db", "--since", "2000", status=2)
    assert "FROM is later than TO" in look("gantt", "left.db", "2001-01-01", "2000-01-01", status=2)
    with open("/dev/full", "wb") as full:
        assert subprocess.run([LOOK / "grid", "left.db"], stdout=full, stderr=subprocess.DEVNULL).returncode == 4
    with subprocess.Popen([LOOK / "grid", "left.db", "--last", "39"], stdout=subprocess.PIPE, stderr=subprocess.PIPE) as it:
        it.stdout.close()
        assert it.stderr.read() == b"" and it.wait() == 0
    for name, options in (("grid", "--last --since --failed --logs --width --color"), ("gantt", "FROM TO --last --dag --most --logs")):
        assert all(it in look(name, "--help") for it in options.split())
    print("faults are told")


def check_layout():
    """Names of 250 bytes, and terminals of all widths, with colours and without."""
    tasks = ["a" * 249 + it for it in "xy"] + ["a" * 120 + it + "a" * 129 for it in "xy"] + ["short"]
    made.make("long.db", "d" * 250, tasks, 30, failed={29}, version=2, in_flight=4)
    for columns in (16, 30, 40, 80, 133, 250):
        coloured = on_terminal(columns, "grid", "long.db")
        plain = re.sub("\033\\[[0-9;]*m", "", coloured)
        assert coloured != plain and plain == on_terminal(columns, "grid", "long.db", NO_COLOR="1") == on_terminal(columns, "grid", "long.db", TERM="dumb")
        assert plain == look("grid", "long.db", "--width", columns), plain
        rows = plain.split("run ")[1].split("\n\n")[0].splitlines()[1:]
        assert len({it.split()[0] for it in rows}) == len(rows) == 5, plain
        assert max(map(len, plain.splitlines())) <= columns, plain
    assert on_terminal(80, "grid", "left.db").count(" 02") > 8 and len(on_terminal(133, "grid", "left.db").splitlines()[-8]) > 80
    drawn = look("gantt", "long.db")
    assert max(len(it) for it in re.findall(r'class="label"[^>]*>([^<]*)<', drawn)) <= 28, drawn
    print("long names and narrow terminals keep the layout")


def check_signals(rounds):
    """Signals leave no copy, at whatever moment they come."""
    made.make("signals.db", "orders", [f"t{it}" for it in range(100)], 300)
    interrupted = 0
    for _ in range(rounds):
        number = random.choice(SIGNALS)
        it = subprocess.Popen([LOOK / "grid", "signals.db", "--last", "200"], stdout=subprocess.DEVNULL, stderr=subprocess.PIPE)
        time.sleep(random.uniform(0, 0.4))
        it.send_signal(number)
        told = it.communicate()[1]
        # before its first line Python ends by a signal as it does by itself
        assert it.returncode in (0, -number, 128 + number) or number == signal.SIGINT and b"KeyboardInterrupt" in told, (it.returncode, told)
        assert not os.listdir(tempfile.gettempdir())
        interrupted += it.returncode == 128 + number
    print(f"{rounds} signals left no copy, of which {interrupted} came while a program was at work")


def check_kills():
    """What a kill leaves of a copy is removed by a look a minute later; a copy that is being made stays."""
    old = time.time() - 2 * snapshot.LEFT
    killed = pathlib.Path(tempfile.mkdtemp(prefix=snapshot.PREFIX))
    (killed / "record.db").touch()
    os.utime(killed, (old, old))
    young = pathlib.Path(tempfile.mkdtemp(prefix=snapshot.PREFIX))
    with snapshot.temporary_folder() as held:
        os.utime(held, (old, old))
        look("grid", "left.db")
        assert held.is_dir() and young.is_dir() and not killed.exists()
    young.rmdir()
    print("what a kill leaves is removed later")


def check_sizes():
    """A thousand runs of a hundred tasks take two seconds, and a million instances little memory."""
    made.make("thousand.db", "orders", [f"t{it}" for it in range(100)], 1000)
    made.make("million.db", "orders", [f"t{it}" for it in range(100)], 10000)
    for words in (["grid", "thousand.db", "--last", 1000], ["gantt", "thousand.db"]):
        used, took, _ = min(measured(*words) for _ in range(4))
        assert used < 2, (words, used, took)
        print(f"{' '.join(map(str, words))}: {took:.2f} s, {used:.2f} s of a processor")
    for words in (["grid", "million.db", "--last", "10000"], ["gantt", "million.db"]):
        most = measured(*words)[2]
        assert most < 80, (words, most)
        print(f"{' '.join(words)}: {most} MB")


def check_left_alone():
    """A look changes no byte and no date of a record, and leaves no file beside it."""
    before = [(it.name, it.stat().st_mtime_ns, it.read_bytes()) for it in sorted(pathlib.Path().glob("l*.db*"))]
    for name in ("left.db", "long.db"):
        look("grid", name)
        look("gantt", name)
        written(name, "page-of-it")
        shutil.rmtree("page-of-it")
    assert before == [(it.name, it.stat().st_mtime_ns, it.read_bytes()) for it in sorted(pathlib.Path().glob("l*.db*"))]
    print("records are left as they are")


def check_names():
    """The names for a shell, also while the record is written; none that a shell could take for more than a name, and none of a large record."""
    made.make("names.db", "orders", ["t"], 1)
    with sqlite3.connect("names.db") as rows:
        rows.executemany("INSERT INTO pool VALUES (?, 1)", [("dark",), ("$(touch done)",), ("a b",), ("x" * 251,)])
    rows.close()
    assert look("names", "names.db", "dags") == "orders\n"
    assert look("names", "names.db", "pools").split("\n") == ["dark", "default_pool", ""]
    assert look("names", "night", "dags") == "night\n"
    assert look("names", "million.db", "dags") == ""
    look("names", "names.db", "runs", status=2)
    look("names", "no.db", "dags", status=3)
    print("names are those that a shell may read")
