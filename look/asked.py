"""What the program itself answers to `explain`, of a copy of a record.

A command looks at a record as it is, and opens it for each question. A script opens it once, but begins with a restart: tries in flight are lost, and there are
no lanes. So a script is asked of a second copy, which has one graph alone and in which its tries in flight have not been handed out yet. By docs/EXPLAIN.md this
changes nothing of what is told of an instance that has no verdict or is finished, but for the state of an upstream, or of the run before, that is in flight. Of
all others commands are asked.
"""
import contextlib
import sqlite3
import subprocess

from record import text_of
from snapshot import NoRecord, beside, copied, file_of, no_copy, sweep, temporary_folder

REASONS = ("finished", "handed-out", "run-queued", "paused", "run-finished", "upstream", "past", "retry-at", "pool", "graph-full", "lanes")
# so many are asked together, and in parts for which any pipe has room
TOGETHER, ROOM = 80, 4096
WHOLE, TABLES = ("meta", "pool"), ("meta", "pool", "dag", "dag_limit", "run", "instance", "attempt")
SCHEMA = f"SELECT name, sql FROM sqlite_schema WHERE tbl_name IN {TABLES} AND sql IS NOT NULL AND type IN ('table', 'index') ORDER BY type DESC"


def words_of(dag, logical, task):
    return "explain", "--", dag, text_of(logical), task


def reasons_in(lines):
    """The reasons of an answer, which ends with `ok`."""
    found = []
    for line in map(str.rstrip, lines):
        if line == "ok":
            return found
        if line.partition(" ")[0] not in REASONS:
            raise NoRecord(f"dagsched does not explain it: {line}")
        found.append(line)
    raise NoRecord("dagsched does not explain it: it ends without an answer")


def parts_of(questions):
    """Questions in parts for which a pipe has room, so that none waits for an answer to be read."""
    part, size = [], 0
    for it in questions:
        length = len(it.encode(errors="replace"))
        if part and size + length > ROOM:
            yield part
            part, size = [], 0
        part.append(it)
        size += length
    if part:
        yield part


class Script:
    """The program with a script over a record, which asks some questions at a time."""

    def __init__(self, program, record):
        words = [program, "--record", record, "run", "--lanes", "0", "--workers", "1", "--scratch", record.with_name("scratch")]
        pipe = subprocess.PIPE
        self.process = subprocess.Popen(words, stdin=pipe, stdout=pipe, stderr=subprocess.DEVNULL, text=True, cwd=record.parent)

    def explain(self, dag, keys):
        """The reasons of each of these instances."""
        return [reasons for part in parts_of([" ".join(words_of(dag, *it)) + "\n" for it in keys]) for reasons in self.answers(part)]

    def answers(self, questions):
        """Puts questions, and then reads their answers."""
        # where the program has ended, what it said instead is read
        with contextlib.suppress(BrokenPipeError):
            self.process.stdin.writelines(questions)
            self.process.stdin.flush()
        return [reasons_in(self.process.stdout) for _ in questions]

    def end(self):
        self.process.kill()
        self.process.wait()
        self.process.stdout.close()
        with contextlib.suppress(BrokenPipeError):
            self.process.stdin.close()


class Copies:
    """A copy of a record, and of one graph of it with nothing in flight; the second is made when it is asked first."""

    def __init__(self, program, rows, folder, dag):
        self.program, self.rows, self.folder, self.dag, self.script = program, rows, folder, dag, None

    def graph_alone(self):
        """The second copy."""
        to = self.folder / "graph.db"
        with contextlib.closing(sqlite3.connect(to, isolation_level=None)) as made:
            made.execute("PRAGMA journal_mode = WAL").fetchall()
            made.execute("BEGIN")
            for name, sql in self.rows.execute(SCHEMA).fetchall():
                made.execute(sql)
                if name in TABLES:
                    of_graph = "" if name in WHOLE else "WHERE dag_id = ?"
                    rows = self.rows.execute(f"SELECT * FROM {name} {of_graph}", [self.dag] * bool(of_graph))
                    made.executemany(f"INSERT INTO {name} VALUES ({', '.join('?' * len(rows.description))})", rows)
            made.execute("DELETE FROM attempt WHERE ended IS NULL")
            made.execute("COMMIT")
        return to

    def explain(self, keys):
        """The reasons of instances that have no verdict or are finished, of each its date and its task."""
        if self.script is None:
            try:
                self.script = Script(self.program, self.graph_alone())
            except sqlite3.OperationalError as error:
                raise NoRecord(f"no second copy can be made in {self.folder.parent}: {error}; TMPDIR names another folder") from None
        return self.script.explain(self.dag, keys)

    def explain_as_it_is(self, logical, task):
        """The reasons of any instance, by a command on the first copy, of which the rows are closed then."""
        self.rows.close()
        words = [self.program, "--record", self.folder / "record.db", *words_of(self.dag, logical, task)]
        done = subprocess.run(words, stdin=subprocess.DEVNULL, stdout=subprocess.PIPE, stderr=subprocess.DEVNULL, text=True, cwd=self.folder)
        return reasons_in(done.stdout.splitlines())


@contextlib.contextmanager
def copies_of(program, path, dag):
    """The copies of the record at a path, a file or the folder of a service, which are gone at the end."""
    record = file_of(path)
    sweep()
    with contextlib.ExitStack() as stack:
        try:
            folder = stack.enter_context(temporary_folder())
            rows = stack.enter_context(contextlib.closing(copied(record, folder)))
        except OSError as error:
            raise no_copy(record, error) from None
        copies = Copies(program, rows, folder, dag)
        try:
            yield copies
        except (sqlite3.DatabaseError, NoRecord) as error:
            raise NoRecord(f"{path}: {error}") from None
        finally:
            if copies.script is not None:
                copies.script.end()
