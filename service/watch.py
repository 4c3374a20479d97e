"""Says which tries were handed out and how they ended. It reads copies of the record."""
import os
import shutil
import tempfile
import time

import service
import snapshot
from stops import Pace

TRIES = "SELECT serial, dag_id, logical, task_id, try_number, outcome FROM attempt WHERE serial > ? OR serial IN ({}) ORDER BY serial"
# looks take the twentieth part of the time at most, and one is given up after so many seconds
SHARE, SECONDS = 20, 2
# beside a copy and what SQLite makes of its log there
ROOM = 1 << 20


def words(it):
    return f"{it[0]} {it[1]} {service.moment_text(it[2])} {it[3]} {it[4]}"


class Watch:
    """`calls`, where there is one, is told which runs have failed."""

    def __init__(self, folder, log, calls):
        self.folder, self.log, self.calls = folder, log, calls
        self.last, self.open, self.said = 0, {}, set()
        self.seen, self.not_before, self.trouble = None, 0.0, Pace(60)

    def begin(self):
        """Looks at the record before it is used; returns its clock, and 0 where there is no record."""
        if not os.path.lexists(self.folder.record):
            return 0
        with self.rows() as rows:
            self.last = rows.execute("SELECT coalesce(max(serial), 0) FROM attempt").fetchone()[0]
            tries = rows.execute("SELECT serial, dag_id, logical, task_id, try_number FROM attempt WHERE outcome IS NULL").fetchall()
            self.open = {it[0]: words(it) for it in tries}
            if self.calls:
                self.calls.take(rows)
            return rows.execute("SELECT now FROM meta").fetchone()[0]

    def rows(self, seconds=snapshot.LONGEST):
        """Those of a copy in TMPDIR, or in FOLDER where TMPDIR alone is full: else no failed run would be told meanwhile."""
        needed = 2 * sum(it[1] for it in self.written() if it) + ROOM
        places = [it for it in (tempfile.gettempdir(), self.folder.path) if shutil.disk_usage(it).free > needed]
        return snapshot.rows_of(self.folder.record, seconds, self.folder.path if places == [self.folder.path] else None)

    def set_back(self):
        """How many tries clearings have set back so far; None where nobody can look."""
        try:
            with self.rows() as rows:
                return rows.execute("SELECT coalesce(sum(since), 0) FROM instance").fetchone()[0]
        except service.FAULTS:
            return None

    def printed(self, rows):
        """Takes note of the tries that an answer named."""
        self.said |= {int(it.split()[1]) for it in rows if it.startswith("try ")}

    def look(self, force=False):
        """Says what is new, if that costs little; returns the record's clock where it looked."""
        if not force and time.monotonic() < self.not_before:
            return None
        begun, seen = time.monotonic(), self.written()
        if seen == self.seen:
            return None
        try:
            with self.rows(SECONDS) as rows:
                self.say_tries(rows)
                if self.calls:
                    self.calls.take(rows)
                clock = rows.execute("SELECT now FROM meta").fetchone()[0]
            self.seen = seen
        except service.FAULTS as error:
            clock = None
            if os.path.lexists(self.folder.record) and (self.trouble.is_due() or force):
                self.log.warn(f"the record cannot be looked at ({error}), so tries are not said here")
        self.not_before = time.monotonic() + max(0.5, SHARE * (time.monotonic() - begun))
        return clock

    def written(self):
        """What each write to the record changes."""
        found = []
        for path in (self.folder.record, f"{self.folder.record}-wal"):
            try:
                it = os.stat(path)
                found.append((it.st_ino, it.st_size, it.st_mtime_ns))
            except OSError:
                found.append(None)
        return found

    def say_tries(self, rows):
        for it in rows.execute(TRIES.format(",".join(map(str, self.open))), (self.last,)).fetchall():
            serial, outcome = it[0], it[5]
            if serial not in self.open and serial not in self.said:
                self.log.say(f"try {words(it)}")
            self.said.discard(serial)
            self.last = max(self.last, serial)
            if outcome is None:
                self.open[serial] = words(it)
            else:
                self.open.pop(serial, None)
                self.log.say(f"ended {words(it)} {service.OUTCOMES[outcome]}")
