"""A copy of a record for oneself, also while a scheduler is at work on it. The record, and the folder that it is in, stay as they are.

A scheduler holds SQLite's exclusive lock as long as it lives, so that no other connection can read the record, and SQLite's backup needs one. A reader that
SQLite lets in where no scheduler is at work makes a file beside the record (`-shm`). So here the two files are read as they are, without SQLite and without a
lock, the database first and then its log. What such a copy rests on:

- Between two checkpoints nothing writes the database, and the log only grows: each event is written behind those before it. A frame counts only if the sums
  of all frames up to it are right, so an event that is half in the copy is none. So where no checkpoint falls into the time of copying, the copy is the record
  as after some whole event.
- A checkpoint writes the database, and then the head of the log, with new numbers, one of them drawn by chance. So there was none where, after the copying,
  the head of the log is what it was before it, also in the copy, and the database has the moment of writing that it had. Else the record is copied again.
- A moment of writing is one of the system's clock, which moves in steps of some milliseconds. A write that it does not tell is one before the head of the log
  is written anew; then the log has all that is written, and SQLite reads it from there. Where there is no log, the copying begins a little after the last write.

SQLite then looks through the copy (`PRAGMA quick_check`).
"""
import contextlib
import errno
import fcntl
import os
import pathlib
import shutil
import signal
import sqlite3
import stat
import tempfile
import time
from typing import NamedTuple, Optional

ENDING = {signal.SIGHUP, signal.SIGINT, signal.SIGQUIT, signal.SIGTERM, signal.SIGALRM, signal.SIGUSR1, signal.SIGUSR2}
LONGEST, PAUSE, SETTLED = 15, 0.02, 0.05
HEAD, EMPTY_LOG = 32, 41
# folders have names of their own, and are those of a killed program after so many seconds
PREFIX, LEFT = "dagsched-copy-", 60


class NoRecord(Exception):
    """Why there is no record that can be read."""


class Unsettled(NoRecord):
    """A checkpoint fell into each copy."""


class Mark(NamedTuple):
    """What is another after a checkpoint."""

    file: tuple[int, ...]
    written: int
    log: Optional[int]
    head: bytes


def file_of(path):
    """The file of the record that is meant: of a folder its record.db; the log lies beside the file itself, not beside a link to it."""
    found = pathlib.Path(path)
    try:
        if found.is_dir():
            found /= "record.db"
            if not found.exists():
                raise NoRecord(f"{path}: this folder has no record.db: it is that of no service")
        found = found.resolve(strict=True)
        if not stat.S_ISREG(found.stat().st_mode):
            raise NoRecord(f"{path}: this is no file")
    except (OSError, RuntimeError) as error:
        raise NoRecord(f"{path}: {getattr(error, 'strerror', None) or error}") from None
    if beside(found, "-journal").exists():
        raise NoRecord(f"{found}: another program left {found.name}-journal: let sqlite3 open the file once, while no dagsched is at work")
    return found


def beside(path, ending):
    return path.with_name(path.name + ending)


def head_of(log):
    """The file that a log is, and its head."""
    try:
        with open(log, "rb") as it:
            return os.fstat(it.fileno()).st_ino, it.read(HEAD)
    except FileNotFoundError:
        return None, b""


def mark_of(record):
    it = record.stat()
    return Mark((it.st_dev, it.st_ino, it.st_size), it.st_mtime_ns, *head_of(beside(record, "-wal")))


def copied_once(record, to):
    """Copies a record with its log, and tells whether no checkpoint fell into that."""
    before = mark_of(record)
    if not before.head and time.time() - before.written / 1e9 < SETTLED:
        time.sleep(SETTLED)
    log, log_to = beside(record, "-wal"), beside(to, "-wal")
    log_to.unlink(missing_ok=True)
    shutil.copyfile(record, to)
    with contextlib.suppress(FileNotFoundError):
        shutil.copyfile(log, log_to)
    return head_of(log_to)[1] == before.head and mark_of(record) == before


def connected(copy):
    """The rows of a copy."""
    has_log = beside(copy, "-wal").exists() and beside(copy, "-wal").stat().st_size > EMPTY_LOG
    rows = sqlite3.connect(copy, isolation_level=None)
    try:
        rows.execute("PRAGMA locking_mode = EXCLUSIVE").fetchall()
        rows.execute("PRAGMA cache_size = -16384")
        rows.execute("SELECT count(*) FROM sqlite_schema").fetchall()
        found = rows.execute("PRAGMA quick_check(1)").fetchone()[0] if has_log else "ok"
        if found != "ok":
            raise sqlite3.DatabaseError(found)
    except sqlite3.Error:
        rows.close()
        raise
    return rows


def copied(record, folder, seconds=LONGEST):
    """The rows of a copy of a record, made as record.db in a folder of its own."""
    faults, until = [], time.monotonic() + seconds
    while time.monotonic() < until:
        if copied_once(record, folder / "record.db"):
            try:
                return connected(folder / "record.db")
            except sqlite3.Error as error:
                faults.append(error)
        if len(faults) == 3:
            raise NoRecord(f"{record}: this is no record: {faults[-1]}")
        time.sleep(PAUSE)
    raise Unsettled(f"{record}: it is written so fast that no whole copy could be made in {seconds} seconds: try again, or copy it by the service's `copy`")


def sweep(place=None):
    """Removes folders of programs that were killed while they copied: those that nobody holds, and that were not made just now."""
    for it in pathlib.Path(place or tempfile.gettempdir()).glob(f"{PREFIX}*"):
        with contextlib.suppress(OSError):
            held = os.open(it, os.O_RDONLY | os.O_DIRECTORY | os.O_NOFOLLOW)
            try:
                found = os.fstat(held)
                if found.st_uid == os.getuid() and time.time() - found.st_mtime > LEFT:
                    fcntl.flock(held, fcntl.LOCK_EX | fcntl.LOCK_NB)
                    shutil.rmtree(it)
            finally:
                os.close(held)


@contextlib.contextmanager
def temporary_folder(place=None):
    """A folder that is gone at the end, also where a signal comes: none is taken while it is made or removed."""
    folder, held, waiting = None, None, signal.pthread_sigmask(signal.SIG_BLOCK, ENDING)
    try:
        folder = tempfile.mkdtemp(prefix=PREFIX, dir=place)
        held = os.open(folder, os.O_RDONLY)
        fcntl.flock(held, fcntl.LOCK_SH)
        signal.pthread_sigmask(signal.SIG_SETMASK, waiting)
        yield pathlib.Path(folder)
    finally:
        signal.pthread_sigmask(signal.SIG_BLOCK, ENDING)
        if folder is not None:
            shutil.rmtree(folder, ignore_errors=True)
        if held is not None:
            os.close(held)
        signal.pthread_sigmask(signal.SIG_SETMASK, waiting)


def no_copy(record, place, error):
    """Why there is no copy, by an error of the system."""
    room = error.errno in (errno.ENOSPC, errno.EDQUOT)
    where = f": {place or tempfile.gettempdir()} has no room for a copy of it; TMPDIR names another folder" if room else f": {error.strerror}"
    return NoRecord(f"{record if room else error.filename or record}{where}")


@contextlib.contextmanager
def rows_of(path, seconds=LONGEST, place=None):
    """The rows of a record at a path, of one moment: those of a copy, in which nobody writes, and which is made for so many seconds at most, in a folder
    of `place`, or of TMPDIR."""
    record = file_of(path)
    sweep(place)
    try:
        with temporary_folder(place) as folder:
            rows = copied(record, folder, seconds)
    except OSError as error:
        raise no_copy(record, place, error) from None
    with contextlib.closing(rows):
        yield rows
