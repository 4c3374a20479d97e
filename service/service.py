"""What the programs of the service share: the folder of a service, and how a program begins and ends."""
import contextlib
import fcntl
import os
import signal
import sqlite3
import sys
import time

# where the programs are installed, snapshot lies beside them
sys.path.append(os.path.join(os.path.dirname(os.path.dirname(os.path.realpath(__file__))), "look"))
import snapshot

OUTCOMES = ("success", "failed", "skipped", "lost")
KINDS = ("scheduled", "manual", "backfill")
FAULTS = (OSError, sqlite3.Error, snapshot.NoRecord)  # of a look at the record
NOT_TAKEN = 4


class Usage(Exception):
    """The words that a program was given are none of its own."""


def stamp(moment=None):
    return time.strftime("%Y-%m-%dT%H:%M:%SZ", time.gmtime(moment))


def moment_text(moment):
    return time.strftime("%Y-%m-%dT%H:%M:%S+00:00", time.gmtime(moment))


def run_id(kind, logical):
    return f"{KINDS[kind]}__{moment_text(logical)}"


def remark(text):
    """Says a sentence on standard error; where nobody takes it, it is dropped."""
    with contextlib.suppress(OSError):
        print(text, file=sys.stderr, flush=True)


def complain(text):
    remark(f"{os.path.basename(sys.argv[0])}: {text}")


def run(main):
    """Runs a program on its words, and ends it with the status that `main` returns: 2 by its words, 4 where its output is not taken."""
    hold_streams()
    end_by_signals()
    words, text = sys.argv[1:], (sys.modules["__main__"].__doc__ or "").strip()
    try:
        if words[:1] in (["--help"], ["-h"]):
            print(text)
            status = 0
        else:
            status = main(words)
        sys.stdout.flush()
    except Usage:
        remark(text)
        status = 2
    except OSError as error:
        # nothing is written at the end then
        os.dup2(os.open(os.devnull, os.O_WRONLY), 1)
        if not isinstance(error, BrokenPipeError):
            complain(error)
        status = NOT_TAKEN
    sys.exit(status)


def hold_streams():
    """Opens those of the standard streams that are closed, so that no file of the program takes their place; names of any bytes are written as they are."""
    for number in range(3):
        try:
            os.fstat(number)
        except OSError:
            os.open(os.devnull, os.O_RDWR)
    sys.stdout, sys.stderr = (it or open(os.devnull, "w") for it in (sys.stdout, sys.stderr))
    for stream in (sys.stdout, sys.stderr):
        stream.reconfigure(encoding="utf-8", errors="surrogateescape")


def end_by_signals():
    """Lets a signal end the program in order, so that what it made is removed; one that is ignored stays so, and a second one does not cut that short."""
    numbers = [it for it in snapshot.ENDING if signal.getsignal(it) is not signal.SIG_IGN]
    def leave(number, _):
        for it in numbers:
            signal.signal(it, signal.SIG_IGN)
        sys.exit(128 + number)
    for it in numbers:
        signal.signal(it, leave)


def remove(path):
    """Removes a file; returns whether it is gone."""
    with contextlib.suppress(OSError):
        os.unlink(path)
    return not os.path.lexists(path)


def sync_folder(path):
    """Brings to the disk which names a folder has."""
    with contextlib.suppress(OSError):
        file = os.open(path, os.O_RDONLY)
        try:
            os.fsync(file)
        finally:
            os.close(file)


def state_of(process):
    """The letter of a process's state, or None where it is gone."""
    try:
        with open(f"/proc/{process}/stat", "rb") as it:
            return it.read().rsplit(b") ", 1)[1][:1].decode()
    except (OSError, IndexError):
        return None


class Folder:
    """The folder of a service."""

    def __init__(self, path):
        self.path = os.path.realpath(path)
        self.record = self.at("record.db")

    def at(self, *names):
        return os.path.join(self.path, *names)

    def at_work(self):
        """Whether a serve works on the folder: it holds the lock."""
        try:
            with open(self.at("lock"), "rb") as lock:
                fcntl.flock(lock, fcntl.LOCK_SH | fcntl.LOCK_NB)
        except BlockingIOError:
            return True
        except OSError:
            pass
        return False

    def takes_commands(self):
        """Whether a serve is at work that takes commands: one that ends has written so into the lock."""
        try:
            with open(self.at("lock"), "rb") as lock:
                return lock.read(6) != b"ending" and self.at_work()
        except OSError:
            return False

    def scheduler(self):
        """The process of the scheduler, or None."""
        return self.found_scheduler()[0]

    def scheduler_words(self):
        """The words with which the scheduler was begun; none where there is none."""
        return self.found_scheduler()[1]

    def found_scheduler(self):
        try:
            with open(self.at("scheduler.pid"), "rb") as it:
                found = int(it.read())
            with open(f"/proc/{found}/cmdline", "rb") as it:
                words = it.read().split(b"\0")
        except (OSError, ValueError):
            return None, []
        return (found, [os.fsdecode(it) for it in words]) if os.fsencode(self.record) in words else (None, [])

    @contextlib.contextmanager
    def held_scheduler(self, wait):
        """Locks what says who the scheduler is, as who stops it or lets it go on has to; gives a handle of its process, or None."""
        process = self.scheduler()
        if not process:
            yield None
            return
        with open(self.at("scheduler.pid"), "rb") as lock:
            fcntl.flock(lock, fcntl.LOCK_EX | (0 if wait else fcntl.LOCK_NB))
            handle = os.pidfd_open(process)
            try:
                # who took up the number of one that has ended since is no scheduler
                yield handle if process == self.scheduler() else None
            finally:
                os.close(handle)

    def wake(self):
        """Lets a scheduler go on that was left stopped, and says so. One that a copy holds still is let go on by that copy."""
        process = self.scheduler()
        if not process or state_of(process) != "T":
            return
        try:
            with self.held_scheduler(wait=False) as handle:
                if handle is None or state_of(process) != "T":
                    return
                signal.pidfd_send_signal(handle, signal.SIGCONT)
                complain(f"the scheduler, process {process}, was left stopped, as by a copy that was killed; it goes on now")
        except BlockingIOError:
            pass
        except OSError as error:
            complain(f"the scheduler, process {process}, was left stopped, and cannot be let go on ({error.strerror}): as its user say kill -CONT {process}")
