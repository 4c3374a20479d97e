"""What `serve` looks at before it begins a scheduler: that it is alone, that all can be written, and that the record opens."""
import fcntl
import os
import subprocess
import tempfile
import time

import inbox
import programs
import service
from stops import Pace

CANNOT_WRITE, NOT_ALONE = 4, 3
TAKING, ENDING = b"taking", b"ending"


def value_of(name, options):
    """The value of an option of `dagsched run`, or None."""
    for at, it in enumerate(options):
        if it == name and at + 1 < len(options):
            return options[at + 1]
        if it.startswith(f"{name}="):
            return it.split("=", 1)[1]
    return None


class Lock:
    """The lock of a folder, in which stands whether commands are taken."""

    def __init__(self, folder, log):
        self.path, self.log, self.file = folder.at("lock"), log, None

    def take(self):
        """Returns a status where it cannot be had."""
        try:
            self.file = os.open(self.path, os.O_RDWR | os.O_CREAT, 0o644)
        except OSError as error:
            self.log.warn(f"{self.path} cannot be written ({error.strerror}): give the user {os.geteuid()} the right to write it")
            return CANNOT_WRITE
        for _ in range(20):  # who looks whether a serve is at work holds it for an instant
            try:
                fcntl.flock(self.file, fcntl.LOCK_EX | fcntl.LOCK_NB)
                return self.mark(TAKING)
            except BlockingIOError:
                time.sleep(0.1)
        self.log.warn(f"another serve is at work on {os.path.dirname(self.path)}")
        return NOT_ALONE

    def mark(self, word):
        """Writes whether commands are taken: an `ask` in a try that the end of the service waits for must not wait in its turn."""
        try:
            os.pwrite(self.file, word, 0)
        except OSError as error:
            self.log.warn(f"{self.path} cannot be written ({error.strerror}), so a task that asks the service for something may wait for ever")


class Start:
    def __init__(self, program, folder, options, log, stops, lock):
        self.program, self.folder, self.options, self.log, self.stops, self.lock = program, folder, options, log, stops, lock

    def status(self):
        """The status with which `serve` ends where it begins nothing, else None."""
        for step in (self.lock.take, self.unwritable, self.stop_of_before, self.orphan, self.unopened):
            status = step()
            if status is not None:
                return status
        return None

    def unwritable(self):
        folders = [self.folder.path, *(self.folder.at(it) for it in inbox.FOLDERS)]
        folders += [os.path.join(self.folder.path, value_of(it, self.options)) for it in ("--logs", "--scratch")]
        for place in folders:
            try:
                os.makedirs(place, exist_ok=True)
                with tempfile.TemporaryFile(dir=place):
                    pass
            except OSError as error:
                user = os.geteuid()
                self.log.warn(f"{place} cannot be written ({error.strerror}), so nothing is begun: give the user {user} the right to write it, or make room")
                return CANNOT_WRITE
        return None

    def stop_of_before(self):
        path = self.folder.at("stop")
        if not os.path.lexists(path):
            return None
        if service.remove(path):
            self.log.warn(f"a file {path} of before was there; it is removed, and the service begins")
            return None
        self.log.warn(f"a file {path} of before is there, and cannot be removed, so nothing is begun")
        return CANNOT_WRITE

    def orphan(self):
        """Waits for the scheduler of a serve that was killed, which ends once its tries have ended. A stop ends the waiting, with status 0."""
        pace = Pace(30)
        while self.folder.scheduler():
            if pace.is_due():
                self.lock.mark(ENDING)
                self.folder.wake()
                orphan = f"the scheduler of a serve that was killed, process {self.folder.scheduler()},"
                self.log.warn(f"{orphan} is at work until its tries have ended; waits for it")
                for line in programs.lines(self.folder):
                    self.log.warn(f"waits for {line}")
            if self.stops.asked():
                service.remove(self.folder.at("stop"))
                return 0
            time.sleep(0.2)
        service.remove(self.folder.at("scheduler.pid"))
        self.lock.mark(TAKING)
        for line in programs.lines(self.folder):
            self.log.warn(f"left from before is {line}; its try is lost, and may be tried again beside it: to end it, `end FOLDER SERIAL`")
        return None

    def unopened(self):
        """The status of a record that does not open, before a command of the inbox is taken."""
        if not os.path.lexists(self.folder.record):
            return None
        words = [self.program, "--record", self.folder.record, "list", "pools"]
        for _ in range(5):  # the program of a try that is just being started has the record open for an instant
            it = subprocess.run(words, stdin=subprocess.DEVNULL, capture_output=True)
            if it.returncode != NOT_ALONE:
                break
            time.sleep(0.3)
        if it.returncode == 0:
            return None
        self.log.put(2, *(it.stdout + it.stderr).decode(errors="replace").splitlines())
        return it.returncode if it.returncode > 0 else 128 - it.returncode
