"""Calls a program of the user for each run that fails: once for each end, and without waiting for it."""
import contextlib
import os
import signal
import subprocess
import time
from typing import NamedTuple

import service
from stops import Pace

FAILED = """SELECT r.dag_id, r.logical, (SELECT coalesce(max(serial), 0) FROM attempt a WHERE a.dag_id = r.dag_id AND a.logical = r.logical),
 r.data_start, r.data_end, r.kind FROM run r WHERE r.phase = 3 ORDER BY r.dag_id, r.logical"""
# so many programs at once, and so many seconds for each, which timeout(1) counts, since it does so where serve is killed too
MOST, LIMIT = 8, 60
TIMED_OUT = (124, 137, -signal.SIGKILL)


class Failure(NamedTuple):
    """A run that has failed. The serial of its last try tells one end of it from another."""

    dag: str
    logical: int
    serial: int
    start: int
    end: int
    kind: int

    def key(self):
        return f"{self.dag} {self.logical} {self.serial}"

    def words(self):
        return {
            "AIRFLOW_CTX_DAG_ID": self.dag, "AIRFLOW_CTX_EXECUTION_DATE": service.moment_text(self.logical),
            "AIRFLOW_CTX_DAG_RUN_ID": service.run_id(self.kind, self.logical), "DAGSCHED_DATA_INTERVAL_START": service.moment_text(self.start),
            "DAGSCHED_DATA_INTERVAL_END": service.moment_text(self.end), "DAGSCHED_RUN_TYPE": service.KINDS[self.kind]}


class Told:
    """The ends that were told, a line each in FOLDER/told. Those that the record has when this file is first made count as told."""

    def __init__(self, path):
        self.path, self.keys = path, None

    def read(self, failures):
        try:
            with open(self.path, "rb") as it:
                self.keys = {*it.read().decode(errors="replace").split("\n")}
        except FileNotFoundError:
            there = [it.key() for it in failures]
            self.write(there)
            self.keys = {*there}

    def write(self, keys):
        """Adds lines on the disk, all or none: half a line is no line of its own."""
        file = os.open(self.path, os.O_WRONLY | os.O_CREAT | os.O_APPEND, 0o644)
        try:
            before, text = os.fstat(file).st_size, "".join(f"{it}\n" for it in keys).encode()
            try:
                if os.write(file, text) < len(text):
                    raise OSError(0, "there is no room")
                os.fsync(file)
            except OSError:
                os.ftruncate(file, before)
                raise
        finally:
            os.close(file)

    def keep(self, key):
        """Writes that an end is told before it is, so that no kill has it told twice."""
        self.write([key])
        self.keys.add(key)


class Calls:
    def __init__(self, folder, log, program):
        self.folder, self.log, self.program = folder, log, program
        self.told, self.failures, self.running = Told(folder.at("told")), [], []
        self.trouble, self.troubled = Pace(60), False

    def take(self, rows):
        """Takes the failed runs of a record that were not told."""
        told = self.told.keys or ()
        self.failures = [it for it in map(Failure._make, rows.execute(FAILED)) if it.key() not in told]

    def call(self):
        """Calls the program for each failed run that it was not called for; none is waited for."""
        self.reap()
        if self.troubled and not self.trouble.is_due():
            return
        try:
            if self.told.keys is None:
                self.told.read(self.failures)
            for it in self.failures:
                if it.key() not in self.told.keys and len(self.running) < MOST:
                    self.told.keep(it.key())
                    self.start(it)
            self.troubled = False
        except OSError as error:
            self.troubled = True
            self.trouble.begin_anew()
            self.log.warn(f"{self.told.path} cannot be read and written ({error.strerror}): no program is called for a failed run meanwhile")

    def start(self, failure):
        environment = {**os.environ, **failure.words(), "DAGSCHED_FOLDER": self.folder.path}
        environment.pop("DAGSCHED_SERIAL", None)  # it is no program of a try
        named = f"{failure.dag} {service.run_id(failure.kind, failure.logical)}"
        self.log.say(f"failed {named}: {self.program} is called")
        words = ["timeout", "-k", "5", str(LIMIT), self.program]
        try:
            self.running.append(subprocess.Popen(words, env=environment, cwd=self.folder.path, stdin=subprocess.DEVNULL, start_new_session=True))
        except OSError as error:
            self.log.warn(f"{self.program} cannot be started ({error.strerror}): nobody was told of the failed run {named}")

    def reap(self):
        for process in [it for it in self.running if it.poll() is not None]:
            self.running.remove(process)
            if process.returncode:
                late = f": it had not ended after {LIMIT} seconds" if process.returncode in TIMED_OUT else ""
                self.log.warn(f"{self.program} ended with status {process.returncode}{late}")

    def end(self):
        """At the end of the service, which such a program holds up for some seconds at most."""
        until = time.monotonic() + 10
        while self.running and time.monotonic() < until:
            self.reap()
            time.sleep(0.1)
        for process in self.running:
            self.log.warn(f"{self.program} has not ended, and is ended")
            with contextlib.suppress(OSError):
                os.killpg(process.pid, signal.SIGKILL)
            process.wait()
