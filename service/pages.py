"""Has the page of the record written now and then, beside all else, by `page` of `look`."""
import contextlib
import os
import signal
import subprocess
import time

from stops import Pace

# no more than a tenth of a processor is spent on it, and one that takes so many seconds is ended
SHARE, LIMIT, AT_END = 10, 900, 20
HERE = os.path.dirname(os.path.realpath(__file__))
PLACES = (os.path.join(HERE, "page"), os.path.join(os.path.dirname(HERE), "look", "page"))


def program():
    """Where `page` is: beside the programs where they are installed, else in the checkout."""
    return next((it for it in PLACES if os.path.isfile(it)), PLACES[0])


class Pages:
    """`goal` is the folder of the page, or None where there is none to be written."""

    def __init__(self, folder, log, goal, seconds, options):
        self.folder, self.log, self.goal, self.seconds, self.options = folder, log, goal, seconds, options
        self.process, self.next_time, self.said, self.warned, self.trouble = None, 0.0, "", None, Pace(600)

    def write(self):
        """Begins to write the page if it is time, and waits for nothing."""
        if self.goal is None or self.is_writing() or time.monotonic() < self.next_time or not os.path.lexists(self.folder.record):
            return
        words = ["nice", "-n", "10", "timeout", "-k", "5", str(LIMIT), program(), self.folder.path, self.goal, *self.options]
        self.next_time = time.monotonic() + self.seconds
        try:
            self.process = subprocess.Popen(words, stdin=subprocess.DEVNULL, stdout=subprocess.DEVNULL, stderr=subprocess.PIPE, start_new_session=True)
            os.set_blocking(self.process.stderr.fileno(), False)
        except OSError as error:
            self.warn(f"page cannot be started ({error.strerror})")

    def is_writing(self):
        """Whether it is being written; where it has ended, what went wrong is said."""
        if self.process is None:
            return False
        ended, status, used = os.wait4(self.process.pid, os.WNOHANG)
        # after that, since its last words may come at its very end
        self.said = (self.said + (self.process.stderr.read() or b"").decode(errors="replace"))[-2000:]
        if not ended:
            return True
        self.process.returncode = status = os.waitstatus_to_exitcode(status)
        self.process.stderr.close()
        self.process, said, self.said = None, self.said, ""
        self.next_time = max(self.next_time, time.monotonic() + SHARE * (used.ru_utime + used.ru_stime))
        if status or said:
            self.warn(" ".join(said.split()) or f"page ended with status {status}")
        return False

    def warn(self, text):
        """Says what is wrong, each thing once in ten minutes."""
        if self.trouble.is_due() or text != self.warned:
            self.warned = text
            self.log.warn(f"the page in {self.goal}: {text}")

    def end(self, is_asked):
        """At the end of the service the page is written once more, for which there are some seconds; where nobody asked for the end, it begins anew at once."""
        until = time.monotonic() + (AT_END if is_asked else 0)
        self.wait(until)
        if is_asked:
            self.next_time = 0.0
            self.write()
            self.wait(until)
        if self.process:
            with contextlib.suppress(OSError):
                os.killpg(self.process.pid, signal.SIGTERM)
            self.process.wait()

    def wait(self, until):
        while self.is_writing() and time.monotonic() < until:
            time.sleep(0.05)
