"""What `serve` says, and what asks it to end."""
import errno
import os
import re
import signal
import time

import service

CONTROL = re.compile(r"[\x00-\x1f\x7f]")
NOBODY_READS = (errno.EPIPE, errno.EIO, errno.EBADF)


class Log:
    """Writes lines with their time. Where they are not taken, as on a full disk, they are dropped, and their number is said once there is room."""

    def __init__(self):
        self.dropped, self.unheard = 0, False

    def put(self, file, *texts):
        for text in texts:
            self.write(file, f"{service.stamp()} {CONTROL.sub('?', text)}\n")

    def write(self, file, line):
        if self.dropped:
            line = f"{service.stamp()} {self.dropped} lines could not be written\n{line}"
        rest = line.encode(errors="surrogateescape")
        try:
            while rest:
                rest = rest[os.write(file, rest):]
            self.dropped = 0
        except OSError as error:
            self.dropped += 1
            self.unheard |= file == 1 and error.errno in NOBODY_READS

    def say(self, *texts):
        self.put(1, *texts)

    def warn(self, text):
        self.put(2, f"serve: {text}")


class Stops:
    """Counts the requests to end: signals, the file FOLDER/stop, and a log that nobody reads any more. Signals within a second are one request."""

    def __init__(self, folder, log):
        self.folder, self.log = folder, log
        self.first, self.again = None, False
        self.wakened, wake = os.pipe()
        for it in (self.wakened, wake):
            os.set_blocking(it, False)
        signal.set_wakeup_fd(wake, warn_on_full_buffer=False)
        for number in (signal.SIGTERM, signal.SIGINT, signal.SIGHUP):
            if number == signal.SIGTERM or signal.getsignal(number) is not signal.SIG_IGN:
                signal.signal(number, self.take)

    def take(self, *_):
        if self.first is None:
            self.first = time.monotonic()
        elif time.monotonic() - self.first >= 1:
            self.again = True

    def asked(self):
        if self.first is None and os.path.lexists(self.folder.at("stop")):
            self.first = time.monotonic()
        return self.first is not None or self.log.unheard


class Pace:
    """Lets something be done once in so many seconds."""

    def __init__(self, seconds):
        self.seconds, self.last = seconds, None

    def is_due(self):
        if self.last is not None and time.monotonic() - self.last < self.seconds:
            return False
        self.last = time.monotonic()
        return True

    def begin_anew(self):
        """From now on it takes so many seconds again."""
        self.last = time.monotonic()
