"""Presses tab: a shell on a terminal of its own is typed to, as a user would, and what it then shows is read."""
import contextlib
import fcntl
import os
import pty
import re
import select
import signal
import struct
import termios
import time

SEQUENCE = re.compile(r"\x1b(?:\[[0-?]*[ -/]*[@-~]|\][^\x07\x1b]*(?:\x07|\x1b\\)|[()][0-9A-B]|[=>78])")
# how long a shell may take for an answer, and after how long tab is pressed again
LONGEST, AGAIN = 60, 2
# the first line sets a prompt that does not stand in the line itself
STARTS = {
    "bash": (["bash", "--norc", "--noprofile", "-i"], "PS1='rea''dy> '; . {file}\r"),
    "zsh": (["zsh", "-f", "-i"], "PS1='rea''dy> '; fpath=({folder} $fpath); autoload -Uz compinit; compinit -u -d $HOME/.zcompdump\r"),
    "fish": (["fish", "--no-config", "-i"], "function fish_prompt; echo 'rea''dy> '; end; source {file}\r"),
}


class Shell:
    """A shell that has read a file of completions."""

    def __init__(self, name, file, folder):
        words, first = STARTS[name]
        self.name, self.shown = name, ""
        self.process, self.terminal = pty.fork()
        if not self.process:
            os.chdir(folder)
            os.execvpe(words[0], words, {**os.environ, "TERM": "xterm", "LANG": "C.UTF-8", "HISTFILE": "", "HOME": folder})
        # so many rows and columns that no list is cut
        fcntl.ioctl(self.terminal, termios.TIOCSWINSZ, struct.pack("4H", 60, 200, 0, 0))
        self.read(1)
        self.type(first.format(file=file, folder=os.path.dirname(file)))
        self.until("ready> ")

    def read(self, seconds):
        """Adds to what is shown what comes within this time, without what moves and colours it; returns whether anything came."""
        if not select.select([self.terminal], [], [], seconds)[0]:
            return False
        with contextlib.suppress(OSError):
            self.shown += SEQUENCE.sub("", os.read(self.terminal, 65536).decode(errors="replace"))
        return True

    def until(self, *wanted, again=""):
        """Reads until all of these are shown, and types the other text now and then."""
        end = time.monotonic() + LONGEST
        while not all(it in self.shown for it in wanted):
            if time.monotonic() > end:
                raise AssertionError(f"{self.name} shows no {' '.join(it for it in wanted if it not in self.shown)}: {self.shown!r}")
            if not self.read(AGAIN) and again:
                os.write(self.terminal, again.encode())

    def type(self, text):
        self.shown = ""
        os.write(self.terminal, text.encode())

    def end(self):
        os.kill(self.process, signal.SIGKILL)
        os.waitpid(self.process, 0)
        os.close(self.terminal)


def expect(shell, file, folder, line, *wanted):
    """Types a line and tab to a new shell in a folder, and waits until all of these words are shown behind it."""
    it = Shell(shell, file, folder)
    try:
        it.type(line)
        while it.read(0.3):
            pass
        it.type("\t")
        it.until(*wanted, again="\t")
    finally:
        it.end()
