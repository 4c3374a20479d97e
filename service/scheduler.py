"""A scheduler at work: its script is written command by command, and its answers are read."""
import collections
import contextlib
import os
import re
import selectors
import subprocess

# The last line of an answer. No row of a `list` or an `explain` is such a line: there the word after the number, if there is one, begins with no letter.
LAST = re.compile(r"(ok|memory|(refused|explain|usage|store|source|clock|conduct) [0-9]+ [A-Z][A-Za-z]*( .*)?)$")
SENTENCE = re.compile(r"line ([0-9]+): ")
STATUSES = {"ok": 0, "refused": 1, "explain": 1, "usage": 2, "store": 3}


class Gone(Exception):
    """The scheduler has ended."""


def status_of(line):
    """The status that docs/SCRIPTS.md gives to the last line of an answer."""
    words = line.split() or [""]
    return 3 if words[:2] == ["conduct", "3"] else STATUSES.get(words[0], 4)


def words_of(line):
    """The words of a line of a script; none of a comment."""
    return [] if line.startswith(b"#") else [it for it in line.replace(b"\t", b" ").split(b" ") if it]


def begins_graph(words):
    """Whether a graph stands in the lines below; a first word -- behind the command ends its options."""
    shapes = ([b"inline"], [b"--", b"inline"], [b"inline", b"--"])
    return words[:1] in ([b"load"], [b"replace"]) and words[1:] in shapes


def commands_of(text):
    """The commands of a script, each with all of its lines; None if a graph in it does not end."""
    found, in_graph = [], False
    for line in text.split(b"\n"):
        if in_graph:
            found[-1].append(line)
            in_graph = line != b"."
        elif words_of(line):
            found.append([line])
            in_graph = begins_graph(words_of(line))
    return None if in_graph else found


class Scheduler:
    """The process. `during` is called at least four times a second while an answer is waited for."""

    def __init__(self, arguments, folder, wakened, during):
        environment = {**os.environ, "DAGSCHED_FOLDER": folder.path}
        environment.pop("DAGSCHED_SERIAL", None)  # it is no program of a try
        pipes = {it: subprocess.PIPE for it in ("stdin", "stdout", "stderr")}
        self.process = subprocess.Popen(arguments, **pipes, cwd=folder.path, env=environment, start_new_session=True)
        self.during, self.wakened = during, wakened
        self.fed, self.unwritten = 0, b""
        self.worst = 0  # the greatest status of an answer so far
        self.lines, self.sentences = collections.deque(), []
        self.parts = {self.process.stdout: b"", self.process.stderr: b""}
        self.selector = selectors.DefaultSelector()
        for it in (self.process.stdin, *self.parts):
            os.set_blocking(it.fileno(), False)
        for it in (*self.parts, wakened):
            self.selector.register(it, selectors.EVENT_READ)

    def wait(self, seconds):
        """Reads and writes what can be, until something comes or the time is over."""
        for key, _ in self.selector.select(max(0, seconds)):
            if key.fileobj is self.wakened:
                with contextlib.suppress(BlockingIOError):
                    os.read(self.wakened, 512)
            elif key.fileobj is self.process.stdin:
                self.write()
            else:
                self.read(key.fileobj)

    def write(self):
        try:
            self.unwritten = self.unwritten[os.write(self.process.stdin.fileno(), self.unwritten):]
        except BlockingIOError:
            return
        except OSError:  # it reads no more; the end of its answers tells the rest
            self.unwritten = b""
        if not self.unwritten:
            self.selector.unregister(self.process.stdin)

    def read(self, file):
        try:
            found = os.read(file.fileno(), 1 << 16)
        except BlockingIOError:
            return False
        if not found:
            self.selector.unregister(file)
        *whole, self.parts[file] = (self.parts[file] + found).split(b"\n")
        if not found and self.parts[file]:
            whole.append(self.parts.pop(file))
        kept = self.lines if file is self.process.stdout else self.sentences
        kept += [it.decode(errors="replace") for it in whole]
        return bool(found)

    def answers_end(self):
        return self.process.stdout not in self.selector.get_map()

    def do(self, lines):
        """Does one command; returns the rows of its answer, and its last line."""
        self.unwritten = b"\n".join(lines) + b"\n"
        self.fed += len(lines)
        self.selector.register(self.process.stdin, selectors.EVENT_WRITE)
        rows, line = [], self.next_line()
        while not LAST.match(line):
            rows.append(line)
            line = self.next_line()
        if line.startswith("conduct "):
            self.lines.append(line)
            raise Gone
        self.worst = max(self.worst, status_of(line))
        return rows, line

    def next_line(self):
        while not self.lines:
            if self.answers_end():
                raise Gone
            self.wait(0.25)
            self.during()
        return self.lines.popleft()

    def occupied(self):
        """How many slots are taken by tries. Once this is answered, all sentences on what was done before it are there."""
        rows, last = self.do([b"list pools"])
        self.read_sentences()
        return sum(int(it.split()[2]) for it in rows) if last == "ok" else 0

    def read_sentences(self):
        """Reads the sentences that are there."""
        while self.process.stderr in self.selector.get_map() and self.read(self.process.stderr):
            pass

    def said(self, before=0):
        """Takes the sentences that came; the number of a line counts from the line after `before`."""
        found, self.sentences = self.sentences, []
        return [SENTENCE.sub(lambda it: f"line {max(1, int(it.group(1)) - before)}: ", line, count=1) for line in found]

    def end_script(self):
        """Tells it that no more commands come."""
        with contextlib.suppress(OSError):
            self.process.stdin.close()

    def kill(self):
        with contextlib.suppress(OSError):
            self.process.kill()

    def status(self):
        """Waits for its end; a signal's number stands behind 128, as in a shell."""
        found = self.process.wait()
        return found if found >= 0 else 128 - found
