"""Does the scripts of the inbox, each command once, whenever anything is killed.

A script is taken by renaming it from `inbox` to `doing`, and its name there says how many of its commands are answered: `2,NAME`. A command whose answer
a kill cut off is given again by the next service before anything else, and above all before a tick. A second `trigger` is refused then (`RunExists`), and
one of `load`, `replace`, `pause`, `unpause`, `resize` and `backfill` changes nothing. A scheduler whose serve was killed may have done tries meanwhile. So
a `clear`, a `backfill --reset` and a `mark` are not given again where the record has more tries set back than before them. A second `mark` of a task without
tries passes it over once more, and sets back what failed after it since.
"""
import contextlib
import fcntl
import os
import re
import stat
import time

import service
import snapshot
from scheduler import LAST, commands_of
from stops import Pace

FOLDERS = ("inbox", "doing", "done", "refused", "answers")
NOTE = ".set-back"
TAKEN = re.compile(r"([0-9]+),(.+)", re.S)
# what a file of the inbox may have at most: bytes of its name, so that there is room for a number, and of its text, which is held in memory
LONGEST_NAME, LONGEST_TEXT = 200, 64 << 20
AGAIN = "the service was ended before this command was answered"


class NoScript(Exception):
    """Why something in the inbox is no script."""


def read_file(path):
    """The bytes of a file that is no link, folder, pipe or device."""
    if os.path.islink(path):
        raise NoScript("it is a link")
    file = os.open(path, os.O_RDONLY | os.O_NONBLOCK | os.O_NOFOLLOW)
    with open(file, "rb") as it:
        found = os.fstat(file)
        if not stat.S_ISREG(found.st_mode):
            raise NoScript("it is no file")
        if found.st_size > LONGEST_TEXT:
            raise NoScript(f"it has more than {LONGEST_TEXT >> 20} MB")
        return it.read()


class Inbox:
    """`held` is called while nothing goes on."""

    def __init__(self, folder, log, watch, held, days):
        self.folder, self.log, self.watch, self.held, self.days = folder, log, watch, held, days
        self.told, self.unread, self.hourly = {}, Pace(60), Pace(3600)

    def do_left(self, scheduler):
        """Does what an earlier service took and did not end, before anything else is done."""
        for name in self.insist(lambda: sorted(os.listdir(self.folder.at("doing"))), "doing cannot be read"):
            if not name.startswith("."):
                self.do(name, scheduler, again=True)

    def do_all(self, scheduler, is_over):
        """Does the scripts that are there, by name, until it is over; returns whether there was one."""
        if self.hourly.is_due():
            self.sweep()
        any_done = False
        for name in [it for it in self.names("inbox") if not self.is_hidden(it)]:
            taken = self.take(name)
            if taken:
                self.do(taken, scheduler)
                any_done = True
                if is_over():
                    break
        return any_done

    def names(self, place):
        try:
            return sorted(os.listdir(self.folder.at(place)))
        except OSError as error:
            if self.unread.is_due():
                self.log.warn(f"{self.folder.at(place)} cannot be read ({error.strerror}): give the user {os.geteuid()} the right to read and write it")
            return []

    def is_hidden(self, name):
        """Whether a file is no script yet. What an `ask` that was killed has left is removed: nobody holds it."""
        if name.startswith(".ask-"):
            path = self.folder.at("inbox", name)
            with contextlib.suppress(OSError), open(path, "rb") as it:
                if time.time() - os.fstat(it.fileno()).st_mtime > 2:
                    fcntl.flock(it, fcntl.LOCK_EX | fcntl.LOCK_NB)
                    os.unlink(path)
        return name.startswith(".")

    def take(self, name):
        """Takes a script; returns its name in `doing`, or None where it stays in the inbox."""
        path = self.folder.at("inbox", name)
        try:
            if len(os.fsencode(name)) > LONGEST_NAME:
                raise NoScript(f"its name has more than {LONGEST_NAME} bytes")
            commands = commands_of(read_file(path))
        except (NoScript, OSError) as error:
            why = getattr(error, "strerror", error)
            self.tell(path, f"inbox/{name} cannot be read ({why}), and stays there: make it a file that the user {os.geteuid()} may read, or remove it")
            return None
        free = self.free_name(name)
        goal, taken = ("refused", free) if commands is None else ("doing", f"0,{free}")
        try:
            os.rename(path, self.folder.at(goal, taken))
        except OSError as error:
            what = f"inbox/{name} cannot be moved to {goal} ({error.strerror}), and is not done"
            self.tell(path, f"{what}: give the user {os.geteuid()} the right to write both folders, or make room")
            return None
        if commands is not None:
            return taken
        said = f"a graph in refused/{free} does not end with a line that is . alone; nothing of it is done"
        self.answer(free, [f"# {said}", "source 5 NoEnd"])
        self.log.warn(said)
        return None

    def tell(self, path, text):
        """Says it once for a file as it is; one that was withdrawn is none."""
        with contextlib.suppress(OSError):
            found = os.lstat(path)
            if self.told.get(path) != (found.st_ino, found.st_ctime_ns):
                self.told[path] = (found.st_ino, found.st_ctime_ns)
                self.log.warn(text)

    def free_name(self, name):
        """The name itself, or with a number behind it where an earlier script had it."""
        free, number = name, 1
        while any(os.path.lexists(self.folder.at(it, free)) for it in ("done", "refused", "answers")):
            number += 1
            free = f"{name}.{number}"
        return free

    def do(self, taken, scheduler, again=False):
        """Does what is not yet answered of a script in `doing`; `again` says that an earlier service took it."""
        match, commands = TAKEN.fullmatch(taken), None
        with contextlib.suppress(NoScript, FileNotFoundError):
            text = match and self.insist(lambda: read_file(self.folder.at("doing", taken)), f"doing/{taken} cannot be read")
            commands = match and commands_of(text)
        if commands is None:
            self.log.warn(f"doing/{taken} is no script that this service took; it goes to refused")
            self.move(("doing", taken), ("refused", self.free_name(taken)))
            return
        at, name = int(match.group(1)), match.group(2)
        if again:
            self.keep_answers(name, at)
        for command in commands[at:]:
            self.do_one(command, name, f"{at},{name}", scheduler, again)
            self.move(("doing", f"{at},{name}"), ("doing", f"{at + 1},{name}"))
            service.remove(self.folder.at("doing", NOTE))
            at, again = at + 1, False
        if not commands:
            self.answer(name, ["ok"])
        self.move(("doing", f"{at},{name}"), ("done", name))

    def do_one(self, command, name, taken, scheduler, again):
        """Gives a command to the scheduler, and keeps its answer; `again` says that it may have been given before."""
        shown = [f"> {it.decode(errors='replace')}" for it in command]
        self.log.say(*shown)
        if again and self.is_set_back(taken):
            rows, last, sentences = [], "ok", [f"{AGAIN}; it was done, so it is not given again, and what it printed is not known"]
        else:
            rows, last, sentences = self.give(command, taken, scheduler)
            if again:
                sentences.insert(0, f"{AGAIN}, so it is given again")
            if again and last.startswith("refused 10 "):
                sentences.append("the first time it was done, or refused for the same reason")
        only_looks = command[0].split()[0] in (b"list", b"explain")
        if only_looks:
            self.log.say(f"{len(rows)} lines are in answers/{name}", last)
        else:
            self.watch.printed(rows)
            self.log.say(*rows, last)
        self.log.put(2, *sentences)
        self.answer(name, [*shown, *rows, last, *(f"# {it}" for it in sentences)])

    def give(self, command, taken, scheduler):
        """Returns the rows of the answer, its last line, and the sentences on it."""
        scheduler.occupied()
        self.log.put(2, *scheduler.said())  # on what was done before
        before = scheduler.fed
        self.note(command, taken)
        rows, last = scheduler.do(command)
        scheduler.occupied()
        return rows, last, scheduler.said(before)

    def note(self, command, taken):
        """Notes how many tries are set back so far, before a command that may set back more: by that the next service knows whether it was done."""
        if command[0].split()[0] not in (b"clear", b"backfill", b"mark"):
            return
        try:
            with open(self.folder.at("doing", NOTE), "w", errors="surrogateescape") as it:
                it.write(f"{self.watch.set_back()} {taken}")
                it.flush()
                os.fsync(it.fileno())
        except OSError as error:
            self.log.warn(f"doing/{NOTE} cannot be written ({error.strerror}), so a kill now may have this command done twice")

    def is_set_back(self, taken):
        """Whether the record has more tries set back than when this command was noted: it is done."""
        try:
            with open(self.folder.at("doing", NOTE), errors="surrogateescape") as it:
                number, _, noted = it.read().partition(" ")
            return noted == taken and self.watch.set_back() > int(number)
        except (OSError, ValueError, TypeError):
            return False

    def answer(self, name, lines):
        """Adds lines to what was answered. Where they cannot be written, the log has them alone."""
        try:
            with open(self.folder.at("answers", name), "ab") as it:
                it.write("".join(f"{line}\n" for line in lines).encode(errors="replace"))
                it.flush()
                os.fsync(it.fileno())
        except OSError as error:
            self.log.warn(f"answers/{name} cannot be written ({error.strerror}): what was answered stands here alone")

    def keep_answers(self, name, number):
        """Drops what a kill left behind the first answers."""
        path = self.folder.at("answers", name)
        with contextlib.suppress(OSError), open(path, "r+b") as it:
            seen = end = 0
            for line in it:
                if seen == number and not (seen and line.startswith(b"# ")):
                    break
                end += len(line)
                seen += bool(LAST.match(line.decode(errors="replace").rstrip("\n")))
            it.truncate(end)

    def insist(self, action, what):
        """Does it as soon as the system lets it. Nothing goes on before: else a kill would have a command done twice, or not at all."""
        pace = Pace(30)
        while True:
            try:
                return action()
            except FileNotFoundError:
                raise
            except OSError as error:
                self.held()
                if pace.is_due():
                    right = f"give the user {os.geteuid()} the right to read and write the folders"
                    self.log.warn(f"{what} ({error.strerror}); nothing goes on before it can: {right}")
                time.sleep(0.5)

    def move(self, old, new):
        """Renames on the disk."""
        def rename():
            os.makedirs(self.folder.at(new[0]), exist_ok=True)
            os.rename(self.folder.at(*old), self.folder.at(*new))
        with contextlib.suppress(FileNotFoundError):  # somebody took it away
            self.insist(rename, f"{'/'.join(old)} cannot be moved to {'/'.join(new)}")
        for place in {old[0], new[0]}:
            service.sync_folder(self.folder.at(place))

    def sweep(self):
        """Removes scripts and answers that are older than so many days, and what a `copy` that was killed has left."""
        snapshot.sweep(self.folder.path)
        oldest = time.time() - self.days * 86400
        for path in (self.folder.at(place, it) for place in ("done", "refused", "answers") for it in self.names(place)):
            with contextlib.suppress(OSError):
                found = os.lstat(path)
                if stat.S_ISREG(found.st_mode) and max(found.st_mtime, found.st_ctime) < oldest:
                    os.unlink(path)
