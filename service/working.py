"""The work of `serve` with one scheduler: it tells the time, gives it the commands of the inbox, and waits for its end."""
import os
import tempfile
import time

import programs
import service
from scheduler import Gone, Scheduler
from starting import ENDING
from stops import Pace

POLL, BUSY = 0.2, 1.0
# A scheduler whose last write of a transaction failed refuses all from then on. So long a service waits where there is room on the disk.
STUCK, ROOM = 60, 1 << 18


class Service:
    def __init__(self, folder, log, stops, lock, clock, watch, pages):
        self.folder, self.log, self.stops, self.lock, self.clock, self.watch, self.pages = folder, log, stops, lock, clock, watch, pages
        self.seconds, self.next_tick, self.busy, self.behind = 5.0, 0.0, False, True
        self.refusal, self.refused_since, self.refusals = None, 0.0, Pace(60)
        self.waits, self.ended, self.stuck, self.scheduler, self.inbox = Pace(30), False, False, None, None

    def work(self, arguments, inbox, seconds):
        """The whole life of one scheduler; returns the status."""
        self.inbox, self.seconds = inbox, seconds
        self.scheduler = Scheduler(arguments, self.folder, self.stops.wakened, self.during)
        self.keep_pid()
        self.log.say(f"begins, with the scheduler as process {self.scheduler.process.pid}")
        try:
            self.inbox.do_left(self.scheduler)
            while not self.stops.asked() and not self.stuck:
                self.step()
            self.lock.mark(ENDING)
            self.log.say("ends: no further run is made")
            self.say_waits()
        except Gone:
            pass
        status = self.finish()
        service.remove(self.folder.at("scheduler.pid"))
        return status

    def keep_pid(self):
        path = self.folder.at("scheduler.pid")
        try:
            with open(path, "w") as it:
                it.write(f"{self.scheduler.process.pid}\n")
        except OSError as error:
            self.log.warn(f"{path} cannot be written ({error.strerror}), so nobody finds the scheduler")

    def step(self):
        self.waits.begin_anew()
        if self.watch.calls:
            self.watch.calls.call()
        if self.inbox.do_all(self.scheduler, self.is_over):
            self.next_tick, self.behind = 0.0, True
        if time.monotonic() >= self.next_tick and not self.stops.asked():
            self.tick()
        if self.behind:
            self.look()
        self.pages.write()
        self.say_sentences()
        self.scheduler.wait(min(POLL, self.next_tick - time.monotonic()))
        if self.scheduler.answers_end():
            raise Gone

    def is_over(self):
        return self.stops.asked() or time.monotonic() >= self.next_tick

    def tick(self):
        self.next_tick = time.monotonic() + self.seconds
        if not self.clock.is_right():
            return
        moment = int(time.time())
        rows, last = self.scheduler.do([b"tick now"])
        occupied = self.scheduler.occupied()
        self.log.say(*rows)
        self.watch.printed(rows)
        if last == "ok":
            self.clock.reached, self.refusal = max(self.clock.reached, moment), None
        else:
            self.take_refusal(last)
        was_busy, self.busy = self.busy, occupied > 0 or bool(rows)
        self.behind |= self.busy or was_busy
        if self.busy:
            self.next_tick = min(self.next_tick, time.monotonic() + BUSY)

    def take_refusal(self, last):
        """Says once a minute that a tick was refused, and why."""
        sentences = self.scheduler.said()
        if last != self.refusal:
            self.refusal, self.refused_since, self.refusals = last, time.monotonic(), Pace(60)
        if self.refusals.is_due():
            self.log.say("> tick now", last)
            self.log.put(2, *sentences)
            if last.startswith("refused 8 "):
                self.log.warn(f"the record's clock is ahead of the system's until {last.split()[-1]}: until then no run is made")
        if last.startswith("store ") and time.monotonic() - self.refused_since >= STUCK and self.has_room():
            self.log.warn(f"for {STUCK} seconds the scheduler could write nothing to the record, though there is room; it is begun anew")
            self.stuck = True

    def has_room(self):
        try:
            with tempfile.TemporaryFile(dir=self.folder.path) as it:
                it.write(bytes(ROOM))
                it.flush()
                os.fsync(it.fileno())
            return True
        except OSError:
            return False

    def look(self):
        """Says what is new of the tries; the record's clock may be further than ticks have told, by a command."""
        reached = self.watch.look()
        if reached is not None:
            self.clock.reached, self.behind = reached, False

    def say_sentences(self):
        self.log.put(2, *self.scheduler.said())

    def say_waits(self):
        self.waits.begin_anew()
        for line in programs.lines(self.folder):
            self.log.warn(f"waits for {line}")

    def during(self):
        """While an answer is waited for."""
        self.held()
        if self.waits.is_due():
            self.folder.wake()
            self.log.warn("waits for an answer of the scheduler")
            self.say_waits()

    def held(self):
        """While nothing goes on: a second signal ends it."""
        if self.stops.again:
            self.end_now()
            raise Gone

    def end_now(self):
        self.ended = True
        self.log.warn("a second signal: the scheduler is ended, and the programs of its tries are; the tries are lost, and are tried again by their rules")
        self.scheduler.kill()
        self.scheduler.process.wait()
        left = programs.end(self.folder)
        if left:
            self.log.warn(f"programs of tries {', '.join(map(str, left))} cannot be ended")

    def finish(self):
        """Waits for the end of the scheduler, and says what it waits for; returns the status."""
        self.scheduler.end_script()
        while not self.scheduler.answers_end():
            self.scheduler.wait(POLL)
            if self.stops.again and not self.ended:
                self.end_now()
            self.watch.look()
            if self.watch.calls:
                self.watch.calls.call()
            self.pages.write()
            self.say_sentences()
            if self.waits.is_due():
                self.folder.wake()
                self.say_waits()
        status = self.scheduler.status()
        self.scheduler.read_sentences()
        self.log.say(*self.scheduler.lines)
        self.say_sentences()
        self.watch.look(force=True)
        if self.watch.calls:
            self.watch.calls.call()
            self.watch.calls.end()
        self.pages.end(self.stops.asked())
        return self.settle(status)

    def settle(self, status):
        if not self.stops.asked():
            self.log.warn(f"the scheduler ended with status {status}" + ("" if self.stuck else ", and nobody asked for that"))
            return status or 1
        service.remove(self.folder.at("stop"))
        if self.log.unheard:
            return service.NOT_TAKEN
        # else it says that a command of some day was refused
        broke_off = status > self.scheduler.worst or any(it.startswith("conduct ") for it in self.scheduler.lines)
        status = status if broke_off and not self.ended else 0
        self.log.say(f"ended with status {status}")
        return status
