"""The programs of tries that are at work: found by what the scheduler put into their environment, and ended by signals."""
import contextlib
import os
import re
import signal
import time

import service

NAMES = ("AIRFLOW_CTX_DAG_ID", "AIRFLOW_CTX_EXECUTION_DATE", "AIRFLOW_CTX_TASK_ID", "AIRFLOW_CTX_TRY_NUMBER")
SERIAL = re.compile(r"[0-9]{1,19}")
# a program that is not gone so long after TERM gets KILL, which it outlives so long at most
PATIENCE, AFTER_KILL = 10, 5


def environment_of(process):
    """The environment with which a program was started, as words by name; empty where nobody may read it."""
    try:
        with open(f"/proc/{process}/environ", "rb") as it:
            return dict(os.fsdecode(word).split("=", 1) for word in it.read().split(b"\0") if b"=" in word)
    except OSError:
        return {}


def serial_of(folder, process):
    """The serial of the try as whose program a process was started in this folder, or None."""
    words = environment_of(process)
    serial = words.get("DAGSCHED_SERIAL", "")
    return int(serial) if words.get("DAGSCHED_FOLDER") == folder.path and SERIAL.fullmatch(serial) else None


def begun_at(process):
    """When a process began, in seconds since 1970."""
    with open(f"/proc/{process}/stat", "rb") as it:
        ticks = int(it.read().rsplit(b") ", 1)[1].split()[19])
    return int(time.time() - time.clock_gettime(time.CLOCK_BOOTTIME) + ticks / os.sysconf("SC_CLK_TCK"))


def parents():
    """The parent of each process that is at work."""
    found = {}
    for process in (int(it) for it in os.listdir("/proc") if it.isdigit()):
        with contextlib.suppress(OSError, IndexError), open(f"/proc/{process}/stat", "rb") as it:
            state, parent = it.read().rsplit(b") ", 1)[1].split()[:2]
            if state not in (b"Z", b"X"):
                found[process] = int(parent)
    return found


def serial_above(process, serials, parent_of):
    """The serial of a process or of the nearest one above it that has one, or None."""
    seen = set()
    while serials.get(process) is None and process in parent_of and process not in seen:
        seen.add(process)
        process = parent_of[process]
    return serials.get(process)


def programs(folder):
    """The processes of each try, by its serial: those that were started as its program, and all that these began. This one is left out."""
    parent_of, found = parents(), {}
    serials = {it: serial_of(folder, it) for it in parent_of}
    for process in sorted({*parent_of} - {os.getpid(), folder.scheduler()}):
        serial = serial_above(process, serials, parent_of)
        if serial is not None:
            found.setdefault(serial, []).append(process)
    return dict(sorted(found.items()))


def lines(folder):
    """A line for each try whose programs are there."""
    for serial, them in programs(folder).items():
        first = next((it for it in them if serial_of(folder, it) == serial), them[0])
        words = environment_of(first)
        with contextlib.suppress(OSError, IndexError):
            named = " ".join(words.get(it, "?") for it in NAMES)
            yield f"try {serial} {named}, since {service.stamp(begun_at(first))}, process {' '.join(map(str, them))}"


def send(folder, serial, *numbers):
    """Sends signals to each process of a try, and to no other: who took up the number of one that has ended gets none."""
    handles = {}
    for process in programs(folder).get(serial, []):
        with contextlib.suppress(OSError):
            handles[process] = os.pidfd_open(process)
    # a handle stays that of its process, so who is of the try now is the one that it stands for
    still = programs(folder).get(serial, [])
    for process, handle in handles.items():
        with contextlib.suppress(OSError):
            for number in numbers if process in still else ():
                signal.pidfd_send_signal(handle, number)
        os.close(handle)


def end(folder, serials=None):
    """Ends the programs of tries, of all where none are named, by TERM and after some seconds by KILL; returns the serials of those that are there still."""
    def there():
        return [it for it in programs(folder) if serials is None or it in serials]
    for serial in there():
        send(folder, serial, signal.SIGTERM, signal.SIGCONT)
    until, killed = time.monotonic() + PATIENCE, time.monotonic() + PATIENCE + AFTER_KILL
    while there() and time.monotonic() < killed:
        if time.monotonic() >= until:
            for serial in there():
                send(folder, serial, signal.SIGKILL)
        time.sleep(0.1)
    return there()
