"""What the scripts beside this file share: the crates that crates.txt lists, copies of them, and commands that run side by side."""
import os
import re
import shutil
import signal
import subprocess
import sys
import tempfile
import time
from contextlib import contextmanager

TOP = os.path.dirname(os.path.dirname(os.path.realpath(__file__)))
PARTS = ("src", "specs", "proofs")
# rt, which sums up each crate's sources once
RT = f"{TOP}/tools/quick-rt"
GIGABYTE = 10**9


class Crates:
    """The crates of a text of crates.txt: of each its line, and the crates of the repository that it stands on."""

    def __init__(self, text):
        rows = [row for row in (line.partition("#")[0].strip() for line in text.splitlines()) if row]
        self.lines = {re.match(r"[\w-]+", row)[0]: row for row in rows}
        self.deps = {name: [it for it in re.split(r"[\s,]+", row.partition(":")[2]) if it in self.lines] for name, row in self.lines.items()}

    def below(self, name):
        """Returns the crates that this one stands on, each after those that it stands on itself."""
        found = {}
        self._walk(name, found)
        return [it for it in found if it != name]

    def _walk(self, name, found):
        for dep in self.deps[name]:
            if dep not in found:
                self._walk(dep, found)
        found[name] = None

    def lowest_first(self):
        found = {}
        for name in self.lines:
            self._walk(name, found)
        return [*found]

    def above(self, names):
        """Returns the crates that stand on one of these, lowest first."""
        return [it for it in self.lowest_first() if it not in names and not names.isdisjoint(self.below(it))]


def read_crates(top=TOP):
    with open(f"{top}/crates.txt", encoding="utf-8") as it:
        return Crates(it.read())


def is_program(name):
    return os.path.isfile(f"{TOP}/crates/{name}/src/main.rt")


def is_built(name, top=TOP):
    """Whether the library was built once; only rt can tell whether that still fits the sources."""
    return os.path.isfile(f"{top}/crates/{name}/out/rlib/stamp")


def link(old, new):
    try:
        os.link(old, new)
    except OSError:
        shutil.copy2(old, new)


def copy_crates(room, crates, names):
    """Makes a repository of these crates in the folder: their sources, and the libraries as far as they are built."""
    os.makedirs(f"{room}/crates", exist_ok=True)
    with open(f"{room}/crates.txt", "w", encoding="utf-8") as it:
        it.writelines(f"{crates.lines[name]}\n" for name in names)
    shutil.copy2(f"{TOP}/HANDLES", room)
    for name in names:
        for part in PARTS:
            if os.path.isdir(f"{TOP}/crates/{name}/{part}"):
                shutil.copytree(f"{TOP}/crates/{name}/{part}", f"{room}/crates/{name}/{part}")
        if is_built(name):
            built = f"{room}/crates/{name}/out/rlib"
            try:
                # rt never writes into the files of a library that is built: it removes them and writes others
                shutil.copytree(f"{TOP}/crates/{name}/out/rlib", built, copy_function=link)
            except (OSError, shutil.Error):
                # another rt is building it anew
                shutil.rmtree(built, ignore_errors=True)


@contextmanager
def room_for(what):
    """A folder outside the repository, which is gone when the block ends."""
    place = tempfile.gettempdir()
    if os.stat(place).st_dev != os.stat(TOP).st_dev and os.access("/var/tmp", os.W_OK):
        # what cannot be linked is copied, and that may be too much for a folder in memory
        place = "/var/tmp"
    room = tempfile.mkdtemp(prefix=f"{what}-", dir=place)
    try:
        yield room
    finally:
        # what rt had started may end a moment after it
        for _ in range(20):
            shutil.rmtree(room, ignore_errors=True)
            if not os.path.exists(room):
                break
            time.sleep(0.1)


def lines_of(name):
    """Returns how many lines the crate has, those of its definitions and proofs too."""
    found = 0
    for part in PARTS:
        for at, _, files in os.walk(f"{TOP}/crates/{name}/{part}"):
            for file in files:
                with open(f"{at}/{file}", "rb") as it:
                    found += it.read().count(b"\n")
    return found


def processors():
    return len(os.sched_getaffinity(0))


def free_memory():
    """Returns how many bytes more the programs here may take, which leaves a part for others."""
    with open("/proc/meminfo", encoding="utf-8") as it:
        return 0.85 * 1024 * int(re.search(r"MemAvailable:\s+(\d+)", it.read())[1])


def end_well():
    """Has this script end by an exception where it is told to end, so that it removes what it made."""
    for it in (signal.SIGTERM, signal.SIGHUP, signal.SIGINT):
        signal.signal(it, lambda number, _: sys.exit(128 + number))


class Runs:
    """Commands that run side by side, each with its output in a file. None of them outlives the `with` block."""

    def __init__(self):
        self.running = {}

    def __enter__(self):
        return self

    def __exit__(self, *_):
        for started, _, _ in self.running.values():
            started.kill()
            started.wait()

    def start(self, key, words, cwd, log, stdin=subprocess.DEVNULL, stdout=None, env=None):
        """Starts a command, whose words go into the file log; its standard output alone goes into stdout, where that is given."""
        with open(log, "wb") as said:
            # a group of its own, so that Ctrl-C reaches this script alone, which then ends rt, and rt what it started
            how = {"cwd": cwd, "stdin": stdin, "stdout": stdout or said, "stderr": said, "start_new_session": True, "env": env}
            self.running[key] = subprocess.Popen(words, **how), log, time.time()

    def next_end(self):
        """Waits for one of them to end, and returns its key, its status, its output and its seconds."""
        while True:
            for key, (started, log, began) in self.running.items():
                if started.poll() is not None:
                    del self.running[key]
                    with open(log, encoding="utf-8", errors="replace") as it:
                        return key, started.returncode, it.read(), time.time() - began
            time.sleep(0.1)


def last_lines(text, number=12):
    return "".join(f"    {line}\n" for line in text.rstrip().splitlines()[-number:])
