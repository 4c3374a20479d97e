"""Calls of the programs of `look`, and of dagsched, for the tests."""
import contextlib
import os
import pathlib
import pty
import subprocess
import time

LOOK = pathlib.Path(__file__).resolve().parent.parent


def look(name, *words, status=0, **more):
    """What a program of `look` prints, on both outputs where it should end with another status than 0."""
    environment = {**os.environ, **more}
    ended = subprocess.run([LOOK / name, *map(str, words)], stdout=subprocess.PIPE, stderr=subprocess.PIPE, text=True, env=environment)
    assert ended.returncode == status, f"{name} {words}: status {ended.returncode}, {ended.stderr}"
    return ended.stderr if status else ended.stdout


def is_made(folder):
    """Whether a scheduler has made the record of a folder: at first its file is empty."""
    return subprocess.run([LOOK / "grid", folder], stdout=subprocess.DEVNULL, stderr=subprocess.DEVNULL).returncode == 0


def written(*words, status=0, **more):
    """Calls `page`, and gives what it says."""
    done = subprocess.run([LOOK / "page", *map(str, words)], capture_output=True, text=True, env={**os.environ, **more}, timeout=200)
    assert done.returncode == status, f"page {words}: status {done.returncode}: {done.stderr}"
    assert not done.stdout and "Traceback" not in done.stderr, done
    return done.stderr


def on_terminal(columns, name, *words, **more):
    """What a program of `look` prints on a terminal of so many columns."""
    pid, terminal = pty.fork()
    if pid == 0:
        environment = {**os.environ, "TERM": "xterm", "COLUMNS": str(columns), **more}
        os.execve(LOOK / name, [str(LOOK / name), *map(str, words)], environment)
    printed = b""
    with contextlib.suppress(OSError):
        while part := os.read(terminal, 65536):
            printed += part
    os.close(terminal)
    assert os.waitpid(pid, 0)[1] == 0, printed
    return printed.decode().replace("\r\n", "\n")


def measured(name, *words):
    """How long a program of `look` takes, in seconds of the processor and of a clock, and how much memory, in MB: what other programs do changes the first least."""
    begun = time.monotonic()
    process = subprocess.Popen([LOOK / name, *map(str, words)], stdout=subprocess.DEVNULL, stderr=subprocess.DEVNULL)
    _, status, used = os.wait4(process.pid, 0)
    process.returncode = os.waitstatus_to_exitcode(status)
    assert process.returncode == 0, (name, words)
    return used.ru_utime + used.ru_stime, time.monotonic() - begun, used.ru_maxrss >> 10


def answers_of(program, path, *lines):
    """What a script on a record is answered."""
    done = subprocess.run([program, "--record", path, "run"], input="".join(f"{it}\n" for it in lines), capture_output=True, text=True, cwd=path.parent)
    assert done.returncode == 0, done
    return done.stdout
