"""A root of Debian 12 in a folder, as a container: what is done in it touches nothing outside, and ends when it is let go."""
import contextlib
import os
import shutil
import signal
import subprocess
import time

HERE = os.path.dirname(os.path.realpath(__file__))
# what is begun ends with who began it, however that ends
NAMESPACE = ["setpriv", "--pdeathsig", "KILL", "unshare", "--mount", "--pid", "--fork", "--kill-child", "--mount-proc", "sh", f"{HERE}/in-root"]
NEEDED = ("debootstrap", "systemd-nspawn", "nsenter", "setpriv", "unshare")
LONGEST = 3600


class Failed(Exception):
    """What is not as it should be."""


def expect(held, what):
    if not held:
        raise Failed(what() if callable(what) else what)


def until(seconds, test, what):
    end = time.monotonic() + seconds
    while not test():
        expect(time.monotonic() < end, what)
        time.sleep(0.5)


def lacking():
    """What the machine lacks to have such a root, or None."""
    if os.geteuid():
        return "only root may have one"
    return next((f"there is no {it}" for it in NEEDED if not shutil.which(it)), None)


class Root:
    """The root; commands are done in it beside its systemd, once that was booted, else alone."""

    def __init__(self, path, base=None):
        self.path, self.systemd, self.outer = path, None, None
        if base:
            subprocess.run(["cp", "-a", base, path], check=True)
        else:
            self.outside("debootstrap", "--variant=minbase", "bookworm", path)
        shutil.copyfile("/etc/resolv.conf", self.at("etc/resolv.conf"))

    def at(self, name):
        return os.path.join(self.path, name)

    def outside(self, *words):
        ran = subprocess.run(words, stdin=subprocess.DEVNULL, capture_output=True, text=True, errors="replace", timeout=LONGEST, check=False)
        expect(ran.returncode == 0, lambda: f"{' '.join(words)} ends with status {ran.returncode}:\n{ran.stdout}{ran.stderr}")

    def call(self, *words, user=None):
        """The status of a command in the root, and what it printed."""
        words = ["runuser", "-u", user, "--", *words] if user else [*words]
        words = ["env", "DEBIAN_FRONTEND=noninteractive", "LC_ALL=C.UTF-8", "PATH=/usr/local/bin:/usr/sbin:/usr/bin:/sbin:/bin", *words]
        inner = ["nsenter", "-t", str(self.systemd), "--all", "--root", "--wd", *words] if self.systemd else [*NAMESPACE, self.path, *words]
        ran = subprocess.run(inner, stdin=subprocess.DEVNULL, stdout=subprocess.PIPE, stderr=subprocess.STDOUT, text=True, errors="replace", timeout=LONGEST, check=False)
        return ran.returncode, ran.stdout

    def do(self, *words, user=None):
        status, printed = self.call(*words, user=user)
        expect(status == 0, lambda: f"{' '.join(words)} ends with status {status}:\n{printed}")
        return printed

    def boot(self):
        with open(f"{self.path}.log", "wb") as log:
            self.outer = subprocess.Popen([*NAMESPACE, self.path], stdin=subprocess.DEVNULL, stdout=log, stderr=log)
        until(120, self.find_systemd, lambda: f"systemd is not begun:\n{self.log()}")
        until(120, lambda: self.call("systemctl", "is-system-running")[1].strip() in ("running", "degraded"), lambda: f"the system is not up:\n{self.log()}")

    def find_systemd(self):
        """Finds the first process of the booted root, as it is seen from outside."""
        self.systemd = None
        below = [self.outer.pid]
        for process in below:
            with contextlib.suppress(OSError):
                with open(f"/proc/{process}/task/{process}/children", encoding="ascii") as it:
                    below += [int(child) for child in it.read().split()]
                with open(f"/proc/{process}/comm", encoding="ascii") as it:
                    if it.read() == "systemd\n":
                        self.systemd = process
        expect(self.outer.poll() is None, lambda: f"the container has ended:\n{self.log()}")
        return self.systemd

    def log(self):
        with open(f"{self.path}.log", encoding="utf-8", errors="replace") as it:
            return it.read()[-2000:]

    def end(self):
        """Ends all that is at work in the root."""
        if self.outer and self.outer.poll() is None:
            with contextlib.suppress(OSError, subprocess.TimeoutExpired):
                # systemd's signal to power off
                os.kill(self.systemd or self.outer.pid, signal.SIGRTMIN + 4)
                self.outer.wait(60)
            self.outer.kill()
            self.outer.wait()
