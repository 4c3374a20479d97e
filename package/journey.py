"""What becomes of a package in a root of Debian 12: it is installed, at work, upgraded, removed and purged, and the record stays as it is."""
import hashlib
import os
import shutil
import subprocess

from root import Failed, expect, until
from words import number_in

FOLDER, USER = "/var/lib/dagsched", "dagsched"
GRAPH = """dag_id = "orders"
schedule = "None"
start_date = "2024-01-01"

[[task]]
task_id = "load"
operator = "command"
argv = ["sh", "-c", "while test -e hold; do sleep 0.2; done; echo loaded"]
"""
STAYS = {FOLDER, "/var/log/dagsched"}


class Journey:
    """The root, and a service in it whose programs are in a folder of the root."""

    def __init__(self, root, programs="/usr/lib/dagsched"):
        self.root, self.programs = root, programs

    # ---- what is asked of the service
    def ask(self, *words):
        return self.root.do(f"{self.programs}/ask", FOLDER, *words, user=USER)

    def runs(self):
        return [it for it in self.ask("list", "runs").splitlines() if it != "ok"]

    def process(self):
        return self.root.do("systemctl", "show", "--value", "--property=MainPID", "dagsched").strip()

    def state(self):
        return self.root.call("systemctl", "is-active", "dagsched")[1].strip()

    def put(self, name, text=""):
        with open(self.root.at(f"root/{name}"), "w", encoding="utf-8") as it:
            it.write(text)
        self.root.do("install", "-o", USER, f"/root/{name}", FOLDER)

    def begin(self):
        self.root.do("systemctl", "start", "dagsched")
        until(60, lambda: os.path.exists(self.record()) and self.root.call(f"{self.programs}/check", FOLDER, "--all")[0] in (0, 1, 2), "the service is not at work")
        until(60, lambda: self.root.call(f"{self.programs}/ask", FOLDER, "list", "pools", user=USER)[0] == 0, lambda: f"the service takes no command:\n{self.journal()}")

    def journal(self):
        return self.root.call("journalctl", "--no-pager", "-n", "30", "-u", "dagsched")[1]

    # ---- what is looked at from outside
    def record(self):
        return self.root.at(f"{FOLDER}/record.db".lstrip("/"))

    def sum(self):
        with open(self.record(), "rb") as it:
            return hashlib.sha256(it.read()).hexdigest()

    def left(self):
        """The files and folders of the root that have the name, those of the first as which it was looked at left out."""
        words = ["find", "/", "-xdev", "(", "-path", "/proc", "-o", "-path", "/sys", "-o", "-path", "/root", "-o", "-path", "/run", ")", "-prune", "-o", "-name", "*dagsched*", "-print"]
        return {it for it in self.root.do(*words).splitlines() if not it.startswith((f"{FOLDER}/", "/var/log/journal/", "/var/lib/systemd/deb-systemd-helper"))}


def installed(it, deb, version):
    """The unit is there and not enabled, the user and the folders have their rights, and who is not root may start the program."""
    root = it.root
    expect("dagsched" in root.do("dpkg", "--listfiles", "dagsched"), "the package has no files")
    expect("ExecStart=/usr/lib/dagsched/serve /usr/bin/dagsched" in root.do("systemctl", "cat", "dagsched"), "the unit does not start the programs of the package")
    expect(root.call("systemctl", "is-enabled", "dagsched")[1].strip() == "disabled" and it.state() == "inactive", "the service is enabled or begun by itself")
    for folder in STAYS:
        expect(root.do("stat", "-c", "%U %G %a", folder).split() == [USER, USER, "755"], f"{folder} has other rights")
    expect(number_in(root.do("dagsched", "--version", user="nobody")) == version, "another program is installed")
    expect(not root.call("systemctl", "--failed", "--no-legend")[1].strip(), "a unit has failed")


def works(it):
    """A first graph is loaded, and a run of it is done."""
    it.begin()
    it.put("orders.toml", GRAPH)
    expect(it.ask("load", "orders.toml") == "ok\n", "the graph is not loaded")
    it.ask("trigger", "orders")
    until(60, lambda: [run.split()[-1] for run in it.runs()] == ["success"], lambda: f"no run has succeeded:\n{it.journal()}")


def upgraded(it, deb, version):
    """Over a service at work: its try goes on, and after a restart the new program has the record."""
    root, before = it.root, it.process()
    it.put("hold")
    until(90, lambda: root.call(f"{it.programs}/ask", FOLDER, "trigger", "orders", user=USER)[0] == 0, "no tick has moved the clock past the date of the first run")
    until(60, lambda: root.call(f"{it.programs}/tries", FOLDER)[1].startswith("try "), "no try is in flight")
    printed = root.do("dpkg", "--install", f"/root/{os.path.basename(deb)}")
    expect("systemctl restart dagsched" in printed, f"nobody is told to restart the service:\n{printed}")
    expect(it.process() == before and it.state() == "active", "the service did not go on")
    expect(root.call(f"{it.programs}/tries", FOLDER)[1].startswith("try "), "the try did not go on")
    root.do("rm", f"{FOLDER}/hold")
    until(60, lambda: [run.split()[-1] for run in it.runs()] == ["success"] * 2, "the try in flight has not succeeded")
    runs = it.runs()
    root.do("systemctl", "restart", "dagsched")
    until(60, lambda: root.call(f"{it.programs}/ask", FOLDER, "list", "pools", user=USER)[0] == 0, lambda: f"the service takes no command:\n{it.journal()}")
    expect(it.process() != before and it.runs() == runs, "the new program has other runs")
    expect(number_in(root.do("dagsched", "--version")) == version, "the program is the one of before")


def removed(it, deb):
    """The service ends, and what stays is the record, byte for byte, with its logs; installed again, it goes on."""
    root, runs = it.root, it.runs()
    root.do("systemctl", "enable", "--quiet", "dagsched")
    root.do("dpkg", "--remove", "dagsched")
    expect(it.state() != "active", "the service is still at work")
    after = it.sum()
    root.do("dpkg", "--install", f"/root/{os.path.basename(deb)}")
    expect(root.call("systemctl", "is-enabled", "dagsched")[1].strip() == "enabled", "what was enabled is not enabled any more")
    expect(it.sum() == after and it.state() == "inactive", "the record is another, or the service has begun")
    printed = root.do("dpkg", "--purge", "dagsched")
    expect("the record stays" in printed, f"nobody is told that the record stays:\n{printed}")
    expect(it.sum() == after, "the record is another")
    expect(it.left() <= STAYS, f"left are {it.left() - STAYS}")
    root.do("dpkg", "--install", f"/root/{os.path.basename(deb)}")
    it.begin()
    expect(it.runs() == runs, "the record has other runs")
    root.do("systemctl", "stop", "dagsched")
    root.do("dpkg", "--purge", "dagsched")


def without_dpkg(root, program, top):
    """The same from a checkout, in a system that has no dpkg any more."""
    shutil.copytree(top, root.at("root/checkout"), ignore=shutil.ignore_patterns(".git", "out", "planted", "crates"))
    shutil.copy(program, root.at("root/dagsched"))
    root.do("mv", "/usr/bin/dpkg", "/usr/bin/dpkg-deb", "/root/")
    it, place = Journey(root, "/usr/local/lib/dagsched"), "/root/checkout/package/install"
    before = it.sum()
    root.do(place, "/root/dagsched", "/usr/local")
    expect("ExecStart=/usr/local/lib/dagsched/serve /usr/local/bin/dagsched" in root.do("systemctl", "cat", "dagsched"), "systemd does not find the unit")
    expect(it.sum() == before, "the record is another")
    it.begin()
    expect([run.split()[-1] for run in it.runs()] == ["success"] * 2, "the record has other runs")
    root.do("systemctl", "enable", "--quiet", "dagsched")
    status, printed = root.call(place, "--take-back", "/usr/local")
    expect(status == 1 and "is at work" in printed, "it is taken back while the service is at work")
    root.do(place, "/root/dagsched", "/usr/local")
    root.do("systemctl", "stop", "dagsched")
    before = it.sum()
    root.do(place, "--take-back", "/usr/local")
    expect(it.left() <= STAYS and it.sum() == before, f"left are {it.left() - STAYS}")


def repacked(deb, version, folder):
    """The same package with another version, for an upgrade where no earlier release is there."""
    place = os.path.join(folder, "repacked")
    made = os.path.join(folder, f"dagsched_{version}_amd64.deb")
    try:
        subprocess.run(["dpkg-deb", "-R", deb, place], check=True)
        with open(f"{place}/DEBIAN/control", encoding="utf-8") as it:
            text = it.read()
        with open(f"{place}/DEBIAN/control", "w", encoding="utf-8") as it:
            it.writelines(f"Version: {version}\n" if line.startswith("Version:") else line for line in text.splitlines(True))
        subprocess.run(["dpkg-deb", "-b", "-Znone", place, made], check=True, capture_output=True)
    except subprocess.CalledProcessError as fault:
        raise Failed(f"no package of version {version}: {fault}") from None
    return made
