"""A night with all that a page has to show: successes, failures, skips, retries, a lost try, a queued run, a full pool. `try` of the service and of `look` make it.

usage: night.py PROGRAM FOLDER [OPTIONS ..]

It makes the night in FOLDER/shop by a `serve` with these OPTIONS, prints "made", and ends it at the end of its input.
"""
import os
import shutil
import signal
import sys
import time

import service
from trial import HERE, Trial, expect, until

HEAD = 'dag_id = "{0}"\nschedule = {1}\nstart_date = "{2}"\n{3}'
TASK = '\n[[task]]\ntask_id = "{0}"\noperator = "command"\nargv = ["sh", "-c", "{1}"]\nupstream = [{2}]\n{3}'
# fails at twenty past the hour, skips at forty past
FETCH = "case $AIRFLOW_CTX_EXECUTION_DATE in *:20:00*) echo no answer; exit 1;; *:40:00*) exit 99;; esac"


def task(name, program, *upstream, more=""):
    return TASK.format(name, program, ", ".join(f'"{it}"' for it in upstream), more)


def graphs(first):
    """The texts of the graphs, by name."""
    by_hand = '"None"', "2024-01-01"
    return {
        "night": None,
        "feed": HEAD.format("feed", '"*/10 * * * *"', first, "") + task("fetch", FETCH) + task("store", "true", "fetch"),
        "stock": HEAD.format("stock", *by_hand, "max_active_runs = 1\n") + task("count", "sleep 600", more='pool = "scales"\n')
        + task("weigh", "sleep 600", more='pool = "scales"\n') + task("sum", "true", "count", "weigh"),
        "slow": HEAD.format("slow", *by_hand, "") + task("copy", "echo begun; sleep 600", more="retries = 2\nretry_delay = 1\n") + task("tell", "true", "copy"),
        "mail": HEAD.format("mail", *by_hand, "") + task("send", "echo no route; exit 75", more="retries = 3\nretry_delay = 900\n"),
        "old": HEAD.format("old", *by_hand, "") + task("sweep", "true"),
    }


def load(trial):
    first = time.strftime("%Y-%m-%dT%H:00:00Z", time.gmtime(time.time() - 5 * 3600))
    for name, text in graphs(first).items():
        if text is None:
            shutil.copy(os.path.join(os.path.dirname(HERE), "look", f"{name}.toml"), trial.folder.at(f"{name}.toml"))
        else:
            with open(trial.folder.at(f"{name}.toml"), "w") as it:
                it.write(text)
    for words in ("resize loads 2", "resize scales 1", "load slow.toml", "trigger slow"):
        expect(trial.ask(*words.split())[0] == 0, lambda: f"{words}:\n{trial.said()}")


def lose(trial, *options):
    """Kills the scheduler while a try is in flight, which is lost then."""
    until(20, lambda: trial.outcomes() == [None], "a try is in flight")
    time.sleep(1.5)
    os.kill(trial.folder.scheduler(), signal.SIGKILL)
    expect(trial.serve.wait(20) == 137, "serve ends with its scheduler")
    expect(trial.run("end", trial.path, "--left").returncode == 0, "what the scheduler left is ended")
    trial.begin(*options)
    until(20, lambda: "lost" in trial.outcomes(), "the try is lost")


def make(trial, *options):
    """Makes the night, and leaves the service at work in the middle of what waits."""
    options = ("--workers", "16", "--lanes", "24", *options)
    trial.begin(*options)
    load(trial)
    lose(trial, *options)
    for words in ("load night.toml", "load feed.toml", "load stock.toml", "load mail.toml", "load old.toml", "pause old", "trigger old", "trigger mail", "trigger stock"):
        expect(trial.ask(*words.split())[0] == 0, lambda: f"{words}:\n{trial.said()}")
    until(10, lambda: trial.ask("trigger", "stock")[0] == 0, "a second run, at another tick")
    phases = "SELECT dag_id, phase FROM run WHERE dag_id IN ('night', 'feed')"
    until(120, lambda: ("night", 3) in trial.rows(phases) and all(it[1] > 1 for it in trial.rows(phases)), lambda: f"the night ends: {trial.rows(phases)}")


def end(trial):
    """Ends the service, and what is in flight with it."""
    trial.serve.send_signal(signal.SIGTERM)
    time.sleep(1.5)
    expect(trial.end(seconds=60) == 0, lambda: f"the end:\n{trial.said()}")
    service.remove(trial.folder.at("prices.csv"))


def main(program, folder, *options):
    trial = Trial(os.path.realpath(program), folder, "shop")
    try:
        make(trial, *options)
        print("made", flush=True)
        sys.stdin.read()
    finally:
        end(trial)


if __name__ == "__main__":
    main(*sys.argv[1:])
