"""What a graph's file says, by docs/GRAPH_FILES.md, as far as the looks go by it. A record that was made by hand may have any text in its place."""
import tomllib
from typing import NamedTuple

from rules import TRIGGER_RULES

KINDS = {str: "text", int: "whole number", bool: "true or false", list: "list"}
OF_GRAPH = {"schedule": str, "start_date": str, "end_date": str, "timetable": str, "max_active_runs": int, "task": list}
OF_TASK = {
    "task_id": str, "operator": str, "pool": str, "upstream": list, "trigger_rule": str, "retries": int, "retry_delay": int, "pool_slots": int, "depends_on_past": bool,
}


class Task(NamedTuple):
    name: str
    pool: str
    upstream: list[str]
    retries: int
    rule: str
    delay: int
    slots: int
    past: bool
    operator: str

    @classmethod
    def of(cls, it):
        """A task of a graph's file."""
        rule, past = it.get("trigger_rule", "all_success"), it.get("depends_on_past", False)
        delay, slots, pool = it.get("retry_delay", 300), it.get("pool_slots", 1), it.get("pool", "default_pool")
        return cls(it["task_id"], pool, it.get("upstream", []), it.get("retries", 0), rule, delay, slots, past, it.get("operator", ""))


def check_kinds(table, kinds, needed):
    """Refuses a table that lacks a key which is needed, or has a value of another kind than its key says."""
    if not isinstance(table, dict):
        raise ValueError("it has no table where one should be")
    lacking = next((it for it in needed if it not in table), None)
    if lacking:
        raise ValueError(f"it lacks {lacking}")
    for key, kind in kinds.items():
        if key in table and type(table[key]) is not kind:
            raise ValueError(f"{key} is no {KINDS[kind]}")


def task_of(table, number):
    """The task that a table says."""
    try:
        check_kinds(table, OF_TASK, ["task_id"])
        found = Task.of(table)
        if not all(isinstance(it, str) for it in found.upstream):
            raise ValueError("upstream is no list of texts")
        if found.rule not in TRIGGER_RULES:
            raise ValueError(f"there is no trigger_rule {found.rule!r}")
    except ValueError as fault:
        raise ValueError(f"task {number}: {fault}") from None
    return found


def read(text):
    """The keys and the tasks of a graph's file. What is wrong with another text is said in the ValueError."""
    keys = tomllib.loads(text)
    check_kinds(keys, OF_GRAPH, ["schedule", "start_date", "task"])
    return keys, [task_of(it, number) for number, it in enumerate(keys["task"])]
