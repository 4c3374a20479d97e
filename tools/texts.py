"""Other texts of a graph, drawn by one to three edits, for `bounded_days`."""
import tomllib

from graphs import Graph, LeftOut, text_of
from schedules import RULES

HOUR = 3_600
SCHEDULES = ["@hourly", "0 */2 * * *", "0 */3 * * *", "30 * * * *", "0,30 * * * *", "@once", "None"]
# in words, how often one edit comes beside the others
EDITS = {
    "remark": 3, "argv": 2, "execution_timeout": 2, "retries": 8, "retry_delay": 2, "priority_weight": 2, "weight_rule": 1, "trigger_rule": 4, "depends_on_past": 2, "upstream": 6, "more": 5,
    "order": 3, "fewer": 1, "pool": 3, "pool_slots": 2, "max_active_runs": 3, "max_active_tasks": 3, "schedule": 3, "start_date": 3, "end_date": 1, "catchup": 2,
    "timetable": 1, "dag_id": 0.3,
}


def value(it):
    if isinstance(it, list):
        return f"[{', '.join(value(each) for each in it)}]"
    return str(it).lower() if isinstance(it, bool) else str(it) if isinstance(it, int) else f'"{it}"'


def row_of(words):
    return tomllib.loads(f"task = [{words}]")["task"][0]


class Other:
    """A text of a graph that is edited. `reached` is the moment up to which its runs reach, `operator` one for a new task."""

    def __init__(self, draw, text, reached, operator):
        self.draw, self.row, self.reached, self.operator = draw, tomllib.loads(text), reached, operator
        self.remarks = [it for it in text.split("\n") if it.startswith("#")]

    def lines(self):
        keys = [f"{key} = {value(it)}" for key, it in self.row.items() if key != "task"]
        tasks = [f"    {{ {', '.join(f'{key} = {value(it)}' for key, it in task.items())} }}," for task in self.row["task"]]
        return [*keys, "task = [", *tasks, "]", *self.remarks]

    def edit(self):
        name = self.draw.choices([*EDITS], [*EDITS.values()])[0]
        at_top = {"remark", "more", "order", "fewer", "max_active_runs", "max_active_tasks", "schedule", "start_date", "end_date", "catchup", "timetable", "dag_id"}
        if name in at_top:
            self.edit_top(name)
        else:
            task = self.draw.choice(self.row["task"])
            self.edit_task(name, task, [it["task_id"] for it in self.row["task"] if it is not task])

    def edit_task(self, name, task, others):
        draw = self.draw
        if name == "argv":
            task["operator"], task["argv"] = "exit", draw.choice(["0", "1", "99", "1 0", "1 1 0", "1 99"]).split()
            task.pop("execution_timeout", None)
        elif name == "execution_timeout":  # of a program, which ends long before
            task["operator"], task["argv"], task[name] = "command", ["true"], draw.choice([60, 3600, 31_536_000])
        else:
            task[name] = {
                "retries": lambda: draw.randint(0, 3),
                "retry_delay": lambda: draw.choice([0, 60]),
                "priority_weight": lambda: draw.randint(0, 5),
                "weight_rule": lambda: draw.choice(["downstream", "upstream", "absolute"]),
                "trigger_rule": lambda: draw.choice(RULES),
                "depends_on_past": lambda: not task.get("depends_on_past", False),
                "upstream": lambda: draw.sample(others, draw.randint(0, min(2, len(others)))),
                "pool": lambda: draw.choices(["p", "q", "default_pool", "z"], [4, 4, 4, 1])[0],
                "pool_slots": lambda: draw.randint(1, 2),
            }[name]()

    def edit_top(self, name):
        draw, row, tasks = self.draw, self.row, self.row["task"]
        if name == "remark":
            self.remarks = [f"# {draw.randint(1, 99)}"]
        elif name == "more":
            self.add_task(draw.choice("klmn"), [it["task_id"] for it in tasks])
        elif name == "order":
            draw.shuffle(tasks)
        elif name == "fewer" and len(tasks) > 1:
            gone = tasks.pop(draw.randrange(len(tasks)))["task_id"]
            for it in tasks:
                it["upstream"] = [each for each in it.get("upstream", []) if each != gone]
        elif name == "start_date":
            self.start_at(self.reached + draw.choice([0, 0, 1, -1, -2, 1 - HOUR, -99]) * draw.choice([1, HOUR]))
        elif name == "end_date":
            row[name] = text_of(self.reached + draw.randint(-2, 3) * HOUR)
        elif name in ("schedule", "timetable"):
            row[name] = draw.choice(SCHEDULES if name == "schedule" else ["interval", "trigger"])
            if draw.random() < 0.6:
                self.start_at(self.reached + draw.choice([0, 1]))
        elif name != "fewer":
            row[name] = {"max_active_runs": draw.randint(1, 16), "max_active_tasks": draw.choice([1, 2, 4, 16]), "catchup": draw.random() < 0.7, "dag_id": "d"}[name]
        if row["schedule"] in ("None", "@once"):
            row.pop("timetable", None)

    def start_at(self, moment):
        self.row["start_date"] = text_of(max(0, moment))

    def add_task(self, name, others):
        """One more task, at any place, which waits for some, or for which one waits."""
        draw = self.draw
        if name in others:
            return
        task = {"task_id": name, **self.operator, "trigger_rule": draw.choice(["all_success", "all_success", *RULES]), "depends_on_past": draw.random() < 0.2}
        task["upstream"] = draw.sample(others, draw.randint(0, min(2, len(others))))
        if draw.random() < 0.3:
            below = draw.choice(self.row["task"])
            below["upstream"] = [*below.get("upstream", []), name]
        self.row["task"].insert(draw.randint(0, len(others)), task)


def other_text(draw, text, reached, operator):
    """The lines of another text that is a graph."""
    while True:
        other = Other(draw, text, reached, operator)
        for _ in range(draw.randint(1, 3)):
            other.edit()
        try:
            Graph("\n".join(other.lines()))
            return other.lines()
        except LeftOut:
            pass
