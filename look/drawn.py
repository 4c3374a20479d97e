"""What pages have most of, made without templates: the squares of a grid, bars over time, and the rows of a run. What comes from outside is escaped here."""
from bars import step_of
from letters import LETTERS
from markupsafe import escape
from record import OUTCOMES, text_of
from words import length_of, time_of

DAY = 86400
LINKED = ("failed", "up_for_retry", "running", "queued")
CLASSES = {it: it.replace(" ", "-") for it in (*OUTCOMES, "in flight")}
CELLS = {state: f"<td class={state}>{letter}" for state, letter in LETTERS.items()}


def square(state):
    return {"letter": LETTERS[state], "state": state}


def cells_of(task, place, columns, is_said):
    """The squares of a task in its row of a grid, whose columns are runs: the names of their pages, their instances and their dates."""
    found, name = [], escape(task)
    for page, instances, date in columns:
        state = instances[task].state if task in instances else "none"
        if state in LINKED:
            said = f' aria-label="{name} {date} {state}"' if is_said else ""
            found.append(f'<td class={state}><a href="{page}#t{place}"{said}>{LETTERS[state]}</a>')
        else:
            found.append(CELLS[state])
    return "".join(found)


class Line:
    """The bars of a run over time, each as parts of a hundred."""

    def __init__(self, bars):
        begun, ready = min((it.start for it in bars), default=0), min((it.ready for it in bars), default=0)
        last = max((it.end for it in bars), default=0)
        # what has waited for days would press the bars together
        self.first = begun if begun - ready > 3 * (last - begun) else ready
        self.last = max(last, self.first + 1)
        self.scale = 99.6 / (self.last - self.first)

    def x(self, at):
        return round((at - self.first) * self.scale, 2) if at > self.first else 0

    def drawn(self, bars):
        """The bars of a task: all that it takes is numbers and outcomes."""
        parts = []
        for it in bars:
            start, outcome = self.x(it.start), CLASSES[it.outcome]
            if it.ready < it.start:
                parts.append(f'<line class="wait" x1="{self.x(it.ready)}%" x2="{start}%" y1="9" y2="9"/>')
            place, height = (1, 16) if outcome in ("failed", "lost") else (4, 10)
            parts.append(f'<rect class="{outcome}" x="{start}%" y="{place}" width="{max(round(self.x(it.end) - start, 2), 0.4)}%" height="{height}"/>')
        return f'<svg class="line" aria-hidden="true"><use href="#marks"/>{"".join(parts)}</svg>'

    def axis(self):
        step = step_of(self.last - self.first, 5)
        for at in range(-(-self.first // step) * step, self.last + 1, step):
            form = "%m-%d" if step >= DAY or at % DAY == 0 else "%H:%M" if step >= 60 else "%H:%M:%S"
            yield {"x": self.x(at), "text": text_of(at, form)}


def try_of(it, day, log, name):
    """A try as a line of the row of its task; the link to its log and the name are escaped."""
    is_begun = it.one.started is not None
    began, length = (time_of(it.start, day), length_of(it.end - it.start)) if is_begun else ("", "")
    outcome = it.outcome if is_begun or it.one.ended is not None else "handed out"
    link = f' <a class="log" href="{log}" aria-label="log of {name}, try {it.one.number}">log</a>' if log else ""
    words = f'<span class="n">{it.one.number}</span> <span class="at">{began}</span> <span class="for">{length}</span>'
    return f'<div class="try">{words} <span class="outcome {outcome}">{outcome}</span>{link}</div>'


def row_of(place, state, name, short, tries, earlier, why, more, line):
    """A task of a run as a row of a table; names and tries are escaped."""
    before = f'<div class="quiet">{earlier} earlier</div>' if earlier else ""
    reasons = "".join(f"<code>{escape(it)}</code>" for it in why) + (f'<div class="quiet">{more} more reasons</div>' if more else "")
    named = short if name == short else f'<span title="{name}">{short}</span>'
    head = f'<tr id="t{place}" class="{state}"><th scope="row"><b class="q {state}">{LETTERS[state]}</b> {named} <span class="state">{state}</span>'
    return f'{head}<td>{before}{"".join(tries)}{reasons}<td class="track">{line}\n'
