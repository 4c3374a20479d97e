"""The manuals, made from the pages that are there and from what the program prints as its help."""
import os
import posixpath
import re

import words
from pages import Page, escaped, filled, literal, manual

TOP = os.path.dirname(os.path.dirname(os.path.realpath(__file__)))
# by manual: its title, what it is in a line, and the pages that it has
MANUALS = {
    "dagsched.1": ("User Commands", "schedules graphs of tasks as Airflow 2 does", ["docs/SCRIPTS.md"]),
    "dagsched-graph.5": ("File Formats", "graph files of dagsched, and what their tasks do", ["docs/GRAPH_FILES.md", "docs/OPERATORS.md"]),
    "dagsched-service.7": ("Miscellanea", "dagsched as a service, and looks at its record", ["docs/IN_USE.md"]),
}
# what else a user reads
PAGES = ["README.md", "docs/TUTORIAL.md", "docs/A_YEAR.md", "docs/EXPLAIN.md", "docs/FROM_AIRFLOW.md", "docs/RECORD.md", "docs/PROMISES.md", "docs/PERFORMANCE.md", "docs/SCALE.md"]
PROGRAM_OF = re.compile(r"(?<![\w/.-])(?:service|look)/(serve|ask|check|tries|end|copy|grid|gantt|why|page)(?=[\s`]|$)", re.M)


def spoken(manual_file):
    """The name of a manual as one says it: dagsched(1)."""
    name, section = manual_file.rsplit(".", 1)
    return f"{name}({section})"


def bytes_of(path):
    with open(f"{TOP}/{path}", "rb") as it:
        return it.read()


def text_of(path):
    return bytes_of(path).decode()


def placed(text, prefix):
    """A text with the programs in the places where they are installed."""
    for place in ("lib/dagsched", "bin", "share/doc"):
        text = text.replace(f"/usr/local/{place}", f"{prefix}/{place}")
    return PROGRAM_OF.sub(rf"{prefix}/lib/dagsched/\1", text).replace("./dagsched ", "dagsched ")


def goals_of(page, own):
    """Says of each link of a page where one finds what it leads to: a manual, a page, an address, or "" where that is here or nowhere."""
    def goal_of(link):
        if re.match(r"[a-z]+:", link):
            return link
        path = posixpath.normpath(posixpath.join(posixpath.dirname(page), link.partition("#")[0]))
        if path in own or link.startswith("#"):
            return ""
        found = [spoken(it) for it, (*_, them) in MANUALS.items() if path in them]
        return found[0] if found else posixpath.basename(path) if path in PAGES else ""
    return goal_of


def part_of(page, own, prefix):
    text = placed(text_of(page), prefix)
    made = Page(text, goals_of(page, own), depth=int(page != own[0])).manual()
    return made if made[0].startswith(".SH") else [".SH DESCRIPTION", *made]


def usages(whole, commands):
    lines = [literal(it.usage) for it in (whole, *commands)]
    return [".SH SYNOPSIS", ".nf", *(f".B {it}" for it in lines), ".fi"]


def told(name, text):
    return [".TP", f"\\fB{literal(name)}\\fR", *filled(escaped(text))]


def help_of(command):
    lines = [line for it in command.arguments for line in told(it.name, f"{it.help}{': ' * bool(it.values)}{', '.join(it.values)}")]
    for it in command.options:
        lines += told(", ".join(it.names) + f" {it.value}" * bool(it.value), it.help)
    return lines


def helps(whole, commands):
    lines = [".SH OPTIONS", *help_of(whole), ".SH COMMANDS OF THE SHELL"]
    for it in commands:
        lines += [f'.SS "{literal(it.name)}"', *filled(escaped(it.about) + "."), *help_of(it)]
    return lines


def service_files(prefix, units):
    found = {
        f"{units}/dagsched.service": "the unit, which nobody but you enables: systemctl enable --now dagsched",
        f"{units}/dagsched-check.timer": "mails what is wrong, likewise",
        f"{prefix}/lib/dagsched": "the programs serve, ask, check, tries, end, copy, grid, gantt, why and page",
        "/var/lib/dagsched": "the folder of the service: the record (record.db and record.db-wal), graph files, the inbox",
        "/var/log/dagsched": "what tries wrote",
    }
    return [".SH FILES", *(line for it in found.items() for line in told(*it))]


def see_also(manual_file, prefix):
    others = [f".BR {literal(it.rsplit('.', 1)[0])} ({it.rsplit('.', 1)[1]})," for it in MANUALS if it != manual_file]
    return [".SH SEE ALSO", *others, f"and the pages in {escaped(prefix)}/share/doc/dagsched."]


def made(program, prefix, units, date):
    """The text of each manual, by its file."""
    whole, _, commands = words.read(program)
    version, found = words.version_of(program), {}
    for file, (title, line, own) in MANUALS.items():
        name, section = file.rsplit(".", 1)
        parts = [[".SH NAME", f"{literal(name)} \\- {escaped(line)}"]]
        parts += [usages(whole, commands), helps(whole, commands)] if section == "1" else []
        parts += [part_of(it, own, prefix) for it in own]
        parts += [service_files(prefix, units)] if section == "7" else []
        found[file] = manual(name, section, title, date, version, [*parts, see_also(file, prefix)])
    return found
