"""The words that the program takes, read from what it prints as its help: they are said once, in the program."""
import re
import subprocess
from typing import NamedTuple

OPTION = re.compile(r"^ +(?:(-\w)(?:, )?)?(--[\w-]+)?(?: <(\w+)>)?(?:  +(.*))?$")
LISTED = re.compile(r"^ +(\S+)(?:  +(.*))?$")
VALUES = re.compile(r" *\[possible values: ([^\]]*)\]")


class Option(NamedTuple):
    """An option; `value` is the name of its value, None of a flag."""

    short: str
    long: str
    value: str
    help: str

    @property
    def names(self):
        return [it for it in (self.short, self.long) if it]


class Argument(NamedTuple):
    """A word in its place, and what it may be, where that is told."""

    name: str
    help: str
    values: list


class Command(NamedTuple):
    name: str
    about: str
    usage: str
    options: list
    arguments: list


def sections_of(text):
    """The lines of each part of a help, by its title: `Options`, and "" of what stands above and below all."""
    found, title = {"": []}, ""
    for line in text.splitlines():
        if re.fullmatch(r"[A-Z][a-z]+:", line):
            title = line[:-1]
        elif line and not line.startswith(" "):
            title = ""
        if line.strip() and not line.endswith(f"{title}:" if title else "\0"):
            found.setdefault(title, []).append(line)
    return found


def argument_of(line):
    name, told = LISTED.match(line).groups()
    values = VALUES.search(told or "")
    return Argument(name.strip("<>[]."), VALUES.sub("", told or ""), values[1].split(", ") if values else [])


def option_of(line):
    short, long, value, told = OPTION.match(line).groups()
    return Option(short, long, value, told or "")


def command_of(name, text):
    """The command whose help this is."""
    parts = sections_of(text)
    about, usage = (next(it for it in parts[""] if it.startswith("Usage:") is which) for which in (False, True))
    options = [option_of(it) for it in parts.get("Options", [])]
    return Command(name, about, usage.removeprefix("Usage: "), options, [argument_of(it) for it in parts.get("Arguments", [])])


def printed(program, *words):
    ran = subprocess.run([program, *words], stdin=subprocess.DEVNULL, capture_output=True, text=True, check=False)
    if ran.returncode:
        raise ValueError(f"{program} {' '.join(words)} ends with status {ran.returncode}: {ran.stdout}{ran.stderr}")
    return ran.stdout


def number_in(text):
    """The number in what `--version` prints, whatever else it says; "" of a program that has none."""
    found = re.match(r"dagsched ([0-9][0-9.]*[0-9])", text)
    return found[1] if found else ""


def version_of(program):
    """The number that the program has."""
    return number_in(printed(program, "--version"))


def read(program):
    """The program itself as a command, what stands at the end of its help, and the commands that its help names."""
    text = printed(program, "--help")
    parts = sections_of(text)
    names = [LISTED.match(it)[1] for it in parts["Commands"]]
    after = [it for it in parts[""] if not it.startswith("Usage:")][1:]
    return command_of("", text), after, [command_of(it, printed(program, it, "--help")) for it in names]
