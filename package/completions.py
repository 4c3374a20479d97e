"""What may follow `dagsched` at a tab, for three shells, from the words that the program takes."""
import os

HERE = os.path.dirname(os.path.realpath(__file__))
# What the value of an option, or a word in its place, is by the name that the help gives it.
KINDS = {"PATH": "files", "DIR": "folders", "DAG": "dags", "POOL": "pools"}


def filled(name, **texts):
    """The text of a file that stands here, with these in the places of their names."""
    with open(f"{HERE}/{name}", encoding="utf-8") as it:
        text = it.read()
    for place, value in texts.items():
        text = text.replace(f"@{place}@", value)
    return text


def quoted(text):
    return "'" + text.replace("'", "'\\''") + "'"


def valued(command):
    return [it for it in command.options if it.value]


def bash(whole, commands, lib):
    awaiting = dict.fromkeys(name for command in (whole, *commands) for it in valued(command) for name in it.names)
    places, options = [f"        :0) words={quoted(' '.join(it.name for it in commands))} ;;"], []
    for command in (whole, *commands):
        for it in valued(command):
            if it.value in KINDS:
                places += [f"        {command.name}:{name}) kind={KINDS[it.value]} ;;" for name in it.names]
        for at, it in enumerate(command.arguments):
            if it.values:
                places.append(f"        {command.name}:{at}) words={quoted(' '.join(it.values))} ;;")
            elif it.name in KINDS:
                places.append(f"        {command.name}:{at}) kind={KINDS[it.name]} ;;")
        names = " ".join(name for it in command.options for name in it.names)
        options.append(f"        {command.name}:-*) kind='' words={quoted(names)} ;;")
    texts = {"awaiting": " | ".join(f":{it}" for it in awaiting), "places": "\n".join(places), "options": "\n".join(options)}
    return filled("dagsched.bash", lib=lib, **{**texts, "awaiting": " " * 12 + texts["awaiting"]})


ZSH = {"files": "_files", "folders": "_files -/", "dags": " _dagsched_names dags", "pools": " _dagsched_names pools"}


def zsh_told(text):
    return "".join(f"\\{it}" if it in "[]:\\" else it for it in text)


def zsh_specs(command):
    for it in command.options:
        value = f":{it.value}:{ZSH.get(KINDS.get(it.value), ' ')}" if it.value else ""
        alone = "(- *)" if it.long in ("--help", "--version") else ""
        yield from (quoted(f"{alone}{name}{'=' * bool(value)}[{zsh_told(it.help)}]{value}") for name in it.names)
    for at, it in enumerate(command.arguments, 1):
        goal = f"({' '.join(it.values)})" if it.values else ZSH.get(KINDS.get(it.name), " ")
        yield quoted(f"{at}:{zsh_told(it.help)}:{goal}")


def zsh(whole, commands, lib):
    cases = []
    for it in commands:
        specs = " \\\n".join(f"                        {spec}" for spec in zsh_specs(it))
        cases.append(f"                {it.name})\n                    _arguments \\\n{specs} ;;")
    listed = "\n".join(f"                {quoted(it.name + ':' + zsh_told(it.about))}" for it in commands)
    whole = "\n".join(f"        {it} \\" for it in zsh_specs(whole))
    return filled("dagsched.zsh", lib=lib, whole=whole, commands=listed, cases="\n".join(cases))


FISH = {"files": "-r -F", "folders": "-x -a '(__fish_complete_directories)'"}


def fish_lines(command):
    at = quoted(f"__dagsched_at {command.name or ':0'}")
    for it in command.options:
        names = f"{f' -s {it.short[1:]}' if it.short else ''}{f' -l {it.long[2:]}' if it.long else ''}"
        value = f" {FISH.get(KINDS.get(it.value), '-x')}" if it.value else ""
        yield f"complete -c dagsched -n {at}{names}{value} -d {quoted(it.help)}"
    for place, it in enumerate(command.arguments):
        goal = " ".join(it.values) or (f"(__dagsched_names {KINDS[it.name]})" if KINDS.get(it.name) in ("dags", "pools") else "")
        if goal:
            yield f"complete -c dagsched -n {quoted(f'__dagsched_at {command.name}:{place}')} -a {quoted(goal)} -d {quoted(it.name)}"


def fish(whole, commands, lib):
    lines = [f"complete -c dagsched -n '__dagsched_at :0' -a {it.name} -d {quoted(it.about)}" for it in commands]
    for it in (whole, *commands):
        lines += fish_lines(it)
    awaiting = " ".join(dict.fromkeys(name for command in (whole, *commands) for it in valued(command) for name in it.names))
    return filled("dagsched.fish", lib=lib, awaiting=awaiting, lines="\n".join(lines))
