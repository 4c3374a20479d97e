"""What the programs of `look` have in common: words of a command, faults, the ends by signals, and names in little room."""
import argparse
import calendar
import difflib
import os
import shutil
import signal
import sys
import textwrap
import time

from record import NoRecord

NO_GRAPH, NO_RECORD, NO_OUTPUT = 1, 3, 4
# at most so many of what is there are named in a fault
NAMED = 20


def moment(text):
    for form in ("%Y-%m-%d", "%Y-%m-%dT%H:%M:%SZ", "%Y-%m-%dT%H:%M:%S+00:00"):
        try:
            return calendar.timegm(time.strptime(text, form))
        except ValueError:
            pass
    raise argparse.ArgumentTypeError(f"{text} is no moment: write a day, as 2024-03-01, or 2024-03-01T02:00:00Z, in UTC")


def positive(text):
    if not text.isascii() or not text.isdigit() or not 0 < int(text) < 10**9:
        raise argparse.ArgumentTypeError(f"{text} is no number from 1 to 999999999")
    return int(text)


def folder(text):
    if not os.path.isdir(text):
        raise argparse.ArgumentTypeError(f"{text} is no folder")
    return text


def parser_of(description):
    """A parser that has the record as its first word."""
    width = min(shutil.get_terminal_size((80, 24)).columns, 120)
    paragraphs = (textwrap.fill(" ".join(it.split()), max(width - 2, 20)) for it in description.split("\n\n"))
    parser = argparse.ArgumentParser(description="\n\n".join(paragraphs), formatter_class=argparse.RawDescriptionHelpFormatter, allow_abbrev=False)
    parser.add_argument("record", metavar="RECORD", help="the file of a record, or the folder of a service, which has it as record.db; a scheduler may be at work on it")
    parser.add_argument("--logs", metavar="DIR", type=folder, help="the folder of `dagsched run --logs`")
    return parser


def logs_of(call):
    """The folder of --logs; without it that of a service, where the record is one."""
    beside = os.path.join(call.record, "logs")
    return call.logs or (beside if os.path.isdir(beside) else None)


def width_of(call):
    """How wide lines may be: by --width or the terminal; None where nothing bounds them."""
    width = call.width or (shutil.get_terminal_size((80, 24)).columns if sys.stdout.isatty() else None)
    return width and max(width, 16)


def dags_of(record, dag):
    """The graphs that are asked for: this one, or all."""
    if dag is None:
        return record.dags
    if dag in record.dags:
        return [dag]
    end_without(f"{dag}: no graph of this record; it has", nearest(dag, record.dags), len(record.dags))


def nearest(name, names):
    """The names that are most like one, the nearest first."""
    return difflib.get_close_matches(name, names, NAMED, 0)


def end_without(said, there, count):
    """Ends a program since something is not there: it says what is, of so many."""
    more = f", and {count - len(there)} more" if count > len(there) else ""
    print(f"{said} {', '.join(there) or 'none'}{more}", file=sys.stderr)
    raise SystemExit(NO_GRAPH)


def ended(number, _):
    raise SystemExit(128 + number)


def run(main):
    """Runs a program, and ends it with a status: 0, 1 without such a graph, 2 by its words, 3 without a record, 4 where its output is not taken."""
    for number in (signal.SIGHUP, signal.SIGTERM):
        if signal.getsignal(number) != signal.SIG_IGN:
            signal.signal(number, ended)
    try:
        main()
        sys.stdout.flush()
    except NoRecord as fault:
        print(fault, file=sys.stderr)
        raise SystemExit(NO_RECORD) from None
    except KeyboardInterrupt:
        raise SystemExit(128 + signal.SIGINT) from None
    except OSError as fault:
        # a reader that has seen enough is no fault; nothing is written at the end then
        os.dup2(os.open(os.devnull, os.O_WRONLY), sys.stdout.fileno())
        if not isinstance(fault, BrokenPipeError):
            print(f"this cannot be written: {fault.strerror}", file=sys.stderr)
            raise SystemExit(NO_OUTPUT) from None


def shortened(names, room):
    """Names in so much room each, by name: of a long one its beginning and its end, with `~` between them, and its number where two would be the same."""
    found = {}
    for number, name in enumerate(names):
        short = cut(name, room, "~")
        found[name] = cut(name, room, f"~{number}~") if short in found.values() and short != name else short
    return found


def cut(name, room, between):
    if len(name) <= room:
        return name
    left = max(room - len(between), 2)
    return name[: left - left // 2] + between + name[len(name) - left // 2 :]
