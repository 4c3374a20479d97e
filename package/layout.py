"""What is installed, and where: the same for a package and for a machine without dpkg."""
import calendar
import gzip
import os
import posixpath
import re
import time
from typing import NamedTuple

import changes
import completions
import manuals
import words
from manuals import bytes_of, placed, text_of

PROGRAMS = [f"service/{it}" for it in ("ask", "check", "copy", "end", "serve", "tries")] + [f"look/{it}" for it in ("gantt", "grid", "names", "page", "why")]
MODULES = [f"service/{it}.py" for it in ("calls", "clock", "inbox", "pages", "programs", "scheduler", "service", "starting", "stops", "watch", "working")]
MODULES += [f"look/{it}.py" for it in ("advice", "asked", "bars", "chain", "command", "drawn", "files", "layered", "letters", "reasons", "record", "rules", "sites", "snapshot", "views", "words")]
TEMPLATES = [f"look/templates/{it}" for it in ("base.html", "front.html", "graph.html", "marks.html", "run.html", "style.css")]
PICTURES = ["docs/night.svg", "docs/page.png"]
UNITS = ("dagsched.service", "dagsched-check.service", "dagsched-check.timer")
EXAMPLES = [f"examples/{it}.dagsched" for it in ("first", "nightly", "pools", "repairs")] + ["examples/record_in_a_file/queries.sql"]
LINK = re.compile(r"(!?)\[((?:`[^`]*`|[^\]`])*)\]\(([^()\s]*)\)")


class Place(NamedTuple):
    """Where things go: all below a prefix, but for what a system looks for elsewhere."""

    prefix: str
    units: str
    zsh: str


def place_of_package():
    return Place("/usr", "/lib/systemd/system", "/usr/share/zsh/vendor-completions")


def place_below(prefix):
    return Place(prefix, f"{prefix}/lib/systemd/system", f"{prefix}/share/zsh/site-functions")


def packed(text):
    return gzip.compress(text.encode(), 9, mtime=0)


def date_of(version):
    """The day of a version, as seconds since 1970."""
    return calendar.timegm(changes.since(version)[0].day)


def page(path, prefix, shipped):
    """A page, with its links to what is not installed as their texts alone."""
    def linked(it):
        goal = posixpath.normpath(posixpath.join(posixpath.dirname(path), it[3].partition("#")[0]))
        return it[0] if it[3].startswith(("#", "http")) or goal in shipped else it[2]
    return LINK.sub(linked, placed(text_of(path), prefix))


def pages(place):
    shipped = [*manuals.PAGES, *(it for *_, own in manuals.MANUALS.values() for it in own), *PICTURES, *EXAMPLES]
    for it in shipped:
        text = page(it, place.prefix, shipped).encode() if it.endswith(".md") else bytes_of(it)
        yield f"{place.prefix}/share/doc/dagsched/{it}", 0o644, text


def unit(name, prefix):
    """A unit, without the lines on how to install it."""
    text = text_of(f"service/{name}")
    return placed(text[text.index("[Unit]") :], prefix)


def file_of(name):
    return bytes_of(f"package/{name}")


def made_files(program, place):
    """What is made from the program's help and from pages."""
    version, lib = words.version_of(program), f"{place.prefix}/lib/dagsched"
    whole, _, commands = words.read(program)
    yield f"{place.prefix}/share/bash-completion/completions/dagsched", 0o644, completions.bash(whole, commands, lib).encode()
    yield f"{place.zsh}/_dagsched", 0o644, completions.zsh(whole, commands, lib).encode()
    yield f"{place.prefix}/share/fish/vendor_completions.d/dagsched.fish", 0o644, completions.fish(whole, commands, lib).encode()
    day = time.strftime("%Y-%m-%d", time.gmtime(date_of(version)))
    for name, text in manuals.made(program, place.prefix, place.units, day).items():
        yield f"{place.prefix}/share/man/man{name[-1]}/{name}.gz", 0o644, packed(text)
    yield f"{place.prefix}/share/doc/dagsched/changelog.gz", 0o644, packed(changes.debian(version))


def files(program, place):
    """The path, the rights and the bytes of each file."""
    prefix = place.prefix
    with open(program, "rb") as it:
        yield f"{prefix}/bin/dagsched", 0o755, it.read()
    for it in PROGRAMS + MODULES:
        yield f"{prefix}/lib/dagsched/{posixpath.basename(it)}", 0o644 if it.endswith(".py") else 0o755, placed(text_of(it), prefix).encode()
    for it in TEMPLATES:
        yield f"{prefix}/lib/dagsched/templates/{posixpath.basename(it)}", 0o644, bytes_of(it)
    for it in UNITS:
        yield f"{place.units}/{it}", 0o644, unit(it, prefix).encode()
    for it in ("sysusers", "tmpfiles"):
        yield f"{prefix}/lib/{it}.d/dagsched.conf", 0o644, file_of(f"{it}.conf")
    yield f"{prefix}/share/doc/dagsched/copyright", 0o644, file_of("copyright")
    yield f"{prefix}/share/doc/dagsched/sums", 0o644, text_of("release/sums").encode()
    yield from made_files(program, place)
    yield from pages(place)


def write(path, mode, text):
    """Puts a file into its place at once."""
    os.makedirs(os.path.dirname(path), exist_ok=True)
    new = os.path.join(os.path.dirname(path), f".{os.path.basename(path)}.{os.getpid()}")
    try:
        with open(new, "wb") as it:
            it.write(text)
            os.fchmod(it.fileno(), mode)
        os.rename(new, path)
    except BaseException:
        if os.path.exists(new):
            os.unlink(new)
        raise
