"""CHANGELOG.md, by version, and as Debian's changelog."""
import re
import textwrap
import time
from typing import NamedTuple

from manuals import text_of

MAINTAINER = "Turgobyl maintainers <maintainers@users.noreply.turgobyl.example>"
HEADING = re.compile(r"^## (\S+), (\d+ [A-Z][a-z]+ \d{4})$", re.M)
LINK = re.compile(r"\[([^\]]*)\]\([^)]*\)")


class Change(NamedTuple):
    version: str
    day: time.struct_time
    points: list


def changes():
    """What changed, latest first."""
    parts = HEADING.split(text_of("CHANGELOG.md"))[1:]
    for version, day, text in zip(parts[::3], parts[1::3], parts[2::3]):
        points = re.split(r"\n(?:- |\n)", LINK.sub(r"\1", text))
        yield Change(version, time.strptime(day, "%d %B %Y"), [it.strip().removeprefix("- ") for it in points if it.strip()])


def since(version):
    """The changes up to this version, whose own comes first."""
    found = [*changes()]
    while found and found[0].version != version:
        del found[0]
    if not found:
        raise ValueError(f"CHANGELOG.md has no version {version}, which the program has")
    return found


def debian(version):
    entries, found = [], since(version)
    for place, it in enumerate(found):
        # each entry has to be newer than the one before, so versions of one day stand an hour apart
        hour = sum(earlier.day == it.day for earlier in found[place + 1 :])
        points = "\n".join(textwrap.fill(point, 78, initial_indent="  * ", subsequent_indent="    ", break_long_words=False, break_on_hyphens=False) for point in it.points)
        entries.append(f"dagsched ({it.version}) stable; urgency=medium\n\n{points}\n\n -- {MAINTAINER}  {time.strftime('%a, %d %b %Y', it.day)} {hour:02}:00:00 +0000\n")
    return "\n".join(entries)
