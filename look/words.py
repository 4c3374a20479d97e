"""How pages say moments and lengths of time, and how they name files."""
import hashlib
import re
import urllib.parse

from record import text_of

UNITS = ((86400, "d", 3600, "h"), (3600, "h", 60, "min"), (60, "min", 1, "s"))
PLAIN = re.compile(r"[A-Za-z0-9_-][A-Za-z0-9_.-]{0,79}")


def day_of(moment):
    return moment - moment % 86400


def date_of(moment):
    """A moment without the parts at its end that are zero."""
    return text_of(moment, "%Y-%m-%d" if moment % 86400 == 0 else "%Y-%m-%d %H:%M" if moment % 60 == 0 else "%Y-%m-%d %H:%M:%S")


def time_of(moment, day):
    """A moment as a time of this day, with the date where it is of another."""
    passed = moment - day
    if 0 <= passed < 86400:
        return f"{passed // 3600:02}:{passed // 60 % 60:02}:{passed % 60:02}"
    return text_of(moment, "%m-%d %H:%M:%S" if abs(passed) < 300 * 86400 else "%Y-%m-%d %H:%M:%S")


def length_of(seconds):
    """So many seconds, in the two greatest units that they have."""
    if seconds < 60:
        return f"{seconds} s"
    size, word, less, below = next(it for it in UNITS if seconds >= it[0])
    rest = seconds % size // less
    return f"{seconds // size} {word} {rest} {below}" if rest else f"{seconds // size} {word}"


def counted(count, word, more=""):
    return f"{count:,} {word}{'' if count == 1 else 's'}{more}"


def file_of(name):
    """A name as that of a file: another one where it is long, hidden, or has odd bytes."""
    if PLAIN.fullmatch(name):
        return name
    sum_of = hashlib.sha256(name.encode(errors="surrogateescape")).hexdigest()[:16]
    # no name that stays as it is has a ~
    return f"{re.sub('[^A-Za-z0-9_-]', '_', name[:60])}~{sum_of}"


def address_of(path):
    return urllib.parse.quote(str(path), safe="/", errors="surrogateescape")
