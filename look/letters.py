"""The letters of states, and the dates above the columns of a grid, for `grid` and `page`."""
from record import text_of

LETTERS = {
    "none": ".",
    "scheduled": "w",
    "queued": "q",
    "running": "r",
    "success": "S",
    "failed": "F",
    "skipped": "k",
    "up_for_retry": "y",
    "upstream_failed": "u",
}
PARTS = (("year", "%y"), ("month", "%m"), ("day", "%d"), ("hour", "%H"), ("minute", "%M"), ("second", "%S"))


def heads(runs):
    """The lines above a table: the parts of the dates, without a year that all runs have, and without those at the end that are zero in all."""
    parts = list(PARTS if len({text_of(it.logical, "%Y") for it in runs}) > 1 else PARTS[1:])
    while parts[-1][0] != "day" and all(text_of(it.logical, parts[-1][1]) == "00" for it in runs):
        parts.pop()
    for word, form in parts:
        yield word, [text_of(it.logical, form) for it in runs]
