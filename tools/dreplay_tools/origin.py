"""Where an answer comes from, at the foot of a page: script, recordings, firings, version."""
import csv
import datetime
import io
import os
import time
from dataclasses import dataclass, field
from html import escape

from .inputs import open_input
from .labels import SCALES, printable, scale
from .trace import COLUMNS
from .version import VERSION

TIME = COLUMNS.index("time")
SINCE_1970 = 10**18  # nanoseconds; a time from there on is a date, and below it one of a machine
MAX_OF_THE_END = 1 << 16  # bytes in which the last row is looked for
MAX_NAMED = 20


@dataclass
class Origin:
    """What is known of where an answer comes from."""

    script: str = None
    recordings: list = field(default_factory=list)
    before: str = None
    firings: int = 0
    traces: list = field(default_factory=list)

    def facts(self):
        """Names and values for a reader."""
        if self.script:
            yield "Script", self.script
        names = self.recordings[:MAX_NAMED]
        more = len(self.recordings) - len(names)
        if names:
            yield "Of", ", ".join(names) + (f" and {more:,} more" if more else "")
        if self.before:
            yield "Before", self.before
        yield "Firings", f"{self.firings:,}"
        if shown := span(self.traces):
            yield "Recorded", shown
        yield "Made by", f"dreplay-show {VERSION}, {now()}"

    def foot(self):
        """The lines of a page's foot."""
        yield "<footer><dl>"
        for name, value in self.facts():
            yield f"<dt>{name}</dt><dd>{escape(printable(value))}</dd>"
        yield "</dl></footer>"


def now():
    """The date, or that of SOURCE_DATE_EPOCH, by which a page can be made again byte for byte."""
    given = os.environ.get("SOURCE_DATE_EPOCH", "")
    seconds = int(given) if given.isascii() and given.isdigit() and len(given) < 12 else time.time()
    return f"{date(seconds):%Y-%m-%d %H:%M} UTC"


def date(seconds):
    return datetime.datetime.fromtimestamp(seconds, datetime.timezone.utc)


def span(traces):
    """From when to when traces are; nothing if that isn't known."""
    times = [moment for path in traces for moment in ends(path)]
    if not times:
        return ""
    first, last = min(times), max(times)
    lasted = scale(last - first, *SCALES["ns"])
    if first < SINCE_1970:
        return lasted
    days = [date(moment // 10**9) for moment in (first, last)]
    form = "%H:%M:%S" if days[0].date() == days[1].date() else "%Y-%m-%d %H:%M:%S"
    return f"{days[0]:%Y-%m-%d %H:%M:%S} to {days[1].strftime(form)} UTC, {lasted}"


def ends(path):
    """The times of a trace's first row and its last."""
    file = open_input(path)
    file.readline(MAX_OF_THE_END)
    first = file.readline(MAX_OF_THE_END)
    size = file.seek(0, os.SEEK_END)
    file.seek(max(0, size - MAX_OF_THE_END))
    last = (file.read().splitlines() or [b""])[-1]
    for line in (first, last):
        row = next(csv.reader(io.StringIO(line.decode("latin-1"))), [])
        if len(row) == len(COLUMNS) and row[TIME].isdigit() and len(row[TIME]) <= 20:
            yield int(row[TIME])
