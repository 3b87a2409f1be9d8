"""A trace as trace events of Chrome, which Perfetto and chrome://tracing show as a timeline of each
thread.
"""
import csv
import io
import itertools
import json

from .ends import Failure
from .trace import COLUMNS

FIRST_ARG = COLUMNS.index("arg0")
PHASES = {"entry": "B", "return": "E"}


def write(file, out):
    """Writes the events of a trace: an entry begins a call, a return ends it, any other probe is an
    instant.
    """
    csv.field_size_limit(2**31 - 1)
    rows = csv.reader(
        io.TextIOWrapper(file, encoding="utf-8", errors="surrogateescape", newline="")
    )
    try:
        if next(rows, None) != COLUMNS:
            raise Failure("-t: this isn't a trace, as its first line isn't the header of one")
        out.write('{"displayTimeUnit": "ns", "traceEvents": [')
        between, events = "\n", Events()
        for event in itertools.chain.from_iterable(events.of(row) for row in rows if row):
            out.write(between + json.dumps(event))
            between = ",\n"
    except (csv.Error, ValueError, IndexError):
        raise Failure(f"-t: dreplay refuses this trace at row {rows.line_num - 1} or before")
    out.write("\n]}\n")


class Events:
    """The rows of a trace as events, in microseconds since its first row."""

    def __init__(self):
        self.first, self.processes, self.threads = None, set(), {}

    def new_names(self, process, thread, name):
        """What has a name that wasn't told yet."""
        if (process, name) not in self.processes:
            self.processes.add((process, name))
            yield "process_name"
        if self.threads.get((process, thread)) != name:
            self.threads[process, thread] = name
            yield "thread_name"

    def of(self, row):
        """The events of a row: before those of a process or thread its name, if that is new."""
        thread, process, time, name = int(row[2][:20]), int(row[3][:20]), int(row[5][:20]), row[9]
        if self.first is None:
            self.first = time
        for kind in self.new_names(process, thread, row[4]):
            args = {"name": row[4]}
            yield {"ph": "M", "name": kind, "pid": process, "tid": thread, "args": args}
        phase = PHASES.get(name, "i")
        title = row[8] if phase != "i" else ":".join(row[6:10])
        event = {
            "ph": phase,
            "name": title,
            "cat": row[6],
            "pid": process,
            "tid": thread,
            "ts": (time - self.first) / 1000,
        }
        if args := arguments(row[FIRST_ARG:]):
            event["args"] = args
        yield event if phase != "i" else {**event, "s": "t"}


def arguments(fields):
    """The arguments of a row that aren't empty, by their names."""
    return {f"arg{index}": int(field[:20]) for index, field in enumerate(fields) if field}
