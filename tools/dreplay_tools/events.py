"""Events of perf and ftrace on their way to a trace."""
import dataclasses
import io
import os

from .ends import say_count, shorten
from .fields import BadEvent
from .trace import ARGS, MAX_NUMBER, MAX_TIME, Rows, field, text
from .tracepoints import Lost, switches

MAX_NAMED = 10
BETWEEN_PROGRESS = 65536
RESERVED = "dtrace"  # a provider that no row may have
NOTHING_CONVERTED, SOME_SKIPPED = 3, 1
MAX_LEFT_TWICE = 0.02  # of all the times that threads leave their processor


class Losses:
    """The events that a recorder has lost, and what would keep them."""

    def __init__(self, remedy):
        self.remedy, self.count, self.gaps = remedy, 0, 0

    def add(self, count):
        self.count += count or 0
        self.gaps += count is None

    def __bool__(self):
        return bool(self.count or self.gaps)

    def warning(self):
        several = "events were"
        how_many = say_count(self.count, "event was", several) if self.count else several
        unknown = ", and more of which it isn't known how many" if self.count and self.gaps else ""
        return (
            f"{how_many} lost while it was recorded{unknown}: counts are too small, and latencies "
            f"may span a gap; {self.remedy}"
        )


class Switches:
    """How often threads leave their processor, and how often one leaves that was away already."""

    def __init__(self):
        self.left, self.left_twice, self.away = 0, 0, set()

    def add(self, event):
        if event.probe.name == "on-cpu":
            self.away.discard(event.thread)
            return
        self.left += 1
        self.left_twice += event.thread in self.away
        self.away.add(event.thread)

    @property
    def are_missing(self):
        """Whether more are missing than what is lost at the ends of a recording."""
        return self.left_twice > self.left * MAX_LEFT_TWICE


class Events:
    """The rows of a trace so far, and what it doesn't have of its recording."""

    def __init__(self, output, tool, from_zero, remedy, what="line"):
        self.what = what  # that a recording consists of
        self.rows, self.output, self.tool = Rows(output), output, tool
        self.zero = None if from_zero else 0
        self.skipped = self.strangers = self.lacking = 0
        self.process_of, self.lacks = {}, {}
        self.losses, self.switches = Losses(remedy), Switches()

    def convert(self, recording, events_of, nothing):
        """Takes all lines of a recording, and returns the exit status."""
        lines = io.TextIOWrapper(
            recording, encoding="utf-8", errors="surrogateescape", newline="\n"
        )
        numbered = enumerate((line.rstrip("\r\n") for line in lines), 1)
        return self.convert_all(numbered, events_of, nothing)

    def convert_all(self, numbered, events_of, nothing):
        """Takes all that a recording consists of, with its places."""
        try:
            for place, line in numbered:
                self.take(place, events_of, line)
            return self.end(nothing)
        finally:
            self.output.abandon()

    def take(self, place, events_of, line):
        """Takes a line by what `events_of` makes of it: its events, of which a line may have none,
        or how many are lost.
        """
        try:
            for event in events_of(line):
                if isinstance(event, Lost):
                    self.losses.add(event.count)
                    continue
                self.add(event, place)
                if event.probe.function == "sched_switch":
                    for switch in switches(event):
                        self.switches.add(switch)
                        self.add(switch, place)
        except BadEvent as why:
            self.skipped += 1
            if self.skipped <= MAX_NAMED:
                self.tool.say(f"{self.what} {place} skipped: {why}")
        if place % BETWEEN_PROGRESS == 0:
            self.tool.progress(f"{place:,} {self.what}s, {self.rows.number:,} rows")

    def add(self, event, place):
        """Adds the row of an event."""
        if event.thread == 0:
            event = idle(event)
        time, process = self.time(event), self.process(event)
        if not (0 < event.thread <= MAX_NUMBER and 0 <= event.cpu <= MAX_NUMBER):
            raise BadEvent("the number of its thread, process or processor is out of range")
        probe = event.probe
        if probe.provider == RESERVED:
            raise BadEvent(f"its group is {RESERVED}, whose probes are BEGIN and END alone")
        if probe.lacking:
            self.lacking += 1
            self.lacks.setdefault(probe.function, f"{self.what} {place}: {probe.lacking}")
        args = ["" if value is None else str(value) for value in probe.args[:ARGS]]
        args += [""] * (ARGS - len(args))
        self.rows.add(
            f",{event.cpu},{event.thread},{process},{name_of(event.name)},{time},"
            f"{','.join(map(cell, (probe.provider, probe.module, probe.function, probe.name)))},"
            f"{','.join(args)}"
        )

    def time(self, event):
        if self.zero is None:
            self.zero = event.time
        time = event.time - self.zero
        if not 0 <= time <= MAX_TIME:
            raise BadEvent(
                "its time is too large"
                if time > 0
                else "its time is before that of the first event, from which --from-zero counts"
            )
        return time

    def process(self, event):
        """The process of an event: its own, or that which its thread had before; else each thread
        counts as one.
        """
        if event.process is not None:
            if not 0 <= event.process <= MAX_NUMBER:
                raise BadEvent("the number of its thread, process or processor is out of range")
            self.process_of[event.thread] = event.process
            return event.process
        process = self.process_of.get(event.thread)
        if process is None:
            self.strangers += 1
            return event.thread
        return process

    def end(self, nothing):
        """Writes what is left, and says what a reader of the trace should know. Returns the exit
        status.
        """
        if self.skipped > MAX_NAMED:
            self.tool.say(f"{self.skipped} {self.what}s skipped in all")
        if not self.rows.number:
            self.tool.say(f"nothing was converted: {nothing}")
            return NOTHING_CONVERTED
        self.rows.flush()
        self.output.keep()
        for warning in self.warnings():
            self.tool.say(warning)
        return SOME_SKIPPED if self.skipped or self.losses else 0

    def warnings(self):
        if self.losses:
            yield self.losses.warning()
        if self.switches.are_missing:
            left, twice = self.switches.left, self.switches.left_twice
            yield (
                f"{twice:,} of {left:,} times a thread leaves a processor to which it hadn't come "
                "back: switches are missing, so times off the processor are. Record all threads "
                "(perf record -a); some kernels leave out switches away from an idle processor"
            )
        if self.strangers:
            rows = say_count(self.strangers, "row has", "rows have")
            yield f"{rows} no process in the recording, so the thread counts as one"
        if self.lacking:
            events = say_count(self.lacking, "event lacks", "events lack")
            function, why = next(iter(self.lacks.items()))
            others = f" and {len(self.lacks) - 1} more kinds" if len(self.lacks) > 1 else ""
            yield f"{events} arguments, which reads as 0: {shorten(function)} ({why}){others}"
        yield from self.output.warnings()


def idle(event):
    """An event of a processor's idle task, which the kernel numbers 0 on all processors, as one of
    a thread of the processor's own.
    """
    return dataclasses.replace(
        event, name=f"swapper/{event.cpu}", thread=MAX_NUMBER - event.cpu, process=0
    )


def name_of(name):
    """The name of a thread as a field; the tracer writes <...> for one that it has forgotten."""
    return "unknown" if name == "<...>" else cell(name)


def cell(shown):
    return field(text(shown.encode("utf-8", "surrogateescape")))


def machine(args):
    return args.machine or os.uname().machine
