"""Trace events in JSON, as Chrome, Perfetto and many programs write them, as the rows of a trace.

What begins and ends is an entry and a return, all else that happens at a moment a probe `instant`.
"""
import json
import re
from decimal import Decimal, InvalidOperation

from .ends import Failure
from .fields import BadEvent
from .trace import ARGS, MAX_NUMBER, MAX_TIME, to_signed
from .tracepoints import Event, Probe

NOTHING_CONVERTED = 3
MAX_BYTES = 1 << 30
MAX_DIGITS = 40
BEGINS, ENDS, WHOLE, INSTANTS = "B", "E", "X", ("i", "I", "n", "R")
FIRST_OF_OTHERS = 1_000_000_001  # of threads whose own number is of another process's too
ARGUMENT = re.compile(r"arg(\d)")
OF_A_TRACE = re.compile(r"([^:]*):([^:]*):([^:]*):([^:]*)")
OTHER = "events of other kinds (counters, flows, asynchronous ones) are left out"


def whole(digits):
    if len(digits) > MAX_DIGITS:
        raise ValueError("a number of too many digits")
    return int(digits)


def decimal(digits):
    if len(digits) > MAX_DIGITS:
        raise ValueError("a number of too many digits")
    return Decimal(digits)


DECODER = json.JSONDecoder(parse_int=whole, parse_float=decimal, parse_constant=lambda _: None)


def events_in(file):
    """The list of events that a file holds: alone, or as a member of an object. The end of a list
    may be missing, as of a program that was ended.
    """
    data = file.read(MAX_BYTES + 1)
    if len(data) > MAX_BYTES:
        raise Failure("nothing was converted: it has more than 1 GiB", NOTHING_CONVERTED)
    text = data.decode("utf-8", "replace").strip()
    for end in ("", "]", "}]"):
        try:
            found, after = DECODER.scan_once(text.rstrip(", \r\n\t") + end if end else text, 0)
        except (ValueError, StopIteration, RecursionError, InvalidOperation):
            continue
        if isinstance(found, dict):
            found = found.get("traceEvents")
        if isinstance(found, list):
            return found
    raise Failure(
        "nothing was converted: it isn't a list of trace events in JSON", NOTHING_CONVERTED
    )


class Threads:
    """The threads of all processes, each by a number of its own."""

    def __init__(self):
        self.numbers, self.owners = {}, {}
        self.first, self.last = {}, {}  # names of processes and threads: the first and the last

    def number(self, process, thread):
        """The number of a thread: its own, unless another process has a thread of that number."""
        if (process, thread) not in self.numbers:
            own = thread if type(thread) is int and 0 < thread < FIRST_OF_OTHERS else None
            if own is None or self.owners.setdefault(own, process) != process:
                own = FIRST_OF_OTHERS + len(self.numbers)
            self.numbers[process, thread] = own
        return self.numbers[process, thread]

    @staticmethod
    def name(names, process, thread):
        """The name of a thread's process, or of the thread if that has none."""
        return names.get((process,)) or names.get((process, thread))

    def take(self, event, process, thread):
        """Takes what an event says of names."""
        args = event.get("args")
        name = args.get("name") if isinstance(args, dict) else None
        of = {"process_name": (process,), "thread_name": (process, thread)}
        key = of.get(text_of(event.get("name")))
        if key and isinstance(name, str):
            self.first.setdefault(key, name)
            self.last[key] = name


class Reader:
    """The events of a recording, by their times."""

    def __init__(self, found, tool):
        self.found, self.tool, self.threads = found, tool, Threads()
        self.others, self.open = 0, {}

    def moments(self):
        """The places of events with what happens at each moment, by time. What happens at one
        moment stays in its order, but what ends a whole call comes before what begins.
        """
        order = []
        for place, event in enumerate(self.found, 1):
            try:
                order += self.moments_of(event, place)
            except BadEvent as why:
                yield place, why
        order.sort(key=lambda moment: moment[0])
        for (_, _, _, _), place, *moment in order:
            yield place, moment
        if self.others:
            self.tool.say(f"{OTHER}: {self.others:,}")

    def moments_of(self, event, place):
        """The moments of an event: one, or of a whole call two, each with what they are ordered by.
        """
        kind = event.get("ph") if isinstance(event, dict) else None
        if not isinstance(kind, str):
            raise BadEvent("it isn't a trace event, as it has no ph")
        thread = identity(event.get("pid")), identity(event.get("tid"))
        named = self.threads.name(self.threads.last, *thread)
        if kind == "M":
            self.threads.take(event, *thread)
            return []
        if kind not in (BEGINS, ENDS, WHOLE, *INSTANTS):
            self.others += 1
            return []
        time = nanoseconds(event.get("ts"))
        if kind != WHOLE:
            return [((time, 1, 0, place), place, kind, event, thread, named, time)]
        last = time + nanoseconds(event.get("dur", 0))
        if last == time:
            orders = (time, 1, 0, place), (time, 1, 0, place)
        else:  # what lasts longer begins before, and ends after
            orders = (time, 1, -last, place), (last, 0, -time, -place)
        return [
            (orders[0], place, BEGINS, event, thread, named, time),
            (orders[1], place, WHOLE, event, thread, named, last),
        ]

    def events(self, moment):
        """The event of a moment."""
        if isinstance(moment, BadEvent):
            raise moment
        kind, event, thread, named, time = moment
        name, group, args = text_of(event.get("name")), text_of(event.get("cat")), event.get("args")
        if kind == BEGINS:
            self.open.setdefault(thread, []).append((name, group))
        elif kind in (ENDS, WHOLE):
            begun = self.open[thread].pop() if self.open.get(thread) else (name, group)
            name, group = name or begun[0], group or begun[1]
        process = thread[0] if type(thread[0]) is int and 0 <= thread[0] <= MAX_NUMBER else 0
        probe = probe_of(kind, name, group, None if kind == WHOLE else args)
        number = self.threads.number(*thread)
        named = named or self.threads.name(self.threads.first, *thread) or "unknown"
        return [Event(named, number, process, 0, time, probe)]


def identity(value):
    """The number or the name of a process or a thread."""
    return value if isinstance(value, (int, str)) else None


def text_of(value):
    return value if isinstance(value, str) else ""


def nanoseconds(value):
    """A time in microseconds, whose fraction may have three digits, in nanoseconds."""
    if isinstance(value, str):
        try:
            value = decimal(value)
        except (InvalidOperation, ValueError):
            value = None
    if type(value) not in (int, Decimal) or not 0 <= value <= MAX_TIME // 1000:
        raise BadEvent("its time isn't a number of microseconds from 0 up")
    return int(value * 1000)


def probe_of(kind, name, group, args):
    """The probe of an event. One that a timeline of dreplay-show has gets its own again."""
    args = arguments(args)
    if kind in (BEGINS, ENDS, WHOLE):
        name_of = "entry" if kind == BEGINS else "return"
        return Probe(group or "event", name, name_of, args)
    if own := OF_A_TRACE.fullmatch(name):
        return Probe(own[1] or group or "event", own[3], own[4], args, module=own[2])
    return Probe(group or "event", name, "instant", args)


def arguments(args):
    """The whole numbers among the arguments of an event: `arg0` in its place, others in order."""
    if not isinstance(args, dict):
        return []
    placed, others = [None] * ARGS, []
    for name, value in args.items():
        found = ARGUMENT.fullmatch(name)
        value = int(value) if isinstance(value, bool) else value
        number = to_signed(value) if type(value) is int else None
        if found:
            placed[int(found[1])] = number
        elif type(value) is int:
            others.append(number)
    return placed if any(value is not None for value in placed) else others[:ARGS]
