"""Traces in the Common Trace Format, as babeltrace2 prints them: those of perf, and of LTTng."""
import os
import re
import shutil
import subprocess
import tempfile

from .ends import Failure, shorten
from .fields import BadEvent
from .ftrace import group_of
from .perf import probe_of_fields
from .trace import to_signed
from .tracepoints import Event

NOTHING_CONVERTED = 3
LINE = re.compile(
    r"\[(?:\d{4}-\d\d-\d\d )?(?:(\d\d):(\d\d):(\d\d)|(\d{1,11}))\.(\d{9})\] \([+?.\d]{1,40}\) "
    r"(?:[\w.-]{1,250} )?([\w:.-]{1,250}): \{"
)
FIELD = re.compile(r"([\w.]{1,80}) = ")
NUMBER = re.compile(r"-?0x[0-9A-Fa-f]{1,16}|-?\d{1,20}", re.ASCII)
TEXT = re.compile(r'"((?:[^"\\]|\\.)*)"')
ENUM = re.compile(r"\( .{1,200}? : container = (-?\d{1,20}) \)")
ITEM = re.compile(r"\[\d{1,6}\] = (-?0x[0-9A-Fa-f]{1,16}|-?\d{1,20}|[^,\]]{1,80})")
OWN = ("perf_", "common_", "packet_", "events_discarded")  # fields that say nothing of the event
THREAD, PROCESS, NAME = ("perf_tid", "vtid", "tid"), ("perf_pid", "vpid", "pid"), ("procname",)
# What LTTng calls fields that the kernel's own events have by other names.
RENAMED = {"prev_tid": "prev_pid", "next_tid": "next_pid"}
DISCARDED = re.compile(r"racer (?:may have )?discarded (?:(\d{1,15}) )?events?", re.ASCII)
MAX_SAID = 1 << 20
NO_THREAD = "it has no thread: lttng add-context -k -t tid -t pid -t procname (-u -t vtid -t vpid)"


class Lines:
    """Lines in their order: those of perf tell the names of threads."""

    def __init__(self, names):
        self.names, self.comms = names, {}

    def events(self, line):
        """The events of a line; none of an empty one."""
        if not line.strip():
            return []
        found = LINE.match(line)
        if not found:
            raise BadEvent("it isn't an event as babeltrace2 prints it")
        fields, arrays = fields_of(line, found.end())
        if found[6] == "perf_comm":
            self.comms[fields.get("tid")] = fields.get("comm")
        if found[6] == "perf_fork":
            self.comms[fields.get("tid")] = self.comms.get(fields.get("ptid"))
        if found[6].startswith("perf_"):
            return []  # what perf says of the recording itself
        thread, process, name = (take_first(fields, names) for names in (THREAD, PROCESS, NAME))
        cpu = take_first(fields, ("cpu_id",))
        if type(thread) is not int:
            raise BadEvent(NO_THREAD)
        name = name or self.comms.get(thread) or "unknown"
        process = process if type(process) is int else None
        probe = self.probe(found[6], fields, arrays)
        return [Event(str(name), thread, process, cpu or 0, nanoseconds(found), probe)]

    def probe(self, event, fields, arrays):
        """The probe of an event, which has its group in front where perf recorded it."""
        system, _, function = event.rpartition(":")
        for kind, marked in (("syscall_entry_", "sys_enter_"), ("syscall_exit_", "sys_exit_")):
            if not system and function.startswith(kind):
                system, function = "syscalls", marked + function[len(kind) :]
        system = system or group_of(function)  # LTTng writes no group of the kernel's events
        kept = {RENAMED.get(key, key): fields[key] for key in fields if not key.startswith(OWN)}
        kept.pop("_syscall_nr", None)
        return probe_of_fields(system, function, kept, arrays.get("args"), self.names)


def nanoseconds(found):
    """The time of a line: since 1970, or since midnight where it is a time of day."""
    hours, minutes, seconds, whole, fraction = found.groups()[:5]
    whole = int(whole) if whole else (int(hours) * 60 + int(minutes)) * 60 + int(seconds)
    return whole * 10**9 + int(fraction)


def take_first(fields, names):
    """The first field of some names, which is then none of the event's own."""
    return next((fields.pop(name) for name in names if name in fields), None)


def fields_of(line, place):
    """The fields of a line from a place on, those of structures too: numbers, texts, and none for
    what is neither; and the numbers of its arrays.
    """
    fields, arrays = {}, {}
    while found := FIELD.search(line, place):
        name, place = found[1], found.end()
        mark = line[place : place + 1]
        if mark == "[":
            end = line.find(" ]", place)
            end = len(line) if end < 0 else end
            arrays[name] = [number(item) for item in ITEM.findall(line, place + 1, end)]
            place, value = end, None
        elif mark == '"' and (text := TEXT.match(line, place)):
            place, value = text.end(), text[1]
        elif mark == "(" and (enum := ENUM.match(line, place)):
            place, value = enum.end(), number(enum[1])
        else:
            digits = NUMBER.match(line, place)
            value = number(digits[0]) if digits else None
        if mark != "{" and name not in fields:
            fields[name] = value
    return fields, arrays


def number(shown):
    """A number of 64 bits with its sign; none for all else."""
    if not NUMBER.fullmatch(shown):
        return None
    return to_signed(int(shown, 16 if "x" in shown else 10))


def run_babeltrace(folder):
    """What babeltrace2 prints of a folder, as a file, and how many events it says were lost, for
    each gap; none if it doesn't know.
    """
    if not shutil.which("babeltrace2"):
        raise Failure(
            "babeltrace2 is not installed: apt-get install babeltrace2, or what your system has for"
            " it"
        )
    out, said = tempfile.TemporaryFile(), tempfile.TemporaryFile()
    words = ["babeltrace2", "--clock-seconds", os.path.join(".", folder)]
    status = subprocess.call(words, stdin=subprocess.DEVNULL, stdout=out, stderr=said)
    said.seek(0)
    why = said.read(MAX_SAID).decode("utf-8", "replace").splitlines()
    if status:
        last = next((line for line in reversed(why) if line.strip()), "no reason")
        raise Failure(
            f"nothing was converted: babeltrace2 can't read it: {shorten(last, 300)}",
            NOTHING_CONVERTED,
        )
    out.seek(0)
    gaps = filter(None, map(DISCARDED.search, why))
    return out, [int(found[1]) if found[1] else None for found in gaps]
