"""What perf recorded: lines of 'perf script', or the events that perf's own Python interpreter
tells.
"""
import json
import mmap
import os
import re
import shutil
import struct
import subprocess
import tempfile

from .ends import Failure, shorten
from .fields import BadEvent, integer
from .tracepoints import Event, Lost, Probe, give_back, place_probe, probe_of, raw_call
from .trace import MAX_NUMBER, to_signed

NOTHING_CONVERTED = 3
NUMBERS = range(MAX_NUMBER + 1)  # of threads and processes
WORDS_OF_A_NAME, MAX_OF_A_RECORD, MAX_OF_A_FORMAT = 64, 100_000, 20_000
THREAD = re.compile(r"(-?\d{1,10})(?:/(-?\d{1,10}))?", re.ASCII)
CPU = re.compile(r"\[(\d{1,10})\]", re.ASCII)
TIME = re.compile(r"(\d{1,11})\.(\d{1,9}):", re.ASCII)
EVENT = re.compile(r"([\w-]{1,100}):([\w.-]{1,250}):", re.ASCII)
COUNTER = re.compile(r"[\w./,=-]{1,250}:(?:[ukhpPGHSDWIeb]{1,12}:)?", re.ASCII)
MODIFIERS = re.compile(r"[ukhpPGHSDWIeb]{1,12}", re.ASCII)
FRAME = re.compile(r"\s+[0-9a-f]{1,16} ", re.ASCII)
LOST = re.compile(r": PERF_RECORD_LOST(?:_SAMPLES)? lost (\d{1,20})$", re.ASCII)
WORD = re.compile(r"\S+")
FORMAT = re.compile(rb"name: ([\w.]{1,250})\nID: \d{1,9}\nformat:\n")
SIGNED_FIELD = re.compile(
    rb"\tfield:[^;\n]{0,200}?(\w{1,80});\toffset:\d{1,9};\tsize:([124]);\tsigned:1;"
)
TEXT_FIELDS = "comm,pid,tid,cpu,time,event,trace"
# Of a file of perf: its first numbers, of which the last are place and size of the records; what a
# record begins with, a number of 64 bits, and records of some kinds.
DATA, RECORD, NUMBER = struct.Struct("<7Q"), struct.Struct("<IHH"), struct.Struct("<Q")
LOST_EVENTS, LOST_SAMPLES, TRACING_DATA, AUXTRACE, BY_A_FILTER = 2, 13, 66, 71, 1 << 15
SIZE_IN_A_PIPE = 16  # of the header of a recording that perf wrote to a pipe


def events_of(line, names):
    """The event of a line of 'perf script'; no event of a line that is none and may be there."""
    if not line.strip() or line.startswith("#"):
        return []
    found = beginning(line)
    if not found:
        if lost := LOST.search(line):
            return [Lost(int(lost[1]))]
        if FRAME.match(line) and line.rstrip().endswith(")"):
            return []  # of a stack. A name such as dd has the digits of an address, too
        raise BadEvent("it isn't an event of a tracepoint or a probe")
    name, first, second, cpu, time, event, rest = found
    system, function = EVENT.fullmatch(event).groups() if EVENT.fullmatch(event) else ("", "")
    if not system or MODIFIERS.fullmatch(function):
        raise BadEvent(f"it is a sample of {shorten(event[:-1])}, and no tracepoint")
    probe = probe_of(system, function, rest.strip(), names)
    thread, process = (int(first), None) if second is None else (int(second), int(first))
    if thread < 0:  # it has ended
        own = "pid" if function == "sched_stat_runtime" else "prev_pid"
        thread = integer(probe.fields.get(own, ""))
        if thread is None or thread < 0:
            raise BadEvent("its thread had ended, and perf doesn't tell its number")
        name = probe.fields.get("prev_comm", name)
    process = None if process is None or process < 0 else process
    return [Event(name, thread, process, cpu, time, probe)]


def beginning(line):
    """The command, its one number or two, the processor, the time, the event and the rest of a
    line.
    """
    words = []
    for word in WORD.finditer(line):
        words.append(word)
        if len(words) > WORDS_OF_A_NAME + 4:
            break
    for index in range(1, len(words) - 1):
        found = THREAD.fullmatch(words[index][0])
        after = index + 1
        cpu = CPU.fullmatch(words[after][0]) if found else None
        after += cpu is not None
        time = TIME.fullmatch(words[after][0]) if found and after < len(words) else None
        if not time:
            continue
        after += 1
        if after + 1 < len(words) and words[after][0].isdigit():
            after += 1  # how many events there were
        if after < len(words) and is_event(words[after][0]):
            name = line[words[0].start() : words[index - 1].end()]
            event = words[after]
            return (
                name,
                *found.groups(),
                int(cpu[1]) if cpu else 0,
                nanoseconds(time),
                event[0],
                line[event.end() :],
            )
    return None


def is_event(word):
    return bool(EVENT.fullmatch(word) or COUNTER.fullmatch(word))


def nanoseconds(found):
    return int(found[1]) * 10**9 + int(found[2].ljust(9, "0"))


# -- perf's own interpreter


def events_of_record(line, names, signs):
    """The event of a line of recorders/perf.py, which is an object of JSON."""
    try:
        record = json.loads(line) if len(line) <= MAX_OF_A_RECORD else None
        if "counter" in record:
            raise BadEvent(
                f"it is a sample of {shorten(str(record['counter']))}, and no tracepoint"
            )
        if "end" in record:
            return []
        system, _, function = text_of(record["event"]).partition(":")
        thread, process, cpu, time = (whole(record[key]) for key in ("tid", "pid", "cpu", "time"))
        name, fields, args = text_of(record["comm"]), record["fields"], record.get("args")
        fields = {
            key: with_sign(plain(value), signs.get((function, key)))
            for key, value in fields.items()
        }
        probe = probe_of_fields(system, function, fields, args, names)
    except (ValueError, KeyError, TypeError, AttributeError, RecursionError):
        raise BadEvent("it isn't a record of recorders/perf.py")
    return [Event(name, thread, process if process in NUMBERS else None, cpu, time, probe)]


def whole(value):
    """A number that has no fraction."""
    if type(value) is not int:
        raise TypeError
    return value


def text_of(value):
    """A text, which has to have bytes."""
    value.encode("utf-8", "surrogateescape")
    return value


def plain(value):
    """A field's value: a number of 64 bits or a text; none for all else."""
    if type(value) is str:
        return text_of(value)
    return value if type(value) is int and to_signed(value) is not None else None


def with_sign(value, size):
    """A field's value. perf tells a negative one of less than 64 bits without its sign."""
    if size and type(value) is int and value >= 1 << (8 * size - 1):
        return value - (1 << 8 * size)
    return value


def probe_of_fields(system, function, fields, args, names):
    """The probe of an event by its fields, which are numbers and texts."""
    number = fields.pop("__syscall_nr", fields.get("id"))
    if system == "raw_syscalls" and isinstance(number, int):
        if function == "sys_enter":
            return raw_call(number, "entry", [bound(value) for value in args or []], names)
        return raw_call(number, "return", give_back(bound(fields.get("ret", 0))), names)
    if system == "syscalls" and function.startswith("sys_enter_"):
        return Probe(
            "syscall", function[len("sys_enter_") :], "entry", list(map(bound, fields.values()))
        )
    if system == "syscalls" and function.startswith("sys_exit_"):
        return Probe(
            "syscall",
            function[len("sys_exit_") :],
            "return",
            give_back(bound(fields.get("ret", 0))),
        )
    for address in ("__probe_ip", "__probe_func", "__probe_ret_ip"):
        fields.pop(address, None)
    return place_probe(system, function, "", list(map(bound, fields.values())), fields)


def bound(value):
    """A field's value as an argument; none for a text."""
    return to_signed(value) if type(value) is int else None


def signs_of(file):
    """The size of each signed field of less than 64 bits, by event and field, as the recording's
    formats have it.
    """
    signs, doubtful = {}, set()
    with mmap.mmap(file.fileno(), 0, access=mmap.ACCESS_READ) as whole:
        for found in FORMAT.finditer(whole):
            text = whole[found.end() : found.end() + MAX_OF_A_FORMAT].partition(b"\nprint fmt")[0]
            own = {name.decode(): int(size) for name, size in SIGNED_FIELD.findall(text)}
            event = found[1].decode()
            if signs.setdefault(event, own) != own:
                doubtful.add(event)  # two groups have an event of this name
    known = ((event, own) for event, own in signs.items() if event not in doubtful)
    return {(event, name): size for event, own in known for name, size in own.items()}


def lost_of(file):
    """How many events a recording says were lost, by its records of that.

    A kernel of 6.0 or later has the sum of each event at the end as well, in records of samples.
    """
    in_gaps = in_sums = 0
    with mmap.mmap(file.fileno(), 0, access=mmap.ACCESS_READ) as whole:
        for kind, misc, place, size in records_of(whole):
            if kind == LOST_EVENTS and size >= 24:
                in_gaps += NUMBER.unpack_from(whole, place + 16)[0]
            elif kind == LOST_SAMPLES and size >= 16 and not misc & BY_A_FILTER:
                in_sums += NUMBER.unpack_from(whole, place + 8)[0]
    return max(in_gaps, in_sums)


def records_of(whole):
    """Kind, flags, place and size of each record of a recording."""
    if len(whole) < DATA.size:
        return
    _, size_of_header, _, _, _, place, size = DATA.unpack_from(whole)
    if size_of_header == SIZE_IN_A_PIPE:
        place, size = SIZE_IN_A_PIPE, 0
    end = min(place + size if size else len(whole), len(whole))
    while place + RECORD.size + NUMBER.size <= end:
        kind, misc, size = RECORD.unpack_from(whole, place)
        if size < RECORD.size:
            return
        yield kind, misc, place, size
        if kind == AUXTRACE:  # its data follows
            size += NUMBER.unpack_from(whole, place + RECORD.size)[0]
        elif kind == TRACING_DATA:  # likewise, up to a multiple of 8 bytes
            size += -(-(NUMBER.unpack_from(whole, place + RECORD.size)[0] & 0xFFFFFFFF) // 8) * 8
        place += size


def recorder():
    """Where recorders/perf.py is, beside the tools' modules."""
    return os.path.join(
        os.path.dirname(os.path.dirname(os.path.realpath(__file__))), "recorders/perf.py"
    )


def records_or_text(file, tool):
    """What perf prints of a recording, as a file, and whether it has records or text.

    perf's interpreter ends where the name of a thread isn't UTF-8; the text that perf prints is
    taken then.
    """
    if not shutil.which("perf"):
        raise Failure(
            "perf is not installed; where it is, try 'perf script -i FILE "
            f"-F {TEXT_FIELDS} --ns --show-lost-events'"
        )
    records, _ = run_perf(file, "-s", recorder())
    if ended_well(records):
        return records, True
    text, why = run_perf(file, "-F", TEXT_FIELDS, "--ns")
    if not text.peek(1):
        raise Failure(
            f"nothing was converted: perf script tells nothing of it: {shorten(why)}",
            NOTHING_CONVERTED,
        )
    tool.say("perf's Python interpreter can't read it, so the text of perf script is taken")
    return text, False


def run_perf(file, *words):
    """What 'perf script' writes of a recording, as a file from its start, and its last line of
    complaint.
    """
    number = os.dup(file.fileno())  # perf's own standard input is another file
    words = ["perf", "script", "-f", "-i", f"/proc/self/fd/{number}", *words]
    out, said = tempfile.TemporaryFile(), tempfile.TemporaryFile()
    environment = {**os.environ, "PYTHONUTF8": "1", "PYTHONDONTWRITEBYTECODE": "1"}
    with subprocess.Popen(
        words,
        stdin=subprocess.DEVNULL,
        stdout=subprocess.PIPE,
        stderr=said,
        env=environment,
        pass_fds=[number],
    ) as child:
        shutil.copyfileobj(child.stdout, out, 1 << 20)
    os.close(number)
    out.seek(0)
    said.seek(0)
    lines = said.read(4096).decode("utf-8", "replace").splitlines()
    return out, next((line for line in lines if line and "Ignoring" not in line), "no reason")


def ended_well(records):
    """Whether records are complete: the last one is the end."""
    size = records.seek(0, os.SEEK_END)
    records.seek(max(0, size - 100))
    last = records.read().rstrip(b"\n").rpartition(b"\n")[2]
    records.seek(0)
    return last.startswith(b'{"end":')
