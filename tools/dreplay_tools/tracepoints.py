"""Events of the kernel's tracer: what probe of a trace each is, with its arguments."""
import re
from dataclasses import dataclass, field

from .fields import BadEvent, Unreadable, hexadecimal, integer, read_assigned, read_named
from .trace import to_signed

CALL = re.compile(r"sys_(enter|exit)_(\w{1,80})", re.ASCII)
KERNEL_ERRORS = range(-4095, 0)
FUNCTION = r"([A-Za-z_.][\w.]{0,250})"
PROBE_ENTRY = re.compile(rf"\({FUNCTION}\+0x([0-9a-f]{{1,16}})/0x[0-9a-f]{{1,16}}\)", re.ASCII)
PROBE_RETURN = re.compile(rf"\([^\s+]{{1,250}}\+0x[0-9a-f/x]{{1,40}} <- {FUNCTION}\)", re.ASCII)
PROBE_ADDRESS = re.compile(r"\([0-9a-f]{1,16}(?: <- [0-9a-f]{1,16})?\)", re.ASCII)
RAW_ENTRY = re.compile(r"NR (-?\d{1,18}) \(([0-9a-f, ]*)\)$", re.ASCII)
RAW_RETURN = re.compile(r"NR (-?\d{1,18}) = (-?\d{1,20})$", re.ASCII)
BLOCK = re.compile(
    r"(\d{1,4}),(\d{1,7}) \w{0,10} (?:(\d{1,12}) )?(?:\([^)]{0,200}\) )?(\d{1,20}) \+ (\d{1,12}) "
    r"(?:[\w,]{1,40} )?\[(.{0,40})\]$",
    re.ASCII,
)
SWITCH = re.compile(
    r"(.{0,80}):(\d{1,10}) \[(-?\d{1,5})\] (\S{1,4}) ==> (.{0,80}):(\d{1,10}) \[(-?\d{1,5})\]$",
    re.ASCII,
)
WAKEUP = re.compile(
    r"(.{0,80}):(\d{1,10}) \[(-?\d{1,5})\](?: success=(\d))? CPU:(\d{1,5})$", re.ASCII
)
# Why a thread leaves its processor, as the kernel numbers it; + is that it was interrupted.
STATES = {"R": 0, "S": 1, "D": 2, "T": 4, "t": 8, "X": 16, "Z": 32, "P": 64, "I": 128, "K": 0}
INTERRUPTED = 256
DEVICE_BITS = 20


@dataclass
class Probe:
    """The names of a probe, and its arguments: integers, and none for what isn't an integer.

    `lacking` says why arguments are missing that the event has.
    """

    provider: str
    function: str
    name: str
    args: list = field(default_factory=list)
    module: str = ""
    fields: dict = field(default_factory=dict)
    lacking: str = ""


@dataclass
class Lost:
    """How many events the recorder has lost; none if it doesn't say how many."""

    count: int = None


@dataclass
class Event:
    """An event: where and when it was, and its probe. The process may be unknown, and of an ended
    thread the thread.
    """

    name: str
    thread: int
    process: int
    cpu: int
    time: int
    probe: Probe


def give_back(value):
    """The arguments of a return: -1 for a failure, and the kernel's own number, which tells the
    error.
    """
    return [-1 if value in KERNEL_ERRORS else value, value]


def call_of(event, rest):
    """A system call's probe by its text."""
    call = CALL.fullmatch(event)
    if not call:
        return None
    if call[1] == "enter":
        args = read_named(rest)
        lacking = "an argument isn't a hexadecimal number" if None in args else ""
        return Probe("syscall", call[2], "entry", args, lacking=lacking)
    value = hexadecimal(rest.strip())
    if value is None:
        raise BadEvent("what the call returned isn't a hexadecimal number")
    return Probe("syscall", call[2], "return", give_back(value))


def raw_call_of(event, rest, names):
    """The probe of raw_syscalls by its text, which has the call's number."""
    found = RAW_ENTRY.match(rest) if event == "sys_enter" else RAW_RETURN.match(rest)
    if not found:
        raise BadEvent("it doesn't have the number of a call and its arguments")
    number = int(found[1])
    if event == "sys_enter":
        args = [hexadecimal(value.strip()) for value in found[2].split(",")]
        return raw_call(number, "entry", args, names)
    return raw_call(number, "return", give_back(to_signed(int(found[2]))), names)


def raw_call(number, name, args, names):
    """A system call by its number. One that has no name is shown by the number."""
    return Probe("syscall", names.get(number, str(number)), name, args)


def probe_of(system, event, rest, names):
    """The probe of an event by its text. What system is empty is not known."""
    if system in ("syscalls", "") and (call := call_of(event, rest)):
        return call
    if system == "raw_syscalls" and event in ("sys_enter", "sys_exit"):
        return raw_call_of(event, rest, names)
    try:
        fields, lacking = fields_of(event, rest), ""
    except Unreadable as why:
        fields, lacking = {}, str(why)
    args = [integer(value) for value in fields.values()]
    if any(arg is None and value.isdigit() for arg, value in zip(args, fields.values())):
        lacking = "a number takes more than 64 bits"
    probe = place_probe(system, event, rest, args, fields)
    probe.lacking = lacking
    return probe


def place_probe(system, event, rest, args, fields):
    """A probe with its names: of functions of the kernel and of programs, or a tracepoint."""
    if found := PROBE_RETURN.match(rest):
        return Probe("fbt", found[1], "return", args)
    if found := PROBE_ENTRY.match(rest):
        name = "entry" if int(found[2], 16) == 0 else found[2]
        return Probe("fbt", found[1], name, args)
    function, mark, _ = event.partition("__return")
    name = "return" if mark else "entry"
    if system in ("probe", "kprobes"):
        return Probe("fbt", function, name, args)
    if system.startswith("probe_"):
        return Probe("pid", function, name, args, module=system[len("probe_") :])
    return Probe(system or "tracepoint", event, "tracepoint", args, fields=fields)


def fields_of(event, rest):
    """The fields of an event, from its text; some events have a form of their own."""
    rest = rest.strip()
    if event.startswith("block_") and (found := BLOCK.match(rest)):
        return block_fields(found)
    if event == "sched_switch" and (found := SWITCH.match(rest)):
        names = (
            "prev_comm",
            "prev_pid",
            "prev_prio",
            "prev_state",
            "next_comm",
            "next_pid",
            "next_prio",
        )
        return dict(zip(names, found.groups()))
    if event in ("sched_wakeup", "sched_waking", "sched_wakeup_new") and (
        found := WAKEUP.match(rest)
    ):
        return {"comm": found[1], "pid": found[2], "prio": found[3], "target_cpu": found[5]}
    fields = read_assigned(rest)
    address = PROBE_ENTRY.match(rest) or PROBE_RETURN.match(rest) or PROBE_ADDRESS.match(rest)
    if not fields and rest[address.end() if address else 0 :].strip():
        raise Unreadable("its fields aren't in the form NAME=VALUE")
    return fields


def block_fields(found):
    """The fields of an event of a disk, in the kernel's order: device, sector, sectors, and bytes
    or the error.
    """
    major, minor, size, sector, sectors, last = found.groups()
    fields = {
        "dev": str(int(major) << DEVICE_BITS | int(minor)),
        "sector": sector,
        "nr_sector": sectors,
    }
    if size is not None:
        fields["bytes"] = size
    elif integer(last) is not None:
        fields["error"] = last
    return fields


def switches(event):
    """The two firings that a switch is beside its own: a thread leaves the processor, and one
    comes.

    They are of the threads that leave and come; one that is none (an idle processor) has no firing.
    """
    fields, state = event.probe.fields, state_of(event.probe.fields.get("prev_state"))
    leaves, comes = number_of(fields.get("prev_pid")), number_of(fields.get("next_pid"))
    if leaves is None or comes is None:
        return
    off = Probe("sched", "", "off-cpu", [comes, state])
    on = Probe("sched", "", "on-cpu", [leaves])
    process = event.process if event.thread == leaves else None
    if leaves != 0:
        yield Event(name_of(fields.get("prev_comm")), leaves, process, event.cpu, event.time, off)
    if comes != 0:
        yield Event(name_of(fields.get("next_comm")), comes, None, event.cpu, event.time, on)


def name_of(value):
    return value if isinstance(value, str) else ""


def number_of(value):
    return value if isinstance(value, int) else integer(value or "")


def state_of(value):
    """The state of a thread that leaves its processor: the kernel's number, or the letters that
    stand for it.
    """
    if isinstance(value, int):
        return value
    if not value:
        return None
    state = 0
    for letter in value.replace("|", ""):
        if letter not in STATES and letter != "+":
            return integer(value)
        state |= INTERRUPTED if letter == "+" else STATES[letter]
    return state
