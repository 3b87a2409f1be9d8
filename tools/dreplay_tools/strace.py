"""Lines of strace: how they begin, and the calls that they show."""
import os
import re

from .errors import RETURNED
from .trace import MAX_NUMBER, text, to_signed

NAME = r"[a-z_][a-z0-9_]{0,80}"  # of a system call
CALL = re.compile(rf"({NAME})\(")
RESUMED = re.compile(rf"<\.\.\. ({NAME}) resumed>")
UNFINISHED = re.compile(r" ?<(?:unfinished|detached) \.\.\.>$")
SUPERSEDED = re.compile(r"\+\+\+ superseded by execve in pid (\d+)(?:<.*>)? \+\+\+$", re.ASCII)
ENDED = re.compile(r"\+\+\+ (?:exited|killed) .*\+\+\+$")
SIGNAL = re.compile(r"--- .* ---$")

# The pieces of an argument list: a text, a comment, what -y shows after a descriptor, a bracket or
# comma, and all else. A text or comment that isn't closed takes all the rest, so that no byte is
# looked at twice.
PIECE = re.compile(
    r'"(?:[^"\\]|\\.)*(?:"|\\?$)|/\*.*?(?:\*/|$)|(?<=\w)<(?:[^<>]|(?<=-)>)+>'
    r'|[()\[\]{},]|[^"/<()\[\]{},]+|.'
)
# Numbers of more digits than these aren't numbers of 64 bits.
NUMBER = re.compile(
    r"(-?)(?:0x([0-9a-f]{1,40})|(0[0-7]{0,40})|([1-9]\d{0,40}))(?![0-9a-zA-Z])", re.ASCII
)
ARGUMENT = re.compile(NUMBER.pattern + r"(?:<.*>.*)?\s*(?:/\*.*\*/)?$", re.ASCII)
RESULT = re.compile(r"\s*= (?:(\?)|" + NUMBER.pattern + r")", re.ASCII)
ERROR = re.compile(r" (?:(E[A-Z0-9_]+) \(|\(errno (\d{1,4})\))", re.ASCII)
# The number of a new thread outside of its namespace: strace --decode-pids=pidns.
OUTSIDE = re.compile(r"(?:<[^>]*>)? /\* (\d{1,10}) in strace's PID NS \*/", re.ASCII)
DURATION = re.compile(r" <(\d{1,9})\.(\d{1,9})>$", re.ASCII)
ESCAPE = re.compile(rb"\\(?:([0-7]{1,3})|x([0-9a-fA-F]{2})|(.))")
LETTERS = {b"n": b"\n", b"t": b"\t", b"r": b"\r", b"v": b"\v", b"f": b"\f"}
NAMED_FILE = re.compile(r"-?\d+<(/.*)>$")
HERE = re.compile(r"AT_FDCWD(?:<.*>)?$")  # the folder in which a call's path begins

BIRTHS = {"fork", "vfork", "clone", "clone2", "clone3"}
# The calls that begin a program, and the place of its path among their arguments.
PROGRAMS = {"execve": 0, "execveat": 1}

THREAD = r"([1-9]\d{0,9})(?: *<.*?>)? +"  # strace -Y shows the thread's name after its number
SMALL_THREAD = THREAD.replace("9}", "8}")  # one whose number is not too large
WITH_PID = r"(?:\[pid +([1-9]\d{0,9})(?:<.*?>)?\] )?"  # of what strace writes to a terminal
CLOCK = r"(\d{1,11})\.(\d{1,9})"
RELATIVE = r" *" + CLOCK
TIME_OF_DAY = r"(\d\d:\d\d:\d\d)\.(\d{1,9})"
# What -r, -n and -i add in front of the call.
NOTES = r"(?:\(\+ +\d+\.\d+\) )?(?:\[[ 0-9a-f?]+\] )*"
MIDNIGHT = 24 * 60 * 60 * 10**9
THE_THREAD = "1"  # of a recording that shows none, as that of strace without -f

BEGINNING = re.compile(r"\d{1,10}(?: +[\d.]*)?", re.ASCII)  # of a line, and no more
SYMBOL = "*"  # stands for an argument that isn't an integer, such as O_RDONLY


class BadLine(Exception):
    """A line that isn't one of strace's, or that was cut off."""


class CutOff(BadLine):
    """A line whose end is missing."""


def nanoseconds(seconds, fraction):
    return int(seconds) * 10**9 + int(fraction.ljust(9, "0"))


def integer(found):
    """The integer that NUMBER found, as a signed one of 64 bits; none if it takes more."""
    sign, hexadecimal, octal, decimal = found.groups()[-4:]
    value = int(hexadecimal, 16) if hexadecimal else int(octal, 8) if octal else int(decimal)
    return to_signed(-value if sign else value)


def argument(shown):
    """The integer that an argument shows; nothing for a text or structure, and SYMBOL for all else.
    """
    if shown == "NULL":
        return "0"
    found = ARGUMENT.match(shown)
    value = integer(found) if found else None
    if value is not None:
        return str(value)
    if HERE.match(shown):
        return "-100"
    return "" if not shown or shown[0] in '_"[{~.@<' else SYMBOL


def split(shown):
    """The arguments in 'ARG, ARG) = RESULT', and what follows them, none without a ')'."""
    args, start, depth = [], 0, 0
    for piece in PIECE.finditer(shown):
        mark = piece[0]
        if depth == 0 and mark in (",", ")"):
            args.append(shown[start : piece.start()].strip())
            start = piece.end()
            if mark == ")":
                return args, shown[start:]
        elif mark in ("(", "[", "{"):
            depth += 1
        elif mark in (")", "]", "}"):
            depth = max(0, depth - 1)
    return args + [shown[start:].strip()], None


def unescape(found):
    octal, hexadecimal, letter = found.groups()
    if letter is not None:
        return LETTERS.get(letter, letter)
    return bytes([int(octal, 8) & 255 if octal else int(hexadecimal, 16)])


class Call:
    """A system call: its name, what strace shows after it, and its arguments.

    `result` is none if it doesn't return, `error` the kernel's number if it failed, and
    `took` none if strace doesn't tell; `whole` is false if what is shown was cut off.
    """

    __slots__ = ("name", "shown", "args", "result", "error", "born", "took", "whole")

    def __init__(self, name, shown):
        self.name, self.shown = name, shown
        self.result = self.error = self.born = self.took = None
        self.args, rest = split(shown)
        found = RESULT.match(rest or "")
        self.whole = found is not None
        if found:
            self.read_result(found, rest[found.end() :])

    def read_result(self, found, rest):
        error = ERROR.match(rest)
        if found[1] is None:
            self.result = integer(found)
            if self.result is None:
                raise BadLine("its result takes more than 64 bits")
        elif error:
            self.result = -1  # a signal came between, and the call starts again
        if error and self.result == -1:
            self.error = -int(error[2]) if error[2] else RETURNED.get(error[1], error[1])
        outside = OUTSIDE.match(rest)
        self.born = int(outside[1]) if outside else self.result
        duration = DURATION.search(rest)
        self.took = nanoseconds(*duration.groups()) if duration else None

    def makes(self, flag, bit):
        """Whether a call that makes a thread or process does it with a flag, shown by its name or
        in a number.
        """
        bits = self.flags()
        return bool(bits & bit) if bits is not None else bool(re.search(rf"\b{flag}\b", self.shown))

    @property
    def makes_unknown(self):
        """Whether a call makes a thread or a process, and its arguments don't tell which."""
        return self.name == "clone3" and (self.born or 0) > 0 and "{" not in self.shown

    def flags(self):
        """The flags as a number, as strace -X raw and -e raw show them; none if they are names or
        aren't shown.
        """
        if not self.name.startswith("clone"):
            return None
        found = re.search(r"\bflags=(0x[0-9a-f]{1,16}|0)(?=[,}|)]|$)", self.shown)
        if found:
            return int(found[1], 16)
        return int(self.args[0], 16) if re.match(r"0x[0-9a-f]{1,16}$", self.args[0]) else None

    def program(self):
        """The name of the program that the call begins, the last part of its path; none for other
        calls.
        """
        place = PROGRAMS.get(self.name)
        if place is None or self.result != 0 or len(self.args) <= place:
            return None
        shown = self.args[place]
        if (
            shown == '""' and self.name == "execveat"
        ):  # the file is the descriptor's, which -y names
            file = NAMED_FILE.match(self.args[0])
            shown = f'"{file[1]}"' if file else ""
        if len(shown) < 3 or shown[0] != '"' or shown[-1] != '"':
            return None
        path = ESCAPE.sub(unescape, shown[1:-1].encode("utf-8", "surrogateescape"))
        return text(os.path.basename(path))


def cause_of(line):
    """Why a line doesn't begin as it has to."""
    if re.match(r"\[pid +\d+\]", line):
        return "it begins with [pid N]: record to a file (strace -o FILE)"
    if re.match(r"(?:\d+ +)?\d\d:\d\d:\d\d ", line) or re.match(r"(?:\d+ +)?\d{9,} ", line):
        return "its time is in whole seconds: record with strace -f -ttt -T -o FILE"
    return "it doesn't begin with a thread and a time (strace -f -ttt -o FILE)"


class Shape:
    """How the lines of a recording begin: with a thread or not, and by which clock."""

    def __init__(self, threads, clock):
        self.has_threads, self.has_dates = threads == THREAD, clock is CLOCK
        self.clock = clock
        rest = clock + " " + NOTES
        self.line = re.compile(threads + rest + "(.*)", re.ASCII)
        self.quick_prefix = SMALL_THREAD + rest
        self.latest, self.midnights = 0, 0
        self.on_terminal = Terminal() if threads == WITH_PID else None

    @staticmethod
    def of(line):
        """The shape of a line, or none."""
        clocks = (RELATIVE,) if Shape.is_relative(line) else (CLOCK, TIME_OF_DAY)
        for threads in (THREAD, WITH_PID):
            for clock in clocks:
                shape = Shape(threads, CLOCK if threads is THREAD and clock is RELATIVE else clock)
                found = shape.line.fullmatch(line)
                if found and begins_event(found[4]):
                    shape.clock = clock
                    shape.has_dates = clock is CLOCK
                    return shape
        return None

    @staticmethod
    def is_relative(line):
        """Whether a line has the time since the one before: strace -r pads its seconds to six
        columns.
        """
        found = re.match(r"(?:(\d+)(?:<.*?>)? |\[pid +\d+\] )?( *)(\d+)\.\d{3,9} ", line, re.ASCII)
        if not found:
            return False
        thread, spaces, seconds = found.groups()
        padding = len(spaces) - (max(0, 5 - len(thread)) if thread else 0)
        return padding > 0 and padding + len(seconds) == 6

    def read(self, line):
        """The thread, the time in nanoseconds and the event of a line."""
        found = self.line.fullmatch(line)
        if not found:
            raise (CutOff if BEGINNING.fullmatch(line) else BadLine)(cause_of(line))
        thread, time = found[1], self.time(found[2], found[3])
        if self.on_terminal:
            thread = self.on_terminal.thread(thread, found[4])
        if len(thread) == 10 and int(thread) > MAX_NUMBER:
            raise BadLine("the number of its thread is too large")
        return thread, time, found[4]

    def time(self, seconds, fraction):
        """A time in nanoseconds; of a time of day, since the midnight before the recording."""
        if self.has_dates:
            return nanoseconds(seconds, fraction)
        if self.clock is RELATIVE:  # since the line before
            self.latest += nanoseconds(seconds, fraction)
            return self.latest
        hours, minutes, rest = map(int, seconds.split(":"))
        time = nanoseconds((hours * 60 + minutes) * 60 + rest, fraction)
        if time < self.latest - MIDNIGHT // 2:
            self.midnights += 1
        self.latest = time
        return time + self.midnights * MIDNIGHT


class Terminal:
    """The threads of what strace writes to a terminal: it names a thread only while there are
    several.

    `first` is the number of the first thread, if the recording tells it further down.
    """

    ATTACHED = re.compile(r"strace: Process (\d{1,10}) attached", re.ASCII)
    CONTINUED = re.compile(r" ?<unfinished|[,)]")

    def __init__(self):
        self.first, self.alive = THE_THREAD, set()

    def mend(self, lines):
        """The lines, of which each that strace's own word on a new thread interrupts is whole, and
        before that word.
        """
        lines = iter(lines)
        for line in lines:
            at = line.rfind("strace: Process ") if line.endswith(" attached\n") else -1
            rest = next(lines, None) if at > 0 and self.ATTACHED.match(line, at) else None
            if rest is None:
                yield line
            elif self.CONTINUED.match(rest):
                yield line[:at] + rest
                yield line[at:]
            else:
                yield line
                yield rest

    def look(self, lines):
        """Looks for the first thread in all lines: it is the first that strace names and hasn't
        attached to.
        """
        born = set()
        for line in self.mend(lines):
            attached = self.ATTACHED.match(line)
            if attached:
                born.add(attached[1])
                continue
            found = re.match(WITH_PID, line, re.ASCII)
            if found[1] and found[1] not in born:
                self.first = found[1]
                break
        self.alive = {self.first}

    def takes(self, line):
        """Whether a line says that strace attached to a thread."""
        attached = self.ATTACHED.match(line)
        if attached:
            self.alive.add(attached[1])
        return bool(attached) or line.startswith("strace: ")

    def thread(self, shown, event):
        """The thread of a line: the one that it names, or the only one that is left, or the first.
        """
        thread = shown or (next(iter(self.alive)) if len(self.alive) == 1 else self.first)
        self.alive.add(thread)
        if ENDED.match(event):
            self.alive.discard(thread)
        return thread


def begins_event(event):
    return any(kind.match(event) for kind in (CALL, RESUMED, SIGNAL, SUPERSEDED, ENDED))
