"""The frequent lines of strace, read by pieces of a recording: what a line says that no line before
its piece can change. Several processes may read pieces side by side.

Lines in succession are read as a run: their threads, their rows, and the rows of their returns. Of
a row all but what is before its time is there.

- A call on one line has both rows.
- A call's first or second line has one row, where both are in the piece. What its thread had begun
  in an earlier piece may end by the first one: then (row,) is in its place.
- A call's first line, whose second one is elsewhere, has (name, shown, time).

A second line whose first one is elsewhere is (thread, name, shown, values, took, line), and all
other lines are given as they are.
"""
import re

from . import strace
from .ahead import thread_of
from .errors import RETURNED
from .strace import SYMBOL
from .trace import ARGS, MAX_TIME

RESULT = (
    r"\) += (0|-?[1-9]\d{0,17}|0x[0-9a-f]{1,15})(?: (E[A-Z0-9_]+) \([^()]*\))?"
    r"(?: <(\d{1,9})\.(\d{6}|\d{9})>)?"
)
EVENT = (
    rf"(?:({strace.NAME})\(|<\.\.\. ({strace.NAME}) resumed>)"
    rf"(.*)(?:{RESULT}|(<unfinished \.\.\.>))\n"
)
TEXT_CONSTANT = re.compile(r'"(?:[^"\\]|\\.)*(?:"|\\?$)')
MAX_KNOWN = 100_000  # texts that are remembered
MAX_NESTED = 8  # brackets in brackets, of an argument list that is read in the quick way
INNERMOST = re.compile(r"[(\[{][^()\[\]{}]*[)\]}]")
SPECIAL = strace.BIRTHS | set(strace.PROGRAMS)
COMMAS = ["," * (ARGS - max(count, 1)) for count in range(ARGS + 1)]
NOTHING_BEGUN = [(None, "", 0)], 0, False  # where its row is, and whether it may end an earlier one
NANOSECONDS = {6: "000", 9: ""}  # what follows a fraction, by the number of its digits


class Arguments(dict):
    """The fields of arguments as they are shown, worked out once and remembered for a while."""

    def __missing__(self, shown):
        if len(self) > MAX_KNOWN:
            self.clear()
        value = self[shown] = strace.argument(shown)
        return value

    def columns(self, shown):
        """The ten columns of an argument list."""
        plain = shown
        if '"' in plain:
            plain = TEXT_CONSTANT.sub("_", plain)
        for _ in range(MAX_NESTED):
            if not ("{" in plain or "[" in plain or "(" in plain):
                break
            plain, changes = INNERMOST.subn("_", plain)
            if not changes:
                return self.careful(shown)
        if '"' in plain or "<" in plain or "/*" in plain or "{" in plain or "[" in plain:
            return self.careful(shown)
        return self.join(plain.split(", ")) if plain else COMMAS[0]

    def careful(self, shown):
        """The same, of one that has comments or names of files in it, or isn't closed."""
        return self.join(strace.split(shown)[0])

    def join(self, args):
        return ",".join([self[arg.strip()] for arg in args[:ARGS]]) + COMMAS[min(len(args), ARGS)]


class Lists(dict):
    """The columns of argument lists, remembered likewise."""

    def __init__(self):
        super().__init__()
        self.columns = Arguments().columns

    def __missing__(self, shown):
        if len(self) > MAX_KNOWN:
            self.clear()
        value = self[shown] = self.columns(shown)
        return value


class Returned(dict):
    """What calls returned, as columns, by their result and error; none if the error has no
    known number.
    """

    def __missing__(self, result_and_error):
        if len(self) > MAX_KNOWN:
            self.clear()
        result, error = result_and_error
        number = RETURNED.get(error)
        if not error:
            result = int(result, 16) if result[:2] == "0x" else result
            value = f"{result},{result},,,,,,,,"
        else:
            value = f"-1,{number},,,,,,,," if number and result == "-1" else None
        self[result_and_error] = value
        return value


class Reader:
    """Reads pieces of a recording whose lines begin with a thread and a time since 1970, of which
    `zero` is taken off.
    """

    IN_RUN = "in a run"

    def __init__(self, shape, zero):
        self.lines = re.compile(shape.quick_prefix + EVENT + r"|(.+\n?|\n)", re.ASCII).finditer
        self.zero, self.lists, self.returned = zero, Lists(), Returned()

    def read(self, text):
        """The lines of a piece as they are read, how many returns have no duration, how many calls
        have arguments that aren't integers, and the line of the first of these with what it shows.
        """
        self.items, self.run, self.opened, self.ended = [], None, {}, {}
        self.line, self.undated, self.symbols, self.first_symbol = 0, 0, 0, None
        for found in self.lines(text):
            self.line += 1
            item = self.item(found, *found.groups())
            if item is not self.IN_RUN:
                self.items.append(item or self.other(found[0]))
                self.run = None
        return self.items, self.undated, self.symbols, self.first_symbol

    def item(self, found, thread, seconds, fraction, name, resumed, shown, result, *rest):
        """A line as it is read; none if it isn't, and IN_RUN if it is one of a run."""
        error, took, took_fraction, unfinished, _ = rest
        zeros = NANOSECONDS.get(len(fraction)) if fraction else None
        if zeros is None or name in SPECIAL or resumed in SPECIAL:
            return None
        time = int(seconds + fraction + zeros) - self.zero
        if unfinished:
            return self.begin(thread, name, shown, time)
        values = self.returned[result, error]
        if values is None or (took and len(took_fraction) != len(fraction)):
            return None
        length = int(took + took_fraction + zeros) if took else None
        if not resumed:
            return self.whole(thread, name, shown, values, time, length)
        if self.is_joined(thread, resumed, shown, values, length):
            return self.IN_RUN
        return thread, resumed, shown, values, length, found[0]

    def add(self, thread, row, back=None):
        """Adds a line to the run."""
        if self.run is None:
            self.run = [], [], []
            self.items.append(self.run)
        threads, rows, returns = self.run
        threads.append(thread)
        rows.append(row)
        returns.append(back)
        return self.IN_RUN

    def whole(self, thread, name, shown, values, time, took):
        """A call on one line; none if its line has to be read otherwise."""
        back = time if took is None else time + took
        if time < 0 or back > MAX_TIME or " resumed>" in shown:  # another line begins in it
            return None
        if took is None:
            self.undated += 1
        columns = self.lists[shown]
        if SYMBOL in columns:
            columns = self.without_symbols(columns, shown)
        row = f"{time},syscall,,{name},entry,{columns}\n"
        return self.add(thread, row, f"{back},syscall,,{name},return,{values}\n")

    def other(self, line):
        """A line that isn't read here. What its thread has begun isn't joined over it."""
        thread = thread_of(line)
        self.opened.pop(thread, None)
        self.ended.pop(thread, None)
        if "superseded" in line:  # by another thread's program
            self.opened.clear()
            self.ended.clear()
        return line

    def begin(self, thread, name, shown, time):
        """A call that begins; none if its line has to be read otherwise."""
        if name is None or not 0 <= time <= MAX_TIME:
            return None
        shown = shown[:-1] if shown.endswith(" ") else shown
        self.add(thread, (name, shown, time))
        is_first = thread in self.opened or thread not in self.ended
        self.opened[thread] = self.run[1], len(self.run[1]) - 1, is_first
        return self.IN_RUN

    def is_joined(self, thread, name, shown, values, took):
        """Joins a call's second line to the first one. Returns whether that is in the piece."""
        rows, place, is_first = self.opened.pop(thread, NOTHING_BEGUN)
        begun, first, time = rows[place]
        back = time + (took or 0)
        if begun != name or back > MAX_TIME:
            self.ended.pop(thread, None)
            return False
        self.undated += took is None
        columns = self.lists[first + shown]
        if SYMBOL in columns:
            columns = self.without_symbols(columns, first + shown)
        row = f"{time},syscall,,{name},entry,{columns}\n"
        rows[place] = (row,) if is_first else row
        self.ended[thread] = True
        self.add(thread, f"{back},syscall,,{name},return,{values}\n")
        return True

    def without_symbols(self, columns, shown):
        """Columns in which the arguments that aren't integers are empty."""
        self.symbols += 1
        self.first_symbol = self.first_symbol or (self.line, shown)
        return columns.replace(SYMBOL, "")
