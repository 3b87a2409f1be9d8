"""From the lines of strace to the rows of a trace."""
import io
import os

from . import strace
from .ahead import RUN, Ahead, count_of, is_run
from .ends import Failure, say_count, shorten
from .frequent_lines import SPECIAL, Arguments, Reader
from .paths import path_of
from .patterns import Names
from .pieces import Pieces
from .processes import Processes
from .strace import SYMBOL, BadLine, Call, CutOff
from .trace import MAX_TIME, Rows, field, text

BETWEEN_PROGRESS = 65536


class Wanted:
    """Which rows are wanted: those of some calls, from some time on."""

    def __init__(self, calls, since):
        self.since, self.first = since, None
        self.calls = Names(calls.split(",")) if calls else None
        self.all = self.calls is None and since is None

    def row(self, name, time):
        if self.first is None:
            self.first = time
        if self.since is not None and time - self.first < self.since:
            return False
        return self.calls is None or self.calls.has(name)


class Begun:
    """A call that hasn't returned: what is shown of it so far, and the time, the place and the
    columns of its entry's row. One that began before the recording has no time.
    """

    __slots__ = ("name", "shown", "time", "place", "columns")

    def __init__(self, name, shown, time=None, place=None, columns=""):
        self.name, self.shown, self.time = name, shown, time
        self.place, self.columns = place, columns


class Losses:
    """What a trace doesn't have of its recording, to be reported once."""

    def __init__(self):
        self.symbols = self.undated = self.unnamed_errors = self.unknown_births = 0
        self.first_error = self.first_birth = ""
        self.first_symbol = None, ""  # its line, and the argument

    def symbol(self, line, shown, calls=1):
        """Calls, the first of them on a line, that have an argument which isn't an integer."""
        self.symbols += calls
        if self.first_symbol[0] is None or line < self.first_symbol[0]:
            args = strace.split(shown)[0]
            first = next((arg for arg in args if strace.argument(arg) == SYMBOL), "")
            self.first_symbol = line, shorten(first, 40)

    def error(self, line, name):
        self.unnamed_errors += 1
        if self.unnamed_errors == 1:
            self.first_error = f"line {line}: {shorten(name, 40)}"

    def birth(self, line):
        self.unknown_births += 1
        if self.unknown_births == 1:
            self.first_birth = f"line {line}"

    def warnings(self):
        """A line for each kind."""
        if self.symbols:
            calls = say_count(self.symbols, "call has", "calls have")
            line, argument = self.first_symbol
            yield (
                f"{calls} arguments that aren't integers (line {line}: {argument}); these are "
                "empty, which reads as 0: dreplay-record keeps numbers, and so does strace "
                "-e raw='!execve,clone,clone3'"
            )
        if self.undated:
            returns = say_count(self.undated, "return has", "returns have")
            yield f"no durations (strace -T): {returns} the time of the entry"
        if self.unnamed_errors:
            calls = say_count(self.unnamed_errors, "failed call has", "failed calls have")
            yield f"{calls} an error without a known number ({self.first_error}): arg1 is -1"
        if self.unknown_births:
            calls = say_count(self.unknown_births, "call", "calls")
            yield (
                f"{calls} made a thread or a process, which raw arguments don't tell "
                f"({self.first_birth}): it counts as a process"
            )


class Conversion:
    """A recording on its way to a trace: the rows so far, and for each thread the call that hasn't
    returned.
    """

    # So many skipped lines are named. A recording made with other options would have them all
    # skipped.
    most_named = 10

    def __init__(self, options, recording, shape, out, tool):
        self.processes = Processes(text(os.fsencode(options.name)))
        if options.threads:
            self.processes.read(options.threads)
        self.wanted, self.options = Wanted(options.only, options.since), options
        self.rows, self.shape, self.tool = Rows(out, options.rows), shape, tool
        self.size, self.done = os.fstat(recording.fileno()).st_size or 1, 0
        self.pending, self.arguments, self.losses = {}, Arguments(), Losses()
        self.understood = self.skipped = self.left_out = self.line = 0
        self.in_summary = False
        self.zero = None if options.from_zero else 0
        if shape.has_threads and shape.has_dates and options.from_zero:
            self.zero = first_time(recording, shape)
        read = self.read if self.has_frequent else self.as_they_are
        self.lines = Ahead(read(recording))

    @property
    def has_frequent(self):
        """Whether most lines can be read without those before them."""
        options, is_dated = self.options, self.shape.has_threads and self.shape.has_dates
        is_plain = self.wanted.all and not (options.rows or options.paths or options.ppid)
        return is_dated and is_plain and self.zero is not None

    def read(self, recording):
        """The lines, of which the frequent ones have been read."""
        pieces = Pieces(recording, Reader(self.shape, self.zero).read, self.options.jobs)
        lines = 0
        for items, undated, symbols, first_symbol in pieces:
            self.losses.undated += undated
            if symbols:
                line, shown = first_symbol
                self.losses.symbol(lines + line, shown, symbols)
            yield from items
            lines += sum(map(count_of, items))
            self.done += pieces.bytes

    def as_they_are(self, recording):
        lines = io.TextIOWrapper(
            recording, encoding="utf-8", errors="surrogateescape", newline="\n"
        )
        on_terminal = self.shape.on_terminal
        for line in on_terminal.mend(lines) if on_terminal else lines:
            self.done += len(line)
            yield line

    def run(self):
        """Converts all lines, or those that give as many rows as are wanted."""
        shown = 0
        for line in self.lines:
            self.line += 1
            if type(line) is str:
                self.take(line)
            elif len(line) == RUN:
                self.take_run(*line)
            else:
                self.take_resumed(*line)
            if self.line - shown > BETWEEN_PROGRESS:
                shown, done = self.line, min(self.done * 100 // self.size, 100)
                self.tool.progress(f"{shown:,} lines, {self.rows.number:,} rows, {done} %")
            if self.rows.full:
                self.left_out = sum(1 for _ in self.lines)
        for call in self.pending.values():
            self.complete(call, call.shown)
        if self.understood:
            self.rows.flush()

    def take(self, line):
        """Takes a line, or says why it is skipped."""
        try:
            shown = line.rstrip("\r\n")
            if not self.is_aside(shown):
                self.take_event(*self.shape.read(shown))
                self.understood += 1
        except BadLine as why:
            if self.in_summary:
                return
            if self.options.whole and isinstance(why, CutOff):
                raise Failure(f"strace couldn't write all of line {self.line}, as on a full disk")
            self.skipped += 1
            if self.skipped <= self.most_named:
                self.tool.say(f"line {self.line} skipped: {why}")

    # -- the frequent lines

    def take_run(self, threads, rows, returns):
        """Takes a run of lines that have been read, as `frequent_lines` has them."""
        heads, number, shown, before = self.processes.heads, self.rows.number, [], self.line - 1
        for index, (thread, row, back) in enumerate(zip(threads, rows, returns), 1):
            head = heads.get(thread) or self.processes.head(thread)
            if back is not None:
                number += 2
                shown.append(f"{number - 1}{head}{row}{number}{head}{back}")
                continue
            number += 1
            if type(row) is tuple:
                self.line = before + index
                self.forget(thread)
            if len(row) == 3 and type(row) is tuple:
                self.rows.number = number
                self.rows.put_all(shown)
                self.begin_read(thread, f"{number}{head}", *row)
                shown = []
            else:
                shown.append(f"{number}{head}{row if type(row) is str else row[0]}")
        self.rows.number, self.line = number, before + len(rows)
        self.understood += len(rows)
        self.rows.put_all(shown)

    def head_of(self, thread):
        """The columns in front of the time of a thread's row."""
        return self.processes.heads.get(thread) or self.processes.head(thread)

    def begin_read(self, thread, head, name, shown, time):
        place = self.rows.open_numbered()
        columns = f"{head}{time},syscall,,{name},entry,"
        self.pending[thread] = Begun(name, shown, time, place, columns)

    def take_resumed(self, thread, name, shown, values, took, line):
        """Takes a call's second line, or the line as it is where it isn't that of the first one."""
        call = self.pending.get(thread)
        if call is None or call.place is None or call.name != name:
            self.take(line)
            return
        back = call.time + (took or 0)
        if back > MAX_TIME:
            self.take(line)
            return
        self.understood += 1
        self.losses.undated += took is None
        head = self.head_of(thread)
        del self.pending[thread]
        columns = self.arguments.columns(call.shown + shown)
        if SYMBOL in columns:
            columns = self.without_symbols(columns, call.shown + shown)
        self.rows.close(call.place, f"{call.columns}{columns}\n")
        number = self.rows.number = self.rows.number + 1
        self.rows.put(f"{number}{head}{back},syscall,,{name},return,{values}\n")

    def head(self, thread, time):
        check_time(time)
        return self.head_of(thread)

    def without_symbols(self, columns, shown):
        """Columns of an argument list in which the arguments that aren't integers are empty."""
        self.losses.symbol(self.line, shown)
        return columns.replace(SYMBOL, "")

    # -- any line

    def is_aside(self, line):
        """Whether a line is what strace writes beside the calls: stacks (-k), data (-e write=), the
        head of the summary of -C, in which no further line is a call.
        """
        if line.startswith("% time "):
            self.in_summary = True
            return True
        on_terminal = self.shape.on_terminal
        return line.startswith((" > ", " | ")) or (
            on_terminal is not None and on_terminal.takes(line)
        )

    def take_event(self, thread, time, event):
        if self.zero is None:
            self.zero = time
        time -= self.zero
        if found := strace.CALL.match(event):
            self.entry(thread, time, found[1], event[found.end() :])
        elif found := strace.RESUMED.match(event):
            self.resumption(thread, time, found[1], event[found.end() :])
        elif found := strace.SUPERSEDED.match(event):
            self.forget(thread)
            if found[1] in self.pending:
                self.pending[thread] = self.pending.pop(found[1])
        elif strace.ENDED.match(event):
            self.forget(thread)
        elif not strace.SIGNAL.match(event):
            raise BadLine("it isn't a call, signal or exit")

    def entry(self, thread, time, name, shown):
        """A line that begins with a call: its entry, and its return where the line has it."""
        unfinished = strace.UNFINISHED.search(shown)
        if unfinished:
            self.forget(thread)
            self.pending[thread] = self.begin(thread, time, name, shown[: unfinished.start()])
            return
        call = Call(name, shown)
        if not call.whole:
            raise CutOff("it is cut off")
        check_time(time + (call.took or 0))
        self.birth(thread, call)
        self.row(thread, time, call, "entry", self.arguments_of(name, call.args))
        self.end(thread, time, call)

    def birth(self, thread, call):
        """Takes what a call's entry shows of programs and processes."""
        self.processes.enter(thread, call)
        if call.makes_unknown:
            self.losses.birth(self.line)

    def begin(self, thread, time, name, shown):
        """The entry of a call that breaks off. What makes processes is known at once, by a look
        ahead.
        """
        if name in SPECIAL:
            rest = self.lines.find(thread, lambda line: self.rest_of(line, thread, name))
            self.birth(thread, Call(name, shown + (rest or "")))
        begun = Begun(name, shown, time)
        if not self.rows.full and (self.wanted.all or self.wanted.row(name, time)):
            head = self.head(thread, time)
            begun.place = self.rows.open()
            module = self.module(name, strace.split(shown)[0])
            begun.columns = f"{self.rows.number}{head}{time},syscall,{module},{name},entry,"
        return begun

    def rest_of(self, line, thread, name):
        """What a line has of a thread's call, if it resumes it; the empty text if the thread has
        ended, or begins another one.
        """
        if type(line) is not str:
            return "" if is_run(line) else None
        found = self.shape.line.fullmatch(line.rstrip("\r\n"))
        if not found or found[1] != thread:
            return None
        resumed = strace.RESUMED.match(found[4])
        if resumed and resumed[1] == name:
            return found[4][resumed.end() :]
        return "" if strace.ENDED.match(found[4]) or strace.CALL.match(found[4]) else None

    def resumption(self, thread, time, name, shown):
        """A line that resumes a call. One that began before the recording has its return alone."""
        begun = self.pending.pop(thread, None)
        if begun and begun.name != name:
            self.complete(begun, begun.shown)
            begun = None
        begun = begun or Begun(name, "")
        unfinished = strace.UNFINISHED.search(shown)
        if unfinished:
            begun.shown += shown[: unfinished.start()]
            self.pending[thread] = begun
            return
        call = Call(name, begun.shown + shown)
        self.complete(begun, call.shown)
        if not call.whole:
            raise CutOff("it is cut off")
        self.end(thread, begun.time, call, time)

    def complete(self, begun, shown):
        """Writes the row of an entry, now that all is known that is shown of its arguments."""
        if begun.place:
            columns = self.arguments_of(begun.name, strace.split(shown)[0])
            thread = begun.columns.split(",", 3)[2]
            self.rows.close(begun.place, begun.columns + self.with_parent(thread, columns) + "\n")

    def forget(self, thread):
        """A thread's call that won't return."""
        begun = self.pending.pop(thread, None)
        if begun:
            self.complete(begun, begun.shown)

    def end(self, thread, began, call, seen=None):
        """The return of a call, which lasted as long as strace says. One that began before the
        recording returned when it was seen.
        """
        if call.result is None:
            return
        if began is None:
            time = seen
        else:
            self.losses.undated += call.took is None
            time = began + (call.took or 0)
        self.processes.leave(thread, call)
        error = call.result if call.error is None else call.error
        if isinstance(error, str):
            self.losses.error(self.line, error)
            error = -1
        self.row(thread, time, call, "return", f"{call.result},{error},,,,,,,,")

    def arguments_of(self, name, args):
        """The columns of a call's arguments. Those that make processes show names on purpose."""
        columns = self.arguments.join(args)
        if SYMBOL not in columns:
            return columns
        if name in SPECIAL:
            return columns.replace(SYMBOL, "")
        return self.without_symbols(columns, ", ".join(args))

    def row(self, thread, time, call, name, columns):
        if self.wanted.all or self.wanted.row(call.name, time):
            head, module = self.head(thread, time), self.module(call.name, call.args)
            columns = self.with_parent(thread, columns)
            self.rows.add(f"{head}{time},syscall,{module},{call.name},{name},{columns}")

    def module(self, name, args):
        """The column module: with --paths the first path of a call."""
        if not self.options.paths:
            return ""
        path = path_of(name, args)
        return field(text(path)) if path else ""

    def with_parent(self, thread, columns):
        """Columns of arguments, the last of them the parent's process where --ppid asks for it."""
        if not self.options.ppid:
            return columns
        return f"{columns.rpartition(',')[0]},{self.processes.parent(thread)}"


def first_time(recording, shape):
    """The time of the first line that has one, from which --from-zero counts."""
    start, time = recording.tell(), None
    for line in recording:
        try:
            time = shape.read(line.decode("utf-8", "surrogateescape").rstrip("\r\n"))[1]
            break
        except BadLine:
            pass
    recording.seek(start)
    return time


def check_time(time):
    if not 0 <= time <= MAX_TIME:
        raise BadLine(
            "its time is too large"
            if time > 0
            else "its time is before that of the first line, from which --from-zero counts"
        )
