"""Where the rows of a trace go: standard output, a file, or several files by thread."""
import contextlib
import os
import shutil
import stat
import sys
import tempfile

from .ends import Failure
from .trace import HEADER, MAX_ROWS


UMASK = os.umask(0)
os.umask(UMASK)
COPIED = 1 << 20  # bytes of a trace at a time
MAX_OF_A_NAME = 50  # letters of a file's name in that of an unfinished one


def is_regular(path):
    """Whether a path leads to a regular file that still has a name."""
    return os.path.isfile(os.path.realpath(path))


class Replaced:
    """A file that takes its place only when all of it is there, with the mode of the one that it
    replaces. What isn't a regular file, such as a pipe, is written as it is. A link stays, as
    /dev/stdout is one.
    """

    def __init__(self, path, mode="wb", **how):
        self.path, self.part = os.path.realpath(path), None
        in_place = not path or (os.path.exists(path) and not is_regular(path))
        try:
            self.file = open(path if in_place else self.open_file(), mode, **how)
        except OSError as why:
            self.abandon()
            why.filename = path
            raise

    def open_file(self):
        """A new file beside the one that it will replace, which no other run has."""
        folder, name = os.path.split(self.path)
        number, self.part = tempfile.mkstemp(".part", f"{name[:MAX_OF_A_NAME]}.", folder)
        try:
            replaced = os.stat(self.path)
        except FileNotFoundError:
            os.fchmod(number, 0o666 & ~UMASK)
        else:
            with contextlib.suppress(PermissionError):  # another's file becomes one's own
                os.fchown(number, replaced.st_uid, replaced.st_gid)
            os.fchmod(number, stat.S_IMODE(replaced.st_mode) & 0o777)
        return number

    def keep(self):
        """Ends a file that is complete."""
        self.file.close()
        if self.part:
            os.replace(self.part, self.path)
            self.part = None

    def abandon(self):
        """Ends a file that isn't complete. One that was to be replaced stays as it was."""
        part, self.part = self.part, None
        if part:
            with contextlib.suppress(FileNotFoundError):
                os.unlink(part)

    def __enter__(self):
        return self.file

    def __exit__(self, kind, *_):
        try:
            if kind is None:
                self.keep()
        finally:
            self.abandon()


@contextlib.contextmanager
def name_file(path):
    """Says of an error of the system which file it is about."""
    try:
        yield
    except OSError as why:
        why.filename = why.filename or path
        raise


def end_of(file):
    """The place of a file where it ends, if what is written there can be taken back; else none."""
    with contextlib.suppress(OSError):
        place, status = file.tell(), os.fstat(file.fileno())
        if stat.S_ISREG(status.st_mode) and status.st_size == place:
            return place
    return None


class Sink:
    """A trace as it is written: to a file, or to standard output."""

    def __init__(self, path=None):
        self.path, self.rows, self.begun = path, 0, False
        self.replaced = None if path is None else Replaced(path)
        self.file = self.replaced.file if self.replaced else sys.stdout.buffer

    def write(self, shown):
        """Writes rows as they are shown."""
        head = "" if self.begun else HEADER + "\n"
        self.begun = True
        rows = "".join(shown)
        self.rows += rows_in(rows)
        with name_file(self.path):
            self.file.write((head + rows).encode("utf-8"))

    def fill(self, write):
        """Has `write` write the whole trace, with its header, to a file. Returns whether it did;
        what it wrote otherwise is taken back.
        """
        place = end_of(self.file)
        if place is not None:
            self.begun = write(self.file)
            if not self.begun:
                self.file.seek(place)
                self.file.truncate()
            return self.begun
        with tempfile.TemporaryFile() as file:
            self.begun = write(file)
            if self.begun:
                file.seek(0)
                with name_file(self.path):
                    shutil.copyfileobj(file, self.file, COPIED)
        return self.begun

    def keep(self):
        """Ends a trace that is complete."""
        self.write([])
        with name_file(self.path):
            if self.replaced:
                self.replaced.keep()
            else:
                self.file.flush()

    def abandon(self):
        """Ends a trace that isn't complete."""
        if self.replaced:
            self.replaced.abandon()


class Output:
    """A trace, in one piece or cut by thread into parts: no firing depends on another thread."""

    def __init__(self, path=None, parts=None):
        path = None if path in (None, "-") else path
        self.parts, self.part_of = [], {}
        try:
            for name in [path] if parts is None else part_names(path, parts):
                self.parts.append(Sink(name))
        except OSError:
            self.abandon()
            raise
        self.dealt = dict.fromkeys(self.parts, 0)

    def write(self, shown):
        """Writes rows, each text one row of a thread or two of the same."""
        if len(self.parts) == 1:
            self.parts[0].write(shown)
            return
        cut = {}
        for text in shown:
            part = self.part(text.split(",", 3)[2])
            self.dealt[part] += 1
            cut.setdefault(part, []).append(text)
        for part, texts in cut.items():
            part.write(texts)

    def fill(self, write):
        """Has `write` write the whole trace of the only part, and returns whether it did."""
        return self.parts[0].fill(write)

    def part(self, thread):
        """The part of a thread. A new thread goes where the fewest rows are."""
        if thread not in self.part_of:
            self.part_of[thread] = min(self.parts, key=self.dealt.get)
        return self.part_of[thread]

    def keep(self):
        for part in self.parts:
            part.keep()

    def abandon(self):
        for part in self.parts:
            part.abandon()

    def warnings(self):
        """What dreplay would refuse of it, and what to do."""
        for part in self.parts:
            if part.rows > MAX_ROWS:
                yield self.too_many(part)

    def too_many(self, part):
        has = (
            f"{part.path or 'the trace'} has {part.rows:,} rows, and dreplay takes {MAX_ROWS:,}: "
        )
        if len(self.parts) == 1:
            return (
                has + f"-o FILE --split {part.rows // MAX_ROWS + 2} cuts it by thread, "
                "which loses nothing"
            )
        return has + "a larger number for --split, or a part of the recording"


def rows_in(shown):
    """How many rows a text has: a name may hold a line feed, between quotes."""
    if '"' not in shown:
        return shown.count("\n")
    return sum(piece.count("\n") for piece in shown.split('"')[::2])


def part_names(path, parts):
    """run.csv in three parts is run.1.csv, run.2.csv and run.3.csv."""
    if path is None:
        raise Failure("--split needs -o FILE: the parts of run.csv are run.1.csv, run.2.csv ..")
    stem, suffix = os.path.splitext(path)
    return [f"{stem}.{number}{suffix}" for number in range(1, parts + 1)]
