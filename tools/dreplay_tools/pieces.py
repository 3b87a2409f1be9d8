"""A recording in pieces of whole lines, which one process reads, or several side by side."""
import contextlib
import fcntl
import marshal
import os

from .ends import Failure
from .options import MAX_JOBS

MAX_BYTES, MIN_BYTES = 1 << 18, 1 << 12  # of a piece
EACH = 8  # pieces of each process at least, as the last ones are waited for
ALONE = 1 << 22  # bytes of a recording that one process reads by itself
BLOCK = 1 << 12  # in which the end of a line is sought
PIPE_SIZE, SET_PIPE_SIZE = 1 << 20, 1031  # so that a process needn't wait until a piece is taken
LENGTH = 8  # bytes in front of what a process hands over


def processors():
    return min(len(os.sched_getaffinity(0)), MAX_JOBS)


class Pieces:
    """What `read` makes of each piece of a recording, in their order."""

    def __init__(self, recording, read, jobs=None):
        self.recording, self.read = recording.fileno(), read
        self.start = recording.tell()
        size = max(os.fstat(self.recording).st_size - self.start, 1)
        self.jobs = jobs or (processors() if size > ALONE else 1)
        self.bytes = max(MIN_BYTES, min(MAX_BYTES, size // (EACH * self.jobs)))
        self.count = -(-size // self.bytes)

    def __iter__(self):
        return map(self.make, range(self.count)) if self.jobs == 1 else self.side_by_side()

    def make(self, place):
        return self.read(self.lines(place).decode("utf-8", "surrogateescape"))

    # -- the lines of a piece

    def lines(self, place):
        """The lines that begin in a piece. The last one goes on as far as the recording does."""
        first = self.start + place * self.bytes
        last = first + self.bytes if place < self.count - 1 else None
        begin = self.after_feed(first - 1, last) if place else first
        if begin is None:
            return b""
        return self.between(begin, self.after_feed(last - 1) if last else None)

    def after_feed(self, at, last=None):
        """The place after the first line feed from a place on, or the recording's end. None if
        it isn't before `last`.
        """
        while last is None or at < last:
            data = os.pread(self.recording, BLOCK, at)
            found = data.find(b"\n")
            if found >= 0 or not data:
                at += found + 1
                return at if last is None or at < last else None
            at += len(data)
        return None

    def between(self, begin, end):
        blocks = []
        while data := os.pread(self.recording, MAX_BYTES if end is None else end - begin, begin):
            blocks.append(data)
            begin += len(data)
        return b"".join(blocks)

    # -- several processes

    def side_by_side(self):
        """Each process reads every `jobs`th piece, a few of them ahead."""
        files = []
        try:
            for first in range(self.jobs):
                files.append(self.process(first, files))
            for index in range(self.count):
                yield marshal.loads(take(files[index % self.jobs]))
        finally:
            for file in files:
                file.close()  # one that still reads ends by that

    def process(self, first, others):
        """Starts a process, and returns what it hands over."""
        reads, writes = os.pipe()
        with contextlib.suppress(OSError):
            fcntl.fcntl(writes, SET_PIPE_SIZE, PIPE_SIZE)
        if os.fork():
            os.close(writes)
            return open(reads, "rb")
        status = 1
        try:
            for file in (*others, open(reads, "rb")):
                file.close()
            with open(writes, "wb") as out:
                for index in range(first, self.count, self.jobs):
                    data = marshal.dumps(self.make(index))
                    out.write(len(data).to_bytes(LENGTH, "little") + data)
            status = 0
        finally:
            os._exit(status)


def take(file):
    """What a process hands over of a piece."""
    length = int.from_bytes(file.read(LENGTH), "little")
    data = file.read(length)
    if not length or len(data) < length:
        raise Failure("a process that read the recording has ended: try --jobs 1")
    return data
