"""The trace that dreplay reads: its header, the form of its fields, and its rows as they are
written.
"""
import collections
import marshal
import os
import tempfile

ARGS = 10
COLUMNS = (
    ["number", "cpu", "thread", "pid", "execname", "time"]
    + ["provider", "module", "function", "name"]
    + [f"arg{place}" for place in range(ARGS)]
)
HEADER = ",".join(COLUMNS)
TEXT_BYTES = 255
MAX_ROWS = 1_000_000
MAX_NUMBER = 2**31 - 1  # of a processor, a thread or a process
MAX_TIME = 2**64 - 1


def text(data):
    """Bytes as a text of a trace: UTF-8 of at most 255 bytes, none of them zero."""
    whole = data.decode("utf-8", "replace").replace("\0", "\N{REPLACEMENT CHARACTER}")
    return whole.encode("utf-8")[:TEXT_BYTES].decode("utf-8", "ignore")


def field(shown):
    """A text as a field of CSV."""
    if any(mark in shown for mark in ',"\r\n'):
        return '"' + shown.replace('"', '""') + '"'
    return shown


def to_signed(value):
    """An integer as a signed one of 64 bits; none if it takes more."""
    if not -(2**63) <= value < 2**64:
        return None
    return value - 2**64 if value >= 2**63 else value


class Rows:
    """The rows of a trace, numbered as they come. One may be open until it is known what it holds.

    Rows are written in their order, so those after an open one wait: a few in memory, the others in
    a file of their own, so that what is held doesn't grow with the trace.
    """

    IN_A_CHUNK, IN_MEMORY = 4096, 32

    def __init__(self, out, most=None):
        self.out, self.most, self.number = out, most, 0
        self.chunk, self.chunks, self.spool = Chunk(), collections.deque(), None

    @property
    def full(self):
        return self.most is not None and self.number >= self.most

    def add(self, middle):
        """Adds a row, given all but its number."""
        if not self.full:
            self.number += 1
            self.put(f"{self.number}{middle}\n")

    def put(self, shown):
        """Adds rows as they are to be written."""
        rows = self.chunk.rows
        rows.append(shown)
        if len(rows) >= self.IN_A_CHUNK:
            self.next_chunk()

    def put_all(self, shown):
        """Adds rows likewise, of several lines."""
        self.chunk.rows += shown
        if len(self.chunk.rows) >= self.IN_A_CHUNK:
            self.next_chunk()

    def open(self):
        """Adds a row that is filled in later, by `close` of its place."""
        self.number += 1
        return self.open_numbered()

    def open_numbered(self):
        """The same, of a row that is counted already."""
        place = self.chunk, len(self.chunk.rows)
        self.chunk.open += 1
        self.put(None)
        return place

    def close(self, place, shown):
        chunk, index = place
        chunk.rows[index] = shown
        chunk.open -= 1

    def next_chunk(self):
        self.chunks.append(self.chunk)
        if len(self.chunks) > self.IN_MEMORY:
            self.spool = self.spool or tempfile.TemporaryFile()
            self.chunk.spill(self.spool)
        self.chunk = Chunk()
        while self.chunks and not self.chunks[0].open:
            self.write(self.chunks.popleft())

    def flush(self):
        """Writes all rows, none of which is open."""
        self.next_chunk()
        self.write(self.chunk)

    def write(self, chunk):
        self.out.write(chunk.all(self.spool))


class Chunk:
    """Some rows in succession, and how many of them are open."""

    __slots__ = ("rows", "open", "spilled")

    def __init__(self):
        self.rows, self.open, self.spilled = [], 0, None

    def spill(self, spool):
        """Puts the rows into a file. Those that were open come into `rows` by their place."""
        packed = marshal.dumps(self.rows)
        self.spilled = spool.seek(0, os.SEEK_END), len(packed)
        spool.write(packed)
        self.rows = {}

    def all(self, spool):
        if self.spilled is None:
            return self.rows
        start, length = self.spilled
        spool.seek(start)
        rows = marshal.loads(spool.read(length))
        for index, shown in self.rows.items():
            rows[index] = shown
        return rows
