"""Recordings of any kind, by what they hold, and the converter that makes a trace of each."""
import contextlib
import hashlib
import os
import re
import tempfile

from . import strangers
from .ends import Failure, shorten
from .folders import FILE
from .inputs import open_input

CONVERTERS = {
    "strace": "dreplay-from-strace",
    "perf": "dreplay-from-perf",
    "perf.data": "dreplay-from-perf",
    "ftrace": "dreplay-from-ftrace",
    "trace.dat": "dreplay-from-ftrace",
    "chrome": "dreplay-from-chrome",
    "ctf": "dreplay-from-ctf",
    "babeltrace": "dreplay-from-ctf",
}
NO_KIND = (
    "it is neither a trace nor a recording of strace, perf, ftrace, trace-cmd, CTF or Chrome:"
    " docs/YOUR_PROGRAM.md says how to write a trace"
)
HEADER = re.compile(rb'(?:\xef\xbb\xbf)?"?number"?[,;\t]')  # of a trace, though not as it has to be
NO_RECORDING = 2
BLOCK = 1 << 20
MAX_DEPTH, MAX_LOOKED_AT = 6, 10_000  # of the folders and files in which CTF is looked for


class Recording:
    """What a path leads to: a file, uncompressed and open at its start, or a folder; and its kind.
    """

    def __init__(self, path):
        self.path = path
        self.name = "standard input" if path == "-" else path
        self.is_folder = os.path.isdir(path)
        self.file = None if self.is_folder else seekable(open_input(path))
        self.kind = self.kind_of_folder() if self.is_folder else self.kind_of_file()

    @property
    def is_trace(self):
        return self.kind == "trace"

    def is_at_its_path(self):
        """Whether the path leads to the bytes themselves, neither compressed nor a pipe."""
        if not os.path.isfile(self.path):
            return False
        return os.path.samestat(os.fstat(self.file.fileno()), os.stat(self.path))

    @property
    def converter(self):
        """The converter that makes a trace of it."""
        if self.kind not in CONVERTERS:
            why = strangers.KINDS.get(self.kind, NO_KIND)
            raise Failure(f"{shorten(self.name)}: {why}", NO_RECORDING)
        return CONVERTERS[self.kind]

    def kind_of_folder(self):
        """A folder has the files of strace -ff, or is of CTF."""
        if any(map(FILE.fullmatch, os.listdir(self.path))):
            return "strace"
        if ctf_folders(self.path):
            return "ctf"
        why = "the folder has neither files of strace -ff, whose names end in .THREAD, nor CTF"
        raise Failure(f"{shorten(self.name)}: {why}", NO_RECORDING)

    def kind_of_file(self):
        begins = self.file.read(4096)
        self.file.seek(0)
        if not begins:
            raise Failure(f"{shorten(self.name)}: it is empty", NO_RECORDING)
        kind = strangers.kind_of_start(begins)
        if kind is None and HEADER.match(begins):
            return "trace"  # that dreplay refuses, with the reason
        if kind is None and begins.startswith(b'{"event":'):
            return "perf"  # as recorders/perf.py writes it
        if kind is None:
            found = strangers.kinds_of_lines(self.file)
            kind = next((it for it in strangers.KINDS if it in found), None)
        return kind

    def digest(self):
        """A digest of all that it holds."""
        whole = hashlib.sha256()
        for name, file in self.files():
            whole.update(b"%d %s\n" % (len(name), name))
            size = 0
            for block in iter(lambda: file.read(BLOCK), b""):
                whole.update(block)
                size += len(block)
            whole.update(b"%d\n" % size)
        return whole.hexdigest()

    def files(self):
        """The names, in the folder, and the contents of its files."""
        if not self.is_folder:
            self.file.seek(0)
            yield b"", self.file
            self.file.seek(0)
            return
        for folder in [self.path] if self.kind == "strace" else ctf_folders(self.path):
            for name in sorted(os.listdir(folder)):
                path = os.path.join(folder, name)
                if os.path.isfile(path):
                    with open(path, "rb") as file:
                        yield os.fsencode(os.path.relpath(path, self.path)), file


def ctf_folders(path):
    """The folders of CTF at a path: each has a file `metadata`. LTTng's are a few levels deep."""
    found, looked = [], 0
    for folder, folders, names in os.walk(path):
        folders.sort()
        looked += 1 + len(names)
        if "metadata" in names:
            found.append(folder)
        if looked > MAX_LOOKED_AT or folder.count(os.sep) - path.count(os.sep) >= MAX_DEPTH:
            folders.clear()
    return found


def seekable(file):
    """A file whose descriptor is one of the system at the same place, for another program."""
    with contextlib.suppress(OSError, AttributeError):
        os.lseek(file.fileno(), 0, os.SEEK_SET)
        return file
    spool = tempfile.TemporaryFile()
    for block in iter(lambda: file.read(BLOCK), b""):
        spool.write(block)
    spool.seek(0)
    return spool
