"""Traces that were made of recordings, kept in the user's cache folder, so that the next question
about a recording needs no conversion.

A trace is found by what it was made of: all that the recording holds, the converter, its options
and its code. A note beside it says what the converter said.
"""
import contextlib
import hashlib
import json
import os
import tempfile

from .version import VERSION

MAX_BYTES = 4 << 30  # of all traces that are kept
MAX_SAID = 100  # lines of a converter that a note has


def folder():
    """The user's cache folder of dreplay."""
    home = os.environ.get("XDG_CACHE_HOME", "")
    home = home if os.path.isabs(home) else os.path.join(os.path.expanduser("~"), ".cache")
    return os.path.join(home, "dreplay")


def state_of_tools():
    """A digest of the tools' code, as another release may convert otherwise."""
    whole, here = hashlib.sha256(), os.path.dirname(os.path.realpath(__file__))
    for name in sorted(os.listdir(here)):
        if name.endswith(".py"):
            with open(os.path.join(here, name), "rb") as file:
                whole.update(file.read())
    return whole.hexdigest()


def key_of(recording, words):
    """What a trace is found by."""
    what = [VERSION, state_of_tools(), recording.converter, *words, recording.digest()]
    return hashlib.sha256("\0".join(what).encode("utf-8", "surrogateescape")).hexdigest()[:32]


class Place:
    """Where the trace of a recording is, or goes once it is complete."""

    def __init__(self, where, key):
        self.where, self.key = where, key
        self.trace, self.note = (os.path.join(where, f"{key}.{it}") for it in ("csv", "json"))

    def find(self):
        """What the converter said when it made the trace, and its status; none if there is no
        trace.
        """
        try:
            with open(self.note, encoding="utf-8") as file:
                note = json.load(file)
            said, status, size = note["said"], note["status"], note["bytes"]
            if os.path.getsize(self.trace) != size or type(status) is not int:
                return None
            os.utime(self.trace)  # what is used last is kept longest
            return [str(line) for line in said], status
        except (OSError, ValueError, KeyError, TypeError, RecursionError):
            return None

    @contextlib.contextmanager
    def part(self):
        """A file that becomes the trace where `keep` is called, and else goes."""
        number, path = tempfile.mkstemp(".csv", "part-", self.where)
        os.close(number)
        try:
            yield path
        finally:
            if os.path.exists(path):
                os.unlink(path)

    def keep(self, part, said, status):
        """Makes the part the trace."""
        note = {"said": said[:MAX_SAID], "status": status, "bytes": os.path.getsize(part)}
        os.replace(part, self.trace)
        with open(part, "w", encoding="utf-8", errors="surrogateescape") as file:
            json.dump(note, file)
        os.replace(part, self.note)
        make_room(self.where, self.trace)


def make_room(where, newest):
    """Removes the traces that were used longest ago, so that all are not too large."""
    found, total = [], 0
    with os.scandir(where) as entries:
        for entry in entries:
            if entry.name.endswith(".csv") and not entry.name.startswith("part-"):
                found.append((entry.stat().st_mtime_ns, entry.stat().st_size, entry.path))
                total += entry.stat().st_size
    for _, size, path in sorted(found):
        if total <= MAX_BYTES or path == newest:
            return
        for gone in (path, path[: -len(".csv")] + ".json"):
            with contextlib.suppress(FileNotFoundError):
                os.unlink(gone)
        total -= size

