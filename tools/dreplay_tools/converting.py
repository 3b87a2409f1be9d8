"""A trace of any recording: the recording itself where it is one, else what its converter makes of
it, or made of it before.
"""
import os
import subprocess
import sys
import tempfile
import time

from . import cache
from .ends import Failure, reason, shorten
from .programs import program
from .recordings import Recording

SKIPPED = 1  # the status of a converter that skipped lines
BETWEEN_PROGRESS = 0.5  # seconds


class Traces:
    """The traces of recordings, those that aren't kept in a folder of their own."""

    def __init__(self, folder, options, tool, where):
        self.folder, self.options, self.tool, self.where = folder, options, tool, where
        self.has_skipped = False  # whether a converter skipped lines of a recording

    def of(self, path):
        """The path of a recording's trace."""
        recording = Recording(path)
        if not recording.is_trace:
            said, status, trace = self.of_recording(recording)
            for line in said:
                print(line, file=sys.stderr)
            self.has_skipped |= status == SKIPPED
            return trace
        if self.options:
            raise Failure(f"{shorten(path)}: it is a trace, so no converter takes options for it")
        if recording.is_at_its_path():
            return path
        with tempfile.NamedTemporaryFile(dir=self.folder, suffix=".csv", delete=False) as copy:
            for block in iter(lambda: recording.file.read(1 << 20), b""):
                copy.write(block)
        return copy.name

    def of_recording(self, recording):
        """What the converter said, its status, and the trace."""
        words = [recording.converter, *self.options]
        if self.where is None:
            place = cache.Place(self.folder, cache.key_of(recording, words))
            return self.convert(recording, words, place)
        place = cache.Place(self.where, cache.key_of(recording, words))
        found = place.find()
        if found:
            self.tool.say(f"{recording.name}: its trace was made before: {place.trace}")
            return (*found, place.trace)
        try:
            os.makedirs(self.where, mode=0o700, exist_ok=True)
        except OSError as why:
            self.tool.say(f"no trace is kept: {reason(why)}")
            return self.convert(recording, words, cache.Place(self.folder, place.key))
        made = self.convert(recording, words, place)
        self.tool.say(f"{recording.name}: its trace is kept: {place.trace}")
        return made

    def convert(self, recording, words, place):
        """Makes the trace of a recording, and says what the converter said."""
        with place.part() as part:
            said, status = self.run(recording, words, part)
            if status not in (0, SKIPPED):
                for line in said:
                    print(line, file=sys.stderr)
                raise Failure(f"{shorten(recording.name)}: {words[0]} made no trace", status)
            place.keep(part, said, status)
        return said, status, place.trace

    def run(self, recording, words, out):
        """Runs a converter, and returns what it said and its status."""
        command = [sys.executable, tool_beside(words[0]), "-o", out, *words[1:]]
        command += ["--", recording.path if recording.is_folder else "-"]
        given = subprocess.DEVNULL if recording.is_folder else recording.file
        with tempfile.TemporaryFile() as said:
            child = subprocess.Popen(command, stdin=given, stderr=said)
            begun = time.monotonic()
            while True:
                try:
                    status = child.wait(BETWEEN_PROGRESS)
                    break
                except subprocess.TimeoutExpired:
                    seconds = time.monotonic() - begun
                    self.tool.progress(f"{words[0]} makes a trace: {seconds:.0f} s")
                except BaseException:
                    child.kill()
                    child.wait()
                    raise
            self.tool.erase_progress()
            said.seek(0)
            lines = said.read().decode("utf-8", "replace").splitlines()
        return lines, status if status >= 0 else 128 - status


def tool_beside(name):
    """The path of another tool."""
    found = program(name)
    if found is None:
        raise Failure(f"{name} is neither beside this tool nor on PATH")
    return found
