"""The two ways from a recording of strace to a trace: the program dreplay-rows, and the converter
by itself. If the program converts all, the other has to write the same bytes and say nothing.
"""
import os
import random
import re
import subprocess
import sys
import tempfile

from lib import converter_subjects, harness

sys.path.append(f"{harness.TOP}/tools")
from dreplay_tools import from_strace, rows_program
from dreplay_tools.ends import Failure

STOPPED = 4
NUMBERS = re.compile(rb"0x[0-9a-f]+|\d+")
# What comes into a changed recording: bytes that lines have in places of their own, and others.
PIECES = [
    *(bytes([mark]) for mark in b"()[]{},=<>\"\\/*'?-+ .:|_\n\t\0\x80"),
    *(b"0x", b"NULL", b" = ", b") = 0", b" <unfinished ...>", b"<... read resumed>", b"clone("),
    *(b"= ?", b" ENOENT (No such file)", b" <0.000001>", b"+++ exited with 0 +++", b"AT_FDCWD"),
    *(
        b"CLONE_THREAD",
        b"flags=0x10000",
        b'execve("/bin/a b", [], 0)',
        b"-1",
        b"18446744073709551616",
    ),
]


class Quiet:
    """A tool that keeps what it says."""

    name = "dreplay-from-strace"

    def __init__(self):
        self.said = []

    def say(self, what):
        self.said.append(what)

    def progress(self, what):
        pass


def by_program(program, recording):
    """The status of dreplay-rows and the trace that it writes."""
    ran = subprocess.run([program], input=recording, capture_output=True, timeout=harness.SECONDS)
    return ran.returncode, ran.stdout


def by_converter(recording):
    """The status of the converter, what it says, and the trace that it writes by itself. The status
    is none if the program wouldn't be asked.
    """
    with tempfile.TemporaryDirectory() as folder:
        path, out, tool = f"{folder}/recording", f"{folder}/trace.csv", Quiet()
        with open(path, "wb") as file:
            file.write(recording)
        options = from_strace.Options(out=out, python=True)
        try:
            with open(path, "rb") as file:
                shape = from_strace.shape_of(file)
            if not rows_program.knows(from_strace.Options(), shape):
                return None, [], b""
            status = from_strace.convert(path, options, tool)
        except Failure as why:
            return 2, [str(why)], b""
        trace = b""
        if os.path.exists(out):
            with open(out, "rb") as file:
                trace = file.read()
        return status, tool.said, trace


def difference(program, recording):
    """Says where the two ways differ, or nothing; and whether the program knew all lines."""
    if not recording:
        return "", False  # the converter says so before it asks the program
    ended, quick = by_program(program, recording)
    why = converter_subjects.trace_fault(quick)
    if why or ended == STOPPED:
        return why, False
    status, said, trace = by_converter(recording)
    if status is None:
        return "", False
    if (ended, status, said) != (0, 0, []):
        return f"dreplay-rows ends with {ended}, the converter with {status}: {said}", True
    return ("" if quick == trace else "the traces differ"), True


def change(recording, draw):
    """A recording with a few changes: of a piece, of a number, or of whole lines."""
    lines = recording.splitlines(keepends=True) or [b"\n"]
    begin = draw.randrange(len(lines))
    lines = lines[begin : begin + draw.choice((3, 30, 300))]
    for _ in range(draw.choice((1, 1, 2, 5))):
        at = draw.randrange(len(lines))
        lines[at] = changed_line(lines[at], draw) if draw.random() < 0.8 else draw.choice(lines)
    return b"".join(lines)


def changed_line(line, draw):
    at = draw.randrange(len(line) + 1)
    ways = draw.randrange(4)
    if ways == 0:
        return line[:at] + draw.choice(PIECES) + line[at:]
    if ways == 1:
        return line[:at] + line[at + draw.choice((1, 1, 5)) :]
    if ways == 2:
        return line[:at] + draw.choice(PIECES) + line[at + 1 :]
    found = list(NUMBERS.finditer(line))
    if not found:
        return line
    chosen = draw.choice(found)
    number = draw.choice((b"0", b"1", b"017", b"9999999999", b"0xffffffffffffffff", b"-9"))
    return line[: chosen.start()] + number + line[chosen.end() :]


def changed_ones(recordings, seed, count):
    """So many changed recordings, which a seed fixes."""
    draw = random.Random(f"{seed} recordings")
    return [change(draw.choice(recordings), draw) for _ in range(count)]
