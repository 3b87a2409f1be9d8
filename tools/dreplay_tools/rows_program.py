"""The program dreplay-rows, which converts what dreplay-record records in a tenth of the time. It
stops where it doesn't know a line, and then the recording is converted here.
"""
import os
import subprocess

from .programs import program

NAME = "dreplay-rows"


def knows(options, shape):
    """Whether the program may convert recordings of a shape under these options."""
    asked = options._replace(out=None, whole=False)
    return asked == type(options)() and shape.has_threads and shape.has_dates


def converts(recording, options, shape, output):
    """Has the program write the trace of a recording. Returns whether it did."""
    found = program(NAME) if knows(options, shape) else None
    return found is not None and output.fill(lambda file: runs(found, recording, file))


def runs(found, recording, file):
    """Whether the program writes all of a recording's trace to a file. The recording stays at its
    place.
    """
    number = recording.fileno()
    place = os.lseek(number, 0, os.SEEK_CUR)
    try:
        os.lseek(number, recording.tell(), os.SEEK_SET)
        ran = subprocess.run([found], stdin=number, stdout=file, stderr=subprocess.DEVNULL)
        return ran.returncode == 0
    except OSError:
        return False
    finally:
        os.lseek(number, place, os.SEEK_SET)
