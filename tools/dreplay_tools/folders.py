"""The files of strace -ff, one for each thread, as one recording."""
import heapq
import os
import re
import resource
import tempfile

from .ends import Failure

FILE = re.compile(r".*\.(\d+)", re.ASCII)
LINE = re.compile(rb"(?:(\d\d):(\d\d):(\d\d)|(\d{1,10}))\.(\d{1,9}) ")
DAY = 24 * 60 * 60


def lines_of(path, thread, order):
    """The lines of a file with the time and the thread in front. One without a time goes with the
    line before it.
    """
    time = None
    with open(path, "rb") as file:
        for number, line in enumerate(file, 1):
            found = LINE.match(line)
            if found:
                time = time_of(found, time)
                line = b"%d %s" % (thread, line)
            elif time is None:
                raise Failure(
                    f"{path}: line {number} has no time: record with strace -ff -ttt -T -o FILE"
                )
            yield time, order, number, line if line.endswith(b"\n") else line + b"\n"


def time_of(found, before):
    """The time of a line in seconds and a fraction; times of day go on past midnight."""
    hours, minutes, seconds, whole, fraction = found.groups()
    if whole:
        return int(whole), int(fraction.ljust(9, b"0"))
    time = (int(hours) * 60 + int(minutes)) * 60 + int(seconds)
    while before and time < before[0] - DAY // 2:
        time += DAY
    return time, int(fraction.ljust(9, b"0"))


def merge(folder):
    """The recording that a folder of FILE.THREAD holds, its lines by time."""
    found = [(FILE.fullmatch(name), name) for name in sorted(os.listdir(folder))]
    files = [(int(match[1]), os.path.join(folder, name)) for match, name in found if match]
    if not files:
        raise Failure(f"{folder}: it has no files of strace -ff, whose names end in .THREAD")
    soft, hard = resource.getrlimit(resource.RLIMIT_NOFILE)
    resource.setrlimit(
        resource.RLIMIT_NOFILE, (hard if hard != resource.RLIM_INFINITY else max(soft, 65536), hard)
    )
    whole = tempfile.TemporaryFile()
    for _, _, _, line in heapq.merge(
        *(lines_of(path, thread, order) for order, (thread, path) in enumerate(sorted(files)))
    ):
        whole.write(line)
    whole.seek(0)
    return whole
