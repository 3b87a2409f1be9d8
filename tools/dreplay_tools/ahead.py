"""Lines of a recording, with a look at those that follow."""
import collections
import re

MAX_AHEAD = 50_000
RUN = 3  # parts of a run of lines
THREAD = re.compile(r"(?:\[pid +)?(\d{0,10})", re.ASCII)


def thread_of(line):
    """The thread that a line begins with."""
    return THREAD.match(line)[1] or ""


def is_run(lines):
    """Whether these are several lines, as `frequent_lines` reads them."""
    return type(lines) is tuple and len(lines) == RUN


def count_of(lines):
    """How many lines there are in a run, or in what else was read."""
    return len(lines[0]) if is_run(lines) else 1


def threads_of(lines):
    """The threads of a run, or of another line."""
    if is_run(lines):
        return set(lines[0])
    return {thread_of(lines) if type(lines) is str else lines[0]}


class Ahead:
    """The lines of a file in their order, one by one or in runs, of which some have been looked at:
    these by the threads that they begin with, too, so that no line is looked at for each thread.
    """

    def __init__(self, lines):
        self.lines, self.seen, self.count = lines, collections.deque(), 0
        self.of_thread = collections.defaultdict(collections.deque)

    def __iter__(self):
        seen, lines = self.seen, iter(self.lines)
        while True:
            if seen:
                threads, line = seen.popleft()
                for thread in threads:
                    self.of_thread[thread].popleft()
                self.count -= count_of(line)
                yield line
            else:
                line = next(lines, None)
                if line is None:
                    return
                yield line

    def find(self, thread, wanted):
        """What `wanted` makes of the thread's first line for which it makes something; none within
        the next 50,000 lines.
        """
        for line in self.of_thread[thread]:
            found = wanted(line)
            if found is not None:
                return found
        while self.count < MAX_AHEAD:
            line = next(self.lines, None)
            if line is None:
                return None
            threads = threads_of(line)
            self.seen.append((threads, line))
            for own in threads:
                self.of_thread[own].append(line)
            self.count += count_of(line)
            found = wanted(line) if thread in threads else None
            if found is not None:
                return found
        return None
