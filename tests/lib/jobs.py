"""The runs of the prover that tests/edits has going at once."""
import os
import re
import sys
import threading
from concurrent.futures import ThreadPoolExecutor


# What rt ci says of a function, and of a crate. It keeps what an earlier run on this machine proved
# of the same files.
FUNCTION = re.compile(r"fn (\w+)::(\S+): proved(?:,.*)?\n")
CRATE = re.compile(r"rt: (\w+) (?:proved|is kept: .*)\n")


class Jobs(ThreadPoolExecutor):
    """Runs side by side, at most a given number. Beside rt ci, whose lines are on standard input, a
    crate waits until it is proved."""

    def __init__(self, most, is_beside):
        super().__init__(most)
        self.places = threading.Semaphore(most)
        self.is_beside, self.proved, self.has_ended = is_beside, set(), False
        self.paths = {}
        self.news = threading.Condition()
        if is_beside:
            # rt ci goes first where both want the processor.
            os.nice(10)
            threading.Thread(target=self.follow_rt_ci, daemon=True).start()

    def follow_rt_ci(self):
        for line in sys.stdin:
            function, crate = FUNCTION.fullmatch(line), CRATE.fullmatch(line)
            with self.news:
                if function:
                    self.paths.setdefault(function[1], []).append(function[2])
                if crate:
                    self.proved.add(crate[1])
                    self.news.notify_all()
        with self.news:
            self.has_ended = True
            self.news.notify_all()

    def paths_of(self, crate):
        """Returns the paths of the crate's functions that rt ci said it has proved."""
        return self.paths.get(crate, [])

    def run(self, work, *given):
        """Runs this as soon as a place is free, ahead of what waits in the queue."""
        with self.places:
            return work(*given)

    def start(self, work, *given):
        """Puts this into the queue, to be run in its turn."""
        return self.submit(self.run, work, *given)

    def has_proved(self, names):
        """Waits for rt ci to prove these crates, and returns whether it has."""
        if not self.is_beside:
            return True
        with self.news:
            self.news.wait_for(lambda: self.has_ended or self.proved.issuperset(names))
            return self.proved.issuperset(names)
