"""Runs of one script over many traces: each trace has its answer in a folder, and a note on what it
is of.
"""
import concurrent.futures
import hashlib
import json
import os
import re
import signal
import subprocess

from .ends import FAILED, Failure, reason
from .inputs import open_input
from .output import Replaced

PLAN = ["-w", "1", "-g", "1"]  # as many programs run as there are processors, so each is one thread
MAX_NAME = 100
ANSWER = re.compile(r"(.*)-[0-9a-f]{12}\.answer", re.DOTALL)
REFUSED = "dreplay: trace refused: "


class Job:
    """The run over one trace: where its answer goes, what it is of, and how it ended."""

    def __init__(self, trace, folder, command):
        self.trace, self.command = trace, command
        whole = os.path.abspath(trace).encode("utf-8", "surrogateescape")
        name = f"{os.path.basename(trace)[:MAX_NAME]}-{hashlib.sha256(whole).hexdigest()[:12]}"
        self.answer = os.path.join(folder, name + ".answer")
        self.note = os.path.join(folder, name + ".json")
        self.status, self.line, self.is_answered = None, "", False

    def state(self):
        """What an answer depends on: script, program and trace as they are now."""
        return [self.command.script, *state_of(self.command.program), *state_of(self.trace)]

    def is_done(self):
        """Whether an earlier run did this; it is taken then."""
        try:
            with open(self.note, encoding="utf-8") as file:
                note = json.load(file)
            if note["state"] != self.state():
                return False
            ended = note["status"], note["line"], note["answered"]
            if [*map(type, ended)] != [int, str, bool] or not 0 <= ended[0] < 256:
                return False
            self.status, self.line, self.is_answered = ended
            return not self.is_answered or os.path.exists(self.answer)
        except (OSError, ValueError, KeyError, TypeError, RecursionError):
            return False

    def run(self):
        """Runs the program over the trace. The answer is there when it is complete."""
        try:
            state = self.state()
            self.run_program()
            if state != self.state():
                raise Failure("the trace or the program changed while it was run: run it again")
        except Failure as why:
            self.end(why.status, self.without_name(str(why)))
        except OSError as why:
            self.end(FAILED, self.without_name(reason(why)))
        # All else may end otherwise next time.
        if self.is_answered or self.line.startswith(REFUSED):
            note = {
                "state": state,
                "status": self.status,
                "line": self.line,
                "answered": self.is_answered,
            }
            with Replaced(self.note) as file:
                file.write(json.dumps(note).encode())
        return self

    def without_name(self, line):
        """A line without the trace's name in front; the report of all traces has it again."""
        name = f"{self.trace}: "
        return line[len(name) :] if line.startswith(name) else line

    def run_program(self):
        out = Replaced(self.answer)
        try:
            with open_input(self.trace) as trace:
                os.lseek(trace.fileno(), 0, os.SEEK_SET)  # its first bytes were looked at
                words = self.command.words
                ran = subprocess.run(words, stdin=trace, stdout=out.file, stderr=subprocess.PIPE)
            line = ran.stderr.decode("utf-8", "replace").split("\n")[0]
            self.end(ran.returncode, line)
            if self.is_answered:
                out.keep()
            elif os.path.exists(self.answer):
                os.unlink(self.answer)
        finally:
            out.abandon()

    def end(self, status, line):
        """Takes how the program ended. A script may end with any status; a refusal has a line."""
        self.is_answered = not line and status is not None and status >= 0
        self.status = status if status >= 0 else 128 - status
        killed = f"dreplay-data was ended by signal {-status}"
        self.line = line or ("" if self.is_answered else killed)


class Command:
    """The command that is run for each trace. The script is a copy that nobody changes."""

    def __init__(self, script, program):
        self.words, self.program = [program, "-s", script, *PLAN], program
        with open(script, "rb") as file:
            self.script = hashlib.sha256(file.read()).hexdigest()


def state_of(path):
    """What tells whether a file has changed."""
    found = os.stat(path)
    return found.st_size, found.st_mtime_ns


def jobs_of(traces, folder, script, program):
    """A job for each trace, each trace once."""
    command = Command(script, program)
    jobs = (Job(trace, folder, command) for trace in traces)
    return list({job.answer: job for job in jobs}.values())


def interrupt(number, _):
    """Takes a signal for an interrupt. Further ones are ignored: the runs that have begun end, and
    leave nothing half done.
    """
    for further in (signal.SIGHUP, signal.SIGINT, signal.SIGTERM):
        signal.signal(further, signal.SIG_IGN)
    raise KeyboardInterrupt


def all_run(jobs, at_once):
    """Runs jobs, some at once, and returns each when it is done. When it is left, no further one
    begins.
    """
    waiting = []
    with concurrent.futures.ThreadPoolExecutor(at_once) as pool:
        try:
            waiting += (pool.submit(job.run) for job in jobs)
            for done in concurrent.futures.as_completed(waiting):
                yield done.result()
        finally:
            for future in waiting:
                future.cancel()


def refusal_of_script(program, script):
    """The line and the status with which a script is refused; no line for one that is right."""
    try:
        ran = subprocess.run([program, "-s", script], stdin=subprocess.DEVNULL, capture_output=True)
    except OSError as why:
        raise Failure(f"{program} can't be run: {reason(why)}")
    line = ran.stderr.decode("utf-8", "replace").split("\n")[0]
    if line.startswith(REFUSED):
        return "", 0
    return line, ran.returncode or FAILED


def of_others(folder, jobs):
    """The traces whose answers are in the folder though they aren't among those of the jobs."""
    own = {os.path.basename(job.answer) for job in jobs}
    names = (ANSWER.fullmatch(name) for name in sorted(os.listdir(folder)))
    return [name[1] for name in names if name and name[0] not in own]
