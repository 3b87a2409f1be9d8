"""What tests/fuzz_tools fuzzes a tool by: random rounds, a run of the tool in a process of its own,
and what is wrong with it.
"""
import importlib
import io
import os
import random
import re
import resource
import shutil
import signal
import sys
import tempfile
from dataclasses import dataclass, field, replace

from draw import mutations
from lib import harness

SECONDS, SECONDS_BY_THE_CLOCK = (
    5,
    600,
)  # of the processor, and on a busy machine, that a run may take
MEMORY = 2 << 30
TOOLS = f"{harness.TOP}/tools"
MAX_SAID = 2_000  # bytes of a line on standard error
BROKEN = (b"Traceback", b"a fault of this tool", b"Error: ", b"most recent call")
CONTROLS = re.compile(rb"[\0-\x08\x0b-\x1f\x7f]")
COMMANDS = ("true", "cat", "zstd")  # that a run finds on PATH, beside the programs and a strace
# What takes the place of strace: it runs nothing and attaches to nothing, and has recorded what is
# there.
STRACE = """#!/bin/sh
[ "$1" = -V ] && { echo "strace -- version 6.1"; exit 0; }
until [ "$1" = -o ]; do shift; done
cat recording > "$2"
"""
# What a slice is made of many times: for this a parser that goes back and forth takes its time.
BOMBS = [
    b" ",
    b"(",
    b"[{",
    b"((",
    b'"',
    b'\\"',
    b"\\",
    b"/*",
    b"<",
    b"a=",
    b", ",
    b"9",
    b"0x",
    b"-",
    b"+0x",
    b"=",
    b"=>",
    b"a",
    b"|",
    b"\t",
]
LENGTHS = (40, 400, 5_000, 30_000, 200_000)


@dataclass
class Round:
    """What a tool is given: words, and texts by their names. That without a name is standard input.
    """

    words: list
    texts: dict = field(default_factory=dict)


@dataclass
class Subject:
    """A tool to be fuzzed: rounds to begin with, its exit statuses, and what else is wrong with a
    run of it.
    """

    tool: str
    rounds: list
    options: list  # lists of words, of which rounds get some
    statuses: set
    fault: callable = lambda result, trial: ""
    program: str = ""  # that it needs
    speakers: tuple = ()  # tools that it runs, whose lines on standard error are passed on
    explains: tuple = ()  # statuses with which it explains a refusal, in lines of any kind

    @property
    def path(self):
        return f"{TOOLS}/{self.tool}"


# -- rounds


def bomb(rng, text):
    """Puts a great many of the same bytes somewhere into a text."""
    piece = rng.choice(BOMBS)
    if rng.random() < 0.2 and text:
        first, last = mutations.slice_of(rng, text)
        piece = text[first : min(last, first + 40)] or piece
    place = rng.randrange(len(text) + 1)
    if rng.random() < 0.5:  # where a number is
        numbers = [*re.finditer(rb"\d+", text)]
        place = rng.choice(numbers).start() if numbers else place
    return text[:place] + piece * (rng.choice(LENGTHS) // len(piece)) + text[place:]


def draw(subject, seed, place):
    """Draws a round of a subject."""
    rng = random.Random(f"{seed} {subject.tool} {place}")
    base, other = rng.choice(subject.rounds), rng.choice(subject.rounds)
    trial = Round([*base.words], dict(base.texts))
    for option in rng.sample(
        subject.options, rng.choice((0, 0, 0, 1, 2)) if subject.options else 0
    ):
        trial.words[:0] = option
    for _ in range(rng.choice((1, 1, 2, 3, 8))):
        if rng.random() < 0.05 or not trial.texts:
            trial.words = changed_words(rng, trial.words)
            continue
        name = rng.choice([*trial.texts])
        text = trial.texts[name]
        beside = other.texts.get(name, text)
        trial.texts[name] = (
            bomb(rng, text) if rng.random() < 0.3 else mutations.mutate(rng, text, beside)
        )
    return trial


def changed_words(rng, words):
    """Words changed once: one of them, or their number. A word has no zero byte, isn't too long
    for a command line, and names nothing in another folder.
    """
    words = [
        os.fsencode(word) for word in [*words, rng.choice(["-h", "--", "", "--version", "-x"])]
    ]
    place = rng.randrange(len(words))
    change = rng.choice((bomb, lambda rng, text: mutations.mutate(rng, text, b"--help")))
    changed = change(rng, words[place])
    words[place] = changed.replace(b"\0", b"").replace(b"/", b"|")[:20_000]
    return [os.fsdecode(word) for word in words[rng.randrange(2) :]]


# -- runs


def preload():
    """Imports the tools' modules once, so that a run needs no start of Python."""
    sys.path.insert(0, TOOLS)
    for name in sorted(os.listdir(f"{TOOLS}/dreplay_tools")):
        if name.endswith(".py"):
            importlib.import_module(f"dreplay_tools.{name[:-3]}")


def run(subject, code, trial, folder, programs):
    """Runs a tool on a round in a folder, and returns its result; the status is a signal's number
    with a minus.
    """
    here = f"{folder}/here"  # what is beside it is in the folder too
    os.mkdir(here)
    link_commands(f"{folder}/commands", programs)
    for name, text in trial.texts.items():
        if name:
            with open(f"{here}/{name}", "wb") as file:
                file.write(text)
    file = tempfile.TemporaryFile
    with file() as given, file() as out, file() as said:
        given.write(trial.texts.get("", b""))
        given.seek(0)
        child = os.fork()
        if child == 0:
            be_tool(subject, code, trial, folder, (given, out, said))
        _, status = os.waitpid(child, 0)
        out.seek(0)
        said.seek(0)
        return harness.Result(os.waitstatus_to_exitcode(status), out.read(), said.read())


def be_tool(subject, code, trial, folder, streams):
    """Becomes the tool: its standard streams, its words, its folder and its limits."""
    try:
        for number, stream in enumerate(streams):
            os.dup2(stream.fileno(), number)
        sys.stdin, sys.stdout = open(0, closefd=False), open(1, "w", closefd=False)
        sys.stderr = io.TextIOWrapper(
            open(2, "wb", 0, closefd=False), errors="backslashreplace", write_through=True
        )
        os.chdir(f"{folder}/here")
        os.environ.update(COLUMNS="80", LC_ALL="C.UTF-8", TMPDIR=folder, PATH=f"{folder}/commands")
        os.environ["XDG_CACHE_HOME"] = folder
        tempfile.tempdir = None  # found anew, as this process has its parent's
        sys.argv = [subject.path, *trial.words]
        resource.setrlimit(resource.RLIMIT_AS, (MEMORY, MEMORY))
        signal.setitimer(signal.ITIMER_PROF, SECONDS)
        signal.alarm(SECONDS_BY_THE_CLOCK)
        exec(code, {"__name__": "__main__", "__file__": subject.path})
    except BaseException:  # as Python itself would end: main ends the process otherwise
        sys.excepthook(*sys.exc_info())
    os._exit(99)


def link_commands(place, programs):
    """Makes a folder with the few commands that a run may need, so that no word can be another."""
    os.mkdir(place)
    for name in COMMANDS:
        if path := shutil.which(name):
            os.symlink(path, f"{place}/{name}")
    harness.link_programs(place, programs)
    with open(f"{place}/strace", "w") as file:
        file.write(STRACE)
    os.chmod(f"{place}/strace", 0o755)


# -- faults


def fault_of(subject, result, trial):
    """Says what is wrong with a run, or nothing."""
    if result.status in (-signal.SIGALRM, -signal.SIGPROF):
        return f"it had not ended after {SECONDS} seconds"
    if result.status not in subject.statuses:
        return f"status {result.status} with {result.stderr[-300:]!r}"
    return said_fault(subject, result) or subject.fault(result, trial)


def said_fault(subject, result):
    """Says what is wrong with what a run says on standard error."""
    if any(word in result.stderr for word in BROKEN):
        return f"standard error is {result.stderr[-600:]!r}"
    if CONTROLS.search(result.stderr):
        return f"standard error has control characters: {result.stderr[:300]!r}"
    lines = result.stderr.splitlines()
    if any(len(line) > MAX_SAID for line in lines):
        return f"a line on standard error has over {MAX_SAID} bytes"
    speakers = tuple(f"{tool}: ".encode() for tool in (subject.tool, *subject.speakers))
    is_explained = result.status in subject.explains
    if not is_explained and not all(line.startswith(speakers) for line in lines):
        return f"standard error is {result.stderr[:300]!r}"
    if result.status == 2 and not lines:
        return "status 2 without a line on standard error"
    return ""


def shorter(trial):
    """The rounds that have a line less, or half of a long one."""
    for name, text in trial.texts.items():
        lines = text.splitlines(keepends=True)
        for place in reversed(range(len(lines))):
            yield replace(
                trial, texts={**trial.texts, name: b"".join(lines[:place] + lines[place + 1 :])}
            )


def shortest(trial, is_wrong, tries=60):
    """A round without each line that its fault doesn't need."""
    while tries > 0:
        for other in shorter(trial):
            tries -= 1
            if tries <= 0 or is_wrong(other):
                break
        else:
            return trial
        if tries <= 0:
            return trial
        trial = other
    return trial
