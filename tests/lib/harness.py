"""What the test scripts share: the built programs, one run of a case, and the count of what passed
and failed."""
import argparse
import contextlib
import itertools
import os
import random
import re
import subprocess
import tempfile
from dataclasses import dataclass, field

TOP = os.path.abspath(f"{os.path.dirname(__file__)}/../..")
# The gate leaves the program twice: as LLVM builds it, and as Rattle's own compiler does.
PROGRAMS = [f"{TOP}/crates/dreplay/out/dreplay", f"{TOP}/crates/dreplay/out/dreplay.by-rattle"]
# The same of dreplay-data.
DATA_PROGRAMS = [
    f"{TOP}/crates/dreplay_data/out/dreplay_data",
    f"{TOP}/crates/dreplay_data/out/dreplay_data.by-rattle",
]
# The same of dreplay-rows.
ROWS_PROGRAMS = [
    f"{TOP}/crates/dreplay_rows/out/dreplay_rows",
    f"{TOP}/crates/dreplay_rows/out/dreplay_rows.by-rattle",
]


def plans(workers, groups, engines):
    """The words of each plan with one of these workers, groups and engines."""
    return [
        ["-w", f"{w}", "-g", f"{g}", "-e", e]
        for w, g, e in itertools.product(workers, groups, engines)
    ]


# The answer doesn't depend on these words. tests/run runs each case under all of them, tests/fuzz
# each bundle under the one that drawn_plan draws, and tests/differential under the two that
# drawn_plans draws.
PLANS = plans((1, 2, 16), (1, 2, 4096), ("dif", "tree"))
# Enough where a call fails: each engine, with one worker and with two.
FEW_PLANS = plans((1, 2), (2,), ("dif", "tree"))
# Enough where a call of dreplay-data fails: only what renders a run isn't dreplay's.
DATA_PLANS = plans((2,), (2,), ("dif",))
SECONDS = 600
SYNTAX_LINE = re.compile(rb"(refused: Parse 1) line \d+")


@dataclass
class Result:
    """What one run of the program left, or was to leave."""

    status: int
    stdout: bytes
    stderr: bytes


@dataclass
class Case:
    """A case of tests/cases, examples or tests/conversions: what the program is given, and what it
    has to answer."""

    name: str
    folder: str
    bundle: bytes
    words: list
    plans: list
    shell: str
    expected: Result
    files: dict = field(default_factory=dict)

    @contextlib.contextmanager
    def room(self):
        """Gives the folder to run in: the case's own, or a temporary one that has its files."""
        if not self.files:
            yield self.folder
            return
        with tempfile.TemporaryDirectory(prefix="case-") as room:
            for name, text in self.files.items():
                with open(f"{room}/{name}", "wb") as file:
                    file.write(text)
            yield room

    def run(self, program, plan=(), **how):
        """Runs a program on this case under the words of one plan."""
        words = [program, *self.words, *plan]
        if self.shell:
            words = ["sh", "-c", self.shell, "sh", *words]
        how |= {"input": self.bundle, "capture_output": True, "timeout": SECONDS}
        with self.room() as folder:
            ran = subprocess.run(words, cwd=folder, **how)
        return Result(ran.returncode, ran.stdout, ran.stderr)


def drawn_plan(seed, place):
    """The plan for a place in the list that a seed fixes."""
    return random.Random(f"{seed} {place} plan").choice(PLANS)


def drawn_plans(seed, place):
    """The two plans of both engines, with the workers and groups of the one that drawn_plan
    draws."""
    workers_and_groups = drawn_plan(seed, place)[:4]
    return [plan for plan in PLANS if plan[:4] == workers_and_groups]


def run_name(program, plan=()):
    """What a run of a program under a plan is called."""
    return " ".join([f"[{os.path.basename(program)}]", *plan])


def difference(part, has, wants):
    """Says in one line where two texts differ: both whole if they are short, else what is
    around the first other byte."""
    if len(has) + len(wants) <= 240:
        return f"{part} is {has!r}, wanted {wants!r}"
    pairs = zip(has, wants)
    at = next((i for i, (a, b) in enumerate(pairs) if a != b), min(len(has), len(wants)))
    around = slice(max(0, at - 20), at + 60)
    line = wants[:at].count(b"\n") + 1
    where = f"from byte {at} on, line {line} (lengths {len(has)} and {len(wants)})"
    return f"{part} differs {where}: .. {has[around]!r} .., wanted .. {wants[around]!r} .."


def without_syntax_line(result):
    """A result but for the line of a syntax fault: the pages don't say which one is named."""
    return Result(result.status, result.stdout, SYNTAX_LINE.sub(rb"\1", result.stderr))


def differences(has, wants):
    """Says in one line how a run differs from what was wanted, or nothing."""
    found = []
    if has.status != wants.status:
        found.append(f"status is {has.status}, wanted {wants.status}")
    for part in ("stdout", "stderr"):
        if getattr(has, part) != getattr(wants, part):
            found.append(difference(part, getattr(has, part), getattr(wants, part)))
    return "; ".join(found)


def parser(doc):
    """A parser of a test's command line, with the usage and the first paragraph of its doc."""
    usage = doc.split("usage: ")[1].split("\n\n")[0]
    first = doc.split("\n\n")[0]
    return argparse.ArgumentParser(
        usage=" ".join(usage.split()), description=" ".join(first.split())
    )


def parser_of_programs(doc):
    """A parser with --program: the programs to run. programs_of takes them from its result."""
    made = parser(doc)
    program = "a program to run in the place of the gate's two"
    made.add_argument("--program", action="append", metavar="PATH", help=program)
    return made


def parser_of_all_programs(doc):
    """A parser with --data-program too: a dreplay-data to run. all_programs_of takes both from its
    result."""
    made = parser_of_programs(doc)
    program = "a dreplay-data to run likewise"
    made.add_argument("--data-program", action="append", metavar="PATH", help=program)
    return made


def all_programs_of(args, tally):
    """The programs to run that are built, and those of dreplay-data. If either is given, only
    what is given is run."""
    chosen = args.program or [], args.data_program or []
    if not any(chosen):
        chosen = PROGRAMS, DATA_PROGRAMS
    return [tally.find_built([os.path.abspath(path) for path in paths]) for paths in chosen]


def add_program(made, what):
    """Gives a parser --program and --data-program, where one of each is run."""
    program, same = f"the program that {what} run", "the same for dreplay-data"
    made.add_argument("--program", default=PROGRAMS[0], metavar="PATH", help=program)
    made.add_argument("--data-program", default=DATA_PROGRAMS[0], metavar="PATH", help=same)


def add_drawn(made, what, count):
    """Gives a parser --count and --seed: how many are drawn, and what they depend on."""
    how_many = f"how many {what} ({count})"
    made.add_argument("--count", type=int, default=count, metavar="N", help=how_many)
    made.add_argument("--seed", default="1", metavar="SEED", help="what they are drawn by (1)")


def add_first(made):
    """Gives a parser --first: with which round it begins."""
    first = "the number of the first round (0)"
    made.add_argument("--first", type=int, default=0, metavar="N", help=first)


def programs_by_name(args):
    """The programs of add_program's options, by the names under which they are run."""
    found = {"dreplay": args.program, "dreplay-data": args.data_program}
    return {name: os.path.abspath(path) for name, path in found.items()}


def link_programs(folder, programs):
    """Puts the programs that are built into a folder, under their names."""
    for name, path in programs.items():
        if os.path.exists(path):
            os.symlink(path, f"{folder}/{name}")


def programs_of(args):
    return [os.path.abspath(path) for path in args.program or PROGRAMS]


def add_names(made):
    """Gives a parser the names of cases and examples."""
    names = "a case, a file of tests/cases without .txt, or examples/FOLDER/SCRIPT"
    made.add_argument("names", nargs="*", metavar="NAME", help=names)


def all_programs_and_names(doc, tally):
    """Parses a test's command line by its doc: the programs to run, of dreplay, dreplay-data and
    dreplay-rows, and the names of cases and examples. If a program is given, only what is given
    is run."""
    made = parser_of_all_programs(doc)
    program = "a dreplay-rows to run likewise"
    made.add_argument("--rows-program", action="append", metavar="PATH", help=program)
    add_names(made)
    args = made.parse_args()
    chosen = args.program or [], args.data_program or [], args.rows_program or []
    if not any(chosen):
        chosen = PROGRAMS, DATA_PROGRAMS, ROWS_PROGRAMS
    built = [tally.find_built([os.path.abspath(path) for path in paths]) for paths in chosen]
    return *built, args.names


class Tally:
    """Counts what passed and what failed, and prints a line for each failure."""

    def __init__(self):
        self.passed = self.failed = 0

    def find_built(self, programs):
        """The programs that are there to be run. One that was not built counts as a failure."""
        for program in programs:
            if not os.access(program, os.X_OK):
                self.count(os.path.relpath(program, TOP), "this program was not built")
        return [program for program in programs if os.access(program, os.X_OK)]

    def count(self, what, why=""):
        """Counts one check: passed, unless there is a reason why not."""
        self.passed += not why
        self.failed += bool(why)
        if why:
            print(f"FAILED {what}: {why}", flush=True)

    def add(self, passed, failed):
        """Adds what another program has counted."""
        self.passed += passed
        self.failed += failed

    def end(self):
        """Prints the last line, and returns the exit status: checks that ran, and all of them
        well."""
        print(f"{self.passed} passed, {self.failed} failed")
        return 0 if self.passed and not self.failed else 1
