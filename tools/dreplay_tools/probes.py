"""Which of a script's probe descriptions match a row of a trace, and what those may be meant as
that match none.
"""
import csv
import difflib
import functools
import io
import itertools
from collections import Counter, namedtuple

from .descriptions import translate
from .ends import shorten
from .patterns import matches
from .trace import COLUMNS, TEXT_BYTES

Probe = namedtuple("Probe", "provider module function name")
FIRST, LAST = COLUMNS.index("provider"), COLUMNS[-1]
OPTIONS = {"probemod": "--paths", LAST: "--ppid"}  # by which the converter of strace fills it
OWN = [Probe("dtrace", "", "", "BEGIN"), Probe("dtrace", "", "", "END")]
MAX_LOOKED_AT = 2_000_000  # comparisons of a description with a probe, or of letters
MAX_NEAR = 1000  # probes among which the nearest is sought
MAX_LIKE = 64  # letters of a name that are compared
MAX_STEPS = 4_000_000  # of comparisons of names for the nearest, as steps_of counts them
MAX_NAMED, MAX_SHOWN = 10, 200  # descriptions, and bytes of each
NEVER = {
    "tick": (
        "timers never fire in a trace: `timestamp / 1000000000` as a key gives an entry for each"
        " second"
    ),
    "profile": "timers never fire in a trace",
    "ERROR": "a fault fires no probe in dreplay: it shows one line, and goes on",
}


class Found(Counter):
    """How many rows each probe has, and whether the last argument of any is there."""

    has_last = False

    def take(self, file):
        """Adds the rows of a trace; each byte of the file is read as one letter."""
        text, found = io.TextIOWrapper(file, encoding="latin-1", newline=""), Counter()
        text.readline()
        while block := text.readlines(1 << 24):
            if any('"' in line for line in block):
                self.take_rows(csv.reader(itertools.chain(block, text)), found)
                break
            found.update(tuple(line.split(",", FIRST + 4)[FIRST : FIRST + 4]) for line in block)
            self.has_last = self.has_last or not all(map(ends_in_comma, block))
        self.update({Probe(*probe): count for probe, count in found.items() if is_probe(probe)})

    def take_rows(self, rows, found):
        """Counts rows of which some have quotes."""
        csv.field_size_limit(2**31 - 1)
        for row in rows:
            if len(row) == len(COLUMNS):
                found[tuple(row[FIRST : FIRST + 4])] += 1
                self.has_last |= row[-1] != ""


def ends_in_comma(line):
    return line.rstrip("\r\n").endswith(",")


def probes_of(file):
    """The probes of a trace."""
    found = Found()
    found.take(file)
    return found


def is_probe(fields):
    return len(fields) == 4 and max(map(len, fields)) <= TEXT_BYTES


def patterns(description):
    """The four patterns of a description; fields that lack are empty, read from the right."""
    fields = description.split(":")
    return Probe(*[""] * (4 - len(fields)), *fields[-4:])


class Looked:
    """The descriptions of a script beside the probes of a trace."""

    def __init__(self, script, probes):
        self.probes, self.known, self.left = [*OWN, *probes], {}, MAX_LOOKED_AT
        self.steps, self.script, self.has_last = MAX_STEPS, script, probes.has_last
        self.names = [set(names) for names in zip(*self.probes)]
        self.wrong, seen = [], set()
        for clause in script.clauses:
            for token in clause.descriptions:
                if token.text not in seen and self.left > 0 and not self.has(patterns(token.text)):
                    self.wrong.append(token)
                seen.add(token.text)

    def has(self, wanted):
        for pattern, names in zip(wanted, self.names):
            if pattern and not {"*", "?"} & set(pattern) and pattern not in names:
                return False
        for probe in self.probes:
            self.left -= 1
            if self.left <= 0 or all(map(self.field, wanted, probe)):
                return True
        return False

    def field(self, pattern, text):
        key = pattern, text
        if key not in self.known:
            if len(self.known) > 500_000:
                self.known.clear()
            self.known[key], letters = matches(pattern, text)
            self.left -= letters
        return self.known[key]

    def lines(self):
        """For each description that matches no row a line for a person."""
        for token in self.wrong[:MAX_NAMED]:
            yield (
                f"line {token.line}: {shorten(token.text, MAX_SHOWN)} matches no row:"
                f" {self.remedy(token)}"
            )
        if len(self.wrong) > MAX_NAMED:
            yield f"{len(self.wrong) - MAX_NAMED:,} more descriptions match no row"
        yield from self.empty_columns()
        if self.left <= 0:
            yield "there are too many descriptions and probes to look at all"

    def empty_columns(self):
        """For each column that a clause asks for, and that no row has, a line for a person."""
        providers, modules, *_ = self.names
        lacking = {}
        if "syscall" in providers:
            lacking = {"probemod": modules <= {""}, LAST: not self.has_last}
        for token in self.script.tokens:
            if token.kind == "word" and lacking.pop(token.text, False):
                yield (
                    f"line {token.line}: {token.text} is empty in all rows: recordings of strace"
                    f" have it with {OPTIONS[token.text]}"
                )

    def remedy(self, token):
        wanted, meant = patterns(token.text), translate(token.text)
        if meant:
            has = self.has(patterns(meant.split(" ")[0]))
            return f"in a trace it is {meant}" + ("" if has else ", and this one has none")
        for begin, why in NEVER.items():
            if wanted.name.startswith(begin):
                return why
        near = self.with_words(wanted) or self.nearest(wanted)
        if near:
            return f"the nearest probe of the trace is {show(near)}"
        return (
            "a script of `::: / tid / { @[probeprov, probemod, probefunc, probename] = count(); }`"
            " shows what there is"
        )

    def with_words(self, wanted):
        """A probe of the trace that has all words of a description, if in other fields."""
        words = {field for field in wanted if field}
        found = (probe for probe in self.probes[len(OWN) :][:MAX_NEAR] if words <= set(probe))
        return next(found, None)

    def nearest(self, wanted):
        """The probe of the trace whose names are most like those of a description."""
        own = {show(probe): probe for probe in self.probes[len(OWN) :][:MAX_NEAR]}
        best, most = None, 0.6
        for probe in own.values():
            self.steps -= steps_of(wanted, probe)
            if self.steps <= 0:
                break
            grade = like(wanted, probe)
            if grade > most:
                best, most = probe, grade
        return best


def steps_of(wanted, probe):
    """About how many steps a comparison takes at worst, which grows by the third power."""
    lengths = [[min(len(text), MAX_LIKE) for text in texts] for texts in (wanted, probe)]
    return sum(a * b * (a + b) // 32 for a, b in zip(*lengths))


def like(wanted, probe):
    """How like a description and a probe are, from 0 to 1: that of their fields, where the
    description has one.
    """
    pairs = [(a.strip("*"), b) for a, b in zip(wanted, probe) if a.strip("*")]
    return sum(likeness(*pair) for pair in pairs) / len(pairs) if pairs else 0


@functools.lru_cache(maxsize=50_000)
def likeness(pattern, text):
    a, b = pattern[:MAX_LIKE].lower(), text[:MAX_LIKE].lower()
    return difflib.SequenceMatcher(None, a, b).ratio()


def show(probe):
    return ":".join(probe)
