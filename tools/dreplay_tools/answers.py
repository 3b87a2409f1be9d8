"""What dreplay-data writes, read line by line: texts, and for each entry of an aggregation all that
is held of it.

docs/DATA.md has the format. A line that isn't of it ends the tool, and is named.
"""
import functools
import json
import operator
import re
from dataclasses import dataclass, field

from .ends import Failure, shorten
from .held import Average, Powers, Steps, figure, rank, rows_of
from .script import FUNCTIONS, Aggregation

OTHER_ANSWER = 1
FORMAT, VERSION = "dreplay-data", 1
NUMBERS = (-(2**63), 2**63 - 1)
MAX_COUNT = 2**64 - 1
COUNTS = (1, MAX_COUNT)
FIRINGS = (0, 2**64)
BOUNDS = (-(2**31), 2**31 - 1)
STEPS = (1, 65_535)
MAX_AGGREGATIONS, MAX_KEYS, MAX_DIGITS = 65_536, 8, 30
MAX_OF_A_LINE = 1 << 26  # bytes
MAX_ROWS = 1_000_000  # of all histograms that are shown
SHARED = ("count", "sum")  # functions whose values have a total
TITLE = re.compile(r"@(?:[A-Za-z_]\w*)?", re.ASCII)
HEX = re.compile(r"(?:[0-9a-f]{2})*", re.ASCII)
# What the line of an entry begins with, up to its key; entries of one aggregation have it alike.
HEAD = re.compile(
    rb'(\{"kind":"entry","aggregation":[0-9]{1,9},"name":"@\w*","function":"[a-z]*"),"key":'
)


class Wrong(Exception):
    """What is wrong with a line."""


@dataclass
class Table:
    """An aggregation of an answer: its place in the script, its buckets where it has histograms,
    and what is held by key.
    """

    place: int
    aggregation: Aggregation
    buckets: object = None
    held: dict = field(default_factory=dict)

    @property
    def title(self):
        return self.aggregation.title

    @functools.cached_property
    def kind(self):
        """What the answers of one script have alike."""
        of = self.aggregation
        return self.place, of.title, of.function, of.texts, self.buckets

    def entries(self):
        """Keys with what is held, in the order of dreplay: ascending by value, then by key."""
        ranked = [
            (rank(value, self.buckets), by_bytes(key), key, value)
            for key, value in self.held.items()
        ]
        ranked.sort(key=operator.itemgetter(0, 1))
        return [(list(key), value) for _, _, key, value in ranked]

    def rows(self, entries):
        """How many rows the histograms of some of the entries have."""
        if not self.aggregation.is_histogram:
            return 0
        return sum(len(rows_of(value, self.buckets)) for _, value in entries)

    def select(self, entries):
        """Some of the entries as they are shown."""
        total = sum(self.held.values()) if self.aggregation.function in SHARED else 0
        figures = [(key, figure(value, self.buckets)) for key, value in entries]
        return Shown(self.aggregation, figures, total, self.buckets)


def all_shown(chosen):
    """Tables as they are shown, each with those of its entries that are."""
    rows = sum(table.rows(entries) for table, entries in chosen)
    if rows > MAX_ROWS:
        why = f"the histograms have {rows:,} rows, more than {MAX_ROWS:,}: take fewer by --top"
        raise Failure(why)
    return (table.select(entries) for table, entries in chosen)


@dataclass
class Shown:
    """An aggregation as it is shown: entries of a key and a number, or the buckets of a histogram.
    """

    aggregation: Aggregation
    entries: list = field(default_factory=list)
    total: int = 0  # of all values, also of those that are left out
    buckets: object = None  # of its histograms

    @property
    def title(self):
        return self.aggregation.title


@dataclass
class Answer:
    """One run's texts, in bytes, and its aggregations by their places."""

    texts: bytes
    tables: dict
    firings: int = 0


def encode(text):
    """A text's bytes."""
    return text.encode("utf-8", "surrogateescape")


def by_bytes(key):
    """A key in the order of dreplay: numbers as numbers, texts byte by byte."""
    return [encode(part) if isinstance(part, str) else part for part in key]


# -- lines


def whole(digits):
    """A number of JSON. None of an answer has so many digits that Python takes long."""
    if len(digits) > MAX_DIGITS:
        raise ValueError("a number of too many digits")
    return int(digits)


DECODER = json.JSONDecoder(parse_int=whole)


def parse(line):
    """The object that a line is."""
    try:
        shown = line.decode("utf-8").strip(" \t\n\r")
        found, end = DECODER.scan_once(shown, 0)
    except (ValueError, RecursionError, StopIteration):
        found = None
    if not isinstance(found, dict) or end != len(shown):
        raise Wrong("it isn't an object of JSON")
    return found


def is_whole(number, ends):
    return type(number) is int and ends[0] <= number <= ends[1]


def text(value):
    """A text of a line, in which bytes that aren't UTF-8 are surrogates."""
    if isinstance(value, str):
        return value if value.isascii() else recode(value.encode("utf-8", "surrogatepass"))
    digits = value.get("hex") if isinstance(value, dict) else None
    if not isinstance(digits, str) or not HEX.fullmatch(digits):
        raise Wrong("it has a text that is neither a string nor bytes in hexadecimal digits")
    return recode(bytes.fromhex(digits))


def recode(data):
    return data.decode("utf-8", "surrogateescape")


def key_of(value):
    """A key: whole numbers and texts."""
    if not isinstance(value, list) or len(value) > MAX_KEYS:
        raise Wrong("it has no key")
    return tuple(map(part_of, value))


def part_of(value):
    if is_whole(value, NUMBERS):
        return value
    if not isinstance(value, (str, dict)):
        raise Wrong("its key has a part that is neither a number of 64 bits nor a text")
    return text(value)


def number_of(value, ends):
    if not is_whole(value, ends):
        raise Wrong("its value is none of its function")
    return value


def members(value, names):
    """The members of an object by their names."""
    if not isinstance(value, dict) or not all(name in value for name in names):
        raise Wrong("its value is none of its function")
    return [value[name] for name in names]


def buckets_of(function, value):
    """The buckets that an entry's value is of; none if it isn't a histogram."""
    if function == "quantize":
        return Powers()
    if function != "lquantize":
        return None
    lower, upper, step, levels = members(value, ["lower", "upper", "step", "levels"])
    for number, ends in ((lower, BOUNDS), (upper, BOUNDS), (step, STEPS), (levels, STEPS)):
        number_of(number, ends)
    found = Steps(lower, upper, step)
    if found.levels != levels:
        raise Wrong("its levels aren't those of its bounds and its step")
    return found


def held_of(function, value, buckets):
    """What is held: a number, an average's sum and count, or counts by the places of buckets."""
    if function == "count":
        return number_of(value, COUNTS)
    if function == "avg":
        total, count = members(value, ["sum", "count"])
        return Average(number_of(total, NUMBERS), number_of(count, COUNTS))
    if buckets is None:
        return number_of(value, NUMBERS)
    return counts_of(members(value, ["counts"])[0], buckets)


def counts_of(pairs, buckets):
    """The counts of a histogram, by the places of its buckets, which ascend."""
    counts, before, place_of = {}, buckets.ends[0] - 1, buckets.place
    if not isinstance(pairs, list) or not pairs:
        raise Wrong("its histogram has no counts")
    for pair in pairs:
        if type(pair) is not list or len(pair) != 2 or type(pair[0]) is not int:
            raise Wrong("its histogram has a count without a label")
        label, count = pair
        place = place_of(label)
        if place is None or place <= before:
            raise Wrong(f"its histogram has no bucket {label} in this place")
        if type(count) is not int or not 0 < count <= MAX_COUNT:
            raise Wrong("its value is none of its function")
        counts[place], before = count, place
    return counts


class Reader:
    """The answers of one input, on the way through its lines."""

    def __init__(self, script):
        self.script = script
        self.answer = None  # that whose last line is still to come
        self.texts, self.places = [], {}  # places by the names of aggregations
        self.head, self.members = None, {}  # of the last entry's line

    def line(self, line):
        """Takes a line. Returns the answer that it ends, if it ends one."""
        if len(line) == MAX_OF_A_LINE:
            raise Wrong("it is longer than a line of dreplay-data can be")
        if self.answer is None:
            self.begin(line)
            return None
        found = self.parse(line)
        kind = found.get("kind")
        if kind == "end":
            return self.end(found)
        if kind == "entry":
            self.entry(found)
        elif kind == "text":
            self.text(found)
        else:
            raise Wrong("it is none of the lines text, entry and end")
        return None

    def parse(self, line):
        """The object that a line is. Of an entry that begins as the last one, the rest is read."""
        if self.head is not None and line.startswith(self.head):
            return self.members | parse(b'{"key":' + line[len(self.head) :])
        if head := HEAD.match(line):
            self.head, self.members = head[0], parse(head[1] + b"}")
        return parse(line)

    def begin(self, line):
        try:
            found = parse(line)
        except Wrong:
            found = {}
        if found.get("format") != FORMAT:
            raise Wrong("this isn't what dreplay-data writes: run dreplay-data in place of dreplay")
        if not is_whole(found.get("version"), (VERSION, VERSION)):
            raise Wrong(f"this tool reads version {VERSION} of dreplay-data's lines, and no other")
        self.answer, self.texts, self.places = Answer(b"", {}), [], {}

    def text(self, found):
        if not is_whole(found.get("firing"), FIRINGS):
            raise Wrong("it has no number of a firing")
        self.texts.append(encode(text(found.get("text"))))

    def entry(self, found):
        key, function, value = key_of(found.get("key")), found.get("function"), found.get("value")
        if not isinstance(function, str) or function not in FUNCTIONS:
            raise Wrong("it has no aggregating function")
        table = self.table(found, function, key, buckets_of(function, value))
        if key in table.held:
            raise Wrong(f"{table.title} has its key twice")
        table.held[key] = held_of(function, value, table.buckets)

    def table(self, found, function, key, buckets):
        """The table that an entry belongs to; its first entry makes it."""
        place, title = found.get("aggregation"), found.get("name")
        if not is_whole(place, (0, MAX_AGGREGATIONS)):
            raise Wrong("it has no place of an aggregation")
        kind = place, title, function, tuple([isinstance(part, str) for part in key]), buckets
        table = self.answer.tables.get(place)
        if table is None:
            table = Table(place, self.aggregation(*kind), buckets)
            self.answer.tables[place] = table
        if table.kind != kind:
            raise Wrong(f"it is of another aggregation than the entries before it: {table.title}")
        return table

    def aggregation(self, place, title, function, texts, buckets):
        """The aggregation as the script has it; without a script with what the entry tells."""
        if not isinstance(title, str) or not TITLE.fullmatch(title):
            raise Wrong("it has no name of an aggregation")
        if self.places.setdefault(title, place) != place:
            raise Wrong(f"it is of another aggregation than the entries before it: {title}")
        if self.script is None:
            keys = [f"key{number}" for number in range(1, len(texts) + 1)]
            return Aggregation(title[1:], keys, texts, function, [])
        known = self.script.aggregations[place : place + 1]
        found = [(of.title, of.function, of.texts, range_of(of)) for of in known]
        if found != [(title, function, texts, buckets if function == "lquantize" else None)]:
            raise Wrong(f"the script has no such {title}: is this the answer to another one?")
        return known[0]

    def end(self, found):
        if not is_whole(found.get("firings"), FIRINGS) or "exit" not in found:
            raise Wrong("it doesn't say whether the run exited, and how many firings were run")
        answer = Answer(b"".join(self.texts), self.answer.tables, found["firings"])
        self.answer = None
        return answer


def range_of(aggregation):
    return Steps(*aggregation.range) if aggregation.function == "lquantize" else None


# -- an input


def read(lines, name, script=None):
    """The answers that an input holds one after the other. A script names the columns."""
    reader, number = Reader(script), 0
    for number, line in enumerate(iter(lambda: lines.readline(MAX_OF_A_LINE), b""), 1):
        try:
            answer = reader.line(line)
        except Wrong as why:
            raise Failure(shorten(f"{name}: line {number}: {why}", 900), OTHER_ANSWER)
        if answer is not None:
            yield answer
    if number == 0:
        why = "it is empty, and no answer of dreplay-data: was the trace refused?"
        raise Failure(f"{name}: {why}", OTHER_ANSWER)
    if reader.answer is not None:
        raise Failure(f"{name}: line {number}: the last line is missing: is it cut?", OTHER_ANSWER)
