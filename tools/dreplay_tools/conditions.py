"""Conditions on an answer, by which a test of a script or of a service fails, such as
`@latency.p99 > 1000000`.

A comparison is true if it is true of any entry. Of a percentile the bucket's two ends are known;
where the comparison is true of a part of the bucket alone, it counts as true, and that is said.
"""
import re
from dataclasses import dataclass
from fractions import Fraction

from . import labels, percentiles
from .comparison import Compared, count_of
from .ends import FAILED, Failure

HOLDS = 5  # the exit status if the condition is true
LEAST, GREATEST = -(2**63), 2**63 - 1
OF_ENTRIES = ("value", "before", "after", "difference", "ratio")  # each entry has one
OF_ALL = ("entries", "total", "new", "gone")
COMPARISON = re.compile(
    r"\s*(?:(?P<title>@\w*)\.)?(?P<quantity>[a-z]+|p\d{1,3}(?:\.\d{1,6})?)\s*"
    r"(?P<operator><=|>=|==|!=|<|>)\s*(?P<number>-?\d{1,30}(?:\.\d{1,9})?)\s*",
    re.ASCII,
)
OPERATORS = {
    "<": lambda a, b: a < b,
    "<=": lambda a, b: a <= b,
    ">": lambda a, b: a > b,
    ">=": lambda a, b: a >= b,
    "==": lambda a, b: a == b,
    "!=": lambda a, b: a != b,
}


@dataclass
class Comparison:
    """A quantity of an aggregation, an operator and a number."""

    text: str
    title: str
    quantity: str
    operator: str
    number: Fraction

    def of(self, low, high):
        """Whether it is true of all numbers from `low` to `high`; none where of some of them."""
        compare, number = OPERATORS[self.operator], self.number
        if self.operator in ("==", "!=") and low < number < high:
            return None
        ends = compare(low, number), compare(high, number)
        return ends[0] if ends[0] == ends[1] else None


def parse(shown):
    """The comparisons of a condition: one of the lists has to be true, all of it."""
    return [[comparison(text) for text in part.split("&&")] for part in shown.split("||")]


def comparison(text):
    found = COMPARISON.fullmatch(text)
    if not found:
        why = "it isn't a comparison, such as 'value > 100' or '@latency.p99 >= 1000000'"
        raise Failure(f"--fail-if: {labels.printable(text.strip()[:60])!r}: {why}", FAILED)
    quantity = found["quantity"]
    is_percentile = quantity[:1] == "p" and percentiles.is_percent(quantity[1:])
    if not is_percentile and quantity not in (*OF_ENTRIES, *OF_ALL, "count"):
        known = ", ".join([*OF_ENTRIES, "count", "p50 (any percent)", *OF_ALL])
        raise Failure(f"--fail-if: {quantity[:60]} is none of {known}", FAILED)
    return Comparison(
        " ".join(text.split()),
        found["title"],
        quantity,
        found["operator"],
        Fraction(found["number"]),
    )


def reasons(condition, all_shown, titles):
    """Why a condition is true, a line for each comparison; nothing if it isn't."""
    for part in condition:
        found = [reason(of, all_shown, titles) for of in part]
        if all(found):
            return found
    return []


def reason(of, all_shown, titles):
    """Why a comparison is true; nothing if it isn't."""
    title = of.title or (titles[0] if len(titles) == 1 else None)
    if title is None:
        known = ", ".join(titles[:8])
        raise Failure(f"--fail-if: {of.text}: of which aggregation? {known}", FAILED)
    if title not in titles:
        raise Failure(f"--fail-if: there is no aggregation {title}", FAILED)
    shown = next((it for it in all_shown if it.title == title), None)
    for name, low, high in quantities(of.quantity, shown, title):
        if of.of(low, high) is not False:
            value = shown_as(low) if low == high else f"{low} .. {high}"
            doubt = "" if of.of(low, high) else ", which doesn't tell"
            return f"{of.text}: {name} {value}{doubt}"
    return None


def shown_as(number):
    """A whole number, or a ratio as a decimal."""
    return f"{number}" if isinstance(number, int) else f"{float(number):.6g}"


def quantities(quantity, shown, title):
    """The values of a quantity, each with what it is of and its two ends."""
    if quantity in OF_ALL:
        value = of_all(quantity, shown)
        yield labels.printable(title), value, value
        return
    for key, value in values_of(quantity, shown):
        name = f"{title}[{', '.join(map(labels.name, key))}]" if key else title
        if quantity == "count" or quantity in OF_ENTRIES:
            yield name, value, value
        elif value is not None:
            low = LEAST if value.low is None else value.low
            yield name, low, GREATEST if value.high is None else value.high - 1


def of_all(quantity, shown):
    """A number of a whole aggregation."""
    if shown is None:
        return 0
    is_compared = isinstance(shown, Compared)
    if quantity == "entries":
        return len(shown.entries)
    if quantity == "total":
        return shown.totals[1] if is_compared else shown.total
    if not is_compared:
        raise Failure(f"--fail-if: {quantity} is of a comparison: --against", FAILED)
    return sum(change.is_new if quantity == "new" else change.is_gone for change in shown.entries)


def values_of(quantity, shown):
    """The keys with their numbers, or buckets of percentiles."""
    if shown is None:
        return
    if quantity in ("before", "after", "difference", "ratio"):
        yield from of_changes(quantity, shown)
        return
    if (quantity == "value") == shown.aggregation.is_histogram:
        what = "has histograms: count or p99" if quantity == "value" else "has no histograms: value"
        raise Failure(f"--fail-if: {shown.title} {what}", FAILED)
    for key, value in entries_of(shown):
        if quantity == "value":
            yield key, value
        elif quantity == "count":
            yield key, count_of(value)
        else:
            yield key, percentiles.percentile(value, quantity[1:])


def entries_of(shown):
    """The keys with what is shown; of a comparison what is shown after."""
    if not isinstance(shown, Compared):
        return shown.entries
    return [(change.key, change.after) for change in shown.entries if not change.is_gone]


def of_changes(quantity, shown):
    if not isinstance(shown, Compared):
        raise Failure(f"--fail-if: {quantity} is of a comparison: --against", FAILED)
    if shown.aggregation.is_histogram:
        raise Failure(f"--fail-if: {shown.title} has histograms: count or p99", FAILED)
    for change in shown.entries:
        value = {
            "before": change.before,
            "after": change.after,
            "difference": shown.difference(change),
        }.get(quantity)
        if quantity == "ratio" and change.before and change.after is not None:
            value = Fraction(change.after, change.before)
        if value is not None:
            yield change.key, value

