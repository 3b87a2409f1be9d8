"""Two answers to one script side by side: of each entry what it was before and what it is after."""
from dataclasses import dataclass

from . import percentiles
from .answers import OTHER_ANSWER, SHARED, by_bytes
from .ends import Failure
from .held import figure, rank, rows_of
from .labels import SHARE, interval, show_number
from .script import Aggregation

FORMS = ["table", "csv", "json", "markdown", "html"]
NEW, GONE = "new", "gone"


@dataclass
class Change:
    """An entry of two answers: its key, and what is shown of it in each; none if it isn't."""

    key: list
    before: object
    after: object

    @property
    def is_new(self):
        return self.before is None

    @property
    def is_gone(self):
        return self.after is None


@dataclass
class Compared:
    """An aggregation of two answers."""

    aggregation: Aggregation
    entries: list  # the changes, the largest first
    totals: tuple  # of all values, before and after

    @property
    def title(self):
        return self.aggregation.title

    def difference(self, change):
        """By how much a number rose; none if an answer without it says nothing of it."""
        before, after = self.number(change.before), self.number(change.after)
        return None if None in (before, after) else after - before

    def number(self, value):
        """What is counted or added up is 0 if there is no entry."""
        return 0 if value is None and self.aggregation.function in SHARED else value

    @staticmethod
    def quotient(change):
        """How many times as large a number is now; none if that can't be said."""
        if not change.before or change.after is None:
            return None
        return change.after / change.before


def compare(before, after):
    """The aggregation of two tables, one of which may be none."""
    if before and after and before.kind != after.kind:
        why = f"{after.title} isn't that of the answer before, so of another script"
        raise Failure(why, OTHER_ANSWER)
    table = after or before
    held = [of.held if of else {} for of in (before, after)]
    entries = [(key, *(of.get(key) for of in held)) for key in {**held[1], **held[0]}]
    entries.sort(key=lambda entry: by_bytes(entry[0]))
    entries.sort(key=lambda entry: change_of(*entry[1:], table.buckets), reverse=True)
    return Compared(
        table.aggregation,
        [compare_values(entry, table.buckets) for entry in entries],
        tuple(sum(of.values()) if table.aggregation.function in SHARED else 0 for of in held),
    )


def change_of(before, after, buckets):
    """By how much the number changed that entries of one answer are ordered by."""
    ranks = [0 if held is None else rank(held, buckets) for held in (before, after)]
    return abs(ranks[1] - ranks[0])


def compare_values(entry, buckets):
    key, before, after = entry
    if buckets is None:
        figures = [None if held is None else figure(held, None) for held in (before, after)]
        return Change(list(key), *figures)
    places = rows_of({**(before or {}), **(after or {})}, buckets)
    return Change(list(key), *(rows_over(places, of, buckets) for of in (before, after)))


def rows_over(places, counts, buckets):
    """The rows of a histogram over the places of both."""
    if counts is None:
        return None
    return [buckets.bucket(place, counts.get(place, 0)) for place in places]


def count_of(rows):
    return sum(row.count for row in rows or [])


# -- as a table


def table(shown, args):
    """The columns' names and the rows of a comparison. A histogram has a row for each bucket, or
    where percentiles are asked for one row.
    """
    keys = list(shown.aggregation.keys)
    if not shown.aggregation.is_histogram:
        names = [*keys, "before", "after", "difference", "ratio"]
        return names, [[*change.key, *cells(shown, change, args)] for change in shown.entries]
    if args.percentiles:
        return table_of_percentiles(shown, args)
    ends = ["from", "below"] if args.unit is None else ["value"]
    rows = [[*change.key, *row] for change in shown.entries for row in bucket_rows(change, args)]
    return [*keys, *ends, "before", "after", "difference"], rows


def cells(shown, change, args):
    """What a number was and is, how much it rose, and by which factor."""
    unit = args.value_unit
    if unit == SHARE:
        shares = [share(shown, *pair) for pair in zip((change.before, change.after), shown.totals)]
        points = f"{shares[1] - shares[0]:+.1f} %"
        return [*(f"{of:.1f} %" for of in shares), points, ratio(shown, change, args)]
    numbers = change.before, change.after, shown.difference(change)
    shown_as = ["" if number is None else number for number in numbers]
    if unit is not None:
        shown_as = ["" if it == "" else show_number(it, unit) for it in shown_as]
    return [*shown_as, ratio(shown, change, args)]


def share(shown, value, total):
    if shown.aggregation.function not in SHARED:
        raise Failure(
            f"{shown.title} is of {shown.aggregation.function}: only counts and sums have shares"
        )
    return 100 * (value or 0) / total if total else 0.0


def ratio(shown, change, args):
    """By which factor a number rose; a person is told of an entry of one answer alone."""
    if (change.is_new or change.is_gone) and args.form != "csv":
        return NEW if change.is_new else GONE
    quotient = shown.quotient(change)
    if quotient is None:
        return ""
    return f"{quotient:.0f}" if abs(quotient) >= 1000 else f"{quotient:.3g}"


def bucket_rows(change, args):
    """The rows of the buckets of both histograms."""
    both = change.before or change.after
    totals = count_of(change.before), count_of(change.after)
    for index, row in enumerate(both):
        counts = [rows[index].count if rows else 0 for rows in (change.before, change.after)]
        ends = [row.low, row.high] if args.unit is None else [interval(row, args.unit)]
        if args.value_unit == SHARE:
            shares = [100 * count / (total or 1) for count, total in zip(counts, totals)]
            counts = [f"{it:.1f} %" for it in shares] + [f"{shares[1] - shares[0]:+.1f} %"]
        else:
            counts.append(counts[1] - counts[0])
        yield [*("" if end is None else end for end in ends), *counts]


def table_of_percentiles(shown, args):
    names = [*shown.aggregation.keys, "before", "after"]
    for percent in args.percentiles:
        for of in (" before", " after"):
            names += percentiles.names_of(alone(args, percent), of)
    rows = []
    for change in shown.entries:
        both = change.before, change.after
        row = [*change.key, *map(count_of, both)]
        for percent in args.percentiles:
            for rows_of_one in both:
                row += percentiles.cells_of(rows_of_one, alone(args, percent))
        rows.append(row)
    return names, rows


def alone(args, percent):
    """The options with one percentile."""
    return type(args)(**{**vars(args), "percentiles": (percent,)})
