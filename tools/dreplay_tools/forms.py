"""An answer as text for people and for other programs: tables, CSV, JSON, Markdown and folded
stacks.
"""
import csv
import io
import json
import re

from . import comparison, percentiles
from .answers import SHARED
from .comparison import Compared
from .ends import Failure
from .labels import SHARE, align, interval, printable, show_number

FORMULA = (*"=+-@", *"＝＋－＠", "\t", "\r")  # after blanks, too
MARKUP = re.compile(r"([\\`*_\[\]<|&~])")


def total_of(shown):
    """What shares are of: the sum of all values, which are counts or sums, those that aren't shown
    too.
    """
    function = shown.aggregation.function
    if function not in SHARED:
        raise Failure(f"{shown.title} is of {function}: only counts and sums have shares")
    return shown.total


def table(shown, args):
    """The columns' names and the rows of an aggregation. A histogram has a row for each bucket, or
    where percentiles are asked for one row.
    """
    if isinstance(shown, Compared):
        return comparison.table(shown, args)
    if args.percentiles and shown.aggregation.is_histogram:
        return percentiles.table(shown, args)
    names, unit, value_unit = list(shown.aggregation.keys), args.unit, args.value_unit
    if not shown.aggregation.is_histogram:
        total = total_of(shown) if value_unit == SHARE else 0
        rows = [
            [*keys, value if value_unit is None else show_number(value, value_unit, total)]
            for keys, value in shown.entries
        ]
        return [*names, shown.aggregation.value_name], rows
    rows = []
    for keys, buckets in shown.entries:
        total = sum(row.count for row in buckets)
        for row in buckets:
            ends = [row.low, row.high] if unit is None else [interval(row, unit)]
            count = show_number(row.count, SHARE, total) if value_unit == SHARE else row.count
            rows.append([*keys, *("" if end is None else end for end in ends), count])
    return [*names, *(["from", "below"] if unit is None else ["value"]), "count"], rows


def as_table(shown, args):
    """Columns of a terminal: numbers right, texts left."""
    names, rows = table(shown, args)
    texts = [*shown.aggregation.texts, *[False] * len(names)]
    keys, last, columns = len(shown.aggregation.keys), len(names) - 1, []
    for index, (name, column) in enumerate(zip(names, list(zip(*rows)) or [()] * len(names))):
        mark = "d" if index < keys else ",d"  # a number that is a key, such as a pid, is a name
        cells = [format(cell, mark) if type(cell) is int else printable(cell) for cell in column]
        if index < keys:  # an empty name is seen; an end that a bucket hasn't stays empty
            cells = [cell or '""' for cell in cells]
        others = {cell for cell in column if type(cell) is not int}
        is_right = not texts[index] and others <= {""}
        is_right |= index == last or (index >= keys and isinstance(shown, Compared))
        columns.append(align([printable(name), *cells], is_right))
    lines = [("  " + "  ".join(row)).rstrip() for row in zip(*columns)]
    return [printable(shown.title), *lines]


def as_markdown(shown, args):
    names, rows = table(shown, args)
    ends = ["---"] * (len(names) - 1) + ["---:"]
    lines = [
        f"**{escape_markdown(shown.title)}**",
        "",
        in_bars(map(escape_markdown, names)),
        "|" + "|".join(ends) + "|",
    ]
    columns = (
        [str(cell) if type(cell) is int else escape_markdown(cell) for cell in column]
        for column in zip(*rows)
    )
    return [*lines, *map(in_bars, zip(*columns))]


def escape_markdown(text):
    """A text in which Markdown sees no markup."""
    return MARKUP.sub(r"\\\1", printable(text))


def in_bars(cells):
    return "| " + " | ".join(cells) + " |"


def as_csv(shown, args):
    names, rows = table(shown, args)
    out = io.StringIO()
    writer = csv.writer(out, lineterminator="\n")
    writer.writerows(
        [guard_text(cell, args.guard) if type(cell) is str else cell for cell in row]
        for row in (names, *rows)
    )
    return out.getvalue()


def guard_text(cell, guard):
    """A text of CSV, its control bytes escaped; asked to, with a quote before what a spreadsheet
    takes for a formula.
    """
    shown = printable(cell)
    is_formula = cell.startswith(FORMULA) or cell.lstrip().startswith(FORMULA)
    return "'" + shown if guard and is_formula else shown


def as_json(texts, all_shown, args):
    """The texts and all aggregations as one value, laid out as by an indent of two. Python's
    encoder takes several times as long for such a layout.
    """
    aggregations = [in_object(members(shown, args), 2) for shown in all_shown]
    return in_object([("texts", in_json(texts)), ("aggregations", in_list(aggregations, 1))], 0)


def members(shown, args):
    aggregation = shown.aggregation
    of_entry = members_of_change if isinstance(shown, Compared) else members_of_entry
    yield "name", in_json(shown.title)
    yield "keys", in_list(map(in_json, aggregation.keys), 3)
    yield "function", in_json(aggregation.value_name)
    entries = [in_object(of_entry(shown, entry, args), 4) for entry in shown.entries]
    yield "entries", in_list(entries, 3)


def members_of_entry(shown, entry, args):
    keys, value = entry
    yield "keys", in_list(map(in_json, keys), 5)
    if not shown.aggregation.is_histogram:
        yield "value", value
        return
    yield "value", in_list([bucket_in_json(row, [("count", row.count)]) for row in value], 5)
    if args.percentiles:
        found = [percentile_in_json(percent, [("", value)]) for percent in args.percentiles]
        yield "percentiles", in_list(found, 5)


def members_of_change(shown, change, args):
    """The members of an entry of a comparison: what isn't there is null."""
    yield "keys", in_list(map(in_json, change.key), 5)
    both = [("before", change.before), ("after", change.after)]
    if not shown.aggregation.is_histogram:
        quotient = shown.quotient(change)
        both += [
            ("difference", shown.difference(change)),
            ("ratio", None if quotient is None else f"{quotient:.6g}"),
        ]
        yield from ((name, "null" if value is None else value) for name, value in both)
        return
    rows = change.before or change.after
    counts = [[of[index].count if of else 0 for _, of in both] for index in range(len(rows))]
    yield "value", in_list(
        [
            bucket_in_json(row, [("before", before), ("after", after)])
            for row, (before, after) in zip(rows, counts)
        ],
        5,
    )
    if args.percentiles:
        found = [percentile_in_json(percent, both) for percent in args.percentiles]
        yield "percentiles", in_list(found, 5)


def bucket_in_json(row, counts, depth=6):
    low, high = ("null" if end is None else end for end in (row.low, row.high))
    return in_object([("from", low), ("below", high), *counts], depth)


def percentile_in_json(percent, named):
    """A percentile of a histogram, or of two by their names."""
    found = [("percent", percent)]
    for name, rows in named:
        bucket = percentiles.percentile(rows, percent) if rows else None
        if name:
            found.append((name, "null" if bucket is None else bucket_in_json(bucket, [], 7)))
        else:
            found += [
                (end, "null" if of is None else of)
                for end, of in (("from", bucket.low), ("below", bucket.high))
            ]
    return in_object(found, 6)


def in_object(named, depth):
    """An object of JSON at a depth, of members that are JSON."""
    return in_lines("{", [f'"{name}": {value}' for name, value in named], "}", depth)


def in_list(values, depth):
    return in_lines("[", list(values), "]", depth)


def in_lines(begin, values, end, depth):
    if not values:
        return begin + end
    feed = "\n" + "  " * depth
    inner = feed + "  "
    return f"{begin}{inner}{f',{inner}'.join(values)}{feed}{end}"


def in_json(value):
    """A text or a number in JSON, all escaped that a terminal might take for a command."""
    line = json.dumps(value, ensure_ascii=False)
    if line.isprintable():
        return line
    return "".join(c if c.isprintable() else json.dumps(c)[1:-1] for c in line)


def as_folded(shown):
    """A line for each entry, as flame graphs read them: the parts of the key, and the number."""
    if shown.aggregation.is_histogram or not shown.aggregation.keys:
        raise Failure(
            f"{shown.title} has no stacks: folded stacks are of counts and sums with keys"
        )
    lines = []
    for keys, value in shown.entries:
        if value < 0:
            raise Failure(
                f"{shown.title} has a number below 0: folded stacks are of counts and sums that"
                " have none"
            )
        lines.append(";".join(frame(key) for key in keys) + f" {value}\n")
    return "".join(lines)


def frame(key):
    return printable(str(key)).replace(";", ":") or "-"
