"""Percentiles of histograms. A histogram tells of each the bucket that it is in, whose two ends are
exact: what lies between them isn't known.
"""
import argparse
import re

from .labels import interval

PERCENT = re.compile(r"(\d{1,2}|100)(?:\.(\d{1,6}))?", re.ASCII)
MAX_PERCENTS = 20


def percents(shown):
    """Percents, separated by commas, as they are written."""
    found = shown.split(",")
    if len(found) > MAX_PERCENTS:
        raise argparse.ArgumentTypeError(f"these are more than {MAX_PERCENTS} percentiles")
    for percent in found:
        if not is_percent(percent):
            why = f"{percent[:20]!r} isn't a percent above 0 and up to 100, such as 50 or 99.9"
            raise argparse.ArgumentTypeError(why)
    return tuple(found)


def is_percent(shown):
    if not PERCENT.fullmatch(shown):
        return False
    part, whole = share(shown)
    return 0 < part <= whole


def share(percent):
    """A percent as a quotient of two whole numbers."""
    whole, fraction = PERCENT.fullmatch(percent).groups()
    fraction = fraction or ""
    return int(whole + fraction), 100 * 10 ** len(fraction)


def percentile(rows, percent):
    """The bucket that a percentile is in: the first one with which at least that part of all values
    is counted. None if there are no values.
    """
    part, whole = share(percent)
    total = sum(row.count for row in rows)
    wanted, counted = max(1, -(-part * total // whole)), 0
    for row in rows:
        counted += row.count
        if counted >= wanted:
            return row
    return None


def cells_of(rows, args):
    """The cells of the percentiles that are asked for, as `names_of` names them."""
    for percent in args.percentiles:
        yield from ends(percentile(rows, percent) if rows else None, args)


def names_of(args, of=""):
    """The columns of the percentiles: in CSV two for each, so that its ends are numbers."""
    for percent in args.percentiles:
        for end in (" from", " below") if in_two(args) else ("",):
            yield f"p{percent}{of}{end}"


def in_two(args):
    return args.form == "csv" and args.unit is None


def ends(bucket, args):
    """The cells of a bucket's two ends."""
    if in_two(args):
        found = (None, None) if bucket is None else (bucket.low, bucket.high)
        return ["" if end is None else end for end in found]
    return ["" if bucket is None else interval(bucket, args.unit)]


def table(shown, args):
    """A row for each histogram: its key, how many values it has, and its percentiles."""
    names = [*shown.aggregation.keys, "count", *names_of(args)]
    rows = [
        [*keys, sum(row.count for row in rows), *cells_of(rows, args)]
        for keys, rows in shown.entries
    ]
    return names, rows
