"""What a run shows: its texts, and then its aggregations (docs/OUTPUT.md)."""
from collections import Counter

from .values import LONG, quotient

HEADER = b"%16s %41s %-9s\n" % (b"value", b"------------- Distribution -------------", b"count")
SIGNS = 40
HIGHEST_POWER = 62


def total(arguments):
    return LONG.wrap(sum(arguments))


SINGLES = {
    "count": len,
    "sum": total,
    "min": min,
    "max": max,
    "avg": lambda arguments: quotient(total(arguments), len(arguments)),
}


class Powers:
    """The buckets of quantize: their labels are 0, and the powers of two up to 2^62 with either
    sign."""

    labels = (
        [-(2**power) for power in range(HIGHEST_POWER, -1, -1)]
        + [0]
        + [2**power for power in range(HIGHEST_POWER + 1)]
    )

    def bucket(self, value):
        """A value above 0 has the greatest label not above it, one below 0 the least not below
        it."""
        power = min(abs(value).bit_length() - 1, HIGHEST_POWER)
        return self.labels.index(2**power if value > 0 else -(2**power) if value else 0)

    def label(self, bucket):
        return self.labels[bucket]

    def shown_label(self, bucket):
        return b"%d" % self.labels[bucket]

    def last(self):
        return len(self.labels) - 1


class Steps:
    """The buckets of lquantize: one below the range, its levels, and one above."""

    def __init__(self, linear):
        self.linear = linear

    def bucket(self, value):
        if value < self.linear.lower:
            return 0
        return min((value - self.linear.lower) // self.linear.step, self.linear.levels) + 1

    def label(self, bucket):
        return (
            self.linear.lower + (bucket - 1) * self.linear.step if bucket else self.linear.lower - 1
        )

    def shown_label(self, bucket):
        if bucket == 0:
            return b"< %d" % self.linear.lower
        return (b">= %d" if bucket == self.last() else b"%d") % self.label(bucket)

    def last(self):
        return self.linear.levels + 1


class Single:
    """An entry that is one number."""

    def __init__(self, function, arguments):
        self.rank = SINGLES[function](arguments)

    def write(self):
        return b" %16d\n" % self.rank


class Histogram:
    """An entry that counts its arguments by buckets. Its rank is the sum of label times count."""

    def __init__(self, buckets, arguments):
        self.buckets = buckets
        self.counts = Counter(map(buckets.bucket, arguments))
        self.rank = sum(buckets.label(bucket) * count for bucket, count in self.counts.items())

    def write(self):
        first, last = max(0, min(self.counts) - 1), min(self.buckets.last(), max(self.counts) + 1)
        return b"\n" + HEADER + b"".join(map(self.row, range(first, last + 1))) + b"\n"

    def row(self, bucket):
        count, total = self.counts[bucket], self.counts.total()
        signs = b"@" * ((2 * SIGNS * count + total) // (2 * total))
        return b"%16s |%-40s %-9d\n" % (self.buckets.shown_label(bucket), signs, count)


def figure(aggregation, arguments):
    """What an entry shows for its arguments."""
    if aggregation.function in SINGLES:
        return Single(aggregation.function, arguments)
    return Histogram(Steps(aggregation.linear) if aggregation.linear else Powers(), arguments)


def part(value):
    """The bytes of a part of a key."""
    return b"  %-50s" % value if isinstance(value, bytes) else b" %16d" % value


def sort_entries(aggregation, entries):
    """The entries of an aggregation with their keys, ascending by rank and then by key."""
    figures = [(figure(aggregation, arguments), key) for key, arguments in entries.items()]
    return sorted(figures, key=lambda pair: (pair[0].rank, pair[1]))


def listing(aggregation, entries):
    """The bytes of an aggregation."""
    figures = sort_entries(aggregation, entries)
    return b"\n" + b"".join(b"".join(map(part, key)) + shown.write() for shown, key in figures)


def render(script, shown):
    """All bytes that a run shows."""
    listings = [
        listing(aggregation, shown.arguments[name])
        for name, aggregation in script.aggregations.items()
        if name in shown.arguments
    ]
    return b"".join([text for _, text in shown.texts] + listings)
