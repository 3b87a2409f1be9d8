"""What is held of an aggregation's arguments: how two of them are added up, what entries are
ordered by, and what is shown.

All of it is exact, so the sum of parts is what dreplay has of the whole.
"""
from dataclasses import dataclass
from typing import NamedTuple

HIGHEST_POWER = 62  # of the labels of quantize


@dataclass
class Bucket:
    """A bucket from `low` up to `high`, itself not in it; one of both is none at an open end."""

    low: int
    high: int
    count: int


class Average(NamedTuple):
    """The sum of the arguments, as a signed number of 64 bits, and how many they are."""

    total: int
    count: int

    @property
    def quotient(self):
        """The average, cut toward zero."""
        size = abs(self.total) // self.count
        return size if self.total >= 0 else -size


class Powers(NamedTuple):
    """The buckets of quantize. Their labels are 0 and the powers of two with either sign; that of 0
    has the place 0.
    """

    @property
    def ends(self):
        return -HIGHEST_POWER - 1, HIGHEST_POWER + 1

    def place(self, label):
        """The place of a label; none if it is none of these buckets."""
        size = abs(label)
        if size & (size - 1) or size > 2**HIGHEST_POWER:
            return None
        return size.bit_length() if label >= 0 else -size.bit_length()

    def label(self, place):
        if place == 0:
            return 0
        return 2 ** (place - 1) if place > 0 else -(2 ** (-place - 1))

    def bucket(self, place, count):
        low = self.label(place)
        if low >= 0:
            return Bucket(low, 2 * low if low else 1, count)
        # The lowest bucket has the least number of 64 bits too.
        return Bucket(2 * low + (place > self.ends[0]), low + 1, count)


class Steps(NamedTuple):
    """The buckets of lquantize: one below the range, with the place 0, those of the steps, and one
    above.
    """

    lower: int
    upper: int
    step: int

    @property
    def levels(self):
        return (self.upper - self.lower) // self.step

    @property
    def ends(self):
        return 0, self.levels + 1

    def place(self, label):
        """The place of a label; none if it is none of these buckets."""
        if label == self.lower - 1:
            return 0
        steps, rest = divmod(label - self.lower, self.step)
        return steps + 1 if rest == 0 and 0 <= steps <= self.levels else None

    def label(self, place):
        return self.lower + (place - 1) * self.step if place else self.lower - 1

    def bucket(self, place, count):
        low = self.label(place)
        if place == 0:
            return Bucket(None, self.lower, count)
        return Bucket(low, None if place == self.levels + 1 else low + self.step, count)


def wrap(number):
    """A whole number as a signed one of 64 bits."""
    return (number + 2**63) % 2**64 - 2**63


def add(function, one, other):
    """What is held of all the arguments of two: a number, an Average, or counts by the places of
    their buckets.
    """
    if function == "count":
        return one + other
    if function == "sum":
        return wrap(one + other)
    if function in ("min", "max"):
        return min(one, other) if function == "min" else max(one, other)
    if function == "avg":
        return Average(wrap(one.total + other.total), one.count + other.count)
    counts = dict(one)
    for place, count in other.items():
        counts[place] = counts.get(place, 0) + count
    return counts


def rank(held, buckets):
    """What entries are ordered by: the number that is shown, or the sum of label times count."""
    if type(held) is int:
        return held
    if isinstance(held, Average):
        return held.quotient
    return sum(buckets.label(place) * count for place, count in held.items())


def rows_of(counts, buckets):
    """The places that a histogram shows: from one before the lowest bucket that isn't empty to one
    after the highest, as far as there are such.
    """
    first, last = buckets.ends
    return range(max(first, min(counts) - 1), min(last, max(counts) + 1) + 1)


def figure(held, buckets):
    """What is shown: a number, or the rows of a histogram."""
    if isinstance(held, dict):
        places = rows_of(held, buckets)
        return [buckets.bucket(place, held.get(place, 0)) for place in places]
    return held.quotient if isinstance(held, Average) else held
