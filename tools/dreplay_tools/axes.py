"""Axes of pictures: keys in their order. On a scale of numbers, such as seconds, no place is left
out, so that a pause shows; where there are too many, neighbours are joined in equal steps.
"""
import re
from dataclasses import dataclass

from .held import wrap
from .labels import name

QUOTIENT = re.compile(r"/ *\d+ *\)?$")
JOINED = {"count": sum, "sum": lambda values: wrap(sum(values)), "min": min, "max": max}
GAP = "…"


@dataclass
class Axis:
    """The places of an axis: their labels, the place of each key that is shown, and how many keys
    aren't.
    """

    labels: list
    places: dict
    more: int


def is_scale(keys, expression, args):
    """Whether keys are numbers on a scale, and no names: quotients, as seconds are, or what is
    ordered by key. Of the largest entries alone the others would seem to be none.
    """
    if args.top or not are_numbers(keys):
        return False
    return args.sort == "key" or bool(QUOTIENT.search(expression))


def are_numbers(keys):
    return bool(keys) and all(isinstance(key, int) for key in keys)


def scale(keys, most):
    """The axis of a scale: each number from the least to the greatest, or as equal steps of 2, 5,
    10 .. as make at most `most` places.
    """
    first, last = min(keys), max(keys)
    step = step_of(first, last, most)
    base = first // step
    labels = [add_labels(index * step, step) for index in range(base, last // step + 1)]
    return Axis(labels, {key: key // step - base for key in keys}, 0)


def step_of(first, last, most):
    size = 1
    while True:
        for factor in (1, 2, 5):
            step = size * factor
            if last // step - first // step < most:
                return step
        size *= 10


def add_labels(first, step):
    return name(first) if step == 1 else f"{name(first)} .. {name(first + step - 1)}"


def keep(keys, weight, most):
    """At most `most` keys in their order: those that weigh most."""
    keys = list(keys)
    if len(keys) <= most:
        return keys
    heaviest = set(
        sorted(range(len(keys)), key=lambda place: weight(keys[place]), reverse=True)[:most]
    )
    return [key for place, key in enumerate(keys) if place in heaviest]


def axis_of_names(keys, weight, most):
    """The axis of names: those that weigh most, in their order."""
    shown = keep(keys, weight, most)
    labels = ["  ".join(map(name, key)) if isinstance(key, tuple) else name(key) for key in shown]
    places = {key: index for index, key in enumerate(shown)}
    return Axis(labels, places, len(keys) - len(shown))


def one_sortable(key):
    return (0, key, "") if isinstance(key, int) else (1, 0, key)


def sortable(keys):
    return [one_sortable(key) for key in keys]


def on_scale(entries, function, args, most):
    """Entries of one number as key as bars on a scale: a label and a value for each place. If
    values can't be joined, as averages, or aren't all there, gaps have a mark; none if there are
    too many.
    """
    values = {keys[0]: value for keys, value in entries}
    if function in ("count", "sum") and not args.top:
        axis, joined = scale(values, most), [[] for _ in range(most)]
        for key, value in values.items():
            joined[axis.places[key]].append(value)
        return [(label, JOINED[function](joined[index])) for index, label in enumerate(axis.labels)]
    return None if len(values) > most else with_gaps(sorted(values.items()))


def with_gaps(entries):
    """Bars by number, with a mark where numbers are left out; it has no value."""
    bars, before = [], None
    for key, value in entries:
        if before is not None and key > before + 1:
            bars.append((GAP, None))
        bars.append((name(key), value))
        before = key
    return bars
