"""The options of how an answer is shown, which dreplay-show and dreplay-ask have."""
import argparse

from .command_line import number
from .percentiles import percents

FORMS = ["table", "csv", "json", "markdown", "bars", "svg", "heat", "html", "folded", "timeline"]
UNITS = ["ns", "us", "ms", "s", "bytes"]
MIN_COLUMNS = 20  # in which a bar has room beside its label
DEFAULTS = {"form": "table", "title": "", "width": 80}


def columns(shown):
    """A width of bars."""
    width = number(shown)
    if width < MIN_COLUMNS:
        raise argparse.ArgumentTypeError(f"bars take {MIN_COLUMNS} columns at least")
    return width


OPTIONS = [  # how the help shows each, what it says of it, and what argparse has to know
    ("-f FORM", f"one of {', '.join(FORMS)} (table)", dict(dest="form", choices=FORMS)),
    ("--top N", "the N largest entries of each aggregation, the greatest first", dict(type=number)),
    (
        "--sort",
        "the order: by key, or the greatest value first",
        dict(choices=["key", "value"]),
    ),
    ("--only NAME", "the aggregation of this name alone: reads or @reads", {}),
    (
        "--columns NAMES",
        "names for the keys, separated by commas, in place of the expressions",
        {},
    ),
    ("--unit", "what histograms are of: labels get units that fit", dict(choices=UNITS)),
    (
        "--value-unit",
        "what counts, sums and the like are of; %% for shares of the total",
        dict(choices=[*UNITS, "%"]),
    ),
    (
        "--percentiles P,..",
        "of histograms: the two ends of the bucket that each is in, such as 50,99.9",
        dict(type=percents),
    ),
    (
        "--fail-if CONDITION",
        "end with status 5 if it is true, such as 'value > 100' or '@latency.p99 > 1000000'",
        dict(dest="condition"),
    ),
    ("--title TEXT", "a title", {}),
    ("--width N", "the width of bars in columns (80)", dict(type=columns)),
    ("--guard", "in csv: a quote before texts that a spreadsheet takes for a formula", {}),
    ("-o FILE", "where it goes; standard output without this", dict(dest="out")),
]


def add_shown(parser):
    """The options of how an answer is shown."""
    for usage, explanation, how in OPTIONS:
        parser.add_option(usage, explanation, **how)
    parser.set_defaults(**DEFAULTS)


def words_of(args):
    """The words of a command line that set what `args` has of these options."""
    for usage, _, how in OPTIONS:
        name = usage.split()[0]
        dest = how.get("dest", name.lstrip("-").replace("-", "_"))
        value = getattr(args, dest)
        value = ",".join(value) if isinstance(value, tuple) else value
        if value is True:
            yield name
        elif value not in (None, False, DEFAULTS.get(dest)):
            yield f"{name}={value}" if name.startswith("--") else f"{name}{value}"
