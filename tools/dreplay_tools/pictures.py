"""Charts of an answer: bars in a terminal, and pictures in SVG that have a dark form and words for
screen readers.
"""
from dataclasses import dataclass
from html import escape

from .axes import are_numbers, on_scale
from .forms import total_of
from .labels import SHARE, align, cut, interval, name, pad, show_number, width
from .percentiles import percentile

MAX_BARS, MAX_BUCKETS, MAX_CHARTS = 40, 1000, 40
EIGHTHS = " ▏▎▍▌▋▊▉█"
WIDTH, ROW, WIDEST_LABEL = 760, 20, 40
FONT = "font-family=\"'DejaVu Sans', Verdana, sans-serif\""
# Plain colours, as not every program that draws SVG knows variables; browsers know the dark form.
STYLE = """<style>
text { fill: #1f2328; font-size: 12px; }
.surface { fill: #ffffff; } .bar { fill: #2a6fb0; } .muted { fill: #59636e; }
.small { fill: #59636e; font-size: 11px; }
.title { font-size: 17px; font-weight: bold; } .chart { font-size: 13px; font-weight: bold; }
.grid { stroke: #d1d9e0; } .axis { stroke: #59636e; }
@media (prefers-color-scheme: dark) {
text { fill: #e6edf3; } .surface { fill: #0d1117; } .bar { fill: #58a6ff; }
.muted, .small { fill: #9198a1; }
.grid { stroke: #30363d; } .axis { stroke: #9198a1; }
}
</style>
"""


@dataclass
class Chart:
    """A chart: its title and what it is of, the labels of its bars in columns, its numbers and how
    these are shown.
    """

    title: str
    what: str
    labels: list
    right: list  # for each column of labels whether it is aligned right
    values: list
    shown: list
    unit: str
    more: int = 0  # how many bars aren't drawn
    of: str = "entries"  # what the bars are
    percentiles: str = ""

    @property
    def notes(self):
        """The lines below it: how many bars aren't drawn, and its percentiles."""
        more = and_more(self.more, self.of) if self.more else ""
        return [line for line in (more, self.percentiles) if line]


def charts(all_shown, args):
    """The charts of an answer, the most telling ones first, and how many more there are."""
    wanted = []
    for shown in all_shown:
        if shown.aggregation.is_histogram:
            wanted += [(shown, *entry) for entry in shown.entries]
        elif shown.entries:
            wanted.append((shown,))
    drawn = [
        (histogram if shown.aggregation.is_histogram else bars_of)(shown, *entry, args)
        for shown, *entry in wanted[:MAX_CHARTS]
    ]
    return drawn, len(wanted) - len(drawn)


def histogram(shown, keys, rows, args):
    total, found = sum(row.count for row in rows), shown_percentiles(rows, args)
    rows, more = largest(rows, MAX_BUCKETS, lambda row: row.count)
    unit = SHARE if args.value_unit == SHARE else None
    what = f"{shown.title} {shown.aggregation.value_name}"
    title = "  ".join(map(name, keys))
    return Chart(
        title or what,
        what if title else "",
        [[interval(row, args.unit)] for row in rows],
        [True],
        [row.count for row in rows],
        [show_number(row.count, unit, total) for row in rows],
        None,
        more,
        "buckets",
        found,
    )


def shown_percentiles(rows, args):
    """The percentiles of a histogram that are asked for, in a line."""
    found = [(percent, percentile(rows, percent)) for percent in args.percentiles or ()]
    return ", ".join(f"p{percent} {interval(row, args.unit)}" for percent, row in found if row)


def bars_of(shown, args):
    """The chart of an aggregation of numbers: the largest entries."""
    total = total_of(shown) if args.value_unit == SHARE else 0
    labels, values, more = labelled_bars(shown, args)
    right = [not is_text for is_text in shown.aggregation.texts] or [False]
    unit = None if args.value_unit == SHARE else args.value_unit
    shown_values = [
        "" if value is None else show_number(value, args.value_unit, total) for value in values
    ]
    values = [value or 0 for value in values]
    return Chart(
        f"{shown.title} {shown.aggregation.value_name}",
        "",
        labels,
        right,
        values,
        shown_values,
        unit,
        more,
    )


def labelled_bars(shown, args):
    """The labels and values of bars, and how many entries have none: the largest ones, or by number
    on a scale, where a mark of a gap has no value.
    """
    ones = [keys[0] for keys, _ in shown.entries if len(keys) == 1]
    if args.sort == "key" and are_numbers(ones):
        bars = on_scale(shown.entries, shown.aggregation.function, args, MAX_BARS)
        if bars is not None:
            return [[label] for label, _ in bars], [value for _, value in bars], 0
    entries, more = largest(shown.entries, MAX_BARS, lambda entry: abs(entry[1]))
    labels = [[name(key) for key in keys] or [shown.title] for keys, _ in entries]
    return labels, [value for _, value in entries], more


def largest(some, most, size):
    """At most `most` of some, those of the largest sizes, in their order; and how many are left
    out.
    """
    if len(some) <= most:
        return some, 0
    sizes = list(map(size, some))
    order = sorted(range(len(some)), key=sizes.__getitem__, reverse=True)
    return [some[place] for place in sorted(order[:most])], len(some) - most


def and_more(count, what):
    return f"and {count:,} more {what}"


# -- in a terminal


def in_terminal(chart, columns):
    """A chart as lines of `columns` columns, or of as many as its numbers need."""
    numbers = max(map(width, chart.shown))
    most_label = max(12, columns - numbers - 15)
    labels = in_columns(chart.labels, chart.right)
    labels = [cut(label, most_label) for label in labels]
    left = max(map(width, labels))
    room = max(10, columns - left - numbers - 5)
    below, above = max(0, -min(chart.values)), max(0, max(chart.values))
    before = round(room * below / (below + above)) if below else 0
    scale = (room - before) / above if above else before / below if below else 0
    yield cut("  ".join(part for part in (chart.title, chart.what) if part), max(20, columns))
    for label, value, shown in zip(labels, chart.values, chart.shown):
        place = pad(label, left, right=chart.right == [True])
        yield f"  {place} {pad(shown, numbers, right=True)} {bar(value, scale, before)}".rstrip()
    yield from (f"  {note}" for note in chart.notes)


def in_columns(rows, right):
    """Rows of texts as lines, each text as wide as the widest in its place."""
    columns = [align(column, is_right) for column, is_right in zip(zip(*rows), right)]
    return ["  ".join(row).rstrip() for row in zip(*columns)]


def bar(value, scale, before):
    """A bar of a terminal, in eighths of a column; what isn't 0 shows. One of a number below 0 goes
    to the left.
    """
    if value < 0:
        return ("█" * max(1, round(-value * scale))).rjust(before)
    eighths = max(round(value * scale * 8), 1) if value else 0
    return " " * before + "█" * (eighths // 8) + (EIGHTHS[eighths % 8] if eighths % 8 else "")


# -- in a picture


def points(text, size=12):
    """How wide a text is in a picture, at most: wide letters of the font, or of Asia, count for
    more.
    """
    wide = (
        sum(letter in "mwMW@%" for letter in text) * 0.4
        + sum(letter.isupper() for letter in text) * 0.12
    )
    return (width(text) * 0.64 + wide) * size


def text_at(x, y, shown, kind="", anchor="start"):
    end = f' text-anchor="{anchor}"' if anchor != "start" else ""
    return f'<text x="{round(x, 1)}" y="{y}"{end}{css(kind)}>{escape(shown, False)}</text>'


def css(kind):
    return f' class="{kind}"' if kind else ""


def line(x1, y1, x2, y2, kind):
    return f'<line x1="{x1}" y1="{y1}" x2="{x2}" y2="{y2}" class="{kind}"/>'


def picture(parts, size, title, what):
    """A whole picture of its parts, with a title and words that say what is seen."""
    wide, high = size
    box = f'width="{wide}" height="{high}" viewBox="0 0 {wide} {high}"'
    named = f'role="img" aria-label="{escape(title)}" {FONT}'
    head = [
        f'<svg xmlns="http://www.w3.org/2000/svg" {box} {named}>',
        f"<title>{escape(title, False)}</title>",
        f"<desc>{escape(what, False)}</desc>",
        f'{STYLE}<rect width="{wide}" height="{high}" class="surface"/>',
    ]
    return "\n".join([*head, *parts, "</svg>\n"])


def svg(charts_to_draw, more, heading):
    """Charts below one another as a picture: a bar for each label, with its number at its end."""
    parts, y = [], 20
    wide = max(map(width_needed, charts_to_draw))
    if heading:
        parts.append(text_at(20, y + 8, cut(heading, 70), "title"))
        y += 36
    for chart in charts_to_draw:
        drawn, height = chart_at(chart, y, wide)
        parts += drawn
        y += height + 24
    if more:
        parts.append(text_at(20, y, and_more(more, "charts"), "muted"))
        y += 20
    titles = [chart.title for chart in charts_to_draw]
    return picture(parts, (wide, y), heading or titles[0], "; ".join(map(describe, charts_to_draw)))


def describe(chart):
    """A chart in words, for who can't see it."""
    place = max(range(len(chart.values)), key=lambda place: chart.values[place])
    label = " ".join(chart.labels[place])
    return (
        f"bars of {chart.title}: {len(chart.values) + chart.more:,}, the largest is {label} with"
        f" {chart.shown[place]}"
    )


def width_needed(chart):
    """How wide a picture has to be for a chart."""
    return max(WIDTH, round(labels_of(chart)[1] + 190 + points(max(chart.shown, key=points))))


def chart_at(chart, top, wide):
    """One chart of a picture, and how high it is."""
    title = [text_at(20, top + 12, cut(chart.title, 84), "chart")]
    if chart.what:
        after = 20 + points(cut(chart.title, 84), 13) * 1.1 + 12
        title.append(
            text_at(after, top + 12, cut(chart.what, max(10, int((wide - after) / 8))), "muted")
        )
    labels, left = labels_of(chart)
    right = wide - 30 - points(max(chart.shown, key=points))
    begin, end = top + 30, top + 30 + ROW * len(chart.values)
    axis = Axis(chart.values, left, right)
    parts = [*title, *axis.lines(begin, end, chart.unit)]
    for index, (value, shown) in enumerate(zip(chart.values, chart.shown)):
        y = begin + ROW * index
        parts += [text_at(x, y + 12, text, anchor=anchor) for x, text, anchor in labels[index]]
        start, length = axis.bar(value)
        parts.append(
            f'<rect x="{start}" y="{y}" width="{length}" height="{ROW - 4}" rx="2" class="bar"/>'
        )
        parts.append(text_at(max(start + length, axis.zero) + 6, y + 12, shown, "muted"))
    parts.append(line(axis.zero, begin - 4, axis.zero, end + 2, "axis"))
    for index, note in enumerate(chart.notes):
        shown = cut(note, max(10, int((wide - left) / 8)))
        parts.append(text_at(left, end + 36 + 18 * index, shown, "muted"))
    return parts, end + 22 - top + 18 * len(chart.notes)


def labels_of(chart):
    """For each bar its labels with their places, each part of a key in a column of its own; and
    where the bars begin.
    """
    most = max(8, WIDEST_LABEL // len(chart.right))
    rows = [[cut(part, most) for part in row] for row in chart.labels]
    widths = [max(points(part) for part in column) for column in zip(*rows)]
    if len(widths) == 1:
        left = 28 + max(60, round(widths[0]))
        return [[(left - 8, row[0], "end")] for row in rows], left
    starts, x = [], 20
    for column in widths:
        starts.append(x)
        x += column + 14
    placed = [
        [
            (start + (column if right else 0), part, "end" if right else "start")
            for start, column, part, right in zip(starts, widths, row, chart.right)
        ]
        for row in rows
    ]
    return placed, round(x)


class Axis:
    """The scale of a chart: round numbers from the least to the greatest, and 0 among them."""

    def __init__(self, values, left, right):
        low, high = min(0, *values), max(0, *values)
        self.steps = steps_of(low, high)
        self.left, self.scale = left, (right - left) / (self.steps[-1] - self.steps[0])
        self.zero = self.x(0)

    def x(self, value):
        return round(self.left + (value - self.steps[0]) * self.scale, 1)

    def bar(self, value):
        """Where a number's bar begins, and how long it is; what isn't 0 shows."""
        length = max(round(abs(value) * self.scale, 1), 1.5) if value else 0
        return (round(self.zero - length, 1) if value < 0 else self.zero), length

    def lines(self, begin, end, unit):
        for value in self.steps:
            x = self.x(value)
            yield line(x, begin - 4, x, end + 2, "grid")
            yield text_at(x, end + 17, show_number(value, unit), "small", "middle")


def steps_of(low, high):
    """Round numbers for the lines of a scale, at most six, from the least or below (0 at most) to
    the greatest or above.
    """
    size = 1
    while True:
        for factor in (1, 2, 5):
            step = size * factor
            first, last = low // step, -(-high // step)
            if last - first <= 5:
                return [step * index for index in range(first, max(last, first + 1) + 1)]
        size *= 10
