"""Heat maps: the histograms of an aggregation beside one another, or an aggregation of two keys as
a matrix.
"""
import math
from dataclasses import dataclass
from html import escape

from .axes import JOINED, Axis, are_numbers, axis_of_names, is_scale, one_sortable, scale, sortable
from .ends import Failure
from .held import Bucket
from .labels import cut, interval, show_number
from .pictures import and_more, picture, points, text_at

MAX_COLUMNS, MAX_ROWS, MAX_BUCKETS = 60, 60, 64
WIDEST_ROW, WIDEST_COLUMN = 30, 24  # of labels
CELL, GAP, HIGH = 22, 1, 18


@dataclass
class Heat:
    """A heat map: its title, what its rows and columns are, their labels, and a number for each
    cell that has one.
    """

    title: str
    axes: str
    columns: list
    rows: list
    cells: dict  # of the places of a column and a row
    more_columns: int
    more_rows: int

    @property
    def most(self):
        return max(self.cells.values(), default=0)

    def strength(self, column, row):
        """How strong a cell's colour is, from 0 to 1; what isn't 0 shows."""
        value = self.cells.get((column, row), 0)
        return math.sqrt(value / self.most) * 0.92 + 0.08 if value > 0 else 0


def has_heat(shown):
    """Whether a heat map can be made of an aggregation."""
    keys = len(shown.aggregation.keys)
    if shown.aggregation.is_histogram:
        return keys > 0 and len(shown.entries) > 0
    return keys == 2 and len(shown.entries) > 0 and all(value >= 0 for _, value in shown.entries)


def heat_of(shown, args):
    if not has_heat(shown):
        raise Failure(
            f"{shown.title} has no heat map: one is made of histograms by key, or of counts and"
            " sums by two keys"
        )
    return (of_histograms if shown.aggregation.is_histogram else of_pairs)(shown, args)


def of_histograms(shown, args):
    """A column for each histogram, by key; a row for each bucket from the lowest to the highest,
    the highest on top, or for several that are neighbours.
    """
    keys = shown.aggregation.keys
    columns, histograms = columns_of(shown, args)
    counts = {}
    for key, rows in histograms:
        for row in rows:
            place = columns.places.get(key)
            if row.count and place is not None:
                counts[place, bounds(row)] = counts.get((place, bounds(row)), 0) + row.count
    rows = rows_of({ends for _, ends in counts}, shown.buckets)
    cells = {}
    for (column, ends), count in counts.items():
        cell = column, rows.places[ends]
        cells[cell] = cells.get(cell, 0) + count
    return Heat(
        f"{shown.title} {shown.aggregation.value_name}",
        f"by {', '.join(keys)}",
        columns.labels,
        [interval(bucket, args.unit) for bucket in rows.labels],
        cells,
        columns.more,
        0,
    )


def columns_of(shown, args):
    """The axis of an aggregation's histograms, and these by their keys on it."""
    keys = shown.aggregation.keys
    entries = sorted(shown.entries, key=lambda entry: sortable(entry[0]))
    if len(keys) == 1:
        ones = [key[0] for key, _ in entries]
        few = are_numbers(ones) and not args.top and ones[-1] - ones[0] < MAX_COLUMNS
        if few or is_scale(ones, keys[0], args):
            return scale(ones, MAX_COLUMNS), [(key[0], rows) for key, rows in entries]
    histograms = [(tuple(key), rows) for key, rows in entries]
    sizes = {key: sum(row.count for row in rows) for key, rows in histograms}
    return axis_of_names(list(sizes), sizes.get, MAX_COLUMNS), histograms


def rows_of(there, buckets):
    """The axis of buckets, from the highest down to the lowest that isn't empty, of which `there`
    has the ends; neighbours are joined where there are too many.
    """
    first, last = buckets.ends
    lowest, highest = min(there), max(there)
    every = [buckets.bucket(index, 0) for index in range(first, last + 1)]
    every = [bucket for bucket in every if lowest <= bounds(bucket) <= highest]
    joined = -(-len(every) // MAX_BUCKETS)
    groups = [every[start : start + joined] for start in range(0, len(every), joined)][::-1]
    places = {bounds(bucket): index for index, group in enumerate(groups) for bucket in group}
    return Axis([Bucket(group[0].low, group[-1].high, 0) for group in groups], places, 0)


def of_pairs(shown, args):
    """A row for each first key, a column for each second one."""
    down, across = (axis_of_part(shown, place, args) for place in (0, 1))
    cells = {}
    for (row, column), value in shown.entries:
        if row in down.places and column in across.places:
            cells.setdefault((across.places[column], down.places[row]), []).append(value)
    joined = JOINED.get(shown.aggregation.function, sum)
    return Heat(
        f"{shown.title} {shown.aggregation.value_name}",
        " by ".join(shown.aggregation.keys),
        across.labels,
        down.labels,
        {cell: joined(values) for cell, values in cells.items()},
        across.more,
        down.more,
    )


def axis_of_part(shown, place, args):
    """The axis of one of two keys. Averages can't be joined, so their numbers are names."""
    sizes = {}
    for keys, value in shown.entries:
        sizes[keys[place]] = sizes.get(keys[place], 0) + value
    keys, most = sorted(sizes, key=one_sortable), MAX_COLUMNS if place else MAX_ROWS
    on_a_scale = is_scale(keys, shown.aggregation.keys[place], args)
    if on_a_scale and (shown.aggregation.function in JOINED or keys[-1] - keys[0] < most):
        return scale(keys, most)
    return axis_of_names(keys, sizes.get, most)


def bounds(row):
    """What buckets are ordered by."""
    return (
        row.low if row.low is not None else -(2**64),
        row.high if row.high is not None else 2**64,
    )


# -- as a picture


def svg(heats, heading):
    """Heat maps below one another as a picture."""
    parts, y, wide = [], 20, 360
    if heading:
        parts.append(text_at(20, y + 8, cut(heading, 70), "title"))
        y += 36
    for heat in heats:
        drawn, size = drawn_at(heat, y)
        parts += drawn
        y, wide = y + size[1] + 24, max(wide, size[0])
    what = "; ".join(
        f"heat map of {heat.title}, {heat.axes}, up to {heat.most:,}" for heat in heats
    )
    return picture(parts, (wide, y), heading or heats[0].title, what)


def drawn_at(heat, top):
    """One heat map, and its size."""
    rows = [cut(row, WIDEST_ROW) for row in heat.rows]
    columns = [cut(column, WIDEST_COLUMN) for column in heat.columns]
    left = 28 + round(max(map(points, rows)))
    begin, end = top + 26, top + 26 + HIGH * len(rows)
    parts = [text_at(20, top + 12, cut(heat.title, 84), "chart")]
    for row, label in enumerate(rows):
        parts.append(text_at(left - 8, begin + HIGH * row + 13, label, anchor="end"))
    parts += [
        cell(heat, column, row, left, begin)
        for column, row in sorted(heat.cells)
        if heat.cells[column, row] > 0
    ]
    for column, label in enumerate(columns):
        x, y = left + CELL * column + 15, end + 8
        parts.append(
            f'<g transform="rotate(-60 {x} {y})">{text_at(x, y, label, "small", "end")}</g>'
        )
    foot = end + 30 + round(max(map(points, columns)) * 0.8)
    parts.append(text_at(20, foot, caption(heat), "muted"))
    wide = (
        max(left + CELL * len(columns), points(caption(heat)), points(cut(heat.title, 84), 13)) + 40
    )
    return parts, (round(wide), foot - top + 6)


def caption(heat):
    """What the rows and columns are, how much the strongest cell is, and what isn't drawn."""
    more = [and_more(heat.more_columns, "columns")] * bool(heat.more_columns) + [
        and_more(heat.more_rows, "rows")
    ] * bool(heat.more_rows)
    return ", ".join([heat.axes, f"the strongest is {show_number(heat.most, None)}", *more])


def cell(heat, column, row, left, begin):
    said = f"{heat.columns[column]}, {heat.rows[row]}: {show_number(heat.cells[column, row], None)}"
    x, y = left + CELL * column, begin + HIGH * row
    return (
        f'<rect x="{x}" y="{y}" width="{CELL - GAP}" height="{HIGH - GAP}" class="bar" '
        f'fill-opacity="{heat.strength(column, row):.2f}"><title>{escape(said, False)}</title>'
        "</rect>"
    )
