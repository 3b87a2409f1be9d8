"""An answer as one page for a browser: tables that sort, bars, histograms and heat maps. It loads
nothing else.
"""
from html import escape

from . import page_parts
from .comparison import Compared
from .ends import say_count
from .forms import table
from .heat import WIDEST_COLUMN, WIDEST_ROW, caption, has_heat, heat_of
from .labels import SHARE, cut, interval, name, printable, show_number
from .pictures import MAX_BUCKETS, MAX_CHARTS, and_more, largest

MAX_ROWS = 20_000
WIDEST_INTERVAL = 28  # of a histogram's labels in one line
MIN_IN_HEAT = 3  # rows and columns, below which a heat map shows no more than a table

STYLE = """
:root { color-scheme: light dark; --surface: #ffffff; --ink: #1f2328; --muted: #59636e;
  --grid: #d1d9e0; --bar: #2a6fb0;
  --head: #f6f8fa; --heat: 42, 111, 176; }
@media (prefers-color-scheme: dark) { :root { --surface: #0d1117; --ink: #e6edf3;
  --muted: #9198a1; --grid: #30363d;
  --bar: #58a6ff; --head: #161b22; --heat: 88, 166, 255; } }
* { box-sizing: border-box; }
body { margin: 0 auto; padding: 1rem; max-width: 72rem; background: var(--surface);
  color: var(--ink);
  font: 15px/1.45 system-ui, "DejaVu Sans", Verdana, sans-serif; }
h1 { font-size: 1.5rem; margin: .5rem 0 1rem; overflow-wrap: anywhere; }
h2 { font-size: 1.15rem; margin: 2rem 0 .25rem; overflow-wrap: anywhere; }
h3 { font-size: .95rem; margin: 0 0 .4rem; overflow-wrap: anywhere; }
p, .muted { color: var(--muted); margin: .25rem 0 .75rem; }
code, pre { font-family: "DejaVu Sans Mono", ui-monospace, monospace; font-size: .85rem; }
pre { background: var(--head); padding: .75rem; overflow-x: auto; border-radius: 6px;
  max-height: 24rem; }
/* A shade where there is more to scroll to: the first two layers move, and cover it at the end. */
.scroll { overflow: auto; max-height: 90vh; margin-bottom: .75rem; background:
  linear-gradient(var(--surface), var(--surface)) bottom / 100% 10px no-repeat local,
  linear-gradient(var(--surface), var(--surface)) right / 10px 100% no-repeat local,
  linear-gradient(transparent, var(--grid)) bottom / 100% 10px no-repeat,
  linear-gradient(to right, transparent, var(--grid)) right / 10px 100% no-repeat; }
table { border-collapse: collapse; font-variant-numeric: tabular-nums; }
table.data { width: 100%; }
th, td { padding: .2rem .6rem; text-align: left; vertical-align: top;
  border-bottom: 1px solid var(--grid);
  overflow-wrap: anywhere; }
.number { text-align: right; white-space: nowrap; overflow-wrap: normal; }
thead th { background: var(--head); position: sticky; top: 0; z-index: 1; }
thead th, th button { overflow-wrap: break-word; }
th button { all: unset; cursor: pointer; font-weight: 600; }
th button:focus-visible { outline: 2px solid var(--bar); outline-offset: 2px; }
th[aria-sort=ascending] button::after { content: " \\25b4"; }
th[aria-sort=descending] button::after { content: " \\25be"; }
.bars { width: 38%; min-width: 3rem; } @media (max-width: 40rem) { .data .bars { width: 18%; } }
.track { position: relative; height: 1rem; margin-top: .2rem; }
.track i { position: absolute; top: 0; bottom: 0; background: var(--bar); border-radius: 2px;
  min-width: 2px; }
.track .zero { background: var(--muted); min-width: 1px; top: -.2rem; bottom: -.2rem; }
.cards { display: grid; gap: 1rem; margin-bottom: .75rem;
  grid-template-columns: repeat(auto-fill, minmax(min(20rem, 100%), 1fr)); }
.card { border: 1px solid var(--grid); border-radius: 8px; padding: .75rem; min-width: 0;
  overflow-x: auto; }
.card table { width: 100%; } .card th, .card td { border: 0; padding: .05rem .4rem .05rem 0;
  font-weight: normal; }
.card th { text-align: right; white-space: nowrap; } .card th.long { white-space: normal;
  overflow-wrap: normal; }
.card .bars { width: 55%; min-width: 3rem; }
.heat { font-size: .75rem; } .heat caption { text-align: left; padding-bottom: .3rem; }
.heat th { font-weight: normal; white-space: nowrap; border: 0; padding: .1rem .5rem; }
.heat td { border: 1px solid var(--surface); padding: 0; min-width: 1.3rem; height: 1.15rem;
  background: rgba(var(--heat), var(--v, 0)); }
.heat tbody th { position: sticky; left: 0; background: var(--surface); text-align: right; }
.heat tfoot th { writing-mode: vertical-rl; text-orientation: sideways; transform: rotate(180deg);
  text-align: right; max-height: 12rem; padding: .3rem 0; }
.track i, .heat td, .key i, .scale i { -webkit-print-color-adjust: exact;
  print-color-adjust: exact; }
@media print { .scroll { overflow: visible; } .scroll, pre { max-height: none; }
  .heat { font-size: .5rem; } .heat td { min-width: 0; width: .55rem; }
  .heat tfoot th { line-height: 1; }
  .cards { grid-template-columns: repeat(3, 1fr); gap: .5rem; }
  .card { font-size: .65rem; padding: .4rem; }
  .card .track, .pair .track { height: .45rem; margin-top: .1rem; }
  table.data { font-size: .75rem; } .data .number { white-space: normal; }
  .data th, .data td { padding: .15rem .3rem; overflow-wrap: break-word; }
  thead th { position: static; } tr, .card, h2, h3 { break-inside: avoid; }
  h2, h3 { break-after: avoid; } }
"""

SCRIPT = """
for (const button of document.querySelectorAll("th button"))
button.addEventListener("click", () => {
  const head = button.parentElement, body = head.closest("table").tBodies[0];
  const place = head.cellIndex, up = head.getAttribute("aria-sort") === "descending" ? 1 : -1;
  const value = row => {
    const cell = row.cells[place], number = cell.dataset.n;
    return number === undefined ? cell.textContent : BigInt(number);
  };
  const rows = [...body.rows].map(row => [value(row), row]);
  rows.sort((a, b) => up * (a[0] < b[0] ? -1 : a[0] > b[0] ? 1 : 0));
  for (const other of head.parentElement.cells) other.removeAttribute("aria-sort");
  head.setAttribute("aria-sort", up > 0 ? "ascending" : "descending");
  body.append(...rows.map(row => row[1]));
});
"""

HEAD = """<!DOCTYPE html>
<html lang="en">
<head>
<meta charset="utf-8">
<meta name="viewport" content="width=device-width, initial-scale=1">
<meta http-equiv="Content-Security-Policy"
  content="default-src 'none'; style-src 'unsafe-inline'; script-src 'unsafe-inline'">
<title>{title}</title>
<style>{style}</style>
</head>
<body>
<h1>{title}</h1>
"""


def page(texts, all_shown, args, script, origin):
    """The lines of a page."""
    from . import compared_page

    style = STYLE + page_parts.STYLE + compared_page.STYLE
    yield HEAD.format(title=escape(args.title or "An answer of dreplay"), style=style)
    if not all_shown:
        yield "<p>No aggregation has an entry.</p>"
    for shown in all_shown:
        is_compared = isinstance(shown, Compared)
        yield from (compared_page.section if is_compared else section)(shown, args)
    if texts:
        yield "<h2>Texts</h2>"
        yield f"<pre>{escape(in_lines(texts))}</pre>"
    if script is not None:
        yield "<h2>Script</h2>"
        yield f"<pre>{escape(in_lines(script.text))}</pre>"
    yield from origin.foot()
    yield f"<script>{SCRIPT}{page_parts.SCRIPT}</script>\n</body>\n</html>"


def in_lines(text):
    return "\n".join(printable(line.expandtabs()) for line in text.split("\n"))


def section(shown, args):
    """An aggregation: a heat map where there is one, histograms or a table of bars, and all its
    rows.
    """
    aggregation = shown.aggregation
    yield f"<section>\n<h2>{escape(printable(shown.title))}</h2>"
    by = f" by {escape(printable(', '.join(aggregation.keys)))}" if aggregation.keys else ""
    yield (
        f"<p><code>{escape(printable(aggregation.value_name))}</code>{by};"
        f" {say_count(len(shown.entries), 'entry', 'entries')}</p>"
    )
    if has_heat(shown):
        heat = heat_of(shown, args)
        if min(len(heat.rows), len(heat.columns)) >= MIN_IN_HEAT:
            yield from heat_table(heat)
    if aggregation.is_histogram:
        if args.percentiles:
            yield from data_table(shown, args, with_bars=False)
        yield '<div class="cards">'
        for keys, rows in shown.entries[:MAX_CHARTS]:
            yield from card(keys, rows, args)
        yield "</div>"
        if len(shown.entries) > MAX_CHARTS:
            yield f"<p>{and_more(len(shown.entries) - MAX_CHARTS, 'histograms')}</p>"
        yield "<details><summary>All buckets</summary>"
        whole = type(args)(**{**vars(args), "percentiles": None})
        yield from data_table(shown, whole, with_bars=False)
        yield "</details>"
    else:
        yield from data_table(shown, args, with_bars=True)
    yield "</section>"


def data_table(shown, args, with_bars):
    """A table whose columns sort at a click."""
    names, rows = table(shown, args)
    sorts = [entry[1] for entry in shown.entries] if with_bars else [row[-1] for row in rows]
    more = len(rows) - MAX_ROWS
    if more > 0 and with_bars:
        entries, _ = largest(list(zip(rows, sorts)), MAX_ROWS, lambda entry: abs(entry[1]))
        rows, sorts = map(list, zip(*entries))
    rows = rows[:MAX_ROWS]
    is_number = [
        *(not is_text for is_text in shown.aggregation.texts),
        *[True] * (len(names) - len(shown.aggregation.texts)),
    ]
    bars = Bars(sorts) if with_bars else None
    yield '<div class="scroll"><table class="data"><thead><tr>'
    for title, number in zip(names, is_number):
        yield (
            f'<th scope="col"{" class=number" * number}><button'
            f' type="button">{escape(printable(title))}</button></th>'
        )
    yield ("<th class=bars></th>" if with_bars else "") + "</tr></thead><tbody>"
    for row, value in zip(rows, sorts):
        keys = len(shown.aggregation.keys)
        cells = [
            cell(part, number, is_key=index < keys)
            for index, (part, number) in enumerate(zip(row[:-1], is_number))
        ]
        cells.append(cell(row[-1], True, value))
        yield "<tr>" + "".join(cells) + (
            f'<td class="bars">{bars.of(value)}</td>' if with_bars else ""
        ) + "</tr>"
    yield "</tbody></table></div>"
    if more > 0:
        yield f"<p>{and_more(more, 'rows')}</p>"


def cell(value, is_number, sort=None, is_key=False):
    """A cell of a table; numbers sort by what they are. A key, such as a pid, is a name."""
    sort = value if isinstance(value, int) else sort
    by = f' data-n="{sort}"' if isinstance(sort, int) else ""
    shown = (
        format(value, "d" if is_key else ",d")
        if isinstance(value, int)
        else name(value) if not is_number else printable(value)
    )
    return f"<td{' class=number' * is_number}{by}>{escape(shown).replace('_', '_<wbr>')}</td>"


class Bars:
    """Bars of one scale in the cells of a table, those of numbers below 0 to the left."""

    def __init__(self, values):
        self.low, self.high = min(0, *values, 0), max(0, *values, 0)
        self.span = (self.high - self.low) or 1
        self.zero = f'<i class="zero" style="left:{self.percent(0)}"></i>' if self.low < 0 else ""

    def percent(self, value):
        """Where a number is on the scale."""
        return f"{100 * (value - self.low) / self.span:.2f}%"

    def of(self, value):
        start, length = self.percent(min(value, 0)), 100 * abs(value) / self.span
        bar = f'<i style="left:{start};width:{length:.2f}%"></i>' if value else ""
        return f'<div class="track">{bar}{self.zero}</div>' if bar or self.zero else ""


def card(keys, rows, args):
    """A histogram: a row for each bucket."""
    total = sum(row.count for row in rows)
    rows, more = largest(rows, MAX_BUCKETS, lambda row: row.count)
    bars = Bars([row.count for row in rows])
    unit = SHARE if args.value_unit == SHARE else None
    title = "  ".join(map(name, keys))
    yield f'<div class="card">{f"<h3>{escape(title)}</h3>" if title else ""}<table>'
    for row in rows:
        label = interval(row, args.unit)
        long = " class=long" * (len(label) > WIDEST_INTERVAL)
        yield (
            f'<tr><th scope="row"{long}>{escape(label)}</th><td'
            f' class="bars">{bars.of(row.count)}</td><td'
            f' class="number">{show_number(row.count, unit, total)}</td></tr>'
        )
    yield "</table>" + f"<p>{and_more(more, 'buckets')}</p>" * bool(more) + "</div>"


def heat_table(heat):
    yield (
        '<div class="scroll"><table class="heat"><caption class="muted">'
        f"{escape(printable(caption(heat)))}</caption><tbody>"
    )
    for row, label in enumerate(heat.rows):
        yield f"<tr>{heat_label('row', label, WIDEST_ROW)}" + "".join(
            heat_cell(heat, column, row) for column in range(len(heat.columns))
        ) + "</tr>"
    labels = "".join(heat_label("col", column, WIDEST_COLUMN) for column in heat.columns)
    yield f"</tbody><tfoot><tr><td></td>{labels}</tr></tfoot></table></div>"
    if heat.most:
        yield page_parts.scale(heat.most)


def heat_label(scope, label, most):
    """The label of a row or a column. A long one is cut, and shown whole if one points at it."""
    shown = cut(label, most)
    whole = f' title="{escape(label)}"' * (shown != label)
    return f'<th scope="{scope}"{whole}>{escape(shown)}</th>'


def heat_cell(heat, column, row):
    value = heat.cells.get((column, row), 0)
    if not value:
        return "<td></td>"
    said = escape(f"{heat.columns[column]}, {heat.rows[row]}: {value:,}")
    return f'<td style="--v:{heat.strength(column, row):.2f}" title="{said}"></td>'
