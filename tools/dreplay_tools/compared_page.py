"""A comparison on a page: a table with two bars for each entry, and histograms of both answers over
the same buckets.
"""
from html import escape

from .comparison import count_of, table
from .ends import say_count
from .labels import SHARE, interval, name, printable, show_number
from .pictures import MAX_CHARTS, and_more
from .webpage import MAX_ROWS, Bars, cell

STYLE = """
:root { --before: #8c959f; } @media (prefers-color-scheme: dark) { :root { --before: #6e7681; } }
.track.was i { background: var(--before); } .track.was .zero { background: var(--muted); }
.pair .track { height: .6rem; margin-top: .15rem; }
.key { display: inline-flex; gap: .4rem; align-items: center; margin-right: 1rem; }
.key i { width: .8rem; height: .8rem; border-radius: 2px; background: var(--bar); }
.key.was i { background: var(--before); }
"""
KEY = '<span class="key was"><i></i>before</span><span class="key"><i></i>after</span>'


def section(shown, args):
    """An aggregation of two answers."""
    aggregation = shown.aggregation
    by = f" by {escape(printable(', '.join(aggregation.keys)))}" if aggregation.keys else ""
    yield f"<section>\n<h2>{escape(printable(shown.title))}</h2>"
    yield (
        f"<p><code>{escape(printable(aggregation.value_name))}</code>{by};"
        f" {say_count(len(shown.entries), 'entry', 'entries')}, the largest change first. {KEY}</p>"
    )
    if aggregation.is_histogram:
        if args.percentiles:
            yield from data_table(*table(shown, args), shown, None)
        yield '<div class="cards">'
        for change in shown.entries[:MAX_CHARTS]:
            yield from card(change, args)
        yield "</div>"
        if len(shown.entries) > MAX_CHARTS:
            yield f"<p>{and_more(len(shown.entries) - MAX_CHARTS, 'histograms')}</p>"
    else:
        pairs = [(change.before or 0, change.after or 0) for change in shown.entries[:MAX_ROWS]]
        yield from data_table(*table(shown, args), shown, pairs)
    yield "</section>"


def data_table(names, rows, shown, pairs):
    """A table whose columns sort at a click; with two bars in each row where there are pairs."""
    keys = len(shown.aggregation.keys)
    texts = [*shown.aggregation.texts, *[False] * (len(names) - keys)]
    yield '<div class="scroll"><table class="data"><thead><tr>'
    for title, is_text in zip(names, texts):
        yield (
            f'<th scope="col"{" class=number" * (not is_text)}><button type="button">'
            f"{escape(printable(title))}</button></th>"
        )
    yield ("<th class=bars></th>" if pairs else "") + "</tr></thead><tbody>"
    bars = Bars([value for pair in pairs or [] for value in pair])
    for index, row in enumerate(rows[:MAX_ROWS]):
        cells = [cell(value, not is_text) for value, is_text in zip(row, texts)]
        if pairs:
            cells.append(f'<td class="bars pair">{two(bars, *pairs[index])}</td>')
        yield f"<tr>{''.join(cells)}</tr>"
    yield "</tbody></table></div>"
    if len(rows) > MAX_ROWS:
        yield f"<p>{and_more(len(rows) - MAX_ROWS, 'rows')}</p>"


def two(bars, before, after):
    was = bars.of(before).replace('class="track"', 'class="track was"')
    return (was or '<div class="track was"></div>') + bars.of(after)


def card(change, args):
    """Two histograms over the same buckets, each as shares of its own values, since one answer may
    have more of them.
    """
    both = [change.before, change.after]
    totals = [count_of(rows) for rows in both]
    title = "  ".join(map(name, change.key))
    yield f'<div class="card">{f"<h3>{escape(title)}</h3>" if title else ""}<table>'
    rows = change.before or change.after
    counts = [[of[index].count if of else 0 for of in both] for index in range(len(rows))]
    shares = [[count / (total or 1) for count, total in zip(pair, totals)] for pair in counts]
    bars = Bars([share for pair in shares for share in pair])
    for row, pair, share in zip(rows, counts, shares):
        unit = SHARE if args.value_unit == SHARE else None
        shown = " → ".join(show_number(count, unit, total) for count, total in zip(pair, totals))
        yield (
            f'<tr><th scope="row">{escape(interval(row, args.unit))}</th><td class="bars pair">'
            f'{two(bars, *share)}</td><td class="number">{shown}</td></tr>'
        )
    yield f"</table><p>{totals[0]:,} → {totals[1]:,} values</p></div>"
