"""What makes a page's tables short and its heat maps readable: a box that filters rows, the first
50 rows with a button for all, and a scale.
"""
import math

MIN_TO_FILTER = 10  # rows
FIRST = 50  # rows that are shown at first
SWATCHES = 5

STYLE = """
.filter { display: flex; gap: .75rem; align-items: center; flex-wrap: wrap; margin-bottom: .4rem; }
.filter .muted { margin: 0; }
.filter input { font: inherit; color: inherit; background: var(--surface); padding: .15rem .5rem;
  border: 1px solid var(--grid); border-radius: 6px; max-width: 100%; }
.filter button { font: inherit; color: var(--bar); background: none; border: 0; padding: 0;
  cursor: pointer; text-decoration: underline; }
@media print { .filter input, .filter button { display: none; } }
.scale { display: flex; gap: .15rem; align-items: center; font-size: .75rem; margin: 0 0 .75rem; }
.scale i { width: 1.3rem; height: .8rem; background: rgba(var(--heat), var(--v)); }
footer { margin-top: 2.5rem; padding-top: .75rem; border-top: 1px solid var(--grid);
  color: var(--muted); font-size: .85rem; }
footer dl { display: grid; grid-template-columns: max-content 1fr; gap: .1rem 1rem; margin: 0; }
footer dd { margin: 0; overflow-wrap: anywhere; }
"""

# Without a script a page shows all rows. What is sorted anew is shown anew.
SCRIPT = f"""
for (const table of document.querySelectorAll("table.data")) {{
  const body = table.tBodies[0], many = body.rows.length;
  if (many <= {MIN_TO_FILTER}) continue;
  const bar = document.createElement("div"), box = document.createElement("input");
  const said = document.createElement("span"), more = document.createElement("button");
  let all = many <= {FIRST};
  bar.className = "filter"; said.className = "muted"; more.type = "button"; box.type = "search";
  box.placeholder = "Filter rows"; box.setAttribute("aria-label", "Filter rows");
  said.setAttribute("role", "status");
  const show = () => {{
    const wanted = box.value.toLowerCase();
    let found = 0;
    for (const row of body.rows) {{
      const fits = !wanted || row.textContent.toLowerCase().includes(wanted);
      found += fits;
      row.hidden = !fits || (!all && found > {FIRST});
    }}
    const shown = all ? found : Math.min(found, {FIRST});
    const number = it => it.toLocaleString("en");
    said.textContent = shown < found ? `first ${{number(shown)}} of ${{number(found)}} rows`
      : `${{number(found)}} of ${{number(many)}} rows`;
    more.textContent = all ? "show the first {FIRST}" : "show all";
    more.hidden = found <= {FIRST};
  }};
  box.addEventListener("input", show);
  more.addEventListener("click", () => {{ all = !all; show(); }});
  for (const button of table.querySelectorAll("th button")) button.addEventListener("click", show);
  bar.append(box, said, more);
  table.parentElement.before(bar);
  show();
}}
"""


def scale(most):
    """A scale of a heat map's colours, from nothing to the most."""
    parts = [index / SWATCHES for index in range(1, SWATCHES + 1)]
    steps = sorted({round(most * part**2) for part in parts} - {0})
    swatches = "".join(
        f'<i style="--v:{math.sqrt(step / most) * 0.92 + 0.08:.2f}" title="{step:,}"></i>'
        for step in steps
    )
    return f'<p class="scale muted">{steps[0]:,}&nbsp;{swatches}&nbsp;{steps[-1]:,}</p>'
