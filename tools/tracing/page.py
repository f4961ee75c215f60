"""Makes the page of a trace: the lanes, their names kept in sight, a filter by key, and beside them the objects at the step that is looked at."""
import html
import json

from tracing.picture import ROW, rows_of, svg, svg_of_heads

STYLE = """
body { margin: 0; font: 12px sans-serif; display: flex; align-items: flex-start }
#lanes { flex: none } #heads { position: sticky; top: 0; background: #fff; border-bottom: 1px solid #ccc; z-index: 1 }
#beside { position: sticky; top: 0; flex: 1; min-width: 240px; height: 100vh; box-sizing: border-box; overflow: auto; padding: 6px; border-left: 1px solid #ccc }
#told { background: #eef; margin: 6px 0; padding: 4px; white-space: pre-wrap; overflow-wrap: anywhere; max-height: 45vh; overflow: auto }
#filter { width: 95% } table { border-collapse: collapse; width: 100%; margin-bottom: 8px; table-layout: fixed }
th { text-align: left } td, th { padding: 1px 3px; overflow-wrap: anywhere } td + td, th + th { width: 3.6em; text-align: right } .other td { color: #b22 }
"""
SCRIPT = """
const steps = [...document.querySelectorAll("g.step")], told = document.getElementById("told"), beside = document.getElementById("objects");
const picture = document.querySelector("#rows svg"), count = document.getElementById("count");
let chosen = null;
function objectsAt(row) {
  const found = {};
  for (const [at, where, kind, key, version] of CHANGES) {
    if (at > row) break;
    found[kind] ??= {}; found[kind][key] ??= {};
    if (version === null) delete found[kind][key][where]; else found[kind][key][where] = version;
  }
  return found;
}
function show(step) {
  if (chosen) chosen.classList.remove("chosen");
  chosen = step; step.classList.add("chosen");
  told.textContent = step.querySelector("title").textContent;
  beside.replaceChildren();
  for (const [kind, keys] of Object.entries(objectsAt(steps.indexOf(step)))) {
    const rows = Object.entries(keys).filter(([, it]) => it.present || it.published).sort();
    if (!rows.length) continue;
    const table = beside.appendChild(document.createElement("table"));
    const line = (cells, tag, look) => {
      const row = table.appendChild(document.createElement("tr"));
      row.className = look;
      for (const cell of cells) row.appendChild(document.createElement(tag)).textContent = cell;
    };
    line([kind, "server", "copy"], "th", "");
    for (const [key, it] of rows) line([key.replace("default/", ""), it.present ?? "-", it.published ?? "-"], "td", it.present === it.published ? "" : "other");
  }
}
function filter(text) {
  let row = 0, high = 0;
  for (const step of steps) {
    const shown = !text || step.dataset.key.includes(text);
    step.style.display = shown ? "" : "none";
    if (shown) row++, high += Number(step.dataset.high), step.setAttribute("transform", `translate(0 ${high})`);
  }
  picture.setAttribute("height", high + ROW);
  picture.setAttribute("viewBox", `0 0 ${picture.getAttribute("width")} ${high + ROW}`);
  count.textContent = `${row} of ${steps.length} rows`;
}
for (const step of steps) for (const event of ["mouseenter", "focus"]) step.addEventListener(event, () => show(step));
document.getElementById("filter").addEventListener("input", (event) => filter(event.target.value.trim()));
filter("");
if (steps.length) show(steps[0]);
"""
PAGE = """<!doctype html>
<html lang="en"><head><meta charset="utf-8"><title>{title}</title><style>{style}</style></head><body>
<div id="lanes"><div id="heads">{heads}</div><div id="rows">{rows}</div></div>
<div id="beside"><input id="filter" list="keys" placeholder="only steps of a key, as pods/default/a"><datalist id="keys">{keys}</datalist>
<div id="count"></div><pre id="told"></pre>
<div>Objects after that step, by the version that the server has and that of the published copy:</div><div id="objects"></div></div>
<script>const CHANGES = {changes}, ROW = {row};{script}</script></body></html>"""


def page(title, steps):
    """Returns the page of some steps."""
    rows, changes = rows_of(steps)
    keys = sorted({key for row in rows for key in row.key.split(" ") if key})
    options = "".join(f'<option value="{html.escape(key)}">' for key in keys)
    said = json.dumps(changes, separators=(",", ":")).replace("<", "\\u003c")
    parts = {"heads": svg_of_heads(rows), "rows": svg(rows, with_heads=False), "keys": options, "changes": said, "row": ROW}
    return PAGE.format(title=html.escape(title), style=STYLE, script=SCRIPT, **parts)
