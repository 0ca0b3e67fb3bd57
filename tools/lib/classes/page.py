"""A page with a table of classes, which can be sorted and searched, and a picture for each."""
from html import escape

STYLE = """
body { font: 1rem/1.45 system-ui, sans-serif; color: #1b1b1b; background: #ffffff; margin: 1.5rem auto; max-width: 72rem; padding: 0 1rem; }
h1 { font-size: 1.5rem; margin-bottom: 0.2rem; }
table { border-collapse: collapse; width: 100%; }
th, td { border-bottom: 1px solid #c9c9c9; padding: 0.4rem 0.7rem; text-align: left; vertical-align: top; }
th { position: sticky; top: 0; background: #f2f4f7; padding: 0; white-space: nowrap; }
th button { font: inherit; font-weight: 600; border: 0; background: none; padding: 0.5rem 0.7rem; width: 100%; text-align: left; cursor: pointer; }
th button::after { content: " \\2195"; color: #6a6a6a; }
th[aria-sort=ascending] button::after { content: " \\2191"; color: inherit; }
th[aria-sort=descending] button::after { content: " \\2193"; color: inherit; }
:focus-visible { outline: 3px solid #1f5fbf; outline-offset: -1px; }
td.number { text-align: right; font-variant-numeric: tabular-nums; }
td svg { display: block; width: 8rem; height: auto; }
td ul { margin: 0.3rem 0; padding-left: 1.1rem; }
label { display: inline-block; margin: 0.8rem 0; }
input { font: inherit; padding: 0.2rem 0.4rem; }
.picture { padding: 0.5rem 0.7rem; font-weight: 600; }
"""

SCRIPT = """
const body = document.querySelector("tbody"), heads = [...document.querySelectorAll("th[data-place]")];
const status = document.getElementById("status"), find = document.getElementById("find");
const rows = [...body.rows];
function key(row, place) {
  const cell = row.cells[place];
  return cell.dataset.key === undefined ? cell.textContent : Number(cell.dataset.key);
}
function compare(a, b) {
  return typeof a === "number" && typeof b === "number" ? a - b : String(a).localeCompare(String(b), undefined, {numeric: true});
}
for (const head of heads) {
  head.querySelector("button").addEventListener("click", () => {
    const place = Number(head.dataset.place), down = head.getAttribute("aria-sort") === "ascending";
    for (const other of heads) other.removeAttribute("aria-sort");
    head.setAttribute("aria-sort", down ? "descending" : "ascending");
    rows.sort((a, b) => (down ? -1 : 1) * compare(key(a, place), key(b, place)));
    body.append(...rows);
    status.textContent = `sorted by ${head.textContent.trim()}, ${down ? "descending" : "ascending"}`;
  });
}
find.addEventListener("input", () => {
  const wanted = find.value.trim().toLowerCase();
  let shown = 0;
  for (const row of rows) {
    row.hidden = !row.dataset.names.toLowerCase().includes(wanted);
    shown += !row.hidden;
  }
  status.textContent = `${shown} of ${rows.length} classes shown`;
});
"""


def whole_page(title, said, find, drawn, names, body):
    """A page with a table of these rows, which can be sorted by its columns and searched. `drawn` is the head of the pictures."""
    heads = "".join(f'<th scope="col" data-place="{place}"><button type="button">{name}</button></th>' for place, name in enumerate(names, 1))
    return (f'<!DOCTYPE html>\n<html lang="en">\n<head>\n<meta charset="utf-8">\n<meta name="viewport" content="width=device-width">\n<title>{title}</title>\n'
            f"<style>{STYLE}</style>\n</head>\n<body>\n<h1>{title}</h1>\n<p>{escape(said)}.</p>\n"
            f'<label>{find} <input id="find" type="search"></label>\n<p id="status" role="status"></p>\n'
            f'<table>\n<thead><tr><th scope="col" class="picture">{drawn}</th>{heads}</tr></thead>\n<tbody>\n{body}\n</tbody>\n</table>\n'
            f"<script>{SCRIPT}</script>\n</body>\n</html>\n")
