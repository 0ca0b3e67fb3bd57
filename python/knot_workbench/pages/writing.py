"""The file of a page: pictures, tables, sentences, and what its script needs."""
import base64
import json
import os
from html import escape

from .. import cocycles, drawing
from ..diagrams import diagram_text

HERE = os.path.dirname(os.path.realpath(__file__))

# So many lines of a list of colourings are in the page at most.
MOST_LINES = 65_536


def still(grid, colours, quandle, name, number, room):
    """A picture of a grid that needs no script, at the scale of one of `room` columns, but no smaller than half as wide as it may be."""
    text = drawing.picture([(0, drawing.Frame(grid, colours, quandle))], False, 24, 1, False, f"{name}, of {len(grid.xs)} columns")
    wide = f"{max(100 * (len(grid.xs) + 1) / (room + 1), 50):.0f}%"
    return text.replace('role="img"', f'role="img" id="picture-{number}" style="width:{wide};margin:0 auto"')


def band_of(move, before, after):
    """Which columns and rows of the grid a move led to it changed: first column, how many, first row, how many; or None."""
    size = len(after.xs)
    word = move[0]
    if word in ("shift", "exchange", "slide"):
        first, count = (size - move[2], move[2]) if word == "shift" else (move[2], 2)
        return [first, count, 0, size] if move[1] == "columns" else [0, size, first, count]
    if word == "stabilise":
        return [move[1], 2, (before.xs if move[2] == "x" else before.os)[move[1]], 2]
    return [move[1], 1, move[2], 1]


def move_in(caption):
    """The move that a frame's caption names, or None."""
    tokens = caption.removeprefix("... ").split()
    return tuple(int(token) if token.isdigit() else token for token in tokens) if tokens else None


def frames_data(page):
    """The frames for the script: place, words, Xs, Os, colours, and what the move changed."""
    found, before = [], None
    for place, frame in page.frames:
        move = move_in(frame.caption)
        has_neighbour = before is not None and not frame.caption.startswith("... ")
        band = band_of(move, before, frame.grid) if move and has_neighbour else None
        found.append([place, frame.caption, frame.grid.xs, frame.grid.os, frame.colours, band])
        before = frame.grid
    return found


def data_of(page):
    """All that the script needs."""
    lists = [[[*colours, *([] if weight is None else [weight])] for colours, weight in listed] for listed in page.lists]
    over, back = (page.quandle.over, page.quandle.back) if page.quandle else (None, None)
    return {"kind": page.kind, "palette": drawing.PALETTE, "over": over, "back": back,
            "frames": frames_data(page), "grids": [[grid.xs, grid.os] for _, _, grid in page.diagrams], "lists": lists, "weighs": page.kind == "weights"}


def sentence_of(page, checked):
    """What the page says in words."""
    if page.kind == "equal":
        return f"<p>These two are the same: {count_of_moves(page)} from the first diagram to the second.</p>" + ruled(checked, None)
    if page.kind == "different":
        return counted_apart(page, *map(len, page.lists)) + ruled(checked, "Whether both lists are complete")
    if page.kind == "weights":
        rows = [weight_counts(listed, page.cocycle.modulus) for listed in page.lists]
        said = "These two differ: moves keep these numbers, so no moves join them." if rows[0] != rows[1] else "The numbers agree, which says nothing of the two."
        return f"<p>{said}</p>" + weights_table(page, rows)
    if page.kind == "numbers":
        return numbers_sentence(page, checked)
    if page.kind == "linking":
        return "<p>These two differ: moves keep linking numbers, so no moves join them.</p>" + linking_table(page) + ruled(checked, "Whether these numbers are right")
    return f"<p>A walk of {page.frames[-1][0]} moves.</p>"


def ruled(checked, unless):
    """That the program has ruled, or what it hasn't ruled on."""
    if checked:
        return "<p class=\"ruled\"><code>knot check</code> accepted this certificate.</p>"
    return f"<p>{unless}, <code>knot check</code> says.</p>" if unless else ""


def count_of_moves(page):
    """How many moves lead there, in words."""
    count = page.frames[-1][0]
    return "one move leads" if count == 1 else f"{count} moves lead"


def counted_apart(page, first, second):
    """That the diagrams have so many colourings."""
    return (f"<p>These two differ: by the quandle <strong>{escape(page.quandle.name)}</strong> the first diagram has <strong>{first}</strong> colourings, and the "
            f"second <strong>{second}</strong>. Moves keep this number, so no moves join them.</p>")


def numbers_sentence(page, checked):
    """The numbers of colourings of version 3, and their seeds."""
    both = (page.verdict.first, page.verdict.second)
    if page.cocycle:
        said = "<p>These two differ: moves keep these numbers, so no moves join them.</p>" + weights_table(page, [counted.numbers for counted in both])
    else:
        said = counted_apart(page, *(counted.numbers[0] for counted in both))
    for (name, _, _), counted in zip(page.diagrams, both):
        said += f"<p>The colours of the columns {' '.join(map(str, counted.seeds))} decide a colouring of {name}.</p>"
    return said + ruled(checked, "Whether these numbers are right")


def linking_table(page):
    """The linking numbers of both diagrams."""
    cells = "".join(f"<tr><th scope=\"row\">{name}</th><td>{linked.components}</td><td>{' '.join(map(str, linked.numbers)) or 'none'}</td></tr>"
                    for (name, _, _), linked in zip(page.diagrams, (page.verdict.first, page.verdict.second)))
    return ("<div class=\"wide\"><table><caption>Linking numbers of all ordered pairs of components</caption>"
            f"<tr><td></td><th scope=\"col\">components</th><th scope=\"col\">numbers</th></tr>{cells}</table></div>")


def weights_table(page, rows):
    """How many colourings of each diagram have each weight, or by a shadow cocycle how many pairs."""
    heads = "".join(f"<th scope=\"col\">{weight}</th>" for weight in range(page.cocycle.modulus))
    cells = "".join(f"<tr><th scope=\"row\">{name}</th>{''.join(f'<td>{count}</td>' for count in row)}</tr>" for (name, _, _), row in zip(page.diagrams, rows))
    counted = "pairs of a colouring and an outer colour" if isinstance(page.cocycle, cocycles.ShadowCocycle) else "colourings"
    return (f"<div class=\"wide\"><table><caption>How many {counted} by the quandle {escape(page.quandle.name)} have each weight mod {page.cocycle.modulus}"
            f"</caption><tr><th scope=\"col\">weight</th>{heads}</tr>{cells}</table></div>")


def weight_counts(listed, modulus):
    """How many colourings have each weight."""
    return [sum(weight == wanted for _, weight in listed) for wanted in range(modulus)]


def square_table(square, caption, corner):
    """A square of numbers as a table."""
    heads = "".join(f"<th scope=\"col\">{place}</th>" for place in range(len(square)))
    rows = "".join(f"<tr><th scope=\"row\">{place}</th>{''.join(f'<td>{value}</td>' for value in row)}</tr>" for place, row in enumerate(square))
    return (f"<details><summary>{caption}</summary><div class=\"wide\"><table><tr><th scope=\"col\">{corner}</th>{heads}</tr>{rows}</table></div></details>")


def figures_of(page):
    """Each diagram given: its picture, its text, and its list of colourings."""
    found = []
    room = max(len(grid.xs) for _, _, grid in page.diagrams)
    for number, (name, diagram, grid) in enumerate(page.diagrams):
        listed = page.lists[number] if page.lists else []
        shown = max(range(len(listed)), key=lambda place: len(set(listed[place][0])), default=None)
        colours = listed[shown][0] if listed else page.colours_of(number, grid)
        count = f": {len(listed)} colourings" if page.lists else ""
        below = f"<pre>{escape(diagram_text(diagram))}</pre>"
        if listed:
            lines = "\n".join(" ".join(map(str, colours)) + ("" if weight is None else f"   weight {weight}") for colours, weight in listed[:MOST_LINES])
            below += (f'<label class="needs">Colouring <output id="which-{number}">{shown + 1}</output> of {len(listed)}'
                      f'<input type="range" id="list-{number}" min="1" max="{len(listed)}" value="{shown + 1}"></label>'
                      f'<p id="said-{number}" class="said" aria-live="polite"></p>'
                      f'<details><summary>All {len(listed)} colourings, by column</summary><pre class="list">{lines}</pre></details>')
        picture = still(grid, colours, page.quandle if colours else None, name.capitalize(), number, room)
        found.append(f"<figure><figcaption>{name.capitalize()}{count}</figcaption>{picture}{below}</figure>")
    return f'<div class="figures">{"".join(found)}</div>'


def walk_section(page):
    """The slider through the moves, and all moves in words."""
    last = len(page.frames) - 1
    items = "".join(f'<li value="{place}"><button type="button" data-place="{number}">{escape(frame.caption)}</button></li>'
                    for number, (place, frame) in enumerate(page.frames) if frame.caption)
    buttons = "".join(f'<button type="button" id="{name}" title="{title}" aria-label="{title}">{sign}</button>' for name, title, sign in (
        ("first", "First frame (Home)", "|&lt;"), ("back", "One back (left arrow)", "&lt;"), ("play", "Play or pause (space bar)", "Play"),
        ("on", "One on (right arrow)", "&gt;"), ("last", "Last frame (End)", "&gt;|")))
    return (f'<section aria-labelledby="moves-head"><h2 id="moves-head">The moves</h2><noscript><p>The slider needs scripts; all moves are below.</p></noscript>'
            f'<div class="needs"><div class="walk"><svg id="walk" role="img" aria-labelledby="now"></svg></div>'
            f'<p id="now" class="said" aria-live="polite"></p><label>Frame<input type="range" id="frame" min="0" max="{last}" value="0"></label>'
            f'<div class="buttons">{buttons}</div></div>'
            f'<details{" open" if last <= 30 else ""}><summary>All moves in words</summary><ol>{items}</ol></details></section>')


def cocycle_part(cocycle):
    """A cocycle's table; a shadow cocycle's is one for each region."""
    if not isinstance(cocycle, cocycles.ShadowCocycle):
        return square_table(cocycle.values, f"The cocycle mod {cocycle.modulus}: φ(x, y), line x and column y", "φ")
    if cocycle.values is None:
        return f"<p>The shadow cocycle is that of Mochizuki's formula, mod {cocycle.modulus}.</p>"
    return "".join(square_table(square, f"The shadow cocycle mod {cocycle.modulus}: θ({region}, x, y), line x and column y", "θ")
                   for region, square in enumerate(cocycle.values))


def certificate_part(text, ruler):
    """The text that the page was made of, to be read and to be kept, and how it is ruled on."""
    kept = base64.b64encode(text.encode()).decode()
    return (f'<p class="foot">Verticals pass over horizontals. Keep <a download="certificate.txt" href="data:text/plain;charset=utf-8;base64,{kept}">certificate.txt</a>, '
            f"and have it ruled on: <code>{ruler} &lt; certificate.txt</code>. The separate checker <code>knot_check</code> is a part of the sources of "
            f"knot, and is built alone by <code>tools/build.py knot_check</code>.</p>\n"
            f"<details><summary>The certificate</summary><pre>{escape(text)}</pre></details>")


def page_text(page, title, checked, text):
    """The whole file."""
    parts = [sentence_of(page, checked), figures_of(page)]
    if page.frames:
        parts.append(walk_section(page))
        if page.quandle:
            parts.append(f"<p>The colours are a colouring by the quandle {escape(page.quandle.name)}, carried along the moves; their numbers are below "
                         "the columns.</p>")
    if page.quandle:
        parts.append(square_table(page.quandle.over, f"The quandle {escape(page.quandle.name)}: x ▷ y, line x and column y", "▷"))
    if page.cocycle:
        parts.append(cocycle_part(page.cocycle))
    ruler = {"weights": "knot weights", "moves": "knot replay"}.get(page.kind, "knot check")
    data = json.dumps(data_of(page), separators=(",", ":")).replace("<", "\\u003c")
    style, script = (text_beside(f"page.{kind}") for kind in ("css", "js"))
    return f"""<!DOCTYPE html>
<html lang="en">
<head>
<meta charset="utf-8">
<meta name="viewport" content="width=device-width, initial-scale=1">
<title>{escape(title)}</title>
<style>
{style}</style>
</head>
<body>
<main>
<h1>{escape(title)}</h1>
{"".join(parts)}
{certificate_part(text, ruler)}
</main>
<script type="application/json" id="data">{data}</script>
<script>
{script}</script>
</body>
</html>
"""


def title_of(page):
    """A title where none is given."""
    titles = {"equal": "Two diagrams that are the same", "weights": "Two diagrams and their weights", "moves": "A walk of moves"}
    return titles.get(page.kind, "Two diagrams that differ")


def text_beside(name):
    """The text of a file that lies beside this one."""
    with open(os.path.join(HERE, name), encoding="utf-8") as source:
        return source.read()
