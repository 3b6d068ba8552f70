"""The plot: bars for the largest circuit, and how the cost grows with the number of gates."""

from math import log

from results import CALLS, SCHEMES, WORKERS

COLOURS = {"library": "#1f5fa8", "tables": "#d08c1d", "fixsliced": "#9a6fb0", "aesni": "#58a06c"}
LINES = {1: "#1f5fa8", 2: "#8a4fa0", 3: "#c2452d", 4: "#4a7a2c"}
WIDTH = 960
BARS = {"left": 235, "right": 900, "top": 110}
GROWTH = {"left": 80, "right": 720, "height": 300}


def text(x, y, words, size=13, anchor="start", colour="#222", weight="normal"):
    style = f'font-size="{size}" text-anchor="{anchor}" fill="{colour}" font-weight="{weight}"'
    return f'<text x="{x:.1f}" y="{y:.1f}" {style}>{words}</text>'


def line(x1, y1, x2, y2, colour="#ddd", width=1.0):
    return f'<line x1="{x1:.1f}" y1="{y1:.1f}" x2="{x2:.1f}" y2="{y2:.1f}" stroke="{colour}" stroke-width="{width}"/>'


def ticks(most):
    """Round numbers from 0 to just past the most, five to ten of them."""
    step = 1
    while most / step > 10:
        step *= 2 if str(step)[0] in "15" else 2.5
    step = int(step)
    return [step * i for i in range(int(most / step) + 2)]


def legend(workers, y):
    parts, x = [], BARS["left"]
    for worker in workers:
        parts.append(f'<rect x="{x}" y="{y - 11}" width="13" height="13" fill="{COLOURS[worker]}"/>')
        parts.append(text(x + 19, y, WORKERS[worker]))
        x += 180
    return parts


def bars(results, q):
    """A group for each call, a bar for each worker that does it; gives the parts and where they end. The chained rounds have none:
    theirs would be so long that the others could not be told apart."""
    workers = [worker for worker in results.workers() if worker in COLOURS]
    left, right = BARS["left"], BARS["right"]
    doing = {call: [worker for worker in workers if results.has((*call, q), worker)] for call in CALLS}
    marks = ticks(max(results.best((*call, q), worker) for call in CALLS for worker in doing[call]))
    scale = (right - left) / marks[-1]
    bottom = BARS["top"] + sum(17 * len(doing[call]) + 14 for call in CALLS)
    parts = [text(40, 40, f"Time for a charged gate, n = 128, q = {q:,}, half of the gates charged", 18, weight="bold")]
    parts += legend(workers, 75)
    for mark in marks:
        x = left + mark * scale
        parts += [line(x, BARS["top"] - 8, x, bottom), text(x, bottom + 18, mark, 12, "middle", "#555")]
    parts.append(text((left + right) / 2, bottom + 40, "ns for a charged gate, best round (shorter is better)", 13, "middle", "#555"))
    y = BARS["top"]
    for operation, scheme in CALLS:
        here = doing[operation, scheme]
        parts.append(text(left - 12, y + 17 * len(here) / 2 + 4, f"{operation}, {SCHEMES[scheme]}", 14, "end"))
        for worker in here:
            best = results.best((operation, scheme, q), worker)
            parts.append(f'<rect x="{left}" y="{y}" width="{best * scale:.1f}" height="14" fill="{COLOURS[worker]}"/>')
            parts.append(text(left + best * scale + 6, y + 11.5, f"{best:.0f}", 12, colour="#333"))
            y += 17
        y += 14
    return parts, bottom + 40


def spaced(labels, gap):
    """Labels moved down as far as needed so that none stands on another."""
    placed, last = [], None
    for y, words, colour in sorted(labels):
        y = y if last is None else max(y, last + gap)
        placed.append((y, words, colour))
        last = y
    return placed


def axes(sizes, place_x, place_y, marks):
    left, right, bottom = GROWTH["left"], GROWTH["right"], place_y(0)
    parts = []
    for mark in marks:
        parts += [line(left, place_y(mark), right, place_y(mark)), text(left - 10, place_y(mark) + 4, mark, 12, "end", "#555")]
    for q in sizes:
        parts += [line(place_x(q), bottom, place_x(q), bottom + 5, "#888"), text(place_x(q), bottom + 21, f"{q:,}", 12, "middle", "#555")]
    parts.append(text((left + right) / 2, bottom + 44, "gates q (logarithmic)", 13, "middle", "#555"))
    middle = (place_y(marks[-1]) + bottom) / 2
    parts.append(f'<g transform="rotate(-90 28 {middle:.1f})">' + text(28, middle, "ns for a charged gate", 13, "middle", "#555") + "</g>")
    return parts


def growth(results, top):
    """A line for each call of the library, labelled at its end; gives the parts and where they end."""
    sizes, left, right = results.sizes(), GROWTH["left"], GROWTH["right"]
    marks = ticks(max(results.best((*call, q), "library") for call in CALLS for q in sizes))
    bottom = top + 40 + GROWTH["height"]
    span = log(sizes[-1] / sizes[0])

    def place_x(q):
        return left + 20 + (right - left - 40) * log(q / sizes[0]) / span

    def place_y(time):
        return bottom - GROWTH["height"] * time / marks[-1]

    parts = [text(40, top, "How the library's cost for a charged gate grows with the circuit", 18, weight="bold")]
    parts += axes(sizes, place_x, place_y, marks)
    labels = []
    for operation, scheme in CALLS:
        points = [(place_x(q), place_y(results.best((operation, scheme, q), "library"))) for q in sizes]
        dash = "" if operation == "garble" else ' stroke-dasharray="7 5"'
        path = " ".join(f"{x:.1f},{y:.1f}" for x, y in points)
        parts.append(f'<polyline points="{path}" fill="none" stroke="{LINES[scheme]}" stroke-width="2.2"{dash}/>')
        parts += [f'<circle cx="{x:.1f}" cy="{y:.1f}" r="3.5" fill="{LINES[scheme]}"/>' for x, y in points]
        labels.append((points[-1][1], f"{operation}, {SCHEMES[scheme]}", LINES[scheme]))
    for y, words, colour in spaced(labels, 18):
        parts.append(text(right + 12, y + 4, words, 13, colour=colour))
    return parts, bottom + 44


def plot(results):
    first, end = bars(results, max(results.sizes()))
    second, end = growth(results, end + 60)
    note = "Written by bench/run; docs/bench.md says how it was measured."
    height = end + 50
    head = f'<svg xmlns="http://www.w3.org/2000/svg" viewBox="0 0 {WIDTH} {height:.0f}" font-family="Helvetica, Arial, sans-serif">'
    ground = f'<rect width="{WIDTH}" height="{height:.0f}" fill="#fff"/>'
    return "\n".join([head, ground, *first, *second, text(40, height - 16, note, 12, colour="#777"), "</svg>", ""])
