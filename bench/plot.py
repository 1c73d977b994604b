"""Draws the clock: receive of a KSM by the number of partners and by the text's length, as SVG on standard output.

usage: plot.py FILE.tsv
"""
import csv
import math
import sys

WIDTH, HEIGHT, TOP, BOTTOM = 880, 400, 64, 62
PANELS = (70, 390), (510, 730)  # from where to where each panel stands; behind the second is room for its labels
COLOURS = {"64 partners": "#1f4e9c", "1 partner": "#b3541e", "by document 01": "#5f6368"}


def curves(rows, part):
    """The curves of a part: {name: [(x, y), ..]}."""
    found = {}
    for name, of, number, _ in rows:
        if name.split(",")[0] == part:
            found.setdefault(name.partition(", ")[2], []).append((float(of), float(number)))
    return found


def ceiling(most):
    """A round number above the most, and the step of the grid to it."""
    step = next(step for step in (1, 2, 5, 10, 20, 50, 100, 200, 500, 1000) if most / step <= 8)
    return math.ceil(most / step + 0.2) * step, step


def text(x, y, words, anchor="middle", size=13, more=""):
    return f'<text x="{x:.1f}" y="{y:.1f}" text-anchor="{anchor}" font-size="{size}" {more}>{words}</text>'


def line(x1, y1, x2, y2, colour, width=1):
    return f'<line x1="{x1:.1f}" y1="{y1:.1f}" x2="{x2:.1f}" y2="{y2:.1f}" stroke="{colour}" stroke-width="{width}"/>'


def panel(bounds, title, axis, ticks, scale, top, drawn):
    """One panel: its frame with the ticks of both axes, then its curves as (points, colour, dashed, label)."""
    left, right = bounds
    across = lambda x: left + (right - left) * (scale(x) - scale(ticks[0])) / (scale(ticks[-1]) - scale(ticks[0]))
    up = lambda y: HEIGHT - BOTTOM - (HEIGHT - TOP - BOTTOM) * y / top[0]
    yield text((left + right) / 2, TOP - 14, title, size=14)
    for y in range(0, top[0] + 1, top[1]):
        yield line(left, up(y), right, up(y), "#dddddd" if y else "#333333")
        yield text(left - 8, up(y) + 4, y, "end")
    for x in ticks:
        yield line(across(x), up(0), across(x), up(0) + 5, "#333333")
        yield text(across(x), up(0) + 20, f"{x:g}")
    yield text((left + right) / 2, HEIGHT - 20, axis)
    middle = (TOP + HEIGHT - BOTTOM) / 2
    yield text(left - 46, middle, "time, in cipher blocks", more=f'transform="rotate(-90 {left - 46} {middle})"')
    for points, colour, dashed, label in drawn:
        way = " ".join(f"{across(x):.1f},{up(y):.1f}" for x, y in points)
        dashes = ' stroke-dasharray="5 4"' if dashed else ""
        yield f'<polyline points="{way}" fill="none" stroke="{colour}" stroke-width="2"{dashes}/>'
        if not dashed:
            yield from (f'<circle cx="{across(x):.1f}" cy="{up(y):.1f}" r="3.5" fill="{colour}"/>' for x, y in points)
        if label:
            yield text(right + 10, up(label[1]) + 4, label[0], "start", more=f'fill="{colour}"')


def labels(lines, top):
    """Each curve's name beside its end, moved apart where two would overlap."""
    least, places = 17 * top / (HEIGHT - TOP - BOTTOM), {}
    for name, points in sorted(lines.items(), key=lambda item: item[1][-1][1]):
        places[name] = max([points[-1][1]] + [place + least for place in places.values()])
    return places


def main():
    if len(sys.argv) != 2:
        sys.exit(__doc__)
    with open(sys.argv[1]) as file:
        rows = [row for row in csv.reader(file, delimiter="\t") if not row[0].startswith("#")]
    partners, lengths = curves(rows, "partners")[""], curves(rows, "length")
    top = ceiling(max(y for points in (partners, *lengths.values()) for _, y in points))
    needed = lengths["by document 01"]
    floor = [(partners[0][0], needed[-1][1]), (partners[-1][0], needed[-1][1])]
    by_partners = [(partners, COLOURS["64 partners"], False, None), (floor, COLOURS["by document 01"], True, None)]
    places = labels(lengths, top[0])
    by_length = [(points, COLOURS[name], points is needed, (name, places[name])) for name, points in lengths.items()]
    size = f'width="{WIDTH}" height="{HEIGHT}"'
    print(f'<svg xmlns="http://www.w3.org/2000/svg" {size} viewBox="0 0 {WIDTH} {HEIGHT}" font-family="sans-serif">')
    print(f'<rect {size} fill="white"/>')
    title = "A good KSM received, in units of one cipher block within a long MAC"
    print(text(WIDTH / 2, 24, title, size=15, more='font-weight="bold"'))
    title = "232 bytes, originator in the last slot in use"
    ticks = [x for x, _ in partners]
    print(*panel(PANELS[0], title, "partners in the table", ticks, math.log2, top, by_partners), sep="\n")
    ticks = [50, 100, 150, 200, 250]
    print(*panel(PANELS[1], "by length", "length of the text, bytes", ticks, float, top, by_length), sep="\n")
    print("</svg>")


main()
