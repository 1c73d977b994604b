"""Renews the tables of a Markdown file from the measured numbers: all between `<!-- PART -->` and `<!-- end -->`.

usage: table.py FILE.tsv FILE.md
"""
import re
import sys


def head(*cells):
    return ["| " + " | ".join(cells) + " |", "|" + "---|" * len(cells)]


def row(*cells):
    return "| " + " | ".join(cells) + " |"


def number(value):
    """A count with commas, a ratio with three digits that count."""
    value = float(value)
    return f"{value:,.0f}" if value >= 100 else f"{value:.3g}"


def plain(rows, part):
    """What was measured, one to a line."""
    found = [row(of, number(value), unit) for name, of, value, unit in rows if name == part]
    return head("measured", "", "unit") + found


def curve(rows, part, axis):
    """Curves over one axis, a column each."""
    names, points = [], {}
    for name, of, value, _ in rows:
        if name.split(",")[0] == part:
            names += [name] if name not in names else []
            points.setdefault(of, {})[name] = number(value)
    titles = [name.partition(", ")[2] or "blocks" for name in names]
    return head(axis, *titles) + [row(at, *(values[name] for name in names)) for at, values in points.items()]


def main():
    if len(sys.argv) != 3:
        sys.exit(__doc__)
    lines = open(sys.argv[1]).read().splitlines()
    rows = [line.split("\t") for line in lines if not line.startswith("#")]
    tables = {part: plain(rows, part) for part in ("cipher", "receive", "stack", "archive")}
    tables["partners"] = curve(rows, "partners", "partners")
    tables["length"] = curve(rows, "length", "bytes")
    tables["measured"] = ["M" + line[3:] + "." for line in lines if line.startswith("# m")]
    page = open(sys.argv[2]).read()
    for part, table in tables.items():
        place = re.compile(rf"(<!-- {part} -->\n).*?(<!-- end -->)", re.S)
        page, found = place.subn(lambda m: m[1] + "\n".join(table) + "\n" + m[2], page)
        if found != 1:
            sys.exit(f"{sys.argv[2]} has {found} places for {part}")
    open(sys.argv[2], "w").write(page)


main()
