#!/usr/bin/env python3
"""Brings what bench/shapes.sh, bench/growth.sh and bench/profile.sh measured (docs/*.csv) into the documents: the tables of
docs/SPEED.md, each between a pair of comments that names it, and the pictures docs/growth-*.svg. Without a CSV
file, its tables and pictures stay as they are."""

import csv
import math
import os
import re

TOP = os.path.join(os.path.dirname(os.path.abspath(__file__)), "..")
DOCS = os.path.join(TOP, "docs")

# ---- tables


def read_rows(name):
    path = os.path.join(DOCS, name)
    if not os.path.exists(path):
        return []
    with open(path, newline="") as file:
        return list(csv.DictReader(file))


def table(heads, rows):
    """A table in Markdown. A head that begins with '>' is of numbers, which are set to the right."""
    rule = "|".join("--:" if head.startswith(">") else "---" for head in heads)
    lines = [[head.lstrip(">") for head in heads], *rows]
    first, *others = ["| " + " | ".join(cells) + " |" for cells in lines]
    return "\n".join([first, f"|{rule}|", *others]) + "\n"


def marked(ratio, aim):
    """The ratio, bold where it is above its aim."""
    return f"**{ratio}**" if aim and float(ratio) > float(aim) else ratio


AIM = "0.8"  # of every shape
SHOWN = 8  # so many shapes, the slowest beside plain Rust; docs/shapes.csv has all


def shapes_table(rows, counted):
    return table(
        ["Trace", ">Lines", ">Ours (ms)", ">Plain (ms)", ">Ratio", ">Instructions", ">Steps a line"],
        [
            [
                row["shape"],
                f"{int(row['lines']):,}",
                row["ours_ms"],
                row["plain_ms"],
                marked(row["ratio"], AIM),
                *counted.get(row["shape"], ("", "")),
            ]
            for row in sorted(rows, key=lambda row: -float(row["ratio"]))[:SHOWN]
        ],
    )


def slots_table(rows):
    kinds = {"load": "load", "map": "mmap of one page anew"}
    return table(
        ["Line", ">Slots", ">Ours (ns)", ">Plain (ns)", ">Ratio"],
        [
            [kinds[row["kind"]], f"{int(row['slots']):,}", row["ours_ns"], row["plain_ns"], row["ratio"]]
            for row in rows
        ],
    )


def lines_table(rows):
    return table(
        [">Lines", ">Ours (ms)", ">Plain (ms)", ">Ratio", ">Ours (KiB)", ">Plain (KiB)"],
        [
            [
                f"{int(row['lines']):,}",
                row["ours_ms"],
                row["plain_ms"],
                row["ratio"],
                f"{int(row['ours_kib']):,}",
                f"{int(row['plain_kib']):,}",
            ]
            for row in rows
        ],
    )


def rest_table(rows):
    return table(
        ["Figure", ">First", ">Second", ">Ratio", ">Aim"],
        [
            [
                row["figure"],
                f"{float(row['ours']):,g} {row['unit']}",
                f"{float(row['other']):,g} {row['unit']}",
                marked(row["ratio"], row["aim"]),
                row["aim"] or "none",
            ]
            for row in rows
        ],
    )


def put_table(document, name, text):
    """Puts the text between the comments `<!-- name -->` and `<!-- end of name -->` of a document."""
    path = os.path.join(TOP, document)
    with open(path) as file:
        old = file.read()
    begin, end = f"<!-- {name} -->\n", f"<!-- end of {name} -->"
    found = re.search(f"{begin}.*?{end}", old, re.DOTALL)
    if not found:
        raise SystemExit(f"report.py: {document} has no place for the table {name}")
    with open(path, "w") as file:
        file.write(old[: found.start()] + begin + "\n" + text + "\n" + end + old[found.end() :])


# ---- pictures

WIDTH, HEIGHT = 640, 380
LEFT, RIGHT, ABOVE, BELOW = 78, 130, 44, 52
COLOURS = ["#0060a8", "#c0501c", "#6aa5d8", "#e8a27e"]


def marks_from_zero(top):
    """Marks from zero on, at a step of 1, 2 or 5 times a power of ten: at most seven, the last at or above the top."""
    power = 10 ** math.floor(math.log10(top / 6))
    step = next(power * factor for factor in (1, 2, 5, 10) if power * factor * 6 >= top)
    return [i * step for i in range(math.ceil(top / step) + 1)]


def marks_in_powers(low, top):
    """The powers of ten from the one at or below `low` to the one at or above `top`."""
    return [10.0**i for i in range(math.floor(math.log10(low)), math.ceil(math.log10(top)) + 1)]


def picture(name, title, x_label, y_label, series, in_powers=False):
    """Writes a chart of the series (name to points): x in powers of ten, y from zero on, or in powers of ten too."""
    xs = [math.log10(x) for points in series.values() for x, _ in points]
    ys = [y for points in series.values() for _, y in points]
    marks = marks_in_powers(min(ys), max(ys)) if in_powers else marks_from_zero(max(ys))
    scale = math.log10 if in_powers else float
    lowest, highest = scale(marks[0]), scale(marks[-1])

    def left(x):
        return LEFT + (math.log10(x) - min(xs)) / (max(xs) - min(xs)) * (WIDTH - LEFT - RIGHT)

    def down(y):
        return HEIGHT - BELOW - (scale(y) - lowest) / (highest - lowest) * (HEIGHT - ABOVE - BELOW)

    def text(x, y, words, anchor="middle", more=""):
        return f'<text x="{x:.1f}" y="{y:.1f}" text-anchor="{anchor}"{more}>{words}</text>'

    parts = [
        f'<svg xmlns="http://www.w3.org/2000/svg" width="{WIDTH}" height="{HEIGHT}" viewBox="0 0 {WIDTH} {HEIGHT}"'
        ' font-family="sans-serif" font-size="12" fill="#222">',
        f'<rect width="{WIDTH}" height="{HEIGHT}" fill="#fff"/>',
        text(LEFT, 22, title, "start", ' font-size="15" font-weight="bold"'),
        text((LEFT + WIDTH - RIGHT) / 2, HEIGHT - 14, x_label),
        text(18, (ABOVE + HEIGHT - BELOW) / 2, y_label, "middle", f' transform="rotate(-90 18 {(ABOVE + HEIGHT - BELOW) / 2})"'),
    ]
    for mark in marks:
        y = down(mark)
        parts.append(f'<line x1="{LEFT}" y1="{y:.1f}" x2="{WIDTH - RIGHT}" y2="{y:.1f}" stroke="#ddd"/>')
        parts.append(text(LEFT - 8, y + 4, f"{mark:,g}", "end"))
    for x in sorted({x for points in series.values() for x, _ in points}):
        parts.append(text(left(x), HEIGHT - BELOW + 18, f"{x:,}"))
    names = []
    for colour, (label, points) in zip(COLOURS, series.items()):
        places = " ".join(f"{left(x):.1f},{down(y):.1f}" for x, y in points)
        parts.append(f'<polyline points="{places}" fill="none" stroke="{colour}" stroke-width="2"/>')
        parts += [f'<circle cx="{left(x):.1f}" cy="{down(y):.1f}" r="3.5" fill="{colour}"/>' for x, y in points]
        names.append((down(points[-1][1]) + 4, label, colour))
    # The names stand behind the last points, at least a line apart.
    names.sort()
    for i in range(1, len(names)):
        if names[i][0] < names[i - 1][0] + 15:
            names[i] = (names[i - 1][0] + 15, *names[i][1:])
    parts += [text(WIDTH - RIGHT + 10, y, label, "start", f' fill="{colour}"') for y, label, colour in names]
    parts.append("</svg>\n")
    with open(os.path.join(DOCS, name), "w") as file:
        file.write("\n".join(parts))


def points(rows, x, y, by=1):
    return [(int(row[x]), float(row[y]) / by) for row in rows]


def draw(slots, lines):
    if slots:
        kinds = {kind: [row for row in slots if row["kind"] == kind] for kind in ("load", "map")}
        picture(
            "growth-slots.svg",
            "Time of a line over the number of mappings",
            "mappings of one page each, in powers of ten",
            "nanoseconds a line",
            {
                "mmap, ours": points(kinds["map"], "slots", "ours_ns"),
                "mmap, plain": points(kinds["map"], "slots", "plain_ns"),
                "load, ours": points(kinds["load"], "slots", "ours_ns"),
                "load, plain": points(kinds["load"], "slots", "plain_ns"),
            },
        )
    if lines:
        for name, title, unit, column, by in [
            ("growth-lines-memory.svg", "Most memory at once over the number of lines", "MiB, in powers of ten", "kib", 1024),
            ("growth-lines-time.svg", "Processor time over the number of lines", "milliseconds, in powers of ten", "ms", 1),
        ]:
            picture(
                name,
                title,
                "lines of the trace, in powers of ten",
                unit,
                {"ours": points(lines, "lines", f"ours_{column}", by), "plain": points(lines, "lines", f"plain_{column}", by)},
                in_powers=True,
            )


def main():
    shapes = read_rows("shapes.csv")
    counted = {row["shape"]: (row["ratio"], row["steps"]) for row in read_rows("instructions.csv")}
    slots, lines = read_rows("growth-slots.csv"), read_rows("growth-lines.csv")
    if shapes:
        put_table("docs/SPEED.md", "shapes", shapes_table(shapes, counted))
    for name, rows, make in [
        ("slots", slots, slots_table),
        ("lines", lines, lines_table),
        ("rest", read_rows("growth-rest.csv"), rest_table),
    ]:
        if rows:
            put_table("docs/SPEED.md", name, make(rows))
    draw(slots, lines)


main()
