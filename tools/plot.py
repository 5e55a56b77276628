#!/usr/bin/env python3
"""The benchmark's rows as plots: plot.py ROWS FOLDER [OPERATION] writes FOLDER/OPERATION-by-n0.svg and FOLDER/OPERATION-by-tk.svg.

A row is a line "n0 VALUE PROVED_US RUST_US" or "tk VALUE PROVED_US RUST_US": the time of a call in microseconds, in the archive and in Rust, for
sheets that differ in n0 or in t times k. Both axes are logarithmic, so that equal ratios are equal distances. The operation is verify unless another
is named; empty lines and lines that begin with # are left out.
"""

import math
import sys
from html import escape
from pathlib import Path

KINDS = {
    "n0": "n0, the size of domain 0",
    "tk": "t·k, the table words that a round's coins use",
}

WIDTH, HEIGHT = 720, 460
LEFT, RIGHT, TOP, BOTTOM = 76, 696, 56, 396  # the frame of the plot

# Name, colour, dashes, and whether the points are round: the series differ without colour too.
SERIES = [("proved", "#1f5fa8", "none", True), ("Rust", "#c8541a", "7 4", False)]


def read(text):
    """The rows of each kind, by value: (value, proved, rust)."""
    rows = {kind: [] for kind in KINDS}
    for number, line in enumerate(text.splitlines(), 1):
        words = line.split()
        if not words or words[0].startswith("#"):
            continue
        try:
            kind, *numbers = words
            value, proved, rust = (float(word) for word in numbers)
            if min(value, proved, rust) <= 0:
                raise ValueError
            rows[kind].append((value, proved, rust))
        except (ValueError, KeyError):
            sys.exit(f"line {number} is no row: {line}")
    return {kind: sorted(found) for kind, found in rows.items() if found}


def powers_of_two(least, most):
    """The powers of two that hold the range, every second one where they are many."""
    first, last = math.floor(math.log2(least)), math.ceil(math.log2(most))
    step = 1 if last - first <= 9 else 2
    return [2.0**e for e in range(first, max(last, first + 1) + step, step)]


def round_numbers(least, most):
    """1, 2 and 5 times powers of ten that hold the range; powers of ten alone where it is wide."""
    exponents = range(math.floor(math.log10(least)), math.ceil(math.log10(most)) + 1)
    factors = (1, 2, 5) if math.log10(most / least) <= 3.5 else (1,)
    ticks = [factor * 10.0**e for e in exponents for factor in factors]
    first = max(i for i, tick in enumerate(ticks) if tick <= least)
    last = min(i for i, tick in enumerate(ticks) if tick >= most)
    return ticks[first : max(last, first + 1) + 1]


def scale(ticks, start, end):
    """From a number to a place between start and end, by its logarithm."""
    low, high = math.log(ticks[0]), math.log(ticks[-1])
    return lambda number: start + (end - start) * (math.log(number) - low) / (high - low)


def shown(number):
    return f"{number:,.0f}" if number >= 1 else f"{number:g}"


def text(x, y, words, **more):
    attributes = "".join(f' {name.replace("_", "-")}="{value}"' for name, value in more.items())
    return f'<text x="{x:.1f}" y="{y:.1f}"{attributes}>{escape(words)}</text>'


def marker(x, y, colour, is_round, title=""):
    inside = f"<title>{escape(title)}</title>" if title else ""
    if is_round:
        return f'<circle cx="{x:.1f}" cy="{y:.1f}" r="4" fill="{colour}">{inside}</circle>'
    return f'<rect x="{x - 4:.1f}" y="{y - 4:.1f}" width="8" height="8" fill="{colour}">{inside}</rect>'


def line(x1, y1, x2, y2, colour, **more):
    attributes = "".join(f' {name.replace("_", "-")}="{value}"' for name, value in more.items())
    return f'<line x1="{x1:.1f}" y1="{y1:.1f}" x2="{x2:.1f}" y2="{y2:.1f}" stroke="{colour}"{attributes}/>'


def plot(operation, kind, rows):
    """One plot as the text of an SVG file."""
    times = [time for row in rows for time in row[1:]]
    x_ticks = powers_of_two(rows[0][0], rows[-1][0])
    y_ticks = round_numbers(min(times), max(times))
    x_place, y_place = scale(x_ticks, LEFT, RIGHT), scale(y_ticks, BOTTOM, TOP)
    middle = (LEFT + RIGHT) / 2

    parts = [text(LEFT, 38, f"{operation}: time of a call", font_size=17)]
    for tick in x_ticks:
        parts.append(line(x_place(tick), TOP, x_place(tick), BOTTOM, "#e4e4e4"))
        parts.append(text(x_place(tick), BOTTOM + 22, shown(tick), text_anchor="middle"))
    for tick in y_ticks:
        parts.append(line(LEFT, y_place(tick), RIGHT, y_place(tick), "#e4e4e4"))
        parts.append(text(LEFT - 8, y_place(tick) + 4.5, shown(tick), text_anchor="end"))
    frame = f'<rect x="{LEFT}" y="{TOP}" width="{RIGHT - LEFT}" height="{BOTTOM - TOP}" fill="none" stroke="#444"/>'
    parts.append(frame)
    parts.append(text(middle, BOTTOM + 46, KINDS[kind], text_anchor="middle"))
    up = (TOP + BOTTOM) / 2
    parts.append(text(22, up, "microseconds", text_anchor="middle", transform=f"rotate(-90 22 {up:.1f})"))

    for index, (name, colour, dashes, is_round) in enumerate(SERIES):
        points = [(x_place(row[0]), y_place(row[1 + index]), row) for row in rows]
        path = " ".join(f"{x:.1f},{y:.1f}" for x, y, _ in points)
        parts.append(f'<polyline points="{path}" fill="none" stroke="{colour}" stroke-width="2" stroke-dasharray="{dashes}"/>')
        for x, y, row in points:
            parts.append(marker(x, y, colour, is_round, f"{name}, {kind} = {shown(row[0])}: {row[1 + index]:g} µs"))

    # The legend stands above the frame, where no line can run into it.
    for index, (name, colour, dashes, is_round) in enumerate(SERIES):
        x, y = RIGHT - 112 * (len(SERIES) - index), 33
        parts.append(line(x, y, x + 40, y, colour, stroke_width=2, stroke_dasharray=dashes))
        parts.append(marker(x + 20, y, colour, is_round))
        parts.append(text(x + 48, y + 4.5, name))

    head = f'<svg xmlns="http://www.w3.org/2000/svg" viewBox="0 0 {WIDTH} {HEIGHT}" width="{WIDTH}" height="{HEIGHT}"'
    style = 'font-family="DejaVu Sans, Verdana, sans-serif" font-size="13" fill="#222"'
    return "\n".join([f"{head} {style}>", f'<rect width="{WIDTH}" height="{HEIGHT}" fill="#fff"/>', *parts, "</svg>", ""])


def main():
    if len(sys.argv) not in (3, 4):
        sys.exit("plot.py ROWS FOLDER [OPERATION]")
    rows = read(Path(sys.argv[1]).read_text(encoding="utf-8"))
    if not rows:
        sys.exit("there are no rows")
    folder = Path(sys.argv[2])
    operation = sys.argv[3] if len(sys.argv) == 4 else "verify"
    for kind, found in rows.items():
        path = folder / f"{operation}-by-{kind}.svg"
        path.write_text(plot(operation, kind, found), encoding="utf-8")
        print(path)


if __name__ == "__main__":
    main()
