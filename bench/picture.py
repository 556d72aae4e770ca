"""Draws the table of bench/run as bars: for each row the speed of ours to OpenSSL's and to portable C's.

    python3 bench/picture.py docs/PERFORMANCE.md > docs/performance.svg

The file named is any that has the table in it, so that the picture has the figures that are read beside it, and no others.
"""

import math
import re
import sys
from itertools import groupby

WIDTH, LEFT, RIGHT, TOP = 960, 300, 70, 112  # pixels: of all, beside the bars at either side, and above them
BAR, ROW_GAP, GROUP_GAP = 11, 4, 12
FOOT = 30
COMPARED = (("OpenSSL's speed", "#0072b2"), ("portable C's speed", "#e69f00"))
INK, FAINT, SLOWER = "#222222", "#d8d8d8", "#b00020"
HALO = {"stroke": "#ffffff", "stroke_width": 3, "paint_order": "stroke"}  # keeps the lines behind a figure from crossing it


def table(text):
    """(name, size, ratios) of each row of the table, a ratio None where there is nothing to compare with."""
    figure = r"(?:\d+\.\d+|-)"
    rows = re.findall(rf"^(\S.*?) +([\d,]+) +[\d,]+ +[\d,]+ +({figure}) +{figure} +({figure}) +{figure} +{figure}$", text, re.MULTILINE)
    return [(name, size, [None if ratio == "-" else float(ratio) for ratio in ratios]) for name, size, *ratios in rows]


def words(x, y, said, **attributes):
    marks = "".join(f' {name.replace("_", "-")}="{value}"' for name, value in attributes.items())
    return f'<text x="{x:.1f}" y="{y:.1f}"{marks}>{said}</text>'


def box(x, y, width, height, fill):
    """Not quite opaque, so that the lines behind a bar are seen through it."""
    return f'<rect x="{x:.1f}" y="{y:.1f}" width="{width:.1f}" height="{height:.1f}" fill="{fill}" fill-opacity="0.85"/>'


def bars(y, ratios, scale):
    """The bars of a row, from y downwards, each with its figure behind it."""
    for ratio, (_, colour) in zip(ratios, COMPARED):
        if ratio is None:
            continue
        yield box(LEFT, y, ratio * scale, BAR - 1, colour)
        at = LEFT + ratio * scale + 5
        yield words(at, y + BAR - 2, f"{ratio:.3f}", font_size=10, fill=INK if ratio >= 1 else SLOWER, **HALO)
        y += BAR


def drawn(rows, scale):
    """The groups of rows from the top down, and where they end."""
    parts, y = [], TOP
    for name, group in groupby(rows, key=lambda row: row[0]):
        parts.append(words(16, y + BAR, name, font_weight="bold"))
        for _, size, ratios in group:
            height = BAR * sum(ratio is not None for ratio in ratios)
            parts.append(words(LEFT - 10, y + height / 2 + 4, size, text_anchor="end"))
            parts.extend(bars(y, ratios, scale))
            y += height + ROW_GAP
        y += GROUP_GAP
    return parts, y


def grid(quarters, scale, end):
    """A faint line at each quarter, and a strong one where both are as fast."""
    for quarter in range(quarters + 1):
        ratio, x = quarter / 4, LEFT + quarter / 4 * scale
        colour, width = (INK, 1.5) if ratio == 1 else (FAINT, 1)
        yield f'<line x1="{x:.1f}" y1="{TOP - 8}" x2="{x:.1f}" y2="{end}" stroke="{colour}" stroke-width="{width}"/>'
        for y in (TOP - 14, end + 16):
            yield words(x, y, f"{ratio:.2f}", text_anchor="middle", font_size=11, **({"font_weight": "bold"} if ratio == 1 else {}))


def heading():
    yield words(16, 28, "Hailfeather's speed beside OpenSSL's and portable C's", font_size=18, font_weight="bold")
    yield words(16, 50, "Beyond the line at 1.00 ours is the faster. The table of docs/PERFORMANCE.md, which says what is measured.")
    for i, (name, colour) in enumerate(COMPARED):
        yield box(LEFT + 170 * i, 66, 10, 10, colour)
        yield words(LEFT + 170 * i + 16, 75, f"to {name}")


def picture(rows):
    quarters = math.ceil(4 * max(ratio for _, _, ratios in rows for ratio in ratios if ratio is not None))
    scale = (WIDTH - LEFT - RIGHT) / quarters * 4
    parts, end = drawn(rows, scale)
    return "\n".join([
        f'<svg xmlns="http://www.w3.org/2000/svg" width="{WIDTH}" height="{end + FOOT}" viewBox="0 0 {WIDTH} {end + FOOT}"'
        f' font-family="sans-serif" font-size="12" fill="{INK}">',
        '<rect width="100%" height="100%" fill="#ffffff"/>', *heading(), *grid(quarters, scale, end), *parts, "</svg>",
    ])


def main(path):
    with open(path, encoding="utf-8") as file:
        rows = table(file.read())
    if not rows:
        sys.exit(f"{path} has no table of bench/run in it")
    print(picture(rows))


if __name__ == "__main__":
    main(sys.argv[1])
