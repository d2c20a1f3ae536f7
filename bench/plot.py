#!/usr/bin/env python3
"""Draws a table of numbers: for each row a bar for each column, in one SVG without scripts or fonts of its own.

Usage: bench/plot.py PAGE HEADING FILE [--mark NUMBER] COLUMN ..
It draws these columns of the first table under the heading of the page, so that a picture above a table has its figures. The scripts draw what
they measured with their own option, --plot FILE.
"""
import re
import sys
from xml.sax.saxutils import escape

_LEFT, _WIDTH, _BAR, _GAP, _TOP = 170, 460, 11, 12, 64
_COLOURS = ("#2f6f9f", "#d98c2b", "#7a9a3a", "#9a4f7a")


def bars(path, title, columns, rows, mark=None):
    """Writes the picture: `rows` are pairs of a name and a number for each of the columns, None where there is none.

    `mark` is a number at which a line stands, as 1 in a picture of ratios.
    """
    most = max([value for _, values in rows for value in values if value is not None] + [mark or 0])
    scale = _WIDTH / most if most else 0
    parts, y = [], _TOP
    for name, values in rows:
        middle = y + len(columns) * _BAR / 2 + 4
        parts.append(f'<text x="{_LEFT - 8}" y="{middle:.0f}" text-anchor="end">{escape(name)}</text>')
        for value, colour in zip(values, _COLOURS):
            if value is not None:
                parts.append(f'<rect x="{_LEFT}" y="{y}" width="{max(1, value * scale):.1f}" height="{_BAR - 1}" fill="{colour}"/>')
                parts.append(f'<text x="{_LEFT + value * scale + 5:.0f}" y="{y + _BAR - 2}" class="number">{_short(value)}</text>')
            y += _BAR
        y += _GAP
    if mark is not None:
        parts.append(f'<line x1="{_LEFT + mark * scale:.1f}" x2="{_LEFT + mark * scale:.1f}" y1="{_TOP - 6}" y2="{y - _GAP + 6}" stroke="#555" stroke-dasharray="4 3"/>')
    x = _LEFT
    for column, colour in zip(columns, _COLOURS):
        parts.append(f'<rect x="{x}" y="36" width="10" height="10" fill="{colour}"/><text x="{x + 15}" y="45">{escape(column)}</text>')
        x += 30 + 7 * len(column)
    width = max(_LEFT + _WIDTH + 60, x)
    with open(path, "w", encoding="utf-8") as file:
        file.write(f'<svg xmlns="http://www.w3.org/2000/svg" viewBox="0 0 {width} {y}" width="{width}" height="{y}" role="img">\n'
                   f"<title>{escape(title)}</title>\n"
                   "<style>text{font:12px sans-serif;fill:#222}.number{font-size:10px}.title{font-weight:bold;font-size:14px}</style>\n"
                   f'<rect width="{width}" height="{y}" fill="#fff"/><text x="12" y="20" class="title">{escape(title)}</text>\n'
                   + "\n".join(parts) + "\n</svg>\n")


def _short(value):
    return f"{value:.2f}" if value < 10 else f"{value:.0f}"


def table_under(heading, page):
    """The cells of the first table under a heading, row by row, the names of the columns first."""
    with open(page, encoding="utf-8") as file:
        section = re.split(r"(?m)^#+ ", file.read().split(f"# {heading}\n", 1)[1])[0]
    rows = [[cell.strip() for cell in line.strip("|").split("|")] for line in section.splitlines() if line.startswith("|")]
    return [row for row in rows if not set("".join(row)) <= set("-: ")]


def number_in(cell):
    return float(cell.replace(",", "")) if cell else None


def main():
    words = sys.argv[1:]
    mark = None
    if "--mark" in words:
        at = words.index("--mark")
        mark = float(words[at + 1])
        del words[at:at + 2]
    if len(words) < 4:
        sys.exit(__doc__)
    page, heading, path, *columns = words
    head, *rows = table_under(heading, page)
    places = [head.index(column) for column in columns]
    bars(path, heading, columns, [(row[0].split(":")[0], [number_in(row[place]) for place in places]) for row in rows], mark)


if __name__ == "__main__":
    main()
